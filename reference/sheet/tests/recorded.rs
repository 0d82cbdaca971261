//! What the Rust does against the standard or against expectation, each with
//! its smallest sheet. docs/DIFFERENCES.md lists them.

mod common;

use common::{lines, listing, sheet, sheet_on};
use copy_sheet::{parse, record_copy, Objects, Recorder};

fn check(textures: &[&str], buffers: &[&str], copy: &str, expected: &[&str]) {
    let text = sheet(textures, buffers, &[copy]);
    assert_eq!(listing(&text), lines(expected), "{text}");
}

/// All the layers are said to be filled; the one region writes the first.
#[test]
fn volume_into_layers() {
    check(
        &["0 3 1 1 2 1 1 1", "0 2 1 1 2 1 1 2"],
        &[],
        "4 0 0 0 0 0 0 1 0 0 0 0 0 1 1 2",
        &[
            "copy 0 ok 1 2 0",
            "t 0 0 0 1 1",
            "t 1 0 0 2 0",
            "r 0 0 0 0 0 1 0 0 0 0 0 1 1 1 1",
        ],
    );
}

/// The regions name layers that a volume has not, all at one depth.
#[test]
fn layers_into_volume() {
    check(
        &["0 2 1 1 2 1 1 1", "0 3 1 1 2 1 1 2"],
        &[],
        "4 0 0 0 0 0 0 1 0 0 0 0 0 1 1 2",
        &[
            "copy 0 ok 2 2 0",
            "t 0 0 0 2 1",
            "t 1 0 0 1 0",
            "r 0 0 0 0 0 1 0 0 0 0 0 1 1 1 1",
            "r 0 1 0 0 0 1 0 1 0 0 0 1 1 1 1",
        ],
    );
}

#[test]
fn volume_onto_itself() {
    check(
        &["0 3 1 1 2 1 1 3"],
        &[],
        "4 0 0 0 0 0 0 0 0 0 0 1 0 1 1 1",
        &[
            "copy 0 ok 1 2 0",
            "t 0 0 0 1 1",
            "t 0 0 0 1 1",
            "r 0 0 0 0 0 1 0 0 0 0 1 1 1 1 1",
        ],
    );
    check(
        &["0 3 1 1 3 1 1 3"],
        &[],
        "4 0 0 0 0 0 0 0 0 0 0 1 0 1 1 2",
        &[
            "copy 0 ok 1 2 0",
            "t 0 0 0 1 1",
            "t 0 0 0 1 1",
            "r 0 0 0 0 0 1 0 0 0 0 1 1 1 1 2",
        ],
    );
}

#[test]
fn line_onto_itself() {
    check(
        &["0 1 1 1 1 1 1 3"],
        &[],
        "4 0 0 0 0 0 0 0 0 0 0 1 0 1 1 0",
        &["copy 0 ok 0 0 0"],
    );
}

/// Plane 1 is one texel wide; the box of two is held to the luma width.
#[test]
fn chroma_box_past_its_plane() {
    check(
        &["21 2 2 2 1 1 1 1"],
        &["4 8"],
        "3 0 0 - - 0 0 0 0 0 4 2 1 1",
        &[
            "copy 0 ok 1 2 4",
            "t 0 0 0 1 1",
            "b 0 0 4 0",
            "r 0 - - 0 0 0 0 0 16 2 1 1",
        ],
    );
}

#[test]
fn odd_copies_between_planes() {
    check(
        &["21 2 2 2 1 1 1 1", "21 2 2 2 1 1 1 2"],
        &[],
        "4 0 0 0 0 0 0 1 0 0 0 0 0 1 1 1",
        &[
            "copy 0 ok 2 2 0",
            "t 0 0 0 1 1",
            "t 1 0 0 1 1",
            "r 0 0 0 0 0 8 0 0 0 0 0 8 1 1 1",
            "r 0 0 0 0 0 16 0 0 0 0 0 16 0 0 1",
        ],
    );
    check(
        &["21 2 4 2 1 1 1 1", "21 2 4 2 1 1 1 2"],
        &[],
        "4 0 0 1 0 0 0 1 0 0 0 0 0 2 2 1",
        &[
            "copy 0 ok 2 2 0",
            "t 0 0 0 1 1",
            "t 1 0 0 1 1",
            "r 0 0 1 0 0 8 0 0 0 0 0 8 2 2 1",
            "r 0 0 0 0 0 16 0 0 0 0 0 16 1 1 1",
        ],
    );
}

#[test]
fn some_layers_of_a_stencil_texture() {
    check(
        &["15 2 1 1 2 1 1 1"],
        &["1 8"],
        "3 0 0 - - 0 0 0 0 1 0 1 1 1",
        &[
            "copy 0 ok 1 2 1",
            "t 0 0 1 2 1",
            "b 0 0 4 1",
            "r 0 - - 0 1 0 0 0 4 1 1 1",
        ],
    );
}

#[test]
fn no_layer_of_a_stencil_texture() {
    check(
        &["15 2 1 1 2 1 1 3"],
        &["0 8"],
        "3 0 0 - - 0 0 0 0 0 0 1 1 0",
        &["copy 0 ok 0 0 0"],
    );
}

/// The standard has neither 01's bounds nor wgpu's facts, and does not look at
/// the aspect of a color format in a copy with a buffer.
#[test]
fn refused_beyond_the_standard() {
    let refused = |device, textures: &[&str], buffers: &[&str], copy, expected| {
        let text = sheet_on(device, textures, buffers, &[copy]);
        assert_eq!(listing(&text), lines(&[expected]), "{text}");
    };
    let buffers = "1 0 0 1 0 4";
    refused(
        "1 1",
        &[],
        &["268435457 4", "4 8"],
        buffers,
        "copy 0 refused 3 1 0 0 0 0",
    );
    refused(
        "1 0",
        &[],
        &["4 20", "4 40"],
        buffers,
        "copy 0 refused 34 0 0 0 0 0",
    );
    let texel = "3 0 0 - - 0 0 0 0 0 0 1 1 1";
    refused(
        "1 1",
        &["0 2 8193 1 1 1 1 3"],
        &["1 8"],
        texel,
        "copy 0 refused 2 1 0 0 0 0",
    );
    refused(
        "0 1",
        &["16 2 1 1 1 1 1 3"],
        &["2 8"],
        texel,
        "copy 0 refused 34 0 0 0 0 0",
    );
    refused(
        "0 1",
        &["16 2 1 1 1 1 1 3"],
        &[],
        "5 2 0 - - 0 0 0 0 0 0 1 1 1",
        "copy 0 refused 34 0 0 0 0 0",
    );
    let lacking = "3 0 0 - - 0 0 0 0 0 2 1 1 1";
    refused(
        "1 1",
        &["0 2 1 1 1 1 1 3"],
        &["1 8"],
        lacking,
        "copy 0 refused 12 0 0 0 0 0",
    );
}

/// Nothing is copied, yet the strides of the images ask for 256 bytes.
#[test]
fn bytes_of_an_empty_copy() {
    let copy = "2 0 0 256 1 0 0 0 0 0 0 1 0 2";
    let texture = ["0 2 1 1 2 1 1 2"];
    check(&texture, &["256 4"], copy, &["copy 0 ok 0 0 256"]);
    check(
        &texture,
        &["255 4"],
        copy,
        &["copy 0 refused 8 1 0 0 256 255"],
    );
}

/// The whole level is written, yet it is to be cleared before: the aspect is
/// named, or the level's blocks reach past its logical size.
#[test]
fn whole_levels_cleared_first() {
    check(
        &["16 2 1 1 1 1 1 2"],
        &["2 4"],
        "2 0 0 - - 0 0 0 0 0 2 1 1 1",
        &[
            "copy 0 ok 1 2 2",
            "t 0 0 0 1 1",
            "b 0 0 4 1",
            "r 0 - - 0 0 0 0 0 2 1 1 1",
        ],
    );
    check(
        &["11 2 4 4 1 2 1 2"],
        &["8 4"],
        "2 0 0 - - 0 1 0 0 0 0 4 4 1",
        &[
            "copy 0 ok 1 2 8",
            "t 0 1 0 1 1",
            "b 0 0 8 1",
            "r 0 - - 1 0 0 0 0 1 4 4 1",
        ],
    );
}

/// `Queue::write_texture` asks for the usage before the range, and says 6: that is
/// held in `agreement.rs`.
#[test]
fn range_before_usage() {
    check(
        &["0 2 1 1 1 1 1 1"],
        &[],
        "5 1 0 - - 0 1 0 0 0 0 1 1 1",
        &["copy 0 refused 13 0 0 1 0 1"],
    );
}

/// The Rust wraps the end to 32 bits and says 0; the listing has the sum.
#[test]
fn end_past_32_bits() {
    let texture = ["0 2 1 1 1 1 1 2"];
    let copy = "5 0 0 - - 0 0 4294967295 0 0 0 1 1 1";
    check(
        &texture,
        &[],
        copy,
        &["copy 0 refused 9 2 1 4294967295 4294967296 1"],
    );
    let sheet = parse(sheet(&texture, &[], &[copy]).as_bytes()).expect("a good sheet");
    let (mut recorder, mut objects) = (Recorder::new(), Objects::new(&sheet));
    let recorded = record_copy(&mut recorder, &mut objects, &sheet.copies[0]);
    let refusal = recorded.expect_err("the copy is refused");
    assert_eq!(refusal.numbers(), [9, 2, 1, 4_294_967_295, 0, 1]);
}
