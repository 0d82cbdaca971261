//! Listings of job sheets.

mod common;

use common::*;
use copy_planner::{list_sheet, list_sheet_into};

fn text(listing: Vec<u8>) -> String {
    String::from_utf8(listing).expect("a listing is plain text")
}

#[test]
fn scope_sheet() {
    assert_eq!(text(list_sheet(SCOPE_SHEET.as_bytes())), SCOPE_LISTING);
}

#[test]
fn ill_sheets() {
    let listing = |sheet: &str| text(list_sheet(sheet.as_bytes()));
    assert_eq!(listing(""), "sheet 1\n");
    assert_eq!(listing("1\n1 1\n0\n0\n257\n"), "sheet 5\n");
    assert_eq!(listing(SCOPE_SHEET.trim_end()), "sheet 8\n");
    assert_eq!(listing(&format!("{SCOPE_SHEET}1\n")), "sheet 9\n");
    assert_eq!(listing(&SCOPE_SHEET.replace("1 1", "01 1")), "sheet 2\n");
    assert_eq!(listing(&"1".repeat(65_537)), "sheet 0\n");
}

#[test]
fn no_copies() {
    assert_eq!(list_sheet(b"1\n1 1\n0\n0\n0\n"), b"");
}

/// An index past its section is found in a sheet only.
#[test]
fn an_index_past_its_section() {
    let sheet = SCOPE_SHEET.replace("\n2 0 0 256", "\n2 1 0 256");
    assert_eq!(
        text(list_sheet(sheet.as_bytes())),
        "copy 0 refused 1 0 0 0 0 0\n"
    );
}

/// A write from memory has a length of 64 bits where other copies name a buffer.
#[test]
fn writes_from_memory() {
    let listing = |copy: &str| {
        let sheet = format!("1\n1 1\n1\n0 2 1 1 1 1 1 2\n0\n1\n{copy}\n");
        text(list_sheet(sheet.as_bytes()))
    };
    assert_eq!(
        listing("5 18446744073709551615 3 - - 0 0 0 0 0 0 1 1 1"),
        "copy 0 ok 1 1 1\nt 0 0 0 1 0\nr 3 - - 0 0 0 0 0 1 1 1 1\n"
    );
    assert_eq!(
        listing("5 1 0 - - 1 0 0 0 0 0 1 1 1"),
        "copy 0 refused 1 0 0 0 0 0\n"
    );
    for ill in [
        "5 - 0 - - 0 0 0 0 0 0 1 1 1",
        "5 18446744073709551616 0 - - 0 0 0 0 0 0 1 1 1",
        "5 1 0 - - 0 0 0 0 0 6 1 1 1",
        "5 1 0 - - 0 0 0 0 0 0 1 1",
        "6 1 0 - - 0 0 0 0 0 0 1 1 1",
    ] {
        assert_eq!(listing(ill), "sheet 7\n", "{ill}");
    }
}

/// Start and size have 32 bits, and their sum may have one more.
#[test]
fn ends_past_32_bits() {
    let sheet = "\
1
1 1
2
0 2 8 4 2 1 1 3
16 2 8 4 1 1 1 3
1
64 12
6
2 0 0 - - 0 0 4294967295 0 0 0 2 1 1
3 0 0 - - 0 0 0 4294967295 0 0 1 4294967295 1
4 0 0 0 0 4294967295 0 0 0 0 0 0 0 1 1 1
4 0 0 0 0 0 0 0 0 4294967295 0 0 0 2 1 1
5 64 0 - - 0 0 0 0 2 0 1 1 4294967295
5 64 0 - - 1 0 4294967295 0 0 0 8 4 1
";
    let listing = "\
copy 0 refused 9 2 1 4294967295 4294967297 8
copy 1 refused 9 1 2 4294967295 8589934590 4
copy 2 refused 9 1 3 4294967295 4294967296 2
copy 3 refused 9 2 1 4294967295 4294967297 8
copy 4 refused 9 2 3 2 4294967297 2
copy 5 refused 10 2 1 4294967295 4294967303 8
";
    assert_eq!(text(list_sheet(sheet.as_bytes())), listing);
}

/// A listing many times as long as its sheet.
#[test]
fn a_long_listing() {
    let copy = "2 0 0 256 8 0 0 0 0 0 0 8 8 256\n";
    let head = "1\n1 1\n1\n2 2 8 8 256 1 1 3\n1\n1048576 12\n256\n";
    let listing = text(list_sheet(format!("{head}{}", copy.repeat(256)).as_bytes()));
    assert_eq!(listing.matches("copy ").count(), 256);
    assert_eq!(listing.matches("\nr ").count(), 256 * 256);
    assert!(listing.ends_with("\nr 522240 256 8 0 255 0 0 0 1 8 8 1\n"));
}

/// A slice of any length holds the listing's beginning, and keeps what lies after it.
#[test]
fn listings_in_short_slices() {
    let whole = SCOPE_LISTING.as_bytes();
    for room in 0..=whole.len() + 2 {
        let mut out = vec![b'#'; room];
        assert_eq!(
            list_sheet_into(SCOPE_SHEET.as_bytes(), &mut out),
            whole.len()
        );
        let put = room.min(whole.len());
        assert_eq!(out[..put], whole[..put], "room for {room}");
        assert!(
            out[put..].iter().all(|byte| *byte == b'#'),
            "room for {room}"
        );
    }
}
