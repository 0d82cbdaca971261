//! The grammar of the job sheet, and the checks that come before the Rust's.

mod common;

use common::{lines, listing, sheet, sheet_on};

/// The scope document's sheet, line by line.
const SHEET: [&str; 8] = [
    "1",
    "1 1",
    "1",
    "2 2 8 8 2 1 1 3",
    "1",
    "4096 12",
    "1",
    "2 0 0 256 8 0 0 0 0 0 0 8 8 2",
];

/// The sheet with one line (from 1) replaced.
fn with_line(number: usize, line: &str) -> String {
    let mut sheet = SHEET;
    sheet[number - 1] = line;
    lines(&sheet)
}

fn assert_ill(text: impl AsRef<[u8]>, number: u32) {
    let text = text.as_ref();
    assert_eq!(
        listing(text),
        format!("sheet {number}\n"),
        "{}",
        String::from_utf8_lossy(text)
    );
}

#[test]
fn missing_and_extra_lines() {
    assert_ill("", 1);
    for count in 0..SHEET.len() {
        assert_ill(lines(&SHEET[..count]), count as u32 + 1);
    }
    let whole = lines(&SHEET);
    for extra in ["\n", " ", "x", "1\n", "\0"] {
        assert_ill(whole.clone() + extra, 9);
    }
}

#[test]
fn cut_anywhere() {
    let whole = lines(&SHEET);
    for length in 0..whole.len() {
        let newlines = whole[..length].matches('\n').count();
        assert_ill(&whole[..length], newlines as u32 + 1);
    }
}

#[test]
fn ill_lines_by_section() {
    for (number, line) in [
        (1, "0"),
        (1, "2"),
        (1, ""),
        (1, "1 "),
        (2, "1"),
        (2, "1 1 1"),
        (2, "2 1"),
        (2, "1 2"),
        (2, "- 1"),
        (3, "65"),
        (3, "-"),
        (3, "4294967297"),
        (4, "2 2 8 8 2 1 1"),
        (4, "2 2 8 8 2 1 1 3 0"),
        (4, "2 2 8 8 2 1 1 4294967296"),
        (4, "2 2 8 8 2 1 1 -"),
        (5, "65"),
        (6, "18446744073709551616 12"),
        (6, "4096 4294967296"),
        (6, "- 12"),
        (7, "257"),
        (8, "0 0 0 256 8 0 0 0 0 0 0 8 8 2"),
        (8, "6 0 0 256 8 0 0 0 0 0 0 8 8 2"),
        (8, "- 0 0 256 8 0 0 0 0 0 0 8 8 2"),
        (8, "2 0 0 256 8 0 0 0 0 0 0 8 8"),
        (8, "2 0 0 256 8 0 0 0 0 0 0 8 8 2 1"),
        (8, "2 - 0 256 8 0 0 0 0 0 0 8 8 2"),
        (8, "2 0 - 256 8 0 0 0 0 0 0 8 8 2"),
        (8, "2 0 18446744073709551616 256 8 0 0 0 0 0 0 8 8 2"),
        (8, "2 0 0 4294967296 8 0 0 0 0 0 0 8 8 2"),
        (8, "2 0 0 256 4294967296 0 0 0 0 0 0 8 8 2"),
        (8, "2 0 0 256 8 4294967296 0 0 0 0 0 8 8 2"),
        (8, "2 0 0 256 8 0 0 0 0 0 6 8 8 2"),
        (8, "2 0 0 256 8 0 0 0 0 0 0 8 8 4294967296"),
        (8, "2 0 0 256 8 0 0 0 0 0 0 8 8 -"),
        (8, "4 0 0 0 0 0 0 0 0 0 0 1 6 4 4 2"),
        (8, "4 0 0 0 0 0 6 0 0 0 0 1 0 4 4 2"),
        (8, "5 3872 0 256 8 0 0 0 0 0 0 8 8"),
        (8, "5 3872 0 256 8 0 0 0 0 0 0 8 8 2 1"),
        (8, "5 - 0 256 8 0 0 0 0 0 0 8 8 2"),
        (8, "5 18446744073709551616 0 256 8 0 0 0 0 0 0 8 8 2"),
        (8, "5 3872 - 256 8 0 0 0 0 0 0 8 8 2"),
        (8, "5 3872 18446744073709551616 256 8 0 0 0 0 0 0 8 8 2"),
        (8, "5 3872 0 4294967296 8 0 0 0 0 0 0 8 8 2"),
        (8, "5 3872 0 256 4294967296 0 0 0 0 0 0 8 8 2"),
        (8, "5 3872 0 256 8 4294967296 0 0 0 0 0 8 8 2"),
        (8, "5 3872 0 256 8 0 0 0 0 0 6 8 8 2"),
        (8, "5 3872 0 256 8 0 0 0 0 0 0 8 8 -"),
        (8, "1 0 0 1 0"),
        (8, "1 0 0 1 0 18446744073709551616"),
    ] {
        assert_ill(with_line(number, line), number as u32);
    }
}

#[test]
fn ill_fields() {
    for line in [
        "01 1", "1 01", "1 00", "+1 1", "1 -1", "1  1", " 1 1", "1 1 ", "1\t1", "1 1\r", "1 1\0",
        "a 1", "1 0x1", "1. 1",
    ] {
        assert_ill(with_line(2, line), 2);
    }
}

#[test]
fn widest_fields() {
    let wide = "2 4294967295 18446744073709551615 4294967295 4294967295 4294967295 \
                4294967295 4294967295 4294967295 4294967295 5 4294967295 4294967295 4294967295";
    assert_eq!(listing(with_line(8, wide)), "copy 0 refused 1 0 0 0 0 0\n");
    let wider = wide.replacen("2 4294967295", "5 18446744073709551615", 1);
    assert_eq!(
        listing(with_line(8, &wider)),
        "copy 0 refused 1 0 0 0 0 0\n"
    );
}

/// The length is no index: there is no buffer that it could name.
#[test]
fn lengths_of_memory() {
    let textures = ["0 2 1 1 1 1 1 3"];
    for (length, expected) in [
        ("0", "refused 8 1 0 0 1 0"),
        ("1", "ok 1 1 1"),
        ("64", "ok 1 1 1"),
        ("4294967296", "ok 1 1 1"),
        ("18446744073709551615", "ok 1 1 1"),
    ] {
        let copy = format!("5 {length} 0 - - 0 0 0 0 0 0 1 1 1");
        let text = listing(sheet(&textures, &[], &[&copy]));
        assert!(text.starts_with(&format!("copy 0 {expected}\n")), "{text}");
    }
}

#[test]
fn too_long() {
    let ill = "x".repeat(65_536);
    assert_ill(&ill, 1);
    assert_ill(ill + "x", 0);
    let mut whole = lines(&SHEET);
    whole += &"\n".repeat(65_536 - whole.len());
    assert_ill(&whole, 9);
    assert_ill(whole + "\n", 0);
}

#[test]
fn most_lines() {
    let textures = ["2 2 8 8 2 1 1 3"; 64];
    let buffers = ["4096 12"; 64];
    let copies = ["2 63 0 256 8 63 0 0 0 0 0 8 8 1"; 256];
    let text = listing(sheet(&textures, &buffers, &copies));
    assert_eq!(text.matches("ok 1 2 1824").count(), 256);
    assert!(text.contains("copy 255 ok"));
}

#[test]
fn no_copies() {
    assert_eq!(listing(sheet(&[], &[], &[])), "");
}

#[test]
fn sizes_between_buffers() {
    let text = sheet(
        &[],
        &["16 4", "16 8"],
        &["1 0 4 1 0 -", "1 0 0 1 0 4294967296", "1 0 16 1 16 -"],
    );
    assert_eq!(
        listing(text),
        lines(&[
            "copy 0 ok 1 2 12",
            "b 1 0 12 0",
            "b 0 4 16 1",
            "r 4 0 12",
            "copy 1 refused 8 1 0 0 4294967296 16",
            "copy 2 ok 0 0 0",
        ])
    );
}

#[test]
fn indices_then_records_then_copies() {
    let text = sheet(
        &["22 2 8 8 1 1 1 3", "0 2 8 8 1 1 1 3"],
        &["16 1024", "16 12"],
        &[
            "1 0 0 2 0 0",
            "1 2 0 0 0 0",
            "1 0 0 0 0 0",
            "1 1 0 0 0 0",
            "1 1 0 1 0 0",
            "2 2 0 - - 0 0 0 0 0 0 1 1 1",
            "2 0 0 - - 0 0 0 0 0 0 1 1 1",
            "2 1 0 - - 0 9 0 0 0 0 1 1 1",
            "3 0 0 - - 2 0 0 0 0 0 1 1 1",
            "3 0 0 - - 0 0 0 0 0 0 1 1 1",
            "3 0 0 - - 1 9 0 0 0 0 1 1 1",
            "4 0 0 0 0 0 0 2 0 0 0 0 0 1 1 1",
            "4 0 0 0 0 0 0 0 0 0 0 0 0 1 1 1",
            "4 1 9 0 0 0 0 0 0 0 0 0 0 1 1 1",
            "5 0 0 - - 2 9 0 0 0 0 1 1 1",
            "5 2 0 - - 0 9 0 0 0 0 1 1 1",
            "5 2 0 - - 1 9 0 0 0 0 1 1 1",
        ],
    );
    assert_eq!(
        listing(text),
        lines(&[
            "copy 0 refused 1 0 0 0 0 0",
            "copy 1 refused 1 0 0 0 0 0",
            "copy 2 refused 3 1 0 0 0 0",
            "copy 3 refused 3 2 0 0 0 0",
            "copy 4 refused 4 0 0 0 0 0",
            "copy 5 refused 1 0 0 0 0 0",
            "copy 6 refused 3 1 0 0 0 0",
            "copy 7 refused 2 2 0 0 0 0",
            "copy 8 refused 1 0 0 0 0 0",
            "copy 9 refused 2 1 0 0 0 0",
            "copy 10 refused 3 2 0 0 0 0",
            "copy 11 refused 1 0 0 0 0 0",
            "copy 12 refused 2 1 0 0 0 0",
            "copy 13 refused 2 2 0 0 0 0",
            "copy 14 refused 1 0 0 0 0 0",
            "copy 15 refused 2 2 0 0 0 0",
            "copy 16 refused 13 0 0 9 0 1",
        ])
    );
}

#[test]
fn facts_of_the_device() {
    let textures = ["15 2 8 8 1 1 1 3"];
    let buffers = ["4096 28", "4096 40"];
    let copies = [
        "2 0 0 256 - 0 0 0 0 0 0 8 8 1",
        "1 0 0 1 0 4",
        "5 64 0 8 - 0 0 0 0 0 0 8 8 1",
    ];
    let refused = "refused 34 0 0 0 0 0";
    for (device, first, second) in [
        ("1 1", false, false),
        ("0 1", true, false),
        ("1 0", false, true),
        ("0 0", true, true),
    ] {
        let text = listing(sheet_on(device, &textures, &buffers, &copies));
        assert_eq!(text.contains(&format!("copy 0 {refused}")), first);
        assert_eq!(text.contains(&format!("copy 1 {refused}")), second);
        assert_eq!(text.contains(&format!("copy 2 {refused}")), first);
    }
}
