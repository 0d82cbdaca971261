//! The listing of a large sheet.

use std::hint::black_box;

use copy_planner::list_sheet_into;
use copy_sheet::write_listing;

use crate::race::{Race, Side};

/// As many records of each kind, and as many copies, as a sheet may have.
const RECORDS: usize = 64;
const COPIES: usize = 256;

/// A sheet whose copies have as many regions as a copy can have. A sheet of
/// accepted copies cannot be much longer: fields of more digits are refused.
pub fn large_sheet() -> Vec<u8> {
    let textures = (0..RECORDS).map(|k| format!("{} 2 8192 8192 256 14 1 3", [2, 20][k % 2]));
    let buffers = (0..RECORDS).map(|_| "268435456 12".to_owned());
    let copies = (0..COPIES).map(|k| {
        let (color, depth) = (k / 4 * 2 % RECORDS, (k / 4 * 2 + 1) % RECORDS);
        let other = |index: usize| (index + 2) % RECORDS;
        let buffer = k % RECORDS;
        match k % 4 {
            0 => format!("2 {buffer} 0 4096 256 {color} 0 7168 7936 0 0 1024 256 256"),
            1 => format!("3 {buffer} 0 4096 256 {color} 0 7168 7936 0 0 1024 256 256"),
            2 => {
                let to = other(color);
                format!("4 {color} 0 1024 2048 0 0 {to} 0 4096 4096 0 0 2048 2048 256")
            }
            _ => {
                let to = other(depth);
                format!("4 {depth} 0 0 0 0 0 {to} 0 0 0 0 0 8192 8192 256")
            }
        }
    });
    let device = ["1 1".to_owned()].into_iter();
    [
        section(device),
        section(textures),
        section(buffers),
        section(copies),
    ]
    .concat()
    .into_bytes()
}

/// A section's count and its lines.
fn section(lines: impl Iterator<Item = String>) -> String {
    let lines: Vec<String> = lines.collect();
    format!("{}\n{}\n", lines.len(), lines.join("\n"))
}

/// The Rust's listing of a sheet, by the reference's own writer.
pub fn rust_listing(sheet: &[u8], listing: &mut Vec<u8>) {
    listing.clear();
    write_listing(sheet, listing).expect("a Vec can be written");
}

/// The planner's listing over the Rust's.
pub fn race(sheet: &[u8]) -> Race<'_> {
    let mut listing = Vec::new();
    rust_listing(sheet, &mut listing);
    let mut out = vec![0; listing.len()];
    assert_eq!(list_sheet_into(sheet, &mut out), listing.len());
    assert!(out == listing, "the listings differ");
    Race {
        name: "listing".into(),
        about: format!(
            "a sheet of {} bytes and {COPIES} copies, whose listing has {} bytes",
            sheet.len(),
            listing.len()
        ),
        sides: vec![
            Side::new("Rust", 1, move || {
                rust_listing(black_box(sheet), &mut listing);
                black_box(&listing).len() as u64
            }),
            Side::new("planner", 1, move || {
                let length = list_sheet_into(black_box(sheet), &mut out);
                black_box(&out);
                length as u64
            }),
        ],
    }
}
