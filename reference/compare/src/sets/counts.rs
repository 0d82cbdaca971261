//! Counts of sections and lengths of sheets at, below and above their bounds.

use std::io;

use copy_sheet::MAX_SHEET_BYTES;

use crate::{sheet_lines, Emit};

/// A line of each section, and counts around the section's bounds.
const SECTIONS: [(&str, &[u64]); 4] = [
    ("1 1", &[0, 1, 2]),
    ("2 2 8 8 2 1 1 3", &[0, 1, 2, 63, 64, 65]),
    ("4096 12", &[0, 1, 2, 63, 64, 65]),
    (
        "2 0 0 256 8 0 0 0 0 0 0 8 8 2",
        &[0, 1, 2, 255, 256, 257, 511, 512],
    ),
];

const FILLERS: [u8; 6] = *b"\n 01x\xff";

const LENGTHS: [usize; 6] = [
    MAX_SHEET_BYTES - 1,
    MAX_SHEET_BYTES,
    MAX_SHEET_BYTES + 1,
    MAX_SHEET_BYTES + 2,
    2 * MAX_SHEET_BYTES,
    1_000_000,
];

pub fn sheets(emit: &mut Emit) -> io::Result<()> {
    section_counts(emit)?;
    lengths(emit)
}

/// Each section's count, with as many lines, one less and one more.
fn section_counts(emit: &mut Emit) -> io::Result<()> {
    for (section, (_, counts)) in SECTIONS.iter().enumerate() {
        for count in *counts {
            for lines in count.saturating_sub(1)..=count + 1 {
                let mut sections = [(1, 1); 4];
                sections[section] = (*count, lines);
                emit(&with_counts(&sections))?;
            }
        }
    }
    Ok(())
}

/// A sheet whose sections have a count and a number of lines.
fn with_counts(counts: &[(u64, u64); 4]) -> Vec<u8> {
    let mut text = String::new();
    for ((line, _), (count, lines)) in SECTIONS.iter().zip(counts) {
        text += &format!("{count}\n");
        for _ in 0..*lines {
            text += &format!("{line}\n");
        }
    }
    text.into_bytes()
}

/// Long sheets, all of them ill but the largest sheet itself, which no field
/// can make longer.
fn lengths(emit: &mut Emit) -> io::Result<()> {
    let largest = largest_sheet();
    emit(&largest)?;
    for length in LENGTHS {
        for filler in FILLERS {
            let fill = |start: &[u8]| {
                let mut text = start.to_vec();
                text.resize(length, filler);
                text
            };
            emit(&fill(&largest))?;
            emit(&fill(b""))?;
            // A last line of that length, and one that has an end.
            emit(&fill(&largest[..largest.len() - 1]))?;
            let mut ended = fill(&largest[..largest.len() - 1]);
            ended[length - 1] = b'\n';
            emit(&ended)?;
        }
    }
    Ok(())
}

/// Every section full, every field at its widest.
fn largest_sheet() -> Vec<u8> {
    let wide = u32::MAX.to_string();
    let wider = u64::MAX.to_string();
    let texture = [wide.as_str(); 8].join(" ");
    let buffer = format!("{wider} {wide}");
    let view = [&[wide.as_str(); 5].join(" "), "5"].join(" ");
    let size = [wide.as_str(); 3].join(" ");
    let copies = [
        format!("1 {wide} {wider} {wide} {wider} {wider}"),
        format!("2 {wide} {wider} {wide} {wide} {view} {size}"),
        format!("3 {wide} {wider} {wide} {wide} {view} {size}"),
        format!("4 {view} {view} {size}"),
        format!("5 {wider} {wider} {wide} {wide} {view} {size}"),
    ];
    let mut copy_lines = vec![copies[4].as_str(); 252];
    copy_lines.extend(copies[..4].iter().map(String::as_str));
    sheet_lines(
        "1 1",
        &[texture.as_str(); 64],
        &[buffer.as_str(); 64],
        &copy_lines,
    )
}
