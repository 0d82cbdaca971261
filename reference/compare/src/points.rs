//! The sheets of the scope document's bench points, starred or not, and those
//! of docs/DIFFERENCES.md. Their listings are tests of the sheet crate.

/// The sections of a sheet for a device with both facts, line by line.
type Lines = (
    &'static [&'static str],
    &'static [&'static str],
    &'static [&'static str],
);

/// The text of a sheet.
pub fn sheet_lines(device: &str, textures: &[&str], buffers: &[&str], copies: &[&str]) -> Vec<u8> {
    let mut text = String::new();
    for section in [&[device], textures, buffers, copies] {
        text += &format!("{}\n", section.len());
        for line in section {
            text += line;
            text += "\n";
        }
    }
    text.into_bytes()
}

/// The sheets of the bench points.
pub fn bench_points() -> Vec<Vec<u8>> {
    sheets(&BENCH_POINTS)
}

/// The sheets of docs/DIFFERENCES.md.
pub fn difference_sheets() -> Vec<Vec<u8>> {
    let refused = REFUSED.iter().map(|(device, (textures, buffers, copies))| {
        sheet_lines(device, textures, buffers, copies)
    });
    sheets(&DIFFERENCES).into_iter().chain(refused).collect()
}

fn sheets(all: &[Lines]) -> Vec<Vec<u8>> {
    all.iter()
        .map(|(textures, buffers, copies)| sheet_lines("1 1", textures, buffers, copies))
        .collect()
}

const BENCH_POINTS: [Lines; 19] = [
    // The scope document's own sheet.
    (
        &["2 2 8 8 2 1 1 3"],
        &["4096 12"],
        &["2 0 0 256 8 0 0 0 0 0 0 8 8 2"],
    ),
    // Width 0 at the end.
    (
        &["0 2 8 8 1 1 1 3"],
        &["64 12"],
        &[
            "2 0 0 - - 0 0 8 0 0 0 0 1 1",
            "3 0 0 - - 0 0 8 0 0 0 0 1 1",
            "4 0 0 8 0 0 0 0 0 0 0 0 0 0 1 0",
        ],
    ),
    // An origin past the end, and one whose end passes 32 bits.
    (
        &["0 2 8 8 1 1 1 3"],
        &["64 12"],
        &[
            "2 0 0 - - 0 0 9 0 0 0 0 1 1",
            "3 0 0 - - 0 0 9 0 0 0 0 1 1",
            "2 0 0 - - 0 0 4294967295 0 0 0 2 1 1",
            "3 0 0 - - 0 0 4294967295 0 0 0 2 1 1",
        ],
    ),
    // Ends past 32 bits along each dimension, up to the largest.
    (
        &["0 3 8 8 8 1 1 3", "0 3 8 8 8 1 1 3"],
        &["64 12"],
        &[
            "2 0 0 - - 0 0 4294967295 0 0 0 4294967295 1 1",
            "2 0 0 - - 0 0 0 4294967295 0 0 1 4294967295 1",
            "2 0 0 - - 0 0 0 0 4294967295 0 1 1 4294967295",
            "3 0 0 - - 0 0 4294967295 0 0 0 4294967295 1 1",
            "3 0 0 - - 0 0 0 4294967295 0 0 1 4294967295 1",
            "3 0 0 - - 0 0 0 0 4294967295 0 1 1 4294967295",
            "4 0 0 4294967295 0 0 0 1 0 0 0 0 0 4294967295 1 1",
            "4 0 0 0 4294967295 0 0 1 0 0 0 0 0 1 4294967295 1",
            "4 0 0 0 0 4294967295 0 1 0 0 0 0 0 1 1 4294967295",
            "4 0 0 0 0 0 0 1 0 4294967295 0 0 0 8 1 1",
            "4 0 0 0 0 0 0 1 0 0 4294967295 0 0 1 8 1",
            "4 0 0 0 0 0 0 1 0 0 0 4294967295 0 1 1 8",
            "5 64 0 - - 0 0 4294967295 0 0 0 4294967295 1 1",
            "5 64 0 - - 0 0 0 4294967295 0 0 1 4294967295 1",
            "5 64 0 - - 0 0 0 0 4294967295 0 1 1 4294967295",
            "2 0 0 - - 0 0 1 0 0 0 4294967294 1 1",
            "2 0 0 - - 0 0 1 0 0 0 4294967295 1 1",
        ],
    ),
    // The same of textures that are copied whole.
    (
        &[
            "16 2 8 8 1 1 1 3",
            "16 2 8 8 1 1 1 3",
            "0 2 8 8 1 1 4 3",
            "0 2 8 8 1 1 4 3",
        ],
        &["64 12"],
        &[
            "2 0 0 - - 0 0 4294967295 0 0 0 4294967295 8 1",
            "3 0 0 - - 0 0 0 4294967295 0 0 8 4294967295 1",
            "4 0 0 4294967295 0 0 0 1 0 0 0 0 0 8 8 1",
            "4 0 0 0 0 0 0 1 0 0 4294967295 0 0 8 8 1",
            "4 2 0 0 4294967295 0 0 3 0 0 0 0 0 8 8 1",
            "4 2 0 0 0 0 0 3 0 4294967295 0 0 0 8 8 1",
            "5 64 0 - - 2 0 4294967295 0 0 0 8 8 1",
        ],
    ),
    // A depth layer to a buffer, whole and not.
    (
        &["19 2 8 8 2 1 1 3"],
        &["4096 12"],
        &[
            "3 0 0 256 - 0 0 0 0 1 0 8 8 1",
            "3 0 0 256 - 0 0 0 0 1 0 7 8 1",
        ],
    ),
    // A block-compressed level smaller than a block.
    (
        &["11 2 8 8 1 4 1 3"],
        &["64 12"],
        &["2 0 0 - - 0 2 0 0 0 0 4 4 1", "2 0 0 - - 0 2 0 0 0 0 2 2 1"],
    ),
    // Unaligned ends in a buffer.
    (
        &["0 2 8 1 1 1 1 3"],
        &["9 8"],
        &["3 0 1 - - 0 0 0 0 0 0 1 1 1", "3 0 1 - - 0 0 0 0 0 0 8 1 1"],
    ),
    // A total past 64 bits.
    (
        &["0 2 8 8 3 1 1 3"],
        &["4096 12"],
        &[
            "2 0 0 4294967040 4294967295 0 0 0 0 0 0 8 8 3",
            "3 0 0 4294967040 4294967295 0 0 0 0 0 0 8 8 3",
        ],
    ),
    (
        &["0 2 1 259 2 1 1 3"],
        &["4096 12"],
        &[
            "2 0 0 4294967040 4294967295 0 0 0 0 0 0 1 258 2",
            "2 0 0 4294967040 4294967295 0 0 0 0 0 0 1 259 2",
            "5 18446744073709551615 0 4294967295 4294967295 0 0 0 0 0 0 1 2 2",
            "5 18446744073709551615 0 4294967295 4294967295 0 0 0 0 0 0 1 3 2",
        ],
    ),
    // An absent size that is not aligned.
    (&[], &["10 4", "16 8"], &["1 0 4 1 0 -"]),
    // One volume onto itself.
    (
        &["0 3 4 4 4 1 1 3"],
        &[],
        &["4 0 0 0 0 0 0 0 0 0 0 1 0 4 4 2"],
    ),
    // Layers into a volume.
    (
        &["0 2 4 4 3 1 1 1", "0 3 4 4 3 1 1 2"],
        &[],
        &["4 0 0 0 0 0 0 1 0 0 0 0 0 4 4 3"],
    ),
    // Not barred: 17 and 19 between textures.
    (
        &[
            "17 2 4 4 1 1 1 1",
            "17 2 4 4 1 1 1 2",
            "19 2 4 4 1 1 1 3",
            "19 2 4 4 1 1 1 3",
            "18 2 4 4 1 1 1 3",
            "18 2 4 4 1 1 1 3",
        ],
        &[],
        &[
            "4 0 0 0 0 0 0 1 0 0 0 0 0 4 4 1",
            "4 2 0 0 0 0 0 3 0 0 0 0 2 4 4 1",
            "4 4 0 0 0 0 0 5 0 0 0 0 0 4 4 1",
        ],
    ),
    // Zero sizes are checked like any other.
    (
        &["0 2 8 8 3 1 1 0", "0 2 8 8 3 1 1 3"],
        &["4096 12", "2047 12"],
        &[
            "2 0 0 - - 0 0 0 0 0 0 0 1 1",
            "2 0 0 256 4 1 0 0 0 0 0 8 0 3",
            "2 1 0 256 4 1 0 0 0 0 0 8 0 3",
        ],
    ),
    // Planes of NV12.
    (
        &[
            "21 2 8 8 1 1 1 3",
            "0 2 8 8 1 1 1 3",
            "1 2 8 8 1 1 1 3",
            "21 2 8 8 1 1 1 3",
        ],
        &[],
        &[
            "4 0 0 0 0 0 3 1 0 0 0 0 0 8 8 1",
            "4 0 0 0 0 0 4 2 0 0 0 0 0 4 4 1",
            "4 0 0 0 0 0 4 2 0 0 0 0 0 8 8 1",
            "4 0 0 2 4 0 0 3 0 4 2 0 0 4 4 1",
            "4 0 0 0 0 0 0 1 0 0 0 0 0 8 8 1",
        ],
    ),
    // Sizes between buffers: absent, past 32 bits, nothing at the end.
    (
        &[],
        &["16 4", "16 8"],
        &["1 0 4 1 0 -", "1 0 0 1 0 4294967296", "1 0 16 1 16 -"],
    ),
    // The scope document's sheet from memory: aligned, not aligned, cut short,
    // and of no height.
    (
        &["2 2 8 8 2 1 1 3"],
        &[],
        &[
            "5 3872 0 256 8 0 0 0 0 0 0 8 8 2",
            "5 564 3 33 9 0 0 0 0 0 0 8 8 2",
            "5 562 3 33 9 0 0 0 0 0 0 8 8 2",
            "5 297 0 33 9 0 0 0 0 0 0 8 0 2",
        ],
    ),
    // From memory of 2^64 - 1 bytes.
    (
        &["0 2 1 1 2 1 1 2"],
        &[],
        &["5 18446744073709551615 0 4294967295 4294967295 0 0 0 0 0 0 1 1 2"],
    ),
];

const DIFFERENCES: [Lines; 16] = [
    (
        &["0 3 1 1 2 1 1 1", "0 2 1 1 2 1 1 2"],
        &[],
        &["4 0 0 0 0 0 0 1 0 0 0 0 0 1 1 2"],
    ),
    (
        &["0 2 1 1 2 1 1 1", "0 3 1 1 2 1 1 2"],
        &[],
        &["4 0 0 0 0 0 0 1 0 0 0 0 0 1 1 2"],
    ),
    (
        &["0 3 1 1 2 1 1 3"],
        &[],
        &["4 0 0 0 0 0 0 0 0 0 0 1 0 1 1 1"],
    ),
    (
        &["0 3 1 1 3 1 1 3"],
        &[],
        &["4 0 0 0 0 0 0 0 0 0 0 1 0 1 1 2"],
    ),
    (
        &["0 1 1 1 1 1 1 3"],
        &[],
        &["4 0 0 0 0 0 0 0 0 0 0 1 0 1 1 0"],
    ),
    (
        &["21 2 2 2 1 1 1 1"],
        &["4 8"],
        &["3 0 0 - - 0 0 0 0 0 4 2 1 1"],
    ),
    (
        &["21 2 2 2 1 1 1 1", "21 2 2 2 1 1 1 2"],
        &[],
        &["4 0 0 0 0 0 0 1 0 0 0 0 0 1 1 1"],
    ),
    (
        &["21 2 4 2 1 1 1 1", "21 2 4 2 1 1 1 2"],
        &[],
        &["4 0 0 1 0 0 0 1 0 0 0 0 0 2 2 1"],
    ),
    (
        &["15 2 1 1 2 1 1 1"],
        &["1 8"],
        &["3 0 0 - - 0 0 0 0 1 0 1 1 1"],
    ),
    (
        &["15 2 1 1 2 1 1 3"],
        &["0 8"],
        &["3 0 0 - - 0 0 0 0 0 0 1 1 0"],
    ),
    (
        &["0 2 1 1 2 1 1 2"],
        &["256 4"],
        &["2 0 0 256 1 0 0 0 0 0 0 1 0 2"],
    ),
    (
        &["0 2 1 1 2 1 1 2"],
        &["255 4"],
        &["2 0 0 256 1 0 0 0 0 0 0 1 0 2"],
    ),
    (
        &["16 2 1 1 1 1 1 2"],
        &["2 4"],
        &["2 0 0 - - 0 0 0 0 0 2 1 1 1"],
    ),
    (
        &["11 2 4 4 1 2 1 2"],
        &["8 4"],
        &["2 0 0 - - 0 1 0 0 0 0 4 4 1"],
    ),
    (&["0 2 1 1 1 1 1 1"], &[], &["5 1 0 - - 0 1 0 0 0 0 1 1 1"]),
    (
        &["0 2 1 1 1 1 1 2"],
        &[],
        &["5 0 0 - - 0 0 4294967295 0 0 0 1 1 1"],
    ),
];

/// Copies that the planner refuses and the standard does not, each with its device.
const REFUSED: [(&str, Lines); 6] = [
    ("1 1", (&[], &["268435457 4", "4 8"], &["1 0 0 1 0 4"])),
    (
        "1 1",
        (
            &["0 2 8193 1 1 1 1 3"],
            &["1 8"],
            &["3 0 0 - - 0 0 0 0 0 0 1 1 1"],
        ),
    ),
    ("1 0", (&[], &["4 20", "4 40"], &["1 0 0 1 0 4"])),
    (
        "0 1",
        (
            &["16 2 1 1 1 1 1 3"],
            &["2 8"],
            &["3 0 0 - - 0 0 0 0 0 0 1 1 1"],
        ),
    ),
    (
        "0 1",
        (&["16 2 1 1 1 1 1 3"], &[], &["5 2 0 - - 0 0 0 0 0 0 1 1 1"]),
    ),
    (
        "1 1",
        (
            &["0 2 1 1 1 1 1 3"],
            &["1 8"],
            &["3 0 0 - - 0 0 0 0 0 2 1 1 1"],
        ),
    ),
];

#[cfg(test)]
mod tests {
    use super::*;

    const DOCUMENT: &str = concat!(env!("CARGO_MANIFEST_DIR"), "/../../docs/DIFFERENCES.md");

    /// The pieces of code in a cell of a table.
    fn code(cell: &str) -> Vec<&str> {
        cell.split('`').skip(1).step_by(2).collect()
    }

    /// The rows of the document's tables of sheets, which name a texture and a copy:
    /// the cells of device, textures, buffers and copy. Other tables have no device.
    fn rows(text: &str) -> Vec<[Option<&str>; 4]> {
        let mut rows = Vec::new();
        let mut names: Vec<&str> = Vec::new();
        for line in text.lines() {
            let cells: Vec<&str> = line.split('|').map(str::trim).collect();
            if !line.starts_with('|') {
                names.clear();
            } else if names.is_empty() {
                names = cells;
            } else if names.contains(&"Copy") && !line.starts_with("|---") {
                let cell = |name| names.iter().position(|other| *other == name);
                rows.push(
                    ["Device", "Textures", "Buffers", "Copy"]
                        .map(|name| cell(name).map(|place| cells[place])),
                );
            }
        }
        rows
    }

    /// Each row of the document's tables of sheets is one of ours.
    #[test]
    fn differences_are_those_of_the_document() {
        let text = std::fs::read_to_string(DOCUMENT).expect("the document is here");
        let (mut accepted, mut refused) = (0, 0);
        for row in rows(&text) {
            let [device, textures, buffers, copies] =
                row.map(|cell| code(cell.unwrap_or_default()));
            let lines = (&textures[..], &buffers[..], &copies[..]);
            let found = match device.first() {
                None => DIFFERENCES.contains(&lines),
                Some(device) => REFUSED.contains(&(device, lines)),
            };
            assert!(found, "{row:?}");
            accepted += usize::from(device.is_empty());
            refused += usize::from(!device.is_empty());
        }
        assert!(accepted >= 13);
        assert_eq!(refused, REFUSED.len());
    }
}

/// The starred points as the proofs have them: each sheet, and the listing that
/// is proved of it.
pub fn starred_points() -> Vec<(Vec<u8>, Vec<u8>)> {
    const LIST: &str = include_str!("../../../crates/claim_points/specs/Points.antt");
    let texts = |field: &str| -> Vec<Vec<u8>> {
        let start = format!("{field} = \"");
        LIST.lines()
            .filter_map(|line| line.trim().strip_prefix(&start)?.strip_suffix("\";"))
            .map(|text| text.replace("\\n", "\n").into_bytes())
            .collect()
    };
    texts("sheet").into_iter().zip(texts("listing")).collect()
}
