//! A fixed list of sheets with the Rust's answers, ends of 9 and 10 made whole.

use copy_sheet::{
    run_copy, sheet_text, Copy, CopyKind, InitAction, Objects, Outcome, Recorder, Refusal, Sheet,
    MAX_SHEET_BYTES,
};
use sheet_generator::{malformed_text, random_sheet, Rng};

use crate::packer::moved;
use crate::{bench_points, difference_sheets, reference_listing, sheet_lines, starred_points};

const KINDS: usize = CopyKind::ALL.len();
const NUMBERS: usize = Refusal::LAST + 1;

/// The refusals that each kind can give, as docs/REFERENCE.md has them.
pub const REACHABLE: [(CopyKind, &[usize]); KINDS] = [
    (CopyKind::BufferToBuffer, &[1, 3, 4, 5, 7, 8, 14, 15, 34]),
    (
        CopyKind::BufferToTexture,
        &[
            1, 2, 3, 5, 6, 7, 8, 9, 10, 12, 13, 14, 16, 17, 18, 19, 20, 21, 22, 23, 24, 25, 28, 31,
            32, 34, 35,
        ],
    ),
    (
        CopyKind::TextureToBuffer,
        &[
            1, 2, 3, 5, 6, 7, 8, 9, 10, 12, 13, 14, 16, 17, 18, 19, 20, 21, 22, 23, 24, 25, 28, 29,
            30, 34, 35,
        ],
    ),
    (
        CopyKind::TextureToTexture,
        &[1, 2, 6, 9, 10, 11, 12, 13, 16, 17, 18, 19, 26, 27, 33, 36],
    ),
    (
        CopyKind::MemoryToTexture,
        &[
            1, 2, 6, 7, 8, 9, 10, 12, 13, 16, 17, 18, 19, 21, 22, 23, 24, 25, 28, 31, 32, 34, 35,
        ],
    ),
];

/// The run of the generator that the sheets are found in.
const SEED: u64 = 20_261_115;
const COPIES: usize = 64;
/// More sheets than are needed for every answer.
const MOST_SHEETS: u64 = 5_000;

/// Sheets kept for each refusal of a kind, and for accepted copies of a kind by
/// the count of their ranges and whether there are more regions than one.
const KEPT: usize = 2;
/// Longer listings are left to the comparison.
const MOST_REGIONS: usize = 6;

/// Random sheets kept whole, and their copies.
const WHOLE_SHEETS: u64 = 12;
const WHOLE_COPIES: usize = 10;
/// Random sheets spoilt.
const SPOILT_SHEETS: u64 = 60;

/// A sheet with the Rust's answer.
#[derive(Clone, Debug, Eq, PartialEq)]
pub struct Item {
    pub sheet: Vec<u8>,
    pub listing: Vec<u8>,
}

/// The list, and how often each refusal was found for it.
#[derive(Debug)]
pub struct Replay {
    pub items: Vec<Item>,
    found: [[usize; KINDS]; NUMBERS],
}

impl Replay {
    /// Whether the list has a copy of a kind that is refused with a number.
    pub fn has(&self, kind: CopyKind, number: usize) -> bool {
        self.found[number][kind as usize] > 0
    }
}

/// The list: the same sheets on every machine.
pub fn replay_items() -> Replay {
    let mut finds = Finds::default();
    for number in 0..MOST_SHEETS {
        finds.look_at(&random_sheet(SEED, number, COPIES));
        if finds.are_complete() {
            break;
        }
    }
    let mut sheets: Vec<Vec<u8>> = starred_points().into_iter().map(|point| point.0).collect();
    sheets.extend(bench_points());
    sheets.extend(difference_sheets());
    sheets.extend(finds.sheets);
    sheets.extend(whole_sheets());
    sheets.extend(damaged_sheets());
    let mut items = Vec::new();
    for sheet in sheets {
        let item = Item {
            listing: reference_listing(&sheet),
            sheet,
        };
        if !items.contains(&item) {
            items.push(item);
        }
    }
    Replay {
        items,
        found: finds.refused,
    }
}

/// The list as one text: for each item a line with the bytes of its sheet and
/// listing, then these; at the end a line of its own.
pub fn replay_text(items: &[Item]) -> Vec<u8> {
    let mut text = Vec::new();
    for Item { sheet, listing } in items {
        text.extend(format!("sheet {} {}\n", sheet.len(), listing.len()).bytes());
        text.extend(sheet);
        text.extend(listing);
    }
    text.extend(b"end\n");
    text
}

/// Sheets of one copy, found in random ones.
#[derive(Debug)]
struct Finds {
    sheets: Vec<Vec<u8>>,
    refused: [[usize; KINDS]; NUMBERS],
    /// By kind, count of ranges, and whether there are more regions than one.
    accepted: [[[usize; 2]; 8]; KINDS],
    recorder: Recorder,
}

impl Default for Finds {
    fn default() -> Self {
        Self {
            sheets: Vec::new(),
            refused: [[0; KINDS]; NUMBERS],
            accepted: [[[0; 2]; 8]; KINDS],
            recorder: Recorder::new(),
        }
    }
}

impl Finds {
    fn are_complete(&self) -> bool {
        REACHABLE.iter().all(|(kind, numbers)| {
            let found = |number: &usize| self.refused[*number][*kind as usize];
            numbers.iter().all(|number| found(number) >= KEPT)
        })
    }

    /// Keeps the copies of a sheet whose answers are still wanted.
    fn look_at(&mut self, sheet: &Sheet) {
        let mut objects = Objects::new(sheet);
        for copy in &sheet.copies {
            let outcome = run_copy(&mut self.recorder, &mut objects, copy);
            if let Some(count) = self.place(copy, &outcome) {
                if *count < KEPT {
                    *count += 1;
                    self.sheets.push(sheet_text(&cut_down(sheet, copy)));
                }
            }
        }
    }

    /// Where an answer is counted; nothing if it is too long to keep.
    fn place(&mut self, copy: &Copy, outcome: &Outcome) -> Option<&mut usize> {
        let kind = copy.kind() as usize;
        let encoder = self.recorder.encoder();
        let regions = encoder.buffer_copies.len()
            + encoder.buffer_texture_copies.len()
            + encoder.texture_copies.len();
        let ranges = self.recorder.init_actions();
        match outcome {
            Outcome::Accepted { .. } if regions <= MOST_REGIONS => {
                let fills = ranges.iter().any(fills_texture);
                let place = ranges.len().min(3) + 4 * usize::from(fills);
                Some(&mut self.accepted[kind][place][usize::from(regions > 1)])
            }
            Outcome::Refused(refusal) => Some(&mut self.refused[refusal.number as usize][kind]),
            _ => None,
        }
    }
}

fn fills_texture(action: &InitAction) -> bool {
    use copy_sheet::MemoryInitKind::ImplicitlyInitialized;
    matches!(action, InitAction::Texture { kind, .. } if *kind == ImplicitlyInitialized)
}

/// A sheet of one of its copies and the records that it names. An index past
/// its section stays so.
fn cut_down(sheet: &Sheet, copy: &Copy) -> Sheet {
    let (textures, buffers) = indices(copy);
    let (texture_places, textures) = used(&sheet.textures, &textures);
    let (buffer_places, buffers) = used(&sheet.buffers, &buffers);
    Sheet {
        device: sheet.device,
        textures,
        buffers,
        copies: vec![moved(copy, &texture_places, &buffer_places)],
    }
}

/// The textures and the buffers that a copy names.
fn indices(copy: &Copy) -> (Vec<u32>, Vec<u32>) {
    match copy {
        Copy::BufferToBuffer {
            source,
            destination,
            ..
        } => (vec![], vec![*source, *destination]),
        Copy::BufferToTexture {
            source,
            destination,
            ..
        } => (vec![destination.texture], vec![source.buffer]),
        Copy::TextureToBuffer {
            source,
            destination,
            ..
        } => (vec![source.texture], vec![destination.buffer]),
        Copy::TextureToTexture {
            source,
            destination,
            ..
        } => (vec![source.texture, destination.texture], vec![]),
        Copy::MemoryToTexture { destination, .. } => (vec![destination.texture], vec![]),
    }
}

/// The new place of each record of a section, and the records used, in order
/// of their first use.
fn used<T: std::marker::Copy>(section: &[T], indices: &[u32]) -> (Vec<u32>, Vec<T>) {
    let mut places = vec![0; section.len()];
    let mut kept: Vec<u32> = Vec::new();
    for index in indices {
        if (*index as usize) < section.len() && !kept.contains(index) {
            places[*index as usize] = kept.len() as u32;
            kept.push(*index);
        }
    }
    let records = kept.iter().map(|index| section[*index as usize]);
    (places, records.collect())
}

/// Random sheets of a few copies with all of their records, and small ones.
fn whole_sheets() -> Vec<Vec<u8>> {
    let mut sheets = vec![
        sheet_lines("1 1", &[], &[], &[]),
        sheet_lines("0 0", &["22 2 8 8 1 1 1 3"], &["0 0"], &[]),
        // Facts of the device.
        sheet_lines(
            "0 0",
            &["15 2 8 8 1 1 1 3"],
            &["4096 28", "4096 40"],
            &[
                "2 0 0 256 - 0 0 0 0 0 0 8 8 1",
                "1 0 0 1 0 4",
                "5 64 0 8 - 0 0 0 0 0 0 8 8 1",
            ],
        ),
    ];
    sheets.extend(
        (0..WHOLE_SHEETS)
            .map(|number| sheet_text(&random_sheet(SEED + 1, number, WHOLE_COPIES)))
            .filter(|sheet| reference_listing(sheet).len() < 4_000),
    );
    sheets
}

/// Sheets cut, spoilt, too long and just not too long.
fn damaged_sheets() -> Vec<Vec<u8>> {
    let whole = &bench_points()[0];
    let mut sheets: Vec<Vec<u8>> = (0..whole.len())
        .step_by(2)
        .map(|length| whole[..length].to_vec())
        .collect();
    for end in ["\n", " ", "1\n", "\0"] {
        sheets.push([whole, end.as_bytes()].concat());
    }
    let rng = &mut Rng::new(SEED);
    while sheets.len() < whole.len() / 2 + SPOILT_SHEETS as usize {
        let spoilt = malformed_text(rng, whole);
        if spoilt.len() < 1_000 {
            sheets.push(spoilt);
        }
    }
    for length in [MAX_SHEET_BYTES, MAX_SHEET_BYTES + 1] {
        let mut long = whole.clone();
        long.resize(length, b'\n');
        sheets.push(long);
    }
    sheets
}
