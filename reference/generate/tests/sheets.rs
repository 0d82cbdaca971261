//! The generated sheets: well formed, telling, and harmless when spoilt.

use std::collections::BTreeMap;

use copy_sheet::{
    append_region_numbers, parse, run_copy, sheet_text, write_listing, Buffer, Copy, CopyKind,
    InitAction, MemoryView, Objects, Outcome, Recorder, Refusal, Sheet, MAX_SHEET_BYTES,
};
use sheet_generator::{malformed_text, random_sheet, Coverage, Rng};

/// The refusals of each kind, as the order of checks names them.
const REFUSALS: [(CopyKind, &[usize]); 5] = [
    (CopyKind::BufferToBuffer, &[1, 3, 4, 5, 7, 8, 14, 15, 34]),
    (
        CopyKind::BufferToTexture,
        &[
            1, 2, 3, 5, 6, 7, 8, 9, 10, 12, 13, 14, 16, 17, 18, 19, 20, 21, 22, 23, 24, 25, 28, 31,
            32, 34, 35,
        ],
    ),
    (
        CopyKind::TextureToBuffer,
        &[
            1, 2, 3, 5, 6, 7, 8, 9, 10, 12, 13, 14, 16, 17, 18, 19, 20, 21, 22, 23, 24, 25, 28, 29,
            30, 34, 35,
        ],
    ),
    (
        CopyKind::TextureToTexture,
        &[1, 2, 6, 9, 10, 11, 12, 13, 16, 17, 18, 19, 26, 27, 33, 36],
    ),
    (
        CopyKind::MemoryToTexture,
        &[
            1, 2, 6, 7, 8, 9, 10, 12, 13, 16, 17, 18, 19, 21, 22, 23, 24, 25, 28, 31, 32, 34, 35,
        ],
    ),
];

#[test]
fn sheets_read_back() {
    for number in 0..500 {
        let sheet = random_sheet(7, number, 256);
        let text = sheet_text(&sheet);
        assert!(text.len() <= MAX_SHEET_BYTES);
        assert_eq!(parse(&text), Ok(sheet));
    }
}

#[test]
fn sheets_depend_on_the_seed_alone() {
    assert_eq!(random_sheet(1, 5, 64), random_sheet(1, 5, 64));
    assert_ne!(random_sheet(1, 5, 64), random_sheet(2, 5, 64));
    assert_ne!(random_sheet(1, 5, 64), random_sheet(1, 6, 64));
}

#[test]
fn every_outcome_is_reached() {
    let mut coverage = Coverage::new();
    for number in 0..2_000 {
        coverage.count_sheet(&random_sheet(3, number, 64));
    }
    assert_eq!(coverage.troubles, Vec::<String>::new());
    assert!(coverage.usage_asked_first() >= 10);
    for (kind, numbers) in REFUSALS {
        let share = coverage.accepted(kind) * 100 / coverage.copies(kind);
        assert!((40..=60).contains(&share), "{kind:?}: {share} % accepted");
        for number in 1..=Refusal::LAST {
            let count = coverage.refused(kind, number);
            if numbers.contains(&number) {
                assert!(count >= 10, "{kind:?} refused {number}: {count}");
            } else {
                assert_eq!(count, 0, "{kind:?} refused {number}");
            }
        }
    }
}

/// The sides of an 8 whose end can be 2^32 or more, and those of a 9 or 10, by kind
/// of copy.
const LONG_ENDS: [(CopyKind, &[u32], &[u32]); 5] = [
    (CopyKind::BufferToBuffer, &[1], &[]),
    (CopyKind::BufferToTexture, &[1], &[2]),
    (CopyKind::TextureToBuffer, &[2], &[1]),
    (CopyKind::TextureToTexture, &[], &[1, 2]),
    (CopyKind::MemoryToTexture, &[1], &[2]),
];

/// Number, side and dimension of refusals on these sides and along these
/// dimensions.
fn places(number: u32, sides: &[u32], dimensions: &[u32]) -> Vec<[u32; 3]> {
    let mut places = vec![];
    for side in sides {
        places.extend(
            dimensions
                .iter()
                .map(|dimension| [number, *side, *dimension]),
        );
    }
    places
}

/// Ends past 32 bits come up wherever they can.
#[test]
fn long_ends_are_reached() {
    let mut found: [BTreeMap<[u32; 3], u64>; 5] = Default::default();
    let mut recorder = Recorder::new();
    for number in 0..5_000 {
        let sheet = random_sheet(3, number, 64);
        let mut objects = Objects::new(&sheet);
        for copy in &sheet.copies {
            match run_copy(&mut recorder, &mut objects, copy) {
                Outcome::Refused(refusal) if refusal.end >= 1 << 32 => {
                    let place = [refusal.number, refusal.side, refusal.dimension];
                    *found[copy.kind() as usize].entry(place).or_default() += 1;
                }
                _ => {}
            }
        }
    }
    for (kind, bytes, texels) in LONG_ENDS {
        let counts = &found[kind as usize];
        let reachable = [
            places(8, bytes, &[0]),
            places(9, texels, &[1, 2, 3]),
            places(10, texels, &[1, 2]),
        ];
        assert!(
            counts.keys().eq(&reachable.concat()),
            "{kind:?}: {counts:?}"
        );
        assert!(
            counts.values().all(|count| *count >= 10),
            "{kind:?}: {counts:?}"
        );
    }
}

/// A spoilt sheet is either ill or runs; no listing tells of a panic.
#[test]
fn malformed_sheets_do_no_harm() {
    let mut rng = Rng::new(11);
    let mut ill = 0;
    let mut listing = Vec::new();
    for number in 0..100 {
        let text = sheet_text(&random_sheet(11, number, 12));
        for _ in 0..1_000 {
            let spoilt = malformed_text(&mut rng, &text);
            listing.clear();
            write_listing(&spoilt, &mut listing).expect("a Vec can be written");
            assert!(!contains(&listing, b"panicked"));
            assert!(!contains(&listing, b"disagreed"));
            ill += usize::from(listing.starts_with(b"sheet"));
        }
    }
    assert!(
        (50_000..100_000).contains(&ill),
        "{ill} of 100,000 were ill"
    );
}

fn contains(text: &[u8], part: &[u8]) -> bool {
    text.windows(part.len()).any(|window| window == part)
}

/// What the Rust says to a copy: the outcome, the texture's ranges, the regions.
fn answer(sheet: &Sheet, copy: &Copy) -> (Outcome, Vec<InitAction>, Vec<u64>) {
    let (mut recorder, mut objects) = (Recorder::new(), Objects::new(sheet));
    let outcome = run_copy(&mut recorder, &mut objects, copy);
    let mut ranges = recorder.init_actions().to_vec();
    ranges.retain(|range| matches!(range, InitAction::Texture { .. }));
    let mut regions = Vec::new();
    append_region_numbers(&recorder, &mut regions);
    (outcome, ranges, regions)
}

/// A copy from a buffer, and one from memory of as many bytes: the same answer,
/// where the buffer itself and alignment are not what is refused.
#[test]
fn memory_is_a_buffer_without_alignment() {
    let mut compared = 0;
    for number in 0..400 {
        let mut sheet = random_sheet(19, number, 64);
        for buffer in &mut sheet.buffers {
            buffer.usage |= Buffer::COPY_SRC;
        }
        for copy in &sheet.copies {
            let Some(from_memory) = from_memory(&sheet, copy) else {
                continue;
            };
            let expected = answer(&sheet, copy);
            if is_of_buffers_alone(&expected.0) {
                continue;
            }
            compared += 1;
            assert_eq!(answer(&sheet, &from_memory), expected, "{copy:?}");
        }
    }
    assert!(compared > 3_000, "{compared}");
}

/// Refused for a buffer's record, or for alignment.
fn is_of_buffers_alone(outcome: &Outcome) -> bool {
    matches!(outcome, Outcome::Refused(refusal) if matches!(refusal.number, 3 | 14 | 20))
}

/// The write from memory that is like a copy from a buffer that is there.
fn from_memory(sheet: &Sheet, copy: &Copy) -> Option<Copy> {
    let Copy::BufferToTexture {
        source,
        destination,
        size,
    } = *copy
    else {
        return None;
    };
    let buffer = sheet.buffers.get(source.buffer as usize)?;
    Some(Copy::MemoryToTexture {
        source: MemoryView {
            length: buffer.size,
            offset: source.offset,
            bytes_per_row: source.bytes_per_row,
            rows_per_image: source.rows_per_image,
        },
        destination,
        size,
    })
}
