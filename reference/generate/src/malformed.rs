//! Sheets spoilt in ways that readers get wrong.

use copy_sheet::MAX_SHEET_BYTES;

use crate::Rng;

const ODD_BYTES: [u8; 12] = [
    0, b'\r', b'\t', b' ', b'\n', b'-', b'+', b'0', b'9', b'.', 0x80, 0xff,
];

const ODD_FIELDS: [&[u8]; 20] = [
    b"",
    b"-",
    b"--",
    b"-1",
    b"+1",
    b"00",
    b"01",
    b"0",
    b"5",
    b"6",
    b"65",
    b"257",
    b"1.0",
    b"0x1",
    b"4294967295",
    b"4294967296",
    b"18446744073709551615",
    b"18446744073709551616",
    b"99999999999999999999999999999999999999",
    b"\xd9\xa1",
];

/// A sheet's text spoilt once or a few times; now and then nothing of it is
/// left, or it stays well formed.
pub fn malformed_text(rng: &mut Rng, text: &[u8]) -> Vec<u8> {
    let mut spoilt = text.to_vec();
    loop {
        spoil(rng, &mut spoilt);
        if rng.chance(70) {
            return spoilt;
        }
    }
}

fn spoil(rng: &mut Rng, text: &mut Vec<u8>) {
    let place = rng.index(text.len() + 1);
    match rng.below(14) {
        0 => text.truncate(place),
        1 if place < text.len() => text[place] ^= 1 << rng.below(8),
        2 if place < text.len() => text[place] = rng.pick(&ODD_BYTES),
        3 => text.insert(place, rng.pick(&ODD_BYTES)),
        4 if place < text.len() => {
            text.remove(place);
        }
        5 => {
            text.pop();
        }
        6 => text.extend_from_slice(rng.pick(&[b"\n", b"0\n", b" ", b"1 0 0 1 0 0\n"])),
        7 => replace_field(rng, text, place),
        8 => repeat_line(rng, text),
        9 => remove_line(rng, text),
        10 => lengthen(rng, text),
        11 if rng.chance(10) => text.clear(),
        12 => *text = (0..rng.below(200)).map(|_| rng.word() as u8).collect(),
        _ => replace_field(rng, text, place),
    }
}

/// Puts an odd field in the place of the one around `place`.
fn replace_field(rng: &mut Rng, text: &mut Vec<u8>, place: usize) {
    let is_gap = |byte: &u8| matches!(*byte, b' ' | b'\n');
    let start = text[..place]
        .iter()
        .rposition(is_gap)
        .map_or(0, |at| at + 1);
    let end = text[place..]
        .iter()
        .position(is_gap)
        .map_or(text.len(), |at| place + at);
    let field = rng.pick(&ODD_FIELDS);
    text.splice(start..end, field.iter().copied());
}

/// The start of a random line and of the one after it.
fn some_line(rng: &mut Rng, text: &[u8]) -> std::ops::Range<usize> {
    let starts: Vec<usize> = std::iter::once(0)
        .chain((1..=text.len()).filter(|at| text[at - 1] == b'\n'))
        .collect();
    let line = rng.index(starts.len());
    let end = starts.get(line + 1).copied().unwrap_or(text.len());
    starts[line]..end
}

fn repeat_line(rng: &mut Rng, text: &mut Vec<u8>) {
    let line = some_line(rng, text);
    let copy = text[line.clone()].to_vec();
    text.splice(line.start..line.start, copy);
}

fn remove_line(rng: &mut Rng, text: &mut Vec<u8>) {
    let line = some_line(rng, text);
    text.drain(line);
}

/// As long as a sheet may be, or one byte more.
fn lengthen(rng: &mut Rng, text: &mut Vec<u8>) {
    let filler = rng.pick(b"\n 0x");
    let length = MAX_SHEET_BYTES + rng.index(3) - 1;
    text.resize(length.max(text.len()), filler);
}
