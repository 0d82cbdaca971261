//! A sheet with lines of every kind, each field replaced, each line moved.

use std::io;

use super::every_kind_of_line;
use crate::Emit;

const ODD_FIELDS: [&[u8]; 21] = [
    b"",
    b"0",
    b"1",
    b"2",
    b"00",
    b"01",
    b"-",
    b"--",
    b"+1",
    b"-1",
    b"4294967295",
    b"4294967296",
    b"18446744073709551615",
    b"18446744073709551616",
    b"99999999999999999999999",
    b"1.0",
    b"0x1",
    b"1 1",
    b" 1",
    b"1 ",
    b"a",
];

pub fn sheets(emit: &mut Emit) -> io::Result<()> {
    let whole = every_kind_of_line();
    let lines: Vec<&[u8]> = whole.split_inclusive(|byte| *byte == b'\n').collect();
    for place in 0..lines.len() {
        let (before, after) = (lines[..place].concat(), lines[place + 1..].concat());
        for line in changed_lines(lines[place]) {
            emit(&[&before[..], &line, &after].concat())?;
        }
        move_line(&lines, place, emit)?;
    }
    Ok(())
}

/// A line with each of its fields replaced by each odd one.
fn changed_lines(line: &[u8]) -> Vec<Vec<u8>> {
    let line = &line[..line.len() - 1];
    let fields: Vec<&[u8]> = line.split(|byte| *byte == b' ').collect();
    let mut changed = Vec::new();
    for place in 0..fields.len() {
        for odd in ODD_FIELDS {
            let mut fields = fields.clone();
            fields[place] = odd;
            let mut line = fields.join(&b' ');
            line.push(b'\n');
            changed.push(line);
        }
    }
    changed
}

/// A line removed, doubled, emptied and swapped with the next.
fn move_line(lines: &[&[u8]], place: usize, emit: &mut Emit) -> io::Result<()> {
    let (before, after) = (lines[..place].concat(), lines[place + 1..].concat());
    let line = lines[place];
    emit(&[&before[..], &after].concat())?;
    emit(&[&before, line, line, &after].concat())?;
    emit(&[&before, &b"\n"[..], &after].concat())?;
    if let Some(next) = lines.get(place + 1) {
        let after = lines[place + 2..].concat();
        emit(&[&before, *next, line, &after].concat())?;
    }
    Ok(())
}
