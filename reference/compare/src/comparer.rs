//! Sheets led through the planner and the Rust, and what came of it.

use std::fs;
use std::io::{self, Write};
use std::path::PathBuf;
use std::time::Instant;

use crate::{reference_listing, Planner, Plant, Tally};

/// How much longer than the Rust's listing a planner's is read.
const BYTES_PAST_THE_LISTING: usize = 4_096;

/// Differences shown whole; more are counted only.
const SHOWN: u64 = 10;

/// When a run leaves out the sheets that are left.
#[derive(Clone, Copy, Debug)]
pub struct Limits {
    pub differences: u64,
    pub end: Option<Instant>,
}

/// Compares sheets, set by set.
#[derive(Debug)]
pub struct Comparer {
    planner: Planner,
    limits: Limits,
    /// Where the sheets of differences are saved.
    folder: PathBuf,
    /// A fault, and how many listings that have a place for it come before.
    plant: Option<(Plant, u64)>,
    sets: Vec<(String, Tally)>,
    differences: u64,
}

impl Comparer {
    pub fn new(planner: Planner, limits: Limits, folder: PathBuf) -> Self {
        Self {
            planner,
            limits,
            folder,
            plant: None,
            sets: Vec::new(),
            differences: 0,
        }
    }

    /// Puts a fault into the planner's listing number `at`, counted from 1
    /// among those that have a place for it.
    pub fn plant(&mut self, plant: Plant, at: u64) {
        self.plant = Some((plant, at.max(1)));
    }

    /// Whether a fault waits to be planted.
    pub fn waits_to_plant(&self) -> bool {
        self.plant.is_some()
    }

    pub fn differences(&self) -> u64 {
        self.differences
    }

    /// The sets begun, with their counts.
    pub fn sets(&self) -> &[(String, Tally)] {
        &self.sets
    }

    /// All that was counted.
    pub fn total(&self) -> Tally {
        let mut total = Tally::default();
        for (_, tally) in &self.sets {
            total.add(tally);
        }
        total
    }

    /// Begins a set; the sheets that follow belong to it.
    pub fn begin(&mut self, name: &str) {
        self.sets.push((name.into(), Tally::default()));
    }

    /// Whether the run's time or patience is over.
    pub fn is_over(&self) -> bool {
        self.differences >= self.limits.differences
            || self.limits.end.is_some_and(|end| Instant::now() >= end)
    }

    /// Compares the listings of a sheet.
    pub fn compare(&mut self, sheet: &[u8]) -> io::Result<()> {
        if self.is_over() {
            self.tally().left_out += 1;
            return Ok(());
        }
        let expected = reference_listing(sheet);
        let mut answer = self
            .planner
            .answer(sheet, expected.len() + BYTES_PAST_THE_LISTING)?;
        self.put_fault_into(&mut answer.listing);
        self.tally().count(sheet, &expected);
        if let Some(trouble) = answer.trouble {
            self.report(sheet, &format!("the planner failed: {trouble}"))
        } else if let Some(words) = rust_trouble(&expected) {
            self.report(sheet, words)
        } else if answer.listing != expected {
            let words = first_difference(sheet, &expected, &answer.listing);
            self.report(sheet, &words)
        } else {
            Ok(())
        }
    }

    fn tally(&mut self) -> &mut Tally {
        if self.sets.is_empty() {
            self.begin("sheets");
        }
        let last = self.sets.last_mut();
        &mut last.expect("a set was begun").1
    }

    fn put_fault_into(&mut self, listing: &mut Vec<u8>) {
        let Some((plant, before)) = self.plant else {
            return;
        };
        let mut changed = listing.clone();
        if plant.put_into(&mut changed) {
            self.plant = (before > 1).then_some((plant, before - 1));
            if before == 1 {
                *listing = changed;
            }
        }
    }

    /// Counts a difference, saves its sheet and shows it.
    fn report(&mut self, sheet: &[u8], words: &str) -> io::Result<()> {
        self.differences += 1;
        self.tally().differences += 1;
        if self.differences > SHOWN {
            return Ok(());
        }
        fs::create_dir_all(&self.folder)?;
        let file = self.folder.join(format!("{}.sheet", self.differences));
        fs::write(&file, sheet)?;
        let (set, tally) = self.sets.last().expect("a set was begun");
        writeln!(
            io::stdout(),
            "difference {} in {set}, sheet {}, saved to {}\n  {words}",
            self.differences,
            tally.sheets,
            file.display()
        )
    }
}

/// What makes a listing of the Rust worth nothing, even where a planner prints
/// the same.
fn rust_trouble(listing: &[u8]) -> Option<&'static str> {
    lines(listing)
        .iter()
        .find_map(|line| match line.split(|byte| *byte == b' ').nth(2) {
            Some(b"panicked") => Some("the Rust panicked"),
            Some(b"disagreed") => Some("the Rust does not agree with itself or with the copy"),
            _ => None,
        })
}

/// The first line in which two listings differ, and the copy it belongs to.
fn first_difference(sheet: &[u8], expected: &[u8], given: &[u8]) -> String {
    let expected = lines(expected);
    let given = lines(given);
    let same = expected
        .iter()
        .zip(&given)
        .take_while(|(expected, given)| expected == given)
        .count();
    let mut words = format!("line {} of the listing\n", same + 1);
    if let Some(copy) = copy_line(sheet, &expected[..expected.len().min(same + 1)]) {
        words += &format!("  copy:    {copy}\n");
    }
    words += &format!("  Rust:    {}\n", shown(expected.get(same)));
    words + &format!("  planner: {}", shown(given.get(same)))
}

fn lines(listing: &[u8]) -> Vec<&[u8]> {
    listing.split_inclusive(|byte| *byte == b'\n').collect()
}

fn shown(line: Option<&&[u8]>) -> String {
    match line {
        None => "no such line".into(),
        Some(line) => format!("\"{}\"", line.escape_ascii()),
    }
}

/// The sheet's line of the copy that the last of these listing lines tells of.
fn copy_line(sheet: &[u8], listing: &[&[u8]]) -> Option<String> {
    let copies = listing
        .iter()
        .filter(|line| line.starts_with(b"copy"))
        .count();
    let count = copy_sheet::parse(sheet).ok()?.copies.len();
    let lines = lines(sheet);
    let line = lines.get(lines.len() - count + copies.checked_sub(1)?)?;
    Some(String::from_utf8_lossy(line).trim_end().into())
}

#[cfg(test)]
mod tests {
    use super::*;

    #[test]
    fn troubles_of_the_rust_are_told() {
        assert_eq!(
            rust_trouble(b"copy 0 ok 0 0 0\ncopy 1 refused 6 2 0 0 0 0\n"),
            None
        );
        assert_eq!(rust_trouble(b"sheet 3\n"), None);
        for word in ["panicked", "disagreed"] {
            let listing = format!("copy 0 ok 0 0 0\ncopy 1 {word} for some reason\n");
            assert!(rust_trouble(listing.as_bytes()).is_some());
        }
    }
}
