//! What the sheets of a set held, counted by the Rust's answers.

use std::fmt;

use copy_sheet::{parse, CopyKind, Refusal};

const NUMBERS: usize = Refusal::LAST + 1;
const KINDS: usize = CopyKind::ALL.len();

type Counts = [u64; KINDS];

/// Counts of sheets, of copies by kind and answer, and of differences.
#[derive(Clone, Debug)]
pub struct Tally {
    pub sheets: u64,
    /// Sheets that are not run.
    pub ill: u64,
    pub copies: Counts,
    pub accepted: Counts,
    pub refused: [Counts; NUMBERS],
    pub panicked: Counts,
    /// Copies on which the Rust does not agree with itself or with the copy.
    pub disagreed: Counts,
    pub differences: u64,
    /// Sheets left out, for lack of time or after too many differences.
    pub left_out: u64,
}

impl Default for Tally {
    fn default() -> Self {
        Self {
            sheets: 0,
            ill: 0,
            copies: [0; KINDS],
            accepted: [0; KINDS],
            refused: [[0; KINDS]; NUMBERS],
            panicked: [0; KINDS],
            disagreed: [0; KINDS],
            differences: 0,
            left_out: 0,
        }
    }
}

impl Tally {
    /// Counts a sheet by the Rust's listing of it.
    pub fn count(&mut self, sheet: &[u8], listing: &[u8]) {
        self.sheets += 1;
        let Ok(sheet) = parse(sheet) else {
            self.ill += 1;
            return;
        };
        let heads = listing
            .split(|byte| *byte == b'\n')
            .filter(|line| line.starts_with(b"copy"));
        for (copy, head) in sheet.copies.iter().zip(heads) {
            self.count_copy(copy.kind() as usize, head);
        }
    }

    /// Counts a copy by the first line of its answer.
    fn count_copy(&mut self, kind: usize, head: &[u8]) {
        self.copies[kind] += 1;
        let mut words = head.split(|byte| *byte == b' ').skip(2);
        match words.next() {
            Some(b"ok") => self.accepted[kind] += 1,
            Some(b"refused") => self.refused[refusal_number(words.next())][kind] += 1,
            Some(b"disagreed") => self.disagreed[kind] += 1,
            _ => self.panicked[kind] += 1,
        }
    }

    pub fn add(&mut self, other: &Self) {
        self.sheets += other.sheets;
        self.ill += other.ill;
        add(&mut self.copies, &other.copies);
        add(&mut self.accepted, &other.accepted);
        for (counts, others) in self.refused.iter_mut().zip(&other.refused) {
            add(counts, others);
        }
        add(&mut self.panicked, &other.panicked);
        add(&mut self.disagreed, &other.disagreed);
        self.differences += other.differences;
        self.left_out += other.left_out;
    }
}

fn refusal_number(word: Option<&[u8]>) -> usize {
    let text = word.and_then(|word| std::str::from_utf8(word).ok());
    text.and_then(|text| text.parse().ok())
        .expect("the Rust's refusals have a number")
}

fn add(counts: &mut Counts, others: &Counts) {
    for (count, other) in counts.iter_mut().zip(others) {
        *count += other;
    }
}

impl fmt::Display for Tally {
    /// A line of totals, then a row for each answer given, a column for each
    /// kind of copy.
    fn fmt(&self, formatter: &mut fmt::Formatter<'_>) -> fmt::Result {
        write!(formatter, "{} sheets, {} ill", self.sheets, self.ill)?;
        if self.left_out > 0 {
            write!(formatter, ", {} left out", self.left_out)?;
        }
        writeln!(formatter, ", differences {}", self.differences)?;
        row(formatter, "copies", &self.copies)?;
        row(formatter, "accepted", &self.accepted)?;
        for (number, counts) in self.refused.iter().enumerate() {
            row(formatter, &format!("refused {number}"), counts)?;
        }
        row(formatter, "panicked", &self.panicked)?;
        row(formatter, "disagreed", &self.disagreed)
    }
}

fn row(formatter: &mut fmt::Formatter<'_>, name: &str, counts: &Counts) -> fmt::Result {
    if counts.iter().all(|count| *count == 0) {
        return Ok(());
    }
    write!(formatter, "  {name:<12}")?;
    for count in counts {
        write!(formatter, "{count:>12}")?;
    }
    writeln!(formatter)
}
