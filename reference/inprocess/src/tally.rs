//! What the copies were answered, counted by kind.

use std::fmt;

use copy_sheet::{CopyKind, Outcome};
use sheet_compare::REACHABLE;

use crate::given::SLICE_TOO_SHORT;
use crate::Answer;

const NUMBERS: usize = SLICE_TOO_SHORT as usize + 1;
const KINDS: usize = CopyKind::ALL.len();

/// The numbers that calls of the copy functions do not give: a sheet's own and
/// the region writer's.
const NOT_OF_COPIES: [usize; 2] = [1, SLICE_TOO_SHORT as usize];

/// A number that was a refusal's and is not used again.
const RETIRED: usize = 37;

/// The refusal of a texture's record, of which the Rust is not asked.
const TEXTURE_RECORD: usize = 2;

type Counts = [u64; KINDS];

/// Counts of copies by kind and by the Rust's answer, and of differences.
#[derive(Clone, Debug)]
pub struct Tally {
    accepted: Counts,
    /// Accepted without regions, for a side or a size is 0.
    empty: Counts,
    refused: [Counts; NUMBERS],
    panicked: Counts,
    /// Copies on which the Rust does not agree with itself or with the copy.
    disagreed: Counts,
    /// Writes from memory on which its two answers may part.
    pub left_out: u64,
    /// Copies with something that the planner's crate has no name for; the C
    /// functions alone were asked.
    pub unnamed: u64,
    pub differences: u64,
}

impl Default for Tally {
    fn default() -> Self {
        Self {
            accepted: [0; KINDS],
            empty: [0; KINDS],
            refused: [[0; KINDS]; NUMBERS],
            panicked: [0; KINDS],
            disagreed: [0; KINDS],
            left_out: 0,
            unnamed: 0,
            differences: 0,
        }
    }
}

impl Tally {
    /// Counts a copy by the Rust's answer.
    pub fn count(&mut self, kind: CopyKind, answer: &Answer) {
        let kind = kind as usize;
        match &answer.outcome {
            Outcome::Accepted { .. } => {
                self.accepted[kind] += 1;
                self.empty[kind] += u64::from(answer.regions.is_empty());
            }
            Outcome::Refused(refusal) => self.refused[refusal.number as usize][kind] += 1,
            Outcome::Panicked(_) => self.panicked[kind] += 1,
            Outcome::Disagreed(_) => self.disagreed[kind] += 1,
        }
    }

    /// Counts a slice that was too short for the regions of a copy, and refused.
    pub fn count_short_slice(&mut self, kind: CopyKind) {
        self.refused[SLICE_TOO_SHORT as usize][kind as usize] += 1;
    }

    pub fn add(&mut self, other: &Self) {
        add(&mut self.accepted, &other.accepted);
        add(&mut self.empty, &other.empty);
        for (counts, others) in self.refused.iter_mut().zip(&other.refused) {
            add(counts, others);
        }
        add(&mut self.panicked, &other.panicked);
        add(&mut self.disagreed, &other.disagreed);
        self.left_out += other.left_out;
        self.unnamed += other.unnamed;
        self.differences += other.differences;
    }

    /// All copies, of whatever answer.
    pub fn total(&self) -> u64 {
        self.copies().iter().sum()
    }

    fn copies(&self) -> Counts {
        let mut copies = self.all_refused();
        add(&mut copies, &self.accepted);
        add(&mut copies, &self.panicked);
        add(&mut copies, &self.disagreed);
        copies
    }

    fn all_refused(&self) -> Counts {
        let mut all = [0; KINDS];
        for counts in &self.refused[..SLICE_TOO_SHORT as usize] {
            add(&mut all, counts);
        }
        all
    }

    /// The refusals that a kind can give and did not, as `kind number`. Nothing
    /// of kinds that were not compared.
    fn gaps(&self) -> Vec<String> {
        let mut gaps = Vec::new();
        let copies = self.copies();
        for (kind, numbers) in REACHABLE {
            if copies[kind as usize] == 0 {
                continue;
            }
            for number in numbers {
                let is_missing = self.refused[*number][kind as usize] == 0;
                if is_missing && !NOT_OF_COPIES.contains(number) {
                    gaps.push(format!("{} {number}", NAMES[kind as usize]));
                }
            }
        }
        gaps
    }

    fn write_remarks(&self, formatter: &mut fmt::Formatter<'_>) -> fmt::Result {
        let kind = CopyKind::MemoryToTexture as usize;
        let asked = self.copies()[kind] - self.refused[TEXTURE_RECORD][kind];
        writeln!(
            formatter,
            "writes from memory by the Rust's rules and by Queue::write_texture: {} compared, \
             {} left out",
            asked - self.left_out,
            self.left_out
        )?;
        writeln!(
            formatter,
            "copies asked of the C functions alone: {}",
            self.unnamed
        )?;
        match self.gaps() {
            gaps if gaps.is_empty() => {
                writeln!(formatter, "every refusal that a kind can give was reached")
            }
            gaps => writeln!(
                formatter,
                "never reached, though the kind can give it: {}",
                gaps.join(", ")
            ),
        }
    }
}

fn add(counts: &mut Counts, others: &Counts) {
    for (count, other) in counts.iter_mut().zip(others) {
        *count += other;
    }
}

const NAMES: [&str; KINDS] = [
    "buffer to buffer",
    "buffer to texture",
    "texture to buffer",
    "texture to texture",
    "memory to texture",
];

impl fmt::Display for Tally {
    /// A row for each answer, a column for each kind of copy.
    fn fmt(&self, formatter: &mut fmt::Formatter<'_>) -> fmt::Result {
        row(formatter, "", NAMES)?;
        row(formatter, "copies", self.copies())?;
        row(formatter, "accepted", self.accepted)?;
        row(formatter, "  without regions", self.empty)?;
        row(formatter, "refused", self.all_refused())?;
        for (number, counts) in self.refused.iter().enumerate().skip(1) {
            let name = format!("  refused {number}");
            match number {
                RETIRED if counts.iter().all(|count| *count == 0) => {}
                _ if counts.iter().all(|count| *count == 0) => {
                    writeln!(formatter, "{name:<18} never reached{}", why_never(number))?
                }
                38 => row(formatter, "slices refused 38", *counts)?,
                _ => row(formatter, &name, cells(number, counts))?,
            }
        }
        row(formatter, "panicked", self.panicked)?;
        row(formatter, "disagreed", self.disagreed)?;
        self.write_remarks(formatter)
    }
}

/// The counts of a refusal, and `-` where the kind cannot give it.
fn cells(number: usize, counts: &Counts) -> [String; KINDS] {
    CopyKind::ALL.map(|kind| match counts[kind as usize] {
        0 if !REACHABLE[kind as usize].1.contains(&number) => "-".into(),
        count => count.to_string(),
    })
}

/// Why no copy can be refused with a number, if none can.
fn why_never(number: usize) -> &'static str {
    match number {
        1 => " (only a sheet can name a record that is not there)",
        _ => "",
    }
}

fn row<T: fmt::Display>(
    formatter: &mut fmt::Formatter<'_>,
    name: &str,
    cells: [T; KINDS],
) -> fmt::Result {
    write!(formatter, "{name:<18}")?;
    for cell in cells {
        write!(formatter, "{cell:>20}")?;
    }
    writeln!(formatter)
}
