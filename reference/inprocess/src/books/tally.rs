//! What was asked of books, and what came of it.

use std::fmt;

/// Counts of calls by what the model answers, and of differences.
#[derive(Clone, Debug, Default)]
pub struct BookTally {
    /// Records of which a book was asked for, and those that are ill.
    pub records: u64,
    pub ill_records: u64,
    pub updates: u64,
    /// Updates with a range that was applied; some of these were held to the Rust's
    /// tracker too.
    pub applied: u64,
    pub tracked: u64,
    /// Updates without a range.
    pub without_range: u64,
    pub outside: u64,
    pub short: u64,
    /// Places that had to be cleared.
    pub cleared: u64,
    /// Books read whole: every level and layer, and what each level lacks.
    pub read: u64,
    pub filled: u64,
    /// Copies of which the ranges were applied, and these ranges.
    pub copies: u64,
    pub ranges: u64,
    pub differences: u64,
}

impl BookTally {
    pub fn add(&mut self, other: &Self) {
        let others = other.clone().fields().map(|count| *count);
        for (count, other) in self.fields().into_iter().zip(others) {
            *count += other;
        }
    }

    fn fields(&mut self) -> [&mut u64; 14] {
        [
            &mut self.records,
            &mut self.ill_records,
            &mut self.updates,
            &mut self.applied,
            &mut self.tracked,
            &mut self.without_range,
            &mut self.outside,
            &mut self.short,
            &mut self.cleared,
            &mut self.read,
            &mut self.filled,
            &mut self.copies,
            &mut self.ranges,
            &mut self.differences,
        ]
    }
}

impl fmt::Display for BookTally {
    fn fmt(&self, formatter: &mut fmt::Formatter<'_>) -> fmt::Result {
        for (name, count) in [
            ("records", self.records),
            ("  refused 2", self.ill_records),
            ("updates", self.updates),
            ("  applied", self.applied),
            ("    held to the Rust's tracker", self.tracked),
            ("  without a range", self.without_range),
            ("  refused 39", self.outside),
            ("  refused 38", self.short),
            ("places cleared", self.cleared),
            ("books read", self.read),
            ("  filled", self.filled),
            ("accepted copies", self.copies),
            ("  their texture ranges", self.ranges),
        ] {
            writeln!(formatter, "{name:<32}{count:>14}")?;
        }
        Ok(())
    }
}
