//! The ranges of accepted copies, applied to the books of their textures.

use std::fmt::Display;

use copy_sheet::{Copy, Objects, Recorder, Sheet};

use super::comparer::{Tracked, MOST_NUMBERS};
use super::model::{Answer, Update};
use super::BookComparer;
use crate::answer::{RangeNumbers, TEXTURE};
use crate::comparer::lead_back;
use crate::{c, rust, Given};

impl BookComparer<'_> {
    /// Plans the copies of a sheet, and applies the texture ranges of each that is
    /// accepted, in their order, to the books; the Rust's actions, recorded by its own
    /// copy functions, go to its trackers.
    pub fn compare_copies(&mut self, name: &dyn Display, sheet: &Sheet) {
        let textures = sheet.textures.iter();
        let mut books: Vec<Option<Tracked>> = textures
            .map(|texture| self.create(name, texture).map(Tracked::new))
            .collect();
        let mut planned = Planned::new(sheet);
        for (number, copy) in sheet.copies.iter().enumerate() {
            let mut copy = *copy;
            if self.has_seen_enough() || !lead_back(sheet, &mut copy) {
                continue;
            }
            let name = format_args!("{name}, copy {number}");
            if !planned.plan(sheet, &copy) {
                self.differ(&name, &copy, &planned.rust, &planned.given.answer);
                continue;
            }
            if planned.rust.is_accepted() {
                self.tally.copies += 1;
                for (action, range) in planned.texture_ranges() {
                    self.apply(&name, &mut books, action, range);
                }
            }
        }
        for tracked in books.into_iter().flatten() {
            self.read(name, &tracked.book);
        }
    }

    /// Applies the Rust's action to its tracker and the planner's range to the book.
    fn apply(
        &mut self,
        name: &dyn Display,
        books: &mut [Option<Tracked>],
        action: &RangeNumbers,
        range: &RangeNumbers,
    ) {
        self.tally.ranges += 1;
        let [_, index, level, _, start, end, kind] = *range;
        // A book that differed is not there any more.
        let Some(tracked) = &mut books[index as usize] else {
            return;
        };
        let mut tracker = tracked.tracker.clone();
        let mut cleared = Vec::new();
        let [_, _, first_level, end_level, first, last, needs_memory] = *action;
        let [levels, layers] =
            [(first_level, end_level), (first, last)].map(|(first, end)| first as u32..end as u32);
        tracker.apply(levels, layers, needs_memory == 1, &mut cleared);
        let update = Update {
            level: level as u32,
            // In a listing the kinds are 0 and 1.
            words: [kind + 1, start, end],
        };
        let expected = Answer {
            number: 0,
            count: cleared.len() as u64 / 2,
            places: cleared,
        };
        match self.update(name, &mut tracked.book, &update, MOST_NUMBERS) {
            Some(answer) if answer == expected => {
                tracked.tracker = tracker;
                self.tally.tracked += 1;
                if !tracked.is_kept() {
                    let given = (&update, &tracked.book);
                    self.differ(name, action, &tracked.tracker, &given);
                    books[index as usize] = None;
                }
            }
            Some(answer) => {
                self.differ(name, &(action, range), &expected, &(answer, tracked.book));
                books[index as usize] = None;
            }
            None => books[index as usize] = None,
        }
    }
}

/// A copy's answers.
struct Planned {
    recorder: Recorder,
    objects: Objects,
    rust: crate::Answer,
    given: Given,
}

impl Planned {
    fn new(sheet: &Sheet) -> Self {
        Self {
            recorder: Recorder::new(),
            objects: Objects::new(sheet),
            rust: crate::Answer::default(),
            given: Given::default(),
        }
    }

    /// Asks the Rust and the planner; whether they say the same.
    fn plan(&mut self, sheet: &Sheet, copy: &Copy) -> bool {
        rust::answer(&mut self.recorder, &mut self.objects, copy, &mut self.rust);
        c::answer(sheet, copy, &mut self.given);
        self.given.difference(&self.rust).is_none()
    }

    /// The Rust's actions on textures, each with the planner's range.
    fn texture_ranges(&self) -> impl Iterator<Item = (&RangeNumbers, &RangeNumbers)> {
        let of_texture = |range: &&RangeNumbers| range[0] == TEXTURE;
        let actions = self.rust.ranges.iter().filter(of_texture);
        let ranges = self.given.answer.ranges.iter().filter(of_texture);
        actions.zip(ranges)
    }
}
