//! Books led through the planner, the model and the Rust's tracker.

use std::fmt::{Debug, Display};

use copy_sheet::Texture;
use reference_tracker::Tracker;

use super::model::{self, Answer, Update};
use super::planner::{Book, Functions};
use super::tally::BookTally;
use crate::comparer::Reports;
use crate::given::GUARD;

/// Numbers behind the slice that is lent.
const GUARDS: usize = 3;

/// The most numbers that places can be: two for each layer.
pub const MOST_NUMBERS: usize = 2 * super::LAYERS;

/// Compares what is asked of books, with memory that is used again.
#[derive(Debug)]
pub struct BookComparer<'a> {
    functions: Functions,
    pub(super) tally: BookTally,
    slice: Vec<u64>,
    reports: &'a Reports,
}

/// A texture's book, and what the Rust's tracker knows of the texture.
#[derive(Clone, Debug)]
pub struct Tracked {
    pub book: Book,
    pub tracker: Tracker,
}

impl Tracked {
    /// Nothing is written.
    pub fn new(book: Book) -> Self {
        Self {
            book,
            tracker: Tracker::new(book.levels, book.layers),
        }
    }

    /// Whether the book has exactly the marks that the tracker has.
    pub(super) fn is_kept(&mut self) -> bool {
        let Self { book, tracker } = self;
        (0..book.levels).all(|level| {
            let mut uninitialized = tracker.uninitialized(level).peekable();
            let agrees = (0..book.layers).all(|layer| {
                let is_marked = book.marks[model::place(level, layer)] != 0;
                is_marked == uninitialized.next_if_eq(&layer).is_none()
            });
            agrees && uninitialized.next().is_none()
        })
    }
}

impl<'a> BookComparer<'a> {
    pub fn new(functions: Functions, reports: &'a Reports) -> Self {
        Self {
            functions,
            tally: BookTally::default(),
            slice: Vec::new(),
            reports,
        }
    }

    pub fn tally(&self) -> &BookTally {
        &self.tally
    }

    /// Whether so much differs that more need not be compared.
    pub fn has_seen_enough(&self) -> bool {
        self.reports.are_many()
    }

    /// Asks for the book of a record. None where the record is ill, or where the
    /// answer differs.
    pub(super) fn create(&mut self, name: &dyn Display, texture: &Texture) -> Option<Book> {
        let (number, expected) = model::created(texture);
        let mut book = Book::with(GUARD as u32, GUARD as u32, GUARD as u8);
        let given = (self.functions.new_book)(&texture.words(), &mut book);
        self.tally.records += 1;
        self.tally.ill_records += u64::from(number != 0);
        if (given, book) != (number, expected) {
            self.differ(name, texture, &(number, expected), &(given, book));
            return None;
        }
        (number == 0).then_some(book)
    }

    /// Applies a range to a book, with room for so many numbers. None where the
    /// planner's answer, a mark, or a number of the slice is not the model's.
    pub(super) fn update(
        &mut self,
        name: &dyn Display,
        book: &mut Book,
        update: &Update,
        room: usize,
    ) -> Option<Answer> {
        let before = *book;
        let mut expected = before;
        let answer = model::update(&mut expected, update, room);
        self.count(update, &answer);
        let mut count = GUARD;
        let ask = self.functions.update;
        let slice = self.lend(room);
        let number = ask(
            book,
            update.level,
            &update.words,
            &mut slice[..room],
            &mut count,
        );
        let given = self.given(number, count, &answer);
        if given != answer || *book != expected {
            let asked = (before, update, room);
            self.differ(name, &asked, &(answer, expected), &(given, *book));
            return None;
        }
        Some(answer)
    }

    /// The same, and where the range is applied, the Rust's tracker has to clear the
    /// places that the planner tells, and to know the same afterwards.
    pub(super) fn update_tracked(
        &mut self,
        name: &dyn Display,
        tracked: &mut Tracked,
        update: &Update,
        room: usize,
    ) -> Option<Answer> {
        let answer = self.update(name, &mut tracked.book, update, room)?;
        let [kind, start, end] = update.words;
        if answer.number != 0 || kind == model::NONE {
            return Some(answer);
        }
        let mut cleared = Vec::new();
        tracked.tracker.apply(
            update.level..update.level + 1,
            start as u32..end as u32,
            kind != model::IMPLICIT,
            &mut cleared,
        );
        self.tally.tracked += 1;
        if cleared != answer.places || !tracked.is_kept() {
            let rust = (cleared, tracked.tracker.clone());
            self.differ(name, &(update, room), &rust, &(answer, tracked.book));
            return None;
        }
        Some(answer)
    }

    fn count(&mut self, update: &Update, answer: &Answer) {
        self.tally.updates += 1;
        *match answer.number {
            0 if update.words[0] == model::NONE => &mut self.tally.without_range,
            0 => &mut self.tally.applied,
            model::SHORT => &mut self.tally.short,
            _ => &mut self.tally.outside,
        } += 1;
        self.tally.cleared += answer.count;
    }

    /// The slice with its guards.
    fn lend(&mut self, room: usize) -> &mut [u64] {
        self.slice.clear();
        self.slice.resize(room + GUARDS, GUARD);
        &mut self.slice
    }

    /// The planner's answer, with the numbers written; the whole slice where one is
    /// changed behind those that have to be written.
    fn given(&self, number: u32, count: u64, expected: &Answer) -> Answer {
        let (written, behind) = self.slice.split_at(expected.places.len());
        let is_kept = behind.iter().all(|number| *number == GUARD);
        let places = if is_kept { written } else { &self.slice };
        Answer {
            number,
            count,
            places: places.to_vec(),
        }
    }

    /// Reads a book whole; false where something differs.
    pub(super) fn read(&mut self, name: &dyn Display, book: &Book) -> bool {
        let is_filled = model::is_filled(book);
        self.tally.read += 1;
        self.tally.filled += u64::from(is_filled);
        let given = (self.functions.is_filled)(book);
        if given != is_filled {
            self.differ(name, &("is_filled", book), &is_filled, &given);
            return false;
        }
        levels_around(book)
            .into_iter()
            .all(|level| self.read_level(name, book, level))
    }

    fn read_level(&mut self, name: &dyn Display, book: &Book, level: u32) -> bool {
        for layer in layers_around(book) {
            let is_written = model::is_written(book, level, layer);
            let given = (self.functions.is_written)(book, level, layer);
            if given != is_written {
                let asked = ("is_written", level, layer, book);
                self.differ(name, &asked, &is_written, &given);
                return false;
            }
        }
        let needed = model::missing(book, level, MOST_NUMBERS).places.len();
        let rooms = [Some(needed), needed.checked_sub(1), Some(MOST_NUMBERS)];
        rooms
            .into_iter()
            .flatten()
            .all(|room| self.read_missing(name, book, level, room))
    }

    fn read_missing(&mut self, name: &dyn Display, book: &Book, level: u32, room: usize) -> bool {
        let answer = model::missing(book, level, room);
        let (kept, mut count) = (*book, GUARD);
        let ask = self.functions.missing;
        let slice = self.lend(room);
        let number = ask(&kept, level, &mut slice[..room], &mut count);
        let given = self.given(number, count, &answer);
        if given != answer || kept != *book {
            let asked = ("missing", level, room, book);
            self.differ(name, &asked, &answer, &(given, kept));
            return false;
        }
        true
    }

    /// Counts a difference, and shows it if it is among the first.
    pub(super) fn differ(
        &mut self,
        name: &dyn Display,
        asked: &dyn Debug,
        expected: &dyn Debug,
        given: &dyn Debug,
    ) {
        self.tally.differences += 1;
        self.reports.show(|number| {
            format!(
                "difference {number}: {name}\nasked\n{asked:?}\nexpected\n{expected:?}\n\
                 planner\n{given:?}\n"
            )
        });
    }
}

/// A book's levels and some past them.
fn levels_around(book: &Book) -> Vec<u32> {
    around(book.levels, super::LEVELS as u32)
}

fn layers_around(book: &Book) -> Vec<u32> {
    around(book.layers, super::LAYERS as u32)
}

fn around(count: u32, bound: u32) -> Vec<u32> {
    let mut numbers: Vec<u32> = (0..count.min(bound)).collect();
    numbers.extend([count.wrapping_sub(1), count, count.wrapping_add(1)]);
    numbers.extend([bound - 1, bound, u32::MAX]);
    numbers
}
