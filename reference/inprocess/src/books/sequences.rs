//! Random updates, one after another.

use std::fmt::Display;

use copy_sheet::Sheet;
use sheet_generator::Rng;

use super::comparer::{Tracked, MOST_NUMBERS};
use super::model::{self, Update};
use super::planner::{Book, LAYERS, LEVELS};
use super::BookComparer;

/// Updates of a sheet: from creation, and of books with stray counts and marks.
const FROM_CREATION: usize = 384;
const STRAY: usize = 128;
pub const UPDATES: usize = FROM_CREATION + STRAY;

/// Starts and ends past 32 bits, and at their end.
const FAR: [u64; 5] = [
    u32::MAX as u64,
    1 << 32,
    (1 << 32) + 1,
    u64::MAX - 1,
    u64::MAX,
];

/// What is no kind, and what would be one if it were cut.
const ODD_KINDS: [u64; 5] = [3, 256, 1 << 32, (1 << 32) + 1, u64::MAX];

impl BookComparer<'_> {
    /// Updates of books of a sheet's textures, and of stray ones.
    pub fn compare_sequences(&mut self, name: &dyn Display, sheet: &Sheet, rng: &mut Rng) {
        let mut books: Vec<Book> = Vec::new();
        for texture in &sheet.textures {
            books.extend(self.create(name, texture));
        }
        let mut left = FROM_CREATION;
        while left > 0 && !books.is_empty() && !self.has_seen_enough() {
            let book = rng.pick(&books);
            let most = (4 * book.levels * book.layers) as usize;
            let updates = match rng.below(4) {
                0 => left,
                _ => left.min(1 + rng.index(most)),
            };
            self.compare_from_creation(name, book, updates, rng);
            left -= updates;
        }
        let mut left = STRAY;
        while left > 0 && !self.has_seen_enough() {
            let updates = left.min(1 + rng.index(32));
            self.compare_stray(name, updates, rng);
            left -= updates;
        }
    }

    /// A sequence ends at its first difference: what follows is no other.
    fn compare_from_creation(
        &mut self,
        name: &dyn Display,
        book: Book,
        updates: usize,
        rng: &mut Rng,
    ) {
        let mut tracked = Tracked::new(book);
        let mut applied = Vec::new();
        for _ in 0..updates {
            let (update, room) = random_update(rng, &tracked.book);
            let Some(answer) = self.update_tracked(name, &mut tracked, &update, room) else {
                return;
            };
            if answer.number == 0 && update.words[0] != model::NONE {
                applied.push(update);
            }
        }
        if self.read(name, &tracked.book) {
            self.hold_to_history(name, &tracked.book, &applied);
        }
    }

    /// A place is marked exactly when some range that was applied held it.
    fn hold_to_history(&mut self, name: &dyn Display, book: &Book, applied: &[Update]) {
        for level in 0..LEVELS as u32 {
            for layer in 0..LAYERS as u32 {
                let is_held = applied.iter().any(|update| {
                    let [_, start, end] = update.words;
                    update.level == level && (start..end).contains(&layer.into())
                });
                let is_marked = book.marks[model::place(level, layer)] != 0;
                if is_held != is_marked {
                    self.differ(name, &(level, layer, applied), &is_held, book);
                    return;
                }
            }
        }
    }

    fn compare_stray(&mut self, name: &dyn Display, updates: usize, rng: &mut Rng) {
        let mut book = stray_book(rng);
        for _ in 0..updates {
            let (update, room) = random_update(rng, &book);
            if self.update(name, &mut book, &update, room).is_none() {
                return;
            }
        }
        self.read(name, &book);
    }
}

/// A book as some caller might lend it.
fn stray_book(rng: &mut Rng) -> Book {
    let levels = match rng.below(8) {
        0 => rng.pick(&[0, 15, 16, 256, u32::MAX]),
        1 => 14,
        _ => rng.between(1, 14),
    };
    let layers = match rng.below(8) {
        0 => rng.pick(&[0, 257, 258, 1 << 16, u32::MAX]),
        1 => 256,
        2 => rng.between(1, 256),
        _ => rng.between(1, 8),
    };
    let mut book = Book::with(levels, layers, 0);
    let percent = rng.pick(&[0, 10, 50, 90, 99, 100]);
    for mark in &mut book.marks {
        if rng.chance(percent) {
            *mark = rng.pick(&[1, 1, 2, 128, 254, 255]);
        }
    }
    book
}

/// A range at a level, mostly of the book's, and room for its places, or not.
fn random_update(rng: &mut Rng, book: &Book) -> (Update, usize) {
    let level = match rng.below(16) {
        0 => rng.pick(&[book.levels, 13, 14, 255, u32::MAX]),
        _ => rng.below(u64::from(book.levels).max(1)) as u32,
    };
    let kind = match rng.below(16) {
        0 => model::NONE,
        1 => rng.pick(&ODD_KINDS),
        2..=7 => model::IMPLICIT,
        _ => model::NEEDED,
    };
    let [start, end] = random_layers(rng, book.layers.into());
    let update = Update {
        level,
        words: [kind, start, end],
    };
    let needed = model::update(&mut book.clone(), &update, MOST_NUMBERS)
        .places
        .len();
    let room = match rng.below(8) {
        0 => needed.saturating_sub(1),
        1 => needed,
        2 => needed + 1,
        3 => rng.index(needed + 2),
        4 => rng.pick(&[0, 1, 2, 3]),
        _ => MOST_NUMBERS,
    };
    (update, room)
}

/// First and end of a range.
fn random_layers(rng: &mut Rng, layers: u64) -> [u64; 2] {
    let start = rng.below(layers + 1);
    match rng.below(16) {
        0 => [start, layers + 1],
        1 => [start + 1, start],
        2 => [rng.below(layers + 3), rng.below(layers + 3)],
        3 if rng.chance(50) => [rng.pick(&FAR), start],
        3 => [start, rng.pick(&FAR)],
        4 => [start, start],
        5 => [0, layers],
        6..=8 => {
            let other = rng.below(layers + 1);
            [start.min(other), start.max(other)]
        }
        _ => [start, layers.min(start + 1 + rng.below(4))],
    }
}
