//! Every small book in every state, and every range around it.

use super::comparer::Tracked;
use super::model::{self, Update};
use super::planner::Book;
use super::BookComparer;

const MOST_LEVELS: u32 = 2;
const MOST_LAYERS: u32 = 4;

/// None, implicitly initialised, needs memory, and a number that is no kind.
const KINDS: std::ops::RangeInclusive<u64> = 0..=3;

/// Starts and ends, and levels, up to one past the largest book's.
const LAST_END: u64 = MOST_LAYERS as u64 + 1;

/// One more than two for each layer.
const MOST_ROOM: usize = 2 * MOST_LAYERS as usize + 1;

/// Marks of all sorts: any byte that is not 0 is one.
const BYTES: [u8; 4] = [1, 2, 128, 255];

/// By turns, nothing and everything outside a book's counts is marked.
const OUTSIDE: [u8; 2] = [0, 7];

impl BookComparer<'_> {
    /// One share of so many of the small cases.
    pub fn compare_small(&mut self, share: u64, shares: u64) {
        let mut number = 0;
        for levels in 0..=MOST_LEVELS {
            for layers in 0..=MOST_LAYERS {
                for state in 0..1 << (levels * layers) {
                    if number % shares == share && !self.has_seen_enough() {
                        let outside = OUTSIDE[number as usize % OUTSIDE.len()];
                        self.compare_state(Book::with(levels, layers, outside), state);
                    }
                    number += 1;
                }
            }
        }
    }

    /// The bits of a state are layers, level after level.
    fn compare_state(&mut self, book: Book, state: u32) {
        let tracked = in_state(book, state);
        let (levels, layers) = (book.levels, book.layers);
        let name = format_args!("small, {levels} levels, {layers} layers, state {state:b}");
        self.read(&name, &tracked.book);
        for level in 0..=MOST_LEVELS {
            for kind in KINDS {
                if self.has_seen_enough() {
                    return;
                }
                for start in 0..=LAST_END {
                    for end in 0..=LAST_END {
                        let words = [kind, start, end];
                        for room in 0..=MOST_ROOM {
                            let update = Update { level, words };
                            self.update_tracked(&name, &mut tracked.clone(), &update, room);
                        }
                    }
                }
            }
        }
    }
}

/// The book's marks outside its counts stay.
fn in_state(book: Book, state: u32) -> Tracked {
    let mut tracked = Tracked::new(book);
    for bit in 0..book.levels * book.layers {
        let (level, layer) = (bit / book.layers, bit % book.layers);
        let mark = &mut tracked.book.marks[model::place(level, layer)];
        if state >> bit & 1 == 0 {
            *mark = 0;
            continue;
        }
        *mark = BYTES[bit as usize % BYTES.len()];
        let [levels, layers] = [level..level + 1, layer..layer + 1];
        let tracker = &mut tracked.tracker;
        tracker.apply(levels, layers, false, &mut Vec::new());
    }
    tracked
}
