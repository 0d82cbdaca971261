//! What has to come of a book, written after the customer's request.

use copy_sheet::Texture;

use super::planner::{Book, LAYERS, LEVELS};

/// The kinds of a range; any other number is as `NEEDED`.
pub const NONE: u64 = 0;
pub const IMPLICIT: u64 = 1;
pub const NEEDED: u64 = 2;

/// The refusals.
pub const ILL_RECORD: u32 = 2;
pub const SHORT: u32 = 38;
pub const OUTSIDE: u32 = 39;

/// A range of a copy, at its level: kind, start, end.
#[derive(Clone, Copy, Debug)]
pub struct Update {
    pub level: u32,
    pub words: [u64; 3],
}

/// An answer: 0 or a refusal, how many places are told, and level and layer of each.
#[derive(Clone, Debug, Default, Eq, PartialEq)]
pub struct Answer {
    pub number: u32,
    pub count: u64,
    pub places: Vec<u64>,
}

impl Answer {
    fn refused(number: u32) -> Self {
        Self {
            number,
            ..Self::default()
        }
    }

    /// The places, or a refusal where they have no room.
    fn told(level: u32, layers: &[u32], room: usize) -> Self {
        if room < 2 * layers.len() {
            return Self::refused(SHORT);
        }
        Self {
            number: 0,
            count: layers.len() as u64,
            places: layers
                .iter()
                .flat_map(|layer| [level, *layer].map(u64::from))
                .collect(),
        }
    }
}

/// A book of a texture of which nothing is written, and 0; or a refusal, and a book
/// without a level or a layer.
pub fn created(texture: &Texture) -> (u32, Book) {
    if !texture.is_within_bounds() {
        return (ILL_RECORD, Book::with(0, 0, 0));
    }
    let layers = match texture.dimension {
        2 => texture.depth,
        _ => 1,
    };
    (0, Book::with(texture.levels, layers, 0))
}

/// Applies a range to a book, with room for so many numbers.
pub fn update(book: &mut Book, update: &Update, room: usize) -> Answer {
    let Update { level, words } = *update;
    let [kind, start, end] = words;
    if kind == NONE {
        return Answer::default();
    }
    if !is_book(book) || level >= book.levels || start > end || end > book.layers.into() {
        return Answer::refused(OUTSIDE);
    }
    // The ends are at most the layers, which have 32 bits.
    let held = start as u32..end as u32;
    let to_clear: Vec<u32> = match kind {
        IMPLICIT => vec![],
        _ => held
            .clone()
            .filter(|layer| !is_marked(book, level, *layer))
            .collect(),
    };
    let answer = Answer::told(level, &to_clear, room);
    if answer.number == 0 {
        for layer in held {
            book.marks[place(level, layer)] = 1;
        }
    }
    answer
}

/// The layers of a level that are not written, with room for so many numbers.
pub fn missing(book: &Book, level: u32, room: usize) -> Answer {
    if !is_book(book) || level >= book.levels {
        return Answer::refused(OUTSIDE);
    }
    let layers: Vec<u32> = (0..book.layers)
        .filter(|layer| !is_marked(book, level, *layer))
        .collect();
    Answer::told(level, &layers, room)
}

pub fn is_written(book: &Book, level: u32, layer: u32) -> bool {
    is_book(book) && level < book.levels && layer < book.layers && is_marked(book, level, layer)
}

/// Nothing is filled that has no place.
pub fn is_filled(book: &Book) -> bool {
    let is_full = |level| (0..book.layers).all(|layer| is_marked(book, level, layer));
    is_book(book) && book.levels > 0 && book.layers > 0 && (0..book.levels).all(is_full)
}

/// Whether there are marks for all that a book counts.
pub fn is_book(book: &Book) -> bool {
    book.levels <= LEVELS as u32 && book.layers <= LAYERS as u32
}

fn is_marked(book: &Book, level: u32, layer: u32) -> bool {
    book.marks[place(level, layer)] != 0
}

pub fn place(level: u32, layer: u32) -> usize {
    level as usize * LAYERS + layer as usize
}
