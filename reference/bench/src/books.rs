//! Updates of a book, over the same in plain C.

use std::hint::black_box;

use copy_compare::{Book, LAYERS, LEVELS, PLANNER};

use crate::race::{Race, Side};

/// Layers of a range.
const COUNTS: [usize; 4] = [1, 6, 64, LAYERS];

/// Calls of a pass: one would be too short to be timed.
const CALLS: usize = 64;

/// The level that is updated.
const LEVEL: u32 = 5;

/// A range that needs memory.
const NEEDS_MEMORY: u64 = 2;

/// An update, as the planner's crate of comparisons calls it.
trait UpdateBook: Fn(&mut Book, u32, &[u64; 3], &mut [u64], &mut u64) -> u32 + Copy + 'static {}

impl<F> UpdateBook for F where
    F: Fn(&mut Book, u32, &[u64; 3], &mut [u64], &mut u64) -> u32 + Copy + 'static
{
}

extern "C" {
    fn plain_update_book(
        book: &mut Book,
        level: u32,
        range: &[u64; 3],
        places: *mut u64,
        len: usize,
        count: &mut u64,
    ) -> u32;

    fn plain_is_filled(book: &Book) -> bool;
}

fn plain_update(
    book: &mut Book,
    level: u32,
    range: &[u64; 3],
    places: &mut [u64],
    count: &mut u64,
) -> u32 {
    let (pointer, len) = (places.as_mut_ptr(), places.len());
    // SAFETY: pointer and length are those of one slice, and nothing that is written
    // overlaps with anything else.
    unsafe { plain_update_book(book, level, range, pointer, len, count) }
}

fn plain_filled(book: &Book) -> bool {
    // SAFETY: the function only reads the book.
    unsafe { plain_is_filled(book) }
}

/// A book of the largest texture, a range of one of its levels, and the slice lent.
#[derive(Clone)]
struct Given {
    book: Book,
    range: [u64; 3],
    /// Whether the range's marks are set to 0 before each call.
    clears: bool,
    places: Vec<u64>,
}

impl Given {
    fn new(layers: usize, mark: u8) -> Self {
        let start = ((LAYERS - layers) / 2) as u64;
        Self {
            book: Book::with(LEVELS as u32, LAYERS as u32, mark),
            range: [NEEDS_MEMORY, start, start + layers as u64],
            clears: mark == 0,
            places: vec![0; 2 * LAYERS],
        }
    }

    /// Brings the marks back to what they were before the call.
    #[inline(always)]
    fn restore(&mut self) {
        if self.clears {
            let row = LEVEL as usize * LAYERS;
            let [_, start, end] = self.range.map(|number| number as usize);
            self.book.marks[row + start..row + end].fill(0);
        }
    }

    #[inline(always)]
    fn update(&mut self, update: impl UpdateBook) -> u64 {
        self.restore();
        let mut count = 0;
        let range = black_box(&self.range);
        let number = update(
            black_box(&mut self.book),
            LEVEL,
            range,
            black_box(&mut self.places),
            &mut count,
        );
        u64::from(number) + count
    }

    /// What is left by a call: the number and the count, the book, the places.
    fn outcome(&self, update: impl UpdateBook) -> (u64, Book, Vec<u64>) {
        let mut given = self.clone();
        let answer = given.update(update);
        (answer, given.book, given.places)
    }
}

/// The planner over plain C, for ranges of which nothing or everything is written.
pub fn races() -> Vec<Race<'static>> {
    let mut races = Vec::new();
    for (name, mark) in [("unmarked", 0), ("marked", 1)] {
        races.extend(COUNTS.map(|count| update_race(name, count, mark)));
    }
    races.push(filled_race());
    races
}

fn update_race(marks: &str, layers: usize, mark: u8) -> Race<'static> {
    let given = Given::new(layers, mark);
    let planner = |book: &mut Book, level, range: &_, places: &mut _, count: &mut _| {
        (PLANNER.update)(book, level, range, places, count)
    };
    let outcome = given.outcome(plain_update);
    assert_eq!(outcome, given.outcome(planner), "{layers} layers, {marks}");
    let mut sides = vec![
        update_side("plain C", &given, plain_update),
        update_side("planner", &given, planner),
    ];
    let (places, how) = match mark {
        0 => (
            layers,
            "the marks are cleared before each call, on both sides alike",
        ),
        _ => (0, "the marks stay as they are"),
    };
    if given.clears {
        sides.push(clearing_side(given));
    }
    Race {
        name: format!("book_{marks}_{layers}_layers"),
        about: format!("an update that needs memory, {places} places told; {how}"),
        sides,
    }
}

fn update_side(name: &'static str, given: &Given, update: impl UpdateBook) -> Side<'static> {
    let mut given = given.clone();
    Side::new(name, CALLS, move || {
        (0..CALLS).map(|_| given.update(update)).sum()
    })
}

/// What both sides of a race have of the clearing in their times.
fn clearing_side(mut given: Given) -> Side<'static> {
    Side::new("the clearing alone", CALLS, move || {
        for _ in 0..CALLS {
            given.restore();
            black_box(&mut given.book);
        }
        0
    })
}

fn filled_race() -> Race<'static> {
    let book = Book::with(LEVELS as u32, LAYERS as u32, 1);
    let planner = |book: &Book| (PLANNER.is_filled)(book);
    assert!(planner(&book) && plain_filled(&book));
    Race {
        name: "book_is_filled".into(),
        about: format!("a full book of {LEVELS} levels and {LAYERS} layers"),
        sides: vec![
            Side::new("plain C", 1, move || {
                u64::from(plain_filled(black_box(&book)))
            }),
            Side::new("planner", 1, move || u64::from(planner(black_box(&book)))),
        ],
    }
}
