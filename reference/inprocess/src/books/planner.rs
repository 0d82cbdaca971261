//! The planner's C functions on books.

use std::fmt;

/// The most levels and layers of a texture.
pub const LEVELS: usize = 14;
pub const LAYERS: usize = 256;

/// The mark of a level and a layer is at `level * LAYERS + layer`.
pub const MARKS: usize = LEVELS * LAYERS;

/// A book as it is lent to the planner. Nothing is promised of its counts, and any
/// byte that is not 0 is a mark.
#[derive(Clone, Copy, Eq, PartialEq)]
#[repr(C)]
pub struct Book {
    pub levels: u32,
    pub layers: u32,
    pub marks: [u8; MARKS],
}

impl Book {
    /// A book in which every mark is this byte.
    pub const fn with(levels: u32, layers: u32, mark: u8) -> Self {
        Self {
            levels,
            layers,
            marks: [mark; MARKS],
        }
    }
}

impl fmt::Debug for Book {
    /// The counts, and the levels that have marks, a character for each layer.
    fn fmt(&self, formatter: &mut fmt::Formatter<'_>) -> fmt::Result {
        writeln!(formatter, "{} levels, {} layers", self.levels, self.layers)?;
        for (level, marks) in self.marks.chunks(LAYERS).enumerate() {
            if marks.iter().any(|mark| *mark != 0) {
                let signs = marks.iter().map(|mark| match mark {
                    0 => '.',
                    1 => '1',
                    _ => 'x',
                });
                writeln!(formatter, "{level:>2} {}", signs.collect::<String>())?;
            }
        }
        Ok(())
    }
}

// As c/copy_planner.h has them. A C array is a reference here; a slice is a pointer
// and a length.
extern "C" {
    fn copy_planner_new_book(texture: &[u32; 8], book: &mut Book) -> u32;

    fn copy_planner_update_book(
        book: &mut Book,
        mip_level: u32,
        range: &[u64; 3],
        places: *mut u64,
        len: usize,
        count: &mut u64,
    ) -> u32;

    fn copy_planner_book_missing(
        book: &Book,
        mip_level: u32,
        places: *mut u64,
        len: usize,
        count: &mut u64,
    ) -> u32;

    fn copy_planner_book_is_written(book: &Book, mip_level: u32, layer: u32) -> bool;

    fn copy_planner_book_is_filled(book: &Book) -> bool;
}

/// The functions on books, so that others can stand in for them.
#[derive(Clone, Copy, Debug)]
pub struct Functions {
    /// A texture's eight words, and the book that is made; 0 or a refusal.
    pub new_book: fn(&[u32; 8], &mut Book) -> u32,
    /// A book, a level, and a range's kind, start and end; the slice for places, and
    /// how many there are.
    pub update: fn(&mut Book, u32, &[u64; 3], &mut [u64], &mut u64) -> u32,
    pub missing: fn(&Book, u32, &mut [u64], &mut u64) -> u32,
    pub is_written: fn(&Book, u32, u32) -> bool,
    pub is_filled: fn(&Book) -> bool,
}

/// The planner's own.
pub const PLANNER: Functions = Functions {
    new_book,
    update,
    missing,
    is_written,
    is_filled,
};

fn new_book(texture: &[u32; 8], book: &mut Book) -> u32 {
    // SAFETY: the function is total, and both have the lengths that it reads and
    // writes.
    unsafe { copy_planner_new_book(texture, book) }
}

fn update(
    book: &mut Book,
    level: u32,
    range: &[u64; 3],
    places: &mut [u64],
    count: &mut u64,
) -> u32 {
    let (pointer, len) = (places.as_mut_ptr(), places.len());
    // SAFETY: the function is total, pointer and length are those of one slice, and
    // nothing that it writes overlaps with anything else.
    unsafe { copy_planner_update_book(book, level, range, pointer, len, count) }
}

fn missing(book: &Book, level: u32, places: &mut [u64], count: &mut u64) -> u32 {
    let (pointer, len) = (places.as_mut_ptr(), places.len());
    // SAFETY: as above.
    unsafe { copy_planner_book_missing(book, level, pointer, len, count) }
}

fn is_written(book: &Book, level: u32, layer: u32) -> bool {
    // SAFETY: the function is total.
    unsafe { copy_planner_book_is_written(book, level, layer) }
}

fn is_filled(book: &Book) -> bool {
    // SAFETY: the function is total.
    unsafe { copy_planner_book_is_filled(book) }
}
