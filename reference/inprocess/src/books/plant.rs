//! Planners with a fault, to see that the comparison finds it.

use super::model::{IMPLICIT, NEEDED, NONE, OUTSIDE, SHORT};
use super::planner::{Book, Functions, LAYERS, LEVELS, PLANNER};

/// A name, and functions of which one is not as it should be.
pub type Plant = (&'static str, Functions);

pub fn plant_from_name(name: &str) -> Option<Functions> {
    let found = PLANTS.iter().find(|(other, _)| *other == name);
    found.map(|(_, functions)| *functions)
}

type UpdateBook = fn(&mut Book, u32, &[u64; 3], &mut [u64], &mut u64) -> u32;
type Missing = fn(&Book, u32, &mut [u64], &mut u64) -> u32;

const fn updating(name: &'static str, update: UpdateBook) -> Plant {
    (name, Functions { update, ..PLANNER })
}

const fn missing(name: &'static str, missing: Missing) -> Plant {
    (name, Functions { missing, ..PLANNER })
}

const fn creating(name: &'static str, new_book: fn(&[u32; 8], &mut Book) -> u32) -> Plant {
    (
        name,
        Functions {
            new_book,
            ..PLANNER
        },
    )
}

const fn written(name: &'static str, is_written: fn(&Book, u32, u32) -> bool) -> Plant {
    let functions = Functions {
        is_written,
        ..PLANNER
    };
    (name, functions)
}

const fn filled(name: &'static str, is_filled: fn(&Book) -> bool) -> Plant {
    let functions = Functions {
        is_filled,
        ..PLANNER
    };
    (name, functions)
}

pub const PLANTS: [Plant; 27] = [
    updating(
        "end_included",
        |book, level, &[kind, start, end], places, count| {
            let range = [kind, start, end.saturating_add(1)];
            (PLANNER.update)(book, level, &range, places, count)
        },
    ),
    updating(
        "last_left_out",
        |book, level, &[kind, start, end], places, count| {
            let range = [kind, start, end - u64::from(start < end)];
            (PLANNER.update)(book, level, &range, places, count)
        },
    ),
    updating("marked_under_38", |book, level, range, places, count| {
        let number = (PLANNER.update)(book, level, range, places, count);
        if number == SHORT {
            let implicit = [IMPLICIT, range[1], range[2]];
            (PLANNER.update)(book, level, &implicit, places, count);
        }
        number
    }),
    updating("written_under_38", |book, level, range, places, count| {
        let number = (PLANNER.update)(book, level, range, places, count);
        if number == SHORT {
            places.fill(level.into());
        }
        number
    }),
    // Room for the whole range is asked for, though some of it is written.
    updating("room_for_range", |book, level, range, places, count| {
        let [kind, start, end] = *range;
        let needed = end.saturating_sub(start).saturating_mul(2);
        let is_short = kind > IMPLICIT && (places.len() as u64) < needed;
        let places = if is_short { &mut [] } else { places };
        if is_short && is_inside(book, level, range) {
            *count = 0;
            return SHORT;
        }
        (PLANNER.update)(book, level, range, places, count)
    }),
    updating("room_for_implicit", |book, level, range, places, count| {
        let [kind, start, end] = *range;
        let is_short = kind == IMPLICIT && (places.len() as u64) < end.saturating_sub(start);
        if is_short && is_inside(book, level, range) {
            *count = 0;
            return SHORT;
        }
        (PLANNER.update)(book, level, range, places, count)
    }),
    updating(
        "implicit_cleared",
        |book, level, &[kind, start, end], places, count| {
            let kind = if kind == IMPLICIT { NEEDED } else { kind };
            (PLANNER.update)(book, level, &[kind, start, end], places, count)
        },
    ),
    updating("implicit_unmarked", |book, level, range, places, count| {
        let before = *book;
        let number = (PLANNER.update)(book, level, range, places, count);
        if range[0] == IMPLICIT {
            *book = before;
        }
        number
    }),
    updating(
        "none_marked",
        |book, level, &[kind, start, end], places, count| {
            let kind = if kind == NONE { IMPLICIT } else { kind };
            (PLANNER.update)(book, level, &[kind, start, end], places, count)
        },
    ),
    // A number that is no kind is taken for none.
    updating(
        "odd_kind_ignored",
        |book, level, &[kind, start, end], places, count| {
            let kind = if kind > NEEDED { NONE } else { kind };
            (PLANNER.update)(book, level, &[kind, start, end], places, count)
        },
    ),
    updating("38_before_39", |book, level, range, places, count| {
        let number = (PLANNER.update)(book, level, range, places, count);
        match number {
            OUTSIDE if places.is_empty() => SHORT,
            _ => number,
        }
    }),
    updating("39_of_empty", |book, level, range, places, count| {
        if range[0] != NONE && range[1] == range[2] {
            *count = 0;
            return OUTSIDE;
        }
        (PLANNER.update)(book, level, range, places, count)
    }),
    updating("39_of_last", |book, level, range, places, count| {
        if range[0] != NONE && range[2] == book.layers.into() {
            *count = 0;
            return OUTSIDE;
        }
        (PLANNER.update)(book, level, range, places, count)
    }),
    // The marks have room for any level and layer below the bounds.
    updating("bounds_for_counts", |book, level, range, places, count| {
        let (levels, layers) = (book.levels, book.layers);
        [book.levels, book.layers] = [LEVELS as u32, LAYERS as u32];
        let number = (PLANNER.update)(book, level, range, places, count);
        [book.levels, book.layers] = [levels, layers];
        number
    }),
    updating("counts_cut", |book, level, range, places, count| {
        let (levels, layers) = (book.levels, book.layers);
        book.levels = levels.min(LEVELS as u32);
        book.layers = layers.min(LAYERS as u32);
        let number = (PLANNER.update)(book, level, range, places, count);
        [book.levels, book.layers] = [levels, layers];
        number
    }),
    updating(
        "end_cut",
        |book, level, &[kind, start, end], places, count| {
            let range = [kind, start, end % (1 << 32)];
            (PLANNER.update)(book, level, &range, places, count)
        },
    ),
    updating("written_behind", |book, level, range, places, count| {
        let number = (PLANNER.update)(book, level, range, places, count);
        if let Some(behind) = places.get_mut(2 * *count as usize) {
            *behind = 0;
        }
        number
    }),
    updating("numbers_counted", |book, level, range, places, count| {
        let number = (PLANNER.update)(book, level, range, places, count);
        *count *= 2;
        number
    }),
    updating("count_kept", |book, level, range, places, count| {
        let before = *count;
        let number = (PLANNER.update)(book, level, range, places, count);
        if number != 0 {
            *count = before;
        }
        number
    }),
    updating("layer_first", |book, level, range, places, count| {
        let number = (PLANNER.update)(book, level, range, places, count);
        for place in places[..2 * *count as usize].chunks_mut(2) {
            place.swap(0, 1);
        }
        number
    }),
    // One bit of a mark is looked at.
    updating("bit_of_mark", |book, level, range, places, count| {
        for mark in &mut book.marks {
            *mark &= 1;
        }
        (PLANNER.update)(book, level, range, places, count)
    }),
    missing("room_for_level", |book, level, places, count| {
        let is_short = places.len() < 2 * book.layers as usize;
        let number = (PLANNER.missing)(book, level, &mut places[..], count);
        if is_short && number == 0 {
            *count = 0;
            return SHORT;
        }
        number
    }),
    creating("layers_of_depth", |texture, book| {
        let number = (PLANNER.new_book)(texture, book);
        let [_, dimension, _, _, depth, ..] = *texture;
        if number == 0 && dimension == 3 {
            book.layers = depth;
        }
        number
    }),
    creating("ill_record_kept", |texture, book| {
        let number = (PLANNER.new_book)(texture, book);
        if number != 0 {
            book.levels = texture[5];
        }
        number
    }),
    written("written_past_counts", |book, level, layer| {
        let whole = Book {
            levels: LEVELS as u32,
            layers: LAYERS as u32,
            ..*book
        };
        (PLANNER.is_written)(&whole, level, layer)
    }),
    filled("filled_by_first_level", |book| {
        let levels = book.levels.min(1);
        (PLANNER.is_filled)(&Book { levels, ..*book })
    }),
    filled("filled_without_places", |book| {
        (PLANNER.is_filled)(book) || book.levels == 0 || book.layers == 0
    }),
];

/// Whether a range with a kind is not refused 39.
fn is_inside(book: &Book, level: u32, &[_, start, end]: &[u64; 3]) -> bool {
    let (mut book, mut count) = (*book, 0);
    (PLANNER.update)(
        &mut book,
        level,
        &[IMPLICIT, start, end],
        &mut [],
        &mut count,
    ) == 0
}
