//! Complete small spaces of sheets.

mod boxes;
mod buffers;
mod bytes;
mod counts;
mod fields;
mod formats;
mod linear;
mod memory;
mod planes;
mod records;
mod rows;
mod usages;

use std::io;

use crate::{bench_points, difference_sheets, Emit};

/// A space of sheets, all of which it hands on.
#[derive(Clone, Copy, Debug)]
pub struct Set {
    pub name: &'static str,
    pub about: &'static str,
    /// Many sheets; a short run takes some of them.
    pub is_large: bool,
    pub sheets: fn(&mut Emit) -> io::Result<()>,
}

/// The complete sets.
pub const SETS: [Set; 16] = [
    Set {
        name: "points",
        about: "bench points, ends past 32 bits and the sheets of docs/DIFFERENCES.md",
        is_large: false,
        sheets: points,
    },
    Set {
        name: "linear",
        about: "offset, bytes per row, rows per image and box of copies with a buffer or memory",
        is_large: true,
        sheets: linear::sheets,
    },
    Set {
        name: "rows",
        about: "the same where dense rows are around 256 bytes",
        is_large: false,
        sheets: rows::sheets,
    },
    Set {
        name: "memory",
        about: "strides, offsets and lengths of writes from memory at the ends of 32 and 64 bits",
        is_large: false,
        sheets: memory::sheets,
    },
    Set {
        name: "formats",
        about:
            "format, aspect, dimension, samples and device facts of copies with a buffer or memory",
        is_large: false,
        sheets: formats::with_buffers,
    },
    Set {
        name: "pairs",
        about: "pairs of formats and aspects of copies between textures",
        is_large: false,
        sheets: formats::between_textures,
    },
    Set {
        name: "planes",
        about: "origins and sizes of copies from the planes of NV12",
        is_large: false,
        sheets: planes::sheets,
    },
    Set {
        name: "usages",
        about: "usages of buffers and textures, and the device facts",
        is_large: false,
        sheets: usages::sheets,
    },
    Set {
        name: "boxes",
        about: "level, origin and size along each axis, at and past the level's end",
        is_large: false,
        sheets: boxes::ranges,
    },
    Set {
        name: "within",
        about: "copies within one texture: layers, depth, levels and aspects",
        is_large: false,
        sheets: boxes::within_one_texture,
    },
    Set {
        name: "buffers",
        about: "offsets and sizes of copies between buffers",
        is_large: false,
        sheets: buffers::sheets,
    },
    Set {
        name: "records",
        about: "texture and buffer records at and past their bounds",
        is_large: true,
        sheets: records::sheets,
    },
    Set {
        name: "cuts",
        about: "a sheet cut at every byte",
        is_large: false,
        sheets: bytes::cuts,
    },
    Set {
        name: "bytes",
        about: "a sheet with each byte replaced, doubled or removed",
        is_large: false,
        sheets: bytes::changes,
    },
    Set {
        name: "fields",
        about: "a sheet with each field replaced by odd ones, each line moved or removed",
        is_large: false,
        sheets: fields::sheets,
    },
    Set {
        name: "counts",
        about: "counts of sections and lengths of sheets at and past their bounds",
        is_large: false,
        sheets: counts::sheets,
    },
];

fn points(emit: &mut Emit) -> io::Result<()> {
    for sheet in bench_points().iter().chain(&difference_sheets()) {
        emit(sheet)?;
    }
    Ok(())
}

/// A sheet with lines of every kind.
fn every_kind_of_line() -> Vec<u8> {
    crate::sheet_lines(
        "1 1",
        &["2 2 8 8 2 1 1 3", "0 3 4 4 4 1 1 3"],
        &["4096 12", "4100 12"],
        &[
            "1 0 4 1 0 -",
            "2 0 0 256 8 0 0 0 0 0 0 8 8 2",
            "3 0 16 256 - 0 0 0 0 1 0 8 8 1",
            "4 1 0 0 0 0 0 1 0 0 0 1 0 4 4 2",
            "5 4096 3 33 - 0 0 0 0 1 0 8 8 1",
        ],
    )
}
