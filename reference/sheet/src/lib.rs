//! Job sheets run through the copy functions of wgpu-core.
//!
//! A [`Sheet`] is read by [`parse`], its records are turned into the objects
//! of the copy functions by [`Objects::new`], and [`run_copy`] runs one copy; a
//! write from memory it asks for in two ways, which must agree, and ends that the
//! Rust wraps it makes whole. [`write_listing`] puts all of that together.
//!
//! ```
//! use copy_sheet::{parse, run_copy, Objects, Outcome, Recorder};
//!
//! let sheet = parse(b"1\n1 1\n0\n2\n16 4\n16 8\n1\n1 0 4 1 0 -\n").unwrap();
//! let mut objects = Objects::new(&sheet);
//! let mut recorder = Recorder::new();
//! let outcome = run_copy(&mut recorder, &mut objects, &sheet.copies[0]);
//! assert_eq!(outcome, Outcome::Accepted { bytes_checked: 12 });
//! assert_eq!(recorder.encoder().buffer_copies.len(), 1);
//! assert_eq!(recorder.init_actions().len(), 2);
//! ```

mod agreement;
mod bounds;
mod ends;
mod listing;
mod parse;
mod prepared;
mod records;
mod refusal;
mod run;

pub use agreement::is_left_out_of_agreement;
pub use bounds::{largest_level_count, MAX_BUFFER_SIZE};
pub use listing::{
    append_region_numbers, buffer_copy_numbers, buffer_texture_copy_numbers, sheet_text,
    texture_copy_numbers, write_listing, Listing, ABSENT,
};
pub use parse::{parse, IllSheet, MAX_COPIES, MAX_RECORDS, MAX_SHEET_BYTES};
pub use prepared::Prepared;
pub use records::{
    Buffer, BufferView, Copy, CopyKind, Device, Extent, MemoryView, Sheet, Texture, TextureView,
};
pub use reference_core::{CommandEncoderError, InitAction, MemoryInitKind, Recorder};
pub use refusal::{Refusal, Side};
pub use run::{record_copy, run_copy, silence_copy_panics, Objects, Outcome};
