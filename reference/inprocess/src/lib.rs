//! The planner linked into this process and compared with the Rust, copy by
//! copy.
//!
//! A [`Comparer`] runs each copy through the Rust's function, through the
//! planner's crate and through the planner's C functions, and holds the
//! [`Answer`]s to each other. [`Records`] and [`Call`] are records and copies in
//! the types of the planner's crate. A [`BookComparer`] does the same with the
//! planner's books.

mod answer;
mod books;
mod c;
mod calls;
mod comparer;
mod given;
mod plant;
mod rust;
mod small;
mod tally;

pub use answer::{init_action_numbers, init_range_numbers, Answer, RangeNumbers};
pub use books::{
    plant_from_name, Book, BookComparer, BookTally, Functions, LAYERS, LEVELS, MARKS, PLANNER,
    PLANTS as BOOK_PLANTS, UPDATES as BOOK_UPDATES,
};
pub use calls::{Call, Numbered, Records, Rooms, Visitor};
pub use comparer::{Comparer, Reports};
pub use given::Given;
pub use plant::{Plant, PLANTS};
pub use small::SMALL;
pub use tally::Tally;
