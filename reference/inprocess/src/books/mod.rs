//! The planner's books of what has been written of textures, held to a model and
//! to the Rust's tracker.

mod comparer;
mod copies;
mod model;
mod planner;
mod plant;
mod sequences;
mod small;
mod tally;

pub use comparer::BookComparer;
pub use planner::{Book, Functions, LAYERS, LEVELS, MARKS, PLANNER};
pub use plant::{plant_from_name, PLANTS};
pub use sequences::UPDATES;
pub use tally::BookTally;
