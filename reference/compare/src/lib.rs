//! A planner program compared with the Rust, listing by listing.
//!
//! A [`Comparer`] starts a [`Planner`] for each sheet, asks the Rust for the
//! same sheet in process, and counts in a [`Tally`] what the sheets held and
//! where the listings differ. [`SETS`] are complete small spaces of sheets,
//! [`replay_items`] a fixed list of sheets with the Rust's answers.

mod comparer;
mod packer;
mod planner;
mod plant;
mod points;
mod replay;
mod sets;
mod tally;

pub use comparer::{Comparer, Limits};
pub use packer::{Case, Emit, Packer};
pub use planner::{Answer, Planner};
pub use plant::Plant;
pub use points::{bench_points, difference_sheets, sheet_lines, starred_points};
pub use replay::{replay_items, replay_text, Item, Replay, REACHABLE};
pub use sets::{Set, SETS};
pub use tally::Tally;

use copy_sheet::write_listing;

/// The Rust's listing of a sheet.
pub fn reference_listing(sheet: &[u8]) -> Vec<u8> {
    let mut listing = Vec::new();
    write_listing(sheet, &mut listing).expect("a Vec can be written");
    listing
}
