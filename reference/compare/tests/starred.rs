//! The starred points that are proved of the definitions are the Rust's answers,
//! with ends made whole, and are on the list that the planner replays.

use sheet_compare::{reference_listing, replay_text, starred_points, Item};

const LIST: &[u8] = include_bytes!("../../../crates/sheet_replay/stdin");

#[test]
fn there_are_as_many_as_in_the_list() {
    assert_eq!(starred_points().len(), 10);
}

#[test]
fn their_listings_are_the_rusts() {
    for (sheet, listing) in starred_points() {
        assert_eq!(reference_listing(&sheet), listing);
    }
}

#[test]
fn they_are_replayed() {
    for (sheet, listing) in starred_points() {
        let mut text = replay_text(&[Item { sheet, listing }]);
        text.truncate(text.len() - "end\n".len());
        assert!(LIST.windows(text.len()).any(|part| part == text));
    }
}
