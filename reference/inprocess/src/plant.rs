//! Faults planted in the planner's answer, to see that the comparison finds
//! them.

use copy_sheet::{Outcome, Refusal};

use crate::answer::{buffer_resource, range_numbers};
use crate::Given;

/// A fault, and how it is put into an answer; false where there is no place.
#[derive(Clone, Copy, Debug)]
pub struct Plant {
    pub name: &'static str,
    put: fn(&mut Given) -> bool,
}

impl Plant {
    pub fn from_name(name: &str) -> Option<Self> {
        PLANTS.into_iter().find(|plant| plant.name == name)
    }

    /// Puts the fault into an answer; false if it has no place for it.
    pub fn put_into(self, given: &mut Given) -> bool {
        (self.put)(given)
    }
}

const fn plant(name: &'static str, put: fn(&mut Given) -> bool) -> Plant {
    Plant { name, put }
}

/// Where 32 bits end.
const WRAP: u64 = 1 << 32;

/// Each is one number, range, region or verdict that is not as it should be.
pub const PLANTS: [Plant; 23] = [
    plant("accepted", |given| {
        let is_refused = !given.answer.is_accepted();
        given.accept(0);
        is_refused
    }),
    plant("refused", |given| {
        let is_accepted = given.answer.is_accepted();
        given.refuse(Refusal::INDEX_PAST_SECTION);
        is_accepted
    }),
    plant("number", |given| {
        change(given, |refusal| refusal.number += 1)
    }),
    plant("side", |given| change(given, |refusal| refusal.side ^= 3)),
    plant("dimension", |given| {
        change(given, |refusal| refusal.dimension ^= 1)
    }),
    plant("start", |given| {
        change(given, |refusal| refusal.start ^= WRAP)
    }),
    plant("end", |given| change(given, |refusal| refusal.end ^= 1)),
    plant("high_end", |given| {
        change(given, |refusal| refusal.end ^= WRAP)
    }),
    // The bytes of an 8.
    plant("cut_bytes", |given| cut_end(given, &[8])),
    // As the Rust has it; few of them are of a 10.
    plant("cut_end", |given| cut_end(given, &[9, 10])),
    plant("cut_part", |given| cut_end(given, &[10])),
    plant("limit", |given| change(given, |refusal| refusal.limit ^= 1)),
    plant("bytes", |given| match &mut given.answer.outcome {
        Outcome::Accepted { bytes_checked } => {
            *bytes_checked += 1;
            true
        }
        _ => false,
    }),
    plant("range", |given| given.answer.ranges.pop().is_some()),
    plant("buffer_range", |given| {
        let range = given.answer.ranges.last().copied();
        // One more, of a buffer: a write from memory has none.
        given
            .answer
            .ranges
            .extend(range.map(|[_, index, .., start, end, kind]| {
                range_numbers(buffer_resource(index as u32), start, end, kind)
            }));
        range.is_some()
    }),
    plant("range_order", |given| swap_first(&mut given.answer.ranges)),
    plant("range_kind", |given| match given.answer.ranges.last_mut() {
        Some([.., kind]) => {
            *kind ^= 1;
            true
        }
        None => false,
    }),
    plant("region", |given| given.answer.regions.pop().is_some()),
    plant("region_number", |given| {
        change_last(&mut given.answer.regions)
    }),
    plant("region_offset", |given| {
        change_first(&mut given.answer.regions)
    }),
    plant("written_offset", |given| {
        let count = given.answer.regions.len();
        change_first(&mut given.slice[..count])
    }),
    plant("written", |given| {
        let count = given.answer.regions.len();
        change_last(&mut given.slice[..count])
    }),
    plant("behind", |given| change_last(&mut given.slice)),
];

/// Takes the remainder of an end past 32 bits, in refusals with these numbers.
fn cut_end(given: &mut Given, numbers: &[u32]) -> bool {
    match &mut given.answer.outcome {
        Outcome::Refused(refusal) if numbers.contains(&refusal.number) && refusal.end >= WRAP => {
            refusal.end %= WRAP;
            true
        }
        _ => false,
    }
}

fn change(given: &mut Given, change: fn(&mut Refusal)) -> bool {
    match &mut given.answer.outcome {
        Outcome::Refused(refusal) => {
            change(refusal);
            true
        }
        _ => false,
    }
}

fn change_first(numbers: &mut [u64]) -> bool {
    match numbers.first_mut() {
        Some(number) => {
            *number ^= 1;
            true
        }
        None => false,
    }
}

fn change_last(numbers: &mut [u64]) -> bool {
    match numbers.last_mut() {
        Some(number) => {
            *number ^= 1;
            true
        }
        None => false,
    }
}

/// Swaps the first two, if they differ.
fn swap_first<T: PartialEq>(items: &mut [T]) -> bool {
    match items {
        [first, second, ..] if first != second => {
            std::mem::swap(first, second);
            true
        }
        _ => false,
    }
}
