//! What is timed: the call of a copy, and the reading of all that it gives.

use std::hint::black_box;

use copy_compare::{init_action_numbers, init_range_numbers, Call, Numbered, Rooms, Visitor};
use copy_planner::{Plan, TransferError};
use copy_sheet::{
    buffer_copy_numbers, buffer_texture_copy_numbers, texture_copy_numbers, CommandEncoderError,
    Prepared, Recorder,
};

/// A call of the Rust.
pub trait Record: Fn(&Prepared, &mut Recorder) -> Result<(), CommandEncoderError> {}

impl<F: Fn(&Prepared, &mut Recorder) -> Result<(), CommandEncoderError>> Record for F {}

/// A checksum of a range or a region. A plain sum would be made of wide loads,
/// which wait for the narrow stores just before them, on both sides.
#[inline]
fn sum(numbers: impl AsRef<[u64]>) -> u64 {
    let numbers = numbers.as_ref().iter();
    numbers.fold(0, |sum: u64, number| {
        sum.wrapping_mul(2).wrapping_add(*number)
    })
}

#[inline]
fn sum_all(sums: impl Iterator<Item = u64>) -> u64 {
    sums.fold(0, u64::wrapping_add)
}

/// Runs each copy through the Rust.
pub fn rust_pass(copies: &[Prepared], recorder: &mut Recorder, record: impl Record) -> u64 {
    sum_all(
        copies
            .iter()
            .map(|copy| match record(black_box(copy), recorder) {
                Ok(()) => recorded(recorder),
                Err(error) => {
                    black_box(&error);
                    0
                }
            }),
    )
}

/// Runs each copy through the Rust, and leaves what it recorded unread.
pub fn recording_pass(copies: &[Prepared], recorder: &mut Recorder, record: impl Record) -> u64 {
    sum_all(copies.iter().map(|copy| {
        let recorded = record(black_box(copy), recorder);
        black_box(&recorded);
        u64::from(recorded.is_ok())
    }))
}

/// All ranges and regions of the Rust's last copy.
#[inline]
fn recorded(recorder: &Recorder) -> u64 {
    let encoder = recorder.encoder();
    let ranges = recorder
        .init_actions()
        .iter()
        .map(|action| sum(init_action_numbers(action)));
    let buffers = encoder
        .buffer_copies
        .iter()
        .map(|region| sum(buffer_copy_numbers(region)));
    let buffers_textures = encoder
        .buffer_texture_copies
        .iter()
        .map(|region| sum(buffer_texture_copy_numbers(region)));
    let textures = encoder
        .texture_copies
        .iter()
        .map(|region| sum(texture_copy_numbers(region)));
    sum_all(ranges)
        .wrapping_add(sum_all(buffers))
        .wrapping_add(sum_all(buffers_textures))
        .wrapping_add(sum_all(textures))
}

/// Plans each copy in room that is used again, as the recorder is.
pub fn planner_pass(calls: &[Call], rooms: &mut Rooms) -> u64 {
    sum_all(
        calls
            .iter()
            .map(|call| black_box(call).plan_in(rooms, Read)),
    )
}

/// Plans each copy by the function that returns its plan.
pub fn returning_pass(calls: &[Call]) -> u64 {
    sum_all(calls.iter().map(|call| black_box(call).plan(Read)))
}

/// Plans each copy in room that is used again, and leaves the answer unread.
pub fn planning_pass(calls: &[Call], rooms: &mut Rooms) -> u64 {
    sum_all(
        calls
            .iter()
            .map(|call| black_box(call).plan_in(rooms, LeaveUnread)),
    )
}

/// Only sees that there is an answer.
struct LeaveUnread;

impl Visitor for LeaveUnread {
    type Output = u64;

    #[inline]
    fn visit<R: Numbered>(self, planned: Result<&mut Plan<R>, TransferError>) -> u64 {
        black_box(&planned);
        u64::from(planned.is_ok())
    }
}

/// Reads a plan out.
struct Read;

impl Visitor for Read {
    type Output = u64;

    #[inline(always)]
    fn visit<R: Numbered>(self, planned: Result<&mut Plan<R>, TransferError>) -> u64 {
        match planned {
            Ok(plan) => {
                let ranges = plan.ranges().map(|range| sum(init_range_numbers(&range)));
                sum_all(ranges).wrapping_add(asked(plan))
            }
            Err(error) => {
                black_box(&error);
                0
            }
        }
    }
}

/// All regions left of a plan, asked for one by one.
#[inline(always)]
pub fn asked<R: Numbered>(plan: &mut Plan<R>) -> u64 {
    let mut all = 0u64;
    while let Some(region) = plan.next_region() {
        all = all.wrapping_add(sum(region.numbers()));
    }
    all
}
