//! The planner's answer, read out in every way that it can be.

use copy_planner::{Plan, TransferError};
use copy_sheet::{Outcome, Refusal};

use crate::answer::{init_range_numbers, Answer};
use crate::calls::{Numbered, Visitor};

/// Stands where nothing was written; no copy has such a number.
pub const GUARD: u64 = 0xa5a5_a5a5_5a5a_5a5a;

/// Numbers after the regions, half of them in the slice that is lent.
const GUARDS: usize = 4;

/// Asking for regions ends here; the largest plan has 512.
pub const MOST_REGIONS: usize = 1_024;

/// The refusal of a slice without room.
pub const SLICE_TOO_SHORT: u32 = 38;

/// An answer of the planner.
#[derive(Clone, Debug, Default)]
pub struct Given {
    /// With the regions as they were asked for, one by one.
    pub answer: Answer,
    /// The regions as they were written, with guards after them.
    pub slice: Vec<u64>,
    /// What the planner promises of plans and slices and did not keep.
    faults: Vec<&'static str>,
}

impl Given {
    /// Forgets the answer and keeps the memory.
    pub fn clear(&mut self) {
        self.answer.clear();
        self.slice.clear();
        self.faults.clear();
    }

    pub fn refuse(&mut self, refusal: Refusal) {
        self.answer.outcome = Outcome::Refused(refusal);
    }

    pub fn accept(&mut self, bytes_checked: u64) {
        self.answer.outcome = Outcome::Accepted { bytes_checked };
    }

    /// Notes a promise that was not kept.
    pub fn hold(&mut self, is_kept: bool, promise: &'static str) {
        if !is_kept {
            self.faults.push(promise);
        }
    }

    /// Has all regions written by `write`, which returns 0 or a refusal: first
    /// into too short a slice, which it must leave as it is, then with guards
    /// after them. `is_unmoved` says whether a plan is as it was.
    pub fn have_written<P>(
        &mut self,
        plan: &mut P,
        numbers: usize,
        write: impl Fn(&mut P, &mut [u64]) -> u32,
        is_unmoved: impl Fn(&P) -> bool,
    ) {
        self.slice.resize(numbers + GUARDS, GUARD);
        if numbers > 0 {
            let refused = write(plan, &mut self.slice[..numbers - 1]);
            let is_untouched = self.slice.iter().all(|number| *number == GUARD);
            let is_kept = refused == SLICE_TOO_SHORT && is_untouched && is_unmoved(plan);
            self.hold(is_kept, "a slice too short is refused and left as it is");
        }
        let refused = write(plan, &mut self.slice[..numbers + GUARDS / 2]);
        self.hold(refused == 0, "a slice with room is written");
    }

    fn read_out<R: Numbered>(&mut self, plan: &mut Plan<R>) {
        self.accept(plan.bytes_checked());
        let ranges = plan.ranges().map(|range| init_range_numbers(&range));
        self.answer.ranges.extend(ranges);
        let regions = plan.regions();
        self.hold(
            regions.len() == plan.regions_left(),
            "an iterator has the plan's regions",
        );
        for region in regions.take(MOST_REGIONS) {
            let numbers = region.numbers();
            self.answer.regions.extend_from_slice(numbers.as_ref());
        }
        let numbers = self.answer.regions.len();
        self.hold(
            plan.numbers_left() == numbers,
            "as many regions are left as can be asked for",
        );
        let before = plan.clone();
        let write = |plan: &mut Plan<R>, slice: &mut [u64]| match plan.write_regions(slice) {
            Ok(count) if count == numbers => 0,
            Ok(_) => u32::MAX,
            Err(error) => error.number(),
        };
        self.have_written(plan, numbers, write, |plan| *plan == before);
        self.hold(
            plan.regions_left() == 0 && plan.next_region().is_none(),
            "none is left when all are written",
        );
    }

    /// What is not as the Rust has it, or not as the planner promises.
    pub fn difference(&self, expected: &Answer) -> Option<&'static str> {
        if self.answer != *expected {
            return Some("the answers differ");
        }
        if let Some(fault) = self.faults.first() {
            return Some(fault);
        }
        let (written, behind) = self.slice.split_at(expected.regions.len());
        if written != expected.regions {
            return Some("the regions written differ from those asked for");
        }
        let is_kept = behind.iter().all(|number| *number == GUARD);
        (!is_kept).then_some("numbers behind the regions written were changed")
    }
}

impl Visitor for &mut Given {
    type Output = ();

    fn visit<R: Numbered>(self, planned: Result<&mut Plan<R>, TransferError>) {
        self.clear();
        match planned {
            Ok(plan) => self.read_out(plan),
            Err(error) => self.refuse(refusal_of(&error)),
        }
    }
}

/// The six numbers of a refusal, from the details that its error has.
fn refusal_of(error: &TransferError) -> Refusal {
    let [start, end, limit] = span_of(error);
    Refusal {
        number: error.number(),
        side: side_of(error),
        dimension: dimension_of(error),
        start,
        end,
        limit,
    }
}

fn side_of(error: &TransferError) -> u32 {
    use TransferError as E;
    match *error {
        E::InvalidTextureRecord { side }
        | E::InvalidBufferRecord { side }
        | E::MissingBufferUsage { side }
        | E::MissingTextureUsage { side }
        | E::BufferStartOffsetOverrun { side, .. }
        | E::BufferEndOffsetOverrun { side, .. }
        | E::TextureOverrun { side, .. }
        | E::UnsupportedPartialTransfer { side, .. } => side as u32 + 1,
        _ => 0,
    }
}

fn dimension_of(error: &TransferError) -> u32 {
    use TransferError as E;
    match *error {
        E::TextureOverrun { dimension, .. } | E::UnsupportedPartialTransfer { dimension, .. } => {
            dimension as u32 + 1
        }
        _ => 0,
    }
}

/// Start, end and limit.
fn span_of(error: &TransferError) -> [u64; 3] {
    use TransferError as E;
    match *error {
        E::BufferStartOffsetOverrun {
            start_offset,
            buffer_size,
            ..
        } => [start_offset, 0, buffer_size],
        E::BufferEndOffsetOverrun {
            start_offset,
            size,
            buffer_size,
            ..
        } => [start_offset, size, buffer_size],
        E::TextureOverrun {
            start_offset,
            end_offset,
            texture_size,
            ..
        }
        | E::UnsupportedPartialTransfer {
            start_offset,
            end_offset,
            texture_size,
            ..
        } => [start_offset.into(), end_offset, texture_size.into()],
        E::UnalignedBufferOffset(start) | E::UnalignedCopySize(start) => [start, 0, 0],
        _ => short_span_of(error).map(u64::from),
    }
}

/// The same where all have 32 bits.
fn short_span_of(error: &TransferError) -> [u32; 3] {
    use TransferError as E;
    match *error {
        E::InvalidCopyWithinSameTexture {
            src_origin_z,
            dst_origin_z,
            array_layer_count,
            ..
        } => [src_origin_z, dst_origin_z, array_layer_count],
        E::InvalidTextureMipLevel { level, total } => [level, 0, total],
        E::InvalidSampleCount { sample_count } => [sample_count, 0, 0],
        E::SampleCountNotEqual {
            src_sample_count,
            dst_sample_count,
        } => [src_sample_count, dst_sample_count, 0],
        _ => [0; 3],
    }
}
