//! Copies between buffers: one that should be accepted, then often one thing
//! about it put wrong or on the edge.

use copy_sheet::{Buffer, Copy};

use crate::records::Records;
use crate::Rng;

const ALIGNMENT: u64 = 4;

struct Draft {
    source: u32,
    source_offset: u64,
    destination: u32,
    destination_offset: u64,
    size: Option<u64>,
}

/// A random copy between buffers.
pub fn buffer_to_buffer(rng: &mut Rng, records: &Records) -> Copy {
    let mut draft = sound(rng, records);
    while rng.chance(55) {
        disturb(rng, records, &mut draft);
    }
    Copy::BufferToBuffer {
        source: draft.source,
        source_offset: draft.source_offset,
        destination: draft.destination,
        destination_offset: draft.destination_offset,
        size: draft.size,
    }
}

fn sound(rng: &mut Rng, records: &Records) -> Draft {
    let sources = records.buffers_that(|buffer| buffer.usage & Buffer::COPY_SRC != 0);
    let source = pick_or_first(rng, &sources);
    let destinations = records.buffers_that(|buffer| buffer.usage & Buffer::COPY_DST != 0);
    let destinations: Vec<u32> = destinations
        .into_iter()
        .filter(|index| *index != source)
        .collect();
    let destination = pick_or_first(rng, &destinations);

    let source_size = records.buffers[source as usize].size;
    let destination_size = records.buffers[destination as usize].size;
    let most = source_size.min(destination_size) / ALIGNMENT * ALIGNMENT;
    let size = multiple_up_to(rng, most, ALIGNMENT)
        .max(ALIGNMENT)
        .min(most);
    let absent = source_size.is_multiple_of(ALIGNMENT) && rng.chance(20);
    Draft {
        source,
        source_offset: if absent {
            source_size - size
        } else {
            multiple_up_to(rng, source_size - size, ALIGNMENT)
        },
        destination,
        destination_offset: multiple_up_to(rng, destination_size - size, ALIGNMENT),
        size: (!absent).then_some(size),
    }
}

pub fn pick_or_first(rng: &mut Rng, choices: &[u32]) -> u32 {
    if choices.is_empty() {
        0
    } else {
        rng.pick(choices)
    }
}

/// A multiple of `unit` that is at most `most`: 0, the largest, or any.
pub fn multiple_up_to(rng: &mut Rng, most: u64, unit: u64) -> u64 {
    let count = most / unit;
    unit * match rng.below(4) {
        0 => 0,
        1 => count,
        2 => rng.below(count.min(16) + 1),
        _ => rng.below(count + 1),
    }
}

/// An index past a section's end.
pub fn index_past(rng: &mut Rng, length: usize) -> u32 {
    let length = length as u32;
    rng.pick(&[length, length + 1, 64, u32::MAX])
}

fn disturb(rng: &mut Rng, records: &Records, draft: &mut Draft) {
    let size_of = |index: u32| records.buffers.get(index as usize).map_or(0, |b| b.size);
    let source_size = size_of(draft.source);
    let destination_size = size_of(draft.destination);
    let size = draft.size.unwrap_or(4);
    let buffer_count = records.buffers.len();
    match rng.below(16) {
        0 if rng.chance(50) => draft.source = index_past(rng, buffer_count),
        0 => draft.destination = index_past(rng, buffer_count),
        1 if rng.chance(50) => draft.source = records.ill_buffer().unwrap_or(draft.source),
        1 => draft.destination = records.ill_buffer().unwrap_or(draft.destination),
        2 => draft.destination = draft.source,
        3 => draft.source = rng.index(buffer_count) as u32,
        4 => draft.destination = rng.index(buffer_count) as u32,
        5 => draft.source_offset = past(rng, source_size),
        6 => draft.destination_offset = past(rng, destination_size),
        7 => draft.size = Some(size.saturating_add(rng.below(4))),
        8 => draft.source_offset = draft.source_offset.saturating_add(rng.below(4)),
        9 => draft.destination_offset = draft.destination_offset.saturating_add(rng.below(4)),
        10 => draft.size = Some(past(rng, source_size.saturating_sub(draft.source_offset))),
        11 => draft.destination_offset = past(rng, destination_size.saturating_sub(size)),
        12 => draft.size = None,
        13 => draft.size = Some(0),
        14 => mix_index_buffer(rng, records, draft),
        _ => draft.size = Some(rng.pick(&[1 << 32, (1 << 32) + 4, u64::MAX, u64::MAX - 3])),
    }
}

/// At a limit, rounded to the alignment, or just past it.
fn past(rng: &mut Rng, limit: u64) -> u64 {
    let whole = limit / ALIGNMENT * ALIGNMENT;
    rng.pick(&[
        limit,
        whole,
        whole.saturating_add(4),
        whole.saturating_add(8),
        limit.saturating_add(1),
        whole.saturating_add(1 << 32),
        u64::MAX - 3,
        u64::MAX,
    ])
}

/// An INDEX buffer on one side and another shader usage on either.
fn mix_index_buffer(rng: &mut Rng, records: &Records, draft: &mut Draft) {
    let index_buffers = records.buffers_that(|buffer| buffer.usage & Buffer::INDEX != 0);
    if index_buffers.is_empty() {
        return;
    }
    if rng.chance(50) {
        draft.source = rng.pick(&index_buffers);
    } else {
        draft.destination = rng.pick(&index_buffers);
    }
    draft.size = Some(0);
    draft.source_offset = 0;
    draft.destination_offset = 0;
}
