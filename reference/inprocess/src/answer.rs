//! What is said to a copy, in the numbers of a listing.

use copy_planner::InitRange;
use copy_sheet::{CopyKind, InitAction, Outcome, ABSENT};

/// A range: its [`Resource`], start, end, and kind (0 implicitly initialised, 1
/// needs memory).
pub type RangeNumbers = [u64; 7];

/// Texture or buffer, its index, first and end level (0 for a buffer).
pub type Resource = [u64; 4];

pub const TEXTURE: u64 = 1;
const BUFFER: u64 = 2;

/// A block of memory; it has no ranges.
pub const MEMORY: Resource = [3, 0, 0, 0];

/// An answer to a copy. One that is not accepted has no ranges and no regions.
#[derive(Clone, Debug, Eq, PartialEq)]
pub struct Answer {
    pub outcome: Outcome,
    pub ranges: Vec<RangeNumbers>,
    /// The numbers of all regions, one region after the other.
    pub regions: Vec<u64>,
}

impl Default for Answer {
    fn default() -> Self {
        Self {
            outcome: Outcome::Accepted { bytes_checked: 0 },
            ranges: Vec::new(),
            regions: Vec::new(),
        }
    }
}

impl Answer {
    /// Forgets the answer and keeps the memory.
    pub fn clear(&mut self) {
        self.ranges.clear();
        self.regions.clear();
    }

    pub fn is_accepted(&self) -> bool {
        matches!(self.outcome, Outcome::Accepted { .. })
    }

    /// The answer as a listing has it, but for `copy` and the copy's number.
    pub fn listed(&self, kind: CopyKind) -> String {
        let bytes_checked = match &self.outcome {
            Outcome::Accepted { bytes_checked } => bytes_checked,
            Outcome::Refused(refusal) => return listed_line("refused", &refusal.numbers()),
            Outcome::Panicked(message) => return format!("panicked {message}\n"),
            Outcome::Disagreed(message) => return format!("disagreed {message}\n"),
        };
        let regions = self.regions.chunks(region_numbers(kind));
        let head = [regions.len(), self.ranges.len()].map(|count| count as u64);
        let mut text = listed_line("ok", &[head[0], head[1], *bytes_checked]);
        for range in &self.ranges {
            text += &listed_range(range);
        }
        for region in regions {
            text += &listed_line("r", region);
        }
        text
    }
}

fn listed_range(&[resource, index, level, _, start, end, kind]: &RangeNumbers) -> String {
    match resource {
        TEXTURE => listed_line("t", &[index, level, start, end, kind]),
        _ => listed_line("b", &[index, start, end, kind]),
    }
}

/// A word and its numbers; only a region leaves numbers out.
fn listed_line(word: &str, numbers: &[u64]) -> String {
    let mut line = word.to_owned();
    for number in numbers {
        line += &match *number {
            ABSENT if word == "r" => " -".to_owned(),
            number => format!(" {number}"),
        };
    }
    line + "\n"
}

/// How many numbers a region of a kind has.
fn region_numbers(kind: CopyKind) -> usize {
    match kind {
        CopyKind::BufferToBuffer => 3,
        CopyKind::BufferToTexture | CopyKind::TextureToBuffer | CopyKind::MemoryToTexture => 12,
        CopyKind::TextureToTexture => 15,
    }
}

pub fn texture_resource(index: u32, level: u32) -> Resource {
    let level = u64::from(level);
    [TEXTURE, index.into(), level, level + 1]
}

pub fn buffer_resource(index: u32) -> Resource {
    [BUFFER, index.into(), 0, 0]
}

#[inline]
pub fn range_numbers(resource: Resource, start: u64, end: u64, kind: u64) -> RangeNumbers {
    let [resource, index, first_level, end_level] = resource;
    [resource, index, first_level, end_level, start, end, kind]
}

/// The numbers of the Rust's range.
#[inline]
pub fn init_action_numbers(action: &InitAction) -> RangeNumbers {
    match *action {
        InitAction::Texture {
            texture,
            first_level,
            end_level,
            first_layer,
            end_layer,
            kind,
        } => {
            let [texture, first_level, end_level] =
                [texture, first_level, end_level].map(u64::from);
            let resource = [TEXTURE, texture, first_level, end_level];
            range_numbers(resource, first_layer.into(), end_layer.into(), kind as u64)
        }
        InitAction::Buffer {
            buffer,
            start,
            end,
            kind,
        } => range_numbers(buffer_resource(buffer), start, end, kind as u64),
    }
}

/// The numbers of the planner's range.
#[inline]
pub fn init_range_numbers(range: &InitRange) -> RangeNumbers {
    match range {
        InitRange::Texture {
            id,
            mip_level,
            layers,
            kind,
        } => {
            let resource = texture_resource(*id, *mip_level);
            range_numbers(resource, layers.start, layers.end, *kind as u64)
        }
        InitRange::Buffer { id, range, kind } => {
            range_numbers(buffer_resource(*id), range.start, range.end, *kind as u64)
        }
    }
}
