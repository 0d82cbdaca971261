//! The bounds of texture and buffer records.

use std::ops::RangeInclusive;

use crate::{Buffer, Texture};

/// The largest size of a buffer record.
pub const MAX_BUFFER_SIZE: u64 = 268_435_456;
const MAX_BUFFER_USAGE: u32 = 1_023;

const MAX_FORMAT: u32 = 21;
const MAX_TEXTURE_USAGE: u32 = 31;
const SIDES_1D_2D: RangeInclusive<u32> = 1..=8_192;
const LAYERS: RangeInclusive<u32> = 1..=256;
const SIDES_3D: RangeInclusive<u32> = 1..=2_048;

const BLOCK_COMPRESSED: RangeInclusive<u32> = 11..=14;
const DEPTH_STENCIL: RangeInclusive<u32> = 15..=20;
const NV12: u32 = 21;

impl Buffer {
    /// Whether every field is within its bounds.
    pub fn is_within_bounds(&self) -> bool {
        self.size <= MAX_BUFFER_SIZE && self.usage <= MAX_BUFFER_USAGE
    }
}

impl Texture {
    /// Whether every field is within its bounds and the format's rules hold.
    pub fn is_within_bounds(&self) -> bool {
        self.format <= MAX_FORMAT
            && self.usage <= MAX_TEXTURE_USAGE
            && self.sides_are_within_bounds()
            && (1..=largest_level_count(self)).contains(&self.levels)
            && self.samples_are_allowed()
            && self.format_allows_shape()
    }

    fn sides_are_within_bounds(&self) -> bool {
        match self.dimension {
            1 => SIDES_1D_2D.contains(&self.width) && self.height == 1 && self.depth == 1,
            2 => {
                SIDES_1D_2D.contains(&self.width)
                    && SIDES_1D_2D.contains(&self.height)
                    && LAYERS.contains(&self.depth)
            }
            3 => [self.width, self.height, self.depth]
                .iter()
                .all(|side| SIDES_3D.contains(side)),
            _ => false,
        }
    }

    fn samples_are_allowed(&self) -> bool {
        match self.samples {
            1 => true,
            4 => {
                self.dimension == 2
                    && self.depth == 1
                    && self.levels == 1
                    && (self.format <= 10 || DEPTH_STENCIL.contains(&self.format))
            }
            _ => false,
        }
    }

    fn format_allows_shape(&self) -> bool {
        if self.format <= 10 {
            return true;
        }
        let sides_divide_by =
            |unit| self.width.is_multiple_of(unit) && self.height.is_multiple_of(unit);
        self.dimension == 2
            && (!BLOCK_COMPRESSED.contains(&self.format) || sides_divide_by(4))
            && (self.format != NV12 || (sides_divide_by(2) && self.levels == 1))
    }
}

/// The halvings that bring the largest side to 1, plus one; 1 in 1D. The depth
/// counts as a side in 3D only. The sides are at least 1.
pub fn largest_level_count(texture: &Texture) -> u32 {
    let side = match texture.dimension {
        1 => 1,
        2 => texture.width.max(texture.height),
        _ => texture.width.max(texture.height).max(texture.depth),
    };
    side.max(1).ilog2() + 1
}

#[cfg(test)]
mod tests {
    use super::*;

    fn texture(fields: [u32; 8]) -> Texture {
        let [format, dimension, width, height, depth, levels, samples, usage] = fields;
        Texture {
            format,
            dimension,
            width,
            height,
            depth,
            levels,
            samples,
            usage,
        }
    }

    #[test]
    fn textures_within_bounds() {
        for fields in [
            [0, 1, 8192, 1, 1, 1, 1, 0],
            [10, 2, 8192, 8192, 256, 14, 1, 31],
            [0, 2, 1, 8192, 256, 14, 1, 31],
            [0, 2, 7, 5, 256, 3, 1, 31],
            [0, 3, 2048, 2048, 2048, 12, 1, 3],
            [0, 3, 1, 1, 2048, 12, 1, 3],
            [11, 2, 8188, 4, 256, 13, 1, 3],
            [0, 2, 3, 3, 1, 1, 4, 3],
            [10, 2, 3, 3, 1, 1, 4, 3],
            [15, 2, 3, 3, 1, 1, 4, 3],
            [20, 2, 3, 3, 1, 1, 4, 3],
            [21, 2, 6, 2, 3, 1, 1, 3],
        ] {
            assert!(texture(fields).is_within_bounds(), "{fields:?}");
        }
    }

    #[test]
    fn textures_out_of_bounds() {
        for fields in [
            [22, 2, 8, 8, 1, 1, 1, 3],
            [0, 0, 8, 8, 1, 1, 1, 3],
            [0, 4, 8, 8, 1, 1, 1, 3],
            [0, 1, 8193, 1, 1, 1, 1, 3],
            [0, 1, 0, 1, 1, 1, 1, 3],
            [0, 1, 8, 2, 1, 1, 1, 3],
            [0, 1, 8, 1, 2, 1, 1, 3],
            [0, 1, 8, 1, 1, 2, 1, 3],
            [0, 1, 8, 1, 1, 1, 4, 3],
            [0, 2, 8193, 1, 1, 1, 1, 3],
            [0, 2, 1, 8193, 1, 1, 1, 3],
            [0, 2, 0, 1, 1, 1, 1, 3],
            [0, 2, 1, 0, 1, 1, 1, 3],
            [0, 2, 1, 1, 0, 1, 1, 3],
            [0, 2, 1, 1, 257, 1, 1, 3],
            [0, 2, 8192, 8192, 256, 15, 1, 3],
            [0, 2, 7, 5, 256, 4, 1, 3],
            [0, 2, 8, 8, 1, 0, 1, 3],
            [0, 3, 2049, 1, 1, 1, 1, 3],
            [0, 3, 1, 2049, 1, 1, 1, 3],
            [0, 3, 1, 1, 2049, 1, 1, 3],
            [0, 3, 8, 8, 8, 1, 4, 3],
            [0, 2, 8, 8, 1, 1, 0, 3],
            [0, 2, 8, 8, 1, 1, 2, 3],
            [0, 2, 8, 8, 2, 1, 4, 3],
            [0, 2, 8, 8, 1, 2, 4, 3],
            [11, 2, 8, 8, 1, 1, 4, 3],
            [21, 2, 8, 8, 1, 1, 4, 3],
            [0, 2, 8, 8, 1, 1, 1, 32],
            [11, 1, 8, 1, 1, 1, 1, 3],
            [11, 3, 8, 8, 1, 1, 1, 3],
            [20, 3, 8, 8, 1, 1, 1, 3],
            [11, 2, 6, 8, 1, 1, 1, 3],
            [14, 2, 8, 6, 1, 1, 1, 3],
            [21, 2, 7, 8, 1, 1, 1, 3],
            [21, 2, 8, 7, 1, 1, 1, 3],
            [21, 2, 8, 8, 1, 2, 1, 3],
        ] {
            assert!(!texture(fields).is_within_bounds(), "{fields:?}");
        }
    }

    #[test]
    fn buffers() {
        for (size, usage, within) in [
            (0, 0, true),
            (268_435_456, 1_023, true),
            (268_435_457, 0, false),
            (u64::MAX, 0, false),
            (0, 1_024, false),
        ] {
            assert_eq!(Buffer { size, usage }.is_within_bounds(), within);
        }
    }
}
