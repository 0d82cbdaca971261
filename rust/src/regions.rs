//! The regions of plans, in wgpu-hal's words.

use crate::ffi::{self, Next, RangeRow, Write};
use crate::flags::FormatAspects;
use crate::resources::{Origin3d, TexelCopyBufferLayout};

/// What stands for an absent value among a region's numbers.
const ABSENT: u64 = u64::MAX;

/// The size of a region, in texels.
#[derive(Clone, Copy, Debug, PartialEq, Eq, Hash)]
pub struct CopyExtent {
    /// Texels along X.
    pub width: u32,
    /// Texels along Y.
    pub height: u32,
    /// Slices of a volume; 1 for all other textures.
    pub depth: u32,
}

impl CopyExtent {
    #[inline]
    fn from_numbers([width, height, depth]: [u64; 3]) -> Self {
        Self {
            width: width as u32,
            height: height as u32,
            depth: depth as u32,
        }
    }
}

/// Where a region starts in a texture.
#[derive(Clone, Copy, Debug, PartialEq, Eq, Hash)]
pub struct TextureCopyBase {
    /// The level.
    pub mip_level: u32,
    /// The layer; 0 for 1D and 3D textures, but see [`TextureCopy`].
    pub array_layer: u32,
    /// The first texel; z is 0 but for volumes.
    pub origin: Origin3d,
    /// What of each texel is copied.
    pub aspect: FormatAspects,
}

impl TextureCopyBase {
    #[inline]
    fn from_numbers([mip_level, array_layer, x, y, z, aspect]: [u64; 6]) -> Self {
        Self {
            mip_level: mip_level as u32,
            array_layer: array_layer as u32,
            origin: Origin3d {
                x: x as u32,
                y: y as u32,
                z: z as u32,
            },
            aspect: FormatAspects::from_bits_retain(aspect as u32),
        }
    }
}

/// A region copied between buffers. A plan has one at most.
#[derive(Clone, Copy, Debug, PartialEq, Eq, Hash)]
pub struct BufferCopy {
    /// Where it is read, in bytes.
    pub src_offset: u64,
    /// Where it is written, in bytes.
    pub dst_offset: u64,
    /// Its bytes.
    pub size: u64,
}

/// A region copied between a buffer and a texture, either way, or from memory into a texture. A plan has one for each layer.
#[derive(Clone, Copy, Debug, PartialEq, Eq, Hash)]
pub struct BufferTextureCopy {
    /// Where it lies in the buffer, or in the block of memory.
    pub buffer_layout: TexelCopyBufferLayout,
    /// Where it starts in the texture.
    pub texture_base: TextureCopyBase,
    /// Its size.
    pub size: CopyExtent,
}

/// A region copied between textures. A plan has one for each layer of the source, or two where depth and stencil, or two planes,
/// are copied apart.
///
/// As in wgpu-core, layers copied into a volume name layers 0, 1, 2 and so on of the volume, all at one z.
#[derive(Clone, Copy, Debug, PartialEq, Eq, Hash)]
pub struct TextureCopy {
    /// Where it starts in the source.
    pub src_base: TextureCopyBase,
    /// Where it starts in the destination.
    pub dst_base: TextureCopyBase,
    /// Its size.
    pub size: CopyExtent,
}

pub(crate) mod sealed {
    use std::fmt::Debug;

    use crate::ffi::{Next, RangeRow, Write};

    /// What the planner keeps and writes for regions of one kind.
    pub trait Planned: Copy {
        /// The words of a plan. The first of them says how many regions are left.
        type Words: AsRef<[u64]> + Copy + Debug + Eq;

        /// The ranges of a plan. The first row is one resource's, all others are the other's.
        type Ranges: AsRef<[RangeRow]> + Copy + Debug + Eq;

        type Numbers;

        /// The word of a plan that says how many bytes of buffers or memory were checked.
        const BYTES_CHECKED: Option<usize>;

        const NEXT: Next<Self::Words, Self::Numbers>;

        const WRITE: Write<Self::Words>;

        fn from_numbers(numbers: &Self::Numbers) -> Self;
    }
}

/// A region of a plan: [`BufferCopy`], [`BufferTextureCopy`] or [`TextureCopy`].
pub trait Region: sealed::Planned {
    /// How many numbers [`Plan::write_regions`](crate::Plan::write_regions) writes for each region.
    const NUMBERS: usize;
}

impl Region for BufferCopy {
    /// The two offsets and the size.
    const NUMBERS: usize = 3;
}

impl Region for BufferTextureCopy {
    /// Offset, bytes per row and rows per image (2^64 − 1 where absent), level, layer, x, y, z, aspect bits, width, height,
    /// depth.
    const NUMBERS: usize = 12;
}

impl Region for TextureCopy {
    /// Level, layer, x, y, z and aspect bits of the source, the same of the destination, width, height, depth.
    const NUMBERS: usize = 15;
}

impl sealed::Planned for BufferCopy {
    type Words = ffi::BufferPlan;
    type Ranges = [RangeRow; 2];
    type Numbers = [u64; Self::NUMBERS];

    const BYTES_CHECKED: Option<usize> = Some(1);
    const NEXT: Next<Self::Words, Self::Numbers> = ffi::copy_planner_next_buffer_copy;
    const WRITE: Write<Self::Words> = ffi::copy_planner_write_buffer_copies;

    #[inline]
    fn from_numbers(&[src_offset, dst_offset, size]: &Self::Numbers) -> Self {
        Self {
            src_offset,
            dst_offset,
            size,
        }
    }
}

impl sealed::Planned for BufferTextureCopy {
    type Words = ffi::BufferTexturePlan;
    type Ranges = [RangeRow; 4];
    type Numbers = [u64; Self::NUMBERS];

    const BYTES_CHECKED: Option<usize> = Some(1);
    const NEXT: Next<Self::Words, Self::Numbers> = ffi::copy_planner_next_buffer_texture_copy;
    const WRITE: Write<Self::Words> = ffi::copy_planner_write_buffer_texture_copies;

    #[inline]
    fn from_numbers(n: &Self::Numbers) -> Self {
        Self {
            buffer_layout: TexelCopyBufferLayout {
                offset: n[0],
                bytes_per_row: given(n[1]),
                rows_per_image: given(n[2]),
            },
            texture_base: TextureCopyBase::from_numbers([n[3], n[4], n[5], n[6], n[7], n[8]]),
            size: CopyExtent::from_numbers([n[9], n[10], n[11]]),
        }
    }
}

impl sealed::Planned for TextureCopy {
    type Words = ffi::TexturePlan;
    type Ranges = [RangeRow; 2];
    type Numbers = [u64; Self::NUMBERS];

    const BYTES_CHECKED: Option<usize> = None;
    const NEXT: Next<Self::Words, Self::Numbers> = ffi::copy_planner_next_texture_copy;
    const WRITE: Write<Self::Words> = ffi::copy_planner_write_texture_copies;

    #[inline]
    fn from_numbers(n: &Self::Numbers) -> Self {
        Self {
            src_base: TextureCopyBase::from_numbers([n[0], n[1], n[2], n[3], n[4], n[5]]),
            dst_base: TextureCopyBase::from_numbers([n[6], n[7], n[8], n[9], n[10], n[11]]),
            size: CopyExtent::from_numbers([n[12], n[13], n[14]]),
        }
    }
}

#[inline]
fn given(number: u64) -> Option<u32> {
    (number != ABSENT).then_some(number as u32)
}
