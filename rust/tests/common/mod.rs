//! Records for the tests, and answers as the lines of a job sheet's listing.

// Each file of tests uses a part of this.
#![allow(dead_code)]

use copy_planner::*;
use TransferError::*;

/// A device that can do all that copies ask.
pub const DEVICE: Device = Device {
    depth_texture_and_buffer_copies: true,
    unrestricted_index_buffer: true,
};

/// The sheet of the scope document, and its listing.
pub const SCOPE_SHEET: &str = "\
1
1 1
1
2 2 8 8 2 1 1 3
1
4096 12
1
2 0 0 256 8 0 0 0 0 0 0 8 8 2
";
pub const SCOPE_LISTING: &str = "\
copy 0 ok 2 2 3872
t 0 0 0 2 0
b 0 0 3872 1
r 0 256 8 0 0 0 0 0 1 8 8 1
r 2048 256 8 0 1 0 0 0 1 8 8 1
";

pub fn extent([width, height, depth_or_array_layers]: [u32; 3]) -> Extent3d {
    Extent3d {
        width,
        height,
        depth_or_array_layers,
    }
}

/// A buffer that may be copied from and into.
pub fn buffer(id: u32, size: u64) -> Buffer {
    Buffer {
        id,
        size,
        usage: BufferUsages::COPY_SRC | BufferUsages::COPY_DST,
    }
}

/// A texture of one level and one sample that may be copied from and into.
pub fn texture(
    id: u32,
    format: TextureFormat,
    dimension: TextureDimension,
    size: [u32; 3],
) -> Texture {
    Texture {
        id,
        format,
        dimension,
        size: extent(size),
        mip_level_count: 1,
        sample_count: 1,
        usage: TextureUsages::COPY_SRC | TextureUsages::COPY_DST,
    }
}

/// Level 0 of a texture from its first texel on.
pub fn from_start(texture: &Texture) -> TexelCopyTextureInfo<'_> {
    TexelCopyTextureInfo {
        texture,
        mip_level: 0,
        origin: Origin3d::ZERO,
        aspect: TextureAspect::All,
    }
}

/// Rows from an offset on, in given strides.
pub fn layout(
    offset: u64,
    bytes_per_row: Option<u32>,
    rows_per_image: Option<u32>,
) -> TexelCopyBufferLayout {
    TexelCopyBufferLayout {
        offset,
        bytes_per_row,
        rows_per_image,
    }
}

/// A buffer with its rows at an offset, the strides left out.
pub fn dense(buffer: &Buffer, offset: u64) -> TexelCopyBufferInfo<'_> {
    let layout = layout(offset, None, None);
    TexelCopyBufferInfo { buffer, layout }
}

/// A buffer with its rows from its start on, in given strides.
pub fn strided(
    buffer: &Buffer,
    bytes_per_row: Option<u32>,
    rows_per_image: Option<u32>,
) -> TexelCopyBufferInfo<'_> {
    let layout = layout(0, bytes_per_row, rows_per_image);
    TexelCopyBufferInfo { buffer, layout }
}

/// SplitMix64.
pub struct Random(pub u64);

impl Random {
    pub fn word(&mut self) -> u64 {
        self.0 = self.0.wrapping_add(0x9e37_79b9_7f4a_7c15);
        let mut z = self.0;
        z = (z ^ (z >> 30)).wrapping_mul(0xbf58_476d_1ce4_e5b9);
        z = (z ^ (z >> 27)).wrapping_mul(0x94d0_49bb_1331_11eb);
        z ^ (z >> 31)
    }

    pub fn below(&mut self, end: u64) -> u64 {
        self.word() % end
    }

    pub fn pick<T: Copy>(&mut self, values: &[T]) -> T {
        values[self.below(values.len() as u64) as usize]
    }

    /// The first value most of the time.
    pub fn mostly<T: Copy>(&mut self, values: &[T]) -> T {
        match self.below(8) {
            0 => self.pick(values),
            _ => values[0],
        }
    }
}

/// A region as its numbers.
pub trait Numbered: Region + PartialEq + std::fmt::Debug {
    fn numbers(&self) -> Vec<u64>;
}

impl Numbered for BufferCopy {
    fn numbers(&self) -> Vec<u64> {
        vec![self.src_offset, self.dst_offset, self.size]
    }
}

impl Numbered for BufferTextureCopy {
    fn numbers(&self) -> Vec<u64> {
        let layout = self.buffer_layout;
        let strides = [layout.bytes_per_row, layout.rows_per_image];
        let mut numbers = vec![layout.offset];
        numbers.extend(strides.map(|stride| stride.map_or(u64::MAX, u64::from)));
        numbers.extend(base_numbers(&self.texture_base));
        numbers.extend(extent_numbers(&self.size));
        numbers
    }
}

impl Numbered for TextureCopy {
    fn numbers(&self) -> Vec<u64> {
        let mut numbers = base_numbers(&self.src_base).to_vec();
        numbers.extend(base_numbers(&self.dst_base));
        numbers.extend(extent_numbers(&self.size));
        numbers
    }
}

fn base_numbers(base: &TextureCopyBase) -> [u64; 6] {
    let origin = base.origin;
    let aspect = base.aspect.bits();
    [
        base.mip_level,
        base.array_layer,
        origin.x,
        origin.y,
        origin.z,
        aspect,
    ]
    .map(u64::from)
}

fn extent_numbers(extent: &CopyExtent) -> [u64; 3] {
    [extent.width, extent.height, extent.depth].map(u64::from)
}

/// An answer as a listing has it, but for the word `copy` and the copy's number.
pub fn listed<R: Numbered>(answer: &Result<Plan<R>, TransferError>) -> String {
    match answer {
        Ok(plan) => listed_plan(plan),
        Err(why) => line("refused", &refusal_numbers(why)),
    }
}

fn listed_plan<R: Numbered>(plan: &Plan<R>) -> String {
    let ranges: Vec<InitRange> = plan.ranges().collect();
    let counts = [
        plan.regions_left() as u64,
        ranges.len() as u64,
        plan.bytes_checked(),
    ];
    let mut text = line("ok", &counts);
    for range in &ranges {
        text += &listed_range(range);
    }
    for region in plan.regions() {
        text += &line("r", &region.numbers());
    }
    text
}

fn listed_range(range: &InitRange) -> String {
    match range {
        InitRange::Texture {
            id,
            mip_level,
            layers,
            kind,
        } => {
            let (id, level) = (u64::from(*id), u64::from(*mip_level));
            line("t", &[id, level, layers.start, layers.end, *kind as u64])
        }
        InitRange::Buffer { id, range, kind } => {
            let id = u64::from(*id);
            line("b", &[id, range.start, range.end, *kind as u64])
        }
    }
}

/// A word and its numbers. Only a region leaves numbers out; elsewhere 2^64 − 1 is a number like any other.
fn line(word: &str, numbers: &[u64]) -> String {
    let mut text = word.to_owned();
    for number in numbers {
        text += &match *number {
            u64::MAX if word == "r" => " -".to_owned(),
            number => format!(" {number}"),
        };
    }
    text + "\n"
}

/// Number, side, dimension, start, end and limit of a refusal.
fn refusal_numbers(why: &TransferError) -> [u64; 6] {
    let [start, end, limit] = span_of(why);
    let number = u64::from(why.number());
    [number, side_of(why), dimension_of(why), start, end, limit]
}

fn side_of(why: &TransferError) -> u64 {
    match *why {
        InvalidTextureRecord { side }
        | InvalidBufferRecord { side }
        | MissingBufferUsage { side }
        | MissingTextureUsage { side }
        | BufferStartOffsetOverrun { side, .. }
        | BufferEndOffsetOverrun { side, .. }
        | TextureOverrun { side, .. }
        | UnsupportedPartialTransfer { side, .. } => side as u64 + 1,
        _ => 0,
    }
}

fn dimension_of(why: &TransferError) -> u64 {
    match *why {
        TextureOverrun { dimension, .. } | UnsupportedPartialTransfer { dimension, .. } => {
            dimension as u64 + 1
        }
        _ => 0,
    }
}

/// Start, end and limit.
fn span_of(why: &TransferError) -> [u64; 3] {
    match *why {
        BufferStartOffsetOverrun {
            start_offset: start,
            buffer_size: limit,
            ..
        } => [start, 0, limit],
        BufferEndOffsetOverrun {
            start_offset: start,
            size: end,
            buffer_size: limit,
            ..
        } => [start, end, limit],
        TextureOverrun {
            start_offset: start,
            end_offset: end,
            texture_size: limit,
            ..
        }
        | UnsupportedPartialTransfer {
            start_offset: start,
            end_offset: end,
            texture_size: limit,
            ..
        } => [start.into(), end, limit.into()],
        UnalignedBufferOffset(start) | UnalignedCopySize(start) => [start, 0, 0],
        _ => short_span_of(why).map(u64::from),
    }
}

/// Start, end and limit where each has 32 bits.
fn short_span_of(why: &TransferError) -> [u32; 3] {
    match *why {
        InvalidCopyWithinSameTexture {
            src_origin_z: start,
            dst_origin_z: end,
            array_layer_count: limit,
            ..
        } => [start, end, limit],
        InvalidTextureMipLevel { level, total } => [level, 0, total],
        InvalidSampleCount { sample_count } => [sample_count, 0, 0],
        SampleCountNotEqual {
            src_sample_count,
            dst_sample_count,
        } => [src_sample_count, dst_sample_count, 0],
        _ => [0; 3],
    }
}
