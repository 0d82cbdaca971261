//! Copies with a texture: one that should be accepted, then often one thing
//! about it put wrong or on the edge.

use copy_sheet::{Buffer, BufferView, Copy, Extent, MemoryView, Texture, TextureView};

use crate::buffer_copies::{index_past, multiple_up_to, pick_or_first};
use crate::records::{Records, NV12};
use crate::Rng;

const ALL: u32 = 0;
const STENCIL_ONLY: u32 = 1;
const DEPTH_ONLY: u32 = 2;
const PLANE_0: u32 = 3;
const PLANE_1: u32 = 4;
const MAX_ASPECT: u32 = 5;

#[derive(Clone, Copy, Eq, PartialEq)]
enum Direction {
    ToTexture,
    ToBuffer,
    FromMemory,
}

/// A copy between a buffer and a texture, or from memory.
struct Draft {
    direction: Direction,
    /// From memory the index means nothing.
    buffer: BufferView,
    /// The bytes of the memory.
    length: u64,
    texture: TextureView,
    size: Extent,
}

/// A copy between textures.
struct TextureDraft {
    source: TextureView,
    destination: TextureView,
    size: Extent,
}

/// A random copy from a buffer to a texture.
pub fn buffer_to_texture(rng: &mut Rng, records: &Records) -> Copy {
    let draft = buffer_texture_copy(rng, records, Direction::ToTexture);
    Copy::BufferToTexture {
        source: draft.buffer,
        destination: draft.texture,
        size: draft.size,
    }
}

/// A random copy from a texture to a buffer.
pub fn texture_to_buffer(rng: &mut Rng, records: &Records) -> Copy {
    let draft = buffer_texture_copy(rng, records, Direction::ToBuffer);
    Copy::TextureToBuffer {
        source: draft.texture,
        destination: draft.buffer,
        size: draft.size,
    }
}

/// A random write from memory.
pub fn memory_to_texture(rng: &mut Rng, records: &Records) -> Copy {
    let draft = buffer_texture_copy(rng, records, Direction::FromMemory);
    Copy::MemoryToTexture {
        source: MemoryView {
            length: draft.length,
            offset: draft.buffer.offset,
            bytes_per_row: draft.buffer.bytes_per_row,
            rows_per_image: draft.buffer.rows_per_image,
        },
        destination: draft.texture,
        size: draft.size,
    }
}

/// A random copy between textures.
pub fn texture_to_texture(rng: &mut Rng, records: &Records) -> Copy {
    let mut draft = sound_texture_copy(rng, records);
    while rng.chance(50) {
        disturb_texture_copy(rng, records, &mut draft);
    }
    Copy::TextureToTexture {
        source: draft.source,
        destination: draft.destination,
        size: draft.size,
    }
}

fn buffer_texture_copy(rng: &mut Rng, records: &Records, direction: Direction) -> Draft {
    let mut draft = sound_buffer_texture_copy(rng, records, direction);
    // Memory asks for no alignment, so that more must be put wrong.
    let percent = match direction {
        Direction::FromMemory => 60,
        Direction::ToTexture | Direction::ToBuffer => 55,
    };
    while rng.chance(percent) {
        disturb_buffer_texture_copy(rng, records, &mut draft);
    }
    draft
}

/// Side of a format's block in texels.
fn block_side(texture: &Texture) -> u32 {
    wgt::TextureFormat::ALL[texture.format as usize]
        .block_dimensions()
        .0
}

fn block_bytes(texture: &Texture, aspect: u32) -> u32 {
    use wgt::TextureAspect as Aspect;
    let aspect = [
        Aspect::All,
        Aspect::StencilOnly,
        Aspect::DepthOnly,
        Aspect::Plane0,
        Aspect::Plane1,
        Aspect::Plane2,
    ][aspect as usize];
    let format = wgt::TextureFormat::ALL[texture.format as usize];
    format.block_copy_size(Some(aspect)).unwrap_or(1)
}

fn is_depth_stencil(texture: &Texture) -> bool {
    (15..=20).contains(&texture.format)
}

fn needs_whole_sides(texture: &Texture) -> bool {
    is_depth_stencil(texture) || texture.samples > 1
}

/// The physical size of a level.
fn level_extent(texture: &Texture, level: u32) -> Extent {
    let halved = |side: u32| side.checked_shr(level).unwrap_or(0).max(1);
    let block = block_side(texture);
    Extent {
        width: halved(texture.width).next_multiple_of(block),
        height: halved(texture.height).next_multiple_of(block),
        depth: if texture.dimension == 3 {
            halved(texture.depth)
        } else {
            texture.depth
        },
    }
}

/// The aspects that a buffer copy of the format may name.
fn copyable_aspects(texture: &Texture, direction: Direction) -> &'static [u32] {
    match (texture.format, direction) {
        (15, _) => &[ALL, STENCIL_ONLY],
        (16, _) | (19, Direction::ToBuffer) => &[ALL, DEPTH_ONLY],
        (20, Direction::ToBuffer) => &[STENCIL_ONLY, DEPTH_ONLY],
        (17 | 19, _) => &[],
        (18 | 20, _) => &[STENCIL_ONLY],
        (NV12, _) => &[PLANE_0, PLANE_1],
        _ => &[ALL],
    }
}

/// A start and a length within `extent`, in whole blocks: the whole, a block,
/// any, or now and then none.
fn run_within(rng: &mut Rng, extent: u32, block: u32) -> (u32, u32) {
    let blocks = (extent / block).max(1);
    let (start, length) = match rng.below(20) {
        0..=8 => (0, blocks),
        9 => (rng.pick(&[0, blocks, blocks - 1]), 0),
        10 | 11 => (blocks - 1, 1),
        12 | 13 => (rng.between(0, blocks - 1), 1),
        14 | 15 => (0, rng.between(1, blocks)),
        _ => {
            let start = rng.between(0, blocks - 1);
            (start, rng.between(1, blocks - start))
        }
    };
    (start * block, length * block)
}

fn some_level(rng: &mut Rng, texture: &Texture) -> u32 {
    match rng.below(3) {
        0 => 0,
        1 => texture.levels - 1,
        _ => rng.between(0, texture.levels - 1),
    }
}

/// A box within `extent`; whole sides where the texture asks for them.
fn box_within(rng: &mut Rng, texture: &Texture, extent: &Extent) -> ([u32; 3], Extent) {
    let block = block_side(texture);
    let ((x, width), (y, height)) = if needs_whole_sides(texture) {
        ((0, extent.width), (0, extent.height))
    } else {
        (
            run_within(rng, extent.width, block),
            run_within(rng, extent.height, block),
        )
    };
    let (z, depth) = run_within(rng, extent.depth, 1);
    // Many layers make many regions; a few such copies are enough.
    let depth = if rng.chance(95) { depth.min(8) } else { depth };
    let size = Extent {
        width,
        height,
        depth,
    };
    ([x, y, z], size)
}

fn sound_buffer_texture_copy(rng: &mut Rng, records: &Records, direction: Direction) -> Draft {
    let usage = match direction {
        Direction::ToTexture | Direction::FromMemory => Texture::COPY_DST,
        Direction::ToBuffer => Texture::COPY_SRC,
    };
    let choices = records.textures_that(|texture| {
        texture.usage & usage != 0
            && texture.samples == 1
            && !copyable_aspects(texture, direction).is_empty()
    });
    let index = pick_or_first(rng, &choices);
    let texture = &records.textures[index as usize];
    let aspects = copyable_aspects(texture, direction);
    let aspect = if aspects.is_empty() {
        ALL
    } else {
        rng.pick(aspects)
    };
    let level = some_level(rng, texture);
    let extent = level_extent(texture, level);
    let ([x, y, z], size) = box_within(rng, texture, &extent);
    let mut draft = Draft {
        direction,
        buffer: BufferView {
            buffer: 0,
            offset: 0,
            bytes_per_row: None,
            rows_per_image: None,
        },
        length: 0,
        texture: TextureView {
            texture: index,
            level,
            x,
            y,
            z,
            aspect,
        },
        size,
    };
    shrink_to_room(records, &mut draft);
    lay_out(rng, records, &mut draft);
    draft
}

/// Keeps the copy's bytes well below the largest buffer's size.
fn shrink_to_room(records: &Records, draft: &mut Draft) {
    let texture = &records.textures[draft.texture.texture as usize];
    let padded_row = u64::from(draft.size.width) * 16 + 512;
    let image = padded_row * (u64::from(draft.size.height) + 1);
    let most_images = (200_000_000 / image) as u32;
    draft.size.depth = draft.size.depth.min(most_images);
    if most_images == 0 {
        draft.size.depth = 1;
        if !needs_whole_sides(texture) {
            draft.size.height = draft.size.height.min(block_side(texture));
        }
    }
}

fn dense_row(records: &Records, draft: &Draft) -> u32 {
    let texture = &records.textures[draft.texture.texture as usize];
    let blocks = draft.size.width / block_side(texture);
    blocks.saturating_mul(block_bytes(texture, draft.texture.aspect))
}

fn height_in_blocks(records: &Records, draft: &Draft) -> u32 {
    let texture = &records.textures[draft.texture.texture as usize];
    draft.size.height / block_side(texture)
}

/// Chooses strides, a buffer with room or a block of memory, and an offset.
fn lay_out(rng: &mut Rng, records: &Records, draft: &mut Draft) {
    let row = dense_row(records, draft);
    let rows = height_in_blocks(records, draft);
    let needs_rows = draft.size.depth > 1;
    let needs_bytes = needs_rows || rows > 1;
    if needs_bytes || rng.chance(60) {
        draft.buffer.bytes_per_row = Some(match draft.direction {
            Direction::FromMemory => stride_in_memory(rng, row),
            _ => row.next_multiple_of(256) + 256 * rng.pick(&[0, 0, 0, 1]),
        });
    }
    if needs_rows || rng.chance(40) {
        draft.buffer.rows_per_image = Some(rows + rng.pick(&[0, 0, 0, 1, 3]));
    }
    let total = total_bytes(records, draft);
    let usage = match draft.direction {
        Direction::ToTexture => Buffer::COPY_SRC,
        Direction::ToBuffer => Buffer::COPY_DST,
        Direction::FromMemory => return lay_out_in_memory(rng, total, draft),
    };
    let mut choices =
        records.buffers_that(|buffer| buffer.usage & usage != 0 && buffer.size >= total);
    if rng.chance(5) || choices.is_empty() {
        choices = records.buffers_that(|_| true);
    }
    draft.buffer.buffer = pick_or_first(rng, &choices);
    let room = records.buffers[draft.buffer.buffer as usize]
        .size
        .saturating_sub(total);
    draft.buffer.offset = multiple_up_to(rng, room, offset_alignment(records, draft));
}

/// Dense, a little longer, or a staging buffer's.
fn stride_in_memory(rng: &mut Rng, row: u32) -> u32 {
    match rng.below(8) {
        0..=2 => row,
        3..=5 => row + rng.between(1, 300),
        _ => row.next_multiple_of(256),
    }
}

/// An offset, and a length that leaves room for the data from there on.
fn lay_out_in_memory(rng: &mut Rng, total: u64, draft: &mut Draft) {
    let most = u64::MAX - total;
    draft.buffer.offset = match rng.below(8) {
        0..=2 => 0,
        3..=5 => rng.below(64).min(most),
        6 => near_power(rng).min(most),
        _ => most - rng.below(4).min(most),
    };
    let end = draft.buffer.offset + total;
    draft.length = match rng.below(6) {
        0..=2 => end,
        3 => end.saturating_add(rng.below(64)),
        4 => near_power(rng).max(end),
        _ => u64::MAX - rng.below(4).min(u64::MAX - end),
    };
}

/// Around 2^32, 2^63 or the end of 64 bits.
fn near_power(rng: &mut Rng) -> u64 {
    let power = rng.pick(&[1 << 32, 1 << 63, u64::MAX - 2]);
    power - 2 + rng.below(5)
}

fn offset_alignment(records: &Records, draft: &Draft) -> u64 {
    let texture = &records.textures[draft.texture.texture as usize];
    if draft.direction == Direction::FromMemory {
        1
    } else if is_depth_stencil(texture) {
        4
    } else {
        block_bytes(texture, draft.texture.aspect).into()
    }
}

/// The bytes of the copy, cut off at the largest number.
fn total_bytes(records: &Records, draft: &Draft) -> u64 {
    let strided = |count: u64, stride: u64, item: u64| match count {
        0 => 0,
        _ => (count - 1).saturating_mul(stride).saturating_add(item),
    };
    let row: u64 = dense_row(records, draft).into();
    let rows: u64 = height_in_blocks(records, draft).into();
    let row_stride = draft.buffer.bytes_per_row.map_or(row, u64::from);
    let image_rows = draft.buffer.rows_per_image.map_or(rows, u64::from);
    let image = strided(rows, row_stride, row);
    let image_stride = image_rows.saturating_mul(row_stride);
    strided(draft.size.depth.into(), image_stride, image)
}

fn disturb_buffer_texture_copy(rng: &mut Rng, records: &Records, draft: &mut Draft) {
    let texture_count = records.textures.len();
    let buffer_count = records.buffers.len();
    if draft.texture.texture as usize >= texture_count
        || draft.buffer.buffer as usize >= buffer_count
        || !records.textures[draft.texture.texture as usize].is_within_bounds()
    {
        // Refused before anything else is looked at.
        return;
    }
    let from_memory = draft.direction == Direction::FromMemory;
    match rng.below(30) {
        0..=2 if from_memory => disturb_memory(rng, records, draft),
        0 if rng.chance(50) => draft.texture.texture = index_past(rng, texture_count),
        0 => draft.buffer.buffer = index_past(rng, buffer_count),
        1 if rng.chance(50) => {
            draft.texture.texture = records.ill_texture().unwrap_or(draft.texture.texture);
        }
        1 => draft.buffer.buffer = records.ill_buffer().unwrap_or(draft.buffer.buffer),
        2 => draft.buffer.buffer = rng.index(buffer_count) as u32,
        3 => draft.texture.texture = records.relative_of(rng, draft.texture.texture),
        4 => draft.texture.aspect = rng.between(0, MAX_ASPECT),
        5..=11 => disturb_box(rng, records, &mut draft.texture, &mut draft.size),
        12 => draft.buffer.offset = draft.buffer.offset.saturating_add(1 + rng.below(16)),
        13..=15 => draft.buffer.offset = offset_at_end(rng, records, draft),
        16 => draft.buffer.bytes_per_row = None,
        17 => draft.buffer.rows_per_image = None,
        18 | 19 => {
            let row = dense_row(records, draft);
            draft.buffer.bytes_per_row = Some(bytes_near(rng, row));
        }
        20 | 21 => {
            let rows = height_in_blocks(records, draft);
            draft.buffer.rows_per_image = Some(rows_near(rng, rows));
        }
        22 | 23 => overflow_total(rng, records, draft),
        24 => *draft = whole_texture(rng, records, draft, |texture| texture.samples == 4),
        25..=28 => *draft = whole_texture(rng, records, draft, is_uncommon),
        _ => drop_rows(rng, records, draft),
    }
}

/// Puts the texture's index or record wrong, or the memory's length.
fn disturb_memory(rng: &mut Rng, records: &Records, draft: &mut Draft) {
    let end = draft
        .buffer
        .offset
        .saturating_add(total_bytes(records, draft));
    match rng.below(6) {
        0 => draft.texture.texture = index_past(rng, records.textures.len()),
        1 => draft.texture.texture = records.ill_texture().unwrap_or(draft.texture.texture),
        2 => draft.length = near_power(rng),
        3 => draft.length = rng.below(end.max(1)),
        _ => draft.length = end.saturating_sub(rng.below(3)),
    }
}

/// A texture whose buffer copies are refused for its format or aspect.
fn is_uncommon(texture: &Texture) -> bool {
    (17..=20).contains(&texture.format)
}

/// Near the last offset at which the copy still fits, or near the end.
fn offset_at_end(rng: &mut Rng, records: &Records, draft: &Draft) -> u64 {
    let size = match draft.direction {
        Direction::FromMemory => draft.length,
        _ => records.buffers[draft.buffer.buffer as usize].size,
    };
    let unit = offset_alignment(records, draft);
    let room = size.saturating_sub(total_bytes(records, draft));
    let last = room / unit * unit;
    let end = size / unit * unit;
    rng.pick(&[
        last,
        last.saturating_add(unit),
        last.saturating_add(1),
        end,
        end.saturating_add(unit),
        1 << 32,
        u64::MAX / 16 * 16,
        u64::MAX,
    ])
}

/// Around the dense row, multiples of 256, and the largest values.
fn bytes_near(rng: &mut Rng, row: u32) -> u32 {
    let whole = row / 256 * 256;
    rng.pick(&[
        row,
        row.saturating_sub(1),
        row.saturating_add(1),
        whole,
        whole.saturating_sub(256),
        whole.saturating_add(256),
        0,
        255,
        256,
        4_294_967_040,
        u32::MAX,
    ])
}

/// Around the rows of an image, and the least and the largest value.
fn rows_near(rng: &mut Rng, rows: u32) -> u32 {
    rng.pick(&[
        rows.saturating_sub(1),
        rows,
        rows.saturating_add(1),
        0,
        u32::MAX,
    ])
}

/// Strides so long that a few images, or two tall ones, pass 2^64 bytes.
fn overflow_total(rng: &mut Rng, records: &Records, draft: &mut Draft) {
    let texture = &records.textures[draft.texture.texture as usize];
    let extent = level_extent(texture, draft.texture.level);
    if extent.depth >= 2 {
        draft.texture.z = 0;
        draft.size.depth = rng.between(2, extent.depth.min(5));
    }
    if rng.chance(50) {
        draft.texture.y = 0;
        draft.size.height = extent.height;
    }
    draft.buffer.bytes_per_row = Some(rng.pick(&[4_294_967_040, 1 << 31]));
    draft.buffer.rows_per_image = Some(rng.pick(&[u32::MAX, u32::MAX, u32::MAX - 1, 1 << 31]));
    draft.buffer.offset = 0;
    if draft.direction == Direction::FromMemory {
        if rng.chance(50) {
            draft.buffer.bytes_per_row = Some(u32::MAX - rng.between(0, 1));
        }
        // All of it fits, where it does not pass 2^64.
        lay_out_in_memory(rng, total_bytes(records, draft), draft);
    }
}

/// The whole of a layer of another texture, with any aspect.
fn whole_texture(
    rng: &mut Rng,
    records: &Records,
    draft: &Draft,
    fit: impl Fn(&Texture) -> bool,
) -> Draft {
    let choices = records.textures_that(fit);
    let index = if choices.is_empty() {
        draft.texture.texture
    } else {
        rng.pick(&choices)
    };
    let texture = &records.textures[index as usize];
    let level = some_level(rng, texture);
    let aspects = copyable_aspects(texture, draft.direction);
    let mut whole = Draft {
        direction: draft.direction,
        length: draft.length,
        buffer: BufferView {
            bytes_per_row: None,
            rows_per_image: None,
            ..draft.buffer
        },
        texture: TextureView {
            texture: index,
            level,
            x: 0,
            y: 0,
            z: 0,
            aspect: if aspects.is_empty() || rng.chance(60) {
                rng.pick(&[ALL, DEPTH_ONLY, STENCIL_ONLY])
            } else {
                rng.pick(aspects)
            },
        },
        size: Extent {
            depth: 1,
            ..level_extent(texture, level)
        },
    };
    lay_out(rng, records, &mut whole);
    whole
}

/// One row without bytes per row, which may then be absent.
fn drop_rows(rng: &mut Rng, records: &Records, draft: &mut Draft) {
    let texture = &records.textures[draft.texture.texture as usize];
    draft.size.height = draft.size.height.min(block_side(texture));
    draft.size.depth = rng.pick(&[0, 1, 1, 2]);
    draft.buffer.bytes_per_row = None;
}

/// Puts the level, origin or size of a texture's box wrong or on the edge.
fn disturb_box(rng: &mut Rng, records: &Records, view: &mut TextureView, size: &mut Extent) {
    let Some(texture) = records.textures.get(view.texture as usize) else {
        return;
    };
    if !texture.is_within_bounds() {
        return;
    }
    let levels = texture.levels;
    let extent = level_extent(texture, view.level.min(levels - 1));
    match rng.below(12) {
        0 => view.level = rng.pick(&[levels, levels + 1, 31, 32, u32::MAX]),
        1 => view.x = origin_near(rng, extent.width, size.width),
        2 => view.y = origin_near(rng, extent.height, size.height),
        3 => view.z = origin_near(rng, extent.depth, size.depth),
        4 => size.width = size_near(rng, extent.width, view.x),
        5 => size.height = size_near(rng, extent.height, view.y),
        6 => size.depth = size_near(rng, extent.depth, view.z),
        7 => view.level = rng.between(0, levels - 1),
        _ => break_blocks(rng, view, size),
    }
}

/// An origin or a size that ends inside a block but not outside the level.
fn break_blocks(rng: &mut Rng, view: &mut TextureView, size: &mut Extent) {
    let off = rng.between(1, 3);
    match rng.below(4) {
        0 => {
            view.x = view.x.saturating_add(off);
            size.width = size.width.saturating_sub(4);
        }
        1 => {
            view.y = view.y.saturating_add(off);
            size.height = size.height.saturating_sub(4);
        }
        2 => size.width = size.width.saturating_sub(off),
        _ => size.height = size.height.saturating_sub(off),
    }
}

fn origin_near(rng: &mut Rng, extent: u32, size: u32) -> u32 {
    let last = extent.saturating_sub(size);
    rng.pick(&[
        0,
        1,
        last,
        last + 1,
        extent - 1,
        extent,
        extent + 1,
        u32::MAX,
        (u32::MAX - size.min(extent)).saturating_add(1),
    ])
}

fn size_near(rng: &mut Rng, extent: u32, origin: u32) -> u32 {
    let most = extent.saturating_sub(origin);
    rng.pick(&[
        0,
        0,
        1,
        most,
        most + 1,
        most.saturating_sub(1),
        extent,
        extent + 1,
        u32::MAX,
        (u32::MAX - origin.min(extent)).saturating_add(1),
    ])
}

fn sound_texture_copy(rng: &mut Rng, records: &Records) -> TextureDraft {
    let sources = records.textures_that(|texture| texture.usage & Texture::COPY_SRC != 0);
    let source = pick_or_first(rng, &sources);
    let destination = compatible_texture(rng, records, source);
    let source_texture = &records.textures[source as usize];
    let destination_texture = &records.textures[destination as usize];

    let (source_level, destination_level) = some_levels(rng, source_texture, destination_texture);
    let aspect = match (source_texture.format, destination_texture.format) {
        (NV12, 0) => PLANE_0,
        (NV12, 1) => PLANE_1,
        _ => ALL,
    };
    let mut source_extent = level_extent(source_texture, source_level);
    if aspect == PLANE_1 {
        source_extent.width /= 2;
        source_extent.height /= 2;
    }
    let destination_extent = level_extent(destination_texture, destination_level);
    let least = Extent {
        width: source_extent.width.min(destination_extent.width),
        height: source_extent.height.min(destination_extent.height),
        depth: source_extent.depth.min(destination_extent.depth),
    };
    let ([x, y, z], size) = box_within(rng, source_texture, &least);
    let view = |texture, level, aspect| TextureView {
        texture,
        level,
        x,
        y,
        z,
        aspect,
    };
    let mut draft = TextureDraft {
        source: view(source, source_level, aspect),
        destination: view(destination, destination_level, ALL),
        size,
    };
    move_box(
        rng,
        source_texture,
        &mut draft.source,
        &source_extent,
        &size,
    );
    move_box(
        rng,
        destination_texture,
        &mut draft.destination,
        &destination_extent,
        &size,
    );
    if source == destination && source_level == destination_level && rng.chance(70) {
        part_layers(&mut draft, least.depth);
    }
    draft
}

/// A level of each texture; the same one where whole sides are copied.
fn some_levels(rng: &mut Rng, source: &Texture, destination: &Texture) -> (u32, u32) {
    let level = some_level(rng, source);
    let shared = level.min(destination.levels - 1);
    if needs_whole_sides(source) {
        (shared, shared)
    } else if rng.chance(50) {
        (level, shared)
    } else {
        (level, some_level(rng, destination))
    }
}

/// Puts a copy within one texture on layers that do not meet.
fn part_layers(draft: &mut TextureDraft, layers: u32) {
    draft.size.depth = draft.size.depth.min(layers / 2);
    draft.source.z = draft.source.z.min(layers - 2 * draft.size.depth);
    draft.destination.z = draft.source.z + draft.size.depth;
}

/// A destination that the source's format may be copied to.
fn compatible_texture(rng: &mut Rng, records: &Records, source: u32) -> u32 {
    let source_texture = &records.textures[source as usize];
    let linear = |texture: &Texture| {
        wgt::TextureFormat::ALL[texture.format as usize].remove_srgb_suffix() as u32
    };
    let choices = records.textures_that(|texture| {
        texture.usage & Texture::COPY_DST != 0
            && texture.samples == source_texture.samples
            && (linear(texture) == linear(source_texture)
                || (source_texture.format == NV12 && texture.format <= 1))
            && (!needs_whole_sides(texture)
                || (texture.width, texture.height) == (source_texture.width, source_texture.height))
    });
    let others: Vec<u32> = choices
        .iter()
        .copied()
        .filter(|index| *index != source)
        .collect();
    if others.is_empty() || rng.chance(15) {
        pick_or_first(rng, &choices)
    } else {
        rng.pick(&others)
    }
}

/// Moves a box elsewhere within its level.
fn move_box(
    rng: &mut Rng,
    texture: &Texture,
    view: &mut TextureView,
    extent: &Extent,
    size: &Extent,
) {
    let block = u64::from(block_side(texture));
    let room = |extent: u32, size: u32| u64::from(extent.saturating_sub(size));
    if rng.chance(50) && !needs_whole_sides(texture) {
        view.x = multiple_up_to(rng, room(extent.width, size.width), block) as u32;
        view.y = multiple_up_to(rng, room(extent.height, size.height), block) as u32;
    }
    if rng.chance(60) {
        view.z = multiple_up_to(rng, room(extent.depth, size.depth), 1) as u32;
    }
}

fn disturb_texture_copy(rng: &mut Rng, records: &Records, draft: &mut TextureDraft) {
    let texture_count = records.textures.len();
    if [&draft.source, &draft.destination]
        .iter()
        .any(|view| view.texture as usize >= texture_count)
    {
        // Refused before anything else is looked at.
        return;
    }
    let view = if rng.chance(50) {
        &mut draft.source
    } else {
        &mut draft.destination
    };
    match rng.below(24) {
        0 => view.texture = index_past(rng, texture_count),
        1 => view.texture = records.ill_texture().unwrap_or(view.texture),
        2 => view.texture = rng.index(texture_count) as u32,
        3 | 4 => view.texture = records.relative_of(rng, view.texture),
        5 | 6 => view.aspect = rng.between(0, MAX_ASPECT),
        7..=13 => disturb_box(rng, records, view, &mut draft.size),
        14 | 15 => draft.destination = draft.source,
        16..=18 => single_aspect(rng, records, draft),
        19 | 20 => relatives(rng, records, draft, |texture| texture.samples == 4),
        _ => relatives(rng, records, draft, |texture| texture.usage & 3 != 3),
    }
}

/// A whole combined depth-stencil or NV12 texture onto its like, with one
/// aspect on one side.
fn single_aspect(rng: &mut Rng, records: &Records, draft: &mut TextureDraft) {
    let combined = records.textures_that(|texture| [18, 20, NV12].contains(&texture.format));
    if combined.is_empty() {
        return;
    }
    *draft = whole_layer(records, rng.pick(&combined), rng.pick(&combined));
    let aspect = rng.pick(&[STENCIL_ONLY, DEPTH_ONLY, PLANE_0, PLANE_1]);
    if rng.chance(50) {
        draft.source.aspect = aspect;
    } else {
        draft.destination.aspect = aspect;
    }
}

/// A whole texture that fits, from or onto one of its family.
fn relatives(
    rng: &mut Rng,
    records: &Records,
    draft: &mut TextureDraft,
    fit: impl Fn(&Texture) -> bool,
) {
    let choices = records.textures_that(fit);
    if choices.is_empty() {
        return;
    }
    let first = rng.pick(&choices);
    let second = records.relative_of(rng, first);
    *draft = if rng.chance(50) {
        whole_layer(records, first, second)
    } else {
        whole_layer(records, second, first)
    };
}

/// Layer 0 of level 0 of one texture onto that of another.
fn whole_layer(records: &Records, source: u32, destination: u32) -> TextureDraft {
    let view = |texture| TextureView {
        texture,
        level: 0,
        x: 0,
        y: 0,
        z: 0,
        aspect: ALL,
    };
    let texture = &records.textures[source as usize];
    TextureDraft {
        source: view(source),
        destination: view(destination),
        size: Extent {
            width: texture.width,
            height: texture.height,
            depth: 1,
        },
    }
}
