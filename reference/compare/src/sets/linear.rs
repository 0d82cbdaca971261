//! Every small layout of the linear data of a buffer.

use std::io;

use copy_sheet::{Buffer, BufferView, Copy, Extent, MemoryView, Texture, TextureView};

use crate::{Case, Emit, Packer};

const BYTES_PER_ROW: [Option<u32>; 8] = [
    None,
    Some(0),
    Some(1),
    Some(4),
    Some(255),
    Some(256),
    Some(257),
    Some(512),
];
const ROWS_PER_IMAGE: [Option<u32>; 5] = [None, Some(0), Some(1), Some(2), Some(3)];

/// One that cuts short most of the copies, one that cuts short the largest.
const BUFFER_SIZES: [u64; 2] = [17, 4_096];

const EVERY_OFFSET: &[u64] = &[
    0, 1, 2, 3, 4, 5, 6, 7, 8, 9, 10, 11, 12, 13, 14, 15, 16, 17, 18, 19, 20,
];
const SOME_OFFSETS: &[u64] = &[0, 2, 4, 16];

#[derive(Clone, Copy)]
enum Shape {
    /// Layers of the size of the copy, where that is not 0.
    Exact,
    /// Layers with room around the copy.
    Roomy,
    /// A volume with room around the copy.
    Volume,
}

/// A format and aspect, in a shape, at offsets.
type Variant = (u32, u32, Shape, &'static [u64]);

const VARIANTS: [Variant; 14] = [
    (0, 0, Shape::Exact, EVERY_OFFSET),
    (1, 0, Shape::Roomy, EVERY_OFFSET),
    (2, 0, Shape::Exact, EVERY_OFFSET),
    (7, 0, Shape::Volume, EVERY_OFFSET),
    (10, 0, Shape::Exact, EVERY_OFFSET),
    (11, 0, Shape::Exact, EVERY_OFFSET),
    (15, 0, Shape::Exact, EVERY_OFFSET),
    (16, 0, Shape::Exact, EVERY_OFFSET),
    (20, 1, Shape::Exact, EVERY_OFFSET),
    (21, 3, Shape::Roomy, EVERY_OFFSET),
    (0, 0, Shape::Volume, SOME_OFFSETS),
    (11, 0, Shape::Roomy, SOME_OFFSETS),
    (20, 2, Shape::Exact, SOME_OFFSETS),
    (21, 4, Shape::Exact, SOME_OFFSETS),
];

pub fn sheets(emit: &mut Emit) -> io::Result<()> {
    let mut packer = Packer::new(emit);
    for variant in VARIANTS {
        for size in boxes(block_side(variant.0)) {
            add_layouts(&mut packer, variant, size)?;
        }
    }
    packer.finish()
}

fn block_side(format: u32) -> u32 {
    if (11..=14).contains(&format) {
        4
    } else {
        1
    }
}

/// Boxes of 0 to 3 blocks along each side, and of 0 to 3 images.
fn boxes(block: u32) -> impl Iterator<Item = Extent> {
    (0..64).map(move |number: u32| Extent {
        width: number % 4 * block,
        height: number / 4 % 4 * block,
        depth: number / 16,
    })
}

fn add_layouts(packer: &mut Packer, variant: Variant, size: Extent) -> io::Result<()> {
    let (format, aspect, shape, offsets) = variant;
    let texture = texture(format, shape, &size);
    let origin = match shape {
        Shape::Exact => 0,
        Shape::Roomy | Shape::Volume => 1,
    };
    let view = TextureView {
        texture: 0,
        level: 0,
        x: origin * block_side(format),
        y: origin * block_side(format),
        z: origin,
        aspect,
    };
    for offset in offsets {
        for bytes_per_row in BYTES_PER_ROW {
            for rows_per_image in ROWS_PER_IMAGE {
                let layout = BufferView {
                    buffer: 0,
                    offset: *offset,
                    bytes_per_row,
                    rows_per_image,
                };
                add_copies(packer, texture, layout, view, size)?;
            }
        }
    }
    Ok(())
}

/// Every way, with each size of the buffer or memory.
fn add_copies(
    packer: &mut Packer,
    texture: Texture,
    layout: BufferView,
    view: TextureView,
    size: Extent,
) -> io::Result<()> {
    for buffer_size in BUFFER_SIZES {
        let buffer = Buffer {
            size: buffer_size,
            usage: Buffer::COPY_SRC | Buffer::COPY_DST,
        };
        for copy in every_way(layout, buffer_size, view, size) {
            packer.add(&Case {
                device: Case::DEVICE,
                textures: &[texture],
                buffers: &[buffer],
                copy,
            })?;
        }
    }
    Ok(())
}

/// A copy from a buffer to a texture, and back.
pub fn both_ways(layout: BufferView, view: TextureView, size: Extent) -> [Copy; 2] {
    [
        Copy::BufferToTexture {
            source: layout,
            destination: view,
            size,
        },
        Copy::TextureToBuffer {
            source: view,
            destination: layout,
            size,
        },
    ]
}

/// A copy from a buffer to a texture, back, and from memory of this length.
pub fn every_way(layout: BufferView, length: u64, view: TextureView, size: Extent) -> [Copy; 3] {
    let [to_texture, to_buffer] = both_ways(layout, view, size);
    let source = MemoryView {
        length,
        offset: layout.offset,
        bytes_per_row: layout.bytes_per_row,
        rows_per_image: layout.rows_per_image,
    };
    let from_memory = Copy::MemoryToTexture {
        source,
        destination: view,
        size,
    };
    [to_texture, to_buffer, from_memory]
}

fn texture(format: u32, shape: Shape, size: &Extent) -> Texture {
    let block = block_side(format);
    let side = |side: u32| match (shape, format) {
        (Shape::Exact, 21) => side.max(2).next_multiple_of(2),
        (Shape::Exact, _) => side.max(block),
        (Shape::Roomy | Shape::Volume, _) => 6 * block,
    };
    Texture {
        format,
        dimension: match shape {
            Shape::Volume => 3,
            Shape::Exact | Shape::Roomy => 2,
        },
        width: side(size.width),
        height: side(size.height),
        depth: 4,
        levels: 1,
        samples: 1,
        usage: Texture::COPY_SRC | Texture::COPY_DST,
    }
}
