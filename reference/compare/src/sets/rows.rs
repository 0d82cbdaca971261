//! Layouts of boxes whose dense rows are around 256 bytes, where rows and
//! images can be without gaps.

use std::io;

use copy_sheet::{Buffer, BufferView, Extent, Texture, TextureView};

use super::linear::every_way;
use crate::{Case, Emit, Packer};

/// A format, its block's side, and the texels of a row of 256 bytes.
const FORMATS: [(u32, u32, u32); 5] = [
    (0, 1, 256),
    (2, 1, 64),
    (10, 1, 16),
    (11, 4, 128),
    (15, 1, 256),
];
const OFFSETS: [u64; 7] = [0, 1, 3, 4, 8, 16, 20];
const BYTES_PER_ROW: [Option<u32>; 4] = [None, Some(256), Some(512), Some(4_294_967_040)];
const ROWS_PER_IMAGE: [Option<u32>; 6] = [None, Some(0), Some(1), Some(2), Some(3), Some(u32::MAX)];
/// The bytes of three images of three dense rows, and so few that fewer fit.
const BUFFER_SIZES: [u64; 2] = [2_304, 770];
const IMAGES: u32 = 4;

pub fn sheets(emit: &mut Emit) -> io::Result<()> {
    let mut packer = Packer::new(emit);
    for (format, block, full) in FORMATS {
        for width in [full - block, full, full + block] {
            for rows in 0..=3 {
                for depth in 0..=3 {
                    let size = Extent {
                        width,
                        height: rows * block,
                        depth,
                    };
                    // Compressed and depth-stencil formats have layers only.
                    for dimension in 2..=if format <= 10 { 3 } else { 2 } {
                        add_layouts(&mut packer, format, dimension, size)?;
                    }
                }
            }
        }
    }
    packer.finish()
}

fn add_layouts(packer: &mut Packer, format: u32, dimension: u32, size: Extent) -> io::Result<()> {
    let texture = Texture {
        format,
        dimension,
        width: size.width,
        height: size.height.max(if format == 11 { 4 } else { 1 }),
        depth: IMAGES,
        levels: 1,
        samples: 1,
        usage: Texture::COPY_SRC | Texture::COPY_DST,
    };
    for offset in OFFSETS {
        for bytes_per_row in BYTES_PER_ROW {
            for rows_per_image in ROWS_PER_IMAGE {
                let layout = BufferView {
                    buffer: 0,
                    offset,
                    bytes_per_row,
                    rows_per_image,
                };
                add_copies(packer, texture, layout, size)?;
            }
        }
    }
    Ok(())
}

/// Every way, with each size of the buffer or memory.
fn add_copies(
    packer: &mut Packer,
    texture: Texture,
    layout: BufferView,
    size: Extent,
) -> io::Result<()> {
    let view = TextureView {
        texture: 0,
        level: 0,
        x: 0,
        y: 0,
        z: 0,
        aspect: 0,
    };
    for buffer_size in BUFFER_SIZES {
        let buffer = Buffer {
            size: buffer_size,
            usage: Buffer::COPY_SRC | Buffer::COPY_DST,
        };
        for copy in every_way(layout, buffer_size, view, size) {
            packer.add(&Case {
                device: Case::DEVICE,
                textures: &[texture],
                buffers: &[buffer],
                copy,
            })?;
        }
    }
    Ok(())
}
