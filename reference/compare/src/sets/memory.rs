//! Writes from memory whose strides, offsets and lengths reach the ends of 32 and
//! of 64 bits.

use std::io;

use copy_sheet::{Copy, Extent, MemoryView, Texture, TextureView};

use crate::{Case, Emit, Packer};

/// A format and the bytes of its block.
const FORMATS: [(u32, u32); 2] = [(0, 1), (10, 16)];
const BYTES_PER_ROW: [u32; 6] = [16, 257, 65_536, 1 << 31, u32::MAX - 1, u32::MAX];
const ROWS_PER_IMAGE: [u32; 5] = [2, 65_536, 1 << 31, u32::MAX - 1, u32::MAX];
const HEIGHTS: u32 = 3;
const IMAGES: u32 = 4;

pub fn sheets(emit: &mut Emit) -> io::Result<()> {
    let mut packer = Packer::new(emit);
    for (format, block) in FORMATS {
        for dimension in [2, 3] {
            for number in 0..=HEIGHTS * (IMAGES + 1) + IMAGES {
                let size = Extent {
                    width: 1,
                    height: number / (IMAGES + 1),
                    depth: number % (IMAGES + 1),
                };
                add_strides(&mut packer, [format, dimension, block], size)?;
            }
        }
    }
    packer.finish()
}

fn add_strides(
    packer: &mut Packer,
    [format, dimension, block]: [u32; 3],
    size: Extent,
) -> io::Result<()> {
    let texture = Texture {
        format,
        dimension,
        width: 1,
        height: HEIGHTS,
        depth: IMAGES,
        levels: 1,
        samples: 1,
        usage: Texture::COPY_DST,
    };
    for bytes_per_row in BYTES_PER_ROW {
        for rows_per_image in ROWS_PER_IMAGE {
            let total = total_bytes(&size, block, bytes_per_row, rows_per_image);
            for offset in offsets(total) {
                for length in lengths(offset, total) {
                    let source = MemoryView {
                        length,
                        offset,
                        bytes_per_row: Some(bytes_per_row),
                        rows_per_image: Some(rows_per_image),
                    };
                    add(packer, texture, source, size)?;
                }
            }
        }
    }
    Ok(())
}

/// The bytes of a write; the largest number where they are more.
fn total_bytes(size: &Extent, block: u32, bytes_per_row: u32, rows_per_image: u32) -> u64 {
    let strided = |count: u32, stride: u64, item: u64| match count {
        0 => 0,
        _ => u64::from(count - 1)
            .saturating_mul(stride)
            .saturating_add(item),
    };
    let row_stride = u64::from(bytes_per_row);
    let image = strided(size.height, row_stride, block.into());
    strided(size.depth, row_stride * u64::from(rows_per_image), image)
}

/// At the start, past 32 bits, and at the last places where the data ends below
/// 2^64.
fn offsets(total: u64) -> [u64; 6] {
    let last = u64::MAX - total;
    [0, 1, 1 << 32, last, last.saturating_add(1), u64::MAX]
}

/// Around the end of the data, and at the ends of 32 and of 64 bits.
fn lengths(offset: u64, total: u64) -> [u64; 7] {
    let end = offset.saturating_add(total);
    [
        end.saturating_sub(1),
        end,
        end.saturating_add(1),
        offset,
        1 << 32,
        1 << 63,
        u64::MAX,
    ]
}

fn add(packer: &mut Packer, texture: Texture, source: MemoryView, size: Extent) -> io::Result<()> {
    packer.add(&Case {
        device: Case::DEVICE,
        textures: &[texture],
        buffers: &[],
        copy: Copy::MemoryToTexture {
            source,
            destination: TextureView {
                texture: 0,
                level: 0,
                x: 0,
                y: 0,
                z: 0,
                aspect: 0,
            },
            size,
        },
    })
}
