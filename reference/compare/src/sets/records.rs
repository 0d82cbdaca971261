//! Records at and past their bounds. Each is asked for a copy of nothing, so
//! that the answer tells whether it is within them.

use std::io;

use copy_sheet::{Buffer, BufferView, Copy, Extent, Texture, TextureView, MAX_BUFFER_SIZE};

use super::linear::{both_ways, every_way};
use crate::{Case, Emit, Packer};

const FORMATS: [u32; 10] = [0, 10, 11, 14, 15, 20, 21, 22, 32, u32::MAX];
const DIMENSIONS: [u32; 6] = [0, 1, 2, 3, 4, u32::MAX];
const WIDTHS: [u32; 9] = [0, 1, 4, 6, 2_048, 2_049, 8_192, 8_193, u32::MAX];
const HEIGHTS: [u32; 6] = [0, 1, 4, 6, 2_049, 8_192];
const DEPTHS: [u32; 6] = [0, 1, 2, 256, 257, 2_048];
const LEVELS: [u32; 8] = [0, 1, 2, 3, 12, 13, 14, 15];
const SAMPLES: [u32; 3] = [1, 2, 4];

const BUFFER_SIZES: [u64; 6] = [
    0,
    1,
    MAX_BUFFER_SIZE,
    MAX_BUFFER_SIZE + 1,
    1 << 32,
    u64::MAX,
];
const BUFFER_USAGES: [u32; 5] = [0, 12, 1_023, 1_024, u32::MAX];

const COPY_BOTH: u32 = Texture::COPY_SRC | Texture::COPY_DST;

pub fn sheets(emit: &mut Emit) -> io::Result<()> {
    let mut packer = Packer::new(emit);
    // These come first, so that a run of some of the sheets has them.
    buffer_records(&mut packer)?;
    for format in FORMATS {
        for dimension in DIMENSIONS {
            for width in WIDTHS {
                for height in HEIGHTS {
                    for depth in DEPTHS {
                        let fields = [format, dimension, width, height, depth];
                        add_levels_and_samples(&mut packer, fields)?;
                    }
                }
            }
        }
    }
    packer.finish()
}

const VIEW: TextureView = TextureView {
    texture: 0,
    level: 0,
    x: 0,
    y: 0,
    z: 0,
    aspect: 0,
};
const LAYOUT: BufferView = BufferView {
    buffer: 0,
    offset: 0,
    bytes_per_row: None,
    rows_per_image: None,
};
const NOTHING: Extent = Extent {
    width: 0,
    height: 0,
    depth: 0,
};

fn add_levels_and_samples(packer: &mut Packer, fields: [u32; 5]) -> io::Result<()> {
    let [format, dimension, width, height, depth] = fields;
    for levels in LEVELS {
        for samples in SAMPLES {
            let texture = Texture {
                format,
                dimension,
                width,
                height,
                depth,
                levels,
                samples,
                usage: COPY_BOTH,
            };
            let buffer = Buffer { size: 4, usage: 12 };
            // As a source, and as a destination.
            let [_, to_buffer, from_memory] = every_way(LAYOUT, buffer.size, VIEW, NOTHING);
            for copy in [to_buffer, from_memory] {
                packer.add(&Case {
                    device: Case::DEVICE,
                    textures: &[texture],
                    buffers: &[buffer],
                    copy,
                })?;
            }
        }
    }
    Ok(())
}

fn buffer_records(packer: &mut Packer) -> io::Result<()> {
    let texture = Texture {
        format: 0,
        dimension: 2,
        width: 1,
        height: 1,
        depth: 1,
        levels: 1,
        samples: 1,
        usage: COPY_BOTH,
    };
    for size in BUFFER_SIZES {
        for usage in BUFFER_USAGES {
            let buffers = [Buffer { size, usage }, Buffer { size: 4, usage: 12 }];
            let [to_texture, to_buffer] = both_ways(LAYOUT, VIEW, NOTHING);
            let between = |source, destination| Copy::BufferToBuffer {
                source,
                source_offset: 0,
                destination,
                destination_offset: 0,
                size: Some(0),
            };
            for copy in [
                to_texture,
                to_buffer,
                between(0, 1),
                between(1, 0),
                between(0, 0),
            ] {
                packer.add(&Case {
                    device: Case::DEVICE,
                    textures: &[texture],
                    buffers: &buffers,
                    copy,
                })?;
            }
        }
    }
    Ok(())
}
