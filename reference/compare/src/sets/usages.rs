//! Every usage of buffers and textures.

use std::io;

use copy_sheet::{Buffer, BufferView, Copy, Extent, MemoryView, Texture, TextureView};

use super::formats::DEVICES;
use super::linear::both_ways;
use crate::{Case, Emit, Packer};

/// The flags that copies ask about.
const FLAGS: [u32; 7] = [
    Buffer::COPY_SRC,
    Buffer::COPY_DST,
    Buffer::INDEX,
    Buffer::VERTEX,
    Buffer::UNIFORM,
    Buffer::STORAGE,
    Buffer::INDIRECT,
];
const SETS_OF_FLAGS: u32 = 1 << FLAGS.len();

/// As many on each side as give a full sheet of pairs.
const BLOCK: u32 = 16;

/// One more than the largest.
const BUFFER_USAGES: std::ops::RangeInclusive<u32> = 0..=1_024;
const TEXTURE_USAGES: std::ops::RangeInclusive<u32> = 0..=32;

pub fn sheets(emit: &mut Emit) -> io::Result<()> {
    let mut packer = Packer::new(emit);
    pairs_of_sets(&mut packer)?;
    every_buffer_usage(&mut packer)?;
    buffers_and_textures(&mut packer)?;
    between_textures(&mut packer)?;
    from_memory(&mut packer)?;
    packer.finish()
}

/// The usage with the flags that a number's bits choose.
fn usage(number: u32) -> u32 {
    let chosen = (0..).zip(FLAGS).filter(|(bit, _)| number >> bit & 1 == 1);
    chosen.map(|(_, flag)| flag).sum()
}

fn buffer(usage: u32) -> Buffer {
    Buffer { size: 64, usage }
}

fn texture(usage: u32) -> Texture {
    Texture {
        format: 0,
        dimension: 2,
        width: 4,
        height: 1,
        depth: 1,
        levels: 1,
        samples: 1,
        usage,
    }
}

const VIEW: TextureView = TextureView {
    texture: 0,
    level: 0,
    x: 0,
    y: 0,
    z: 0,
    aspect: 0,
};
const SIZE: Extent = Extent {
    width: 4,
    height: 1,
    depth: 1,
};

/// Every set of the flags for the source with every one for the destination.
fn pairs_of_sets(packer: &mut Packer) -> io::Result<()> {
    let blocks = || (0..SETS_OF_FLAGS).step_by(BLOCK as usize);
    for device in &DEVICES[..2] {
        for (first, second) in blocks().flat_map(|first| blocks().map(move |other| (first, other)))
        {
            for source in first..first + BLOCK {
                for destination in second..second + BLOCK {
                    let buffers = [buffer(usage(source)), buffer(usage(destination))];
                    add_buffer_copy(packer, *device, &buffers)?;
                }
            }
        }
    }
    Ok(())
}

/// Every usage on one side, with both copy flags on the other.
fn every_buffer_usage(packer: &mut Packer) -> io::Result<()> {
    let both = buffer(Buffer::COPY_SRC | Buffer::COPY_DST);
    for device in &DEVICES[..2] {
        for usage in BUFFER_USAGES {
            add_buffer_copy(packer, *device, &[buffer(usage), both])?;
            add_buffer_copy(packer, *device, &[both, buffer(usage)])?;
        }
    }
    Ok(())
}

fn add_buffer_copy(
    packer: &mut Packer,
    device: copy_sheet::Device,
    buffers: &[Buffer; 2],
) -> io::Result<()> {
    packer.add(&Case {
        device,
        textures: &[],
        buffers,
        copy: Copy::BufferToBuffer {
            source: 0,
            source_offset: 0,
            destination: 1,
            destination_offset: 4,
            size: Some(8),
        },
    })
}

/// Every set of the flags with every usage of a texture, on every device.
fn buffers_and_textures(packer: &mut Packer) -> io::Result<()> {
    let layout = BufferView {
        buffer: 0,
        offset: 0,
        bytes_per_row: None,
        rows_per_image: None,
    };
    for device in DEVICES {
        for set in 0..SETS_OF_FLAGS {
            for texture_usage in TEXTURE_USAGES {
                for copy in both_ways(layout, VIEW, SIZE) {
                    packer.add(&Case {
                        device,
                        textures: &[texture(texture_usage)],
                        buffers: &[buffer(usage(set))],
                        copy,
                    })?;
                }
            }
        }
    }
    Ok(())
}

fn between_textures(packer: &mut Packer) -> io::Result<()> {
    for source in TEXTURE_USAGES {
        for destination in TEXTURE_USAGES {
            packer.add(&Case {
                device: Case::DEVICE,
                textures: &[texture(source), texture(destination)],
                buffers: &[],
                copy: Copy::TextureToTexture {
                    source: VIEW,
                    destination: TextureView { texture: 1, ..VIEW },
                    size: SIZE,
                },
            })?;
        }
    }
    Ok(())
}

/// Every usage of a texture, on every device, where the level or the aspect is
/// there and where it is not: these are asked for before the usage.
fn from_memory(packer: &mut Packer) -> io::Result<()> {
    let source = MemoryView {
        length: 64,
        offset: 0,
        bytes_per_row: None,
        rows_per_image: None,
    };
    for device in DEVICES {
        for usage in TEXTURE_USAGES {
            for (level, aspect) in [(0, 0), (1, 0), (0, 2), (1, 2)] {
                packer.add(&Case {
                    device,
                    textures: &[texture(usage)],
                    buffers: &[],
                    copy: Copy::MemoryToTexture {
                        source,
                        destination: TextureView {
                            level,
                            aspect,
                            ..VIEW
                        },
                        size: SIZE,
                    },
                })?;
            }
        }
    }
    Ok(())
}
