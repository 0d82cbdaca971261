//! Every format with every aspect.

use std::io;

use copy_sheet::{Buffer, BufferView, Copy, Device, Extent, Texture, TextureView};

use super::linear::every_way;
use crate::{Case, Emit, Packer};

/// One more than there are.
const FORMATS: std::ops::RangeInclusive<u32> = 0..=22;
const ASPECTS: std::ops::RangeInclusive<u32> = 0..=5;
const SAMPLES: [u32; 2] = [1, 4];

/// The devices with and without each fact.
pub const DEVICES: [Device; 4] = [
    device(true, true),
    device(true, false),
    device(false, true),
    device(false, false),
];

const fn device(depth_texture_and_buffer_copies: bool, unrestricted_index_buffer: bool) -> Device {
    Device {
        depth_texture_and_buffer_copies,
        unrestricted_index_buffer,
    }
}

/// Every format, aspect, dimension, count of samples and device, every way.
pub fn with_buffers(emit: &mut Emit) -> io::Result<()> {
    let buffer = Buffer {
        size: 1 << 16,
        usage: Buffer::COPY_SRC | Buffer::COPY_DST,
    };
    let layout = BufferView {
        buffer: 0,
        offset: 16,
        bytes_per_row: Some(256),
        rows_per_image: Some(8),
    };
    let mut packer = Packer::new(emit);
    for device in DEVICES {
        for texture in textures() {
            for aspect in ASPECTS {
                let view = view(0, aspect);
                for copy in every_way(layout, buffer.size, view, whole(&texture)) {
                    packer.add(&Case {
                        device,
                        textures: &[texture],
                        buffers: &[buffer],
                        copy,
                    })?;
                }
            }
        }
    }
    packer.finish()
}

/// Every pair of formats with every pair of aspects, whole and in part.
pub fn between_textures(emit: &mut Emit) -> io::Result<()> {
    let mut packer = Packer::new(emit);
    for source in FORMATS {
        for destination in FORMATS {
            for samples in SAMPLES {
                let textures = [texture(source, 2, 1), texture(destination, 2, samples)];
                add_aspects(&mut packer, &textures)?;
            }
        }
    }
    packer.finish()
}

fn add_aspects(packer: &mut Packer, textures: &[Texture; 2]) -> io::Result<()> {
    for source in ASPECTS {
        for destination in ASPECTS {
            for side in [8, 4] {
                packer.add(&Case {
                    device: Case::DEVICE,
                    textures,
                    buffers: &[],
                    copy: Copy::TextureToTexture {
                        source: view(0, source),
                        destination: view(1, destination),
                        size: Extent {
                            width: side,
                            height: side,
                            depth: 1,
                        },
                    },
                })?;
            }
        }
    }
    Ok(())
}

fn textures() -> impl Iterator<Item = Texture> {
    FORMATS.flat_map(|format| {
        (1..=3)
            .flat_map(move |dimension| SAMPLES.map(|samples| texture(format, dimension, samples)))
    })
}

fn texture(format: u32, dimension: u32, samples: u32) -> Texture {
    Texture {
        format,
        dimension,
        width: 8,
        height: if dimension == 1 { 1 } else { 8 },
        depth: if dimension == 1 || samples == 4 { 1 } else { 2 },
        levels: 1,
        samples,
        usage: Texture::COPY_SRC | Texture::COPY_DST,
    }
}

fn view(texture: u32, aspect: u32) -> TextureView {
    TextureView {
        texture,
        level: 0,
        x: 0,
        y: 0,
        z: 0,
        aspect,
    }
}

fn whole(texture: &Texture) -> Extent {
    Extent {
        width: texture.width,
        height: texture.height,
        depth: texture.depth,
    }
}
