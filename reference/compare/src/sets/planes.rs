//! Every small copy of the planes of NV12.

use std::io;

use copy_sheet::{Copy, Extent, Texture, TextureView};

use crate::{Case, Emit, Packer};

const NV12: u32 = 21;
const SIDE: u32 = 4;
const ASPECTS: [u32; 4] = [0, 3, 4, 5];
/// NV12 itself, and the formats of its planes.
const DESTINATIONS: [u32; 3] = [NV12, 0, 1];

/// Origins of the source from 0 to the side, of the destination 0 and 1, and
/// sizes from 0 to the side.
pub fn sheets(emit: &mut Emit) -> io::Result<()> {
    let mut packer = Packer::new(emit);
    for format in DESTINATIONS {
        for aspect in ASPECTS {
            for origin in pairs(SIDE) {
                for destination_origin in pairs(1) {
                    for size in pairs(SIDE) {
                        let views = [view(0, origin, aspect), view(1, destination_origin, 0)];
                        add(&mut packer, format, views, size)?;
                    }
                }
            }
        }
    }
    packer.finish()
}

/// Every pair of numbers up to the largest.
fn pairs(largest: u32) -> impl Iterator<Item = [u32; 2]> {
    (0..=largest).flat_map(move |first| (0..=largest).map(move |second| [first, second]))
}

fn view(texture: u32, [x, y]: [u32; 2], aspect: u32) -> TextureView {
    TextureView {
        texture,
        level: 0,
        x,
        y,
        z: 0,
        aspect,
    }
}

fn texture(format: u32) -> Texture {
    Texture {
        format,
        dimension: 2,
        width: SIDE,
        height: SIDE,
        depth: 1,
        levels: 1,
        samples: 1,
        usage: Texture::COPY_SRC | Texture::COPY_DST,
    }
}

fn add(
    packer: &mut Packer,
    format: u32,
    [source, destination]: [TextureView; 2],
    [width, height]: [u32; 2],
) -> io::Result<()> {
    packer.add(&Case {
        device: Case::DEVICE,
        textures: &[texture(NV12), texture(format)],
        buffers: &[],
        copy: Copy::TextureToTexture {
            source,
            destination,
            size: Extent {
                width,
                height,
                depth: 1,
            },
        },
    })
}
