//! Boxes within textures, at and past the ends of their levels.

use std::io;

use copy_sheet::{Buffer, BufferView, Copy, Extent, Texture, TextureView};

use super::linear::every_way;
use crate::{Case, Emit, Packer};

/// Format, dimension, width, height, depth, levels, samples.
const TEXTURES: [[u32; 7]; 9] = [
    [0, 1, 5, 1, 1, 1, 1],
    [2, 2, 5, 4, 3, 3, 1],
    [2, 3, 4, 5, 3, 3, 1],
    [0, 2, 4, 4, 1, 1, 4],
    [11, 2, 8, 4, 2, 4, 1],
    [13, 2, 4, 8, 2, 4, 1],
    [16, 2, 4, 4, 2, 3, 1],
    [20, 2, 5, 3, 2, 3, 1],
    [21, 2, 4, 6, 2, 1, 1],
];

/// Origins and sizes along an axis.
const SPANS: [u32; 13] = [
    0,
    1,
    2,
    3,
    4,
    5,
    6,
    7,
    8,
    12,
    1 << 31,
    u32::MAX - 1,
    u32::MAX,
];

fn texture(fields: [u32; 7]) -> Texture {
    let [format, dimension, width, height, depth, levels, samples] = fields;
    Texture {
        format,
        dimension,
        width,
        height,
        depth,
        levels,
        samples,
        usage: Texture::COPY_SRC | Texture::COPY_DST,
    }
}

/// An aspect with which a format may be copied to or from a buffer.
fn single_aspect(format: u32) -> u32 {
    match format {
        20 => 1,
        21 => 3,
        _ => 0,
    }
}

/// Every origin and size along each axis, the whole of the others.
pub fn ranges(emit: &mut Emit) -> io::Result<()> {
    let mut packer = Packer::new(emit);
    for texture in TEXTURES.map(texture) {
        for level in 0..=texture.levels + 1 {
            for axis in 0..3 {
                for origin in SPANS {
                    for size in SPANS {
                        add_box(&mut packer, &texture, level, axis, [origin, size])?;
                    }
                }
            }
        }
    }
    packer.finish()
}

/// The sides of a level in whole blocks.
fn sides(texture: &Texture, level: u32) -> [u32; 3] {
    let block = if (11..=14).contains(&texture.format) {
        4
    } else {
        1
    };
    let halved = |side: u32| (side >> level.min(31)).max(1);
    [
        halved(texture.width).next_multiple_of(block),
        halved(texture.height).next_multiple_of(block),
        if texture.dimension == 3 {
            halved(texture.depth)
        } else {
            texture.depth
        },
    ]
}

fn add_box(
    packer: &mut Packer,
    texture: &Texture,
    level: u32,
    axis: usize,
    span: [u32; 2],
) -> io::Result<()> {
    let mut origin = [0; 3];
    let mut size = sides(texture, level);
    [origin[axis], size[axis]] = span;
    let [x, y, z] = origin;
    let [width, height, depth] = size;
    let size = Extent {
        width,
        height,
        depth,
    };
    let view = TextureView {
        texture: 0,
        level,
        x,
        y,
        z,
        aspect: 0,
    };
    let still = TextureView {
        texture: 1,
        x: 0,
        y: 0,
        z: 0,
        ..view
    };
    let layout = BufferView {
        buffer: 0,
        offset: 16,
        bytes_per_row: Some(256),
        rows_per_image: Some(size.height.min(8)),
    };
    let with_buffer = TextureView {
        aspect: single_aspect(texture.format),
        ..view
    };
    let buffer = Buffer {
        size: 1 << 16,
        usage: Buffer::COPY_SRC | Buffer::COPY_DST,
    };
    let [to_texture, to_buffer, from_memory] = every_way(layout, buffer.size, with_buffer, size);
    let between = |source, destination| Copy::TextureToTexture {
        source,
        destination,
        size,
    };
    let copies = [
        to_texture,
        to_buffer,
        from_memory,
        between(view, still),
        between(still, view),
    ];
    for copy in copies {
        packer.add(&Case {
            device: Case::DEVICE,
            textures: &[*texture, *texture],
            buffers: &[buffer],
            copy,
        })?;
    }
    Ok(())
}

/// Textures copied onto themselves, and the aspects asked of them.
const WITHIN: [([u32; 7], &[u32]); 5] = [
    ([0, 1, 4, 1, 1, 1, 1], &[0, 1]),
    ([0, 2, 4, 4, 4, 2, 1], &[0, 3]),
    ([0, 3, 4, 4, 4, 2, 1], &[0, 3]),
    ([20, 2, 4, 4, 4, 2, 1], &[0, 1, 2]),
    ([21, 2, 4, 4, 4, 1, 1], &[0, 3, 4]),
];

/// Every pair of layers or depths, levels and aspects of one texture.
pub fn within_one_texture(emit: &mut Emit) -> io::Result<()> {
    let mut packer = Packer::new(emit);
    for (fields, aspects) in WITHIN {
        let texture = texture(fields);
        let views: Vec<TextureView> = views(&texture, aspects);
        for source in &views {
            for destination in &views {
                add_depths(&mut packer, &texture, *source, *destination)?;
            }
        }
    }
    packer.finish()
}

fn views(texture: &Texture, aspects: &[u32]) -> Vec<TextureView> {
    let mut views = Vec::new();
    for aspect in aspects {
        for level in 0..texture.levels {
            for z in 0..=4 {
                views.push(TextureView {
                    texture: 0,
                    level,
                    x: 0,
                    y: 0,
                    z,
                    aspect: *aspect,
                });
            }
        }
    }
    views
}

fn add_depths(
    packer: &mut Packer,
    texture: &Texture,
    source: TextureView,
    destination: TextureView,
) -> io::Result<()> {
    let [width, height, _] = sides(texture, source.level.max(destination.level));
    for depth in 0..=4 {
        packer.add(&Case {
            device: Case::DEVICE,
            textures: &[*texture],
            buffers: &[],
            copy: Copy::TextureToTexture {
                source,
                destination,
                size: Extent {
                    width,
                    height,
                    depth,
                },
            },
        })?;
    }
    Ok(())
}
