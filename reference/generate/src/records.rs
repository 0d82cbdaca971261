//! Random records: textures in families of near relatives, buffers of telling
//! sizes, and a few records out of bounds.

use copy_sheet::{largest_level_count, Buffer, Texture, MAX_BUFFER_SIZE, MAX_RECORDS};

use crate::Rng;

pub const NV12: u32 = 21;
const COPY_BOTH: u32 = Texture::COPY_SRC | Texture::COPY_DST;
const BUFFER_COPY_BOTH: u32 = Buffer::COPY_SRC | Buffer::COPY_DST;
const OTHER_BUFFER_USAGES: [u32; 7] = [
    1,
    2,
    Buffer::VERTEX,
    Buffer::UNIFORM,
    Buffer::STORAGE,
    Buffer::INDIRECT,
    512,
];

/// The records of a sheet.
#[derive(Debug)]
pub struct Records {
    pub textures: Vec<Texture>,
    /// The family of each texture.
    families: Vec<u32>,
    pub buffers: Vec<Buffer>,
}

impl Records {
    pub fn random(rng: &mut Rng) -> Self {
        let mut records = Self {
            textures: Vec::new(),
            families: Vec::new(),
            buffers: Vec::new(),
        };
        for family in 0..rng.between(4, 8) {
            records.add_family(rng, family);
        }
        records.add_ill_textures(rng);
        records.add_buffers(rng);
        records
    }

    fn add_texture(&mut self, family: u32, texture: Texture) {
        if self.textures.len() < MAX_RECORDS as usize {
            self.textures.push(texture);
            self.families.push(family);
        }
    }

    fn add_family(&mut self, rng: &mut Rng, family: u32) {
        let first = texture(rng);
        self.add_texture(family, first);
        for _ in 0..rng.between(2, 6) {
            self.add_texture(family, relative(rng, &first));
        }
    }

    fn add_ill_textures(&mut self, rng: &mut Rng) {
        for _ in 0..rng.between(1, 2) {
            let index = rng.index(self.textures.len());
            let ill = ill_texture(rng, &self.textures[index]);
            self.add_texture(self.families[index], ill);
        }
    }

    fn add_buffers(&mut self, rng: &mut Rng) {
        // Two in which almost every copy finds room.
        for _ in 0..2 {
            self.buffers.push(Buffer {
                size: MAX_BUFFER_SIZE - rng.pick(&[0, 0, 0, 1, 4]),
                usage: buffer_usage(rng),
            });
        }
        for _ in 0..rng.between(6, 14) {
            let buffer = Buffer {
                size: buffer_size(rng),
                usage: buffer_usage(rng),
            };
            self.buffers.push(buffer);
        }
        for _ in 0..rng.between(1, 2) {
            self.buffers.push(ill_buffer(rng));
        }
    }

    /// The textures that are within bounds and fit a purpose.
    pub fn textures_that(&self, fit: impl Fn(&Texture) -> bool) -> Vec<u32> {
        (0..)
            .zip(&self.textures)
            .filter(|(_, texture)| texture.is_within_bounds() && fit(texture))
            .map(|(index, _)| index)
            .collect()
    }

    /// The buffers that are within bounds and fit a purpose.
    pub fn buffers_that(&self, fit: impl Fn(&Buffer) -> bool) -> Vec<u32> {
        (0..)
            .zip(&self.buffers)
            .filter(|(_, buffer)| buffer.is_within_bounds() && fit(buffer))
            .map(|(index, _)| index)
            .collect()
    }

    /// A texture of the same family, maybe the same one.
    pub fn relative_of(&self, rng: &mut Rng, texture: u32) -> u32 {
        let family = self.families[texture as usize];
        let relatives: Vec<u32> = (0..)
            .zip(&self.families)
            .filter(|(_, other)| **other == family)
            .map(|(index, _)| index)
            .collect();
        rng.pick(&relatives)
    }

    /// A record out of bounds, if there is one.
    pub fn ill_texture(&self) -> Option<u32> {
        (0..)
            .zip(&self.textures)
            .find(|(_, texture)| !texture.is_within_bounds())
            .map(|(index, _)| index)
    }

    /// A record out of bounds, if there is one.
    pub fn ill_buffer(&self) -> Option<u32> {
        (0..)
            .zip(&self.buffers)
            .find(|(_, buffer)| !buffer.is_within_bounds())
            .map(|(index, _)| index)
    }
}

/// A side: mostly small, at times a power of two, the most, or anything.
fn side(rng: &mut Rng, most: u32) -> u32 {
    match rng.below(20) {
        0 | 1 => 1,
        2 => most,
        3 => rng.between(1, most),
        4 | 5 => 1 << rng.between(0, most.ilog2()),
        _ => rng.between(1, 24),
    }
}

fn layer_count(rng: &mut Rng) -> u32 {
    match rng.below(40) {
        0 => 256,
        1 => rng.between(1, 256),
        2..=14 => 1,
        _ => rng.between(1, 6),
    }
}

/// A texture within bounds.
fn texture(rng: &mut Rng) -> Texture {
    let format = match rng.below(100) {
        0..=39 => rng.between(0, 10),
        40..=59 => rng.between(11, 14),
        60..=84 => rng.between(15, 20),
        _ => NV12,
    };
    let dimension = if format <= 10 {
        rng.pick(&[1, 2, 2, 2, 3, 3])
    } else {
        2
    };
    let unit = match format {
        11..=14 => 4,
        NV12 => 2,
        _ => 1,
    };
    let (width, height, depth) = match dimension {
        1 => (side(rng, 8_192), 1, 1),
        2 => (
            side(rng, 8_192).next_multiple_of(unit),
            side(rng, 8_192).next_multiple_of(unit),
            layer_count(rng),
        ),
        _ => (side(rng, 2_048), side(rng, 2_048), side(rng, 2_048)),
    };
    let mut texture = Texture {
        format,
        dimension,
        width,
        height,
        depth,
        levels: 1,
        samples: 1,
        usage: texture_usage(rng),
    };
    if format != NV12 {
        texture.levels = level_count(rng, &texture);
    }
    if rng.chance(20) {
        let sampled = multisampled(&texture);
        if sampled.is_within_bounds() {
            return sampled;
        }
    }
    texture
}

fn texture_usage(rng: &mut Rng) -> u32 {
    match rng.below(10) {
        0 => rng.between(0, 31),
        1 => 31,
        _ => COPY_BOTH,
    }
}

fn level_count(rng: &mut Rng, texture: &Texture) -> u32 {
    let most = largest_level_count(texture);
    match rng.below(4) {
        0 => 1,
        1 => most,
        _ => rng.between(1, most),
    }
}

fn multisampled(texture: &Texture) -> Texture {
    Texture {
        depth: 1,
        levels: 1,
        samples: 4,
        ..*texture
    }
}

/// A texture that differs from another in one respect, or in none.
fn relative(rng: &mut Rng, texture: &Texture) -> Texture {
    let other = match rng.below(12) {
        0 => Texture {
            usage: rng.pick(&[0, 1, 2, 4, 5, 6]),
            ..*texture
        },
        1 if texture.samples == 4 => Texture {
            samples: 1,
            ..*texture
        },
        1 => multisampled(texture),
        2 => srgb_twin(texture),
        3 | 4 => Texture {
            depth: layer_count(rng),
            ..*texture
        },
        5 | 6 if texture.dimension != 1 => Texture {
            dimension: 5 - texture.dimension,
            levels: 1,
            ..*texture
        },
        7 => Texture {
            width: side(rng, 64),
            height: side(rng, 64),
            levels: 1,
            ..*texture
        },
        8..=10 if texture.format == NV12 => plane_of_nv12(rng, texture),
        8 => Texture {
            levels: level_count(rng, texture),
            ..*texture
        },
        9 => Texture {
            format: rng.between(0, NV12),
            ..*texture
        },
        _ => *texture,
    };
    if other.is_within_bounds() {
        other
    } else {
        *texture
    }
}

fn srgb_twin(texture: &Texture) -> Texture {
    let format = match texture.format {
        2 | 4 | 11 | 13 => texture.format + 1,
        3 | 5 | 12 | 14 => texture.format - 1,
        format => format,
    };
    Texture { format, ..*texture }
}

/// A texture that takes a plane of an NV12 texture.
fn plane_of_nv12(rng: &mut Rng, texture: &Texture) -> Texture {
    if rng.chance(40) {
        Texture {
            format: 0,
            ..*texture
        }
    } else {
        let halve = rng.chance(50);
        Texture {
            format: 1,
            width: texture.width >> u32::from(halve),
            height: texture.height >> u32::from(halve),
            ..*texture
        }
    }
}

/// A texture with a field set past its bounds.
fn ill_texture(rng: &mut Rng, texture: &Texture) -> Texture {
    loop {
        let mut ill = *texture;
        match rng.below(9) {
            0 => ill.format = rng.pick(&[22, 23, u32::MAX]),
            1 => ill.dimension = rng.pick(&[0, 1, 3, 4]),
            2 => ill.width = rng.pick(&[0, 1, 2, 7, 2_049, 8_193, u32::MAX]),
            3 => ill.height = rng.pick(&[0, 1, 2, 7, 2_049, 8_193, u32::MAX]),
            4 => ill.depth = rng.pick(&[0, 2, 257, 2_049, u32::MAX]),
            5 => ill.levels = rng.pick(&[0, largest_level_count(texture) + 1, u32::MAX]),
            6 => ill.samples = rng.pick(&[0, 2, 4, 8, u32::MAX]),
            7 => ill.usage = rng.pick(&[32, 35, u32::MAX]),
            _ => ill.format = rng.between(0, NV12),
        }
        if !ill.is_within_bounds() {
            return ill;
        }
    }
}

fn buffer_size(rng: &mut Rng) -> u64 {
    match rng.below(10) {
        0 => rng.pick(&[0, 1, 3, 4]),
        1 | 2 => rng.below(64),
        3 => 256 * rng.below(64) + rng.below(4),
        4..=6 => 4 * rng.below(4_096),
        7 => 65_536 + rng.below(16),
        8 => MAX_BUFFER_SIZE - rng.below(8),
        _ => rng.below(MAX_BUFFER_SIZE + 1),
    }
}

fn buffer_usage(rng: &mut Rng) -> u32 {
    let mut usage = match rng.below(12) {
        0 => Buffer::COPY_SRC,
        1 => Buffer::COPY_DST,
        2 => 0,
        _ => BUFFER_COPY_BOTH,
    };
    if rng.chance(15) {
        usage |= Buffer::INDEX;
    }
    if rng.chance(25) {
        usage |= rng.pick(&OTHER_BUFFER_USAGES);
    }
    usage
}

fn ill_buffer(rng: &mut Rng) -> Buffer {
    if rng.chance(50) {
        Buffer {
            size: rng.pick(&[MAX_BUFFER_SIZE + 1, 1 << 32, u64::MAX]),
            usage: buffer_usage(rng),
        }
    } else {
        Buffer {
            size: buffer_size(rng),
            usage: rng.pick(&[1_024, 1_036, u32::MAX]),
        }
    }
}
