//! Every format, aspect and level with small boxes: more copies than a
//! comparison of programs has time for.

use std::io;

use copy_sheet::{Buffer, BufferView, Copy, Extent, MemoryView, Texture, TextureView};
use sheet_compare::{Case, Emit, Packer, Set};

/// The set of these copies.
pub const SMALL: Set = Set {
    name: "small",
    about: "format, aspect, level, origin and size of small copies with textures",
    is_large: true,
    sheets,
};

/// Around the sides of a level and of a block, along X, Y and Z.
const ORIGINS: [&[u32]; 3] = [&[0, 1, 4, 8], &[0, 2, 4], &[0, 1, 2]];
const SIZES: [&[u32]; 3] = [&[0, 1, 4, 8], &[0, 1, 4, 8], &[0, 1, 2]];

/// The last format; it has one level.
const NV12: u32 = 21;

const BUFFER: Buffer = Buffer {
    size: 1 << 14,
    usage: Buffer::COPY_SRC | Buffer::COPY_DST,
};

const LAYOUT: BufferView = BufferView {
    buffer: 0,
    offset: 16,
    bytes_per_row: Some(256),
    rows_per_image: Some(8),
};

/// Blocks of memory: not aligned, dense, and both at the end of 64 bits. Some of
/// the boxes are within each, and some are not.
const MEMORY: [MemoryView; 6] = [
    block(1_103, 3, Some([129, 9])),
    block(65, 1, None),
    block(u64::MAX, u64::MAX - 1_100, Some([129, 9])),
    block(u64::MAX, u64::MAX - 64, None),
    // The second image of one byte ends at the length, and that of more past it.
    block(LONGEST_IMAGE + 4, 3, Some([u32::MAX, u32::MAX])),
    // The same at the end of 64 bits.
    block(
        u64::MAX,
        u64::MAX - LONGEST_IMAGE - 1,
        Some([u32::MAX, u32::MAX]),
    ),
];

/// The bytes from one image to the next with the longest strides.
const LONGEST_IMAGE: u64 = (u32::MAX as u64).pow(2);

/// A block with bytes per row and rows per image, or with neither.
const fn block(length: u64, offset: u64, strides: Option<[u32; 2]>) -> MemoryView {
    let (bytes_per_row, rows_per_image) = match strides {
        Some([bytes_per_row, rows_per_image]) => (Some(bytes_per_row), Some(rows_per_image)),
        None => (None, None),
    };
    MemoryView {
        length,
        offset,
        bytes_per_row,
        rows_per_image,
    }
}

fn sheets(emit: &mut Emit) -> io::Result<()> {
    let mut packer = Packer::new(emit);
    let (origins, sizes) = (triples(ORIGINS), triples(SIZES));
    for texture in textures() {
        for aspect in 0..=5 {
            for level in 0..texture.levels {
                for [x, y, z] in &origins {
                    let view = TextureView {
                        texture: 0,
                        level,
                        x: *x,
                        y: *y,
                        z: *z,
                        aspect,
                    };
                    add_sizes(&mut packer, &texture, &view, &sizes)?;
                }
            }
        }
    }
    packer.finish()
}

/// All triples with a number of each list.
fn triples([first, second, third]: [&[u32]; 3]) -> Vec<[u32; 3]> {
    let mut triples = Vec::new();
    for x in first {
        for y in second {
            triples.extend(third.iter().map(|z| [*x, *y, *z]));
        }
    }
    triples
}

/// The formats in each dimension that they may have, 8 texels wide.
fn textures() -> Vec<Texture> {
    let shaped = |format, dimension| Texture {
        format,
        dimension,
        width: 8,
        height: if dimension == 1 { 1 } else { 8 },
        depth: if dimension == 1 { 1 } else { 2 },
        levels: if dimension == 1 || format == NV12 {
            1
        } else {
            2
        },
        samples: 1,
        usage: Texture::COPY_SRC | Texture::COPY_DST,
    };
    let all = (0..=NV12).flat_map(|format| [1, 2, 3].map(|dimension| shaped(format, dimension)));
    all.filter(Texture::is_within_bounds).collect()
}

/// Copies of every size to and from a buffer, from memory, and into a texture of
/// the same kind.
fn add_sizes(
    packer: &mut Packer,
    texture: &Texture,
    view: &TextureView,
    sizes: &[[u32; 3]],
) -> io::Result<()> {
    for [width, height, depth] in sizes {
        let size = Extent {
            width: *width,
            height: *height,
            depth: *depth,
        };
        let from_memory = MEMORY.map(|source| Copy::MemoryToTexture {
            source,
            destination: *view,
            size,
        });
        for copy in copies(view, size).into_iter().chain(from_memory) {
            packer.add(&Case {
                device: Case::DEVICE,
                textures: &[*texture, *texture],
                buffers: &[BUFFER],
                copy,
            })?;
        }
    }
    Ok(())
}

fn copies(view: &TextureView, size: Extent) -> [Copy; 3] {
    [
        Copy::BufferToTexture {
            source: LAYOUT,
            destination: *view,
            size,
        },
        Copy::TextureToBuffer {
            source: *view,
            destination: LAYOUT,
            size,
        },
        Copy::TextureToTexture {
            source: *view,
            destination: TextureView {
                texture: 1,
                aspect: 0,
                ..*view
            },
            size,
        },
    ]
}
