//! The records and copies of a job sheet, field by field.

/// The two facts about the device.
#[derive(Clone, Copy, Debug, Eq, PartialEq)]
pub struct Device {
    pub depth_texture_and_buffer_copies: bool,
    pub unrestricted_index_buffer: bool,
}

/// A texture record; nothing is promised about its fields.
#[derive(Clone, Copy, Debug, Eq, PartialEq)]
pub struct Texture {
    pub format: u32,
    pub dimension: u32,
    pub width: u32,
    pub height: u32,
    /// Depth in 3D, layers in 2D.
    pub depth: u32,
    pub levels: u32,
    pub samples: u32,
    pub usage: u32,
}

impl Texture {
    pub const COPY_SRC: u32 = 1;
    pub const COPY_DST: u32 = 2;

    /// The fields in order, as a C caller lends them.
    pub fn words(&self) -> [u32; 8] {
        let Self {
            format,
            dimension,
            width,
            height,
            depth,
            levels,
            samples,
            usage,
        } = *self;
        [
            format, dimension, width, height, depth, levels, samples, usage,
        ]
    }
}

/// A buffer record; nothing is promised about its fields.
#[derive(Clone, Copy, Debug, Eq, PartialEq)]
pub struct Buffer {
    pub size: u64,
    pub usage: u32,
}

impl Buffer {
    pub const COPY_SRC: u32 = 4;
    pub const COPY_DST: u32 = 8;
    pub const INDEX: u32 = 16;
    pub const VERTEX: u32 = 32;
    pub const UNIFORM: u32 = 64;
    pub const STORAGE: u32 = 128;
    pub const INDIRECT: u32 = 256;
}

/// The buffer side of a copy between a buffer and a texture.
#[derive(Clone, Copy, Debug, Eq, PartialEq)]
pub struct BufferView {
    /// The buffer's index in its section.
    pub buffer: u32,
    pub offset: u64,
    pub bytes_per_row: Option<u32>,
    pub rows_per_image: Option<u32>,
}

/// The block of memory that a write takes its data from.
#[derive(Clone, Copy, Debug, Eq, PartialEq)]
pub struct MemoryView {
    /// The block's bytes; no record bounds them.
    pub length: u64,
    pub offset: u64,
    pub bytes_per_row: Option<u32>,
    pub rows_per_image: Option<u32>,
}

/// A texture side of a copy.
#[derive(Clone, Copy, Debug, Eq, PartialEq)]
pub struct TextureView {
    /// The texture's index in its section.
    pub texture: u32,
    pub level: u32,
    pub x: u32,
    pub y: u32,
    pub z: u32,
    /// 0 All, 1 StencilOnly, 2 DepthOnly, 3 to 5 planes 0 to 2.
    pub aspect: u32,
}

/// The size of a copy in texels.
#[derive(Clone, Copy, Debug, Eq, PartialEq)]
pub struct Extent {
    pub width: u32,
    pub height: u32,
    pub depth: u32,
}

/// A copy line.
#[derive(Clone, Copy, Debug, Eq, PartialEq)]
pub enum Copy {
    BufferToBuffer {
        source: u32,
        source_offset: u64,
        destination: u32,
        destination_offset: u64,
        size: Option<u64>,
    },
    BufferToTexture {
        source: BufferView,
        destination: TextureView,
        size: Extent,
    },
    TextureToBuffer {
        source: TextureView,
        destination: BufferView,
        size: Extent,
    },
    TextureToTexture {
        source: TextureView,
        destination: TextureView,
        size: Extent,
    },
    MemoryToTexture {
        source: MemoryView,
        destination: TextureView,
        size: Extent,
    },
}

/// From what to what a copy goes.
#[derive(Clone, Copy, Debug, Eq, PartialEq)]
pub enum CopyKind {
    BufferToBuffer,
    BufferToTexture,
    TextureToBuffer,
    TextureToTexture,
    MemoryToTexture,
}

impl CopyKind {
    /// The kinds in the order of their numbers, 1 to 5.
    pub const ALL: [Self; 5] = [
        Self::BufferToBuffer,
        Self::BufferToTexture,
        Self::TextureToBuffer,
        Self::TextureToTexture,
        Self::MemoryToTexture,
    ];
}

impl Copy {
    pub fn kind(&self) -> CopyKind {
        match self {
            Self::BufferToBuffer { .. } => CopyKind::BufferToBuffer,
            Self::BufferToTexture { .. } => CopyKind::BufferToTexture,
            Self::TextureToBuffer { .. } => CopyKind::TextureToBuffer,
            Self::TextureToTexture { .. } => CopyKind::TextureToTexture,
            Self::MemoryToTexture { .. } => CopyKind::MemoryToTexture,
        }
    }
}

/// A whole sheet.
#[derive(Clone, Debug, Eq, PartialEq)]
pub struct Sheet {
    pub device: Device,
    pub textures: Vec<Texture>,
    pub buffers: Vec<Buffer>,
    pub copies: Vec<Copy>,
}
