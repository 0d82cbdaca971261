//! Buffers, textures, and the parts of them that a copy names.

use std::ptr;

use crate::ffi::TextureView;
use crate::flags::{BufferUsages, TextureUsages};

/// A size in texels. The third counts slices in 3D and layers in 2D.
// The planner is lent it as three words.
#[derive(Clone, Copy, Debug, PartialEq, Eq, Hash)]
#[repr(C)]
pub struct Extent3d {
    /// Texels along X.
    pub width: u32,
    /// Texels along Y.
    pub height: u32,
    /// Slices of a 3D texture, layers of a 2D texture.
    pub depth_or_array_layers: u32,
}

/// Where a copy starts in a level of a texture, in texels.
#[derive(Clone, Copy, Debug, Default, PartialEq, Eq, Hash)]
#[repr(C)]
pub struct Origin3d {
    /// Along X.
    pub x: u32,
    /// Along Y.
    pub y: u32,
    /// The slice of a 3D texture, the layer of a 2D texture.
    pub z: u32,
}

impl Origin3d {
    /// The first texel of the first slice or layer.
    pub const ZERO: Self = Self { x: 0, y: 0, z: 0 };
}

/// A texture format, by wgpu's name. `as u32` gives its number in a job sheet.
#[allow(missing_docs)]
#[derive(Clone, Copy, Debug, PartialEq, Eq, Hash)]
#[repr(u32)]
pub enum TextureFormat {
    R8Unorm = 0,
    Rg8Unorm = 1,
    Rgba8Unorm = 2,
    Rgba8UnormSrgb = 3,
    Bgra8Unorm = 4,
    Bgra8UnormSrgb = 5,
    R16Float = 6,
    Rgba16Float = 7,
    R32Float = 8,
    Rg32Float = 9,
    Rgba32Float = 10,
    Bc1RgbaUnorm = 11,
    Bc1RgbaUnormSrgb = 12,
    Bc7RgbaUnorm = 13,
    Bc7RgbaUnormSrgb = 14,
    Stencil8 = 15,
    Depth16Unorm = 16,
    Depth24Plus = 17,
    Depth24PlusStencil8 = 18,
    Depth32Float = 19,
    Depth32FloatStencil8 = 20,
    NV12 = 21,
}

impl TextureFormat {
    /// Every format; a format's place here is its number.
    pub const ALL: [Self; 22] = [
        Self::R8Unorm,
        Self::Rg8Unorm,
        Self::Rgba8Unorm,
        Self::Rgba8UnormSrgb,
        Self::Bgra8Unorm,
        Self::Bgra8UnormSrgb,
        Self::R16Float,
        Self::Rgba16Float,
        Self::R32Float,
        Self::Rg32Float,
        Self::Rgba32Float,
        Self::Bc1RgbaUnorm,
        Self::Bc1RgbaUnormSrgb,
        Self::Bc7RgbaUnorm,
        Self::Bc7RgbaUnormSrgb,
        Self::Stencil8,
        Self::Depth16Unorm,
        Self::Depth24Plus,
        Self::Depth24PlusStencil8,
        Self::Depth32Float,
        Self::Depth32FloatStencil8,
        Self::NV12,
    ];

    const fn has_depth(self) -> bool {
        matches!(
            self,
            Self::Depth16Unorm
                | Self::Depth24Plus
                | Self::Depth24PlusStencil8
                | Self::Depth32Float
                | Self::Depth32FloatStencil8
        )
    }

    const fn has_stencil(self) -> bool {
        matches!(
            self,
            Self::Stencil8 | Self::Depth24PlusStencil8 | Self::Depth32FloatStencil8
        )
    }

    /// Whether an aspect chooses anything of this format. The planner decides this by itself; it is asked here only to tell
    /// which side of a refused copy lacks its aspect.
    pub(crate) const fn has_aspect(self, aspect: TextureAspect) -> bool {
        match aspect {
            TextureAspect::All => true,
            TextureAspect::StencilOnly => self.has_stencil(),
            TextureAspect::DepthOnly => self.has_depth(),
            TextureAspect::Plane0 | TextureAspect::Plane1 => matches!(self, Self::NV12),
            TextureAspect::Plane2 => false,
        }
    }
}

/// The dimensions of a texture.
#[derive(Clone, Copy, Debug, PartialEq, Eq, Hash)]
#[repr(u32)]
pub enum TextureDimension {
    /// A row of texels.
    D1 = 1,
    /// One or more layers.
    D2 = 2,
    /// A volume.
    D3 = 3,
}

/// The aspects of a texture that a copy asks for.
#[derive(Clone, Copy, Debug, Default, PartialEq, Eq, Hash)]
#[repr(u32)]
pub enum TextureAspect {
    /// All that the format has.
    #[default]
    All = 0,
    /// The stencil.
    StencilOnly = 1,
    /// The depth.
    DepthOnly = 2,
    /// The first plane.
    Plane0 = 3,
    /// The second plane.
    Plane1 = 4,
    /// The third plane.
    Plane2 = 5,
}

/// What a device can do, as far as copies ask. The default can do neither.
#[derive(Clone, Copy, Debug, Default, PartialEq, Eq, Hash)]
pub struct Device {
    /// Copies between buffers and depth-stencil textures, and from memory into these.
    pub depth_texture_and_buffer_copies: bool,
    /// Copies of index buffers from and to buffers of other uses.
    pub unrestricted_index_buffer: bool,
}

/// A buffer, as far as copies ask.
#[derive(Clone, Copy, Debug, PartialEq, Eq, Hash)]
pub struct Buffer {
    /// Tells it from other buffers, and names it in the plan's ranges.
    pub id: u32,
    /// Bytes, at most 268,435,456.
    pub size: u64,
    /// What it may be used for.
    pub usage: BufferUsages,
}

/// A texture, as far as copies ask. One that breaks the bounds given here is refused as
/// [`InvalidTextureRecord`](crate::TransferError::InvalidTextureRecord).
// The fields up to `usage` lie as in the planner's record, so that a call passes a reference and copies nothing.
#[derive(Clone, Copy, Debug, PartialEq, Eq, Hash)]
#[repr(C)]
pub struct Texture {
    /// Block-compressed, depth-stencil and planar formats are 2D only. Block-compressed ones need sides divisible by 4, NV12
    /// even sides and one level.
    pub format: TextureFormat,
    /// 1D, 2D or 3D.
    pub dimension: TextureDimension,
    /// Sides of 1 to 8,192 texels and 1 to 256 layers, 3D sides of 1 to 2,048; 1D has height and depth 1.
    pub size: Extent3d,
    /// Levels: 1, up to the halvings that bring the largest side to 1, plus one; 1D has one.
    pub mip_level_count: u32,
    /// Samples: 1, or 4 for 2D with one layer and one level, of a format neither block-compressed nor planar.
    pub sample_count: u32,
    /// What it may be used for.
    pub usage: TextureUsages,
    /// Tells it from other textures, and names it in the plan's ranges.
    pub id: u32,
}

/// How rows and images lie in a buffer or a block of memory.
#[derive(Clone, Copy, Debug, Default, PartialEq, Eq, Hash)]
pub struct TexelCopyBufferLayout {
    /// Where the first row starts, in bytes.
    pub offset: u64,
    /// Bytes from a row's start to the next one's. May be left out for a single row.
    pub bytes_per_row: Option<u32>,
    /// Rows from an image's start to the next one's. May be left out for a single image.
    pub rows_per_image: Option<u32>,
}

/// The buffer's side of a copy.
#[derive(Clone, Copy, Debug, PartialEq, Eq, Hash)]
pub struct TexelCopyBufferInfo<'a> {
    /// The buffer.
    pub buffer: &'a Buffer,
    /// How the rows and images lie in it.
    pub layout: TexelCopyBufferLayout,
}

/// A texture's side of a copy.
// The fields from `mip_level` on lie as in the planner's view, so that a call passes a reference to them.
#[derive(Clone, Copy, Debug, PartialEq, Eq, Hash)]
#[repr(C)]
pub struct TexelCopyTextureInfo<'a> {
    /// The texture.
    pub texture: &'a Texture,
    /// The level.
    pub mip_level: u32,
    /// Where the copy starts in the level.
    pub origin: Origin3d,
    /// What of each texel is copied.
    pub aspect: TextureAspect,
}

impl TexelCopyTextureInfo<'_> {
    /// The part of the texture in the planner's words.
    #[inline]
    pub(crate) fn view(&self) -> &TextureView {
        let info: *const Self = self;
        // SAFETY: the level, the origin's three numbers and the aspect's number follow each other without gaps, and all of `self`
        // is lent.
        unsafe { &*ptr::addr_of!((*info).mip_level).cast() }
    }
}
