//! Stand-in for `wgpu-types`, as far as the copy functions use it.
//!
//! The measures of formats, levels and linear data are written after the
//! WebGPU rules and the scope document, for the 22 formats of that document.

mod descriptor;
mod flags;
mod format;
mod layout;

pub mod error;
pub mod math;

pub use descriptor::{Extent3d, Origin3d, TextureDescriptor, TextureDimension};
pub use flags::{
    BufferUsages, BufferUses, DownlevelFlags, InstanceFlags, TextureUsages, TextureUses,
};
pub use format::{TextureAspect, TextureFormat};
pub use layout::{BufferTextureCopyInfo, BufferTextureCopyInfoError, TexelCopyBufferLayout};

/// A place in a buffer, or a number of its bytes.
pub type BufferAddress = u64;
/// A number of bytes that is not 0.
pub type BufferSize = std::num::NonZeroU64;

/// Offsets and sizes of copies between buffers are multiples of this.
pub const COPY_BUFFER_ALIGNMENT: BufferAddress = 4;
/// A given number of bytes per row is a multiple of this.
pub const COPY_BYTES_PER_ROW_ALIGNMENT: u32 = 256;

/// The buffer side of a copy between a buffer and a texture.
#[derive(Clone, Copy, Debug)]
pub struct TexelCopyBufferInfo<B> {
    pub buffer: B,
    pub layout: TexelCopyBufferLayout,
}

/// A texture side of a copy.
#[derive(Clone, Copy, Debug)]
pub struct TexelCopyTextureInfo<T> {
    pub texture: T,
    pub mip_level: u32,
    pub origin: Origin3d,
    pub aspect: TextureAspect,
}

/// The levels and layers that a copy touches.
#[derive(Clone, Debug)]
pub struct TextureSelector {
    pub mips: std::ops::Range<u32>,
    pub layers: std::ops::Range<u32>,
}
