//! Stand-in for `wgpu-hal`: the regions of copies, and an encoder that
//! records the regions it is handed.

use std::ops::Range;

use wgt::{flag_set, TextureAspect, TextureFormat};

/// More levels than any texture has.
pub const MAX_MIP_LEVELS: u32 = 16;

flag_set! {
    /// The aspects and planes of a format.
    FormatAspects: u8 {
        COLOR = 1;
        DEPTH = 2;
        STENCIL = 4;
        PLANE_0 = 8;
        PLANE_1 = 16;
        PLANE_2 = 32;
        DEPTH_STENCIL = 2 | 4;
    }
}

impl FormatAspects {
    /// The aspects of `format` that are among those asked for.
    pub fn new(format: TextureFormat, aspect: TextureAspect) -> Self {
        let format_aspects = Self::from(format);
        match aspect {
            TextureAspect::All => format_aspects,
            TextureAspect::StencilOnly => format_aspects & Self::STENCIL,
            TextureAspect::DepthOnly => format_aspects & Self::DEPTH,
            TextureAspect::Plane0 => format_aspects & Self::PLANE_0,
            TextureAspect::Plane1 => format_aspects & Self::PLANE_1,
            TextureAspect::Plane2 => format_aspects & Self::PLANE_2,
        }
    }

    pub fn is_one(self) -> bool {
        self.bits().count_ones() == 1
    }
}

impl From<TextureFormat> for FormatAspects {
    fn from(format: TextureFormat) -> Self {
        if format.is_multi_planar_format() {
            return Self::PLANE_0 | Self::PLANE_1;
        }
        match (format.has_depth_aspect(), format.has_stencil_aspect()) {
            (true, true) => Self::DEPTH_STENCIL,
            (true, false) => Self::DEPTH,
            (false, true) => Self::STENCIL,
            (false, false) => Self::COLOR,
        }
    }
}

/// The size of a region, in texels of one layer.
#[derive(Clone, Copy, Debug, Eq, PartialEq)]
pub struct CopyExtent {
    pub width: u32,
    pub height: u32,
    pub depth: u32,
}

/// Where a region starts in a texture.
#[derive(Clone, Copy, Debug, Eq, PartialEq)]
pub struct TextureCopyBase {
    pub mip_level: u32,
    pub array_layer: u32,
    pub origin: wgt::Origin3d,
    pub aspect: FormatAspects,
}

/// A region copied between buffers.
#[derive(Clone, Copy, Debug, Eq, PartialEq)]
pub struct BufferCopy {
    pub src_offset: wgt::BufferAddress,
    pub dst_offset: wgt::BufferAddress,
    pub size: wgt::BufferSize,
}

/// A region copied between a buffer and a texture, either way.
#[derive(Clone, Copy, Debug, Eq, PartialEq)]
pub struct BufferTextureCopy {
    pub buffer_layout: wgt::TexelCopyBufferLayout,
    pub texture_base: TextureCopyBase,
    pub size: CopyExtent,
}

/// A region copied between textures.
#[derive(Clone, Copy, Debug, Eq, PartialEq)]
pub struct TextureCopy {
    pub src_base: TextureCopyBase,
    pub dst_base: TextureCopyBase,
    pub size: CopyExtent,
}

/// A driver's buffer; nothing of it is needed.
#[derive(Debug)]
pub struct RawBuffer;

/// A driver's texture; nothing of it is needed.
#[derive(Debug)]
pub struct RawTexture;

/// The uses before and after a wait.
#[derive(Debug)]
pub struct StateTransition<T> {
    pub from: T,
    pub to: T,
}

/// A wait between two uses of a buffer; the trackers hand out none.
#[derive(Debug)]
pub struct BufferBarrier<'a> {
    pub buffer: &'a RawBuffer,
    pub usage: StateTransition<wgt::BufferUses>,
}

/// A wait between two uses of a texture; the trackers hand out none.
#[derive(Debug)]
pub struct TextureBarrier;

/// Alignments that the driver asks for.
#[derive(Debug)]
pub struct Alignments {
    /// Of the rows of a staging buffer.
    pub buffer_copy_pitch: wgt::BufferSize,
}

/// Levels and layers to be cleared; ends are excluded.
#[derive(Clone, Debug, Eq, PartialEq)]
pub struct TextureClear {
    pub levels: Range<u32>,
    pub layers: Range<u32>,
}

/// Records the clears and the regions of copies in the order of the calls.
#[derive(Debug, Default)]
pub struct CommandEncoder {
    pub texture_clears: Vec<TextureClear>,
    pub buffer_copies: Vec<BufferCopy>,
    pub buffer_texture_copies: Vec<BufferTextureCopy>,
    pub texture_copies: Vec<TextureCopy>,
}

impl CommandEncoder {
    /// Forgets clears and regions and keeps the memory.
    pub fn clear(&mut self) {
        self.texture_clears.clear();
        self.buffer_copies.clear();
        self.buffer_texture_copies.clear();
        self.texture_copies.clear();
    }

    pub fn transition_buffers(&mut self, _barriers: &[BufferBarrier<'_>]) {}

    pub fn transition_textures(&mut self, _barriers: &[TextureBarrier]) {}

    pub fn copy_buffer_to_buffer(
        &mut self,
        _src: &RawBuffer,
        _dst: &RawBuffer,
        regions: &[BufferCopy],
    ) {
        self.buffer_copies.extend_from_slice(regions);
    }

    pub fn copy_buffer_to_texture(
        &mut self,
        _src: &RawBuffer,
        _dst: &RawTexture,
        regions: &[BufferTextureCopy],
    ) {
        self.buffer_texture_copies.extend_from_slice(regions);
    }

    pub fn copy_texture_to_buffer(
        &mut self,
        _src: &RawTexture,
        _src_usage: wgt::TextureUses,
        _dst: &RawBuffer,
        regions: &[BufferTextureCopy],
    ) {
        self.buffer_texture_copies.extend_from_slice(regions);
    }

    pub fn copy_texture_to_texture(
        &mut self,
        _src: &RawTexture,
        _src_usage: wgt::TextureUses,
        _dst: &RawTexture,
        regions: &[TextureCopy],
    ) {
        self.texture_copies.extend_from_slice(regions);
    }
}

#[cfg(test)]
mod tests {
    use super::*;

    #[test]
    fn aspects_of_formats() {
        for (number, format) in TextureFormat::ALL.into_iter().enumerate() {
            let bits = match number {
                15 => 4,
                16 | 17 | 19 => 2,
                18 | 20 => 6,
                21 => 24,
                _ => 1,
            };
            assert_eq!(FormatAspects::from(format).bits(), bits);
            assert_eq!(FormatAspects::new(format, TextureAspect::All).bits(), bits);
            for (aspect, mask) in [
                (TextureAspect::StencilOnly, 4),
                (TextureAspect::DepthOnly, 2),
                (TextureAspect::Plane0, 8),
                (TextureAspect::Plane1, 16),
                (TextureAspect::Plane2, 32),
            ] {
                assert_eq!(FormatAspects::new(format, aspect).bits(), bits & mask);
            }
        }
    }

    #[test]
    fn one_aspect() {
        assert!(FormatAspects::DEPTH.is_one());
        assert!(!FormatAspects::DEPTH_STENCIL.is_one());
        assert!(!FormatAspects::from_bits_retain(0).is_one());
    }
}
