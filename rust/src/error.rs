//! Why a copy is refused.

use std::error::Error;
use std::fmt;

use crate::resources::{TexelCopyTextureInfo, TextureAspect, TextureFormat};

/// A side of a copy.
#[derive(Clone, Copy, Debug, PartialEq, Eq, Hash)]
pub enum CopySide {
    /// What is read.
    Source,
    /// What is written.
    Destination,
}

impl fmt::Display for CopySide {
    fn fmt(&self, f: &mut fmt::Formatter<'_>) -> fmt::Result {
        f.write_str(match self {
            Self::Source => "source",
            Self::Destination => "destination",
        })
    }
}

/// A dimension in which a copy leaves its texture.
#[derive(Clone, Copy, Debug, PartialEq, Eq, Hash)]
pub enum TextureErrorDimension {
    /// The width.
    X,
    /// The height.
    Y,
    /// The depth or the layers.
    Z,
}

impl fmt::Display for TextureErrorDimension {
    fn fmt(&self, f: &mut fmt::Formatter<'_>) -> fmt::Result {
        fmt::Debug::fmt(self, f)
    }
}

/// What a [`Device`](crate::Device) may lack.
#[derive(Clone, Copy, Debug, PartialEq, Eq, Hash)]
pub enum DownlevelFlags {
    /// [`Device::depth_texture_and_buffer_copies`](crate::Device::depth_texture_and_buffer_copies).
    DepthTextureAndBufferCopies,
    /// [`Device::unrestricted_index_buffer`](crate::Device::unrestricted_index_buffer).
    UnrestrictedIndexBuffer,
}

/// Declares the refusals from one table: number, variant, details, message.
macro_rules! refusals {
    ($(
        $(#[$about:meta])*
        $number:literal $variant:ident
        $(($detail:ident: $detail_type:ty))?
        $({ $($(#[$field_about:meta])* $field:ident: $field_type:ty,)* })?
        $message:literal;
    )*) => {
        /// Why a copy is refused: wgpu-core's variants, and the planner's own (1 to 3 and 38).
        ///
        /// Where a copy ends in a texture is the true end; wgpu-core's is wrapped to 32 bits. 37 is not used: it was the number of
        /// a second check of the level, which no copy can fail, and no other refusal will have it. 39 is a
        /// [`BookError`](crate::BookError)'s.
        #[derive(Clone, Copy, Debug, PartialEq, Eq, Hash)]
        #[non_exhaustive]
        pub enum TransferError {$(
            $(#[$about])*
            $variant $(($detail_type))? $({ $($(#[$field_about])* $field: $field_type,)* })?,
        )*}

        impl TransferError {
            /// The refusal's number, as a job sheet's listing has it.
            pub const fn number(&self) -> u32 {
                match self {
                    $(Self::$variant { .. } => $number,)*
                }
            }
        }

        /// The numbers of the table, in its order.
        #[cfg(test)]
        const NUMBERS: &[u32] = &[$($number),*];

        impl fmt::Display for TransferError {
            fn fmt(&self, f: &mut fmt::Formatter<'_>) -> fmt::Result {
                match self {$(
                    Self::$variant $(($detail))? $({ $($field,)* })? => write!(f, $message),
                )*}
            }
        }
    };
}

refusals! {
    /// A sheet's copy names a record past the end of its section. No call of a copy function gives it.
    1 InvalidSheetIndex
    "a copy of the sheet names a record that the sheet does not have";

    /// A texture is out of its bounds; [`Texture`](crate::Texture) gives them.
    2 InvalidTextureRecord {
        /// The texture's side.
        side: CopySide,
    }
    "the {side} texture is out of its bounds";

    /// A buffer is out of its bounds; [`Buffer`](crate::Buffer) gives them.
    3 InvalidBufferRecord {
        /// The buffer's side.
        side: CopySide,
    }
    "the {side} buffer is out of its bounds";

    /// The two buffers have one id.
    4 SameSourceDestinationBuffer
    "a buffer cannot be copied into itself";

    /// A buffer was not made for copies on its side.
    5 MissingBufferUsage {
        /// The buffer's side.
        side: CopySide,
    }
    "the {side} buffer has no usage that lets it be a copy's {side}";

    /// A texture was not made for copies on its side.
    6 MissingTextureUsage {
        /// The texture's side.
        side: CopySide,
    }
    "the {side} texture has no usage that lets it be a copy's {side}";

    /// The copy starts past the end of a buffer, or of the block of memory.
    7 BufferStartOffsetOverrun {
        /// Where the copy starts, in bytes.
        start_offset: u64,
        /// The bytes of the buffer or the block.
        buffer_size: u64,
        /// The buffer's side; the source's for a block.
        side: CopySide,
    }
    "the copy starts at byte {start_offset} of its {side}, which has {buffer_size} bytes";

    /// The copy ends past the end of a buffer, or of the block of memory.
    8 BufferEndOffsetOverrun {
        /// Where the copy starts, in bytes.
        start_offset: u64,
        /// The copy's bytes.
        size: u64,
        /// The bytes of the buffer or the block.
        buffer_size: u64,
        /// The buffer's side; the source's for a block.
        side: CopySide,
    }
    "{size} bytes from byte {start_offset} on do not fit into the copy's {side}, which has {buffer_size} bytes";

    /// The copy leaves a texture's level, or its plane.
    9 TextureOverrun {
        /// Where the copy starts, in texels.
        start_offset: u32,
        /// Where it ends: start plus size, which may pass 32 bits.
        end_offset: u64,
        /// The level's texels.
        texture_size: u32,
        /// The dimension in which it leaves.
        dimension: TextureErrorDimension,
        /// The texture's side.
        side: CopySide,
    }
    "along {dimension} the copy goes from {start_offset} to {end_offset}, and the {side} texture's level has {texture_size}";

    /// The copy takes a part of a depth-stencil or multisampled texture's width or height.
    10 UnsupportedPartialTransfer {
        /// The texture's format.
        format: TextureFormat,
        /// The texture's samples.
        sample_count: u32,
        /// Where the copy starts, in texels.
        start_offset: u32,
        /// Where it ends: start plus size, which may pass 32 bits.
        end_offset: u64,
        /// The level's texels.
        texture_size: u32,
        /// The dimension of which it takes a part.
        dimension: TextureErrorDimension,
        /// The texture's side.
        side: CopySide,
    }
    "along {dimension} the copy goes from {start_offset} to {end_offset} of {texture_size}, and the {side} texture, \
     {format:?} with {sample_count} sample(s), is copied whole or not at all";

    /// The two parts of one texture overlap.
    11 InvalidCopyWithinSameTexture {
        /// The aspect read.
        src_aspects: TextureAspect,
        /// The aspect written.
        dst_aspects: TextureAspect,
        /// The first layer read.
        src_origin_z: u32,
        /// The first layer written.
        dst_origin_z: u32,
        /// How many layers are copied.
        array_layer_count: u32,
    }
    "of one texture, {array_layer_count} layer(s) from {src_origin_z} on ({src_aspects:?}) overlap with those from \
     {dst_origin_z} on ({dst_aspects:?})";

    /// The aspect asked for chooses nothing of the format.
    12 InvalidTextureAspect {
        /// The texture's format.
        format: TextureFormat,
        /// The aspect asked for.
        aspect: TextureAspect,
    }
    "{format:?} has no aspect that {aspect:?} chooses";

    /// The texture has no such level.
    13 InvalidTextureMipLevel {
        /// The level asked for.
        level: u32,
        /// The texture's levels.
        total: u32,
    }
    "level {level} does not exist in a texture of {total} level(s)";

    /// A buffer's offset is no multiple of 4, or of a texel block's bytes. Not asked of a block of memory.
    14 UnalignedBufferOffset(offset: u64)
    "offset {offset} is unaligned for this copy";

    /// The size of a copy between buffers is no multiple of 4.
    15 UnalignedCopySize(size: u64)
    "a copy of {size} bytes between buffers is not in words of 4 bytes";

    /// The width is not in whole blocks.
    16 UnalignedCopyWidth
    "the width is not in whole blocks";

    /// The height is not in whole blocks.
    17 UnalignedCopyHeight
    "the height is not in whole blocks";

    /// The origin's x is not at a block's start.
    18 UnalignedCopyOriginX
    "the origin's x is not where a block starts";

    /// The origin's y is not at a block's start.
    19 UnalignedCopyOriginY
    "the origin's y is not where a block starts";

    /// The bytes per row in a buffer are no multiple of 256. Not asked of a block of memory.
    20 UnalignedBytesPerRow
    "the bytes per row are not a multiple of 256";

    /// The bytes per row are left out of a copy of several rows or images.
    21 UnspecifiedBytesPerRow
    "several rows or images are copied and the bytes per row are left out";

    /// The rows per image are left out of a copy of several images.
    22 UnspecifiedRowsPerImage
    "several images are copied and the rows per image are left out";

    /// The bytes per row are fewer than a row of the copy has.
    23 InvalidBytesPerRow
    "a row of the copy has more bytes than the bytes per row";

    /// The rows per image are fewer than an image of the copy has.
    24 InvalidRowsPerImage
    "an image of the copy has more rows than the rows per image";

    /// The bytes that the copy spans in the buffer or the block of memory are 2^64 or more.
    25 SizeOverflow
    "the copy spans more bytes than 64 bits can count";

    /// A copy between textures leaves out an aspect of its source.
    26 CopySrcMissingAspects
    "a copy between textures leaves out an aspect of its source";

    /// A copy between textures leaves out an aspect of its destination.
    27 CopyDstMissingAspects
    "a copy between textures leaves out an aspect of its destination";

    /// A copy between a buffer and a texture, or from memory, chooses several aspects.
    28 CopyAspectNotOne
    "a copy with a buffer or from memory chooses more than one aspect";

    /// Textures of this format are not copied into buffers.
    29 CopyFromForbiddenTextureFormat(format: TextureFormat)
    "{format:?} is not copied into buffers";

    /// This aspect of the format is not copied into buffers.
    30 CopyFromForbiddenTextureFormatAspect {
        /// The texture's format.
        format: TextureFormat,
        /// The aspect asked for.
        aspect: TextureAspect,
    }
    "{aspect:?} of {format:?} is not copied into buffers";

    /// Textures of this format are copied neither from buffers nor from memory.
    31 CopyToForbiddenTextureFormat(format: TextureFormat)
    "{format:?} is copied neither from buffers nor from memory";

    /// This aspect of the format is copied neither from buffers nor from memory.
    32 CopyToForbiddenTextureFormatAspect {
        /// The texture's format.
        format: TextureFormat,
        /// The aspect asked for.
        aspect: TextureAspect,
    }
    "{aspect:?} of {format:?} is copied neither from buffers nor from memory";

    /// The formats differ in more than srgb, and the copy does not take one plane out.
    33 TextureFormatsNotCopyCompatible {
        /// The source's format.
        src_format: TextureFormat,
        /// The destination's format.
        dst_format: TextureFormat,
    }
    "{src_format:?} is not copied into {dst_format:?}";

    /// The device cannot do this.
    34 MissingDownlevelFlags(lacking: DownlevelFlags)
    "the device lacks {lacking:?}";

    /// A multisampled texture is copied neither with a buffer nor from memory.
    35 InvalidSampleCount {
        /// The texture's samples.
        sample_count: u32,
    }
    "a texture with {sample_count} samples is copied neither with buffers nor from memory";

    /// The textures differ in their samples.
    36 SampleCountNotEqual {
        /// The source's samples.
        src_sample_count: u32,
        /// The destination's samples.
        dst_sample_count: u32,
    }
    "the source has {src_sample_count} sample(s) and the destination {dst_sample_count}";

    /// [`Plan::write_regions`](crate::Plan::write_regions) was lent too few numbers.
    38 RegionSliceTooShort
    "the regions left have more numbers than the slice";
}

impl Error for TransferError {}

/// The textures of a copy. Of a copy with one texture, it stands on both sides.
pub(crate) type Textures<'a> = (&'a TexelCopyTextureInfo<'a>, &'a TexelCopyTextureInfo<'a>);

impl TransferError {
    /// The error of a refusal's number and the words of its plan; what they leave out is in the call's arguments.
    #[cold]
    pub(crate) fn of(number: u32, words: &[u64], textures: Option<Textures<'_>>) -> Self {
        let &[_, side, dimension, start, end, limit, ..] = words else {
            unreachable!("every plan has six words or more")
        };
        let refusal = Refusal {
            number,
            side,
            dimension,
            start,
            end,
            limit,
        };
        match number {
            2..=8 => refusal.of_resources(),
            9..=13 => refusal.of_ranges(textures),
            14..=25 => refusal.of_layouts(),
            _ => refusal.of_formats(textures),
        }
    }
}

/// The numbers of a refusal. Details that it does not have are 0.
struct Refusal {
    number: u32,
    side: u64,
    dimension: u64,
    start: u64,
    end: u64,
    limit: u64,
}

impl Refusal {
    fn copy_side(&self) -> CopySide {
        match self.side {
            1 => CopySide::Source,
            _ => CopySide::Destination,
        }
    }

    fn texture_dimension(&self) -> TextureErrorDimension {
        match self.dimension {
            1 => TextureErrorDimension::X,
            2 => TextureErrorDimension::Y,
            _ => TextureErrorDimension::Z,
        }
    }

    fn of_resources(&self) -> TransferError {
        let side = self.copy_side();
        match self.number {
            2 => TransferError::InvalidTextureRecord { side },
            3 => TransferError::InvalidBufferRecord { side },
            4 => TransferError::SameSourceDestinationBuffer,
            5 => TransferError::MissingBufferUsage { side },
            6 => TransferError::MissingTextureUsage { side },
            7 => TransferError::BufferStartOffsetOverrun {
                start_offset: self.start,
                buffer_size: self.limit,
                side,
            },
            8 => TransferError::BufferEndOffsetOverrun {
                start_offset: self.start,
                size: self.end,
                buffer_size: self.limit,
                side,
            },
            _ => unknown(self.number),
        }
    }

    fn of_ranges(&self, textures: Option<Textures<'_>>) -> TransferError {
        let Some((src, dst)) = textures else {
            unknown(self.number)
        };
        match self.number {
            9 => TransferError::TextureOverrun {
                start_offset: self.start as u32,
                end_offset: self.end,
                texture_size: self.limit as u32,
                dimension: self.texture_dimension(),
                side: self.copy_side(),
            },
            10 => self.partial_transfer(src, dst),
            11 => TransferError::InvalidCopyWithinSameTexture {
                src_aspects: src.aspect,
                dst_aspects: dst.aspect,
                src_origin_z: self.start as u32,
                dst_origin_z: self.end as u32,
                array_layer_count: self.limit as u32,
            },
            12 => invalid_aspect(src, dst),
            13 => TransferError::InvalidTextureMipLevel {
                level: self.start as u32,
                total: self.limit as u32,
            },
            _ => unknown(self.number),
        }
    }

    fn partial_transfer(
        &self,
        src: &TexelCopyTextureInfo<'_>,
        dst: &TexelCopyTextureInfo<'_>,
    ) -> TransferError {
        let side = self.copy_side();
        let texture = match side {
            CopySide::Source => src.texture,
            CopySide::Destination => dst.texture,
        };
        TransferError::UnsupportedPartialTransfer {
            format: texture.format,
            sample_count: texture.sample_count,
            start_offset: self.start as u32,
            end_offset: self.end,
            texture_size: self.limit as u32,
            dimension: self.texture_dimension(),
            side,
        }
    }

    fn of_layouts(&self) -> TransferError {
        match self.number {
            14 => TransferError::UnalignedBufferOffset(self.start),
            15 => TransferError::UnalignedCopySize(self.start),
            16 => TransferError::UnalignedCopyWidth,
            17 => TransferError::UnalignedCopyHeight,
            18 => TransferError::UnalignedCopyOriginX,
            19 => TransferError::UnalignedCopyOriginY,
            20 => TransferError::UnalignedBytesPerRow,
            21 => TransferError::UnspecifiedBytesPerRow,
            22 => TransferError::UnspecifiedRowsPerImage,
            23 => TransferError::InvalidBytesPerRow,
            24 => TransferError::InvalidRowsPerImage,
            25 => TransferError::SizeOverflow,
            _ => unknown(self.number),
        }
    }

    fn of_formats(&self, textures: Option<Textures<'_>>) -> TransferError {
        if self.number == 34 {
            return missing_flags(textures.is_some());
        }
        let Some((src, dst)) = textures else {
            unknown(self.number)
        };
        match self.number {
            26 => TransferError::CopySrcMissingAspects,
            27 => TransferError::CopyDstMissingAspects,
            28 => TransferError::CopyAspectNotOne,
            29 => TransferError::CopyFromForbiddenTextureFormat(src.texture.format),
            30 => TransferError::CopyFromForbiddenTextureFormatAspect {
                format: src.texture.format,
                aspect: src.aspect,
            },
            31 => TransferError::CopyToForbiddenTextureFormat(dst.texture.format),
            32 => TransferError::CopyToForbiddenTextureFormatAspect {
                format: dst.texture.format,
                aspect: dst.aspect,
            },
            33 => TransferError::TextureFormatsNotCopyCompatible {
                src_format: src.texture.format,
                dst_format: dst.texture.format,
            },
            35 => TransferError::InvalidSampleCount {
                sample_count: self.start as u32,
            },
            36 => TransferError::SampleCountNotEqual {
                src_sample_count: self.start as u32,
                dst_sample_count: self.end as u32,
            },
            _ => unknown(self.number),
        }
    }
}

fn unknown(number: u32) -> ! {
    unreachable!("no copy of this kind is refused with {number}")
}

/// The source is checked first, so it is the source's where both lack theirs.
fn invalid_aspect(src: &TexelCopyTextureInfo<'_>, dst: &TexelCopyTextureInfo<'_>) -> TransferError {
    let lacking = if src.texture.format.has_aspect(src.aspect) {
        dst
    } else {
        src
    };
    TransferError::InvalidTextureAspect {
        format: lacking.texture.format,
        aspect: lacking.aspect,
    }
}

/// Each kind of copy asks for one fact about the device, at most.
fn missing_flags(touches_texture: bool) -> TransferError {
    TransferError::MissingDownlevelFlags(if touches_texture {
        DownlevelFlags::DepthTextureAndBufferCopies
    } else {
        DownlevelFlags::UnrestrictedIndexBuffer
    })
}

#[cfg(test)]
mod tests {
    use super::NUMBERS;

    #[test]
    fn every_number_but_37_is_used_once() {
        let used = (1..=38).filter(|number| *number != 37);
        assert!(NUMBERS.iter().copied().eq(used));
    }
}
