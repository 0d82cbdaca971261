//! The six numbers of a refusal, and the Rust's errors written in them.

use reference_core::{
    CommandEncoderError, CopySide, MissingBufferUsageError, MissingTextureUsageError,
    TextureErrorDimension, TransferError,
};

/// A side of a copy.
#[derive(Clone, Copy, Debug, Eq, PartialEq)]
pub enum Side {
    Source = 1,
    Destination = 2,
}

impl From<CopySide> for Side {
    fn from(side: CopySide) -> Self {
        match side {
            CopySide::Source => Self::Source,
            CopySide::Destination => Self::Destination,
        }
    }
}

/// A refusal: its number and details, 0 where it names none.
#[derive(Clone, Copy, Debug, Default, Eq, PartialEq)]
pub struct Refusal {
    pub number: u32,
    pub side: u32,
    pub dimension: u32,
    pub start: u64,
    pub end: u64,
    pub limit: u64,
}

impl Refusal {
    /// The largest number of a copy's refusal. 37 is retired, and 38 is the region
    /// writer's.
    pub const LAST: usize = 36;

    pub const INDEX_PAST_SECTION: Self = Self::plain(1);

    pub const fn texture_record(side: Side) -> Self {
        Self::on_side(2, side)
    }

    pub const fn texture_usage(side: Side) -> Self {
        Self::on_side(6, side)
    }

    pub const fn buffer_record(side: Side) -> Self {
        Self::on_side(3, side)
    }

    /// The six numbers in the order of the listing.
    pub fn numbers(&self) -> [u64; 6] {
        [
            self.number.into(),
            self.side.into(),
            self.dimension.into(),
            self.start,
            self.end,
            self.limit,
        ]
    }

    const fn plain(number: u32) -> Self {
        Self {
            number,
            side: 0,
            dimension: 0,
            start: 0,
            end: 0,
            limit: 0,
        }
    }

    const fn on_side(number: u32, side: Side) -> Self {
        Self {
            side: side as u32,
            ..Self::plain(number)
        }
    }

    fn at(self, start: u64) -> Self {
        Self { start, ..self }
    }

    fn to(self, end: u64) -> Self {
        Self { end, ..self }
    }

    fn of(self, limit: u64) -> Self {
        Self { limit, ..self }
    }

    fn along(self, dimension: TextureErrorDimension) -> Self {
        Self {
            dimension: match dimension {
                TextureErrorDimension::X => 1,
                TextureErrorDimension::Y => 2,
                TextureErrorDimension::Z => 3,
            },
            ..self
        }
    }

    /// Writes an error of a copy function in six numbers.
    ///
    /// # Panics
    ///
    /// If the error is one that the copy functions do not give here: those of
    /// external images, clears and mapped buffers, and the second check of a level,
    /// `InvalidMipLevel`, which 13 comes before.
    pub(crate) fn from_error(error: CommandEncoderError) -> Self {
        let CommandEncoderError::Transfer(error) = error;
        Self::from_transfer_error(error)
    }

    fn from_transfer_error(error: TransferError) -> Self {
        use TransferError as E;
        match error {
            E::SameSourceDestinationBuffer => Self::plain(4),
            E::MissingBufferUsage(error) => Self::on_side(5, buffer_usage_side(&error)),
            E::MissingTextureUsage(error) => Self::texture_usage(texture_usage_side(&error)),
            E::BufferStartOffsetOverrun {
                start_offset,
                buffer_size,
                side,
            } => Self::on_side(7, side.into())
                .at(start_offset)
                .of(buffer_size),
            E::BufferEndOffsetOverrun {
                start_offset,
                size,
                buffer_size,
                side,
            } => Self::on_side(8, side.into())
                .at(start_offset)
                .to(size)
                .of(buffer_size),
            E::TextureOverrun {
                start_offset,
                end_offset,
                texture_size,
                dimension,
                side,
            } => Self::on_side(9, side.into())
                .along(dimension)
                .at(start_offset.into())
                .to(end_offset.into())
                .of(texture_size.into()),
            E::UnsupportedPartialTransfer {
                start_offset,
                end_offset,
                texture_size,
                dimension,
                side,
                ..
            } => Self::on_side(10, side.into())
                .along(dimension)
                .at(start_offset.into())
                .to(end_offset.into())
                .of(texture_size.into()),
            E::InvalidCopyWithinSameTexture {
                src_origin_z,
                dst_origin_z,
                array_layer_count,
                ..
            } => Self::plain(11)
                .at(src_origin_z.into())
                .to(dst_origin_z.into())
                .of(array_layer_count.into()),
            E::InvalidTextureAspect { .. } => Self::plain(12),
            E::InvalidTextureMipLevel { level, total } => {
                Self::plain(13).at(level.into()).of(total.into())
            }
            E::UnalignedBufferOffset(offset) => Self::plain(14).at(offset),
            E::UnalignedCopySize(size) => Self::plain(15).at(size),
            E::UnalignedCopyWidth => Self::plain(16),
            E::UnalignedCopyHeight => Self::plain(17),
            E::UnalignedCopyOriginX => Self::plain(18),
            E::UnalignedCopyOriginY => Self::plain(19),
            E::UnalignedBytesPerRow => Self::plain(20),
            E::UnspecifiedBytesPerRow => Self::plain(21),
            E::UnspecifiedRowsPerImage => Self::plain(22),
            E::InvalidBytesPerRow => Self::plain(23),
            E::InvalidRowsPerImage => Self::plain(24),
            E::SizeOverflow => Self::plain(25),
            E::CopySrcMissingAspects => Self::plain(26),
            E::CopyDstMissingAspects => Self::plain(27),
            E::CopyAspectNotOne => Self::plain(28),
            E::CopyFromForbiddenTextureFormat(_) => Self::plain(29),
            E::CopyFromForbiddenTextureFormatAspect { .. } => Self::plain(30),
            E::CopyToForbiddenTextureFormat(_) => Self::plain(31),
            E::CopyToForbiddenTextureFormatAspect { .. } => Self::plain(32),
            E::TextureFormatsNotCopyCompatible { .. } => Self::plain(33),
            E::MissingDownlevelFlags(_) => Self::plain(34),
            E::InvalidSampleCount { sample_count } => Self::plain(35).at(sample_count.into()),
            E::SampleCountNotEqual {
                src_sample_count,
                dst_sample_count,
            } => Self::plain(36)
                .at(src_sample_count.into())
                .to(dst_sample_count.into()),
            error => panic!("unexpected error: {error:?}"),
        }
    }
}

/// The Rust's error names no side; the usage that it expected tells it.
fn buffer_usage_side(error: &MissingBufferUsageError) -> Side {
    if error.expected == wgt::BufferUsages::COPY_SRC {
        Side::Source
    } else {
        Side::Destination
    }
}

fn texture_usage_side(error: &MissingTextureUsageError) -> Side {
    if error.expected == wgt::TextureUsages::COPY_SRC {
        Side::Source
    } else {
        Side::Destination
    }
}

#[cfg(test)]
mod tests {
    use super::*;

    /// It had the number 37; were it met, that would be told as a panic.
    #[test]
    #[should_panic(expected = "unexpected error: InvalidMipLevel")]
    fn the_second_check_of_a_level_has_no_number() {
        let error = TransferError::InvalidMipLevel {
            requested: 1,
            count: 1,
        };
        Refusal::from_transfer_error(error);
    }
}
