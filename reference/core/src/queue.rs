//! `Queue::write_texture`: its body is the Rust's own text, taken from its source
//! file at build time; what it works on stands in.
//!
//! The bytes of the block take no room, so that a block has any length that a
//! copy names, and slices of it are held to that length. Nothing is staged: the
//! staging buffer holds every write to the block and to its own size, or, where a
//! call is timed, does nothing at all.

use alloc::sync::Arc;
use alloc::vec::Vec;

use crate::api_log;
use crate::command::transfer::{
    extract_texture_selector, validate_linear_texture_data, validate_texture_buffer_copy,
    validate_texture_copy_dst_format, validate_texture_copy_range, CopySide, TransferError,
};
use crate::command::CommandEncoderError as QueueWriteError;
use crate::device::{Device, DeviceError};
use crate::init_tracker::{
    has_copy_partial_init_tracker_coverage, TextureInitRange, WrittenTexture,
};
use crate::resource::Texture;

/// A byte of memory that takes no room.
#[derive(Clone, Copy)]
pub(crate) struct Byte;

static MEMORY: [Byte; usize::MAX] = [Byte; usize::MAX];

/// A block of so many bytes.
pub(crate) fn block_of_memory(length: wgt::BufferAddress) -> &'static [Byte] {
    let length = usize::try_from(length).expect("addresses have 64 bits");
    &MEMORY[..length]
}

/// The queue of a device, and the encoder that its writes go to.
pub(crate) struct Queue<'a, const STAGES: bool> {
    device: &'a Arc<Device>,
    pending_writes: PendingWrites<'a, STAGES>,
}

impl<'a, const STAGES: bool> Queue<'a, STAGES> {
    pub(crate) fn new(device: &'a Arc<Device>, encoder: &'a mut hal::CommandEncoder) -> Self {
        Self {
            device,
            pending_writes: PendingWrites { encoder },
        }
    }

    /// There is one device, so every texture belongs to it.
    fn same_device_as(&self, _texture: &Texture) -> Result<(), DeviceError> {
        Ok(())
    }

    #[allow(unused, clippy::all)]
    pub(crate) fn write_texture(
        &mut self,
        destination: wgt::TexelCopyTextureInfo<WrittenTexture<'_>>,
        data: &[Byte],
        data_layout: &wgt::TexelCopyBufferLayout,
        size: &wgt::Extent3d,
    ) -> Result<(), QueueWriteError> {
        include!(concat!(env!("OUT_DIR"), "/write_texture.rs"))
    }
}

struct PendingWrites<'a, const STAGES: bool> {
    encoder: &'a mut hal::CommandEncoder,
}

impl<const STAGES: bool> PendingWrites<'_, STAGES> {
    fn lock(&mut self) -> &mut Self {
        self
    }

    fn activate(&mut self) -> &mut hal::CommandEncoder {
        self.encoder
    }

    fn consume(&mut self, _staging_buffer: FlushedStagingBuffer<STAGES>) {}

    fn insert_texture(&mut self, _texture: &Arc<Texture>) {}
}

/// A buffer into which a write copies its data first; here only measured, and not
/// even that unless it `STAGES`.
struct StagingBuffer<const STAGES: bool> {
    size: wgt::BufferAddress,
}

impl<const STAGES: bool> StagingBuffer<STAGES> {
    fn new(_device: &Device, size: wgt::BufferSize) -> Result<Self, DeviceError> {
        Ok(Self { size: size.get() })
    }

    /// Fills the buffer from the start of `data`.
    fn write(&mut self, data: &[Byte]) {
        let is_within = self.size <= data.len() as u64;
        assert!(!STAGES || is_within, "the block is too short");
    }

    /// Copies some bytes. The offsets are the body's, which casts them to
    /// `isize`; real data is never that long, and the cast back loses nothing.
    fn write_with_offset(
        &mut self,
        data: &[Byte],
        src_offset: isize,
        dst_offset: isize,
        size: usize,
    ) {
        if !STAGES {
            return;
        }
        let ends_within = |offset: isize, limit: u64| {
            let end = (offset as u64).checked_add(size as u64);
            end.is_some_and(|end| end <= limit)
        };
        assert!(
            ends_within(src_offset, data.len() as u64),
            "the block is too short"
        );
        assert!(
            ends_within(dst_offset, self.size),
            "the staging buffer is too short"
        );
    }

    fn flush(self) -> FlushedStagingBuffer<STAGES> {
        FlushedStagingBuffer(hal::RawBuffer)
    }
}

struct FlushedStagingBuffer<const STAGES: bool>(hal::RawBuffer);

impl<const STAGES: bool> FlushedStagingBuffer<STAGES> {
    fn raw(&self) -> &hal::RawBuffer {
        &self.0
    }
}

/// The least common multiple, under the name that the body has for it.
fn get_lowest_common_denom(first: u32, second: u32) -> u32 {
    let (mut divisor, mut rest) = (first, second);
    while rest != 0 {
        (divisor, rest) = (rest, divisor % rest);
    }
    first / divisor * second
}

#[cfg(test)]
mod tests {
    use super::*;

    #[test]
    fn blocks_of_every_length() {
        for length in [0, 1, 1 << 32, 1 << 63, u64::MAX] {
            let block = block_of_memory(length);
            assert_eq!(block.len() as u64, length);
            assert_eq!(size_of_val(block), 0);
        }
    }

    #[test]
    fn common_multiples() {
        for (first, second, least) in [(256, 1, 256), (256, 16, 256), (4, 6, 12), (3, 8, 24)] {
            assert_eq!(get_lowest_common_denom(first, second), least);
            assert_eq!(get_lowest_common_denom(second, first), least);
        }
    }
}
