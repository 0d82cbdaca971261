//! The copy functions, each with a fresh record of what it did.

use alloc::sync::Arc;
use alloc::vec::Vec;

use crate::command::encoder::EncodingState;
use crate::command::memory::{self, MemoryInfo};
use crate::command::memory_init::{BufferMemoryInitActions, TextureMemoryActions};
use crate::command::transfer::{self, CopySide, TransferError};
use crate::command::CommandEncoderError;
use crate::device::Device;
use crate::init_tracker::{InitAction, InitLog, MemoryInitKind, WrittenTexture};
use crate::queue::{block_of_memory, Queue};
use crate::resource::{Buffer, Texture};
use crate::snatch::SnatchGuard;
use crate::track::Tracker;

/// Calls the copy functions and records what they hand on.
///
/// A call forgets the record of the call before it and keeps the memory.
#[derive(Debug, Default)]
pub struct Recorder {
    encoder: hal::CommandEncoder,
    init_actions: Vec<InitAction>,
    tracker: Tracker,
}

impl Recorder {
    pub fn new() -> Self {
        Self::default()
    }

    /// Forgets the last call.
    pub fn clear(&mut self) {
        self.encoder.clear();
        self.init_actions.clear();
    }

    /// The regions of the last call, of the one kind that it has.
    pub fn encoder(&self) -> &hal::CommandEncoder {
        &self.encoder
    }

    /// The initialisation actions of the last call, in order.
    pub fn init_actions(&self) -> &[InitAction] {
        &self.init_actions
    }

    pub fn copy_buffer_to_buffer(
        &mut self,
        device: &Arc<Device>,
        source: &Arc<Buffer>,
        source_offset: wgt::BufferAddress,
        destination: &Arc<Buffer>,
        destination_offset: wgt::BufferAddress,
        size: Option<wgt::BufferAddress>,
    ) -> Result<(), CommandEncoderError> {
        self.record(device, |state| {
            transfer::copy_buffer_to_buffer(
                state,
                source,
                source_offset,
                destination,
                destination_offset,
                size,
            )
        })
    }

    pub fn copy_buffer_to_texture(
        &mut self,
        device: &Arc<Device>,
        source: &wgt::TexelCopyBufferInfo<Arc<Buffer>>,
        destination: &wgt::TexelCopyTextureInfo<Arc<Texture>>,
        copy_size: &wgt::Extent3d,
    ) -> Result<(), CommandEncoderError> {
        self.record(device, |state| {
            transfer::copy_buffer_to_texture(state, source, destination, copy_size)
        })
    }

    pub fn copy_texture_to_buffer(
        &mut self,
        device: &Arc<Device>,
        source: &wgt::TexelCopyTextureInfo<Arc<Texture>>,
        destination: &wgt::TexelCopyBufferInfo<Arc<Buffer>>,
        copy_size: &wgt::Extent3d,
    ) -> Result<(), CommandEncoderError> {
        self.record(device, |state| {
            transfer::copy_texture_to_buffer(state, source, destination, copy_size)
        })
    }

    pub fn copy_texture_to_texture(
        &mut self,
        device: &Arc<Device>,
        source: &wgt::TexelCopyTextureInfo<Arc<Texture>>,
        destination: &wgt::TexelCopyTextureInfo<Arc<Texture>>,
        copy_size: &wgt::Extent3d,
    ) -> Result<(), CommandEncoderError> {
        self.record(device, |state| {
            transfer::copy_texture_to_texture(state, source, destination, copy_size)
        })
    }

    /// A write from memory by the Rust's rules, in the order of a copy from a
    /// buffer.
    pub fn copy_memory_to_texture(
        &mut self,
        device: &Arc<Device>,
        source: &MemoryInfo,
        destination: &wgt::TexelCopyTextureInfo<Arc<Texture>>,
        copy_size: &wgt::Extent3d,
    ) -> Result<(), CommandEncoderError> {
        self.record(device, |state| {
            memory::copy_memory_to_texture(state, source, destination, copy_size)
        })
    }

    /// The same write by the body of `Queue::write_texture`. Offset and strides
    /// of its regions are those of a staging buffer, and not the block's.
    pub fn queue_write_texture(
        &mut self,
        device: &Arc<Device>,
        source: &MemoryInfo,
        destination: &wgt::TexelCopyTextureInfo<Arc<Texture>>,
        copy_size: &wgt::Extent3d,
    ) -> Result<(), CommandEncoderError> {
        self.queue_write::<true>(device, source, destination, copy_size)
    }

    /// The same without the staging: what remains of the body's loop over rows is
    /// nothing. For programs that time the rest.
    #[inline]
    pub fn queue_write_texture_unstaged(
        &mut self,
        device: &Arc<Device>,
        source: &MemoryInfo,
        destination: &wgt::TexelCopyTextureInfo<Arc<Texture>>,
        copy_size: &wgt::Extent3d,
    ) -> Result<(), CommandEncoderError> {
        self.queue_write::<false>(device, source, destination, copy_size)
    }

    fn queue_write<const STAGES: bool>(
        &mut self,
        device: &Arc<Device>,
        source: &MemoryInfo,
        destination: &wgt::TexelCopyTextureInfo<Arc<Texture>>,
        copy_size: &wgt::Extent3d,
    ) -> Result<(), CommandEncoderError> {
        self.clear();
        let init_log = InitLog::new(&mut self.init_actions);
        let written = wgt::TexelCopyTextureInfo {
            texture: WrittenTexture::new(&destination.texture, &init_log),
            mip_level: destination.mip_level,
            origin: destination.origin,
            aspect: destination.aspect,
        };
        Queue::<STAGES>::new(device, &mut self.encoder).write_texture(
            written,
            block_of_memory(source.length),
            &source.layout,
            copy_size,
        )?;
        let texture = destination.texture.index;
        for clear in &self.encoder.texture_clears {
            self.init_actions.push(InitAction::Texture {
                texture,
                first_level: clear.levels.start,
                end_level: clear.levels.end,
                first_layer: clear.layers.start,
                end_layer: clear.layers.end,
                kind: MemoryInitKind::NeedsInitializedMemory,
            });
        }
        Ok(())
    }

    fn record<R>(&mut self, device: &Arc<Device>, copy: impl FnOnce(&mut EncodingState) -> R) -> R {
        self.clear();
        let init_log = InitLog::new(&mut self.init_actions);
        copy(&mut EncodingState {
            device,
            raw_encoder: &mut self.encoder,
            tracker: &mut self.tracker,
            buffer_memory_init_actions: BufferMemoryInitActions(&init_log),
            texture_memory_actions: TextureMemoryActions(&init_log),
            snatch_guard: &SnatchGuard,
        })
    }
}

/// The bytes that a copy between a buffer or memory and a texture was checked for.
///
/// The copy functions keep that number to themselves; the unmodified rule that
/// they call is asked again with their arguments.
pub fn bytes_in_linear_texture_data(
    source: &MemoryInfo,
    buffer_side: CopySide,
    texture: &wgt::TexelCopyTextureInfo<Arc<Texture>>,
    copy_size: &wgt::Extent3d,
) -> Result<wgt::BufferAddress, TransferError> {
    let (bytes_in_copy, _, _) = transfer::validate_linear_texture_data(
        &source.layout,
        texture.texture.desc.format,
        texture.aspect,
        source.length,
        buffer_side,
        copy_size,
    )?;
    Ok(bytes_in_copy)
}
