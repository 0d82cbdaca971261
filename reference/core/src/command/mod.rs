//! Stand-in for the command module around the unmodified `transfer`.

pub(crate) mod encoder;
pub(crate) mod memory;
pub(crate) mod memory_init;
pub(crate) mod recorder;

include!(concat!(env!("OUT_DIR"), "/transfer_mod.rs"));

use alloc::sync::Arc;

use wgt::error::{ErrorType, WebGpuError};

use crate::device::DeviceError;
use crate::init_tracker::TextureInitRange;
use crate::resource::{Buffer, DestroyedResourceError, InvalidResourceError, Texture};
use crate::snatch::SnatchGuard;
use crate::track::TextureTracker;
use transfer::TransferError;

/// The error of a copy function.
///
/// Here only [`Self::Transfer`] has values: devices, raw resources and
/// identifiers do not fail.
#[derive(Clone, Debug)]
pub enum CommandEncoderError {
    Transfer(TransferError),
    #[doc(hidden)]
    Device(DeviceError),
    #[doc(hidden)]
    DestroyedResource(DestroyedResourceError),
    #[doc(hidden)]
    InvalidResource(InvalidResourceError),
}

impl From<TransferError> for CommandEncoderError {
    fn from(error: TransferError) -> Self {
        Self::Transfer(error)
    }
}

impl From<DeviceError> for CommandEncoderError {
    fn from(error: DeviceError) -> Self {
        Self::Device(error)
    }
}

impl From<DestroyedResourceError> for CommandEncoderError {
    fn from(error: DestroyedResourceError) -> Self {
        Self::DestroyedResource(error)
    }
}

impl From<InvalidResourceError> for CommandEncoderError {
    fn from(error: InvalidResourceError) -> Self {
        Self::InvalidResource(error)
    }
}

/// An encoder in the wrong state; not met.
pub enum EncoderStateError {}

impl From<ClearError> for CommandEncoderError {
    fn from(error: ClearError) -> Self {
        match error {}
    }
}

/// A failed clear; not met.
#[derive(Clone, Debug)]
pub enum ClearError {}

impl std::fmt::Display for ClearError {
    fn fmt(&self, _formatter: &mut std::fmt::Formatter<'_>) -> std::fmt::Result {
        match *self {}
    }
}

impl std::error::Error for ClearError {}

impl WebGpuError for ClearError {
    fn webgpu_error_type(&self) -> ErrorType {
        match *self {}
    }
}

/// Has the encoder record the clear. The copies of an encoder ask for none, since
/// no initialisation is due at once; a write from memory does.
#[allow(clippy::too_many_arguments)]
pub(crate) fn clear_texture(
    _texture: &Arc<Texture>,
    range: TextureInitRange,
    encoder: &mut hal::CommandEncoder,
    _tracker: &mut TextureTracker,
    _alignments: &hal::Alignments,
    _zero_buffer: &hal::RawBuffer,
    _snatch_guard: &SnatchGuard,
    _instance_flags: wgt::InstanceFlags,
) -> Result<(), ClearError> {
    encoder.texture_clears.push(hal::TextureClear {
        levels: range.mip_range,
        layers: range.layer_range,
    });
    Ok(())
}

/// The commands that the entry points of [`crate::global::Global`] store.
#[allow(dead_code, clippy::enum_variant_names)]
pub(crate) enum ArcCommand {
    CopyBufferToBuffer {
        src: Arc<Buffer>,
        src_offset: wgt::BufferAddress,
        dst: Arc<Buffer>,
        dst_offset: wgt::BufferAddress,
        size: Option<wgt::BufferAddress>,
    },
    CopyBufferToTexture {
        src: wgt::TexelCopyBufferInfo<Arc<Buffer>>,
        dst: wgt::TexelCopyTextureInfo<Arc<Texture>>,
        size: wgt::Extent3d,
    },
    CopyTextureToBuffer {
        src: wgt::TexelCopyTextureInfo<Arc<Texture>>,
        dst: wgt::TexelCopyBufferInfo<Arc<Buffer>>,
        size: wgt::Extent3d,
    },
    CopyTextureToTexture {
        src: wgt::TexelCopyTextureInfo<Arc<Texture>>,
        dst: wgt::TexelCopyTextureInfo<Arc<Texture>>,
        size: wgt::Extent3d,
    },
}
