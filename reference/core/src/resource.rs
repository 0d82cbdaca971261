//! Stand-in for buffers and textures: what the copy functions read of them,
//! and the index by which the records name them.

use alloc::string::String;
use alloc::sync::Arc;
use alloc::vec::Vec;

use wgt::error::{ErrorType, WebGpuError};

use crate::device::{Device, DeviceError};
use crate::init_tracker::BufferInitTracker;
use crate::snatch::SnatchGuard;

/// A resource is never destroyed here.
#[derive(Clone, Debug)]
#[doc(hidden)]
pub enum DestroyedResourceError {}

/// A resource is never invalid here.
#[derive(Clone, Debug)]
#[doc(hidden)]
pub enum InvalidResourceError {}

/// A side of a texture, as errors name it.
#[derive(Clone, Copy, Debug, Eq, PartialEq)]
pub enum TextureErrorDimension {
    X,
    Y,
    Z,
}

/// A buffer lacks a usage.
#[derive(Clone, Debug)]
pub struct MissingBufferUsageError {
    pub actual: wgt::BufferUsages,
    pub expected: wgt::BufferUsages,
}

/// A texture lacks a usage.
#[derive(Clone, Debug)]
pub struct MissingTextureUsageError {
    pub actual: wgt::TextureUsages,
    pub expected: wgt::TextureUsages,
}

impl std::fmt::Display for MissingBufferUsageError {
    fn fmt(&self, formatter: &mut std::fmt::Formatter<'_>) -> std::fmt::Result {
        write!(formatter, "{:?} lacks {:?}", self.actual, self.expected)
    }
}

impl std::fmt::Display for MissingTextureUsageError {
    fn fmt(&self, formatter: &mut std::fmt::Formatter<'_>) -> std::fmt::Result {
        write!(formatter, "{:?} lacks {:?}", self.actual, self.expected)
    }
}

impl std::error::Error for MissingBufferUsageError {}

impl std::error::Error for MissingTextureUsageError {}

impl WebGpuError for MissingBufferUsageError {
    fn webgpu_error_type(&self) -> ErrorType {
        ErrorType::Validation
    }
}

impl WebGpuError for MissingTextureUsageError {
    fn webgpu_error_type(&self) -> ErrorType {
        ErrorType::Validation
    }
}

/// A resource of the one device.
pub(crate) trait ParentDevice: Sized {
    /// There is one device, so every resource belongs to it.
    fn same_device(&self, _device: &Device) -> Result<(), DeviceError> {
        Ok(())
    }

    /// Resources are told apart by their place in memory, as in wgpu-core.
    fn is_equal(self: &Arc<Self>, other: &Arc<Self>) -> bool {
        Arc::ptr_eq(self, other)
    }
}

/// A resource with a driver's object behind it.
pub(crate) trait RawResourceAccess {
    type Raw;

    fn try_raw<'a>(
        &'a self,
        guard: &'a SnatchGuard,
    ) -> Result<&'a Self::Raw, DestroyedResourceError>;
}

/// A buffer.
#[derive(Debug)]
pub struct Buffer {
    pub(crate) index: u32,
    pub(crate) size: wgt::BufferAddress,
    pub(crate) usage: wgt::BufferUsages,
    pub(crate) initialization_status: BufferInitTracker,
    raw: hal::RawBuffer,
}

impl Buffer {
    pub fn new(index: u32, size: wgt::BufferAddress, usage: wgt::BufferUsages) -> Self {
        Self {
            index,
            size,
            usage,
            initialization_status: BufferInitTracker,
            raw: hal::RawBuffer,
        }
    }

    pub fn size(&self) -> wgt::BufferAddress {
        self.size
    }

    pub(crate) fn check_usage(
        &self,
        expected: wgt::BufferUsages,
    ) -> Result<(), MissingBufferUsageError> {
        if self.usage.contains(expected) {
            Ok(())
        } else {
            Err(MissingBufferUsageError {
                actual: self.usage,
                expected,
            })
        }
    }
}

impl ParentDevice for Buffer {}

impl RawResourceAccess for Buffer {
    type Raw = hal::RawBuffer;

    fn try_raw<'a>(
        &'a self,
        _guard: &'a SnatchGuard,
    ) -> Result<&'a hal::RawBuffer, DestroyedResourceError> {
        Ok(&self.raw)
    }
}

/// The descriptor of a texture, in the type that the copy functions name.
pub(crate) type TextureDescriptor = wgt::TextureDescriptor<String, Vec<wgt::TextureFormat>>;

/// A texture.
#[derive(Debug)]
pub struct Texture {
    pub(crate) index: u32,
    pub(crate) desc: TextureDescriptor,
    inner: TextureInner,
}

impl Texture {
    pub fn new(index: u32, desc: wgt::TextureDescriptor<String, Vec<wgt::TextureFormat>>) -> Self {
        Self {
            index,
            desc,
            inner: TextureInner(hal::RawTexture),
        }
    }

    pub fn format(&self) -> wgt::TextureFormat {
        self.desc.format
    }

    pub fn usage(&self) -> wgt::TextureUsages {
        self.desc.usage
    }

    pub(crate) fn check_usage(
        &self,
        expected: wgt::TextureUsages,
    ) -> Result<(), MissingTextureUsageError> {
        if self.desc.usage.contains(expected) {
            Ok(())
        } else {
            Err(MissingTextureUsageError {
                actual: self.desc.usage,
                expected,
            })
        }
    }

    pub(crate) fn try_inner<'a>(
        &'a self,
        _guard: &'a SnatchGuard,
    ) -> Result<&'a TextureInner, DestroyedResourceError> {
        Ok(&self.inner)
    }

    #[allow(dead_code)]
    pub(crate) fn check_valid(&self, _guard: &SnatchGuard) -> Result<(), InvalidResourceError> {
        Ok(())
    }
}

impl ParentDevice for Texture {}

/// What lies behind a texture.
#[derive(Debug)]
pub(crate) struct TextureInner(hal::RawTexture);

impl TextureInner {
    pub(crate) fn raw(&self) -> &hal::RawTexture {
        &self.0
    }
}
