//! Copies made ready for the Rust's functions, for programs that time the call.

use std::sync::Arc;

use reference_core::{self as core, CommandEncoderError, Recorder};

use crate::run::{core_extent, memory_info, set_layout, set_view, CoreBufferInfo, CoreTextureInfo};
use crate::{BufferView, Copy, Objects, TextureView};

/// A copy in the types of the Rust's functions, with objects of its own.
#[derive(Debug)]
pub struct Prepared {
    device: Arc<core::Device>,
    arguments: Arguments,
}

#[derive(Debug)]
enum Arguments {
    BufferToBuffer {
        source: Arc<core::Buffer>,
        source_offset: u64,
        destination: Arc<core::Buffer>,
        destination_offset: u64,
        size: Option<u64>,
    },
    BufferToTexture {
        source: CoreBufferInfo,
        destination: CoreTextureInfo,
        size: wgt::Extent3d,
    },
    TextureToBuffer {
        source: CoreTextureInfo,
        destination: CoreBufferInfo,
        size: wgt::Extent3d,
    },
    TextureToTexture {
        source: CoreTextureInfo,
        destination: CoreTextureInfo,
        size: wgt::Extent3d,
    },
    MemoryToTexture {
        source: core::MemoryInfo,
        destination: CoreTextureInfo,
        size: wgt::Extent3d,
    },
}

impl Prepared {
    /// Nothing where an index is past its section or a record out of bounds:
    /// the Rust is not asked about such a copy.
    pub fn new(objects: &Objects, copy: &Copy) -> Option<Self> {
        Some(Self {
            device: objects.device.clone(),
            arguments: Arguments::new(objects, copy)?,
        })
    }

    /// One call of the Rust's function, or of its rules on a write from memory.
    /// The recorder holds the regions and ranges afterwards.
    #[inline]
    pub fn record(&self, recorder: &mut Recorder) -> Result<(), CommandEncoderError> {
        let device = &self.device;
        match &self.arguments {
            Arguments::BufferToBuffer {
                source,
                source_offset,
                destination,
                destination_offset,
                size,
            } => recorder.copy_buffer_to_buffer(
                device,
                source,
                *source_offset,
                destination,
                *destination_offset,
                *size,
            ),
            Arguments::BufferToTexture {
                source,
                destination,
                size,
            } => recorder.copy_buffer_to_texture(device, source, destination, size),
            Arguments::TextureToBuffer {
                source,
                destination,
                size,
            } => recorder.copy_texture_to_buffer(device, source, destination, size),
            Arguments::TextureToTexture {
                source,
                destination,
                size,
            } => recorder.copy_texture_to_texture(device, source, destination, size),
            Arguments::MemoryToTexture {
                source,
                destination,
                size,
            } => recorder.copy_memory_to_texture(device, source, destination, size),
        }
    }

    /// The same, but a write from memory by the body of `Queue::write_texture`,
    /// with nothing staged.
    #[inline]
    pub fn record_by_queue(&self, recorder: &mut Recorder) -> Result<(), CommandEncoderError> {
        match &self.arguments {
            Arguments::MemoryToTexture {
                source,
                destination,
                size,
            } => recorder.queue_write_texture_unstaged(&self.device, source, destination, size),
            _ => self.record(recorder),
        }
    }
}

impl Arguments {
    fn new(objects: &Objects, copy: &Copy) -> Option<Self> {
        match copy {
            Copy::BufferToBuffer { .. } => Self::between_buffers(objects, copy),
            Copy::BufferToTexture {
                source,
                destination,
                size,
            } => Some(Self::BufferToTexture {
                source: buffer_info(objects, source)?,
                destination: texture_info(objects, destination)?,
                size: core_extent(size),
            }),
            Copy::TextureToBuffer {
                source,
                destination,
                size,
            } => Some(Self::TextureToBuffer {
                source: texture_info(objects, source)?,
                destination: buffer_info(objects, destination)?,
                size: core_extent(size),
            }),
            Copy::TextureToTexture {
                source,
                destination,
                size,
            } => Some(Self::TextureToTexture {
                source: texture_info(objects, source)?,
                destination: texture_info(objects, destination)?,
                size: core_extent(size),
            }),
            Copy::MemoryToTexture {
                source,
                destination,
                size,
            } => Some(Self::MemoryToTexture {
                source: memory_info(source),
                destination: texture_info(objects, destination)?,
                size: core_extent(size),
            }),
        }
    }

    fn between_buffers(objects: &Objects, copy: &Copy) -> Option<Self> {
        let Copy::BufferToBuffer {
            source,
            source_offset,
            destination,
            destination_offset,
            size,
        } = *copy
        else {
            return None;
        };
        Some(Self::BufferToBuffer {
            source: buffer(objects, source)?.buffer.clone(),
            source_offset,
            destination: buffer(objects, destination)?.buffer.clone(),
            destination_offset,
            size,
        })
    }
}

fn buffer(objects: &Objects, index: u32) -> Option<&CoreBufferInfo> {
    objects.buffers.get(index as usize)?.as_ref()
}

fn buffer_info(objects: &Objects, view: &BufferView) -> Option<CoreBufferInfo> {
    let mut info = buffer(objects, view.buffer)?.clone();
    set_layout(&mut info, view);
    Some(info)
}

pub(crate) fn texture_info(objects: &Objects, view: &TextureView) -> Option<CoreTextureInfo> {
    let object = objects.textures.get(view.texture as usize)?.as_ref()?;
    let mut info = object.as_source.clone();
    set_view(&mut info, view);
    Some(info)
}
