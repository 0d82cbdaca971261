//! Copies of a sheet run through the Rust's copy functions.

use std::any::Any;
use std::cell::Cell;
use std::panic::{self, AssertUnwindSafe};
use std::sync::Arc;

use reference_core::{self as core, CopySide, Recorder};

use crate::agreement::{self, QueueWrite};
use crate::{
    ends, Buffer, BufferView, Copy, Device, Extent, MemoryView, Refusal, Sheet, Side, Texture,
    TextureView,
};

pub(crate) type CoreBufferInfo = wgt::TexelCopyBufferInfo<Arc<core::Buffer>>;
pub(crate) type CoreTextureInfo = wgt::TexelCopyTextureInfo<Arc<core::Texture>>;

/// What became of a copy. The regions and ranges of an accepted copy are in
/// the recorder.
#[derive(Clone, Debug, Eq, PartialEq)]
pub enum Outcome {
    Accepted {
        /// 0 between textures.
        bytes_checked: u64,
    },
    Refused(Refusal),
    /// The Rust panicked, with this message.
    Panicked(String),
    /// The Rust does not agree with itself, where `Queue::write_texture` parts from
    /// the rules in the customer's order and should not; or with the copy, where a
    /// refusal tells of another start or end. This is how.
    Disagreed(String),
}

/// The device, textures and buffers of a sheet as the copy functions want
/// them. A record out of bounds has no object.
#[derive(Debug)]
pub struct Objects {
    pub(crate) device: Arc<core::Device>,
    pub(crate) textures: Vec<Option<TextureObject>>,
    pub(crate) buffers: Vec<Option<CoreBufferInfo>>,
    /// What `Queue::write_texture` did last.
    pub(crate) queue: Recorder,
}

/// A texture with one view for each side, so that a copy within one texture
/// finds both, and a call need not count references.
#[derive(Debug)]
pub(crate) struct TextureObject {
    pub(crate) as_source: CoreTextureInfo,
    pub(crate) as_destination: CoreTextureInfo,
}

impl Objects {
    /// Builds the objects of a sheet; its copies are not looked at.
    pub fn new(sheet: &Sheet) -> Self {
        Self::from_records(&sheet.device, &sheet.textures, &sheet.buffers)
    }

    /// Builds the objects of records.
    pub fn from_records(device: &Device, textures: &[Texture], buffers: &[Buffer]) -> Self {
        Self {
            device: Arc::new(core::Device::new(downlevel_flags(device))),
            textures: (0..)
                .zip(textures)
                .map(|(index, texture)| texture_object(index, texture))
                .collect(),
            buffers: (0..)
                .zip(buffers)
                .map(|(index, buffer)| buffer_object(index, buffer))
                .collect(),
            queue: Recorder::new(),
        }
    }

    fn check_texture_index(&self, view: &TextureView) -> Result<(), Refusal> {
        check_index(view.texture, &self.textures)
    }

    fn check_buffer_index(&self, index: u32) -> Result<(), Refusal> {
        check_index(index, &self.buffers)
    }
}

fn check_index<T>(index: u32, section: &[T]) -> Result<(), Refusal> {
    if (index as usize) < section.len() {
        Ok(())
    } else {
        Err(Refusal::INDEX_PAST_SECTION)
    }
}

fn downlevel_flags(device: &Device) -> wgt::DownlevelFlags {
    let fact = |holds, flag| {
        if holds {
            flag
        } else {
            wgt::DownlevelFlags::from_bits_retain(0)
        }
    };
    fact(
        device.depth_texture_and_buffer_copies,
        wgt::DownlevelFlags::DEPTH_TEXTURE_AND_BUFFER_COPIES,
    ) | fact(
        device.unrestricted_index_buffer,
        wgt::DownlevelFlags::UNRESTRICTED_INDEX_BUFFER,
    )
}

fn buffer_object(index: u32, buffer: &Buffer) -> Option<CoreBufferInfo> {
    buffer.is_within_bounds().then(|| CoreBufferInfo {
        buffer: Arc::new(core::Buffer::new(
            index,
            buffer.size,
            wgt::BufferUsages::from_bits_retain(buffer.usage),
        )),
        layout: wgt::TexelCopyBufferLayout {
            offset: 0,
            bytes_per_row: None,
            rows_per_image: None,
        },
    })
}

fn texture_object(index: u32, texture: &Texture) -> Option<TextureObject> {
    if !texture.is_within_bounds() {
        return None;
    }
    let descriptor = wgt::TextureDescriptor {
        label: String::new(),
        size: wgt::Extent3d {
            width: texture.width,
            height: texture.height,
            depth_or_array_layers: texture.depth,
        },
        mip_level_count: texture.levels,
        sample_count: texture.samples,
        dimension: match texture.dimension {
            1 => wgt::TextureDimension::D1,
            2 => wgt::TextureDimension::D2,
            _ => wgt::TextureDimension::D3,
        },
        format: wgt::TextureFormat::ALL[texture.format as usize],
        usage: wgt::TextureUsages::from_bits_retain(texture.usage),
        view_formats: Vec::new(),
    };
    let view = CoreTextureInfo {
        texture: Arc::new(core::Texture::new(index, descriptor)),
        mip_level: 0,
        origin: wgt::Origin3d { x: 0, y: 0, z: 0 },
        aspect: wgt::TextureAspect::All,
    };
    Some(TextureObject {
        as_source: view.clone(),
        as_destination: view,
    })
}

fn find_buffer(
    buffers: &mut [Option<CoreBufferInfo>],
    index: u32,
    side: Side,
) -> Result<&mut CoreBufferInfo, Refusal> {
    buffers[index as usize]
        .as_mut()
        .ok_or(Refusal::buffer_record(side))
}

fn find_texture(
    textures: &mut [Option<TextureObject>],
    index: u32,
    side: Side,
) -> Result<&mut TextureObject, Refusal> {
    textures[index as usize]
        .as_mut()
        .ok_or(Refusal::texture_record(side))
}

pub(crate) fn set_layout(info: &mut CoreBufferInfo, view: &BufferView) {
    info.layout = wgt::TexelCopyBufferLayout {
        offset: view.offset,
        bytes_per_row: view.bytes_per_row,
        rows_per_image: view.rows_per_image,
    };
}

pub(crate) fn memory_info(view: &MemoryView) -> core::MemoryInfo {
    core::MemoryInfo {
        length: view.length,
        layout: wgt::TexelCopyBufferLayout {
            offset: view.offset,
            bytes_per_row: view.bytes_per_row,
            rows_per_image: view.rows_per_image,
        },
    }
}

pub(crate) fn set_view(info: &mut CoreTextureInfo, view: &TextureView) {
    info.mip_level = view.level;
    info.origin = wgt::Origin3d {
        x: view.x,
        y: view.y,
        z: view.z,
    };
    info.aspect = texture_aspect(view.aspect);
}

fn texture_aspect(aspect: u32) -> wgt::TextureAspect {
    use wgt::TextureAspect as Aspect;
    match aspect {
        0 => Aspect::All,
        1 => Aspect::StencilOnly,
        2 => Aspect::DepthOnly,
        3 => Aspect::Plane0,
        4 => Aspect::Plane1,
        5 => Aspect::Plane2,
        _ => panic!("an aspect is at most 5"),
    }
}

pub(crate) fn core_extent(size: &Extent) -> wgt::Extent3d {
    wgt::Extent3d {
        width: size.width,
        height: size.height,
        depth_or_array_layers: size.depth,
    }
}

/// Runs a copy and asks for the bytes that it was checked for; a panic of the
/// Rust is an outcome too. A write from memory is asked of `Queue::write_texture`
/// as well. The end of a 9 or 10 is whole, where the Rust's own is wrapped.
pub fn run_copy(recorder: &mut Recorder, objects: &mut Objects, copy: &Copy) -> Outcome {
    run_copy_beside(recorder, objects, copy, &Recorder::queue_write_texture)
}

/// Runs a copy; a write from memory must agree with `queue_write`.
pub(crate) fn run_copy_beside(
    recorder: &mut Recorder,
    objects: &mut Objects,
    copy: &Copy,
    queue_write: QueueWrite,
) -> Outcome {
    let run = AssertUnwindSafe(|| {
        let recorded = record_copy(recorder, objects, copy);
        if let Some(words) = agreement::difference(&recorded, recorder, objects, copy, queue_write)
        {
            return Outcome::Disagreed(words);
        }
        match recorded {
            Ok(()) => Outcome::Accepted {
                bytes_checked: bytes_checked(recorder, objects, copy),
            },
            Err(refusal) => ends::refused(refusal, copy),
        }
    });
    RUNNING_COPY.set(true);
    let result = panic::catch_unwind(run);
    RUNNING_COPY.set(false);
    result.unwrap_or_else(|payload| Outcome::Panicked(panic_message(payload.as_ref())))
}

/// Runs a copy and no more: one call of the Rust's function, or of its rules on
/// a write from memory, after indices and records. The recorder holds the
/// regions and ranges afterwards. A refusal is as the Rust tells it: the end of a
/// 9 or 10 is wrapped to 32 bits.
///
/// # Panics
///
/// If the Rust panics, or the copy asks for an aspect above 5, which no parsed
/// sheet does.
pub fn record_copy(
    recorder: &mut Recorder,
    objects: &mut Objects,
    copy: &Copy,
) -> Result<(), Refusal> {
    recorder.clear();
    match copy {
        Copy::BufferToBuffer {
            source,
            source_offset,
            destination,
            destination_offset,
            size,
        } => {
            objects.check_buffer_index(*source)?;
            objects.check_buffer_index(*destination)?;
            find_buffer(&mut objects.buffers, *source, Side::Source)?;
            find_buffer(&mut objects.buffers, *destination, Side::Destination)?;
            recorder.copy_buffer_to_buffer(
                &objects.device,
                buffer_at(&objects.buffers, *source),
                *source_offset,
                buffer_at(&objects.buffers, *destination),
                *destination_offset,
                *size,
            )
        }
        Copy::BufferToTexture {
            source,
            destination,
            size,
        } => {
            objects.check_buffer_index(source.buffer)?;
            objects.check_texture_index(destination)?;
            let buffer = find_buffer(&mut objects.buffers, source.buffer, Side::Source)?;
            let texture = find_texture(
                &mut objects.textures,
                destination.texture,
                Side::Destination,
            )?;
            set_layout(buffer, source);
            set_view(&mut texture.as_destination, destination);
            recorder.copy_buffer_to_texture(
                &objects.device,
                buffer,
                &texture.as_destination,
                &core_extent(size),
            )
        }
        Copy::TextureToBuffer {
            source,
            destination,
            size,
        } => {
            objects.check_texture_index(source)?;
            objects.check_buffer_index(destination.buffer)?;
            let texture = find_texture(&mut objects.textures, source.texture, Side::Source)?;
            let buffer = find_buffer(&mut objects.buffers, destination.buffer, Side::Destination)?;
            set_view(&mut texture.as_source, source);
            set_layout(buffer, destination);
            recorder.copy_texture_to_buffer(
                &objects.device,
                &texture.as_source,
                buffer,
                &core_extent(size),
            )
        }
        Copy::TextureToTexture {
            source,
            destination,
            size,
        } => {
            objects.check_texture_index(source)?;
            objects.check_texture_index(destination)?;
            let texture = find_texture(&mut objects.textures, source.texture, Side::Source)?;
            set_view(&mut texture.as_source, source);
            let texture = find_texture(
                &mut objects.textures,
                destination.texture,
                Side::Destination,
            )?;
            set_view(&mut texture.as_destination, destination);
            recorder.copy_texture_to_texture(
                &objects.device,
                &texture_at(&objects.textures, source.texture).as_source,
                &texture_at(&objects.textures, destination.texture).as_destination,
                &core_extent(size),
            )
        }
        Copy::MemoryToTexture {
            source,
            destination,
            size,
        } => {
            objects.check_texture_index(destination)?;
            let texture = find_texture(
                &mut objects.textures,
                destination.texture,
                Side::Destination,
            )?;
            set_view(&mut texture.as_destination, destination);
            recorder.copy_memory_to_texture(
                &objects.device,
                &memory_info(source),
                &texture.as_destination,
                &core_extent(size),
            )
        }
    }
    .map_err(Refusal::from_error)
}

/// A buffer known to have an object.
fn buffer_at(buffers: &[Option<CoreBufferInfo>], index: u32) -> &Arc<core::Buffer> {
    let info = buffers[index as usize].as_ref();
    &info.expect("the record is within bounds").buffer
}

/// A texture known to have an object.
fn texture_at(textures: &[Option<TextureObject>], index: u32) -> &TextureObject {
    let object = textures[index as usize].as_ref();
    object.expect("the record is within bounds")
}

/// The bytes for which the copy just accepted was checked.
fn bytes_checked(recorder: &Recorder, objects: &Objects, copy: &Copy) -> u64 {
    let linear_data = |data: core::MemoryInfo, side, texture, size| {
        core::bytes_in_linear_texture_data(&data, side, texture, &core_extent(size))
            .expect("the copy was accepted")
    };
    let texture = |view: &TextureView| texture_at(&objects.textures, view.texture);
    match copy {
        Copy::BufferToBuffer { .. } => match recorder.encoder().buffer_copies.as_slice() {
            [region] => region.size.get(),
            _ => 0,
        },
        Copy::BufferToTexture {
            source,
            destination,
            size,
        } => {
            let data = data_in_buffer(objects, source);
            let view = &texture(destination).as_destination;
            linear_data(data, CopySide::Source, view, size)
        }
        Copy::TextureToBuffer {
            source,
            destination,
            size,
        } => {
            let data = data_in_buffer(objects, destination);
            let view = &texture(source).as_source;
            linear_data(data, CopySide::Destination, view, size)
        }
        Copy::TextureToTexture { .. } => 0,
        Copy::MemoryToTexture {
            source,
            destination,
            size,
        } => {
            let view = &texture(destination).as_destination;
            linear_data(memory_info(source), CopySide::Source, view, size)
        }
    }
}

/// A buffer's data, measured as a block of memory is.
fn data_in_buffer(objects: &Objects, view: &BufferView) -> core::MemoryInfo {
    memory_info(&MemoryView {
        length: buffer_at(&objects.buffers, view.buffer).size(),
        offset: view.offset,
        bytes_per_row: view.bytes_per_row,
        rows_per_image: view.rows_per_image,
    })
}

/// A panic's message on one line.
fn panic_message(payload: &(dyn Any + Send)) -> String {
    let message = if let Some(message) = payload.downcast_ref::<&str>() {
        message
    } else if let Some(message) = payload.downcast_ref::<String>() {
        message
    } else {
        "without a message"
    };
    message.split_whitespace().collect::<Vec<_>>().join(" ")
}

thread_local! {
    static RUNNING_COPY: Cell<bool> = const { Cell::new(false) };
}

/// Keeps panics that [`run_copy`] reports from writing to standard error; other
/// panics are told as before.
pub fn silence_copy_panics() {
    let others = panic::take_hook();
    panic::set_hook(Box::new(move |info| {
        if !RUNNING_COPY.get() {
            others(info);
        }
    }));
}
