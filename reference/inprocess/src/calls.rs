//! Records and copies in the types of the planner's crate.

use copy_planner::{
    copy_buffer_to_buffer, copy_buffer_to_texture, copy_texture_to_buffer, copy_texture_to_texture,
    write_texture, Buffer, BufferCopy, BufferTextureCopy, BufferUsages, CopyExtent, Device,
    Extent3d, Origin3d, Plan, PlanRoom, Region, TexelCopyBufferInfo, TexelCopyBufferLayout,
    TexelCopyTextureInfo, Texture, TextureAspect, TextureCopy, TextureCopyBase, TextureDimension,
    TextureFormat, TextureUsages, TransferError,
};
use copy_sheet::{self as sheet, BufferView, Copy, Sheet, TextureView, ABSENT};

/// The records of a sheet.
#[derive(Debug)]
pub struct Records {
    device: Device,
    /// Nothing for a format or a dimension that the crate has no name for.
    textures: Vec<Option<Texture>>,
    buffers: Vec<Buffer>,
}

impl Records {
    pub fn new(sheet: &Sheet) -> Self {
        let device = &sheet.device;
        Self {
            device: Device {
                depth_texture_and_buffer_copies: device.depth_texture_and_buffer_copies,
                unrestricted_index_buffer: device.unrestricted_index_buffer,
            },
            textures: (0..)
                .zip(&sheet.textures)
                .map(|(id, texture)| texture_of(id, texture))
                .collect(),
            buffers: (0..)
                .zip(&sheet.buffers)
                .map(|(id, buffer)| buffer_of(id, buffer))
                .collect(),
        }
    }

    /// A copy between these records. Nothing where it has an index past its
    /// section, or something that the crate has no name for.
    pub fn call(&self, copy: &Copy) -> Option<Call<'_>> {
        match copy {
            Copy::BufferToBuffer { .. } => self.between_buffers(copy),
            Copy::BufferToTexture {
                source,
                destination,
                size,
            } => Some(Call::BufferToTexture {
                device: self.device,
                src: self.buffer_info(source)?,
                dst: self.texture_info(destination)?,
                size: extent_of(size),
            }),
            Copy::TextureToBuffer {
                source,
                destination,
                size,
            } => Some(Call::TextureToBuffer {
                device: self.device,
                src: self.texture_info(source)?,
                dst: self.buffer_info(destination)?,
                size: extent_of(size),
            }),
            Copy::TextureToTexture {
                source,
                destination,
                size,
            } => Some(Call::TextureToTexture {
                src: self.texture_info(source)?,
                dst: self.texture_info(destination)?,
                size: extent_of(size),
            }),
            Copy::MemoryToTexture { .. } => self.write_from_memory(copy),
        }
    }

    fn between_buffers(&self, copy: &Copy) -> Option<Call<'_>> {
        let Copy::BufferToBuffer {
            source,
            source_offset,
            destination,
            destination_offset,
            size,
        } = *copy
        else {
            return None;
        };
        Some(Call::BufferToBuffer {
            device: self.device,
            src: self.buffer(source)?,
            src_offset: source_offset,
            dst: self.buffer(destination)?,
            dst_offset: destination_offset,
            size,
        })
    }

    fn write_from_memory(&self, copy: &Copy) -> Option<Call<'_>> {
        let Copy::MemoryToTexture {
            source,
            destination,
            size,
        } = copy
        else {
            return None;
        };
        Some(Call::MemoryToTexture {
            device: self.device,
            dst: self.texture_info(destination)?,
            length: source.length,
            layout: TexelCopyBufferLayout {
                offset: source.offset,
                bytes_per_row: source.bytes_per_row,
                rows_per_image: source.rows_per_image,
            },
            size: extent_of(size),
        })
    }

    fn buffer(&self, index: u32) -> Option<&Buffer> {
        self.buffers.get(index as usize)
    }

    fn buffer_info(&self, view: &BufferView) -> Option<TexelCopyBufferInfo<'_>> {
        Some(TexelCopyBufferInfo {
            buffer: self.buffer(view.buffer)?,
            layout: TexelCopyBufferLayout {
                offset: view.offset,
                bytes_per_row: view.bytes_per_row,
                rows_per_image: view.rows_per_image,
            },
        })
    }

    fn texture_info(&self, view: &TextureView) -> Option<TexelCopyTextureInfo<'_>> {
        Some(TexelCopyTextureInfo {
            texture: self.textures.get(view.texture as usize)?.as_ref()?,
            mip_level: view.level,
            origin: Origin3d {
                x: view.x,
                y: view.y,
                z: view.z,
            },
            aspect: aspect_of(view.aspect)?,
        })
    }
}

fn buffer_of(id: u32, buffer: &sheet::Buffer) -> Buffer {
    Buffer {
        id,
        size: buffer.size,
        usage: BufferUsages::from_bits_retain(buffer.usage),
    }
}

fn texture_of(id: u32, texture: &sheet::Texture) -> Option<Texture> {
    Some(Texture {
        id,
        format: *TextureFormat::ALL.get(texture.format as usize)?,
        dimension: match texture.dimension {
            1 => TextureDimension::D1,
            2 => TextureDimension::D2,
            3 => TextureDimension::D3,
            _ => return None,
        },
        size: Extent3d {
            width: texture.width,
            height: texture.height,
            depth_or_array_layers: texture.depth,
        },
        mip_level_count: texture.levels,
        sample_count: texture.samples,
        usage: TextureUsages::from_bits_retain(texture.usage),
    })
}

fn aspect_of(aspect: u32) -> Option<TextureAspect> {
    Some(match aspect {
        0 => TextureAspect::All,
        1 => TextureAspect::StencilOnly,
        2 => TextureAspect::DepthOnly,
        3 => TextureAspect::Plane0,
        4 => TextureAspect::Plane1,
        5 => TextureAspect::Plane2,
        _ => return None,
    })
}

fn extent_of(size: &sheet::Extent) -> Extent3d {
    Extent3d {
        width: size.width,
        height: size.height,
        depth_or_array_layers: size.depth,
    }
}

/// A copy with the arguments of the planner's function.
#[derive(Clone, Copy, Debug)]
pub enum Call<'a> {
    BufferToBuffer {
        device: Device,
        src: &'a Buffer,
        src_offset: u64,
        dst: &'a Buffer,
        dst_offset: u64,
        size: Option<u64>,
    },
    BufferToTexture {
        device: Device,
        src: TexelCopyBufferInfo<'a>,
        dst: TexelCopyTextureInfo<'a>,
        size: Extent3d,
    },
    TextureToBuffer {
        device: Device,
        src: TexelCopyTextureInfo<'a>,
        dst: TexelCopyBufferInfo<'a>,
        size: Extent3d,
    },
    TextureToTexture {
        src: TexelCopyTextureInfo<'a>,
        dst: TexelCopyTextureInfo<'a>,
        size: Extent3d,
    },
    MemoryToTexture {
        device: Device,
        dst: TexelCopyTextureInfo<'a>,
        length: u64,
        layout: TexelCopyBufferLayout,
        size: Extent3d,
    },
}

/// What is done with the plan of a copy of any kind.
pub trait Visitor {
    type Output;

    fn visit<R: Numbered>(self, planned: Result<&mut Plan<R>, TransferError>) -> Self::Output;
}

/// Room for a plan of each kind.
#[derive(Debug, Default)]
pub struct Rooms {
    buffers: PlanRoom<BufferCopy>,
    buffer_and_texture: PlanRoom<BufferTextureCopy>,
    textures: PlanRoom<TextureCopy>,
}

impl Call<'_> {
    /// Plans the copy by the function that returns its plan.
    #[inline]
    pub fn plan<V: Visitor>(&self, visitor: V) -> V::Output {
        match *self {
            Self::BufferToBuffer {
                device,
                src,
                src_offset,
                dst,
                dst_offset,
                size,
            } => visitor.visit(lent(&mut copy_buffer_to_buffer(
                device, src, src_offset, dst, dst_offset, size,
            ))),
            Self::BufferToTexture {
                device,
                src,
                dst,
                size,
            } => visitor.visit(lent(&mut copy_buffer_to_texture(device, src, dst, size))),
            Self::TextureToBuffer {
                device,
                src,
                dst,
                size,
            } => visitor.visit(lent(&mut copy_texture_to_buffer(device, src, dst, size))),
            Self::TextureToTexture { src, dst, size } => {
                visitor.visit(lent(&mut copy_texture_to_texture(src, dst, size)))
            }
            Self::MemoryToTexture {
                device,
                dst,
                length,
                layout,
                size,
            } => visitor.visit(lent(&mut write_texture(device, dst, length, layout, size))),
        }
    }

    /// Plans the copy in room that is used again.
    #[inline]
    pub fn plan_in<V: Visitor>(&self, rooms: &mut Rooms, visitor: V) -> V::Output {
        let room = &mut rooms.buffer_and_texture;
        match *self {
            Self::BufferToBuffer {
                device,
                src,
                src_offset,
                dst,
                dst_offset,
                size,
            } => visitor.visit(
                rooms
                    .buffers
                    .copy_buffer_to_buffer(device, src, src_offset, dst, dst_offset, size),
            ),
            Self::BufferToTexture {
                device,
                src,
                dst,
                size,
            } => visitor.visit(room.copy_buffer_to_texture(device, src, dst, size)),
            Self::TextureToBuffer {
                device,
                src,
                dst,
                size,
            } => visitor.visit(room.copy_texture_to_buffer(device, src, dst, size)),
            Self::TextureToTexture { src, dst, size } => {
                visitor.visit(rooms.textures.copy_texture_to_texture(src, dst, size))
            }
            Self::MemoryToTexture {
                device,
                dst,
                length,
                layout,
                size,
            } => visitor.visit(room.write_texture(device, dst, length, layout, size)),
        }
    }
}

#[inline]
fn lent<R: Region>(
    planned: &mut Result<Plan<R>, TransferError>,
) -> Result<&mut Plan<R>, TransferError> {
    planned.as_mut().map_err(|error| *error)
}

/// A region as the numbers that the region writer has for it.
pub trait Numbered: Region + PartialEq {
    fn numbers(&self) -> impl AsRef<[u64]>;
}

impl Numbered for BufferCopy {
    #[inline]
    fn numbers(&self) -> impl AsRef<[u64]> {
        [self.src_offset, self.dst_offset, self.size]
    }
}

impl Numbered for BufferTextureCopy {
    #[inline]
    fn numbers(&self) -> impl AsRef<[u64]> {
        let layout = &self.buffer_layout;
        let [level, layer, x, y, z, aspects] = base_numbers(&self.texture_base);
        let [width, height, depth] = extent_numbers(&self.size);
        [
            layout.offset,
            layout.bytes_per_row.map_or(ABSENT, u64::from),
            layout.rows_per_image.map_or(ABSENT, u64::from),
            level,
            layer,
            x,
            y,
            z,
            aspects,
            width,
            height,
            depth,
        ]
    }
}

impl Numbered for TextureCopy {
    #[inline]
    fn numbers(&self) -> impl AsRef<[u64]> {
        let mut numbers = [0; 15];
        numbers[..6].copy_from_slice(&base_numbers(&self.src_base));
        numbers[6..12].copy_from_slice(&base_numbers(&self.dst_base));
        numbers[12..].copy_from_slice(&extent_numbers(&self.size));
        numbers
    }
}

#[inline]
fn base_numbers(base: &TextureCopyBase) -> [u64; 6] {
    let Origin3d { x, y, z } = base.origin;
    let aspects = base.aspect.bits();
    [base.mip_level, base.array_layer, x, y, z, aspects].map(u64::from)
}

#[inline]
fn extent_numbers(size: &CopyExtent) -> [u64; 3] {
    [size.width, size.height, size.depth].map(u64::from)
}
