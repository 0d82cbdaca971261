//! Plans copies between buffers and textures, and from memory into textures: whether a copy is allowed, which memory must be
//! initialised before it, and which regions the driver is handed.
//!
//! The rules are those of wgpu-core 30.0.1, within the bounds that [`Buffer`] and [`Texture`] give for their fields, but for the
//! end that some refusals tell ([`TransferError`]) and for the order of [`write_texture`]. The planner itself is a static library,
//! each function of which is proved to return what its definition says; this crate links it and gives it wgpu's types. No call can
//! break it, whatever its arguments; none allocates but [`list_sheet`]. The fastest way to plan is in a [`PlanRoom`].
//!
//! A [`Book`] keeps what has been written of a texture, from the ranges of its plans: it says which levels and layers must be cleared
//! before a copy, and which no range has held.
//!
//! ```
//! use copy_planner::*;
//!
//! let device = Device::default();
//! let buffer = Buffer { id: 0, size: 4096, usage: BufferUsages::COPY_SRC };
//! let texture = Texture {
//!     id: 0,
//!     format: TextureFormat::Rgba8Unorm,
//!     dimension: TextureDimension::D2,
//!     size: Extent3d { width: 8, height: 8, depth_or_array_layers: 2 },
//!     mip_level_count: 1,
//!     sample_count: 1,
//!     usage: TextureUsages::COPY_DST,
//! };
//! let src = TexelCopyBufferInfo {
//!     buffer: &buffer,
//!     layout: TexelCopyBufferLayout {
//!         offset: 0,
//!         bytes_per_row: Some(256),
//!         rows_per_image: Some(8),
//!     },
//! };
//! let dst = TexelCopyTextureInfo {
//!     texture: &texture,
//!     mip_level: 0,
//!     origin: Origin3d::ZERO,
//!     aspect: TextureAspect::All,
//! };
//!
//! // Two layers are two regions, one image stride apart.
//! let plan = copy_buffer_to_texture(device, src, dst, texture.size)?;
//! let offsets: Vec<u64> = plan.regions().map(|region| region.buffer_layout.offset).collect();
//! assert_eq!(offsets, [0, 2048]);
//! assert_eq!(plan.bytes_checked(), 3872);
//!
//! // The texture is filled by the copy; the buffer must hold something before it.
//! let kinds: Vec<InitRange> = plan.ranges().collect();
//! assert_eq!(kinds[0], InitRange::Texture {
//!     id: 0,
//!     mip_level: 0,
//!     layers: 0..2,
//!     kind: MemoryInitKind::ImplicitlyInitialized,
//! });
//!
//! // A third layer is refused.
//! let three = Extent3d { depth_or_array_layers: 3, ..texture.size };
//! let refused = copy_buffer_to_texture(device, src, dst, three).unwrap_err();
//! assert!(matches!(refused, TransferError::TextureOverrun { end_offset: 3, texture_size: 2, .. }));
//!
//! // From memory, without a buffer, rows may follow each other without gaps.
//! let layout = TexelCopyBufferLayout { bytes_per_row: Some(32), ..src.layout };
//! let plan = write_texture(device, dst, 512, layout, texture.size)?;
//! assert_eq!(plan.ranges().count(), 1);
//! # Ok::<(), TransferError>(())
//! ```

#![deny(unsafe_op_in_unsafe_fn)]
#![warn(missing_docs)]

mod book;
mod copies;
mod error;
mod ffi;
mod flags;
mod plan;
mod regions;
mod resources;
mod sheet;

pub use book::{Book, BookError, Place, PlaceRoom, Places};
pub use copies::{
    copy_buffer_to_buffer, copy_buffer_to_texture, copy_texture_to_buffer, copy_texture_to_texture,
    write_texture,
};
pub use error::{CopySide, DownlevelFlags, TextureErrorDimension, TransferError};
pub use flags::{BufferUsages, FormatAspects, TextureUsages};
pub use plan::{InitRange, MemoryInitKind, Plan, PlanRoom, Ranges, Regions};
pub use regions::{
    BufferCopy, BufferTextureCopy, CopyExtent, Region, TextureCopy, TextureCopyBase,
};
pub use resources::{
    Buffer, Device, Extent3d, Origin3d, TexelCopyBufferInfo, TexelCopyBufferLayout,
    TexelCopyTextureInfo, Texture, TextureAspect, TextureDimension, TextureFormat,
};
pub use sheet::{list_sheet, list_sheet_into};
