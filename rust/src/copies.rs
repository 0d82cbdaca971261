//! The five copies.

use crate::error::TransferError;
use crate::ffi;
use crate::plan::{Plan, PlanRoom, Resource};
use crate::regions::{BufferCopy, BufferTextureCopy, Region, TextureCopy};
use crate::resources::{
    Buffer, Device, Extent3d, TexelCopyBufferInfo, TexelCopyBufferLayout, TexelCopyTextureInfo,
};

/// Plans a copy between two buffers. A size left out is what the source has from its offset on.
///
/// # Errors
///
/// The first rule that the copy breaks.
#[inline]
pub fn copy_buffer_to_buffer(
    device: Device,
    src: &Buffer,
    src_offset: u64,
    dst: &Buffer,
    dst_offset: u64,
    size: Option<u64>,
) -> Result<Plan<BufferCopy>, TransferError> {
    planned(|room| room.copy_buffer_to_buffer(device, src, src_offset, dst, dst_offset, size))
}

/// Plans a copy from a buffer into a texture.
///
/// # Errors
///
/// The first rule that the copy breaks.
#[inline]
pub fn copy_buffer_to_texture(
    device: Device,
    src: TexelCopyBufferInfo<'_>,
    dst: TexelCopyTextureInfo<'_>,
    size: Extent3d,
) -> Result<Plan<BufferTextureCopy>, TransferError> {
    planned(|room| room.copy_buffer_to_texture(device, src, dst, size))
}

/// Plans a copy from a texture into a buffer.
///
/// # Errors
///
/// The first rule that the copy breaks.
#[inline]
pub fn copy_texture_to_buffer(
    device: Device,
    src: TexelCopyTextureInfo<'_>,
    dst: TexelCopyBufferInfo<'_>,
    size: Extent3d,
) -> Result<Plan<BufferTextureCopy>, TransferError> {
    planned(|room| room.copy_texture_to_buffer(device, src, dst, size))
}

/// Plans a write straight from a block of memory into a texture, without a buffer. The planner reads none of the block's bytes:
/// `data_len` says how many there are, and has no bound.
///
/// The copy is checked as [`copy_buffer_to_texture`] is, with the block as its source, but neither the layout's offset nor its
/// bytes per row need be aligned. Beside true ends ([`TransferError`]) two things are not wgpu-core's: the texture's usage is
/// checked after its range and its aspect, not before; and regions lie in the block itself, not in a staging buffer filled from it.
///
/// # Errors
///
/// The first rule that the copy breaks.
#[inline]
pub fn write_texture(
    device: Device,
    destination: TexelCopyTextureInfo<'_>,
    data_len: u64,
    data_layout: TexelCopyBufferLayout,
    size: Extent3d,
) -> Result<Plan<BufferTextureCopy>, TransferError> {
    planned(|room| room.write_texture(device, destination, data_len, data_layout, size))
}

/// Plans a copy between two textures, or within one: textures are one where their ids are.
///
/// # Errors
///
/// The first rule that the copy breaks.
#[inline]
pub fn copy_texture_to_texture(
    src: TexelCopyTextureInfo<'_>,
    dst: TexelCopyTextureInfo<'_>,
    size: Extent3d,
) -> Result<Plan<TextureCopy>, TransferError> {
    planned(|room| room.copy_texture_to_texture(src, dst, size))
}

/// The plan that `copy` writes, moved out of its room.
#[inline]
fn planned<R: Region>(
    copy: impl FnOnce(&mut PlanRoom<R>) -> Result<&mut Plan<R>, TransferError>,
) -> Result<Plan<R>, TransferError> {
    copy(&mut PlanRoom::new()).cloned()
}

impl PlanRoom<BufferCopy> {
    /// [`copy_buffer_to_buffer`], with the plan written here.
    ///
    /// # Errors
    ///
    /// The first rule that the copy breaks.
    #[inline]
    pub fn copy_buffer_to_buffer(
        &mut self,
        device: Device,
        src: &Buffer,
        src_offset: u64,
        dst: &Buffer,
        dst_offset: u64,
        size: Option<u64>,
    ) -> Result<&mut Plan<BufferCopy>, TransferError> {
        // SAFETY: the call writes every word of `plan` and `ranges`.
        unsafe {
            self.plan(
                [dst.into(), src.into()],
                |plan, ranges| {
                    ffi::copy_planner_buffer_to_buffer(
                        device.unrestricted_index_buffer,
                        src.id == dst.id,
                        src.size,
                        src.usage,
                        src_offset,
                        dst.size,
                        dst.usage,
                        dst_offset,
                        size.is_some(),
                        size.unwrap_or(0),
                        plan,
                        ranges,
                    )
                },
                |number, details| TransferError::of(number, details, None),
            )
        }
    }
}

impl PlanRoom<BufferTextureCopy> {
    /// [`copy_buffer_to_texture`], with the plan written here.
    ///
    /// # Errors
    ///
    /// The first rule that the copy breaks.
    #[inline]
    pub fn copy_buffer_to_texture(
        &mut self,
        device: Device,
        src: TexelCopyBufferInfo<'_>,
        dst: TexelCopyTextureInfo<'_>,
        size: Extent3d,
    ) -> Result<&mut Plan<BufferTextureCopy>, TransferError> {
        self.copy_buffer_and_texture(ffi::copy_planner_buffer_to_texture, device, src, dst, size)
    }

    /// [`copy_texture_to_buffer`], with the plan written here.
    ///
    /// # Errors
    ///
    /// The first rule that the copy breaks.
    #[inline]
    pub fn copy_texture_to_buffer(
        &mut self,
        device: Device,
        src: TexelCopyTextureInfo<'_>,
        dst: TexelCopyBufferInfo<'_>,
        size: Extent3d,
    ) -> Result<&mut Plan<BufferTextureCopy>, TransferError> {
        self.copy_buffer_and_texture(ffi::copy_planner_texture_to_buffer, device, dst, src, size)
    }

    /// [`write_texture`], with the plan written here.
    ///
    /// # Errors
    ///
    /// The first rule that the copy breaks.
    #[inline]
    pub fn write_texture(
        &mut self,
        device: Device,
        destination: TexelCopyTextureInfo<'_>,
        data_len: u64,
        data_layout: TexelCopyBufferLayout,
        size: Extent3d,
    ) -> Result<&mut Plan<BufferTextureCopy>, TransferError> {
        // SAFETY: the call writes every word of `plan` and `ranges`.
        unsafe {
            self.plan(
                [Resource::from(&destination), Resource::Memory],
                |plan, ranges| {
                    ffi::copy_planner_memory_to_texture(
                        device.depth_texture_and_buffer_copies,
                        data_len,
                        data_layout.offset,
                        data_layout.bytes_per_row.is_some(),
                        data_layout.bytes_per_row.unwrap_or(0),
                        data_layout.rows_per_image.is_some(),
                        data_layout.rows_per_image.unwrap_or(0),
                        destination.texture,
                        destination.view(),
                        &size,
                        plan,
                        ranges,
                    )
                },
                |number, details| {
                    TransferError::of(number, details, Some((&destination, &destination)))
                },
            )
        }
    }

    /// The copy that `function` plans, one of two that differ in nothing else.
    #[inline]
    fn copy_buffer_and_texture(
        &mut self,
        function: ffi::BufferAndTexture,
        device: Device,
        bytes: TexelCopyBufferInfo<'_>,
        texels: TexelCopyTextureInfo<'_>,
        size: Extent3d,
    ) -> Result<&mut Plan<BufferTextureCopy>, TransferError> {
        let TexelCopyBufferInfo { buffer, layout } = bytes;
        // SAFETY: the call writes every word of `plan` and `ranges`.
        unsafe {
            self.plan(
                [Resource::from(&texels), buffer.into()],
                |plan, ranges| {
                    function(
                        device.depth_texture_and_buffer_copies,
                        buffer.size,
                        buffer.usage,
                        layout.offset,
                        layout.bytes_per_row.is_some(),
                        layout.bytes_per_row.unwrap_or(0),
                        layout.rows_per_image.is_some(),
                        layout.rows_per_image.unwrap_or(0),
                        texels.texture,
                        texels.view(),
                        &size,
                        plan,
                        ranges,
                    )
                },
                |number, details| TransferError::of(number, details, Some((&texels, &texels))),
            )
        }
    }
}

impl PlanRoom<TextureCopy> {
    /// [`copy_texture_to_texture`], with the plan written here.
    ///
    /// # Errors
    ///
    /// The first rule that the copy breaks.
    #[inline]
    pub fn copy_texture_to_texture(
        &mut self,
        src: TexelCopyTextureInfo<'_>,
        dst: TexelCopyTextureInfo<'_>,
        size: Extent3d,
    ) -> Result<&mut Plan<TextureCopy>, TransferError> {
        // SAFETY: the call writes every word of `plan` and `ranges`.
        unsafe {
            self.plan(
                [Resource::from(&src), Resource::from(&dst)],
                |plan, ranges| {
                    ffi::copy_planner_texture_to_texture(
                        src.texture.id == dst.texture.id,
                        src.texture,
                        src.view(),
                        dst.texture,
                        dst.view(),
                        &size,
                        plan,
                        ranges,
                    )
                },
                |number, details| TransferError::of(number, details, Some((&src, &dst))),
            )
        }
    }
}
