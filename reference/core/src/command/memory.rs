//! A write from memory, checked as a copy from a buffer is, but for alignment.
//!
//! The rules are the Rust's own. Their order is that of its copy from a buffer to
//! a texture, which is the customer's; `Queue::write_texture` asks for the usage
//! first.

use alloc::sync::Arc;
use alloc::vec::Vec;

use crate::command::encoder::EncodingState;
use crate::command::transfer::{
    extract_texture_selector, validate_linear_texture_data, validate_texture_buffer_copy,
    validate_texture_copy_dst_format, validate_texture_copy_range, CopySide, TransferError,
};
use crate::command::CommandEncoderError;
use crate::device::Device;
use crate::init_tracker::{
    has_copy_partial_init_tracker_coverage, MemoryInitKind, TextureInitRange,
    TextureInitTrackerAction,
};
use crate::resource::Texture;

type TextureInfo = wgt::TexelCopyTextureInfo<Arc<Texture>>;

/// A block of memory with the data of a write.
#[derive(Clone, Copy, Debug)]
pub struct MemoryInfo {
    /// The block's bytes; any number, for none of them is there.
    pub length: wgt::BufferAddress,
    pub layout: wgt::TexelCopyBufferLayout,
}

pub(crate) fn copy_memory_to_texture(
    state: &mut EncodingState,
    source: &MemoryInfo,
    destination: &TextureInfo,
    copy_size: &wgt::Extent3d,
) -> Result<(), CommandEncoderError> {
    let (first, layers, image_stride) = validate(state.device, source, destination, copy_size)?;
    if copy_size.width == 0 || copy_size.height == 0 || copy_size.depth_or_array_layers == 0 {
        return Ok(());
    }
    register_range(state, destination, copy_size);
    let regions: Vec<_> = (0..layers)
        .map(|layer| moved(&first, layer, image_stride))
        .collect();
    let raw = destination.texture.try_inner(state.snatch_guard)?.raw();
    state
        .raw_encoder
        .copy_buffer_to_texture(&hal::RawBuffer, raw, &regions);
    Ok(())
}

/// The region of the first layer, the count of layers, and the bytes from one
/// image to the next.
fn validate(
    device: &Device,
    source: &MemoryInfo,
    destination: &TextureInfo,
    copy_size: &wgt::Extent3d,
) -> Result<(hal::BufferTextureCopy, u32, wgt::BufferAddress), TransferError> {
    let (texture, layout) = (&destination.texture, &source.layout);
    let (size, layers) =
        validate_texture_copy_range(destination, &texture.desc, CopySide::Destination, copy_size)?;
    let (_, texture_base) = extract_texture_selector(destination, copy_size, texture)?;
    texture.check_usage(wgt::TextureUsages::COPY_DST)?;
    let format = texture.desc.format;
    validate_texture_copy_dst_format(format, destination.aspect)?;
    let aligned = false;
    validate_texture_buffer_copy(
        destination,
        texture_base.aspect,
        &texture.desc,
        layout,
        aligned,
    )?;
    let (aspect, side) = (destination.aspect, CopySide::Source);
    let (_, image_stride, _) =
        validate_linear_texture_data(layout, format, aspect, source.length, side, copy_size)?;
    if format.is_depth_stencil_format() {
        device.require_downlevel_flags(wgt::DownlevelFlags::DEPTH_TEXTURE_AND_BUFFER_COPIES)?;
    }
    let region = hal::BufferTextureCopy {
        buffer_layout: *layout,
        texture_base,
        size,
    };
    Ok((region, layers, image_stride))
}

fn register_range(state: &mut EncodingState, destination: &TextureInfo, copy_size: &wgt::Extent3d) {
    let texture = &destination.texture;
    let first = destination.origin.z;
    let layer_range = match texture.desc.dimension {
        wgt::TextureDimension::D3 => 0..1,
        _ => first..first + copy_size.depth_or_array_layers,
    };
    let is_partial = has_copy_partial_init_tracker_coverage(copy_size, destination, &texture.desc);
    let due_at_once =
        state
            .texture_memory_actions
            .register_init_action(&TextureInitTrackerAction {
                texture: texture.clone(),
                range: TextureInitRange {
                    mip_range: destination.mip_level..destination.mip_level + 1,
                    layer_range,
                },
                kind: match is_partial {
                    true => MemoryInitKind::NeedsInitializedMemory,
                    false => MemoryInitKind::ImplicitlyInitialized,
                },
            });
    assert!(due_at_once.is_empty(), "nothing is due at once");
}

/// A region so many layers on. Its offset is within the block, so that no sum
/// wraps.
fn moved(
    first: &hal::BufferTextureCopy,
    layer: u32,
    image_stride: wgt::BufferAddress,
) -> hal::BufferTextureCopy {
    let mut region = *first;
    region.buffer_layout.offset += u64::from(layer) * image_stride;
    region.texture_base.array_layer += layer;
    region
}

/// Whether the Rust's rules on the range or on the aspects refuse a destination.
/// Where its texture lacks the usage too, the two orders of checks part.
pub fn range_or_aspects_are_refused(destination: &TextureInfo, copy_size: &wgt::Extent3d) -> bool {
    let texture = &destination.texture;
    let range =
        validate_texture_copy_range(destination, &texture.desc, CopySide::Destination, copy_size);
    range.is_err() || extract_texture_selector(destination, copy_size, texture).is_err()
}
