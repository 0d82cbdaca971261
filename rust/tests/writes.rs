//! Writes straight from memory: their refusals in the order of the checks, and what is not asked of them.

mod common;

use common::*;
use copy_planner::*;
use CopySide::Destination;
use TextureAspect::{All, DepthOnly, Plane0, Plane1, Plane2, StencilOnly};
use TextureDimension::D2;
use TextureFormat::*;

/// A write, all of which can be wrong.
struct Write {
    device: Device,
    texture: Texture,
    mip_level: u32,
    origin: Origin3d,
    aspect: TextureAspect,
    length: u64,
    layout: TexelCopyBufferLayout,
    size: Extent3d,
}

impl Write {
    /// The first layer of a texture, from memory that has no bytes.
    fn into(texture: Texture) -> Self {
        Self {
            device: Device::default(),
            texture,
            mip_level: 0,
            origin: Origin3d::ZERO,
            aspect: All,
            length: 0,
            layout: TexelCopyBufferLayout::default(),
            size: Extent3d {
                depth_or_array_layers: 1,
                ..texture.size
            },
        }
    }

    fn plan(&self) -> Result<Plan<BufferTextureCopy>, TransferError> {
        let destination = TexelCopyTextureInfo {
            texture: &self.texture,
            mip_level: self.mip_level,
            origin: self.origin,
            aspect: self.aspect,
        };
        write_texture(
            self.device,
            destination,
            self.length,
            self.layout,
            self.size,
        )
    }

    #[track_caller]
    fn expect(&self, answer: &str) {
        assert_eq!(listed(&self.plan()), format!("{answer}\n"));
    }
}

/// Everything about the texture's side is wrong, and is mended rule by rule; its usage comes last.
#[test]
fn places_before_usage() {
    let mut write = Write::into(texture(0, Bc1RgbaUnorm, D2, [8, 8, 2]));
    write.texture.usage = TextureUsages::from_bits_retain(32);
    write.aspect = StencilOnly;
    write.mip_level = 1;
    (write.origin, write.size) = (Origin3d { x: 9, y: 9, z: 3 }, extent([1, 1, 1]));
    write.expect("refused 2 2 0 0 0 0");
    write.texture.usage = TextureUsages::COPY_SRC;
    write.expect("refused 13 0 0 1 0 1");
    write.mip_level = 0;
    write.expect("refused 9 2 1 9 10 8");
    write.origin.x = 1;
    write.expect("refused 9 2 2 9 10 8");
    write.origin.y = 1;
    write.expect("refused 9 2 3 3 4 2");
    write.origin.z = 1;
    write.expect("refused 18 0 0 0 0 0");
    write.origin.x = 4;
    write.expect("refused 19 0 0 0 0 0");
    write.origin.y = 4;
    write.expect("refused 16 0 0 0 0 0");
    write.size.width = 4;
    write.expect("refused 17 0 0 0 0 0");
    write.size.height = 4;
    write.expect("refused 12 0 0 0 0 0");
    write.aspect = All;
    write.expect("refused 6 2 0 0 0 0");
    write.texture.usage = TextureUsages::COPY_DST;
    write.expect("refused 8 1 0 0 8 0");
    write.length = 8;
    write.expect("ok 1 1 8\nt 0 0 1 2 1\nr 0 - - 0 1 4 4 0 1 4 4 1");
}

/// Start plus size, which 32 bits do not hold.
#[test]
fn ends_past_32_bits() {
    let mut write = Write::into(texture(0, R8Unorm, D2, [8, 4, 2]));
    let [x, y, z] = [u32::MAX; 3];
    write.origin = Origin3d { x, y, z };
    write.expect("refused 9 2 1 4294967295 4294967303 8");
    write.size.width = u32::MAX;
    write.expect("refused 9 2 1 4294967295 8589934590 8");
    (write.origin.x, write.size.width) = (0, 8);
    write.expect("refused 9 2 2 4294967295 4294967299 4");
    (write.origin.y, write.size.depth_or_array_layers) = (0, 2);
    write.expect("refused 9 2 3 4294967295 4294967297 2");

    let mut part = Write::into(texture(0, Stencil8, D2, [8, 4, 1]));
    part.texture.sample_count = 4;
    part.origin = Origin3d { x, y, z: 0 };
    part.expect("refused 10 2 1 4294967295 4294967303 8");
    (part.origin.x, part.size.height) = (0, u32::MAX);
    part.expect("refused 10 2 2 4294967295 8589934590 4");
}

/// Formats, samples and aspects come before the layout, and the device's fact comes last.
#[test]
fn layouts_between_formats_and_facts() {
    let mut write = Write::into(texture(0, Depth32FloatStencil8, D2, [4, 2, 1]));
    write.texture.usage = TextureUsages::empty();
    write.texture.sample_count = 4;
    write.aspect = DepthOnly;
    write.layout = layout(1, Some(3), None);
    write.size = extent([3, 1, 1]);
    write.expect("refused 10 2 1 0 3 4");
    write.size.width = 4;
    write.expect("refused 10 2 2 0 1 2");
    write.size.height = 2;
    write.expect("refused 6 2 0 0 0 0");
    write.texture.usage = TextureUsages::COPY_DST;
    write.expect("refused 32 0 0 0 0 0");
    write.aspect = All;
    write.expect("refused 35 0 0 4 0 0");
    write.texture.sample_count = 1;
    write.expect("refused 28 0 0 0 0 0");
    write.aspect = StencilOnly;
    write.expect("refused 23 0 0 0 0 0");
    write.layout.bytes_per_row = Some(5);
    write.expect("refused 7 1 0 1 0 0");
    write.length = 9;
    write.expect("refused 8 1 0 1 9 9");
    write.length = 10;
    write.expect("refused 34 0 0 0 0 0");
    write.device.depth_texture_and_buffer_copies = true;
    write.expect("ok 1 1 9\nt 0 0 0 1 1\nr 1 5 - 0 0 0 0 0 4 4 2 1");
}

#[test]
fn rows_and_images() {
    let mut write = Write::into(texture(0, R8Unorm, D2, [4, 2, 3]));
    write.size.depth_or_array_layers = 3;
    write.layout = layout(7, Some(3), Some(1));
    write.expect("refused 23 0 0 0 0 0");
    write.layout.bytes_per_row = Some(u32::MAX);
    write.expect("refused 24 0 0 0 0 0");
    write.layout.rows_per_image = Some(u32::MAX);
    write.expect("refused 25 0 0 0 0 0");
    (write.layout.bytes_per_row, write.layout.rows_per_image) = (None, None);
    write.expect("refused 21 0 0 0 0 0");
    write.layout.bytes_per_row = Some(4);
    write.expect("refused 22 0 0 0 0 0");
    write.layout.rows_per_image = Some(2);
    write.expect("refused 7 1 0 7 0 0");
    write.length = 30;
    write.expect("refused 8 1 0 7 24 30");
    write.length = 31;
    assert_eq!(write.plan().map(|plan| plan.regions_left()), Ok(3));
}

#[test]
fn forbidden_formats() {
    for format in [Depth24Plus, Depth32Float] {
        let write = Write::into(texture(0, format, D2, [4, 4, 1]));
        write.expect("refused 31 0 0 0 0 0");
        let refused = TransferError::CopyToForbiddenTextureFormat(format);
        assert_eq!(write.plan(), Err(refused));
    }
}

/// What a listing does not tell of a refusal.
#[test]
fn details_by_their_names() {
    let mut write = Write::into(texture(0, Depth16Unorm, D2, [1, 1, 1]));
    write.length = 2;
    let lacking = DownlevelFlags::DepthTextureAndBufferCopies;
    assert_eq!(
        write.plan(),
        Err(TransferError::MissingDownlevelFlags(lacking))
    );
    write.size.width = 0;
    let part = TransferError::UnsupportedPartialTransfer {
        format: Depth16Unorm,
        sample_count: 1,
        start_offset: 0,
        end_offset: 0,
        texture_size: 1,
        dimension: TextureErrorDimension::X,
        side: Destination,
    };
    assert_eq!(write.plan(), Err(part));
}

/// The messages are of a buffer and of a block of memory alike.
#[test]
fn messages() {
    let mut write = Write::into(texture(0, R8Unorm, D2, [4, 1, 1]));
    let message = |write: &Write| write.plan().unwrap_err().to_string();
    write.length = 3;
    assert_eq!(
        message(&write),
        "4 bytes from byte 0 on do not fit into the copy's source, which has 3 bytes"
    );
    write.layout.offset = 5;
    assert_eq!(
        message(&write),
        "the copy starts at byte 5 of its source, which has 3 bytes"
    );
}

/// Whether this aspect of a format is copied from buffers. If so, memory may have it in rows of 257 bytes from byte 1 on; a buffer
/// may have neither, but for the offset of single bytes.
fn is_written_unaligned(format: TextureFormat, aspect: TextureAspect) -> bool {
    let bytes = buffer(0, 4_096);
    let texels = texture(0, format, D2, [4, 4, 1]);
    let dst = TexelCopyTextureInfo {
        aspect,
        ..from_start(&texels)
    };
    let from_buffer = |offset, row| {
        let (buffer, layout) = (&bytes, layout(offset, Some(row), None));
        let src = TexelCopyBufferInfo { buffer, layout };
        copy_buffer_to_texture(DEVICE, src, dst, texels.size).err()
    };
    if from_buffer(0, 256).is_some() {
        return false;
    }
    let has_single_bytes = matches!((format, aspect), (R8Unorm, _) | (NV12, Plane0));
    let unaligned = (!has_single_bytes).then_some(TransferError::UnalignedBufferOffset(1));
    assert_eq!(from_buffer(1, 256), unaligned);
    assert_eq!(
        from_buffer(0, 257),
        Some(TransferError::UnalignedBytesPerRow)
    );
    let rows = layout(1, Some(257), None);
    let plan = write_texture(DEVICE, dst, 4_096, rows, texels.size).unwrap();
    assert_eq!(
        plan.regions().next().map(|region| region.buffer_layout),
        Some(rows)
    );
    true
}

#[test]
fn nothing_is_aligned() {
    let aspects = [All, StencilOnly, DepthOnly, Plane0, Plane1, Plane2];
    let written = TextureFormat::ALL
        .into_iter()
        .flat_map(|format| aspects.map(|aspect| usize::from(is_written_unaligned(format, aspect))));
    // One of each colour format, two of stencil8, depth16unorm and NV12, the stencil of both combined ones.
    assert_eq!(written.sum::<usize>(), 15 + 6 + 2);
}
