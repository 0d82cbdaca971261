//! Every refusal that a copy can give, with its details.
//!
//! No copy gives these: 1 is a sheet's, 38 the region writer's, and 37 is not used. 16 and 17 come from the range in the texture;
//! their second check, with the rows in the buffer, comes after it. Writes from memory have tests of their own in writes.rs.

mod common;

use std::collections::HashSet;

use common::*;
use copy_planner::*;
use CopySide::{Destination, Source};
use TextureDimension::{D1, D2, D3};
use TextureErrorDimension as Dimension;
use TextureFormat::*;

/// A write from as many bytes of memory is refused alike, unless it is for what is asked of buffers alone.
fn upload(
    src: TexelCopyBufferInfo<'_>,
    dst: TexelCopyTextureInfo<'_>,
    size: [u32; 3],
) -> Option<TransferError> {
    let size = extent(size);
    let refused = copy_buffer_to_texture(DEVICE, src, dst, size).err();
    if !refused.is_some_and(|why| matches!(why.number(), 3 | 5 | 14 | 20)) {
        let written = write_texture(DEVICE, dst, src.buffer.size, src.layout, size);
        assert_eq!(written.err(), refused);
    }
    refused
}

fn download(
    src: TexelCopyTextureInfo<'_>,
    dst: TexelCopyBufferInfo<'_>,
    size: [u32; 3],
) -> Option<TransferError> {
    copy_texture_to_buffer(DEVICE, src, dst, extent(size)).err()
}

fn between(
    src: TexelCopyTextureInfo<'_>,
    dst: TexelCopyTextureInfo<'_>,
    size: [u32; 3],
) -> Option<TransferError> {
    copy_texture_to_texture(src, dst, extent(size)).err()
}

fn with_aspect(texture: &Texture, aspect: TextureAspect) -> TexelCopyTextureInfo<'_> {
    TexelCopyTextureInfo {
        aspect,
        ..from_start(texture)
    }
}

fn at(texture: &Texture, x: u32, y: u32, z: u32) -> TexelCopyTextureInfo<'_> {
    TexelCopyTextureInfo {
        origin: Origin3d { x, y, z },
        ..from_start(texture)
    }
}

#[test]
fn buffer_records() {
    let good = buffer(0, 64);
    let too_large = buffer(1, 268_435_457);
    let odd_usage = Buffer {
        usage: BufferUsages::from_bits_retain(1_024),
        ..buffer(1, 64)
    };
    for bad in [too_large, odd_usage] {
        let refused = copy_buffer_to_buffer(DEVICE, &bad, 0, &good, 0, None).err();
        assert_eq!(
            refused,
            Some(TransferError::InvalidBufferRecord { side: Source })
        );
        let refused = copy_buffer_to_buffer(DEVICE, &good, 0, &bad, 0, None).err();
        assert_eq!(
            refused,
            Some(TransferError::InvalidBufferRecord { side: Destination })
        );
    }
}

#[test]
fn texture_records() {
    let good = texture(0, R8Unorm, D2, [8, 8, 1]);
    let bad = [
        texture(1, R8Unorm, D2, [8, 8, 0]),
        texture(1, R8Unorm, D1, [8, 2, 1]),
        texture(1, R8Unorm, D3, [8, 8, 2_049]),
        texture(1, Bc7RgbaUnorm, D2, [8, 6, 1]),
        Texture {
            mip_level_count: 5,
            ..good
        },
        Texture {
            sample_count: 2,
            ..good
        },
        Texture {
            usage: TextureUsages::from_bits_retain(32),
            ..good
        },
    ];
    for bad in bad {
        let refused = between(from_start(&bad), from_start(&good), [1, 1, 1]);
        assert_eq!(
            refused,
            Some(TransferError::InvalidTextureRecord { side: Source })
        );
        let refused = between(from_start(&good), from_start(&bad), [1, 1, 1]);
        assert_eq!(
            refused,
            Some(TransferError::InvalidTextureRecord { side: Destination })
        );
    }
}

/// The most levels of a texture: 1, and one more each time that the side can be halved.
fn most_levels(dimension: TextureDimension, side: u32) -> u32 {
    match (dimension, side) {
        (D1, _) | (_, 1) => 1,
        (_, side) => 1 + most_levels(dimension, side / 2),
    }
}

#[test]
fn levels_of_every_side() {
    for (dimension, largest) in [(D1, 8_192), (D2, 8_192), (D3, 2_048)] {
        for side in 1..=largest {
            let most = most_levels(dimension, side);
            for levels in 0..=most + 2 {
                let texture = Texture {
                    mip_level_count: levels,
                    ..texture(0, R8Unorm, dimension, [side, 1, 1])
                };
                let written = write_texture(
                    DEVICE,
                    from_start(&texture),
                    1,
                    layout(0, None, None),
                    extent([1, 1, 1]),
                );
                let ill = TransferError::InvalidTextureRecord { side: Destination };
                let refused = (levels == 0 || most < levels).then_some(ill);
                assert_eq!(written.err(), refused, "{texture:?}");
            }
        }
    }
}

#[test]
fn buffers_as_they_are() {
    let copy =
        |src: &Buffer, dst: &Buffer| copy_buffer_to_buffer(DEVICE, src, 0, dst, 0, None).err();
    let good = buffer(0, 64);
    assert_eq!(
        copy(&good, &good),
        Some(TransferError::SameSourceDestinationBuffer)
    );
    let unused = Buffer {
        id: 1,
        usage: BufferUsages::empty(),
        ..good
    };
    assert_eq!(
        copy(&unused, &good),
        Some(TransferError::MissingBufferUsage { side: Source })
    );
    assert_eq!(
        copy(&good, &unused),
        Some(TransferError::MissingBufferUsage { side: Destination })
    );
}

#[test]
fn places_in_buffers() {
    let [src, dst] = [buffer(0, 64), buffer(1, 32)];
    let copy = |src_offset, dst_offset, size| {
        copy_buffer_to_buffer(DEVICE, &src, src_offset, &dst, dst_offset, Some(size)).err()
    };
    let starts_past = |start_offset, buffer_size, side| {
        Some(TransferError::BufferStartOffsetOverrun {
            start_offset,
            buffer_size,
            side,
        })
    };
    let ends_past = |start_offset, size, buffer_size, side| {
        Some(TransferError::BufferEndOffsetOverrun {
            start_offset,
            size,
            buffer_size,
            side,
        })
    };
    assert_eq!(copy(68, 0, 4), starts_past(68, 64, Source));
    assert_eq!(copy(60, 0, 8), ends_past(60, 8, 64, Source));
    assert_eq!(copy(0, 36, 4), starts_past(36, 32, Destination));
    assert_eq!(copy(0, 28, 8), ends_past(28, 8, 32, Destination));
    assert_eq!(copy(4, 0, 6), Some(TransferError::UnalignedCopySize(6)));
    assert_eq!(copy(2, 3, 4), Some(TransferError::UnalignedBufferOffset(2)));
    assert_eq!(copy(4, 3, 4), Some(TransferError::UnalignedBufferOffset(3)));
    assert_eq!(
        copy(0, u64::MAX - 3, 4),
        starts_past(u64::MAX - 3, 32, Destination)
    );
}

#[test]
fn facts_of_the_device() {
    let index = Buffer {
        usage: BufferUsages::COPY_SRC | BufferUsages::INDEX,
        ..buffer(0, 64)
    };
    let vertex = Buffer {
        usage: BufferUsages::COPY_DST | BufferUsages::VERTEX,
        ..buffer(1, 64)
    };
    let lacking = DownlevelFlags::UnrestrictedIndexBuffer;
    let copy = |device| copy_buffer_to_buffer(device, &index, 0, &vertex, 0, None).err();
    assert_eq!(
        copy(Device::default()),
        Some(TransferError::MissingDownlevelFlags(lacking))
    );
    assert_eq!(copy(DEVICE), None);

    let stencil = texture(0, Stencil8, D2, [1, 1, 1]);
    let (bytes, size) = (buffer(0, 4), stencil.size);
    let lacking = Some(TransferError::MissingDownlevelFlags(
        DownlevelFlags::DepthTextureAndBufferCopies,
    ));
    let (texels, bytes) = (from_start(&stencil), dense(&bytes, 0));
    let device = Device::default();
    assert_eq!(
        copy_buffer_to_texture(device, bytes, texels, size).err(),
        lacking
    );
    assert_eq!(
        copy_texture_to_buffer(device, texels, bytes, size).err(),
        lacking
    );
}

#[test]
fn usages_of_textures() {
    let good = texture(0, R8Unorm, D2, [4, 4, 1]);
    let unused = Texture {
        id: 1,
        usage: TextureUsages::empty(),
        ..good
    };
    let bytes = buffer(0, 4_096);
    let rows = strided(&bytes, Some(256), None);
    let missing = |side| Some(TransferError::MissingTextureUsage { side });
    assert_eq!(
        upload(rows, from_start(&unused), [4, 4, 1]),
        missing(Destination)
    );
    assert_eq!(
        download(from_start(&unused), rows, [4, 4, 1]),
        missing(Source)
    );
    assert_eq!(
        between(from_start(&unused), from_start(&good), [4, 4, 1]),
        missing(Source)
    );
    assert_eq!(
        between(from_start(&good), from_start(&unused), [4, 4, 1]),
        missing(Destination)
    );
}

#[test]
fn usages_of_buffers() {
    let texels = texture(0, R8Unorm, D2, [4, 1, 1]);
    let unused = Buffer {
        usage: BufferUsages::empty(),
        ..buffer(0, 64)
    };
    let refused = upload(dense(&unused, 0), from_start(&texels), [4, 1, 1]);
    assert_eq!(
        refused,
        Some(TransferError::MissingBufferUsage { side: Source })
    );
    let refused = download(from_start(&texels), dense(&unused, 0), [4, 1, 1]);
    assert_eq!(
        refused,
        Some(TransferError::MissingBufferUsage { side: Destination })
    );
}

#[test]
fn places_in_textures() {
    let bytes = buffer(0, 4_096);
    let texels = texture(0, R8Unorm, D2, [8, 4, 2]);
    let overrun = |start_offset, end_offset, texture_size, dimension, side| {
        Some(TransferError::TextureOverrun {
            start_offset,
            end_offset,
            texture_size,
            dimension,
            side,
        })
    };
    let refused = upload(dense(&bytes, 0), at(&texels, 7, 0, 0), [2, 1, 1]);
    assert_eq!(refused, overrun(7, 9, 8, Dimension::X, Destination));
    let refused = download(at(&texels, 0, 5, 0), dense(&bytes, 0), [1, 1, 1]);
    assert_eq!(refused, overrun(5, 6, 4, Dimension::Y, Source));
    let other = texture(1, R8Unorm, D2, [8, 4, 2]);
    let refused = between(from_start(&texels), at(&other, 0, 0, 1), [1, 1, 2]);
    assert_eq!(refused, overrun(1, 3, 2, Dimension::Z, Destination));
    let level = TexelCopyTextureInfo {
        mip_level: 3,
        ..from_start(&texels)
    };
    let refused = upload(dense(&bytes, 0), level, [1, 1, 1]);
    assert_eq!(
        refused,
        Some(TransferError::InvalidTextureMipLevel { level: 3, total: 1 })
    );
}

/// A level that is not there is 13 in every copy; there is no second check of it.
#[test]
fn levels_past_the_last() {
    let bytes = buffer(0, 64);
    let [one, other] = [0, 1].map(|id| Texture {
        mip_level_count: 2,
        ..texture(id, R8Unorm, D2, [2, 2, 1])
    });
    let at_level = |mip_level| TexelCopyTextureInfo {
        mip_level,
        ..from_start(&one)
    };
    let size = [1, 1, 1];
    assert_eq!(download(at_level(1), dense(&bytes, 0), size), None);
    for level in [2, 3, u32::MAX] {
        let past = at_level(level);
        let refused = Some(TransferError::InvalidTextureMipLevel { level, total: 2 });
        assert_eq!(upload(dense(&bytes, 0), past, size), refused);
        assert_eq!(download(past, dense(&bytes, 0), size), refused);
        assert_eq!(between(past, from_start(&other), size), refused);
        assert_eq!(between(from_start(&other), past, size), refused);
    }
}

/// Starts and sizes of copies, and their ends, which 32 bits do not hold. The last is the largest that there is.
const LONG_ENDS: [(u32, u32, u64); 4] = [
    (u32::MAX, 1, 4_294_967_296),
    (u32::MAX, 2, 4_294_967_297),
    (2, u32::MAX, 4_294_967_297),
    (u32::MAX, u32::MAX, 8_589_934_590),
];

/// All of a texture, but in one dimension from `start` on for `size`.
fn along(
    texture: &Texture,
    dimension: Dimension,
    start: u32,
    size: u32,
) -> (TexelCopyTextureInfo<'_>, [u32; 3]) {
    let whole = texture.size;
    let mut origin = [0; 3];
    let mut extent = [whole.width, whole.height, whole.depth_or_array_layers];
    origin[dimension as usize] = start;
    extent[dimension as usize] = size;
    let [x, y, z] = origin;
    (at(texture, x, y, z), extent)
}

/// Holds copies of two textures that are alike to the refusal of a start, an end and a side.
fn refuse_long_ends(
    [one, other]: &[Texture; 2],
    dimension: Dimension,
    length: u32,
    refusal: impl Fn(u32, u64, CopySide) -> TransferError,
) {
    let bytes = buffer(0, 4_096);
    for (start, size, end) in LONG_ENDS {
        let (place, size) = along(one, dimension, start, size);
        let [source, destination] =
            [Source, Destination].map(|side| Some(refusal(start, end, side)));
        assert_eq!(upload(dense(&bytes, 0), place, size), destination);
        assert_eq!(download(place, dense(&bytes, 0), size), source);
        assert_eq!(between(place, from_start(other), size), source);
    }
    // The source is checked first, so the size is one that it has.
    let (place, size) = along(one, dimension, u32::MAX, length);
    let end = 4_294_967_295 + u64::from(length);
    let destination = Some(refusal(u32::MAX, end, Destination));
    assert_eq!(between(from_start(other), place, size), destination);
}

#[test]
fn overruns_past_32_bits() {
    for shape in [D2, D3] {
        let textures = [0, 1].map(|id| texture(id, R8Unorm, shape, [8, 4, 2]));
        for (dimension, texture_size) in [(Dimension::X, 8), (Dimension::Y, 4), (Dimension::Z, 2)] {
            refuse_long_ends(
                &textures,
                dimension,
                texture_size,
                |start_offset, end_offset, side| TransferError::TextureOverrun {
                    start_offset,
                    end_offset,
                    texture_size,
                    dimension,
                    side,
                },
            );
        }
    }
}

#[test]
fn parts_past_32_bits() {
    let depths = [0, 1].map(|id| texture(id, Depth16Unorm, D2, [8, 4, 1]));
    let samples = depths.map(|texture| Texture {
        format: R8Unorm,
        sample_count: 4,
        ..texture
    });
    for textures in [depths, samples] {
        let Texture {
            format,
            sample_count,
            ..
        } = textures[0];
        for (dimension, texture_size) in [(Dimension::X, 8), (Dimension::Y, 4)] {
            refuse_long_ends(
                &textures,
                dimension,
                texture_size,
                |start_offset, end_offset, side| TransferError::UnsupportedPartialTransfer {
                    format,
                    sample_count,
                    start_offset,
                    end_offset,
                    texture_size,
                    dimension,
                    side,
                },
            );
        }
    }
}

#[test]
fn parts_of_whole_textures() {
    let depth = texture(0, Depth16Unorm, D2, [8, 8, 1]);
    let samples = Texture {
        sample_count: 4,
        ..texture(1, R8Unorm, D2, [8, 8, 1])
    };
    let bytes = buffer(0, 4_096);
    let refused = download(at(&depth, 0, 0, 0), dense(&bytes, 0), [8, 4, 1]);
    let part = TransferError::UnsupportedPartialTransfer {
        format: Depth16Unorm,
        sample_count: 1,
        start_offset: 0,
        end_offset: 4,
        texture_size: 8,
        dimension: Dimension::Y,
        side: Source,
    };
    assert_eq!(refused, Some(part));
    let refused = between(from_start(&samples), at(&samples, 1, 0, 0), [8, 8, 1]);
    let part = TransferError::UnsupportedPartialTransfer {
        format: R8Unorm,
        sample_count: 4,
        start_offset: 1,
        end_offset: 9,
        texture_size: 8,
        dimension: Dimension::X,
        side: Destination,
    };
    assert_eq!(refused, Some(part));
}

#[test]
fn whole_blocks() {
    let bytes = buffer(0, 4_096);
    let blocks = texture(0, Bc1RgbaUnorm, D2, [16, 16, 1]);
    let upload = |x, y, w, h| upload(dense(&bytes, 0), at(&blocks, x, y, 0), [w, h, 1]);
    assert_eq!(upload(0, 0, 6, 4), Some(TransferError::UnalignedCopyWidth));
    assert_eq!(upload(0, 0, 4, 6), Some(TransferError::UnalignedCopyHeight));
    assert_eq!(
        upload(2, 0, 4, 4),
        Some(TransferError::UnalignedCopyOriginX)
    );
    assert_eq!(
        upload(0, 2, 4, 4),
        Some(TransferError::UnalignedCopyOriginY)
    );
    assert_eq!(upload(4, 4, 4, 4), None);
}

#[test]
fn aspects_that_formats_lack() {
    let bytes = buffer(0, 4_096);
    let invalid = |format, aspect| Some(TransferError::InvalidTextureAspect { format, aspect });
    let [one, other] = [0, 1].map(|id| texture(id, Depth24PlusStencil8, D2, [4, 4, 1]));
    for format in TextureFormat::ALL {
        let texels = texture(0, format, D2, [4, 4, 1]);
        let plane = with_aspect(&texels, TextureAspect::Plane2);
        let expected = invalid(format, TextureAspect::Plane2);
        assert_eq!(upload(dense(&bytes, 0), plane, [4, 4, 1]), expected);
    }
    let all = from_start(&one);
    let depth = with_aspect(&other, TextureAspect::DepthOnly);
    let plane = with_aspect(&other, TextureAspect::Plane0);
    let refused = invalid(Depth24PlusStencil8, TextureAspect::Plane0);
    assert_eq!(between(all, plane, [4, 4, 1]), refused);
    assert_eq!(between(plane, all, [4, 4, 1]), refused);
    assert_eq!(
        between(all, depth, [4, 4, 1]),
        Some(TransferError::CopyDstMissingAspects)
    );
    assert_eq!(
        between(depth, all, [4, 4, 1]),
        Some(TransferError::CopySrcMissingAspects)
    );
    assert_eq!(
        upload(dense(&bytes, 0), all, [4, 4, 1]),
        Some(TransferError::CopyAspectNotOne)
    );
}

#[test]
fn rows_and_images() {
    let bytes = buffer(0, 1 << 16);
    let texels = texture(0, R8Unorm, D2, [300, 4, 3]);
    let upload = |row, rows, size| upload(strided(&bytes, row, rows), from_start(&texels), size);
    assert_eq!(
        upload(Some(300), None, [300, 1, 1]),
        Some(TransferError::UnalignedBytesPerRow)
    );
    assert_eq!(
        upload(None, None, [300, 2, 1]),
        Some(TransferError::UnspecifiedBytesPerRow)
    );
    assert_eq!(
        upload(Some(512), None, [300, 4, 2]),
        Some(TransferError::UnspecifiedRowsPerImage)
    );
    assert_eq!(
        upload(Some(256), None, [300, 2, 1]),
        Some(TransferError::InvalidBytesPerRow)
    );
    assert_eq!(
        upload(Some(512), Some(3), [300, 4, 2]),
        Some(TransferError::InvalidRowsPerImage)
    );
    let (row, rows) = (Some(4_294_967_040), Some(u32::MAX));
    assert_eq!(
        upload(row, rows, [300, 4, 3]),
        Some(TransferError::SizeOverflow)
    );
    assert_eq!(upload(Some(512), Some(4), [300, 4, 3]), None);
}

#[test]
fn places_of_rows() {
    let bytes = buffer(0, 64);
    let texels = texture(0, Rgba16Float, D2, [8, 1, 1]);
    let upload = |offset| upload(dense(&bytes, offset), from_start(&texels), [8, 1, 1]);
    assert_eq!(upload(4), Some(TransferError::UnalignedBufferOffset(4)));
    let past = TransferError::BufferStartOffsetOverrun {
        start_offset: 72,
        buffer_size: 64,
        side: Source,
    };
    assert_eq!(upload(72), Some(past));
    let past = TransferError::BufferEndOffsetOverrun {
        start_offset: 8,
        size: 64,
        buffer_size: 64,
        side: Source,
    };
    assert_eq!(upload(8), Some(past));
}

#[test]
fn forbidden_formats() {
    let bytes = buffer(0, 4_096);
    let rows = strided(&bytes, Some(256), None);
    let textures = TextureFormat::ALL.map(|format| texture(0, format, D2, [4, 4, 1]));
    let view = |format: TextureFormat, aspect| with_aspect(&textures[format as usize], aspect);
    let depth = TextureAspect::DepthOnly;
    let from = |format| download(view(format, depth), rows, [4, 4, 1]);
    let to = |format| upload(rows, view(format, depth), [4, 4, 1]);
    assert_eq!(
        from(Depth24Plus),
        Some(TransferError::CopyFromForbiddenTextureFormat(Depth24Plus))
    );
    let aspect = |format| TransferError::CopyFromForbiddenTextureFormatAspect {
        format,
        aspect: depth,
    };
    assert_eq!(from(Depth24PlusStencil8), Some(aspect(Depth24PlusStencil8)));
    for format in [Depth24Plus, Depth32Float] {
        assert_eq!(
            to(format),
            Some(TransferError::CopyToForbiddenTextureFormat(format))
        );
    }
    for format in [Depth24PlusStencil8, Depth32FloatStencil8] {
        let aspect = TransferError::CopyToForbiddenTextureFormatAspect {
            format,
            aspect: depth,
        };
        assert_eq!(to(format), Some(aspect));
    }
}

#[test]
fn formats_and_samples_that_differ() {
    let one = texture(0, R8Unorm, D2, [4, 4, 1]);
    let other = texture(1, Rg8Unorm, D2, [4, 4, 1]);
    let differ = TransferError::TextureFormatsNotCopyCompatible {
        src_format: R8Unorm,
        dst_format: Rg8Unorm,
    };
    assert_eq!(
        between(from_start(&one), from_start(&other), [4, 4, 1]),
        Some(differ)
    );
    let four = Texture {
        id: 1,
        sample_count: 4,
        ..one
    };
    let unequal = TransferError::SampleCountNotEqual {
        src_sample_count: 1,
        dst_sample_count: 4,
    };
    assert_eq!(
        between(from_start(&one), from_start(&four), [4, 4, 1]),
        Some(unequal)
    );
    let bytes = buffer(0, 4_096);
    let refused = download(
        from_start(&four),
        strided(&bytes, Some(256), None),
        [4, 4, 1],
    );
    assert_eq!(
        refused,
        Some(TransferError::InvalidSampleCount { sample_count: 4 })
    );
}

#[test]
fn one_texture() {
    let texels = texture(0, R8Unorm, D2, [4, 4, 8]);
    let overlap = TransferError::InvalidCopyWithinSameTexture {
        src_aspects: TextureAspect::All,
        dst_aspects: TextureAspect::All,
        src_origin_z: 0,
        dst_origin_z: 2,
        array_layer_count: 3,
    };
    assert_eq!(
        between(from_start(&texels), at(&texels, 0, 0, 2), [4, 4, 3]),
        Some(overlap)
    );
    assert_eq!(
        between(from_start(&texels), at(&texels, 0, 0, 3), [4, 4, 3]),
        None
    );
}

#[test]
fn planes_have_sizes_of_their_own() {
    let planar = texture(0, NV12, D2, [4, 4, 1]);
    let plane = texture(1, Rg8Unorm, D2, [4, 4, 1]);
    let chroma = with_aspect(&planar, TextureAspect::Plane1);
    let overrun = TransferError::TextureOverrun {
        start_offset: 0,
        end_offset: 4,
        texture_size: 2,
        dimension: Dimension::X,
        side: Source,
    };
    assert_eq!(
        between(chroma, from_start(&plane), [4, 4, 1]),
        Some(overrun)
    );
    assert_eq!(between(chroma, from_start(&plane), [2, 2, 1]), None);
}

/// Each message names what its details are, so no two are alike.
#[test]
fn messages() {
    let offset = TransferError::UnalignedBufferOffset(6);
    assert_eq!(offset.to_string(), "offset 6 is unaligned for this copy");
    let errors = [
        offset,
        TransferError::UnalignedBufferOffset(7),
        TransferError::MissingBufferUsage { side: Source },
        TransferError::MissingBufferUsage { side: Destination },
        TransferError::MissingTextureUsage { side: Source },
        TransferError::CopyFromForbiddenTextureFormat(Depth24Plus),
        TransferError::CopyToForbiddenTextureFormat(Depth24Plus),
    ];
    let messages: HashSet<String> = errors.iter().map(ToString::to_string).collect();
    assert_eq!(messages.len(), errors.len());
    let boxed: Box<dyn std::error::Error> = Box::new(offset);
    assert!(boxed.source().is_none());
}

#[test]
fn messages_of_ends_past_32_bits() {
    let bytes = buffer(0, 64);
    let colour = texture(0, R8Unorm, D2, [8, 8, 1]);
    let refused = upload(dense(&bytes, 0), at(&colour, u32::MAX, 0, 0), [2, 1, 1]);
    assert_eq!(
        refused.unwrap().to_string(),
        "along X the copy goes from 4294967295 to 4294967297, and the destination texture's level has 8"
    );
    let stencil = texture(0, Stencil8, D2, [8, 8, 1]);
    let refused = download(
        at(&stencil, 0, u32::MAX, 0),
        dense(&bytes, 0),
        [8, u32::MAX, 1],
    );
    assert_eq!(
        refused.unwrap().to_string(),
        "along Y the copy goes from 4294967295 to 8589934590 of 8, and the source texture, Stencil8 with 1 sample(s), is copied \
         whole or not at all"
    );
}
