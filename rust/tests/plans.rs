//! Plans: their regions, ranges and counts.

mod common;

use common::*;
use copy_planner::*;
use MemoryInitKind::{ImplicitlyInitialized, NeedsInitializedMemory};
use TextureDimension::{D2, D3};
use TextureFormat::{Depth32FloatStencil8, R8Unorm, Rgba8Unorm};

/// What stands in a slice before regions are written into it.
const FILLER: u64 = 7_777;

/// So many layers from a buffer into a texture, a region each.
fn upload(layers: u32) -> Plan<BufferTextureCopy> {
    let buffer = buffer(5, 1 << 20);
    let texture = texture(6, Rgba8Unorm, D2, [8, 8, 256]);
    let src = strided(&buffer, Some(256), Some(8));
    copy_buffer_to_texture(DEVICE, src, from_start(&texture), extent([8, 8, layers])).unwrap()
}

/// So many layers from memory into the same texture, without gaps.
fn write(layers: u32) -> Plan<BufferTextureCopy> {
    let texture = texture(6, Rgba8Unorm, D2, [8, 8, 256]);
    let (length, rows) = (1 << 16, layout(0, Some(32), Some(8)));
    let size = extent([8, 8, layers]);
    write_texture(DEVICE, from_start(&texture), length, rows, size).unwrap()
}

/// Both aspects of so many layers between textures, a region each.
fn between_textures(layers: u32) -> Plan<TextureCopy> {
    let [src, dst] = [0, 1].map(|id| texture(id, Depth32FloatStencil8, D2, [4, 4, 8]));
    copy_texture_to_texture(from_start(&src), from_start(&dst), extent([4, 4, layers])).unwrap()
}

fn between_buffers(size: u64) -> Plan<BufferCopy> {
    copy_buffer_to_buffer(DEVICE, &buffer(0, 64), 8, &buffer(1, 64), 4, Some(size)).unwrap()
}

#[test]
fn regions_by_their_names() {
    let mut plan = upload(2);
    let second = BufferTextureCopy {
        buffer_layout: TexelCopyBufferLayout {
            offset: 2048,
            bytes_per_row: Some(256),
            rows_per_image: Some(8),
        },
        texture_base: TextureCopyBase {
            mip_level: 0,
            array_layer: 1,
            origin: Origin3d::ZERO,
            aspect: FormatAspects::COLOR,
        },
        size: CopyExtent {
            width: 8,
            height: 8,
            depth: 1,
        },
    };
    assert_eq!(plan.regions().nth(1), Some(second));
    assert_eq!(
        plan.next_region().map(|region| region.buffer_layout.offset),
        Some(0)
    );
    assert_eq!(plan.next_region(), Some(second));
    let behind = plan.clone();
    assert_eq!(plan.next_region(), None);
    assert_eq!(plan, behind);
}

/// Every figure of a write from memory is another, and each comes out in its place.
#[test]
fn regions_of_memory() {
    let texture = Texture {
        mip_level_count: 2,
        ..texture(6, Rgba8Unorm, D3, [32, 32, 32])
    };
    let dst = TexelCopyTextureInfo {
        mip_level: 1,
        origin: Origin3d { x: 2, y: 3, z: 4 },
        ..from_start(&texture)
    };
    let size = extent([5, 6, 7]);
    let answer = write_texture(DEVICE, dst, 2_500, layout(9, Some(43), Some(8)), size);
    assert_eq!(
        listed(&answer),
        "ok 1 1 2299\nt 6 1 0 1 1\nr 9 43 8 1 0 2 3 4 1 5 6 7\n"
    );
    let dense = write_texture(DEVICE, dst, 29, layout(9, None, None), extent([5, 1, 1]));
    assert_eq!(
        listed(&dense),
        "ok 1 1 20\nt 6 1 0 1 1\nr 9 - - 1 0 2 3 4 1 5 1 1\n"
    );
}

#[test]
fn depth_and_stencil_apart() {
    let aspects: Vec<[FormatAspects; 2]> = between_textures(2)
        .regions()
        .map(|region| [region.src_base.aspect, region.dst_base.aspect])
        .collect();
    let pair = [[FormatAspects::DEPTH; 2], [FormatAspects::STENCIL; 2]];
    assert_eq!(aspects, [pair, pair].concat());
}

/// The iterator counts what it hands out, and leaves the plan alone.
fn check_counts<R: Numbered>(plan: &Plan<R>, count: usize) {
    let before = plan.clone();
    let mut regions = plan.regions();
    for left in (1..=count).rev() {
        assert_eq!(regions.len(), left);
        assert_eq!(regions.size_hint(), (left, Some(left)));
        assert!(regions.next().is_some());
    }
    assert_eq!(regions.len(), 0);
    assert_eq!(regions.next(), None);
    assert_eq!(regions.next(), None);
    assert_eq!(*plan, before);
    assert_eq!(plan.regions_left(), count);
    assert_eq!(plan.numbers_left(), count * R::NUMBERS);
}

#[test]
fn counts_of_regions() {
    check_counts(&upload(256), 256);
    check_counts(&upload(0), 0);
    check_counts(&write(256), 256);
    check_counts(&write(0), 0);
    check_counts(&between_textures(8), 16);
    check_counts(&between_textures(0), 0);
    check_counts(&between_buffers(56), 1);
    check_counts(&between_buffers(0), 0);
}

/// The numbers written are the regions', and no others change; the plan is past them.
fn check_written<R: Numbered>(mut plan: Plan<R>, taken: usize) {
    for _ in 0..taken {
        plan.next_region();
    }
    let expected: Vec<u64> = plan.regions().flat_map(|region| region.numbers()).collect();
    let mut out = vec![FILLER; expected.len() + 3];
    assert_eq!(plan.write_regions(&mut out), Ok(expected.len()));
    assert_eq!(out[..expected.len()], expected);
    assert_eq!(out[expected.len()..], [FILLER; 3]);
    assert_eq!(plan.regions_left(), 0);
    assert_eq!(plan.write_regions(&mut []), Ok(0));
}

#[test]
fn written_regions() {
    for taken in [0, 1, 3] {
        check_written(upload(3), taken);
        check_written(write(3), taken);
        check_written(between_textures(3), taken);
        check_written(between_buffers(56), taken);
    }
    check_written(upload(256), 0);
    check_written(upload(0), 0);
}

/// One number too few changes nothing; as many as needed are enough.
fn check_short<R: Numbered>(mut plan: Plan<R>) {
    let before = plan.clone();
    let mut out = vec![FILLER; plan.numbers_left()];
    let short = plan.numbers_left() - 1;
    let refused = plan.write_regions(&mut out[..short]);
    assert_eq!(refused, Err(TransferError::RegionSliceTooShort));
    assert_eq!(refused.unwrap_err().number(), 38);
    assert_eq!(plan, before);
    assert!(out.iter().all(|number| *number == FILLER));
    assert_eq!(
        plan.write_regions(&mut []),
        Err(TransferError::RegionSliceTooShort)
    );
    assert_eq!(plan.write_regions(&mut out), Ok(out.len()));
}

#[test]
fn slices_too_short() {
    check_short(upload(2));
    check_short(write(2));
    check_short(between_textures(2));
    check_short(between_buffers(56));
}

/// One room holds one plan after another, and what it held before does not show.
#[test]
fn rooms() {
    let [src, dst] = [buffer(0, 64), buffer(1, 64)];
    let mut room = PlanRoom::new();
    for size in [56, 0, 57, 8] {
        let planned = copy_buffer_to_buffer(DEVICE, &src, 8, &dst, 4, Some(size));
        let in_room = room.copy_buffer_to_buffer(DEVICE, &src, 8, &dst, 4, Some(size));
        assert_eq!(in_room.cloned(), planned);
    }
    let plan = room.copy_buffer_to_buffer(DEVICE, &src, 8, &dst, 4, Some(56));
    assert_eq!(
        plan.unwrap().next_region(),
        between_buffers(56).next_region()
    );
}

/// What a copy from a buffer left behind does not show in a write from memory, nor the other way round.
#[test]
fn rooms_for_uploads_of_both_kinds() {
    let (buffer, texture) = (buffer(5, 4_096), texture(6, Rgba8Unorm, D2, [8, 8, 2]));
    let (src, dst) = (strided(&buffer, Some(256), Some(8)), from_start(&texture));
    let mut room = PlanRoom::new();
    for length in [4_096, 100, 3_872] {
        let planned = copy_buffer_to_texture(DEVICE, src, dst, texture.size);
        let in_room = room.copy_buffer_to_texture(DEVICE, src, dst, texture.size);
        assert_eq!(in_room.cloned(), planned);
        let planned = write_texture(DEVICE, dst, length, src.layout, texture.size);
        let in_room = room.write_texture(DEVICE, dst, length, src.layout, texture.size);
        assert_eq!(in_room.cloned(), planned);
    }
}

#[test]
fn ranges_by_their_names() {
    let ranges: Vec<InitRange> = upload(2).ranges().collect();
    let texture = InitRange::Texture {
        id: 6,
        mip_level: 0,
        layers: 0..2,
        kind: ImplicitlyInitialized,
    };
    let buffer = InitRange::Buffer {
        id: 5,
        range: 0..3872,
        kind: NeedsInitializedMemory,
    };
    assert_eq!(ranges, [texture, buffer]);
    assert_eq!(upload(0).ranges().next(), None);
}

/// Of a write from memory, the texture's range is all.
#[test]
fn ranges_of_a_write() {
    let texture = texture(6, R8Unorm, D2, [8, 8, 4]);
    let ranges = |x, width| -> Vec<InitRange> {
        let dst = TexelCopyTextureInfo {
            origin: Origin3d { x, y: 0, z: 1 },
            ..from_start(&texture)
        };
        let (rows, size) = (layout(3, Some(9), Some(8)), extent([width, 8, 2]));
        let plan = write_texture(DEVICE, dst, 146, rows, size).unwrap();
        plan.ranges().collect()
    };
    let layers = |kind| InitRange::Texture {
        id: 6,
        mip_level: 0,
        layers: 1..3,
        kind,
    };
    assert_eq!(ranges(0, 8), [layers(ImplicitlyInitialized)]);
    assert_eq!(ranges(1, 7), [layers(NeedsInitializedMemory)]);
    assert_eq!(ranges(8, 0), []);
}

/// A write of no texels spans bytes all the same where it has several images.
#[test]
fn writes_of_nothing() {
    let texture = texture(6, R8Unorm, D2, [1, 1, 2]);
    let write = |length| {
        let (rows, size) = (layout(1, Some(255), Some(1)), extent([1, 0, 2]));
        listed(&write_texture(
            DEVICE,
            from_start(&texture),
            length,
            rows,
            size,
        ))
    };
    assert_eq!(write(256), "ok 0 0 255\n");
    assert_eq!(write(255), "refused 8 1 0 1 255 255\n");
}

#[test]
fn ranges_stay_behind_regions() {
    let mut plan = upload(2);
    let before: Vec<InitRange> = plan.ranges().collect();
    while plan.next_region().is_some() {}
    assert_eq!(plan.ranges().collect::<Vec<_>>(), before);
    assert_eq!(plan.bytes_checked(), 3872);
}

/// The destination comes first; each side has its own id.
#[test]
fn ranges_between_buffers() {
    let range = |id, range, kind| InitRange::Buffer { id, range, kind };
    let expected = [
        range(1, 4..60, ImplicitlyInitialized),
        range(0, 8..64, NeedsInitializedMemory),
    ];
    assert_eq!(between_buffers(56).ranges().collect::<Vec<_>>(), expected);
}

/// An absent row lies between two ranges here, and a backward one covers nothing.
#[test]
fn odd_ranges_of_a_buffer() {
    let buffer = buffer(3, 16);
    let texture = texture(0, R8Unorm, D2, [8, 1, 1]);
    let bytes = |offset, width| -> Vec<_> {
        let dst = dense(&buffer, offset);
        let size = extent([width, 1, 1]);
        copy_texture_to_buffer(DEVICE, from_start(&texture), dst, size)
            .unwrap()
            .ranges()
            .filter_map(|range| match range {
                InitRange::Buffer { id: 3, range, .. } => Some(range),
                _ => None,
            })
            .collect()
    };
    assert_eq!(bytes(0, 6), [0..4, 4..8]);
    assert_eq!(bytes(0, 2), vec![0..4; 1]);
    assert_eq!(bytes(3, 5), [0..4, 4..8]);
    let backward = bytes(1, 1);
    assert_eq!((backward[1].start, backward[1].end), (4, 0));
    assert!(backward[1].is_empty());
}
