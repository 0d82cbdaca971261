//! The bench points of the scope document, each as a copy, and the longest write from memory.

mod common;

use common::*;
use copy_planner::*;
use TextureDimension::{D2, D3};
use TextureFormat::{Bc1RgbaUnorm, Depth32Float, R8Unorm, Rgba8Unorm};

fn at(texture: &Texture, x: u32) -> TexelCopyTextureInfo<'_> {
    TexelCopyTextureInfo {
        origin: Origin3d { x, y: 0, z: 0 },
        ..from_start(texture)
    }
}

#[test]
fn two_layers() {
    let buffer = buffer(0, 4096);
    let texture = texture(0, Rgba8Unorm, D2, [8, 8, 2]);
    let src = strided(&buffer, Some(256), Some(8));
    let plan = copy_buffer_to_texture(DEVICE, src, from_start(&texture), texture.size);
    assert_eq!(format!("copy 0 {}", listed(&plan)), SCOPE_LISTING);
}

#[test]
fn the_end_of_a_row() {
    let buffer = buffer(0, 64);
    let texture = texture(0, R8Unorm, D2, [8, 8, 1]);
    let upload = |x, width| {
        let dst = at(&texture, x);
        listed(&copy_buffer_to_texture(
            DEVICE,
            dense(&buffer, 0),
            dst,
            extent([width, 1, 1]),
        ))
    };
    assert_eq!(upload(8, 0), "ok 0 0 0\n");
    assert_eq!(upload(9, 0), "refused 9 2 1 9 9 8\n");
    assert_eq!(
        upload(4_294_967_295, 2),
        "refused 9 2 1 4294967295 4294967297 8\n"
    );
}

#[test]
fn a_layer_of_depth() {
    let buffer = buffer(0, 4096);
    let texture = texture(0, Depth32Float, D2, [8, 8, 2]);
    let src = TexelCopyTextureInfo {
        origin: Origin3d { x: 0, y: 0, z: 1 },
        ..from_start(&texture)
    };
    let download = |width| {
        let dst = strided(&buffer, Some(256), None);
        listed(&copy_texture_to_buffer(
            DEVICE,
            src,
            dst,
            extent([width, 8, 1]),
        ))
    };
    let plan = "ok 1 2 1824\nt 0 0 1 2 1\nb 0 0 1824 1\nr 0 256 - 0 1 0 0 0 2 8 8 1\n";
    assert_eq!(download(8), plan);
    assert_eq!(download(7), "refused 10 1 1 0 7 8\n");
}

#[test]
fn a_level_smaller_than_its_block() {
    let buffer = buffer(0, 64);
    let texture = Texture {
        mip_level_count: 4,
        ..texture(0, Bc1RgbaUnorm, D2, [8, 8, 1])
    };
    let dst = TexelCopyTextureInfo {
        mip_level: 2,
        ..from_start(&texture)
    };
    let upload = |side| {
        let size = extent([side, side, 1]);
        listed(&copy_buffer_to_texture(
            DEVICE,
            dense(&buffer, 0),
            dst,
            size,
        ))
    };
    assert_eq!(
        upload(4),
        "ok 1 2 8\nt 0 2 0 1 1\nb 0 0 8 1\nr 0 - - 2 0 0 0 0 1 4 4 1\n"
    );
    assert_eq!(upload(2), "refused 16 0 0 0 0 0\n");
}

#[test]
fn unaligned_ends_in_a_buffer() {
    let buffer = buffer(0, 9);
    let texture = texture(0, R8Unorm, D2, [8, 1, 1]);
    let download = |width| {
        let src = from_start(&texture);
        listed(&copy_texture_to_buffer(
            DEVICE,
            src,
            dense(&buffer, 1),
            extent([width, 1, 1]),
        ))
    };
    let backward = "ok 1 4 1\nt 0 0 0 1 1\nb 0 0 4 1\nb 0 4 0 0\nb 0 0 4 1\n";
    assert_eq!(
        download(1),
        format!("{backward}r 1 - - 0 0 0 0 0 1 1 1 1\n")
    );
    let past_size = "ok 1 4 8\nt 0 0 0 1 1\nb 0 0 4 1\nb 0 4 8 0\nb 0 8 12 1\n";
    assert_eq!(
        download(8),
        format!("{past_size}r 1 - - 0 0 0 0 0 1 8 1 1\n")
    );
}

#[test]
fn more_bytes_than_64_bits_count() {
    let buffer = buffer(0, 4096);
    let texture = texture(0, R8Unorm, D2, [8, 8, 3]);
    let src = strided(&buffer, Some(4_294_967_040), Some(4_294_967_295));
    let refused = copy_buffer_to_texture(DEVICE, src, from_start(&texture), texture.size);
    assert_eq!(listed(&refused), "refused 25 0 0 0 0 0\n");
}

/// All that 64 bits can count is in the block. The offset of a third region would have more bits.
#[test]
fn a_block_as_long_as_64_bits_count() {
    let texture = texture(0, R8Unorm, D2, [1, 1, 2]);
    let strides = layout(0, Some(u32::MAX), Some(u32::MAX));
    let write = |length| {
        let dst = from_start(&texture);
        write_texture(DEVICE, dst, length, strides, texture.size)
    };
    let expected = "\
ok 2 1 18446744065119617026
t 0 0 0 2 0
r 0 4294967295 4294967295 0 0 0 0 0 1 1 1 1
r 18446744065119617025 4294967295 4294967295 0 1 0 0 0 1 1 1 1
";
    let mut plan = write(u64::MAX).unwrap();
    assert_eq!(listed(&Ok(plan.clone())), expected);
    let offsets: Vec<u64> =
        std::iter::from_fn(|| plan.next_region().map(|region| region.buffer_layout.offset))
            .collect();
    assert_eq!(offsets, [0, 18_446_744_065_119_617_025]);
    assert_eq!(plan.next_region(), None);
    assert_eq!(
        write(18_446_744_065_119_617_026).map(|plan| plan.regions_left()),
        Ok(2)
    );
    assert_eq!(
        listed(&write(18_446_744_065_119_617_025)),
        "refused 8 1 0 0 18446744065119617026 18446744065119617025\n"
    );
}

#[test]
fn the_rest_of_a_buffer() {
    let refused = copy_buffer_to_buffer(DEVICE, &buffer(0, 10), 4, &buffer(1, 16), 0, None);
    assert_eq!(listed(&refused), "refused 15 0 0 6 0 0\n");
}

#[test]
fn a_volume_onto_itself() {
    let texture = texture(0, R8Unorm, D3, [4, 4, 4]);
    let dst = TexelCopyTextureInfo {
        origin: Origin3d { x: 0, y: 0, z: 1 },
        ..from_start(&texture)
    };
    let plan = copy_texture_to_texture(from_start(&texture), dst, extent([4, 4, 2]));
    let expected = "ok 1 2 0\nt 0 0 0 1 1\nt 0 0 0 1 1\nr 0 0 0 0 0 1 0 0 0 0 1 1 4 4 2\n";
    assert_eq!(listed(&plan), expected);
}

#[test]
fn layers_into_a_volume() {
    let layers = texture(0, R8Unorm, D2, [4, 4, 3]);
    let volume = texture(1, R8Unorm, D3, [4, 4, 3]);
    let plan = copy_texture_to_texture(from_start(&layers), from_start(&volume), layers.size);
    let expected = "\
ok 3 2 0
t 0 0 0 3 1
t 1 0 0 1 0
r 0 0 0 0 0 1 0 0 0 0 0 1 4 4 1
r 0 1 0 0 0 1 0 1 0 0 0 1 4 4 1
r 0 2 0 0 0 1 0 2 0 0 0 1 4 4 1
";
    assert_eq!(listed(&plan), expected);
}
