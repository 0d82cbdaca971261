//! The planner is lent textures, their views and extents where they lie, and reads them as rows of 32-bit words.

use std::mem::{align_of, offset_of, size_of, transmute};

use copy_planner::*;

const EXTENT: Extent3d = Extent3d {
    width: 16,
    height: 8,
    depth_or_array_layers: 4,
};

const TEXTURE: Texture = Texture {
    id: 77,
    format: TextureFormat::Depth32Float,
    dimension: TextureDimension::D2,
    size: EXTENT,
    mip_level_count: 3,
    sample_count: 1,
    usage: TextureUsages::COPY_DST,
};

#[test]
fn extents() {
    let offsets = [
        offset_of!(Extent3d, width),
        offset_of!(Extent3d, height),
        offset_of!(Extent3d, depth_or_array_layers),
    ];
    assert_eq!(offsets, [0, 4, 8]);
    assert_eq!((size_of::<Extent3d>(), align_of::<Extent3d>()), (12, 4));
}

/// The planner reads the eight words before the id.
#[test]
fn textures() {
    let offsets = [
        offset_of!(Texture, format),
        offset_of!(Texture, dimension),
        offset_of!(Texture, size),
        offset_of!(Texture, mip_level_count),
        offset_of!(Texture, sample_count),
        offset_of!(Texture, usage),
        offset_of!(Texture, id),
    ];
    assert_eq!(offsets, [0, 4, 8, 20, 24, 28, 32]);
    assert_eq!((size_of::<Texture>(), align_of::<Texture>()), (36, 4));
    // SAFETY: every field is one word or three, and any word is a number.
    let words: [u32; 9] = unsafe { transmute(TEXTURE) };
    assert_eq!(words, [19, 2, 16, 8, 4, 3, 1, 2, 77]);
}

/// The planner reads the five words from the level on.
#[test]
fn views() {
    let start = offset_of!(TexelCopyTextureInfo, mip_level);
    let origin = offset_of!(TexelCopyTextureInfo, origin) - start;
    let offsets = [
        origin + offset_of!(Origin3d, x),
        origin + offset_of!(Origin3d, y),
        origin + offset_of!(Origin3d, z),
        offset_of!(TexelCopyTextureInfo, aspect) - start,
    ];
    assert_eq!(offsets, [4, 8, 12, 16]);
    assert!(size_of::<TexelCopyTextureInfo>() >= start + size_of::<[u32; 5]>());
}

#[test]
fn numbers_of_enums() {
    use TextureAspect::*;
    use TextureDimension::*;
    let sizes = [
        size_of::<TextureFormat>(),
        size_of::<TextureDimension>(),
        size_of::<TextureAspect>(),
        size_of::<TextureUsages>(),
        size_of::<BufferUsages>(),
    ];
    assert_eq!(sizes, [4; 5]);
    let formats = TextureFormat::ALL.map(|format| format as usize);
    assert!(formats.into_iter().eq(0..22));
    assert_eq!([D1, D2, D3].map(|dimension| dimension as u32), [1, 2, 3]);
    let aspects = [All, StencilOnly, DepthOnly, Plane0, Plane1, Plane2];
    assert_eq!(aspects.map(|aspect| aspect as u32), [0, 1, 2, 3, 4, 5]);
}
