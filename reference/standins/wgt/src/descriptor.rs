//! Extents and texture descriptors.

use crate::{TextureFormat, TextureUsages};

/// A place in a texture, in texels.
#[derive(Clone, Copy, Debug, Eq, PartialEq)]
pub struct Origin3d {
    pub x: u32,
    pub y: u32,
    pub z: u32,
}

/// A size in texels, with depth slices (3D) or array layers (2D).
#[derive(Clone, Copy, Debug, Eq, PartialEq)]
pub struct Extent3d {
    pub width: u32,
    pub height: u32,
    pub depth_or_array_layers: u32,
}

impl Extent3d {
    /// Width and height rounded up to whole blocks of `format`.
    pub fn physical_size(&self, format: TextureFormat) -> Self {
        let (block_width, block_height) = format.block_dimensions();
        Self {
            width: self.width.next_multiple_of(block_width),
            height: self.height.next_multiple_of(block_height),
            ..*self
        }
    }
}

/// The number of sides by which a texture is addressed.
#[derive(Clone, Copy, Debug, Eq, PartialEq)]
pub enum TextureDimension {
    D1,
    D2,
    D3,
}

/// What a texture is created from.
#[derive(Clone, Debug)]
pub struct TextureDescriptor<L, V> {
    pub label: L,
    pub size: Extent3d,
    pub mip_level_count: u32,
    pub sample_count: u32,
    pub dimension: TextureDimension,
    pub format: TextureFormat,
    pub usage: TextureUsages,
    pub view_formats: V,
}

impl<L, V> TextureDescriptor<L, V> {
    /// The logical size of a level, or nothing past the last level.
    ///
    /// Every side is halved once per level and stays at least 1; layers are
    /// not halved.
    pub fn mip_level_size(&self, level: u32) -> Option<Extent3d> {
        if level >= self.mip_level_count {
            return None;
        }
        let halved = |side: u32| side.checked_shr(level).unwrap_or(0).max(1);
        Some(Extent3d {
            width: halved(self.size.width),
            height: match self.dimension {
                TextureDimension::D1 => 1,
                TextureDimension::D2 | TextureDimension::D3 => halved(self.size.height),
            },
            depth_or_array_layers: match self.dimension {
                TextureDimension::D1 => 1,
                TextureDimension::D2 => self.size.depth_or_array_layers,
                TextureDimension::D3 => halved(self.size.depth_or_array_layers),
            },
        })
    }

    /// The size of one layer of a level, or of one of its planes.
    pub fn compute_render_extent(&self, level: u32, plane: Option<u32>) -> Extent3d {
        let halved = |side: u32| side.checked_shr(level).unwrap_or(0).max(1);
        let (width_factor, height_factor) = match plane {
            Some(_) => self.format.subsampling_factors(plane),
            None => (1, 1),
        };
        Extent3d {
            width: halved(self.size.width) / width_factor,
            height: halved(self.size.height) / height_factor,
            depth_or_array_layers: 1,
        }
    }
}

#[cfg(test)]
mod tests {
    use super::*;

    fn descriptor(
        dimension: TextureDimension,
        format: TextureFormat,
        size: (u32, u32, u32),
        mip_level_count: u32,
    ) -> TextureDescriptor<(), ()> {
        TextureDescriptor {
            label: (),
            size: extent(size),
            mip_level_count,
            sample_count: 1,
            dimension,
            format,
            usage: TextureUsages::COPY_SRC,
            view_formats: (),
        }
    }

    fn extent((width, height, depth_or_array_layers): (u32, u32, u32)) -> Extent3d {
        Extent3d {
            width,
            height,
            depth_or_array_layers,
        }
    }

    #[test]
    fn level_sizes() {
        let r8unorm = TextureFormat::R8Unorm;
        let layers = descriptor(TextureDimension::D2, r8unorm, (20, 6, 5), 5);
        assert_eq!(layers.mip_level_size(0), Some(extent((20, 6, 5))));
        assert_eq!(layers.mip_level_size(1), Some(extent((10, 3, 5))));
        assert_eq!(layers.mip_level_size(4), Some(extent((1, 1, 5))));
        assert_eq!(layers.mip_level_size(5), None);
        assert_eq!(layers.mip_level_size(u32::MAX), None);

        let volume = descriptor(TextureDimension::D3, r8unorm, (20, 6, 5), 5);
        assert_eq!(volume.mip_level_size(1), Some(extent((10, 3, 2))));
        assert_eq!(volume.mip_level_size(4), Some(extent((1, 1, 1))));

        let line = descriptor(TextureDimension::D1, r8unorm, (20, 1, 1), 1);
        assert_eq!(line.mip_level_size(0), Some(extent((20, 1, 1))));
        assert_eq!(line.mip_level_size(1), None);
    }

    #[test]
    fn physical_sizes() {
        let bc1 = TextureFormat::Bc1RgbaUnorm;
        let texture = descriptor(TextureDimension::D2, bc1, (20, 8, 3), 5);
        let level = texture.mip_level_size(2).unwrap();
        assert_eq!(level, extent((5, 2, 3)));
        assert_eq!(level.physical_size(bc1), extent((8, 4, 3)));
        assert_eq!(level.physical_size(TextureFormat::R8Unorm), level);
    }

    #[test]
    fn plane_sizes() {
        let nv12 = descriptor(TextureDimension::D2, TextureFormat::NV12, (6, 4, 2), 1);
        assert_eq!(nv12.compute_render_extent(0, Some(0)), extent((6, 4, 1)));
        assert_eq!(nv12.compute_render_extent(0, Some(1)), extent((3, 2, 1)));
    }
}
