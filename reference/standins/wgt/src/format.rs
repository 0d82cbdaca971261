//! The 22 formats of the scope document, in its order, and their facts.

/// The aspects a copy may ask for, in the scope document's order.
#[derive(Clone, Copy, Debug, Eq, PartialEq)]
pub enum TextureAspect {
    All,
    StencilOnly,
    DepthOnly,
    Plane0,
    Plane1,
    Plane2,
}

impl TextureAspect {
    /// The aspect that names a plane.
    pub fn from_plane(plane: u32) -> Option<Self> {
        match plane {
            0 => Some(Self::Plane0),
            1 => Some(Self::Plane1),
            2 => Some(Self::Plane2),
            _ => None,
        }
    }

    /// The plane that an aspect names.
    pub fn to_plane(self) -> Option<u32> {
        match self {
            Self::Plane0 => Some(0),
            Self::Plane1 => Some(1),
            Self::Plane2 => Some(2),
            Self::All | Self::StencilOnly | Self::DepthOnly => None,
        }
    }
}

/// A texture format.
#[derive(Clone, Copy, Debug, Eq, PartialEq)]
pub enum TextureFormat {
    R8Unorm,
    Rg8Unorm,
    Rgba8Unorm,
    Rgba8UnormSrgb,
    Bgra8Unorm,
    Bgra8UnormSrgb,
    R16Float,
    Rgba16Float,
    R32Float,
    Rg32Float,
    Rgba32Float,
    Bc1RgbaUnorm,
    Bc1RgbaUnormSrgb,
    Bc7RgbaUnorm,
    Bc7RgbaUnormSrgb,
    Stencil8,
    Depth16Unorm,
    Depth24Plus,
    Depth24PlusStencil8,
    Depth32Float,
    Depth32FloatStencil8,
    NV12,
}

impl TextureFormat {
    /// Every format; a format's place here is its number.
    pub const ALL: [Self; 22] = [
        Self::R8Unorm,
        Self::Rg8Unorm,
        Self::Rgba8Unorm,
        Self::Rgba8UnormSrgb,
        Self::Bgra8Unorm,
        Self::Bgra8UnormSrgb,
        Self::R16Float,
        Self::Rgba16Float,
        Self::R32Float,
        Self::Rg32Float,
        Self::Rgba32Float,
        Self::Bc1RgbaUnorm,
        Self::Bc1RgbaUnormSrgb,
        Self::Bc7RgbaUnorm,
        Self::Bc7RgbaUnormSrgb,
        Self::Stencil8,
        Self::Depth16Unorm,
        Self::Depth24Plus,
        Self::Depth24PlusStencil8,
        Self::Depth32Float,
        Self::Depth32FloatStencil8,
        Self::NV12,
    ];

    /// Width and height of a block, in texels.
    pub fn block_dimensions(self) -> (u32, u32) {
        match self {
            Self::Bc1RgbaUnorm
            | Self::Bc1RgbaUnormSrgb
            | Self::Bc7RgbaUnorm
            | Self::Bc7RgbaUnormSrgb => (4, 4),
            _ => (1, 1),
        }
    }

    /// The bytes that a block takes in a buffer.
    ///
    /// A format with more than one aspect or plane has a size for each one
    /// that can be copied, and none as a whole.
    pub fn block_copy_size(self, aspect: Option<TextureAspect>) -> Option<u32> {
        match self {
            Self::R8Unorm | Self::Stencil8 => Some(1),
            Self::Rg8Unorm | Self::R16Float | Self::Depth16Unorm => Some(2),
            Self::Rgba8Unorm
            | Self::Rgba8UnormSrgb
            | Self::Bgra8Unorm
            | Self::Bgra8UnormSrgb
            | Self::R32Float
            | Self::Depth32Float => Some(4),
            Self::Rgba16Float | Self::Rg32Float | Self::Bc1RgbaUnorm | Self::Bc1RgbaUnormSrgb => {
                Some(8)
            }
            Self::Rgba32Float | Self::Bc7RgbaUnorm | Self::Bc7RgbaUnormSrgb => Some(16),
            Self::Depth24Plus => None,
            Self::Depth24PlusStencil8 => match aspect {
                Some(TextureAspect::StencilOnly) => Some(1),
                _ => None,
            },
            Self::Depth32FloatStencil8 => match aspect {
                Some(TextureAspect::DepthOnly) => Some(4),
                Some(TextureAspect::StencilOnly) => Some(1),
                _ => None,
            },
            Self::NV12 => match aspect {
                Some(TextureAspect::Plane0) => Some(1),
                Some(TextureAspect::Plane1) => Some(2),
                _ => None,
            },
        }
    }

    pub fn has_depth_aspect(self) -> bool {
        matches!(
            self,
            Self::Depth16Unorm
                | Self::Depth24Plus
                | Self::Depth24PlusStencil8
                | Self::Depth32Float
                | Self::Depth32FloatStencil8
        )
    }

    pub fn has_stencil_aspect(self) -> bool {
        matches!(
            self,
            Self::Stencil8 | Self::Depth24PlusStencil8 | Self::Depth32FloatStencil8
        )
    }

    pub fn is_depth_stencil_format(self) -> bool {
        self.has_depth_aspect() || self.has_stencil_aspect()
    }

    pub fn is_multi_planar_format(self) -> bool {
        self.planes().is_some()
    }

    /// The number of planes of a planar format.
    pub fn planes(self) -> Option<u32> {
        match self {
            Self::NV12 => Some(2),
            _ => None,
        }
    }

    /// By how much a plane is smaller than the texture, in width and height.
    pub fn subsampling_factors(self, plane: Option<u32>) -> (u32, u32) {
        match (self, plane) {
            (Self::NV12, Some(1)) => (2, 2),
            _ => (1, 1),
        }
    }

    /// The format of one aspect taken alone; the whole of a format with one
    /// aspect is that format.
    pub fn aspect_specific_format(self, aspect: TextureAspect) -> Option<Self> {
        match (self, aspect) {
            (Self::NV12, TextureAspect::Plane0) => Some(Self::R8Unorm),
            (Self::NV12, TextureAspect::Plane1) => Some(Self::Rg8Unorm),
            (Self::NV12, _) => None,
            (format, TextureAspect::DepthOnly) if format.has_depth_aspect() => Some(match format {
                Self::Depth24PlusStencil8 => Self::Depth24Plus,
                Self::Depth32FloatStencil8 => Self::Depth32Float,
                _ => format,
            }),
            (format, TextureAspect::StencilOnly) if format.has_stencil_aspect() => {
                Some(Self::Stencil8)
            }
            (Self::Depth24PlusStencil8 | Self::Depth32FloatStencil8, _) => None,
            (format, TextureAspect::All) => Some(format),
            _ => None,
        }
    }

    /// The same format read without the srgb transfer function.
    pub fn remove_srgb_suffix(self) -> Self {
        match self {
            Self::Rgba8UnormSrgb => Self::Rgba8Unorm,
            Self::Bgra8UnormSrgb => Self::Bgra8Unorm,
            Self::Bc1RgbaUnormSrgb => Self::Bc1RgbaUnorm,
            Self::Bc7RgbaUnormSrgb => Self::Bc7RgbaUnorm,
            format => format,
        }
    }
}

#[cfg(test)]
mod tests {
    use super::*;

    /// The number of a format is its place in the scope document's list.
    #[test]
    fn numbers_follow_the_list() {
        for (number, format) in TextureFormat::ALL.into_iter().enumerate() {
            assert_eq!(format as usize, number);
        }
    }

    #[test]
    fn bytes_of_a_block() {
        let whole: [Option<u32>; 22] = [
            Some(1),
            Some(2),
            Some(4),
            Some(4),
            Some(4),
            Some(4),
            Some(2),
            Some(8),
            Some(4),
            Some(8),
            Some(16),
            Some(8),
            Some(8),
            Some(16),
            Some(16),
            Some(1),
            Some(2),
            None,
            None,
            Some(4),
            None,
            None,
        ];
        for (format, bytes) in TextureFormat::ALL.into_iter().zip(whole) {
            let asked = Some(TextureAspect::All);
            assert_eq!(format.block_copy_size(asked), bytes, "{format:?}");
        }
        use TextureAspect::{DepthOnly, Plane0, Plane1, Plane2, StencilOnly};
        use TextureFormat::{Depth24Plus, Depth24PlusStencil8, Depth32FloatStencil8, NV12};
        for (format, aspect, bytes) in [
            (Depth24Plus, DepthOnly, None),
            (Depth24PlusStencil8, DepthOnly, None),
            (Depth24PlusStencil8, StencilOnly, Some(1)),
            (Depth32FloatStencil8, DepthOnly, Some(4)),
            (Depth32FloatStencil8, StencilOnly, Some(1)),
            (NV12, Plane0, Some(1)),
            (NV12, Plane1, Some(2)),
            (NV12, Plane2, None),
        ] {
            assert_eq!(format.block_copy_size(Some(aspect)), bytes);
        }
    }

    #[test]
    fn kinds_of_formats() {
        for (number, format) in TextureFormat::ALL.into_iter().enumerate() {
            let block = if (11..=14).contains(&number) { 4 } else { 1 };
            assert_eq!(format.block_dimensions(), (block, block));
            assert_eq!(
                format.is_depth_stencil_format(),
                (15..=20).contains(&number)
            );
            assert_eq!(format.is_multi_planar_format(), number == 21);
            let linear = if [3, 5, 12, 14].contains(&number) {
                number - 1
            } else {
                number
            };
            assert_eq!(format.remove_srgb_suffix() as usize, linear);
        }
    }

    #[test]
    fn planes() {
        let nv12 = TextureFormat::NV12;
        assert_eq!(nv12.planes(), Some(2));
        assert_eq!(nv12.subsampling_factors(Some(0)), (1, 1));
        assert_eq!(nv12.subsampling_factors(Some(1)), (2, 2));
        for (aspect, format) in [
            (TextureAspect::All, None),
            (TextureAspect::Plane0, Some(TextureFormat::R8Unorm)),
            (TextureAspect::Plane1, Some(TextureFormat::Rg8Unorm)),
            (TextureAspect::Plane2, None),
        ] {
            assert_eq!(nv12.aspect_specific_format(aspect), format);
        }
        for plane in 0..3 {
            let aspect = TextureAspect::from_plane(plane).unwrap();
            assert_eq!(aspect.to_plane(), Some(plane));
        }
        assert_eq!(TextureAspect::from_plane(3), None);
        assert_eq!(TextureAspect::DepthOnly.to_plane(), None);
    }
}
