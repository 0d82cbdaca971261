//! Words of flags, with the methods that wgpu's have.

use std::ops::{BitOr, BitOrAssign};

macro_rules! flag_word {
    (
        $(#[$about:meta])*
        $name:ident { $($(#[$flag_about:meta])* $flag:ident = $bits:expr;)* }
    ) => {
        $(#[$about])*
        #[derive(Clone, Copy, Debug, Default, PartialEq, Eq, Hash)]
        #[repr(transparent)]
        pub struct $name(u32);

        impl $name {
            $($(#[$flag_about])* pub const $flag: Self = Self($bits);)*

            /// No flag.
            #[inline]
            pub const fn empty() -> Self {
                Self(0)
            }

            /// The flags of a word; bits without a name are kept.
            #[inline]
            pub const fn from_bits_retain(bits: u32) -> Self {
                Self(bits)
            }

            /// The word of these flags.
            #[inline]
            pub const fn bits(self) -> u32 {
                self.0
            }

            /// Whether every one of `flags` is among these.
            #[inline]
            pub const fn contains(self, flags: Self) -> bool {
                self.0 & flags.0 == flags.0
            }
        }

        impl BitOr for $name {
            type Output = Self;

            #[inline]
            fn bitor(self, flags: Self) -> Self {
                Self(self.0 | flags.0)
            }
        }

        impl BitOrAssign for $name {
            #[inline]
            fn bitor_assign(&mut self, flags: Self) {
                *self = *self | flags;
            }
        }
    };
}

flag_word! {
    /// What a buffer may be used for. A word above 1,023 is refused as
    /// [`InvalidBufferRecord`](crate::TransferError::InvalidBufferRecord).
    BufferUsages {
        /// The source of copies.
        COPY_SRC = 4;
        /// The destination of copies.
        COPY_DST = 8;
        /// Indices of a draw.
        INDEX = 16;
        /// Vertices of a draw.
        VERTEX = 32;
        /// A uniform binding.
        UNIFORM = 64;
        /// A storage binding.
        STORAGE = 128;
        /// Arguments of an indirect call.
        INDIRECT = 256;
    }
}

flag_word! {
    /// What a texture may be used for. A word above 31 is refused as
    /// [`InvalidTextureRecord`](crate::TransferError::InvalidTextureRecord).
    TextureUsages {
        /// The source of copies.
        COPY_SRC = 1;
        /// The destination of copies.
        COPY_DST = 2;
    }
}

flag_word! {
    /// The aspects of a format that a region copies.
    FormatAspects {
        /// The texels of a format with neither depth, stencil nor planes.
        COLOR = 1;
        /// The depth.
        DEPTH = 2;
        /// The stencil.
        STENCIL = 4;
        /// The first plane.
        PLANE_0 = 8;
        /// The second plane.
        PLANE_1 = 16;
        /// The third plane.
        PLANE_2 = 32;
        /// Depth and stencil.
        DEPTH_STENCIL = 2 | 4;
    }
}
