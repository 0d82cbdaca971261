//! Sets of flags.

/// Declares a set of flags kept in one unsigned word.
#[macro_export]
macro_rules! flag_set {
    (
        $(#[$attribute:meta])*
        $name:ident: $word:ty { $($flag:ident = $bits:expr;)* }
    ) => {
        $(#[$attribute])*
        #[derive(Clone, Copy, Debug, Eq, PartialEq)]
        pub struct $name($word);

        impl $name {
            $(pub const $flag: Self = Self($bits);)*

            /// The set whose word is `bits`; bits without a name are kept.
            pub const fn from_bits_retain(bits: $word) -> Self {
                Self(bits)
            }

            pub const fn bits(self) -> $word {
                self.0
            }

            pub const fn is_empty(self) -> bool {
                self.0 == 0
            }

            pub const fn contains(self, other: Self) -> bool {
                self.0 & other.0 == other.0
            }

            pub const fn intersects(self, other: Self) -> bool {
                self.0 & other.0 != 0
            }

            pub const fn union(self, other: Self) -> Self {
                Self(self.0 | other.0)
            }
        }

        impl std::ops::BitOr for $name {
            type Output = Self;

            fn bitor(self, other: Self) -> Self {
                self.union(other)
            }
        }

        impl std::ops::BitAnd for $name {
            type Output = Self;

            fn bitand(self, other: Self) -> Self {
                Self(self.0 & other.0)
            }
        }
    };
}

flag_set! {
    /// What a buffer may be used for.
    BufferUsages: u32 {
        COPY_SRC = 4;
        COPY_DST = 8;
        INDEX = 16;
        VERTEX = 32;
        UNIFORM = 64;
        STORAGE = 128;
        INDIRECT = 256;
    }
}

flag_set! {
    /// What a texture may be used for.
    TextureUsages: u32 {
        COPY_SRC = 1;
        COPY_DST = 2;
    }
}

flag_set! {
    /// Facts about the device that not every device has.
    DownlevelFlags: u32 {
        DEPTH_TEXTURE_AND_BUFFER_COPIES = 1;
        UNRESTRICTED_INDEX_BUFFER = 2;
    }
}

flag_set! {
    /// A state that the buffer tracker is told of.
    BufferUses: u32 {
        COPY_SRC = 1;
        COPY_DST = 2;
        MAP_WRITE = 4;
    }
}

flag_set! {
    /// A state that the texture tracker is told of.
    TextureUses: u32 {
        COPY_SRC = 1;
        COPY_DST = 2;
    }
}

flag_set! {
    /// Flags of the instance; the copies use none.
    InstanceFlags: u32 {}
}
