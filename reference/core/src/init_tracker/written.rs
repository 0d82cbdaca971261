//! A texture as a write from memory sees it: none of its layers was ever written.
//!
//! The write asks for the layers that it touches. If it does not fill them, it
//! takes them one range after another and has each cleared, which the encoder
//! records. If it does, it lets them drop untaken: these are recorded here.

use alloc::sync::Arc;
use core::array;
use core::ops::{Deref, Range};

use crate::init_tracker::{InitAction, InitLog, MemoryInitKind};
use crate::resource::Texture;

/// Stands where the Rust has an `Arc` of a texture with its tracker.
pub(crate) struct WrittenTexture<'log> {
    texture: &'log Arc<Texture>,
    pub(crate) initialization_status: InitStatusLock<'log>,
}

impl<'log> WrittenTexture<'log> {
    pub(crate) fn new(texture: &'log Arc<Texture>, log: &'log InitLog<'log>) -> Self {
        Self {
            texture,
            initialization_status: InitStatusLock { texture, log },
        }
    }
}

impl Deref for WrittenTexture<'_> {
    type Target = Arc<Texture>;

    fn deref(&self) -> &Arc<Texture> {
        self.texture
    }
}

pub(crate) struct InitStatusLock<'log> {
    texture: &'log Texture,
    log: &'log InitLog<'log>,
}

impl<'log> InitStatusLock<'log> {
    pub(crate) fn write(&self) -> InitStatus<'log> {
        InitStatus {
            mips: array::from_fn(|level| LevelStatus {
                texture: self.texture.index,
                level: level as u32,
                log: self.log,
            }),
        }
    }
}

/// The levels in place, as the Rust has them; those past the texture's count are
/// never asked for.
pub(crate) struct InitStatus<'log> {
    pub(crate) mips: [LevelStatus<'log>; hal::MAX_MIP_LEVELS as usize],
}

#[derive(Clone, Copy)]
pub(crate) struct LevelStatus<'log> {
    texture: u32,
    level: u32,
    log: &'log InitLog<'log>,
}

impl<'log> LevelStatus<'log> {
    /// The layers not yet written: all of them.
    pub(crate) fn check(&self, layers: Range<u32>) -> Option<Range<u32>> {
        Some(layers)
    }

    pub(crate) fn drain(&self, layers: Range<u32>) -> Drained<'log> {
        Drained {
            status: *self,
            layers: Some(layers),
        }
    }
}

/// Layers that count as written from now on.
pub(crate) struct Drained<'log> {
    status: LevelStatus<'log>,
    layers: Option<Range<u32>>,
}

impl Iterator for Drained<'_> {
    type Item = Range<u32>;

    fn next(&mut self) -> Option<Range<u32>> {
        self.layers.take()
    }
}

impl Drop for Drained<'_> {
    fn drop(&mut self) {
        let Some(layers) = self.layers.take() else {
            return;
        };
        self.status.log.push(InitAction::Texture {
            texture: self.status.texture,
            first_level: self.status.level,
            end_level: self.status.level + 1,
            first_layer: layers.start,
            end_layer: layers.end,
            kind: MemoryInitKind::ImplicitlyInitialized,
        });
    }
}
