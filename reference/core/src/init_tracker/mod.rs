//! Stand-in for the initialisation trackers around the unmodified `texture`.
//!
//! No tracker filters anything: every action is recorded with the range that
//! the copy function asked for.

mod written;

include!(concat!(env!("OUT_DIR"), "/texture_mod.rs"));

use alloc::vec::Vec;
use core::cell::RefCell;
use core::ops::Range;

use crate::resource::Buffer;
pub(crate) use texture::{
    has_copy_partial_init_tracker_coverage, TextureInitRange, TextureInitTrackerAction,
};
pub(crate) use written::WrittenTexture;

/// What a copy does to memory: fill it, or rely on its being initialised.
#[derive(Clone, Copy, Debug, Eq, PartialEq)]
pub enum MemoryInitKind {
    ImplicitlyInitialized,
    NeedsInitializedMemory,
}

/// An initialisation action as the copy function asked for it.
#[derive(Clone, Copy, Debug, Eq, PartialEq)]
pub enum InitAction {
    /// Levels and layers of the texture with this index; ends are excluded.
    Texture {
        texture: u32,
        first_level: u32,
        end_level: u32,
        first_layer: u32,
        end_layer: u32,
        kind: MemoryInitKind,
    },
    /// Bytes of the buffer with this index; the end is excluded. A range may
    /// run backward or past the buffer's size.
    Buffer {
        buffer: u32,
        start: wgt::BufferAddress,
        end: wgt::BufferAddress,
        kind: MemoryInitKind,
    },
}

/// The actions of textures and buffers in the order of the calls.
pub(crate) struct InitLog<'list>(RefCell<&'list mut Vec<InitAction>>);

impl<'list> InitLog<'list> {
    pub(crate) fn new(list: &'list mut Vec<InitAction>) -> Self {
        Self(RefCell::new(list))
    }

    pub(crate) fn push(&self, action: InitAction) {
        self.0.borrow_mut().push(action);
    }
}

/// An action on a buffer, on its way to the log.
pub(crate) struct BufferInitTrackerAction {
    pub(crate) buffer: u32,
    pub(crate) range: Range<wgt::BufferAddress>,
    pub(crate) kind: MemoryInitKind,
}

/// A buffer's tracker: knows nothing and lets every action through.
#[derive(Debug)]
pub(crate) struct BufferInitTracker;

impl BufferInitTracker {
    pub(crate) fn read(&self) -> &Self {
        self
    }

    pub(crate) fn create_action(
        &self,
        buffer: &Buffer,
        range: Range<wgt::BufferAddress>,
        kind: MemoryInitKind,
    ) -> Option<BufferInitTrackerAction> {
        Some(BufferInitTrackerAction {
            buffer: buffer.index,
            range,
            kind,
        })
    }
}

/// Named by `TextureInitTracker`, of which the copy functions make no use.
#[derive(Clone, Debug)]
pub(crate) struct InitTracker<Idx>(core::marker::PhantomData<Idx>);

#[allow(dead_code)]
impl InitTracker<u32> {
    pub(crate) fn new(_size: u32) -> Self {
        unreachable!("no texture has a tracker")
    }

    pub(crate) fn check(&self, _range: Range<u32>) -> Option<Range<u32>> {
        unreachable!("no texture has a tracker")
    }

    pub(crate) fn discard(&mut self, _position: u32) {
        unreachable!("no texture has a tracker")
    }
}
