//! Stand-in for the trackers of resource states: no barrier is ever needed.

use crate::resource::{Buffer, Texture};
use crate::snatch::SnatchGuard;

#[derive(Debug, Default)]
pub(crate) struct Tracker {
    pub(crate) buffers: BufferTracker,
    pub(crate) textures: TextureTracker,
}

/// The device's trackers: there is nothing in them to be locked.
#[derive(Debug)]
pub(crate) struct TrackerLock;

impl TrackerLock {
    pub(crate) fn lock(&self) -> Tracker {
        Tracker::default()
    }
}

#[derive(Debug, Default)]
pub(crate) struct BufferTracker;

impl BufferTracker {
    pub(crate) fn set_single(
        &mut self,
        _buffer: &Buffer,
        _state: wgt::BufferUses,
    ) -> Option<PendingBufferTransition> {
        None
    }
}

#[derive(Debug, Default)]
pub(crate) struct TextureTracker;

impl TextureTracker {
    pub(crate) fn set_single(
        &mut self,
        _texture: &Texture,
        _selector: wgt::TextureSelector,
        _state: wgt::TextureUses,
    ) -> std::iter::Empty<PendingTextureTransition> {
        std::iter::empty()
    }
}

pub(crate) enum PendingBufferTransition {}

impl PendingBufferTransition {
    pub(crate) fn into_hal<'a>(
        self,
        _buffer: &'a Buffer,
        _snatch_guard: &'a SnatchGuard,
    ) -> hal::BufferBarrier<'a> {
        match self {}
    }
}

pub(crate) enum PendingTextureTransition {}

impl PendingTextureTransition {
    pub(crate) fn into_hal(self, _raw: &hal::RawTexture) -> hal::TextureBarrier {
        match self {}
    }
}
