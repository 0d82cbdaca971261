//! Stand-in for the state that the copy functions are handed.

use alloc::sync::Arc;

use crate::command::memory_init::{BufferMemoryInitActions, TextureMemoryActions};
use crate::device::Device;
use crate::snatch::SnatchGuard;
use crate::track::Tracker;

/// What a copy function works on.
pub(crate) struct EncodingState<'snatch_guard, 'cmd_enc> {
    pub(crate) device: &'cmd_enc Arc<Device>,
    pub(crate) raw_encoder: &'cmd_enc mut hal::CommandEncoder,
    pub(crate) tracker: &'cmd_enc mut Tracker,
    pub(crate) buffer_memory_init_actions: BufferMemoryInitActions<'cmd_enc>,
    pub(crate) texture_memory_actions: TextureMemoryActions<'cmd_enc>,
    pub(crate) snatch_guard: &'snatch_guard SnatchGuard,
}
