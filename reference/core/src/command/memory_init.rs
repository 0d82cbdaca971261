//! Where the copy functions put the initialisation actions of textures and of
//! buffers: both ends write to one log, which keeps the order of the calls.

use alloc::sync::Arc;
use alloc::vec::Vec;

use crate::init_tracker::{BufferInitTrackerAction, InitAction, InitLog, TextureInitTrackerAction};
use crate::resource::Texture;

/// The buffers' end of the log.
pub(crate) struct BufferMemoryInitActions<'log>(pub(crate) &'log InitLog<'log>);

impl BufferMemoryInitActions<'_> {
    pub(crate) fn extend(&mut self, action: Option<BufferInitTrackerAction>) {
        if let Some(action) = action {
            self.0.push(InitAction::Buffer {
                buffer: action.buffer,
                start: action.range.start,
                end: action.range.end,
                kind: action.kind,
            });
        }
    }
}

/// The textures' end of the log.
pub(crate) struct TextureMemoryActions<'log>(pub(crate) &'log InitLog<'log>);

impl TextureMemoryActions<'_> {
    /// Records the action as it is; nothing is due at once.
    pub(crate) fn register_init_action(
        &mut self,
        action: &TextureInitTrackerAction,
    ) -> Vec<TextureSurfaceDiscard> {
        self.0.push(InitAction::Texture {
            texture: action.texture.index,
            first_level: action.range.mip_range.start,
            end_level: action.range.mip_range.end,
            first_layer: action.range.layer_range.start,
            end_layer: action.range.layer_range.end,
            kind: action.kind,
        });
        Vec::new()
    }
}

/// A layer that would have to be initialised at once.
pub(crate) struct TextureSurfaceDiscard {
    pub(crate) texture: Arc<Texture>,
    pub(crate) mip_level: u32,
    pub(crate) layer: u32,
}
