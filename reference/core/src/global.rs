//! Stand-in for the registries behind the public entry points.
//!
//! `transfer` implements its entry points on `Global`. The reference calls the
//! copy functions themselves, so the registries have no values and the entry
//! points are compiled but cannot be called.

use alloc::sync::Arc;

use crate::command::{ArcCommand, CommandEncoderError, EncoderStateError};
use crate::device::Device;
use crate::id::{BufferId, CommandEncoderId, TextureId};
use crate::resource::{Buffer, InvalidResourceError, Texture};

pub struct Global {
    pub(crate) hub: Hub,
}

#[allow(dead_code)]
impl Global {
    pub(crate) fn resolve_buffer_id(
        &self,
        _id: BufferId,
    ) -> Result<Arc<Buffer>, InvalidResourceError> {
        match self.hub.command_encoders {}
    }

    pub(crate) fn resolve_texture_id(&self, _id: TextureId) -> Arc<Texture> {
        match self.hub.command_encoders {}
    }
}

pub(crate) struct Hub {
    pub(crate) command_encoders: CommandEncoders,
}

pub(crate) enum CommandEncoders {}

#[allow(dead_code)]
impl CommandEncoders {
    pub(crate) fn get(&self, _id: CommandEncoderId) -> CommandEncoder {
        match *self {}
    }
}

#[allow(dead_code)]
pub(crate) struct CommandEncoder {
    pub(crate) data: CommandEncoderData,
    pub(crate) device: Arc<Device>,
}

#[allow(dead_code)]
pub(crate) enum CommandEncoderData {}

#[allow(dead_code)]
impl CommandEncoderData {
    pub(crate) fn lock(&self) -> Self {
        match *self {}
    }

    pub(crate) fn push_with(
        &mut self,
        _command: impl FnOnce() -> Result<ArcCommand, CommandEncoderError>,
    ) -> Result<(), EncoderStateError> {
        match *self {}
    }
}
