//! The copy functions of wgpu-core, compiled unmodified from their own source
//! files, among recording stand-ins for the rest of the crate.
//!
//! [`Recorder`] offers the four functions, and the write from memory in two ways:
//! by the functions' own rules in the customer's order, and by the body of
//! `Queue::write_texture`. It records the regions handed to
//! the encoder and the memory initialisation actions in the order of the calls.

extern crate alloc;

mod command;
mod device;
mod global;
mod id;
mod init_tracker;
mod queue;
mod resource;
mod snatch;
mod track;

pub use command::memory::{range_or_aspects_are_refused, MemoryInfo};
pub use command::recorder::{bytes_in_linear_texture_data, Recorder};
pub use command::transfer::{CopySide, TransferError};
pub use command::CommandEncoderError;
pub use device::{Device, MissingDownlevelFlags};
pub use init_tracker::{InitAction, MemoryInitKind};
pub use resource::{
    Buffer, MissingBufferUsageError, MissingTextureUsageError, Texture, TextureErrorDimension,
};

/// Checks a message of the public interface and discards it.
macro_rules! api_log {
    ($($message:tt)+) => {
        log::trace!($($message)+)
    };
}
pub(crate) use api_log;
