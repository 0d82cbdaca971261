//! Random job sheets, biased to the places where the copy functions decide.
//!
//! The sheets depend on the seed alone: the same seed gives the same sheets on
//! every machine.

mod buffer_copies;
mod coverage;
mod malformed;
mod records;
mod rng;
mod texture_copies;

pub use coverage::Coverage;
pub use malformed::malformed_text;
pub use rng::Rng;

use copy_sheet::{CopyKind, Device, Sheet};
use records::Records;

/// The sheet with this number of the run with this seed.
pub fn random_sheet(seed: u64, number: u64, copies: usize) -> Sheet {
    let rng = &mut Rng::for_sheet(seed, number);
    let device = Device {
        depth_texture_and_buffer_copies: rng.chance(80),
        unrestricted_index_buffer: rng.chance(70),
    };
    let records = Records::random(rng);
    let copies = (0..copies)
        .map(|_| match rng.pick(&CopyKind::ALL) {
            CopyKind::BufferToBuffer => buffer_copies::buffer_to_buffer(rng, &records),
            CopyKind::BufferToTexture => texture_copies::buffer_to_texture(rng, &records),
            CopyKind::TextureToBuffer => texture_copies::texture_to_buffer(rng, &records),
            CopyKind::TextureToTexture => texture_copies::texture_to_texture(rng, &records),
            CopyKind::MemoryToTexture => texture_copies::memory_to_texture(rng, &records),
        })
        .collect();
    Sheet {
        device,
        textures: records.textures,
        buffers: records.buffers,
        copies,
    }
}
