//! Finds the initialisation tracker of wgpu-core and writes the module
//! declaration that compiles it where it lies.

#[path = "../sources.rs"]
mod sources;

/// The module's own two modules, of textures and buffers, are found beside it.
const MODULE: sources::Module = ("init_tracker_mod.rs", "init_tracker", "init_tracker/mod.rs");
const BESIDE_IT: [&str; 2] = ["init_tracker/texture.rs", "init_tracker/buffer.rs"];

fn main() {
    sources::watch();
    sources::declare(MODULE);
    for source in BESIDE_IT {
        sources::find(source);
    }
}
