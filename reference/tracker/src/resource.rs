//! Stand-in for textures and buffers: actions name them, and nothing more.

#[derive(Debug)]
pub(crate) struct Buffer;

#[derive(Debug)]
pub(crate) struct Texture;
