//! Stand-in for the identifiers of the public entry points, which are
//! compiled but not called.

#[derive(Clone, Copy, Debug)]
pub enum BufferId {}

#[derive(Clone, Copy, Debug)]
pub enum CommandEncoderId {}

#[derive(Clone, Copy, Debug)]
pub enum TextureId {}
