//! The classes of errors that WebGPU tells apart.

/// The class of an error.
#[derive(Clone, Copy, Debug, Eq, PartialEq)]
pub enum ErrorType {
    Validation,
}

/// An error that belongs to a class.
pub trait WebGpuError: std::error::Error {
    fn webgpu_error_type(&self) -> ErrorType;
}
