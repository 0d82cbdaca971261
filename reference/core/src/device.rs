//! Stand-in for the device: its two facts.

use alloc::boxed::Box;

use crate::snatch::SnatchLock;
use crate::track::TrackerLock;

/// The rows of staging buffers start at multiples of WebGPU's own alignment, so
/// that strides in memory may be those of the staging buffer and may not.
const BUFFER_COPY_PITCH: wgt::BufferSize =
    wgt::BufferSize::new(wgt::COPY_BYTES_PER_ROW_ALIGNMENT as u64).unwrap();

/// A device is never lost here.
#[derive(Clone, Debug)]
#[doc(hidden)]
pub enum DeviceError {}

/// A fact that a copy needs and the device lacks.
#[derive(Clone, Debug)]
pub struct MissingDownlevelFlags(pub wgt::DownlevelFlags);

impl std::fmt::Display for MissingDownlevelFlags {
    fn fmt(&self, formatter: &mut std::fmt::Formatter<'_>) -> std::fmt::Result {
        write!(formatter, "the device lacks {:?}", self.0)
    }
}

impl std::error::Error for MissingDownlevelFlags {}

/// What the device can do beyond the least.
#[derive(Debug)]
pub(crate) struct DownlevelCapabilities {
    pub(crate) flags: wgt::DownlevelFlags,
}

/// A device.
#[derive(Debug)]
pub struct Device {
    pub(crate) downlevel: DownlevelCapabilities,
    pub(crate) alignments: hal::Alignments,
    pub(crate) zero_buffer: Box<hal::RawBuffer>,
    pub(crate) instance_flags: wgt::InstanceFlags,
    pub(crate) snatchable_lock: SnatchLock,
    pub(crate) trackers: TrackerLock,
}

impl Device {
    pub fn new(flags: wgt::DownlevelFlags) -> Self {
        Self {
            downlevel: DownlevelCapabilities { flags },
            alignments: hal::Alignments {
                buffer_copy_pitch: BUFFER_COPY_PITCH,
            },
            zero_buffer: Box::new(hal::RawBuffer),
            instance_flags: wgt::InstanceFlags::from_bits_retain(0),
            snatchable_lock: SnatchLock,
            trackers: TrackerLock,
        }
    }

    pub(crate) fn check_is_valid(&self) -> Result<(), DeviceError> {
        Ok(())
    }

    pub(crate) fn require_downlevel_flags(
        &self,
        flags: wgt::DownlevelFlags,
    ) -> Result<(), MissingDownlevelFlags> {
        if self.downlevel.flags.contains(flags) {
            Ok(())
        } else {
            Err(MissingDownlevelFlags(flags))
        }
    }
}
