//! Stand-in for the lock under which raw resources may be taken away.

/// Nothing is ever taken away here.
#[derive(Debug)]
pub(crate) struct SnatchGuard;

#[derive(Debug)]
pub(crate) struct SnatchLock;

#[allow(dead_code)]
impl SnatchLock {
    pub(crate) fn read(&self) -> SnatchGuard {
        SnatchGuard
    }
}
