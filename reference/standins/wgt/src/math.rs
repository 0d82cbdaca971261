//! Sums of the staging buffer.

/// The least multiple of `alignment` that is not below `value`.
pub fn align_to(value: u32, alignment: u32) -> u32 {
    value.next_multiple_of(alignment)
}
