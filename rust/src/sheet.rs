//! Job sheets and their listings.

use crate::ffi;

/// A longer sheet is refused unread.
const MAX_SHEET_BYTES: usize = 65_536;

/// Most listings have fewer bytes than this many times those of their sheet.
const LISTING_PER_SHEET: usize = 4;

/// The listing of a job sheet: for each copy whether it is accepted, its ranges and regions, or why it is refused. An ill sheet's
/// listing is `sheet` and the number of its first ill line, 0 where the sheet is too long.
pub fn list_sheet(sheet: &[u8]) -> Vec<u8> {
    let mut listing = vec![0; LISTING_PER_SHEET * sheet.len().min(MAX_SHEET_BYTES)];
    let length = list_sheet_into(sheet, &mut listing);
    if length > listing.len() {
        listing = vec![0; length];
        list_sheet_into(sheet, &mut listing);
    }
    listing.truncate(length);
    listing
}

/// Puts as much of a job sheet's listing into `out` as there is room for, and returns the length of the whole listing.
#[inline]
pub fn list_sheet_into(sheet: &[u8], out: &mut [u8]) -> usize {
    // SAFETY: pointers and lengths are those of two slices, both lent, that do not overlap.
    unsafe { ffi::copy_planner_list(sheet.as_ptr(), sheet.len(), out.as_mut_ptr(), out.len()) }
}
