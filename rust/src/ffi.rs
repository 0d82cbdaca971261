//! The functions of `libcopy_planner.a`.
//!
//! Every function is total: no argument can break it. Since pointers are references here, or those of a slice with its length, a
//! call owes nothing more than its types say.

use std::mem::MaybeUninit;

use crate::flags::BufferUsages;
use crate::resources::{Extent3d, Texture};

/// Level, x, y, z and aspect of a texture's side of a copy.
pub(crate) type TextureView = [u32; 5];

/// Regions left, bytes checked, the next region, 0.
pub type BufferPlan = [u64; 6];

/// Regions left, bytes checked, bytes from one region to the next, the next region.
pub type BufferTexturePlan = [u64; 15];

/// Regions left, the parts of a layer, the next part, and the layer as a region.
pub type TexturePlan = [u64; 18];

/// Kind (0 for no range), start, end.
pub type RangeRow = [u64; 3];

/// The layers of a level that a book has marks for.
pub(crate) const BOOK_LAYERS: usize = 256;

/// The marks of a book, level after level.
pub(crate) const BOOK_MARKS: usize = 14 * BOOK_LAYERS;

/// The levels and layers of a texture, and a mark for each that any texture has: 0 where nothing is written. Every byte is one that the
/// planner takes.
#[derive(Clone, PartialEq, Eq)]
#[repr(C)]
pub(crate) struct BookRecord {
    pub(crate) mip_level_count: u32,
    pub(crate) array_layer_count: u32,
    pub(crate) marks: [u8; BOOK_MARKS],
}

/// Plans a copy between a buffer and a texture.
pub(crate) type BufferAndTexture = unsafe extern "C" fn(
    depth_texture_and_buffer_copies: bool,
    buffer_size: u64,
    buffer_usage: BufferUsages,
    offset: u64,
    has_bytes_per_row: bool,
    bytes_per_row: u32,
    has_rows_per_image: bool,
    rows_per_image: u32,
    texture: &Texture,
    view: &TextureView,
    size: &Extent3d,
    plan: &mut MaybeUninit<BufferTexturePlan>,
    ranges: &mut MaybeUninit<[RangeRow; 4]>,
) -> u32;

/// Asks a plan for its next region.
pub type Next<Plan, Region> = unsafe extern "C" fn(&mut Plan, &mut MaybeUninit<Region>) -> u32;

/// Has a plan write all its regions left.
pub type Write<Plan> = unsafe extern "C" fn(&mut Plan, *mut u64, usize) -> u32;

// A copy returns 0, with its plan and its ranges, or the number of its refusal. Then the plan has no regions left, and after that
// word the refusal's details; there are no ranges. Every word of `plan` and `ranges` is written and none is read.
extern "C" {
    pub(crate) fn copy_planner_buffer_to_buffer(
        unrestricted_index_buffer: bool,
        same_buffer: bool,
        src_size: u64,
        src_usage: BufferUsages,
        src_offset: u64,
        dst_size: u64,
        dst_usage: BufferUsages,
        dst_offset: u64,
        has_size: bool,
        size: u64,
        plan: &mut MaybeUninit<BufferPlan>,
        ranges: &mut MaybeUninit<[RangeRow; 2]>,
    ) -> u32;

    pub(crate) fn copy_planner_buffer_to_texture(
        depth_texture_and_buffer_copies: bool,
        buffer_size: u64,
        buffer_usage: BufferUsages,
        offset: u64,
        has_bytes_per_row: bool,
        bytes_per_row: u32,
        has_rows_per_image: bool,
        rows_per_image: u32,
        texture: &Texture,
        view: &TextureView,
        size: &Extent3d,
        plan: &mut MaybeUninit<BufferTexturePlan>,
        ranges: &mut MaybeUninit<[RangeRow; 4]>,
    ) -> u32;

    pub(crate) fn copy_planner_texture_to_buffer(
        depth_texture_and_buffer_copies: bool,
        buffer_size: u64,
        buffer_usage: BufferUsages,
        offset: u64,
        has_bytes_per_row: bool,
        bytes_per_row: u32,
        has_rows_per_image: bool,
        rows_per_image: u32,
        texture: &Texture,
        view: &TextureView,
        size: &Extent3d,
        plan: &mut MaybeUninit<BufferTexturePlan>,
        ranges: &mut MaybeUninit<[RangeRow; 4]>,
    ) -> u32;

    pub(crate) fn copy_planner_memory_to_texture(
        depth_texture_and_buffer_copies: bool,
        length: u64,
        offset: u64,
        has_bytes_per_row: bool,
        bytes_per_row: u32,
        has_rows_per_image: bool,
        rows_per_image: u32,
        texture: &Texture,
        view: &TextureView,
        size: &Extent3d,
        plan: &mut MaybeUninit<BufferTexturePlan>,
        ranges: &mut MaybeUninit<[RangeRow; 4]>,
    ) -> u32;

    pub(crate) fn copy_planner_texture_to_texture(
        same_texture: bool,
        src: &Texture,
        src_view: &TextureView,
        dst: &Texture,
        dst_view: &TextureView,
        size: &Extent3d,
        plan: &mut MaybeUninit<TexturePlan>,
        ranges: &mut MaybeUninit<[RangeRow; 2]>,
    ) -> u32;
}

// 1 with the next region, and the plan moved past it; 0 where none is left, and the plan unchanged. Every number of `region` is
// written.
extern "C" {
    pub(crate) fn copy_planner_next_buffer_copy(
        plan: &mut BufferPlan,
        region: &mut MaybeUninit<[u64; 3]>,
    ) -> u32;

    pub(crate) fn copy_planner_next_buffer_texture_copy(
        plan: &mut BufferTexturePlan,
        region: &mut MaybeUninit<[u64; 12]>,
    ) -> u32;

    pub(crate) fn copy_planner_next_texture_copy(
        plan: &mut TexturePlan,
        region: &mut MaybeUninit<[u64; 15]>,
    ) -> u32;
}

// 0 with all regions left, and the plan moved past them; 38 where `len` numbers from `regions` on have no room for them, and
// neither is changed.
extern "C" {
    pub(crate) fn copy_planner_write_buffer_copies(
        plan: &mut BufferPlan,
        regions: *mut u64,
        len: usize,
    ) -> u32;

    pub(crate) fn copy_planner_write_buffer_texture_copies(
        plan: &mut BufferTexturePlan,
        regions: *mut u64,
        len: usize,
    ) -> u32;

    pub(crate) fn copy_planner_write_texture_copies(
        plan: &mut TexturePlan,
        regions: *mut u64,
        len: usize,
    ) -> u32;
}

// 0, or the number of a refusal. A new book is all written, and none is read before. `count` is how many places are written from
// `places` on, two numbers each; under a refusal it is 0, and the book and the `len` numbers from `places` on are not changed.
extern "C" {
    pub(crate) fn copy_planner_new_book(
        texture: &Texture,
        book: &mut MaybeUninit<BookRecord>,
    ) -> u32;

    pub(crate) fn copy_planner_update_book(
        book: &mut BookRecord,
        mip_level: u32,
        range: &RangeRow,
        places: *mut u64,
        len: usize,
        count: &mut u64,
    ) -> u32;

    pub(crate) fn copy_planner_book_missing(
        book: &BookRecord,
        mip_level: u32,
        places: *mut u64,
        len: usize,
        count: &mut u64,
    ) -> u32;

    pub(crate) fn copy_planner_book_is_written(
        book: &BookRecord,
        mip_level: u32,
        layer: u32,
    ) -> bool;

    pub(crate) fn copy_planner_book_is_filled(book: &BookRecord) -> bool;
}

extern "C" {
    /// Puts as much of the listing as `out` has room for, and returns the length of all of it.
    pub(crate) fn copy_planner_list(
        sheet: *const u8,
        sheet_len: usize,
        out: *mut u8,
        out_len: usize,
    ) -> usize;
}
