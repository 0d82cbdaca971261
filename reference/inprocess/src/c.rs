//! The planner's C functions, called with the numbers of a sheet.
//!
//! Formats and dimensions that the crate has no name for can be asked here, and
//! every word that the planner writes is seen.

use copy_sheet::{BufferView, Copy, Extent, MemoryView, Refusal, Sheet, TextureView};

use crate::answer::{buffer_resource, range_numbers, texture_resource, Resource, MEMORY};
use crate::given::{Given, GUARD, MOST_REGIONS};

/// What stands for a value that is not given; it must not be read.
const NOT_GIVEN: u32 = GUARD as u32;

type BufferPlan = [u64; 6];
type BufferTexturePlan = [u64; 15];
type TexturePlan = [u64; 18];

/// Plans a copy between a buffer and a texture.
type BufferAndTexture = unsafe extern "C" fn(
    depth_texture_and_buffer_copies: bool,
    buffer_size: u64,
    buffer_usage: u32,
    offset: u64,
    has_bytes_per_row: bool,
    bytes_per_row: u32,
    has_rows_per_image: bool,
    rows_per_image: u32,
    texture: &[u32; 8],
    view: &[u32; 5],
    size: &[u32; 3],
    plan: &mut BufferTexturePlan,
    ranges: &mut [u64; 12],
) -> u32;

// As c/copy_planner.h has them. A C array is a reference here; a slice is a
// pointer and a length.
extern "C" {
    fn copy_planner_buffer_to_buffer(
        unrestricted_index_buffer: bool,
        same_buffer: bool,
        src_size: u64,
        src_usage: u32,
        src_offset: u64,
        dst_size: u64,
        dst_usage: u32,
        dst_offset: u64,
        has_size: bool,
        size: u64,
        plan: &mut BufferPlan,
        ranges: &mut [u64; 6],
    ) -> u32;

    fn copy_planner_buffer_to_texture(
        depth_texture_and_buffer_copies: bool,
        buffer_size: u64,
        buffer_usage: u32,
        offset: u64,
        has_bytes_per_row: bool,
        bytes_per_row: u32,
        has_rows_per_image: bool,
        rows_per_image: u32,
        texture: &[u32; 8],
        view: &[u32; 5],
        size: &[u32; 3],
        plan: &mut BufferTexturePlan,
        ranges: &mut [u64; 12],
    ) -> u32;

    fn copy_planner_texture_to_buffer(
        depth_texture_and_buffer_copies: bool,
        buffer_size: u64,
        buffer_usage: u32,
        offset: u64,
        has_bytes_per_row: bool,
        bytes_per_row: u32,
        has_rows_per_image: bool,
        rows_per_image: u32,
        texture: &[u32; 8],
        view: &[u32; 5],
        size: &[u32; 3],
        plan: &mut BufferTexturePlan,
        ranges: &mut [u64; 12],
    ) -> u32;

    fn copy_planner_memory_to_texture(
        depth_texture_and_buffer_copies: bool,
        length: u64,
        offset: u64,
        has_bytes_per_row: bool,
        bytes_per_row: u32,
        has_rows_per_image: bool,
        rows_per_image: u32,
        texture: &[u32; 8],
        view: &[u32; 5],
        size: &[u32; 3],
        plan: &mut BufferTexturePlan,
        ranges: &mut [u64; 12],
    ) -> u32;

    fn copy_planner_texture_to_texture(
        same_texture: bool,
        src: &[u32; 8],
        src_view: &[u32; 5],
        dst: &[u32; 8],
        dst_view: &[u32; 5],
        size: &[u32; 3],
        plan: &mut TexturePlan,
        ranges: &mut [u64; 6],
    ) -> u32;

    fn copy_planner_next_buffer_copy(plan: &mut BufferPlan, region: &mut [u64; 3]) -> u32;

    fn copy_planner_next_buffer_texture_copy(
        plan: &mut BufferTexturePlan,
        region: &mut [u64; 12],
    ) -> u32;

    fn copy_planner_next_texture_copy(plan: &mut TexturePlan, region: &mut [u64; 15]) -> u32;

    fn copy_planner_write_buffer_copies(
        plan: &mut BufferPlan,
        regions: *mut u64,
        len: usize,
    ) -> u32;

    fn copy_planner_write_buffer_texture_copies(
        plan: &mut BufferTexturePlan,
        regions: *mut u64,
        len: usize,
    ) -> u32;

    fn copy_planner_write_texture_copies(
        plan: &mut TexturePlan,
        regions: *mut u64,
        len: usize,
    ) -> u32;
}

/// What reads the words of a plan of one kind.
struct Reader<const WORDS: usize, const NUMBERS: usize> {
    next: unsafe extern "C" fn(&mut [u64; WORDS], &mut [u64; NUMBERS]) -> u32,
    write: unsafe extern "C" fn(&mut [u64; WORDS], *mut u64, usize) -> u32,
    /// The word with the bytes checked.
    bytes_checked: Option<usize>,
}

const BETWEEN_BUFFERS: Reader<6, 3> = Reader {
    next: copy_planner_next_buffer_copy,
    write: copy_planner_write_buffer_copies,
    bytes_checked: Some(1),
};

const BUFFER_AND_TEXTURE: Reader<15, 12> = Reader {
    next: copy_planner_next_buffer_texture_copy,
    write: copy_planner_write_buffer_texture_copies,
    bytes_checked: Some(1),
};

const BETWEEN_TEXTURES: Reader<18, 15> = Reader {
    next: copy_planner_next_texture_copy,
    write: copy_planner_write_texture_copies,
    bytes_checked: None,
};

/// Plans a copy whose indices are within their sections.
pub fn answer(sheet: &Sheet, copy: &Copy, given: &mut Given) {
    given.clear();
    match copy {
        Copy::BufferToBuffer { .. } => between_buffers(sheet, copy, given),
        Copy::BufferToTexture {
            source,
            destination,
            size,
        } => {
            let function = copy_planner_buffer_to_texture;
            buffer_and_texture(function, sheet, source, destination, size, given);
        }
        Copy::TextureToBuffer {
            source,
            destination,
            size,
        } => {
            let function = copy_planner_texture_to_buffer;
            buffer_and_texture(function, sheet, destination, source, size, given);
        }
        Copy::TextureToTexture {
            source,
            destination,
            size,
        } => between_textures(sheet, source, destination, size, given),
        Copy::MemoryToTexture {
            source,
            destination,
            size,
        } => from_memory(sheet, source, destination, size, given),
    }
}

fn between_buffers(sheet: &Sheet, copy: &Copy, given: &mut Given) {
    let Copy::BufferToBuffer {
        source,
        source_offset,
        destination,
        destination_offset,
        size,
    } = *copy
    else {
        unreachable!("the copy is between buffers");
    };
    let src = &sheet.buffers[source as usize];
    let dst = &sheet.buffers[destination as usize];
    let (mut plan, mut ranges) = ([GUARD; 6], [GUARD; 6]);
    // SAFETY: the function is total, and both arrays have the lengths that it
    // writes.
    let number = unsafe {
        copy_planner_buffer_to_buffer(
            sheet.device.unrestricted_index_buffer,
            source == destination,
            src.size,
            src.usage,
            source_offset,
            dst.size,
            dst.usage,
            destination_offset,
            size.is_some(),
            size.unwrap_or(GUARD),
            &mut plan,
            &mut ranges,
        )
    };
    let resources = [destination, source].map(buffer_resource);
    read_out(number, plan, &ranges, resources, &BETWEEN_BUFFERS, given);
}

fn buffer_and_texture(
    function: BufferAndTexture,
    sheet: &Sheet,
    layout: &BufferView,
    view: &TextureView,
    size: &Extent,
    given: &mut Given,
) {
    let buffer = &sheet.buffers[layout.buffer as usize];
    let (mut plan, mut ranges) = ([GUARD; 15], [GUARD; 12]);
    // SAFETY: the function is total, and each array has the length that it
    // reads or writes.
    let number = unsafe {
        function(
            sheet.device.depth_texture_and_buffer_copies,
            buffer.size,
            buffer.usage,
            layout.offset,
            layout.bytes_per_row.is_some(),
            layout.bytes_per_row.unwrap_or(NOT_GIVEN),
            layout.rows_per_image.is_some(),
            layout.rows_per_image.unwrap_or(NOT_GIVEN),
            &texture_words(sheet, view),
            &view_words(view),
            &size_words(size),
            &mut plan,
            &mut ranges,
        )
    };
    let resources = [
        texture_resource(view.texture, view.level),
        buffer_resource(layout.buffer),
    ];
    read_out(number, plan, &ranges, resources, &BUFFER_AND_TEXTURE, given);
}

fn from_memory(
    sheet: &Sheet,
    block: &MemoryView,
    view: &TextureView,
    size: &Extent,
    given: &mut Given,
) {
    let (mut plan, mut ranges) = ([GUARD; 15], [GUARD; 12]);
    // SAFETY: the function is total, and each array has the length that it
    // reads or writes.
    let number = unsafe {
        copy_planner_memory_to_texture(
            sheet.device.depth_texture_and_buffer_copies,
            block.length,
            block.offset,
            block.bytes_per_row.is_some(),
            block.bytes_per_row.unwrap_or(NOT_GIVEN),
            block.rows_per_image.is_some(),
            block.rows_per_image.unwrap_or(NOT_GIVEN),
            &texture_words(sheet, view),
            &view_words(view),
            &size_words(size),
            &mut plan,
            &mut ranges,
        )
    };
    // The Rust has no ranges of memory: a row for it that is not all zeros differs.
    let resources = [texture_resource(view.texture, view.level), MEMORY];
    read_out(number, plan, &ranges, resources, &BUFFER_AND_TEXTURE, given);
}

fn between_textures(
    sheet: &Sheet,
    source: &TextureView,
    destination: &TextureView,
    size: &Extent,
    given: &mut Given,
) {
    let (mut plan, mut ranges) = ([GUARD; 18], [GUARD; 6]);
    // SAFETY: the function is total, and each array has the length that it
    // reads or writes.
    let number = unsafe {
        copy_planner_texture_to_texture(
            source.texture == destination.texture,
            &texture_words(sheet, source),
            &view_words(source),
            &texture_words(sheet, destination),
            &view_words(destination),
            &size_words(size),
            &mut plan,
            &mut ranges,
        )
    };
    let resources = [source, destination].map(|view| texture_resource(view.texture, view.level));
    read_out(number, plan, &ranges, resources, &BETWEEN_TEXTURES, given);
}

fn texture_words(sheet: &Sheet, view: &TextureView) -> [u32; 8] {
    sheet.textures[view.texture as usize].words()
}

fn view_words(view: &TextureView) -> [u32; 5] {
    [view.level, view.x, view.y, view.z, view.aspect]
}

fn size_words(size: &Extent) -> [u32; 3] {
    [size.width, size.height, size.depth]
}

/// Reads a refusal's number and words, or a plan's. The first range is the
/// first resource's, all others are the second's.
fn read_out<const WORDS: usize, const NUMBERS: usize>(
    number: u32,
    plan: [u64; WORDS],
    ranges: &[u64],
    [first, second]: [Resource; 2],
    reader: &Reader<WORDS, NUMBERS>,
    given: &mut Given,
) {
    if number != 0 {
        return read_refusal(number, &plan, ranges, given);
    }
    given.accept(reader.bytes_checked.map_or(0, |word| plan[word]));
    for (place, row) in ranges.chunks(3).enumerate() {
        let resource = if place == 0 { first } else { second };
        match *row {
            [0, 0, 0] => {}
            // A row of kind 0 that is not all zeros is listed with this kind, which
            // no range of the Rust has.
            [kind, start, end] => {
                let range = range_numbers(resource, start, end, kind.wrapping_sub(1));
                given.answer.ranges.push(range);
            }
            _ => unreachable!("rows have three words"),
        }
    }
    read_regions(plan, reader, given);
}

fn read_refusal(number: u32, plan: &[u64], ranges: &[u64], given: &mut Given) {
    let [left, side, dimension, start, end, limit, rest @ ..] = plan else {
        unreachable!("every plan has six words or more");
    };
    let zeros = rest.iter().chain(ranges).chain([left]);
    given.hold(
        zeros.copied().all(|word| word == 0),
        "a refused copy has no regions and no ranges",
    );
    given.hold(
        side.max(dimension) <= &3,
        "a side and a dimension are small numbers",
    );
    given.refuse(Refusal {
        number,
        side: *side as u32,
        dimension: *dimension as u32,
        start: *start,
        end: *end,
        limit: *limit,
    });
}

fn read_regions<const WORDS: usize, const NUMBERS: usize>(
    mut plan: [u64; WORDS],
    reader: &Reader<WORDS, NUMBERS>,
    given: &mut Given,
) {
    let mut asked = plan;
    for _ in 0..MOST_REGIONS {
        let (before, mut region) = (asked, [GUARD; NUMBERS]);
        // SAFETY: both arrays have the lengths that the function reads and writes.
        if unsafe { (reader.next)(&mut asked, &mut region) } == 0 {
            given.hold(
                asked == before && region == [0; NUMBERS],
                "past the last region the plan stays as it is, and the numbers are 0",
            );
            break;
        }
        given.answer.regions.extend_from_slice(&region);
    }
    let numbers = given.answer.regions.len();
    given.hold(
        plan[0] as usize * NUMBERS == numbers,
        "as many regions are left as can be asked for",
    );
    let before = plan;
    let write = |plan: &mut [u64; WORDS], slice: &mut [u64]| {
        // SAFETY: pointer and length are those of one slice, apart from the plan.
        unsafe { (reader.write)(plan, slice.as_mut_ptr(), slice.len()) }
    };
    given.have_written(&mut plan, numbers, write, |plan| *plan == before);
    given.hold(plan[0] == 0, "none is left when all are written");
}
