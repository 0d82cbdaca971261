/*
 * The copy planner: whether a copy between buffers and textures, or from memory into a texture, is allowed, which of their memory must
 * be initialised before it, and which regions the driver is handed. Also a book of what has been written of a texture. Link with
 * libcopy_planner.a.
 *
 * No function can be broken by the values it is given: what is wrong with a copy is said by its refusal. A caller owes three things.
 * No pointer is null, not even of an array of length 0; arrays are as long as they are declared; and what a function writes, be it an
 * array, a book or a count, overlaps with nothing else that it is lent.
 * Nothing is kept between calls and nothing is allocated, so calls may be made from any thread. Plans and books are the caller's: while
 * one call changes a plan or a book, no other may use it.
 */
#ifndef COPY_PLANNER_H
#define COPY_PLANNER_H

#include <stdbool.h>
#include <stddef.h>
#include <stdint.h>

#ifdef __cplusplus
extern "C" {
#endif

/* Words of a plan and of its ranges, and numbers of a region: between buffers, with one texture, between textures. */
#define COPY_PLANNER_BUFFER_PLAN_WORDS 6
#define COPY_PLANNER_BUFFER_RANGES_WORDS 6
#define COPY_PLANNER_BUFFER_REGION_NUMBERS 3
#define COPY_PLANNER_BUFFER_TEXTURE_PLAN_WORDS 15
#define COPY_PLANNER_BUFFER_TEXTURE_RANGES_WORDS 12
#define COPY_PLANNER_BUFFER_TEXTURE_REGION_NUMBERS 12
#define COPY_PLANNER_TEXTURE_PLAN_WORDS 18
#define COPY_PLANNER_TEXTURE_RANGES_WORDS 6
#define COPY_PLANNER_TEXTURE_REGION_NUMBERS 15

/* Words of one range. */
#define COPY_PLANNER_RANGE_WORDS 3

/*
 * The marks of a book, those of each of its levels, and the numbers of a place. No range has more layers than a level has marks, so
 * COPY_PLANNER_BOOK_LAYERS * COPY_PLANNER_PLACE_NUMBERS numbers, 512, are room for the places of any.
 */
#define COPY_PLANNER_BOOK_MARKS 3584
#define COPY_PLANNER_BOOK_LAYERS 256
#define COPY_PLANNER_PLACE_NUMBERS 2

/* What a region has for bytes per row and rows per image where the copy left them out. */
#define COPY_PLANNER_ABSENT UINT64_MAX

enum copy_planner_format {
    COPY_PLANNER_FORMAT_R8_UNORM = 0,
    COPY_PLANNER_FORMAT_RG8_UNORM = 1,
    COPY_PLANNER_FORMAT_RGBA8_UNORM = 2,
    COPY_PLANNER_FORMAT_RGBA8_UNORM_SRGB = 3,
    COPY_PLANNER_FORMAT_BGRA8_UNORM = 4,
    COPY_PLANNER_FORMAT_BGRA8_UNORM_SRGB = 5,
    COPY_PLANNER_FORMAT_R16_FLOAT = 6,
    COPY_PLANNER_FORMAT_RGBA16_FLOAT = 7,
    COPY_PLANNER_FORMAT_R32_FLOAT = 8,
    COPY_PLANNER_FORMAT_RG32_FLOAT = 9,
    COPY_PLANNER_FORMAT_RGBA32_FLOAT = 10,
    COPY_PLANNER_FORMAT_BC1_RGBA_UNORM = 11,
    COPY_PLANNER_FORMAT_BC1_RGBA_UNORM_SRGB = 12,
    COPY_PLANNER_FORMAT_BC7_RGBA_UNORM = 13,
    COPY_PLANNER_FORMAT_BC7_RGBA_UNORM_SRGB = 14,
    COPY_PLANNER_FORMAT_STENCIL8 = 15,
    COPY_PLANNER_FORMAT_DEPTH16_UNORM = 16,
    COPY_PLANNER_FORMAT_DEPTH24_PLUS = 17,
    COPY_PLANNER_FORMAT_DEPTH24_PLUS_STENCIL8 = 18,
    COPY_PLANNER_FORMAT_DEPTH32_FLOAT = 19,
    COPY_PLANNER_FORMAT_DEPTH32_FLOAT_STENCIL8 = 20,
    COPY_PLANNER_FORMAT_NV12 = 21
};

enum copy_planner_dimension {
    COPY_PLANNER_DIMENSION_1D = 1,
    COPY_PLANNER_DIMENSION_2D = 2,
    COPY_PLANNER_DIMENSION_3D = 3
};

/* What a copy asks for. */
enum copy_planner_aspect {
    COPY_PLANNER_ASPECT_ALL = 0,
    COPY_PLANNER_ASPECT_STENCIL_ONLY = 1,
    COPY_PLANNER_ASPECT_DEPTH_ONLY = 2,
    COPY_PLANNER_ASPECT_PLANE_0 = 3,
    COPY_PLANNER_ASPECT_PLANE_1 = 4,
    COPY_PLANNER_ASPECT_PLANE_2 = 5
};

/* What a region copies. */
enum copy_planner_aspect_bits {
    COPY_PLANNER_ASPECT_BIT_COLOR = 1,
    COPY_PLANNER_ASPECT_BIT_DEPTH = 2,
    COPY_PLANNER_ASPECT_BIT_STENCIL = 4,
    COPY_PLANNER_ASPECT_BIT_PLANE_0 = 8,
    COPY_PLANNER_ASPECT_BIT_PLANE_1 = 16,
    COPY_PLANNER_ASPECT_BIT_PLANE_2 = 32
};

/* The flags of a buffer's usage that copies ask about; the word may have others, up to 1,023. */
enum copy_planner_buffer_usage {
    COPY_PLANNER_BUFFER_USAGE_COPY_SRC = 4,
    COPY_PLANNER_BUFFER_USAGE_COPY_DST = 8,
    COPY_PLANNER_BUFFER_USAGE_INDEX = 16,
    COPY_PLANNER_BUFFER_USAGE_VERTEX = 32,
    COPY_PLANNER_BUFFER_USAGE_UNIFORM = 64,
    COPY_PLANNER_BUFFER_USAGE_STORAGE = 128,
    COPY_PLANNER_BUFFER_USAGE_INDIRECT = 256
};

/* The flags of a texture's usage that copies ask about; the word may have others, up to 31. */
enum copy_planner_texture_usage {
    COPY_PLANNER_TEXTURE_USAGE_COPY_SRC = 1,
    COPY_PLANNER_TEXTURE_USAGE_COPY_DST = 2
};

/*
 * Format and dimension by their numbers, size in texels; the size's third counts slices in 3D and layers in 2D.
 *
 * 1D: width 1 to 8,192, height and depth 1, one level. 2D: sides 1 to 8,192, layers 1 to 256. 3D: sides 1 to 2,048. Levels: 1 up
 * to the halvings that bring the largest side to 1, plus one. Samples: 1, or 4 for 2D with one layer and one level, not of formats
 * 11 to 14 and 21. Formats 11 to 21 are 2D only; 11 to 14 need sides divisible by 4, 21 even sides and one level.
 */
typedef struct copy_planner_texture {
    uint32_t format;
    uint32_t dimension;
    uint32_t width;
    uint32_t height;
    uint32_t depth_or_array_layers;
    uint32_t mip_level_count;
    uint32_t sample_count;
    uint32_t usage;
} copy_planner_texture;

/*
 * Where a copy starts in a texture, and the aspect that it asks for. One above 5 is refused with 12 before anything else is
 * checked.
 */
typedef struct copy_planner_view {
    uint32_t mip_level;
    uint32_t x;
    uint32_t y;
    uint32_t z;
    uint32_t aspect;
} copy_planner_view;

/* The size of a copy in texels; the third counts slices in 3D and layers in 2D. */
typedef struct copy_planner_extent {
    uint32_t width;
    uint32_t height;
    uint32_t depth_or_array_layers;
} copy_planner_extent;

/*
 * What has been written of a texture: its levels, its layers (in 1D and 3D one, which is the whole level) and a mark for each level and
 * layer, that of level l and layer z at l * COPY_PLANNER_BOOK_LAYERS + z. A mark is 0 where nothing is written, else any other byte; the
 * planner sets 1. It stands for the whole level and layer, all aspects and planes together.
 *
 * A book may be copied, kept and read like any other value, and its bytes may be anything: no call can be broken by them. One that
 * counts more levels or layers than there are marks for is refused with 39, and nothing of it is written or filled.
 */
typedef struct copy_planner_book {
    uint32_t mip_level_count;
    uint32_t array_layer_count;
    uint8_t marks[COPY_PLANNER_BOOK_MARKS];
} copy_planner_book;

/*
 * The numbers of refusals, with their details. 1 is found in job sheets only, 38 by the functions that write regions or places, 39 by
 * those of books. 37 is not used, and will not be: it was the number of a second check of the level, which no copy can fail.
 */
enum copy_planner_refusal {
    COPY_PLANNER_ACCEPTED = 0,
    COPY_PLANNER_INVALID_SHEET_INDEX = 1,
    COPY_PLANNER_INVALID_TEXTURE_RECORD = 2,          /* side */
    COPY_PLANNER_INVALID_BUFFER_RECORD = 3,           /* side */
    COPY_PLANNER_SAME_SOURCE_DESTINATION_BUFFER = 4,
    COPY_PLANNER_MISSING_BUFFER_USAGE = 5,            /* side */
    COPY_PLANNER_MISSING_TEXTURE_USAGE = 6,           /* side */
    COPY_PLANNER_BUFFER_START_OFFSET_OVERRUN = 7,     /* side, start, limit: the size of the buffer or the block of memory */
    COPY_PLANNER_BUFFER_END_OFFSET_OVERRUN = 8,       /* side, start, end: the copy's bytes, limit: as of 7 */
    COPY_PLANNER_TEXTURE_OVERRUN = 9,                 /* all; the end is start plus size, which may pass 32 bits */
    COPY_PLANNER_UNSUPPORTED_PARTIAL_TRANSFER = 10,   /* all; the end is start plus size, which may pass 32 bits */
    COPY_PLANNER_INVALID_COPY_WITHIN_SAME_TEXTURE = 11, /* start, end: the two z, limit: how many layers */
    COPY_PLANNER_INVALID_TEXTURE_ASPECT = 12,
    COPY_PLANNER_INVALID_TEXTURE_MIP_LEVEL = 13,      /* start: the level, limit: how many there are */
    COPY_PLANNER_UNALIGNED_BUFFER_OFFSET = 14,        /* start */
    COPY_PLANNER_UNALIGNED_COPY_SIZE = 15,            /* start: the size */
    COPY_PLANNER_UNALIGNED_COPY_WIDTH = 16,
    COPY_PLANNER_UNALIGNED_COPY_HEIGHT = 17,
    COPY_PLANNER_UNALIGNED_COPY_ORIGIN_X = 18,
    COPY_PLANNER_UNALIGNED_COPY_ORIGIN_Y = 19,
    COPY_PLANNER_UNALIGNED_BYTES_PER_ROW = 20,
    COPY_PLANNER_UNSPECIFIED_BYTES_PER_ROW = 21,
    COPY_PLANNER_UNSPECIFIED_ROWS_PER_IMAGE = 22,
    COPY_PLANNER_INVALID_BYTES_PER_ROW = 23,
    COPY_PLANNER_INVALID_ROWS_PER_IMAGE = 24,
    COPY_PLANNER_SIZE_OVERFLOW = 25,
    COPY_PLANNER_COPY_SRC_MISSING_ASPECTS = 26,
    COPY_PLANNER_COPY_DST_MISSING_ASPECTS = 27,
    COPY_PLANNER_COPY_ASPECT_NOT_ONE = 28,
    COPY_PLANNER_COPY_FROM_FORBIDDEN_TEXTURE_FORMAT = 29,
    COPY_PLANNER_COPY_FROM_FORBIDDEN_TEXTURE_FORMAT_ASPECT = 30,
    COPY_PLANNER_COPY_TO_FORBIDDEN_TEXTURE_FORMAT = 31,
    COPY_PLANNER_COPY_TO_FORBIDDEN_TEXTURE_FORMAT_ASPECT = 32,
    COPY_PLANNER_TEXTURE_FORMATS_NOT_COPY_COMPATIBLE = 33,
    COPY_PLANNER_MISSING_DOWNLEVEL_FLAGS = 34,
    COPY_PLANNER_INVALID_SAMPLE_COUNT = 35,           /* start */
    COPY_PLANNER_SAMPLE_COUNT_NOT_EQUAL = 36,         /* start, end */
    COPY_PLANNER_REGION_SLICE_TOO_SHORT = 38,         /* also of places */
    COPY_PLANNER_INVALID_BOOK_RANGE = 39
};

/* The words of a plan that are a caller's to read. All others are the planner's own. */
enum copy_planner_plan_word {
    COPY_PLANNER_PLAN_REGIONS_LEFT = 0,
    COPY_PLANNER_PLAN_BYTES_CHECKED = 1 /* not between textures */
};

/* The details of a refusal, in the words of its plan. Those that a refusal does not have are 0. */
enum copy_planner_refusal_word {
    COPY_PLANNER_REFUSAL_SIDE = 1,      /* 1 source, 2 destination */
    COPY_PLANNER_REFUSAL_DIMENSION = 2, /* 1 X, 2 Y, 3 Z */
    COPY_PLANNER_REFUSAL_START = 3,
    COPY_PLANNER_REFUSAL_END = 4,
    COPY_PLANNER_REFUSAL_LIMIT = 5
};

/*
 * The words of a range. It goes from start up to, not including, end. One whose end lies below its start covers nothing, and one
 * of a buffer may reach past its size, up to the next multiple of 4.
 */
enum copy_planner_range_word {
    COPY_PLANNER_RANGE_KIND = 0,
    COPY_PLANNER_RANGE_START = 1,
    COPY_PLANNER_RANGE_END = 2
};

/* The kinds of ranges. Where there is none, others may come after it. */
enum copy_planner_range_kind {
    COPY_PLANNER_RANGE_NONE = 0,
    COPY_PLANNER_RANGE_IMPLICITLY_INITIALIZED = 1, /* the copy fills it */
    COPY_PLANNER_RANGE_NEEDS_INITIALIZED_MEMORY = 2
};

/*
 * The five copies. Each returns 0 for an accepted copy, with its plan and its ranges, else the number of its refusal. Then the plan
 * has no regions left, and after that word stand the refusal's details; there are no ranges. Every word of plan and ranges is
 * written, and none is read before.
 *
 * A size, bytes per row or rows per image that is not given is not read. A copy whose width, height, depth or size is 0 is checked
 * like any other, and has no regions and no ranges. A buffer has at most 268,435,456 bytes, and a usage of at most 1,023.
 */

/*
 * A size that is not given is what the source has from its offset on.
 * Ranges: the destination's bytes, the source's bytes.
 */
uint32_t copy_planner_buffer_to_buffer(
    bool unrestricted_index_buffer,
    bool same_buffer,
    uint64_t src_size,
    uint32_t src_usage,
    uint64_t src_offset,
    uint64_t dst_size,
    uint32_t dst_usage,
    uint64_t dst_offset,
    bool has_size,
    uint64_t size,
    uint64_t plan[COPY_PLANNER_BUFFER_PLAN_WORDS],
    uint64_t ranges[COPY_PLANNER_BUFFER_RANGES_WORDS]);

/* Ranges: the texture's layers at the view's level, then up to three of the buffer's bytes. */
uint32_t copy_planner_buffer_to_texture(
    bool depth_texture_and_buffer_copies,
    uint64_t buffer_size,
    uint32_t buffer_usage,
    uint64_t offset,
    bool has_bytes_per_row,
    uint32_t bytes_per_row,
    bool has_rows_per_image,
    uint32_t rows_per_image,
    const copy_planner_texture *texture,
    const copy_planner_view *view,
    const copy_planner_extent *size,
    uint64_t plan[COPY_PLANNER_BUFFER_TEXTURE_PLAN_WORDS],
    uint64_t ranges[COPY_PLANNER_BUFFER_TEXTURE_RANGES_WORDS]);

/* Ranges: as for a copy into a texture. */
uint32_t copy_planner_texture_to_buffer(
    bool depth_texture_and_buffer_copies,
    uint64_t buffer_size,
    uint32_t buffer_usage,
    uint64_t offset,
    bool has_bytes_per_row,
    uint32_t bytes_per_row,
    bool has_rows_per_image,
    uint32_t rows_per_image,
    const copy_planner_texture *texture,
    const copy_planner_view *view,
    const copy_planner_extent *size,
    uint64_t plan[COPY_PLANNER_BUFFER_TEXTURE_PLAN_WORDS],
    uint64_t ranges[COPY_PLANNER_BUFFER_TEXTURE_RANGES_WORDS]);

/*
 * From a block of memory, of any length in bytes, without a buffer. The memory itself is not read. The block is the source and is
 * checked as a buffer is, but it has no usage, and neither its offset nor bytes per row need be aligned: 3, 5, 14 and 20 are never
 * given. Regions have offsets in the block.
 * Ranges: as for a copy from a buffer, but the three of bytes are none.
 */
uint32_t copy_planner_memory_to_texture(
    bool depth_texture_and_buffer_copies,
    uint64_t length,
    uint64_t offset,
    bool has_bytes_per_row,
    uint32_t bytes_per_row,
    bool has_rows_per_image,
    uint32_t rows_per_image,
    const copy_planner_texture *texture,
    const copy_planner_view *view,
    const copy_planner_extent *size,
    uint64_t plan[COPY_PLANNER_BUFFER_TEXTURE_PLAN_WORDS],
    uint64_t ranges[COPY_PLANNER_BUFFER_TEXTURE_RANGES_WORDS]);

/* Ranges: the source's layers at its view's level, then the destination's at its own. */
uint32_t copy_planner_texture_to_texture(
    bool same_texture,
    const copy_planner_texture *src,
    const copy_planner_view *src_view,
    const copy_planner_texture *dst,
    const copy_planner_view *dst_view,
    const copy_planner_extent *size,
    uint64_t plan[COPY_PLANNER_TEXTURE_PLAN_WORDS],
    uint64_t ranges[COPY_PLANNER_TEXTURE_RANGES_WORDS]);

/*
 * Each of these writes the numbers of the plan's next region, moves the plan past it and returns 1. Where none is left it returns
 * 0, the region is all zeros and the plan stays as it is.
 */

/* Source offset, destination offset, size. */
uint32_t copy_planner_next_buffer_copy(
    uint64_t plan[COPY_PLANNER_BUFFER_PLAN_WORDS],
    uint64_t region[COPY_PLANNER_BUFFER_REGION_NUMBERS]);

/* Offset, bytes per row, rows per image, level, layer, x, y, z, aspect bits, width, height, depth. */
uint32_t copy_planner_next_buffer_texture_copy(
    uint64_t plan[COPY_PLANNER_BUFFER_TEXTURE_PLAN_WORDS],
    uint64_t region[COPY_PLANNER_BUFFER_TEXTURE_REGION_NUMBERS]);

/* Level, layer, x, y, z and aspect bits of the source, the same of the destination, width, height, depth. */
uint32_t copy_planner_next_texture_copy(
    uint64_t plan[COPY_PLANNER_TEXTURE_PLAN_WORDS],
    uint64_t region[COPY_PLANNER_TEXTURE_REGION_NUMBERS]);

/*
 * Each of these writes the numbers of all regions left, one region after the other, moves the plan past them and returns 0.
 * Numbers past them are not changed. Where len is less than the regions left times the numbers of each, it returns 38 and changes
 * nothing.
 */

uint32_t copy_planner_write_buffer_copies(
    uint64_t plan[COPY_PLANNER_BUFFER_PLAN_WORDS],
    uint64_t *regions,
    size_t len);

uint32_t copy_planner_write_buffer_texture_copies(
    uint64_t plan[COPY_PLANNER_BUFFER_TEXTURE_PLAN_WORDS],
    uint64_t *regions,
    size_t len);

uint32_t copy_planner_write_texture_copies(
    uint64_t plan[COPY_PLANNER_TEXTURE_PLAN_WORDS],
    uint64_t *regions,
    size_t len);

/*
 * A book of a texture of which nothing is written. Returns 0, or 2 where the texture's record breaks its bounds; then the book has no
 * level and no layer. All of the book is written, and none is read before.
 */
uint32_t copy_planner_new_book(const copy_planner_texture *texture, copy_planner_book *book);

/*
 * Applies a range of an accepted copy to the book of its texture, at the level of the view on the range's side.
 *
 * A copy's ranges are applied in the order of its ranges words, between textures the source's first, and each to the book of its own
 * texture; within one texture both are applied to the one book. Of a copy with a buffer or from memory only the first range is the
 * texture's: the others are bytes, and no book's. A range goes from its first layer up to, not including, its end.
 *
 * Returns 0, writes the places that have to be cleared BEFORE the copy is executed, puts how many they are into count, and marks every
 * layer of the range; a layer that is cleared is written too. The places are the range's layers without a mark where it needs memory,
 * and none where the copy fills it. They are written from the start of places on, which has len numbers: level and layer of each,
 * layers rising. Numbers past them are not changed.
 *
 * Ranges are believed. As in wgpu-core, a copy of depth 2 or more between a 3D texture and a 2D one may report its destination as filled
 * though its regions do not write all of it; then the book has the rest as written too.
 *
 * A range of kind 0 is none: it clears and marks nothing and is not refused, whatever else it is given. So the ranges of a refused copy
 * may be applied. A kind above 2 is taken for 2.
 *
 * A refusal changes nothing but count, which is 0. It is, in this order:
 * 39, where the book counts more levels or layers than there are marks for, the level is not one of the book's, or the range's end lies
 * below its start or above the book's layers;
 * 38, where len is less than the places that would be written times the numbers of each.
 */
uint32_t copy_planner_update_book(
    copy_planner_book *book,
    uint32_t mip_level,
    const uint64_t range[COPY_PLANNER_RANGE_WORDS],
    uint64_t *places,
    size_t len,
    uint64_t *count);

/*
 * The layers of a level that are not written, as places, and how many they are: what copy_planner_update_book would have cleared before
 * a copy that reads the whole level. It returns and writes the same, but marks nothing.
 */
uint32_t copy_planner_book_missing(
    const copy_planner_book *book,
    uint32_t mip_level,
    uint64_t *places,
    size_t len,
    uint64_t *count);

/* Whether a level and layer is one of the book's and is written. */
bool copy_planner_book_is_written(const copy_planner_book *book, uint32_t mip_level, uint32_t layer);

/* Whether every level and layer of the book is written. One without a level or a layer is of no texture, and is not filled. */
bool copy_planner_book_is_filled(const copy_planner_book *book);

/*
 * Puts the listing of a job sheet into out, or as much of its beginning as there is room for, and returns the length of the whole
 * listing. No zero byte is put after it.
 */
size_t copy_planner_list(const uint8_t *sheet, size_t sheet_len, uint8_t *out, size_t out_len);

#ifdef __cplusplus
}
#endif

#endif
