/*
 * Plans an upload of two layers, a copy that is refused, a write from memory, and copies that start far outside the texture. Keeps a book
 * of the texture over three uploads. Lists the job sheet on standard input if any argument is given.
 */
#include "copy_planner.h"

#include <inttypes.h>
#include <stdio.h>
#include <stdlib.h>

/* A longer sheet is refused unread, so one byte more is enough to read. */
#define SHEET_BYTES 65537

/* How the printed lines name the one buffer, the one texture, and the level that is copied. */
#define BUFFER_INDEX 0
#define TEXTURE_INDEX 0
#define MIP_LEVEL 0

static const copy_planner_texture texture = {
    COPY_PLANNER_FORMAT_RGBA8_UNORM, COPY_PLANNER_DIMENSION_2D, 8, 8, 2, 1, 1,
    COPY_PLANNER_TEXTURE_USAGE_COPY_SRC | COPY_PLANNER_TEXTURE_USAGE_COPY_DST};

static const copy_planner_view view = {MIP_LEVEL, 0, 0, 0, COPY_PLANNER_ASPECT_ALL};

/* As far to the right as a copy can start. Two texels from there on end at 4,294,967,297, which 32 bits do not hold. */
static const copy_planner_view far_view = {MIP_LEVEL, UINT32_MAX, 0, 0, COPY_PLANNER_ASPECT_ALL};
static const copy_planner_extent two_texels = {2, 1, 1};

static void print_line(const char *word, const uint64_t *numbers, size_t count)
{
    printf("%s", word);
    for (size_t i = 0; i < count; i++)
        printf(" %" PRIu64, numbers[i]);
    printf("\n");
}

/* Of all lines only a region's may leave numbers out. */
static void print_region(const uint64_t numbers[COPY_PLANNER_BUFFER_TEXTURE_REGION_NUMBERS])
{
    printf("r");
    for (size_t i = 0; i < COPY_PLANNER_BUFFER_TEXTURE_REGION_NUMBERS; i++) {
        if (numbers[i] == COPY_PLANNER_ABSENT)
            printf(" -");
        else
            printf(" %" PRIu64, numbers[i]);
    }
    printf("\n");
}

static uint64_t count_ranges(const uint64_t ranges[COPY_PLANNER_BUFFER_TEXTURE_RANGES_WORDS])
{
    uint64_t count = 0;
    for (size_t at = 0; at < COPY_PLANNER_BUFFER_TEXTURE_RANGES_WORDS; at += COPY_PLANNER_RANGE_WORDS)
        count += ranges[at + COPY_PLANNER_RANGE_KIND] != COPY_PLANNER_RANGE_NONE;
    return count;
}

/* The first range is the texture's, the others are the buffer's. A line's kind is 1 where memory is needed. */
static void print_ranges(const uint64_t ranges[COPY_PLANNER_BUFFER_TEXTURE_RANGES_WORDS])
{
    for (size_t at = 0; at < COPY_PLANNER_BUFFER_TEXTURE_RANGES_WORDS; at += COPY_PLANNER_RANGE_WORDS) {
        uint64_t kind = ranges[at + COPY_PLANNER_RANGE_KIND];
        uint64_t start = ranges[at + COPY_PLANNER_RANGE_START];
        uint64_t end = ranges[at + COPY_PLANNER_RANGE_END];
        uint64_t is_needed = kind == COPY_PLANNER_RANGE_NEEDS_INITIALIZED_MEMORY;
        uint64_t layers[] = {TEXTURE_INDEX, MIP_LEVEL, start, end, is_needed};
        uint64_t bytes[] = {BUFFER_INDEX, start, end, is_needed};
        if (kind == COPY_PLANNER_RANGE_NONE)
            continue;
        if (at == 0)
            print_line("t", layers, 5);
        else
            print_line("b", bytes, 4);
    }
}

static void print_plan(
    uint64_t plan[COPY_PLANNER_BUFFER_TEXTURE_PLAN_WORDS],
    const uint64_t ranges[COPY_PLANNER_BUFFER_TEXTURE_RANGES_WORDS])
{
    uint64_t region[COPY_PLANNER_BUFFER_TEXTURE_REGION_NUMBERS];
    uint64_t counts[] = {
        plan[COPY_PLANNER_PLAN_REGIONS_LEFT],
        count_ranges(ranges),
        plan[COPY_PLANNER_PLAN_BYTES_CHECKED]};
    print_line(" ok", counts, 3);
    print_ranges(ranges);
    while (copy_planner_next_buffer_texture_copy(plan, region))
        print_region(region);
}

/* The words of a refusal are the same in every plan. */
static void print_refusal(uint32_t number, const uint64_t *plan)
{
    uint64_t numbers[] = {
        number,
        plan[COPY_PLANNER_REFUSAL_SIDE],
        plan[COPY_PLANNER_REFUSAL_DIMENSION],
        plan[COPY_PLANNER_REFUSAL_START],
        plan[COPY_PLANNER_REFUSAL_END],
        plan[COPY_PLANNER_REFUSAL_LIMIT]};
    print_line(" refused", numbers, 6);
}

static void print_answer(
    unsigned copy,
    uint32_t refused,
    uint64_t plan[COPY_PLANNER_BUFFER_TEXTURE_PLAN_WORDS],
    const uint64_t ranges[COPY_PLANNER_BUFFER_TEXTURE_RANGES_WORDS])
{
    printf("copy %u", copy);
    if (refused == COPY_PLANNER_ACCEPTED)
        print_plan(plan, ranges);
    else
        print_refusal(refused, plan);
}

/* Copies so many layers from a buffer into the texture, which has two. */
static void print_upload(unsigned copy, uint32_t layers)
{
    copy_planner_extent size = {8, 8, layers};
    uint64_t plan[COPY_PLANNER_BUFFER_TEXTURE_PLAN_WORDS];
    uint64_t ranges[COPY_PLANNER_BUFFER_TEXTURE_RANGES_WORDS];
    uint32_t refused = copy_planner_buffer_to_texture(
        true, 4096, COPY_PLANNER_BUFFER_USAGE_COPY_SRC, 0, true, 256, true, 8, &texture, &view, &size, plan, ranges);
    print_answer(copy, refused, plan, ranges);
}

/* Writes both layers from the 513 bytes of a block, from byte 1 on: no offset and no row need be aligned there. */
static void print_memory_write(unsigned copy)
{
    copy_planner_extent size = {8, 8, 2};
    uint64_t plan[COPY_PLANNER_BUFFER_TEXTURE_PLAN_WORDS];
    uint64_t ranges[COPY_PLANNER_BUFFER_TEXTURE_RANGES_WORDS];
    uint32_t refused = copy_planner_memory_to_texture(
        true, 513, 1, true, 32, true, 8, &texture, &view, &size, plan, ranges);
    print_answer(copy, refused, plan, ranges);
}

static void print_overruns_with_one_texture(unsigned copy)
{
    uint64_t plan[COPY_PLANNER_BUFFER_TEXTURE_PLAN_WORDS];
    uint64_t ranges[COPY_PLANNER_BUFFER_TEXTURE_RANGES_WORDS];
    uint32_t refused = copy_planner_buffer_to_texture(
        true, 8, COPY_PLANNER_BUFFER_USAGE_COPY_SRC, 0, false, 0, false, 0, &texture, &far_view, &two_texels, plan, ranges);
    print_answer(copy, refused, plan, ranges);
    refused = copy_planner_texture_to_buffer(
        true, 8, COPY_PLANNER_BUFFER_USAGE_COPY_DST, 0, false, 0, false, 0, &texture, &far_view, &two_texels, plan, ranges);
    print_answer(copy + 1, refused, plan, ranges);
    refused = copy_planner_memory_to_texture(
        true, 8, 0, false, 0, false, 0, &texture, &far_view, &two_texels, plan, ranges);
    print_answer(copy + 2, refused, plan, ranges);
}

/* Both textures are the one: first the source is far, then the destination. */
static void print_overruns_between_textures(unsigned copy)
{
    const copy_planner_view *views[][2] = {{&far_view, &view}, {&view, &far_view}};
    uint64_t plan[COPY_PLANNER_TEXTURE_PLAN_WORDS];
    uint64_t ranges[COPY_PLANNER_TEXTURE_RANGES_WORDS];
    for (unsigned i = 0; i < 2; i++) {
        uint32_t refused = copy_planner_texture_to_texture(
            true, &texture, views[i][0], &texture, views[i][1], &two_texels, plan, ranges);
        printf("copy %u", copy + i);
        print_refusal(refused, plan);
    }
}

/* Texture, level and layer of each place, in a line that begins with the word. */
static void print_places(const char *word, const uint64_t *places, uint64_t count)
{
    for (uint64_t i = 0; i < count; i++) {
        const uint64_t *place = places + i * COPY_PLANNER_PLACE_NUMBERS;
        uint64_t numbers[] = {TEXTURE_INDEX, place[0], place[1]};
        print_line(word, numbers, 3);
    }
}

/*
 * Copies from a buffer into the texture from a layer on, and prints what has to be cleared before that, and what is not yet written
 * after it. Of the copy's ranges only the first is the texture's. A refused copy has none, and changes nothing of the book.
 */
static void print_upload_with_book(
    unsigned copy,
    uint32_t first_layer,
    const copy_planner_extent *size,
    copy_planner_book *book)
{
    copy_planner_view from_layer = {MIP_LEVEL, 0, 0, first_layer, COPY_PLANNER_ASPECT_ALL};
    uint64_t plan[COPY_PLANNER_BUFFER_TEXTURE_PLAN_WORDS];
    uint64_t ranges[COPY_PLANNER_BUFFER_TEXTURE_RANGES_WORDS];
    uint64_t places[COPY_PLANNER_BOOK_LAYERS * COPY_PLANNER_PLACE_NUMBERS];
    size_t len = sizeof places / sizeof places[0];
    uint64_t count;
    uint32_t refused = copy_planner_buffer_to_texture(
        true, 4096, COPY_PLANNER_BUFFER_USAGE_COPY_SRC, 0, true, 256, true, 8, &texture, &from_layer, size, plan, ranges);
    /* What has to be cleared is asked for before any region is handed out. A refused copy has no range, and needs nothing. */
    if (copy_planner_update_book(book, MIP_LEVEL, ranges, places, len, &count) != COPY_PLANNER_ACCEPTED)
        return;
    print_places("clear", places, count);
    print_answer(copy, refused, plan, ranges);
    if (copy_planner_book_missing(book, MIP_LEVEL, places, len, &count) != COPY_PLANNER_ACCEPTED)
        return;
    print_places("missing", places, count);
    printf("filled %d\n", copy_planner_book_is_filled(book));
}

/* A corner of layer 1, which is cleared before it; a third layer, which the texture does not have; and all of layer 0. */
static void print_uploads_with_book(unsigned copy)
{
    const copy_planner_extent corner = {4, 4, 1};
    const copy_planner_extent layer = {8, 8, 1};
    copy_planner_book book;
    if (copy_planner_new_book(&texture, &book) != COPY_PLANNER_ACCEPTED)
        return;
    print_upload_with_book(copy, 1, &corner, &book);
    print_upload_with_book(copy + 1, 2, &layer, &book);
    print_upload_with_book(copy + 2, 0, &layer, &book);
}

/*
 * Copies layer 0 onto layer 1 and prints what has to be cleared before that. Both ranges belong to the one texture's book, and are applied in
 * their order: the source's first, at its level, then the destination's at its own.
 */
static void print_copy_with_book(unsigned copy)
{
    const copy_planner_view onto = {MIP_LEVEL, 0, 0, 1, COPY_PLANNER_ASPECT_ALL};
    const copy_planner_extent layer = {8, 8, 1};
    const uint32_t levels[] = {view.mip_level, onto.mip_level};
    uint64_t plan[COPY_PLANNER_TEXTURE_PLAN_WORDS];
    uint64_t ranges[COPY_PLANNER_TEXTURE_RANGES_WORDS];
    uint64_t places[COPY_PLANNER_BOOK_LAYERS * COPY_PLANNER_PLACE_NUMBERS];
    uint64_t count;
    copy_planner_book book;
    if (copy_planner_new_book(&texture, &book) != COPY_PLANNER_ACCEPTED ||
        copy_planner_texture_to_texture(true, &texture, &view, &texture, &onto, &layer, plan, ranges) != COPY_PLANNER_ACCEPTED)
        return;
    for (size_t i = 0; i < 2; i++) {
        if (copy_planner_update_book(
                &book, levels[i], ranges + i * COPY_PLANNER_RANGE_WORDS, places, sizeof places / sizeof places[0], &count) !=
            COPY_PLANNER_ACCEPTED)
            return;
        print_places("clear", places, count);
    }
    printf("copy %u ok\nfilled %d\n", copy, copy_planner_book_is_filled(&book));
}

/* The first call says how long the listing is. */
static int list_standard_input(void)
{
    static uint8_t sheet[SHEET_BYTES];
    uint8_t none[1];
    size_t sheet_len = fread(sheet, 1, sizeof sheet, stdin);
    if (ferror(stdin)) {
        perror("standard input");
        return EXIT_FAILURE;
    }
    size_t len = copy_planner_list(sheet, sheet_len, none, 0);
    uint8_t *listing = malloc(len + 1);
    if (listing == NULL)
        return EXIT_FAILURE;
    copy_planner_list(sheet, sheet_len, listing, len);
    fwrite(listing, 1, len, stdout);
    free(listing);
    return EXIT_SUCCESS;
}

int main(int argc, char **argv)
{
    (void)argv;
    print_upload(0, 2);
    print_upload(1, 3);
    print_memory_write(2);
    print_overruns_with_one_texture(3);
    print_overruns_between_textures(6);
    print_uploads_with_book(8);
    print_copy_with_book(11);
    int status = argc > 1 ? list_standard_input() : EXIT_SUCCESS;
    /* What is still in the buffer may find the disk full. */
    if (fflush(stdout) != 0 || ferror(stdout)) {
        perror("standard output");
        return EXIT_FAILURE;
    }
    return status;
}
