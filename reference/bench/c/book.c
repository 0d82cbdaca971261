/* A book of what has been written of a texture, as it would be written in C without
   a proof: what the planner's copy_planner_update_book and copy_planner_book_is_filled
   are timed against. Both are written to do the same. */
#include <stdbool.h>
#include <stddef.h>
#include <stdint.h>
#include <string.h>

enum { LEVELS = 14, LAYERS = 256 };
enum { NONE = 0, IMPLICIT = 1 };
enum { SLICE_TOO_SHORT = 38, INVALID_BOOK_RANGE = 39 };

struct book {
    uint32_t levels;
    uint32_t layers;
    uint8_t marks[LEVELS * LAYERS];
};

uint32_t plain_update_book(struct book *book, uint32_t level, const uint64_t range[3], uint64_t *places, size_t len,
                           uint64_t *count)
{
    uint64_t start = range[1], end = range[2];

    *count = 0;
    if (range[0] == NONE)
        return 0;
    if (book->levels > LEVELS || book->layers > LAYERS || level >= book->levels || start > end || end > book->layers)
        return INVALID_BOOK_RANGE;

    uint8_t *marks = book->marks + (size_t)level * LAYERS;
    size_t unmarked = 0;
    if (range[0] != IMPLICIT) {
        for (size_t layer = start; layer < end; layer++)
            unmarked += marks[layer] == 0;
        if (len < 2 * unmarked)
            return SLICE_TOO_SHORT;
        for (size_t layer = start; layer < end; layer++) {
            if (marks[layer] == 0) {
                *places++ = level;
                *places++ = layer;
            }
        }
    }
    memset(marks + start, 1, end - start);
    *count = unmarked;
    return 0;
}

bool plain_is_filled(const struct book *book)
{
    if (book->levels == 0 || book->levels > LEVELS || book->layers == 0 || book->layers > LAYERS)
        return false;
    for (size_t level = 0; level < book->levels; level++)
        for (size_t layer = 0; layer < book->layers; layer++)
            if (book->marks[level * LAYERS + layer] == 0)
                return false;
    return true;
}
