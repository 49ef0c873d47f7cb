/* The engine of this repository, through the library for C: lays out each line of 80 of a text that is laid out, alone,
 * one after another, with its levels and its order. Only that is timed. */
#include "lay_out.h"
#include "../../c/bidi.h"

static bidi_tables tables = BIDI_NONE;
static bidi_room text_room = BIDI_NONE;
static size_t length, *order;
static uint8_t *levels;

static void prepare(const uint32_t *codes, size_t n, const char *folder) {
    (void)folder;
    uint64_t place;
    if (bidi_tables_standard(&tables)) fail("no tables");
    if (bidi_room_new(n, &text_room)) fail("no room");
    length = n;
    order = room(sizeof(size_t) * n);
    levels = room(n);
    if (bidi_lay_out(&text_room, &tables, codes, n, BIDI_AUTO, order, 0, &place)) fail("no layout");
}

__attribute__((noinline)) void lay_out_once(void) {
    size_t shown;
    for (size_t at = 0; at < length; at += 80) {
        size_t end = at + 80 < length ? at + 80 : length;
        if (bidi_line_of(&text_room, at, end, levels, length, order, length, &shown)) fail("no line");
    }
}
