/* The engine of this repository, through the library for C: breaks a text that is laid out into lines of 80 again, and
 * copies out each line's order. Only that is timed. */
#include "lay_out.h"
#include "../../c/bidi.h"

static bidi_tables tables = BIDI_NONE;
static bidi_room text_room = BIDI_NONE;
static size_t length, count, *breaks, *order;

static void prepare(const uint32_t *codes, size_t n, const char *folder) {
    (void)folder;
    uint64_t place;
    if (bidi_tables_standard(&tables)) fail("no tables");
    if (bidi_room_new(n, &text_room)) fail("no room");
    length = n;
    order = room(sizeof(size_t) * n);
    breaks = room(sizeof(size_t) * n);
    if (bidi_lay_out(&text_room, &tables, codes, n, BIDI_AUTO, breaks, 0, &place)) fail("no layout");
    for (size_t at = 80; at < n; at += 80) breaks[count++] = at;
}

__attribute__((noinline)) void lay_out_once(void) {
    uint64_t place;
    if (bidi_set_lines(&text_room, breaks, count, &place)) fail("not broken");
    for (size_t k = 0; k <= count; k++) bidi_order(&text_room, k, order, length);
}
