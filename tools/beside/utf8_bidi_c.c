/* The engine of this repository, through the library for C: decodes and lays out a text in UTF-8, and copies out the
 * levels and the order of its characters. */
#define WITH_LINES
#include "lay_out.h"
#include "../../c/bidi.h"

static bidi_tables tables = BIDI_NONE;
static bidi_room text_room = BIDI_NONE;
static const uint8_t *text;
static size_t length, bytes, *order;
static uint8_t *levels;

static void prepare(const uint32_t *codes, size_t n, const char *folder) {
    (void)codes;
    (void)folder;
    if (bidi_tables_standard(&tables)) fail("no tables");
    if (bidi_room_new_encoded(file_length, &text_room)) fail("no room");
    order = room(sizeof(size_t) * n);
    levels = room(n);
}

static void use_line(const struct line *line) {
    text = file_bytes + line->first_byte;
    bytes = line->bytes;
    length = line->count;
}

__attribute__((noinline)) void lay_out_once(void) {
    static const size_t none[1];
    uint64_t place;
    if (bidi_lay_out_utf8(&text_room, &tables, text, bytes, BIDI_AUTO, none, 0, &place)) fail("no layout");
    bidi_levels(&text_room, levels, length);
    bidi_order(&text_room, 0, order, length);
}
