/* The engine of this repository, through the library for C: decodes and lays out a text in UTF-16, made beforehand, and
 * copies out the levels and the order of its characters. */
#include "lay_out.h"
#include "../../c/bidi.h"

static bidi_tables tables = BIDI_NONE;
static bidi_room text_room = BIDI_NONE;
static uint16_t *text;
static size_t length, unit_count, *order;
static uint8_t *levels;

static void prepare(const uint32_t *codes, size_t n, const char *folder) {
    (void)folder;
    text = room(sizeof(uint16_t) * 2 * n);
    for (size_t i = 0; i < n; i++) {
        uint32_t above = codes[i] - 0x10000;
        if (codes[i] >= 0x10000) text[unit_count++] = (uint16_t)(0xD800 + (above >> 10));
        text[unit_count++] = (uint16_t)(codes[i] >= 0x10000 ? 0xDC00 + (above & 0x3FF) : codes[i]);
    }
    if (bidi_tables_standard(&tables)) fail("no tables");
    if (bidi_room_new_encoded(unit_count, &text_room)) fail("no room");
    length = n;
    order = room(sizeof(size_t) * n);
    levels = room(n);
}

__attribute__((noinline)) void lay_out_once(void) {
    static const size_t none[1];
    uint64_t place;
    if (bidi_lay_out_utf16(&text_room, &tables, text, unit_count, BIDI_AUTO, none, 0, &place)) fail("no layout");
    bidi_levels(&text_room, levels, length);
    bidi_order(&text_room, 0, order, length);
}
