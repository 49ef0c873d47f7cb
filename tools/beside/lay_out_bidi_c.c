/* The engine of this repository, through the library for C: the layout, with its levels and its order copied out. */
#define WITH_LINES
#include "lay_out.h"
#include "../../c/bidi.h"

static bidi_tables tables = BIDI_NONE;
static bidi_room text_room = BIDI_NONE;
static const uint32_t *whole, *text;
static size_t length, *order;
static uint8_t *levels;

static uint8_t *read_in(const char *folder, const char *name, size_t *size) {
    char path[4096];
    snprintf(path, sizeof path, "%s/%s", folder, name);
    return read_bytes(path, size);
}

static void prepare(const uint32_t *codes, size_t n, const char *folder) {
    size_t a, b, c;
    bidi_fault fault;
    uint8_t *classes = read_in(folder, "DerivedBidiClass.txt", &a);
    uint8_t *brackets = read_in(folder, "BidiBrackets.txt", &b);
    uint8_t *mirrors = read_in(folder, "BidiMirroring.txt", &c);
    if (bidi_tables_new(classes, a, brackets, b, mirrors, c, &tables, &fault)) fail("no tables");
    if (bidi_room_new(n, &text_room)) fail("no room");
    whole = codes;
    order = room(sizeof(size_t) * n);
    levels = room(n);
}

static void use_line(const struct line *line) {
    text = whole + line->start;
    length = line->count;
}

__attribute__((noinline)) void lay_out_once(void) {
    static const size_t none[1];
    uint64_t place;
    if (bidi_lay_out(&text_room, &tables, text, length, BIDI_AUTO, none, 0, &place)) fail("no layout");
    bidi_levels(&text_room, levels, length);
    bidi_order(&text_room, 0, order, length);
}
