/* FriBidi: UTF-32, in columns made once. FRIBIDI_FLAG_REORDER_NSM (rule L3) is off. */
#define WITH_LINES
#include "lay_out.h"
#include <fribidi.h>

static const FriBidiChar *whole, *text;
static FriBidiStrIndex length, *order;
static FriBidiCharType *types;
static FriBidiBracketType *brackets;
static FriBidiLevel *levels;

static void prepare(const uint32_t *codes, size_t n, const char *folder) {
    (void)folder;
    whole = codes;
    order = room(sizeof *order * n);
    types = room(sizeof *types * n);
    brackets = room(sizeof *brackets * n);
    levels = room(sizeof *levels * n);
}

static void use_line(const struct line *line) {
    text = whole + line->start;
    length = (FriBidiStrIndex)line->count;
}

__attribute__((noinline)) void lay_out_once(void) {
    FriBidiParType direction = FRIBIDI_PAR_ON;
    fribidi_get_bidi_types(text, length, types);
    fribidi_get_bracket_types(text, length, types, brackets);
    if (!fribidi_get_par_embedding_levels_ex(types, brackets, length, &direction, levels)) fail("no levels");
    for (FriBidiStrIndex i = 0; i < length; i++) order[i] = i;
    if (!fribidi_reorder_line(0, types, length, 0, direction, levels, NULL, order)) fail("no order");
}
