/* FriBidi: breaks a paragraph that is laid out into lines of 80 code points again: copies its levels, and reorders each
 * line with its positions. FRIBIDI_FLAG_REORDER_NSM (rule L3) is off. */
#include "lay_out.h"
#include <fribidi.h>
#include <string.h>

static FriBidiStrIndex length, *order;
static FriBidiCharType *types;
static FriBidiLevel *levels, *line_levels;
static FriBidiParType direction = FRIBIDI_PAR_ON;

static void prepare(const uint32_t *codes, size_t n, const char *folder) {
    (void)folder;
    length = (FriBidiStrIndex)n;
    order = room(sizeof *order * n);
    types = room(sizeof *types * n);
    levels = room(sizeof *levels * n);
    line_levels = room(sizeof *line_levels * n);
    FriBidiBracketType *brackets = room(sizeof *brackets * n);
    fribidi_get_bidi_types(codes, length, types);
    fribidi_get_bracket_types(codes, length, types, brackets);
    if (!fribidi_get_par_embedding_levels_ex(types, brackets, length, &direction, levels)) fail("no levels");
    free(brackets);
}

__attribute__((noinline)) void lay_out_once(void) {
    memcpy(line_levels, levels, sizeof *levels * (size_t)length);
    for (FriBidiStrIndex i = 0; i < length; i++) order[i] = i;
    for (FriBidiStrIndex at = 0; at < length; at += 80) {
        FriBidiStrIndex count = length - at < 80 ? length - at : 80;
        if (!fribidi_reorder_line(0, types, count, at, direction, line_levels, NULL, order)) fail("no order");
    }
}
