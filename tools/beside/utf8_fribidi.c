/* FriBidi: a text in UTF-8, which each call turns to UTF-32 first, in columns made once. FRIBIDI_FLAG_REORDER_NSM (rule
 * L3) is off. */
#include "lay_out.h"
#include <fribidi.h>

static FriBidiChar *text;
static FriBidiStrIndex *order;
static FriBidiCharType *types;
static FriBidiBracketType *brackets;
static FriBidiLevel *levels;

static void prepare(const uint32_t *codes, size_t n, const char *folder) {
    (void)codes;
    (void)folder;
    text = room(sizeof *text * n);
    order = room(sizeof *order * n);
    types = room(sizeof *types * n);
    brackets = room(sizeof *brackets * n);
    levels = room(sizeof *levels * n);
}

__attribute__((noinline)) void lay_out_once(void) {
    FriBidiParType direction = FRIBIDI_PAR_ON;
    FriBidiStrIndex length = fribidi_charset_to_unicode(
        FRIBIDI_CHAR_SET_UTF8, (const char *)file_bytes, (FriBidiStrIndex)file_length, text);
    fribidi_get_bidi_types(text, length, types);
    fribidi_get_bracket_types(text, length, types, brackets);
    if (!fribidi_get_par_embedding_levels_ex(types, brackets, length, &direction, levels)) fail("no levels");
    for (FriBidiStrIndex i = 0; i < length; i++) order[i] = i;
    if (!fribidi_reorder_line(0, types, length, 0, direction, levels, NULL, order)) fail("no order");
}
