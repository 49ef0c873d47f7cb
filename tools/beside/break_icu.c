/* ICU: breaks a paragraph that is laid out into lines of 80 code points again, and copies out each line's order. */
#include "lay_out.h"
#include <unicode/ubidi.h>
#include <unicode/utf16.h>

static UBiDi *bidi, *line;
static UChar *text;
static int32_t length, count, *starts, *order;

static void prepare(const uint32_t *codes, size_t n, const char *folder) {
    (void)folder;
    UErrorCode error = U_ZERO_ERROR;
    text = room(sizeof(UChar) * 2 * n);
    order = room(sizeof(int32_t) * 2 * n);
    starts = room(sizeof(int32_t) * (n + 1));
    for (size_t i = 0; i < n; i++) {
        if (i % 80 == 0) starts[count++] = length;
        U16_APPEND_UNSAFE(text, length, codes[i]);
    }
    starts[count] = length;
    bidi = ubidi_open();
    line = ubidi_open();
    ubidi_setPara(bidi, text, length, UBIDI_DEFAULT_LTR, NULL, &error);
    if (U_FAILURE(error)) fail(u_errorName(error));
}

__attribute__((noinline)) void lay_out_once(void) {
    UErrorCode error = U_ZERO_ERROR;
    for (int32_t k = 0; k < count; k++) {
        ubidi_setLine(bidi, starts[k], starts[k + 1], line, &error);
        ubidi_getVisualMap(line, order, &error);
    }
    if (U_FAILURE(error)) fail(u_errorName(error));
}
