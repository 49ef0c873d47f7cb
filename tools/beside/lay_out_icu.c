/* ICU: UTF-16, made beforehand; one UBiDi for all calls. */
#define WITH_LINES
#include "lay_out.h"
#include <unicode/ubidi.h>
#include <unicode/utf16.h>

static UBiDi *bidi;
static UChar *whole, *text;
static int32_t length, *order, *starts;

static void prepare(const uint32_t *codes, size_t n, const char *folder) {
    (void)folder;
    whole = room(sizeof(UChar) * 2 * n);
    order = room(sizeof(int32_t) * 2 * n);
    starts = room(sizeof(int32_t) * (n + 1));
    int32_t units = 0;
    for (size_t i = 0; i < n; i++) {
        starts[i] = units;
        U16_APPEND_UNSAFE(whole, units, codes[i]);
    }
    starts[n] = units;
    bidi = ubidi_open();
}

static void use_line(const struct line *line) {
    text = whole + starts[line->start];
    length = starts[line->start + line->count] - starts[line->start];
}

__attribute__((noinline)) void lay_out_once(void) {
    UErrorCode error = U_ZERO_ERROR;
    ubidi_setPara(bidi, text, length, UBIDI_DEFAULT_LTR, NULL, &error);
    ubidi_getLevels(bidi, &error);
    ubidi_getVisualMap(bidi, order, &error);
    if (U_FAILURE(error)) fail(u_errorName(error));
}
