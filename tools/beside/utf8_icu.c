/* ICU: a text in UTF-8, which each call turns to UTF-16 first; one UBiDi for all calls. */
#define WITH_LINES
#include "lay_out.h"
#include <unicode/ubidi.h>
#include <unicode/ustring.h>

static UBiDi *bidi;
static UChar *text;
static const char *from;
static int32_t place, bytes, *order;

static void prepare(const uint32_t *codes, size_t n, const char *folder) {
    (void)codes;
    (void)folder;
    place = (int32_t)(2 * n);
    text = room(sizeof(UChar) * 2 * n);
    order = room(sizeof(int32_t) * 2 * n);
    bidi = ubidi_open();
}

static void use_line(const struct line *line) {
    from = (const char *)file_bytes + line->first_byte;
    bytes = (int32_t)line->bytes;
}

__attribute__((noinline)) void lay_out_once(void) {
    UErrorCode error = U_ZERO_ERROR;
    int32_t length;
    u_strFromUTF8(text, place, &length, from, bytes, &error);
    ubidi_setPara(bidi, text, length, UBIDI_DEFAULT_LTR, NULL, &error);
    ubidi_getLevels(bidi, &error);
    ubidi_getVisualMap(bidi, order, &error);
    if (U_FAILURE(error)) fail(u_errorName(error));
}
