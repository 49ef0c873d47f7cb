/* ICU (ubidi): rows of texts, or the classes, as rows.h says; `--version` prints which ICU it is. */
#include "rows.h"
#include <unicode/ubidi.h>
#include <unicode/uchar.h>
#include <unicode/uversion.h>

static UBiDi *engine, *line;

/* The text in UTF-16: of each character the unit at which it begins, and the character that begins at a unit, or -1. */
typedef struct { UChar units[2 * MOST]; int first[MOST + 1], of_unit[2 * MOST], length; } encoded;

static void encode(const text *asked, encoded *made) {
  made->length = 0;
  for (int i = 0; i < asked->n; i++) {
    uint32_t code = asked->codes[i];
    made->first[i] = made->length;
    made->of_unit[made->length] = i;
    if (code < 0x10000) made->units[made->length++] = code;
    else {
      made->units[made->length++] = 0xD7C0 + (code >> 10);
      made->of_unit[made->length] = -1;
      made->units[made->length++] = 0xDC00 | (code & 0x3FF);
    }
  }
  made->first[asked->n] = made->length;
}

/* Reads the line of the characters [start, end), as ICU laid it out. */
static int read_line(UBiDi *laid_out, const encoded *whole, int start, int end, layout *made) {
  static int order[2 * MOST];
  UErrorCode error = U_ZERO_ERROR;
  int from = whole->first[start], place = start;
  const UBiDiLevel *levels = ubidi_getLevels(laid_out, &error);
  ubidi_getVisualMap(laid_out, order, &error);
  if (U_FAILURE(error)) return 1;
  for (int i = start; i < end; i++) made->levels[i] = levels[whole->first[i] - from];
  for (int at = 0; at < whole->first[end] - from; at++)
    if (whole->of_unit[from + order[at]] >= 0) made->order[place++] = whole->of_unit[from + order[at]];
  return 0;
}

static int lay_out(const text *asked, layout *made) {
  static encoded whole;
  UErrorCode error = U_ZERO_ERROR;
  encode(asked, &whole);
  UBiDiLevel paragraph = asked->direction == 2 ? UBIDI_DEFAULT_LTR : asked->direction;
  ubidi_setPara(engine, whole.units, whole.length, paragraph, NULL, &error);
  if (U_FAILURE(error)) return 1;
  made->paragraph = ubidi_getParaLevel(engine);
  if (asked->lines == 1) return read_line(engine, &whole, 0, asked->n, made);
  for (int k = 0, start = 0; k < asked->lines; start = asked->ends[k++]) {
    ubidi_setLine(engine, whole.first[start], whole.first[asked->ends[k]], line, &error);
    if (U_FAILURE(error) || read_line(line, &whole, start, asked->ends[k], made)) return 1;
  }
  return 0;
}

static const char *class_of(uint32_t code) {
  return u_getPropertyValueName(UCHAR_BIDI_CLASS, ubidi_getCustomizedClass(engine, code), U_SHORT_PROPERTY_NAME);
}

int main(int argc, char **argv) {
  engine = ubidi_open();
  line = ubidi_open();
  return engine && line ? run_words(argc, argv, "ICU4C " U_ICU_VERSION) : 2;
}
