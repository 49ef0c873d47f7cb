/* FriBidi: rows of texts, without L3, or the classes, as rows.h says; `--version` prints which FriBidi it is. */
#include "rows.h"
#include <fribidi.h>

static int lay_out(const text *asked, layout *made) {
  static FriBidiCharType types[MOST];
  static FriBidiBracketType brackets[MOST];
  static FriBidiLevel levels[MOST];
  static FriBidiStrIndex order[MOST];
  const FriBidiParType directions[] = { FRIBIDI_PAR_LTR, FRIBIDI_PAR_RTL, FRIBIDI_PAR_ON };
  FriBidiParType paragraph = directions[asked->direction];
  int n = asked->n;
  fribidi_get_bidi_types(asked->codes, n, types);
  fribidi_get_bracket_types(asked->codes, n, types, brackets);
  if (!fribidi_get_par_embedding_levels_ex(types, brackets, n, &paragraph, levels)) return 1;
  for (int i = 0; i < n; i++) order[i] = i;
  for (int k = 0, start = 0; k < asked->lines; start = asked->ends[k++])
    if (!fribidi_reorder_line(0, types, asked->ends[k] - start, start, paragraph, levels, NULL, order)) return 1;
  made->paragraph = FRIBIDI_DIR_TO_LEVEL(paragraph);
  for (int i = 0; i < n; i++) {
    made->levels[i] = levels[i];
    made->order[i] = order[i];
  }
  return 0;
}

static const char *class_of(uint32_t code) {
  FriBidiCharType type = fribidi_get_bidi_type(code);
  switch (type) {  /* FriBidi has its own names of these. */
    case FRIBIDI_TYPE_LTR: return "L";
    case FRIBIDI_TYPE_RTL: return "R";
    case FRIBIDI_TYPE_BS: return "B";
    case FRIBIDI_TYPE_SS: return "S";
    default: return fribidi_get_bidi_type_name(type);
  }
}

int main(int argc, char **argv) {
  return run_words(argc, argv, "FriBidi " FRIBIDI_VERSION ", tables of Unicode " FRIBIDI_UNICODE_VERSION);
}
