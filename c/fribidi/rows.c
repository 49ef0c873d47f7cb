/* rows < FILE: for each row of a BidiCharacterTest.txt, prints a row with the same text under the same direction, and
 * with what FriBidi's calls make of it. What X9 removes, by FriBidi's types, has no level and no place. */
#include <fribidi.h>
#include <stdio.h>
#include <stdlib.h>
#define MOST 4096

static FriBidiChar codes[MOST];
static FriBidiCharType types[MOST];
static FriBidiBracketType brackets[MOST];
static FriBidiLevel levels[MOST];
static FriBidiStrIndex order[MOST];

static int removed(int i) { return FRIBIDI_IS_EXPLICIT_OR_BN(types[i]); }

/* Returns FriBidi's form of the direction of a row, 0 to 3. */
static FriBidiParType direction_of(int number) {
  const FriBidiParType directions[] = { FRIBIDI_PAR_LTR, FRIBIDI_PAR_RTL, FRIBIDI_PAR_ON, FRIBIDI_PAR_WRTL };
  return directions[number & 3];
}

/* Writes the row of n code points. Returns whether FriBidi laid it out. */
static int write_row(int n, int direction) {
  FriBidiParType paragraph = direction_of(direction);
  fribidi_get_bidi_types(codes, n, types);
  fribidi_get_bracket_types(codes, n, types, brackets);
  if (!fribidi_get_par_embedding_levels_ex(types, brackets, n, &paragraph, levels)) return 0;
  for (int i = 0; i < n; i++) order[i] = i;
  if (!fribidi_reorder_line(0, types, n, 0, paragraph, levels, NULL, order)) return 0;
  for (int i = 0; i < n; i++) printf("%s%04X", i ? " " : "", codes[i]);
  printf(";%d;%d;", direction, FRIBIDI_DIR_TO_LEVEL(paragraph));
  for (int i = 0; i < n; i++)
    if (removed(i)) printf("%sx", i ? " " : "");
    else printf("%s%d", i ? " " : "", levels[i]);
  printf(";");
  for (int i = 0, shown = 0; i < n; i++)
    if (!removed(order[i])) printf("%s%d", shown++ ? " " : "", order[i]);
  printf("\n");
  return 1;
}

int main(void) {
  static char line[MOST * 8];
  while (fgets(line, sizeof line, stdin)) {
    char *at = line;
    int n = 0;
    if (*at == '#' || *at == '\n') continue;
    for (; *at && *at != ';' && n < MOST; n++) codes[n] = strtoul(at, &at, 16);
    if (*at != ';' || !write_row(n, atoi(at + 1))) return 1;
  }
  return 0;
}
