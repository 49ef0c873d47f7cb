/* calls: prints what each call of FriBidi that libfribidi_over_bidi.so replaces makes of texts on which FriBidi is
 * right. Each line of standard input is a text, code points in hexadecimal. With and without that shared object it
 * prints the same, except for its first line, which says how many of these calls are replaced. */
#define _GNU_SOURCE
#include <dlfcn.h>
#include <fribidi.h>
#include <stdio.h>
#include <stdlib.h>
#include <string.h>
#define MOST 256

static int replaced; /* how many of the replaced calls are not FriBidi's */

static void print_numbers(const char *what, const int *numbers, int n) {
  printf(" %s", what);
  for (int i = 0; i < n; i++) printf(" %d", numbers[i]);
}

static void print_levels(const char *what, const FriBidiLevel *levels, int n) {
  int numbers[MOST];
  for (int i = 0; i < n; i++) numbers[i] = levels[i];
  print_numbers(what, numbers, n);
}

static void print_codes(const FriBidiChar *codes, int n) {
  printf(" codes");
  for (int i = 0; i < n; i++) printf(" %04X", codes[i]);
}

/* Reorders a line of a text, with these flags, its map and its characters, or one of the two alone. */
static void reorder(const FriBidiChar *codes, const FriBidiCharType *types, const FriBidiLevel *levels, int n,
                    FriBidiParType direction, int start, int end, FriBidiFlags flags, int parts) {
  FriBidiLevel line[MOST];
  FriBidiChar shown[MOST];
  FriBidiStrIndex map[MOST];
  memcpy(line, levels, n * sizeof *line);
  memcpy(shown, codes, n * sizeof *shown);
  for (int i = 0; i < n; i++) map[i] = i;
  int made = fribidi_reorder_line(flags, types, end - start, start, direction, line, parts & 1 ? shown : NULL,
                                  parts & 2 ? map : NULL);
  printf("  line %d %d:%d", start, end, made);
  print_levels("levels", line, n);
  print_codes(shown, n);
  print_numbers("map", map, n);
  printf("\n");
}

static void lay_out(const FriBidiChar *codes, const FriBidiCharType *types, const FriBidiBracketType *brackets, int n,
                    FriBidiParType direction) {
  FriBidiLevel levels[MOST], plain[MOST];
  FriBidiParType found = direction, again = direction;
  int made = fribidi_get_par_embedding_levels_ex(types, brackets, n, &found, levels);
  int simple = fribidi_get_par_embedding_levels(types, n, &again, plain);
  printf(" direction %X found %X %X made %d %d", (unsigned)direction, (unsigned)found, (unsigned)again, made, simple);
  print_levels("levels", levels, n);
  print_levels("without brackets", plain, n);
  printf("\n");
  for (int parts = 1; parts < 4; parts++)
    reorder(codes, types, levels, n, found, 0, n, parts % 2 ? 0 : FRIBIDI_FLAG_REORDER_NSM, parts);
  for (int end = 1; end < n; end++)
    reorder(codes, types, levels, n, found, end / 2, end, FRIBIDI_FLAG_REORDER_NSM, 3);
}

/* Returns whether the removal of marks leaves this character. */
static int remains(FriBidiChar code) { return fribidi_remove_bidi_marks(&code, 1, NULL, NULL, NULL) == 1; }

static void remove_marks(const FriBidiChar *codes, int n, int parts) {
  FriBidiChar left[MOST];
  FriBidiStrIndex to_this[MOST], from_this[MOST];
  FriBidiLevel levels[MOST];
  memcpy(left, codes, n * sizeof *left);
  for (int i = 0; i < n; i++) to_this[i] = from_this[i] = n - 1 - i, levels[i] = i % 5;
  int remaining = fribidi_remove_bidi_marks(left, n, parts & 1 ? to_this : NULL, parts & 2 ? from_this : NULL,
                                            parts & 4 ? levels : NULL);
  printf(" kept %d", remaining);
  print_codes(left, remaining);
  if (remaining == n) print_numbers("to", to_this, n); /* else FriBidi's has entries of characters that are gone */
  if (replaced && (parts & 1))
    for (int i = 0, at = 0; i < n; i++)
      if (to_this[n - 1 - i] != (remains(codes[i]) ? at++ : -1)) printf(" ??");
  print_numbers("from", from_this, parts & 2 ? remaining : 0);
  print_levels("levels", levels, remaining);
  printf("\n");
}

static void call_all(const FriBidiChar *codes, int n) {
  FriBidiCharType types[MOST];
  FriBidiBracketType brackets[MOST];
  FriBidiChar mirrored;
  const FriBidiParType directions[] = { FRIBIDI_PAR_LTR, FRIBIDI_PAR_RTL, FRIBIDI_PAR_ON, FRIBIDI_PAR_WLTR,
                                        FRIBIDI_PAR_WRTL };
  print_codes(codes, n);
  fribidi_get_bidi_types(codes, n, types);
  fribidi_get_bracket_types(codes, n, types, brackets);
  printf(" direction %X types", (unsigned)fribidi_get_par_direction(types, n));
  for (int i = 0; i < n; i++) {
    printf(" %X", (unsigned)types[i]);
    if (types[i] != fribidi_get_bidi_type(codes[i])) printf(" ??");
    printf(" %X", (unsigned)brackets[i]);
    if (types[i] == FRIBIDI_TYPE_ON && brackets[i] != fribidi_get_bracket(codes[i])) printf(" ??");
    if (fribidi_get_mirror_char(codes[i], &mirrored)) printf(" %X", mirrored);
  }
  printf("\n");
  for (int i = 0; i < 5; i++) lay_out(codes, types, brackets, n, directions[i]);
  for (int parts = 0; parts < 8; parts++) remove_marks(codes, n, parts);
}

static void count_replaced(void) {
  const char *names[] = { "fribidi_get_bidi_type", "fribidi_get_bidi_types", "fribidi_get_bracket",
    "fribidi_get_bracket_types", "fribidi_get_mirror_char", "fribidi_get_par_direction",
    "fribidi_get_par_embedding_levels", "fribidi_get_par_embedding_levels_ex", "fribidi_reorder_line",
    "fribidi_remove_bidi_marks" };
  Dl_info found;
  for (int i = 0; i < 10; i++)
    replaced += dladdr(dlsym(RTLD_DEFAULT, names[i]), &found) && strstr(found.dli_fname, "over_bidi") != NULL;
}

int main(void) {
  char line[MOST * 8];
  count_replaced();
  printf("replaced: %d of 10\n", replaced);
  while (fgets(line, sizeof line, stdin)) {
    FriBidiChar codes[MOST];
    int n = 0;
    for (char *at = line, *end; n < MOST; at = end) {
      codes[n] = strtoul(at, &end, 16);
      if (end == at) break;
      n++;
    }
    call_all(codes, n);
  }
  return 0;
}
