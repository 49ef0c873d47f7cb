/* fronts UCD: makes the calls for engines that have their own front, failing ones too. fronts.out has its output. */
#include "bidi.h"
#include "read_file.h"
#include <string.h>

enum { MOST = 16 };

static void print_bytes(const char *what, const uint8_t *bytes, size_t n) {
  printf(" %s", what);
  for (size_t i = 0; i < n; i++) printf(" %u", bytes[i]);
}

static void look_up(bidi_tables *tables, const uint32_t *codes, size_t n, size_t class_capacity,
                    size_t bracket_capacity) {
  uint8_t classes[MOST], brackets[MOST];
  uint64_t place = 77;
  memset(classes, 88, sizeof classes);
  memset(brackets, 99, sizeof brackets);
  uint32_t status = bidi_classes(tables, codes, n, classes, class_capacity, brackets, bracket_capacity, &place);
  printf("classes %u place %llu:", status, (unsigned long long)place);
  print_bytes("class", classes, n + 1);
  print_bytes("bracket", brackets, n + 1);
  printf("\n");
}

static void find_pairs(bidi_tables *tables) {
  const uint32_t codes[] = { '(', ')', '[', ']', 0x2329, 0x232A, 0x3008, 0x3009, 'a', '<', 0xD800, 0x110000 };
  printf("paired");
  for (size_t i = 0; i < sizeof codes / sizeof *codes; i++)
    printf(" %X", bidi_paired_bracket(tables, codes[i]));
  printf("\n");
}

static void find_level(const uint8_t *classes, size_t n, uint32_t direction) {
  uint8_t level = 99;
  uint64_t place = 77;
  uint32_t status = bidi_base_level_classes(classes, n, direction, &level, &place);
  printf("base level %u place %llu: %u\n", status, (unsigned long long)place, level);
}

static void reset(const uint8_t *classes, size_t n, uint8_t para_level, const uint8_t *before, size_t capacity) {
  uint8_t levels[MOST];
  uint64_t place = 77;
  memset(levels, 99, sizeof levels);
  memcpy(levels, before, n);
  uint32_t status = bidi_reset_levels(classes, n, para_level, levels, capacity, &place);
  printf("reset %u place %llu:", status, (unsigned long long)place);
  print_bytes("levels", levels, n + 1);
  printf("\n");
}

static void reorder(const uint8_t *levels, size_t n, size_t capacity) {
  size_t order[MOST];
  uint64_t place = 77;
  for (size_t i = 0; i < MOST; i++) order[i] = 99;
  uint32_t status = bidi_reorder(levels, n, order, capacity, &place);
  printf("reorder %u place %llu:", status, (unsigned long long)place);
  for (size_t i = 0; i <= n; i++) printf(" %zu", order[i]);
  printf("\n");
}

static void print_levels(const char *what, const uint8_t *levels, size_t n) {
  printf(" %s", what);
  for (size_t i = 0; i < n && i < MOST; i++)
    if (levels[i] == BIDI_REMOVED) printf(" x");
    else printf(" %u", levels[i]);
}

/* Prints the levels before L1, after it, and of all positions; then how many there are if only two fit, and the
 * array. */
static void print_layout(bidi_room *room) {
  uint8_t levels[MOST], few[MOST];
  memset(few, 99, sizeof few);
  print_levels("resolved", levels, bidi_resolved_levels(room, levels, MOST));
  print_levels("levels", levels, bidi_levels(room, levels, MOST));
  print_levels("whole", levels, bidi_whole_levels(room, levels, MOST));
  printf(" counted %zu %zu", bidi_resolved_levels(room, few, 2), bidi_whole_levels(room, few, 2));
  print_levels("few", few, 3);
  printf("\n");
}

static void lay_out(bidi_room *room, const bidi_unit *units, size_t n, uint32_t direction) {
  uint64_t place = 77;
  uint32_t status = bidi_lay_out_units(room, units, n, direction, NULL, 0, &place);
  printf("units %u place %llu:", status, (unsigned long long)place);
  print_layout(room);
}

static void lay_out_units(void) {
  enum { L, R, ON = 13, WS = 12, BN = 9, B = 10 };
  bidi_room room = BIDI_NONE, encoded = BIDI_NONE;
  const bidi_unit nested[] = { { L, 0, 0 }, { ON, 1, 7 }, { R, 0, 0 }, { ON, 1, 8 }, { ON, 2, 7 }, { L, 0, 0 } };
  const bidi_unit apart[] = { { L, 0, 0 }, { ON, 1, 7 }, { R, 0, 0 }, { ON, 2, 8 }, { R, 0, 0 } };
  const bidi_unit removed[] = { { BN, 0, 0 }, { R, 0, 0 }, { BN, 0, 0 }, { R, 0, 0 }, { WS, 0, 0 }, { BN, 0, 0 },
                                { B, 0, 0 }, { BN, 0, 0 }, { L, 0, 0 }, { BN, 0, 0 } };
  const bidi_unit no_class[] = { { L, 0, 0 }, { 23, 0, 0 } }, no_bracket[] = { { L, 0, 0 }, { ON, 3, 0 } };
  lay_out(&room, nested, 6, BIDI_LTR);
  printf("rooms %u %u\n", bidi_room_new(10, &room), bidi_room_new_encoded(10, &encoded));
  lay_out(&room, nested, 6, BIDI_LTR);
  lay_out(&room, apart, 5, BIDI_LTR);
  lay_out(&room, removed, 10, BIDI_RTL);
  lay_out(&room, no_class, 2, BIDI_LTR);
  lay_out(&room, no_bracket, 2, BIDI_LTR);
  lay_out(&room, nested, 6, 4);
  lay_out(&encoded, nested, 6, BIDI_LTR);
  lay_out(&room, NULL, 0, BIDI_AUTO);
  bidi_room_free(&room);
  bidi_room_free(&encoded);
}

static void lay_out_with(bidi_room *room, const bidi_unit *units, size_t n, uint32_t direction, bidi_limits limits) {
  uint64_t place = 77;
  uint32_t status = bidi_lay_out_units_with(room, units, n, direction, NULL, 0, limits, &place);
  printf("units by limits %u place %llu:", status, (unsigned long long)place);
  print_layout(room);
}

/* The brackets pair only if one can be open. The embedding has a level of its own only if the depth is 2 or more. */
static void lay_out_units_with(void) {
  enum { L, R, ON = 13, LRE };
  bidi_room room = BIDI_NONE, encoded = BIDI_NONE;
  const bidi_unit units[] = { { R, 0, 0 }, { ON, 1, 7 }, { R, 0, 0 }, { ON, 2, 7 }, { LRE, 0, 0 }, { R, 0, 0 } };
  const bidi_unit no_class[] = { { L, 0, 0 }, { 23, 0, 0 } };
  const bidi_limits standard = { 125, 63 }, no_pairs = { 125, 0 }, shallow = { 1, 63 };
  const bidi_limits deep = { 126, 64 }, wide = { 125, 64 };
  lay_out_with(&room, units, 6, BIDI_LTR, standard);
  lay_out_with(&room, units, 6, BIDI_LTR, deep);
  printf("rooms %u %u\n", bidi_room_new(6, &room), bidi_room_new_encoded(6, &encoded));
  lay_out_with(&room, units, 6, BIDI_LTR, standard);
  lay_out_with(&room, units, 6, BIDI_LTR, no_pairs);
  lay_out_with(&room, units, 6, BIDI_LTR, shallow);
  lay_out_with(&room, units, 6, 4, deep);
  lay_out_with(&room, no_class, 2, BIDI_LTR, wide);
  lay_out_with(&room, no_class, 2, 4, standard);
  lay_out_with(&room, no_class, 2, BIDI_LTR, standard);
  lay_out_with(&encoded, units, 6, BIDI_LTR, standard);
  bidi_room_free(&room);
  bidi_room_free(&encoded);
}

int main(int argc, char **argv) {
  enum { L, R, BN = 9, S = 11, WS = 12, LRI = 19, PDI = 22, NONE };
  bidi_tables tables = BIDI_NONE;
  bidi_fault fault = { 0, 0 };
  const uint32_t codes[] = { 'a', 0x5D0, '(', ']', ' ', 0xD800, 0x110000 };
  const uint8_t line[] = { R, BN, WS, S, R, WS, LRI, R, PDI, BN, WS }, ones[] = { 1, 1, 1, 1, 1, 1, 1, 1, 1, 1, 1 };
  const uint8_t faulty[] = { L, WS, NONE, 255 }, levels[] = { 0, 1, 2, 2, 1, 3, 0, 126, 125 }, high[] = { 0, 127, 255 };
  look_up(&tables, codes, 5, 5, 5);
  find_pairs(&tables);
  uint32_t status = read_tables(argc > 1 ? argv[1] : "ucd", &tables, &fault);
  printf("tables %u\n", status);
  look_up(&tables, codes, 5, 5, 5);
  look_up(&tables, codes, 5, MOST, MOST);
  look_up(&tables, codes, 7, MOST, MOST);
  look_up(&tables, codes, 7, 6, MOST);
  look_up(&tables, codes, 7, MOST, 6);
  look_up(&tables, NULL, 0, 0, 0);
  find_pairs(&tables);
  status = bidi_tables_standard(&tables);
  printf("built-in tables %u\n", status);
  find_pairs(&tables);
  bidi_tables_free(&tables);
  find_level(line, 11, BIDI_AUTO);
  find_level(line + 1, 3, BIDI_AUTO);
  find_level(line + 1, 3, BIDI_AUTO_RTL);
  find_level(line, 11, BIDI_LTR);
  find_level(line, 11, 4);
  find_level(faulty, 4, BIDI_AUTO);
  find_level(NULL, 0, BIDI_AUTO_RTL);
  reset(line, 11, 0, ones, 11);
  reset(line, 5, 2, ones, MOST);
  reset(line, 11, 127, ones, MOST);
  reset(line, 11, 127, ones, 10);
  reset(faulty, 4, 0, ones, MOST);
  reset(faulty, 4, 127, ones, MOST);
  reset(NULL, 0, 0, ones, 0);
  reorder(levels, 9, 9);
  reorder(levels, 6, MOST);
  reorder(levels, 9, 8);
  reorder(high, 3, 3);
  reorder(high, 3, 2);
  reorder(NULL, 0, 0);
  lay_out_units();
  lay_out_units_with();
  return 0;
}
