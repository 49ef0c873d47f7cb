/* official UCD: judges BidiTest.txt and BidiCharacterTest.txt of the folder with the calls for judges, and row by row
 * with those for layouts. Ends with 1 if a case is wrong. */
#include "bidi.h"
#include "read_file.h"
#include <string.h>
#define MOST 256

static bidi_tables tables = BIDI_NONE;
static bidi_room room = BIDI_NONE;
static size_t cases, wrong;

/* Reads numbers, in this base, up to the end of the field; `x` is BIDI_REMOVED. Returns how many there are. */
static size_t read_numbers(const char *field, int base, size_t *numbers) {
  size_t n = 0;
  for (field += strspn(field, " \t"); *field && *field != ';' && *field != '\n'; field += strspn(field, " \t")) {
    char *end = (char *)field + 1;
    numbers[n++] = *field == 'x' ? BIDI_REMOVED : strtoul(field, &end, base);
    field = end;
  }
  return n;
}

/* Returns whether the runs of all lines have so many positions, and, each read by its level, give this order. */
static int run_through(const size_t *levels, size_t m, const size_t *order, size_t count) {
  bidi_run_t runs[MOST];
  size_t at = 0, covered = 0;
  for (size_t k = 0, lines = bidi_line_count(&room); k < lines; k++)
    for (size_t i = 0, n = bidi_runs(&room, k, runs, MOST); i < n; covered += runs[i++].length)
      for (size_t j = 0; j < runs[i].length; j++) {
        size_t p = runs[i].start + (runs[i].level % 2 ? runs[i].length - 1 - j : j);
        if (levels[p] == BIDI_REMOVED) continue;
        if (at == count || order[at++] != p || levels[p] != runs[i].level) return 0;
      }
  return covered == m && at == count;
}

/* Returns whether the layout has these levels and this order, also by its runs. SIZE_MAX as the paragraph level asks
 * for none. */
static void compare(size_t para, const size_t *levels, size_t m, const size_t *order, size_t count) {
  uint8_t found[MOST], paras[MOST];
  size_t shown[MOST], at = 0, bad = bidi_levels(&room, found, MOST) != m;
  for (size_t i = 0; i < m && !bad; i++) bad = found[i] != levels[i];
  bad |= bidi_para_levels(&room, paras, MOST) == 0 || (para != SIZE_MAX && paras[0] != para);
  for (size_t k = 0, lines = bidi_line_count(&room); k < lines; k++) at += bidi_order(&room, k, shown + at, MOST - at);
  bad |= at != count || memcmp(shown, order, count * sizeof *order) != 0 || !run_through(levels, m, order, count);
  cases++;
  wrong += bad;
}

static uint8_t class_named(const char *name, size_t n) {
  static const char *names[] = { "L", "R", "AL", "EN", "ES", "ET", "AN", "CS", "NSM", "BN", "B", "S", "WS", "ON", "LRE",
                                 "LRO", "RLE", "RLO", "PDF", "LRI", "RLI", "FSI", "PDI" };
  for (uint8_t i = 0; i < 23; i++) if (strlen(names[i]) == n && !memcmp(names[i], name, n)) return i;
  return 255;
}

static void lay_out_classes(const char *line) {
  static size_t levels[MOST], order[MOST], m, count;
  if (!strncmp(line, "@Levels:", 8)) m = read_numbers(line + 8, 10, levels);
  if (!strncmp(line, "@Reorder:", 9)) count = read_numbers(line + 9, 10, order);
  if (*line == '@' || *line == '#' || *line == '\n') return;
  uint8_t classes[MOST];
  size_t n = 0;
  for (; *line != ';'; line += strspn(line, " ")) {
    size_t length = strcspn(line, " ;");
    classes[n++] = class_named(line, length);
    line += length;
  }
  static const uint32_t direction_of[] = { BIDI_AUTO, BIDI_LTR, BIDI_RTL };
  for (unsigned bits = strtoul(line + 1, NULL, 10), i = 0; i < 3; i++) {
    uint64_t place;
    if (!(bits >> i & 1)) continue;
    if (bidi_lay_out_classes(&room, classes, n, direction_of[i], levels, 0, &place)) { wrong++; continue; }
    compare(SIZE_MAX, levels, m, order, count);
  }
}

static void lay_out_characters(const char *line) {
  if (*line == '#' || *line == '\n') return;
  size_t numbers[MOST], levels[MOST], order[MOST], direction[MOST], para[MOST];
  uint32_t codes[MOST];
  size_t n = read_numbers(line, 16, numbers);
  for (size_t i = 0; i < n; i++) codes[i] = numbers[i];
  read_numbers(line = strchr(line, ';') + 1, 10, direction);
  read_numbers(line = strchr(line, ';') + 1, 10, para);
  size_t m = read_numbers(line = strchr(line, ';') + 1, 10, levels);
  size_t count = read_numbers(strchr(line, ';') + 1, 10, order);
  uint64_t place;
  if (bidi_lay_out(&room, &tables, codes, n, direction[0], levels, 0, &place)) { wrong++; return; }
  compare(para[0], levels, m, order, count);
}

static void each_line(const char *folder, const char *name, void (*lay_out)(const char *)) {
  size_t n;
  char *bytes = (char *)read_file(folder, name, &n);
  bytes[n] = '\0';
  cases = 0;
  for (char *line = bytes; *line; line += *line == '\n') {
    lay_out(line);
    line += strcspn(line, "\n");
  }
  printf("%s by layouts: %zu cases\n", name, cases);
  free(bytes);
}

static void judge(bidi_judge *handle, const char *folder, const char *name) {
  size_t n;
  uint8_t *bytes = read_file(folder, name, &n);
  for (size_t at = 0; at < n; at += 4096) bidi_judge_feed(handle, bytes + at, n - at < 4096 ? n - at : 4096);
  bidi_verdict v;
  wrong += bidi_judge_finish(handle, &v) != BIDI_DONE || v.answer != BIDI_YES;
  printf("%s by a judge: %llu rows, %llu cases\n", name, (unsigned long long)v.rows, (unsigned long long)v.cases);
  free(bytes);
}

int main(int argc, char **argv) {
  const char *ucd = argc > 1 ? argv[1] : "ucd";
  bidi_judge handle = BIDI_NONE;
  bidi_fault fault;
  if (read_tables(ucd, &tables, &fault) || bidi_room_new(MOST, &room) || bidi_judge_new_classes(&handle)) return 2;
  each_line(ucd, "BidiTest.txt", lay_out_classes);
  each_line(ucd, "BidiCharacterTest.txt", lay_out_characters);
  judge(&handle, ucd, "BidiTest.txt");
  if (bidi_judge_new_characters(&tables, &handle)) return 2;
  judge(&handle, ucd, "BidiCharacterTest.txt");
  bidi_room_free(&room);
  printf("wrong: %zu\n", wrong);
  return wrong != 0;
}
