/* calls UCD: makes every call once or more, failing ones too, except those of fronts.c. calls.out has its output. */
#include "bidi.h"
#include "read_file.h"
#include <string.h>

static void print_line(bidi_room *room, bidi_tables *tables, const uint32_t *codes, size_t n, size_t k) {
  bidi_line_t line;
  size_t order[64], places[64];
  uint32_t shown[64];
  if (bidi_line(room, k, &line)) { printf(" no line %zu", k); return; }
  printf(" | [%zu,%zu)", line.start, line.end);
  size_t m = bidi_order(room, k, order, 64), span = bidi_places(room, k, places, 64);
  for (size_t i = 0; i < m; i++) printf(" %zu", order[i]);
  if (m != line.shown || span != line.end - line.start) printf(" ??");
  printf(" places");
  for (size_t i = 0; i < span; i++) if (places[i] == BIDI_NOWHERE) printf(" -"); else printf(" %zu", places[i]);
  bidi_run_t run;
  printf(" runs");
  for (size_t at = 0; bidi_run(room, k, at, &run) == BIDI_DONE; at += run.shown)
    printf(" %zu+%zu(%zu)@%u", run.start, run.length, run.shown, run.level);
  if (!codes) return;
  size_t s = bidi_shown(room, tables, codes, n, k, shown, 64);
  printf(" shown");
  for (size_t i = 0; i < s; i++) printf(" %04X", shown[i]);
}

static void print_layout(bidi_room *room, bidi_tables *tables, const uint32_t *codes, size_t n) {
  uint8_t levels[64], paras[64];
  size_t p = bidi_para_levels(room, paras, 64), m = bidi_levels(room, levels, 64), lines = bidi_line_count(room);
  printf("paras");
  for (size_t i = 0; i < p; i++) printf(" %u", paras[i]);
  printf(" levels");
  for (size_t i = 0; i < m; i++) if (levels[i] == BIDI_REMOVED) printf(" x"); else printf(" %u", levels[i]);
  for (size_t k = 0; k < lines; k++) print_line(room, tables, codes, n, k);
  print_line(room, tables, codes, n, lines);
  printf("\n");
}

static void lay_out(bidi_room *room, bidi_tables *tables, const uint32_t *codes, size_t n, uint32_t direction,
                    const size_t *breaks, size_t count) {
  uint64_t place = 0;
  uint32_t status = bidi_lay_out(room, tables, codes, n, direction, breaks, count, &place);
  if (status) printf("status %u at %llu: ", status, (unsigned long long)place);
  print_layout(room, tables, codes, n);
}

static void print_text(const bidi_verdict *v, size_t place) {
  uint8_t text[80];
  size_t length = 99;
  memset(text, '#', sizeof text);
  uint32_t status = bidi_verdict_text(v, text, place, &length);
  size_t written = 0;
  while (written < sizeof text && text[written] != '#') written++;
  printf("  text %u, length %zu, written %zu%s%.*s%s", status, length, written, written ? ": " : "", (int)written, text,
         written ? "" : "\n");
}

static void print_texts(void) {
  const bidi_verdict longest = { BIDI_WRONG, BIDI_WRONG_LEVELS, BIDI_AUTO_RTL, UINT64_MAX, SIZE_MAX, 0, 0 };
  const bidi_verdict verdicts[] = {
    { BIDI_YES, 0, 0, 0, 0, 1, UINT64_MAX },
    { BIDI_MALFORMED, BIDI_CAUSE_LINE_TOO_LONG, 0, 1, 0, 0, 0 },
    { BIDI_WRONG, BIDI_WRONG_PARA_LEVEL, BIDI_AUTO, 20, 0, 0, 0 },
    { BIDI_WRONG, BIDI_WRONG_ORDER, BIDI_LTR, 3, 32768, 0, 0 },
  };
  const bidi_verdict none[] = {
    { 3, 0, 0, 0, 0, 0, 0 }, { BIDI_YES, 1, 0, 0, 0, 0, 0 }, { BIDI_YES, 0, 0, 7, 0, 1, 1 },
    { BIDI_MALFORMED, 0, 0, 1, 0, 0, 0 }, { BIDI_MALFORMED, 13, 0, 1, 0, 0, 0 }, { BIDI_MALFORMED, 1, 1, 1, 0, 0, 0 },
    { BIDI_WRONG, 4, 0, 1, 0, 0, 0 }, { BIDI_WRONG, 2, 4, 1, 0, 0, 0 }, { BIDI_WRONG, 1, 0, 1, 5, 0, 0 },
  };
  for (size_t i = 0; i < 4; i++) print_text(&verdicts[i], 80);
  const size_t places[] = { BIDI_VERDICT_LINE, BIDI_VERDICT_LINE - 1, 0 };
  for (size_t i = 0; i < 3; i++) print_text(&longest, places[i]);
  for (size_t i = 0; i < 9; i++) print_text(&none[i], 80);
}

static void judge(bidi_judge *judge, const char *text) {
  bidi_verdict v;
  memset(&v, 0, sizeof v);
  for (size_t i = 0; i < strlen(text); i++) bidi_judge_feed(judge, (const uint8_t *)text + i, 1);
  uint32_t status = bidi_judge_finish(judge, &v);
  printf("finish %u: answer %u reason %u direction %u line %llu index %zu rows %llu cases %llu, held %d\n", status,
         v.answer, v.reason, v.direction, (unsigned long long)v.line, v.index, (unsigned long long)v.rows,
         (unsigned long long)v.cases, judge->made);
  if (status == BIDI_DONE) print_text(&v, 80);
}

static void print_room(bidi_room *room, size_t n) {
  uint32_t status = bidi_room_new(n, room);
  printf("room for %zu: %u, size %zu\n", n, status, bidi_room_size(room));
}

static void print_fault(const char *what, uint32_t status, const bidi_fault *fault, const bidi_tables *tables) {
  printf("%s: %u line %llu kind %u, held %d\n", what, status, (unsigned long long)fault->line, fault->kind,
         tables->made);
}

static void reject_files(bidi_tables *tables) {
  const char *classes[] = { "0041 ; L\n0042 ; Q\n", "0041;L\n0040..0042;R\n", "41;L\n", "0042..0041;L\n", "0041\n" };
  const uint8_t *none = (const uint8_t *)"";
  bidi_fault fault = { 0, 0 };
  for (size_t i = 0; i < 5; i++) {
    uint32_t status = bidi_tables_new((const uint8_t *)classes[i], strlen(classes[i]), none, 0, none, 0, tables,
                                      &fault);
    print_fault("classes", status, &fault, tables);
  }
  uint32_t status = bidi_tables_new(none, 0, (const uint8_t *)"0028; 0029; x\n", 14, none, 0, tables, &fault);
  print_fault("brackets", status, &fault, tables);
  status = bidi_tables_new(none, 0, none, 0, (const uint8_t *)"0028; 0029\n0028; 0030\n", 22, tables, &fault);
  print_fault("mirrors", status, &fault, tables);
}

typedef uint32_t run_call(const bidi_room *, size_t, size_t, bidi_run_t *);
typedef size_t runs_call(const bidi_room *, size_t, bidi_run_t *, size_t);

/* Prints the statuses of the runs of line 0 from the place after its last and from the next one, and of the line after
 * the last; then how many runs these two lines have, and whether the run is unchanged. */
static void reject_runs(const char *what, run_call run_of, runs_call runs_of, bidi_room *room) {
  bidi_run_t run = { 77, 77, 77, 77 };
  size_t lines = bidi_line_count(room), shown = lines ? bidi_order(room, 0, NULL, 0) : 0;
  uint32_t past_last = run_of(room, 0, shown, &run), further = run_of(room, 0, shown + 1, &run);
  uint32_t no_line = run_of(room, lines, 0, &run);
  size_t all = runs_of(room, 0, NULL, 0), none = runs_of(room, lines, &run, 1);
  printf("%s behind %zu places: %u, one on %u, of no line %u, all %zu, of no line %zu, leaves %zu %zu %zu %u\n", what,
         shown, past_last, further, no_line, all, none, run.start, run.length, run.shown, run.level);
}

static void lay_out_texts(bidi_room *room, bidi_tables *tables) {
  const uint32_t mixed[] = { 'a', 'b', 'c', ' ', 0x5D0, 0x5D1, 0x5D2, ' ', '1', '2', '3' };
  const uint32_t paras[] = { 0x5D0, ' ', 0x202B, '(', 'a', ')', 0x202C, 0x2029, 'x', 0x5D1, '\n', 'z' };
  const uint32_t neutral[] = { '(', '1', ' ', '+', ')' };
  const size_t breaks[] = { 4, 7 }, falling[] = { 4, 3 }, outside[] = { 4, 5 };
  lay_out(room, tables, mixed, 11, BIDI_AUTO, breaks, 0);
  lay_out(room, tables, mixed, 11, BIDI_RTL, breaks, 0);
  lay_out(room, tables, mixed, 11, BIDI_AUTO, breaks, 2);
  lay_out(room, tables, paras, 12, BIDI_AUTO, breaks, 0);
  lay_out(room, tables, mixed, 0, BIDI_AUTO, breaks, 0);
  for (uint32_t direction = 0; direction < 4; direction++) lay_out(room, tables, neutral, 5, direction, breaks, 0);
  printf("refused:\n");
  lay_out(room, tables, mixed, 5, BIDI_AUTO, falling, 2);
  lay_out(room, tables, mixed, 5, BIDI_AUTO, outside, 2);
  lay_out(room, tables, mixed, 5, 4, breaks, 0);
  const uint32_t surrogate[] = { 'a', 0xD800, 'b', 'c', 'd' };
  lay_out(room, tables, surrogate, 5, BIDI_AUTO, breaks, 0);
  reject_runs("run", bidi_run, bidi_runs, room);
  lay_out(room, tables, (const uint32_t[]){ 0x202C }, 1, BIDI_AUTO, breaks, 0);
  reject_runs("run", bidi_run, bidi_runs, room);
  static const uint32_t longer[65];
  uint64_t place = 0;
  uint32_t status = bidi_lay_out(room, tables, longer, 65, BIDI_AUTO, breaks, 0, &place), one;
  printf("65 in a room for 64: %u, shown of another text %zu\n", status,
         bidi_shown(room, tables, mixed, 11, 0, &one, 1));
}

static void set_lines(bidi_room *room, bidi_tables *tables, const size_t *breaks, size_t count) {
  static const uint32_t text[] = { 0x5D0, ' ', 0x5D1, ' ', 'a' };
  uint64_t place = 0;
  uint32_t status = bidi_set_lines(room, breaks, count, &place);
  printf("lines %u at %llu: ", status, (unsigned long long)place);
  print_layout(room, tables, text, 5);
}

/* A text on one line, broken in two, faulty breaks, and one line again. */
static void set_lines_again(bidi_room *room, bidi_tables *tables) {
  static const uint32_t text[] = { 0x5D0, ' ', 0x5D1, ' ', 'a' };
  const size_t one[] = { 2 }, two[] = { 2, 4 }, out[] = { 2, 5 }, falling[] = { 3, 3 };
  lay_out(room, tables, text, 5, BIDI_LTR, one, 0);
  set_lines(room, tables, one, 1);
  set_lines(room, tables, two, 2);
  set_lines(room, tables, out, 2);
  set_lines(room, tables, falling, 2);
  lay_out(room, tables, (const uint32_t[]){ 'a', 0xD800 }, 2, BIDI_LTR, one, 0);
  set_lines(room, tables, one, 0);
}

static void print_line_alone(bidi_room *room, size_t start, size_t end, size_t place) {
  uint8_t levels[16] = { 77 };
  size_t order[16] = { 77 }, shown = 99;
  uint32_t status = bidi_line_of(room, start, end, levels, place, order, 16, &shown);
  printf("line [%zu,%zu) %u", start, end, status);
  if (status) printf(" leaves %u %zu %zu\n", levels[0], order[0], shown);
  if (status) return;
  printf(" levels");
  for (size_t i = 0; i < end - start; i++) if (levels[i] == BIDI_REMOVED) printf(" x"); else printf(" %u", levels[i]);
  printf(" order");
  for (size_t i = 0; i < shown; i++) printf(" %zu", order[i]);
  printf("\n");
}

/* One line alone, of two paragraphs, each with white space at its end; faulty lines; and the room is unchanged. */
static void lay_out_lines_alone(bidi_room *room, bidi_tables *tables) {
  static const uint32_t text[] = { 'a', ' ', 'b', '\n', 'c', ' ', 0x5D0, 0x202C, ' ', '1' };
  const size_t breaks[] = { 1 };
  const size_t lines[][2] = { { 0, 2 }, { 0, 3 }, { 0, 4 }, { 1, 3 }, { 3, 4 }, { 4, 9 }, { 4, 10 }, { 7, 8 },
                              { 4, 4 }, { 5, 4 }, { 5, 11 }, { 2, 5 }, { 0, 10 } };
  print_line_alone(&(bidi_room)BIDI_NONE, 0, 1, 16);
  lay_out(room, tables, text, 10, BIDI_RTL, breaks, 1);
  for (size_t i = 0; i < sizeof lines / sizeof lines[0]; i++) print_line_alone(room, lines[i][0], lines[i][1], 16);
  print_line_alone(room, 0, 2, 1);
  print_layout(room, tables, text, 10);
}

static void lay_out_classes(bidi_room *room, bidi_tables *tables) {
  const uint8_t classes[] = { 1, 14, 0, 18, 2, 3 }, faulty[] = { 0, 22, 23 };
  const size_t none[1] = { 0 };
  uint64_t place = 0;
  uint32_t status = bidi_lay_out_classes(room, classes, 6, BIDI_AUTO, none, 0, &place);
  printf("classes %u: ", status);
  print_layout(room, tables, NULL, 0);
  status = bidi_lay_out_classes(room, faulty, 3, BIDI_AUTO, none, 0, &place);
  printf("no class %u at %llu: ", status, (unsigned long long)place);
  print_layout(room, tables, NULL, 0);
  uint8_t one[1] = { 77 };
  size_t n = bidi_levels(room, one, 1);
  printf("too little place: %zu levels, byte %u\n", n, one[0]);
}

static void lay_out_by_limits(bidi_room *room, bidi_tables *tables) {
  const uint8_t classes[] = { 16, 14, 1 };
  const uint32_t codes[] = { 'a', '(', 'b', ')', 0x5D0 };
  const bidi_limits by[] = { { 1, 63 }, { 125, 63 }, { 125, 0 }, { 125, 1 } };
  const bidi_limits faulty[] = { { 0, 63 }, { 126, 63 }, { 1, 64 }, { 0, 64 } };
  const size_t none[1] = { 0 };
  uint64_t place = 0;
  for (size_t i = 0; i < 4; i++) {
    uint32_t status = bidi_lay_out_classes_with(room, classes, 3, BIDI_LTR, none, 0, by[i], &place);
    printf("depth %u, brackets %u: %u ", by[i].depth, by[i].brackets, status);
    print_layout(room, tables, NULL, 0);
    status = bidi_lay_out_with(room, tables, codes, 5, BIDI_RTL, none, 0, by[i], &place);
    printf("depth %u, brackets %u: %u ", by[i].depth, by[i].brackets, status);
    print_layout(room, tables, codes, 5);
  }
  for (size_t i = 0; i < 4; i++) {
    uint32_t of_classes = bidi_lay_out_classes_with(room, classes, 3, 4, none, 0, faulty[i], &place);
    uint32_t status = bidi_lay_out_with(room, tables, codes, 5, 4, none, 0, faulty[i], &place);
    printf("depth %u, brackets %u: %u %u\n", faulty[i].depth, faulty[i].brackets, of_classes, status);
  }
  printf("kept: ");
  print_layout(room, tables, codes, 5);
}

static void judge_by_limits(bidi_judge *handle, bidi_tables *tables) {
  const char *nested = "@Levels: x x 1\n@Reorder: 2\nRLE LRE R; 2\n",
             *pair = "0061 0028 0062 0029 05D0;1;1;2 2 2 1 1;4 3 0 1 2\n";
  const bidi_limits low = { 1, 0 }, faulty[] = { { 0, 0 }, { 1, 64 } };
  printf("of classes %u, ", bidi_judge_new_classes_with(handle, low));
  judge(handle, nested);
  printf("of classes %u, ", bidi_judge_new_classes(handle));
  judge(handle, nested);
  for (size_t i = 0; i < 2; i++) {
    uint32_t of_classes = bidi_judge_new_classes_with(handle, faulty[i]);
    uint32_t status = bidi_judge_new_characters_with(tables, handle, faulty[i]);
    printf("by faulty limits %u %u, held %d, tables %d\n", of_classes, status, handle->made, tables->made);
  }
  uint32_t status = bidi_judge_new_characters_with(tables, handle, low);
  printf("of characters %u, tables %d, ", status, tables->made);
  judge(handle, pair);
}

static void judge_files(bidi_judge *handle, bidi_tables *tables) {
  judge(handle, "L; 3\n");
  const char *classes[] = { "@Levels: x 1\n@Reorder: 1\nLRE R; 1\n", "@Levels: 0\n@Reorder: 0\nL; 3\nR; 1\n",
                            "L; 3\n" };
  for (size_t i = 0; i < 3; i++) {
    printf("of classes %u, ", bidi_judge_new_classes(handle));
    judge(handle, classes[i]);
  }
  uint32_t status = bidi_judge_new_characters(tables, handle);
  printf("of characters %u, tables %d, ", status, tables->made);
  judge(handle, "0061 05D0;2;0;0 1;0 1\n05D0;0;0;1;1\n");
  status = bidi_judge_new_characters(tables, handle);
  bidi_tables_free(tables);
  printf("tables freed %d, ", tables->made);
  judge(handle, "0061 05D0;2;0;0 1;0 1\n05D0;0;0;1;1\n");
  status = bidi_judge_new_characters(tables, handle);
  printf("without tables %u, held %d\n", status, handle->made);
}

static void share_tables(bidi_tables *tables, bidi_room *room) {
  bidi_tables shared = BIDI_NONE, none = BIDI_NONE;
  uint32_t status = bidi_tables_share(tables, &shared);
  bidi_tables_free(tables);
  printf("shared %u, held %d %d, mirror %c of %c\n", status, tables->made, shared.made, bidi_mirror(tables, '('),
         bidi_mirror(&shared, '('));
  status = bidi_tables_share(&shared, tables);
  uint32_t without = bidi_tables_share(&none, &shared), of_a_room = bidi_tables_share((bidi_tables *)room, &shared);
  printf("shared back %u, without tables %u, of a room %u, mirror %c of %c\n", status, without, of_a_room,
         bidi_mirror(tables, '('), bidi_mirror(&shared, '('));
  bidi_tables_free(&shared);
}

/* The class and the bracket of a code point, and errors, after which both are unchanged. */
static void print_properties(bidi_tables *tables, uint32_t code) {
  uint8_t class_number = 77, bracket = 77;
  uint32_t status = bidi_class(tables, code, &class_number), of_bracket = bidi_bracket(tables, code, &bracket);
  printf("%04X: class %u %u, bracket %u %u\n", code, status, class_number, of_bracket, bracket);
}

/* What is known of a text without a layout, and errors, after which all but the place is unchanged. */
static void print_base(bidi_tables *tables, const uint32_t *codes, size_t n, uint32_t direction) {
  uint8_t level = 77, stays = 77;
  uint64_t place = 99, stays_place = 99;
  uint32_t status = bidi_base_level(tables, codes, n, direction, &level, &place);
  uint32_t of_stays = bidi_is_left_to_right(tables, codes, n, &stays, &stays_place);
  printf("base of %zu: %u level %u place %llu, %u left to right %u place %llu\n", n, status, level,
         (unsigned long long)place, of_stays, stays, (unsigned long long)stays_place);
}

/* The levels of all paragraphs, with this capacity, and errors, after which all but the place is unchanged. */
static void print_bases(bidi_tables *tables, const uint32_t *codes, size_t n, uint32_t direction, size_t capacity) {
  uint8_t levels[4] = { 77, 77, 77, 77 };
  uint64_t place = 99;
  size_t count = 66;
  uint32_t status = bidi_base_levels(tables, codes, n, direction, capacity ? levels : NULL, capacity, &count, &place);
  printf("bases of %zu in %zu: %u count %zu levels %u %u %u %u place %llu\n", n, capacity, status, count, levels[0],
         levels[1], levels[2], levels[3], (unsigned long long)place);
}

static void find_all_bases(bidi_tables *tables, bidi_room *room) {
  const uint32_t text[] = { 0x2067, 0x5D0, 0x2029, 0x5D0, 'a', 0x2029, '1' }, wrong[] = { 'a', 0x2029, 0xD800 };
  for (uint32_t direction = 0; direction < 5; direction++) print_bases(tables, text, 7, direction, 4);
  for (size_t capacity = 0; capacity < 4; capacity++) print_bases(tables, text, 7, BIDI_AUTO, capacity);
  print_bases(tables, text, 6, BIDI_AUTO, 2);
  print_bases(tables, wrong, 2, BIDI_AUTO, 1);
  print_bases(tables, wrong, 3, BIDI_AUTO, 4);
  print_bases(tables, NULL, 0, BIDI_AUTO_RTL, 4);
  print_bases((bidi_tables *)room, wrong, 3, 9, 4);
}

static void find_bases(bidi_tables *tables, bidi_room *room) {
  const uint32_t isolated[] = { 0x2067, 0x5D0, 0x2069, 'a', 0x2029, 0x5D0 }, late[] = { '1', '(', 0x627, 'a' };
  const uint32_t unclosed[] = { 0x2068, 'a', 0x5D0 }, wrong[] = { 'a', 0xD800, 0x110000 }, plain[] = { 'a', '1', 0x2029 };
  for (uint32_t direction = 0; direction < 5; direction++) print_base(tables, isolated, 6, direction);
  print_base(tables, late, 4, BIDI_AUTO);
  print_base(tables, unclosed, 3, BIDI_AUTO);
  print_base(tables, unclosed, 3, BIDI_AUTO_RTL);
  print_base(tables, plain, 3, BIDI_AUTO);
  print_base(tables, wrong, 3, BIDI_AUTO);
  print_base(tables, NULL, 0, BIDI_AUTO_RTL);
  print_base((bidi_tables *)room, wrong, 3, 9);
}

/* Prints all runs of a line if the capacity is enough; else what was there. */
static void print_runs(bidi_room *room, size_t k, size_t place) {
  bidi_run_t runs[4] = { { 77, 77, 77, 77 } };
  size_t n = bidi_runs(room, k, place ? runs : NULL, place);
  printf(" | line %zu, %zu of %zu:", k, n, place);
  for (size_t i = 0; i < (n <= place ? n : 1); i++)
    printf(" %zu+%zu(%zu)@%u", runs[i].start, runs[i].length, runs[i].shown, runs[i].level);
}

/* Runs of texts with joiners and a byte order mark, which cover their lines: a joiner between two letters, before
 * another level, at the end of a line, and on a line of its own. */
static void find_runs(bidi_tables *tables, bidi_room *room) {
  const uint32_t joined[] = { 0xFEFF, 0x5D0, 0x200D, 0x5D1, ' ', 0x200D, 'a', 0x200D, 0x200D };
  const size_t breaks[] = { 4, 8 };
  uint64_t place = 99;
  for (uint32_t direction = BIDI_LTR; direction <= BIDI_RTL; direction++) {
    uint32_t status = bidi_lay_out(room, tables, joined, 9, direction, breaks, 2, &place);
    printf("runs %u:", status);
    for (size_t k = 0; k < 4; k++) print_runs(room, k, 4);
    status = bidi_set_lines(room, NULL, 0, &place);
    printf("\nof one line %u:", status);
    for (size_t places = 0; places <= 4; places++) print_runs(room, 0, places);
    printf("\n");
  }
}

/* Null pointers if nothing is read or written. */
static void pass_nulls(bidi_room *room, bidi_tables *tables) {
  uint64_t place = 99;
  bidi_tables made = BIDI_NONE;
  bidi_fault fault = { 0, 0 };
  bidi_judge judge = BIDI_NONE;
  uint32_t status = bidi_lay_out(room, tables, NULL, 0, BIDI_AUTO, NULL, 0, &place);
  printf("nulls: %u, levels %zu, paragraphs %zu, lines %zu, order %zu, places %zu, runs %zu, shown %zu\n", status,
         bidi_levels(room, NULL, 0), bidi_para_levels(room, NULL, 0), bidi_line_count(room),
         bidi_order(room, 0, NULL, 0), bidi_places(room, 0, NULL, 0), bidi_runs(room, 0, NULL, 0),
         bidi_shown(room, tables, NULL, 0, 0, NULL, 0));
  status = bidi_lay_out_classes(room, NULL, 0, BIDI_RTL, NULL, 0, &place);
  printf("nulls: %u, breaks %u, edition %zu, version %zu\n", status, bidi_set_lines(room, NULL, 0, &place),
         bidi_edition(NULL, 0), bidi_version(NULL, 0));
  status = bidi_tables_new(NULL, 0, NULL, 0, NULL, 0, &made, &fault);
  printf("nulls: %u, held %d", status, made.made);
  status = bidi_judge_new_classes(&judge);
  printf(", judge %u, fed %u\n", status, bidi_judge_feed(&judge, NULL, 0));
  bidi_judge_free(&judge);
  bidi_tables_free(&made);
}

static void use_standard_tables(bidi_room *room) {
  const uint32_t text[] = { 'a', ' ', 0x5D0, '(', 0x661, ')', '!' };
  const size_t none[1] = { 0 };
  bidi_tables tables = BIDI_NONE;
  uint8_t edition[16] = { 0 };
  uint32_t status = bidi_tables_standard(&tables);
  size_t n = bidi_edition(edition, sizeof edition);
  printf("tables of Unicode %s: %u, bytes %zu, with no place %zu: ", (char *)edition, status, n, bidi_edition(edition, 0));
  lay_out(room, &tables, text, 7, BIDI_AUTO, none, 0);
  const uint32_t codes[] = { 'a', 0x5D0, 0x661, '(', ']', 0x2329, 0x3009, '<', 0x2067, 0x10FFFF, 0xD800, 0x110000 };
  for (size_t i = 0; i < 12; i++) print_properties(&tables, codes[i]);
  print_properties((bidi_tables *)room, 'a');
  uint8_t version[16] = { 0 };
  n = bidi_version(version, sizeof version);
  printf("version %s, of the header %s, bytes %zu\n", (char *)version, BIDI_VERSION, n);
  find_bases(&tables, room);
  find_all_bases(&tables, room);
  find_runs(&tables, room);
  pass_nulls(room, &tables);
  bidi_tables_free(&tables);
  print_properties(&tables, 'a');
}

/* Prints a line of a text in code units: its bounds and its runs in offsets. */
static void print_encoded_line(bidi_room *room, size_t k) {
  bidi_line_t line = { 77, 77, 77 };
  bidi_run_t run;
  uint32_t status = bidi_encoded_line(room, k, &line);
  if (status) { printf(" no line %zu: %u", k, status); return; }
  size_t order[64];
  printf(" | [%zu,%zu) shown %zu order", line.start, line.end, line.shown);
  size_t shown = bidi_encoded_order(room, k, order, 64);
  for (size_t i = 0; i < shown; i++) printf(" %zu", order[i]);
  printf(" runs");
  for (size_t at = 0; bidi_encoded_run(room, k, at, &run) == BIDI_DONE; at += run.shown)
    printf(" %zu+%zu(%zu)@%u", run.start, run.length, run.shown, run.level);
  bidi_run_t all[16];
  size_t n = bidi_encoded_runs(room, k, all, 16);
  printf(" all");
  for (size_t i = 0; i < n; i++) printf(" %zu+%zu(%zu)@%u", all[i].start, all[i].length, all[i].shown, all[i].level);
}

/* Prints a text in code units: their levels, the characters that they belong to, and where these begin. */
static void print_encoded(bidi_room *room) {
  uint8_t levels[64];
  size_t n = bidi_encoded_levels(room, levels, 64), lines = bidi_line_count(room);
  printf("levels");
  for (size_t i = 0; i < n; i++) {
    if (levels[i] == BIDI_REMOVED) printf(" x"); else printf(" %u", levels[i]);
    if (bidi_level_at(room, i) != levels[i]) printf("??");
  }
  printf(" past %u characters", bidi_level_at(room, n));
  for (size_t i = 0; i <= n; i++) printf(" %zu", bidi_index_of(room, i));
  size_t count = bidi_levels(room, levels, 0);
  printf(" begin");
  for (size_t k = 0; k <= count + 1; k++) printf(" %zu", bidi_offset_of(room, k));
  for (size_t k = 0; k <= lines; k++) print_encoded_line(room, k);
  size_t few[2] = { 77, 77 }, counted = bidi_encoded_order(room, 0, few, 1);
  printf(" order %zu by one place %zu %zu, of no line %zu\n", counted, few[0], few[1],
         bidi_encoded_order(room, lines, few, 2));
}

static void lay_out_utf8(bidi_room *room, bidi_tables *tables, const char *text, uint32_t direction,
                         const size_t *breaks, size_t count) {
  uint64_t place = 0;
  uint32_t status = bidi_lay_out_utf8(room, tables, (const uint8_t *)text, strlen(text), direction, breaks, count,
                                      &place);
  printf("utf8 %u at %llu: ", status, (unsigned long long)place);
  print_encoded(room);
}

/* Bytes that need not be UTF-8. */
static void lay_out_utf8_lossy(bidi_room *room, bidi_tables *tables, const char *text, const size_t *breaks,
                               size_t count) {
  uint64_t place = 0;
  uint32_t status = bidi_lay_out_utf8_lossy(room, tables, (const uint8_t *)text, strlen(text), BIDI_AUTO, breaks,
                                            count, &place);
  printf("utf8 lossy %u at %llu: ", status, (unsigned long long)place);
  print_encoded(room);
}

static void set_encoded_lines(bidi_room *room, const size_t *breaks, size_t count) {
  uint64_t place = 0;
  uint32_t status = bidi_encoded_set_lines(room, breaks, count, &place);
  printf("lines %u at %llu: ", status, (unsigned long long)place);
  print_encoded(room);
}

static void lay_out_utf16(bidi_room *room, bidi_tables *tables, const uint16_t *text, size_t n, const size_t *breaks,
                          size_t count) {
  uint64_t place = 0;
  uint32_t status = bidi_lay_out_utf16(room, tables, text, n, BIDI_AUTO, breaks, count, &place);
  printf("utf16 %u at %llu: ", status, (unsigned long long)place);
  print_encoded(room);
  status = bidi_lay_out_utf16_lossy(room, tables, text, n, BIDI_AUTO, breaks, count, &place);
  printf("lossy %u at %llu: ", status, (unsigned long long)place);
  print_encoded(room);
}

/* The same pair of brackets, paired and not, in each encoding, and limits, which are checked before all else. */
static void lay_out_encoded_by_limits(bidi_room *room, bidi_tables *tables) {
  const uint16_t units[] = { 'a', '(', 'b', ')', 0x5D0 }, lone[] = { 'a', '(', 'b', ')', 0xD800 };
  const uint8_t *bytes = (const uint8_t *)"a(b)\xD7\x90";
  const bidi_limits by[] = { { 125, 0 }, { 125, 1 }, { 0, 1 }, { 125, 64 } };
  const size_t none[1] = { 0 };
  uint64_t place = 0;
  for (size_t i = 0; i < 4; i++) {
    uint32_t status = bidi_lay_out_utf8_with(room, tables, bytes, 6, BIDI_RTL, none, 0, by[i], &place);
    printf("utf8, brackets %u: %u ", by[i].brackets, status);
    print_encoded(room);
    status = bidi_lay_out_utf8_lossy_with(room, tables, bytes, 5, BIDI_RTL, none, 0, by[i], &place);
    printf("utf8 lossy, brackets %u: %u ", by[i].brackets, status);
    print_encoded(room);
    status = bidi_lay_out_utf16_with(room, tables, units, 5, BIDI_RTL, none, 0, by[i], &place);
    printf("utf16, brackets %u: %u ", by[i].brackets, status);
    print_encoded(room);
    status = bidi_lay_out_utf16_lossy_with(room, tables, lone, 5, BIDI_RTL, none, 0, by[i], &place);
    printf("lossy, brackets %u: %u ", by[i].brackets, status);
    print_encoded(room);
  }
}

/* Bytes that are not UTF-8: a character that a letter cuts short, two bytes that begin none, one that the end cuts
 * short; and breaks inside of these. */
static void lay_out_ill_formed(bidi_room *room, bidi_room *codes, bidi_tables *tables) {
  const char *text = "a\xF0\x9F\x98" "b\xFF\xFE\xD7\x90\xE2\x82";
  const size_t four[] = { 1, 4, 6, 9 }, within[] = { 4, 10 }, outside[] = { 11 };
  lay_out_utf8_lossy(room, tables, text, four, 4);
  lay_out_utf8_lossy(room, tables, text, within, 2);
  lay_out_utf8_lossy(room, tables, text, outside, 1);
  lay_out_utf8_lossy(room, tables, "1234567890123456\xFF", outside, 0);
  lay_out_utf8_lossy(codes, tables, text, four, 4);
  set_encoded_lines(room, within, 1);
  set_encoded_lines(room, within, 2);
}

/* Breaks of the text of a room: those that it had, none, others, and faulty ones. */
static void break_encoded(bidi_room *room, bidi_room *codes, bidi_tables *tables) {
  const size_t three[] = { 3 }, others[] = { 2, 6 }, falling[] = { 6, 2 }, outside[] = { 2, 11 }, inside[] = { 2, 4 };
  lay_out_utf8(room, tables, "ab \xD7\x90(\xD7\x91) 1", BIDI_AUTO, three, 1);
  set_encoded_lines(room, others, 2);
  set_encoded_lines(room, three, 0);
  set_encoded_lines(room, three, 1);
  set_encoded_lines(room, falling, 2);
  set_encoded_lines(room, outside, 2);
  set_encoded_lines(room, inside, 2);
  set_encoded_lines(codes, three, 1);
}

static void lay_out_encoded(bidi_tables *tables) {
  bidi_room room = BIDI_NONE, codes = BIDI_NONE;
  bidi_tables no_tables = BIDI_NONE;
  const uint16_t paired[] = { 0x5D0, 0xD83D, 0xDE00, ' ', 'a' }, lone[] = { 'a', 0xDE00, 0x5D0, 0xD83D };
  const size_t one[] = { 3 }, two[] = { 2, 6 }, inside[] = { 2, 4 }, falling[] = { 6, 2 }, outside[] = { 2, 15 };
  const char *text = "ab \xD7\x90(\xD7\x91) 1";
  const uint32_t letters[] = { 'a', 'b' };
  lay_out_utf8(&room, tables, text, BIDI_AUTO, one, 0);
  uint32_t status = bidi_room_new_encoded(16777217, &room), made = bidi_room_new_encoded(16, &room);
  printf("encoded room: %u, %u, size %zu: ", status, made, bidi_room_size(&room));
  print_encoded(&room);
  set_encoded_lines(&room, one, 0);
  set_encoded_lines(&room, one, 1);
  lay_out_utf8(&room, tables, text, BIDI_AUTO, one, 1);
  print_layout(&room, tables, NULL, 0);
  lay_out_utf8(&room, tables, text, BIDI_RTL, two, 2);
  lay_out_utf8(&room, tables, "a\xE2\x80\xAB" "b\n\xF0\x9F\x98\x80", BIDI_AUTO, two, 0);
  printf("refused:\n");
  lay_out_utf8(&room, tables, "12345678901234567", BIDI_AUTO, falling, 2);
  lay_out_utf8(&room, tables, "ab\xD7(", BIDI_AUTO, falling, 2);
  lay_out_utf8(&room, tables, text, BIDI_AUTO, falling, 2);
  lay_out_utf8(&room, tables, text, BIDI_AUTO, outside, 2);
  lay_out_utf8(&room, tables, text, BIDI_AUTO, inside, 2);
  lay_out_utf8(&room, tables, text, 4, one, 0);
  lay_out_utf8(&room, &no_tables, text, BIDI_AUTO, one, 0);
  reject_runs("encoded run", bidi_encoded_run, bidi_encoded_runs, &room);
  reject_runs("run of characters", bidi_run, bidi_runs, &room);
  uint64_t place = 0;
  status = bidi_lay_out(&room, tables, letters, 2, BIDI_AUTO, one, 0, &place);
  printf("code points in it %u, lines %u, ", status, bidi_set_lines(&room, one, 0, &place));
  bidi_room_new(16, &codes);
  lay_out_utf8(&codes, tables, text, BIDI_AUTO, one, 0);
  reject_runs("encoded run of code points", bidi_encoded_run, bidi_encoded_runs, &codes);
  lay_out_utf16(&room, tables, paired, 5, one, 1);
  lay_out_utf16(&room, tables, paired, 5, two, 1);
  lay_out_utf16(&room, tables, lone, 4, one, 1);
  lay_out_utf16(&codes, tables, lone, 4, one, 1);
  lay_out_encoded_by_limits(&room, tables);
  lay_out_ill_formed(&room, &codes, tables);
  break_encoded(&room, &codes, tables);
  bidi_room_free(&codes);
  bidi_room_free(&room);
}

/* Reports: each error, and what is unchanged after it. */
static void print_next(bidi_report *report) {
  bidi_wrong_case w = { 99, 99, 99, 99, { 99, 99 }, { 99, 99 } };
  uint32_t status = bidi_report_next(report, &w);
  printf("  next %u: line %llu direction %u place %u index %zu claimed %u %zu defined %u %zu\n", status,
         (unsigned long long)w.line, w.direction, w.place, w.index, w.claimed.kind, w.claimed.value, w.defined.kind,
         w.defined.value);
}

static void feed_report(bidi_report *report, const char *text) {
  size_t used = 99;
  uint32_t status = bidi_report_feed(report, (const uint8_t *)text, strlen(text), &used);
  printf("  fed %u, used %zu of %zu\n", status, used, strlen(text));
}

static void finish_report(bidi_report *report) {
  bidi_counts c = { 99, 99, 99, 99, 99, 99, 99, 99, 99, 99, 99, 99, 99 };
  uint32_t status = bidi_report_finish(report, &c);
  const uint64_t counts[] = { c.rows, c.cases, c.wrong_rows, c.wrong_cases, c.ltr, c.rtl, c.auto_ltr, c.auto_rtl,
                              c.para_level, c.levels, c.order, c.malformed };
  printf("  finish %u:", status);
  for (size_t i = 0; i < 12; i++) printf(" %llu", (unsigned long long)counts[i]);
  printf(" cause %u, held %d\n", c.cause, report->made);
}

static void report_on(bidi_report *report, const char *first, const char *rest) {
  feed_report(report, first);
  feed_report(report, rest);
  finish_report(report);
  for (int i = 0; i < 3; i++) print_next(report);
  feed_report(report, "");
  feed_report(report, rest);
  finish_report(report);
  for (int i = 0; i < 2; i++) print_next(report);
  finish_report(report);
  feed_report(report, rest);
  print_next(report);
}

/* Judges and reports of both kinds are made with the least and the greatest limits, and those next to them. */
static void make_by_each_limits(bidi_tables *tables) {
  const uint8_t depths[] = { 1, 2, 124, 125 }, brackets[] = { 0, 1, 62, 63 };
  bidi_judge judge = BIDI_NONE;
  bidi_report report = BIDI_NONE;
  unsigned made = 0;
  for (size_t i = 0; i < 16; i++) {
    const bidi_limits limits = { depths[i / 4], brackets[i % 4] };
    made += bidi_judge_new_classes_with(&judge, limits) == BIDI_DONE;
    made += bidi_judge_new_characters_with(tables, &judge, limits) == BIDI_DONE;
    made += bidi_report_new_classes_with(&report, limits) == BIDI_DONE;
    made += bidi_report_new_characters_with(tables, &report, limits) == BIDI_DONE;
  }
  printf("made by limits: %u of 64\n", made);
  bidi_judge_free(&judge);
  bidi_report_free(&report);
}

static void report_on_files(bidi_tables *tables, bidi_room *room) {
  const bidi_limits low = { 1, 63 }, deep = { 126, 64 }, wide = { 1, 64 };
  bidi_report report = BIDI_NONE;
  printf("no report\n");
  report_on(&report, "", "L; 7\n");
  printf("a room, and a judge\n");
  report_on((bidi_report *)room, "", "L; 7\n");
  bidi_judge judge = BIDI_NONE;
  uint32_t status = bidi_judge_new_classes(&judge);
  report_on((bidi_report *)&judge, "", "L; 7\n");
  bidi_judge_free(&judge);
  printf("report on classes %u\n", bidi_report_new_classes(&report));
  report_on(&report, "@Levels: x 1\n@Reorder: 7\nRLE L; 11\n@Lev", "els: 0\n@Reorder: 0\nL; 2");
  status = bidi_report_new_classes_with(&report, deep);
  printf("by limits %u %u %u", status, bidi_report_new_classes_with(&report, wide),
         bidi_report_new_characters_with(tables, &report, deep));
  printf(" %u\n", bidi_report_new_classes_with(&report, low));
  report_on(&report, "@Levels: x x 3\n@Reorder: 2\n", "RLE LRE R; 2\n\nR; 16\nR; 1");
  make_by_each_limits(tables);
  printf("without tables %u\n", bidi_report_new_characters((bidi_tables *)room, &report));
  status = bidi_report_new_characters(tables, &report);
  printf("report on characters %u\n", status);
  bidi_tables_free(tables);
  report_on(&report, "0061 05D0;2;1;0 1;0 1\n05D0;0;0;1;0\n0061;", "3;0;0 0;0\n0061;2;0;1;0");
  for (int i = 0; i < 2; i++) bidi_report_free(&report);
  printf("freed: %d\n", report.made);
}

/* Prints what a call on a line alone of a text in code units writes, or that it writes nothing. */
static void encoded_line_of(bidi_room *room, size_t start, size_t end) {
  uint8_t levels[8] = { 77, 77, 77, 77, 77, 77, 77, 77 };
  size_t order[8] = { 77, 77, 77, 77, 77, 77, 77, 77 }, shown = 77;
  printf("encoded line of [%zu,%zu): %u, levels", start, end,
         bidi_encoded_line_of(room, start, end, levels, 8, order, 8, &shown));
  for (size_t i = 0; i < 4; i++) printf(" %u", levels[i]);
  printf(" order");
  for (size_t i = 0; i < 2; i++) printf(" %zu", order[i]);
  printf(" shown %zu\n", shown);
}

/* Lines alone, places, paragraphs and directions of texts in code units: a, alef, 1, LF, alef. */
static void ask_in_code_units(bidi_tables *tables) {
  const uint8_t utf8[] = { 'a', 0xD7, 0x90, '1', '\n', 0xD7, 0x90 }, no_utf8[] = { 'a', 0xFF };
  const uint16_t utf16[] = { 'a', 0x5D0, '1', '\n', 0x5D0 }, no_utf16[] = { 'a', 0xD800 };
  bidi_room room = BIDI_NONE;
  uint64_t place = 77;
  size_t places[8] = { 77, 77, 77, 77, 77, 77, 77, 77 }, count = 77;
  uint8_t level = 77, levels[2] = { 77, 77 }, stays = 77;
  uint32_t status = bidi_encoded_line_of(&room, 0, 1, levels, 2, places, 2, &count);
  printf("without a room: line of %u, places %zu, paragraph %u\n", status, bidi_encoded_places(&room, 0, places, 8),
         bidi_encoded_para_level_at(&room, 0));
  bidi_room_new_encoded(7, &room);
  bidi_lay_out_utf8(&room, tables, utf8, 7, BIDI_AUTO, NULL, 0, &place);
  encoded_line_of(&room, 1, 4);
  encoded_line_of(&room, 0, 9);
  encoded_line_of(&room, 3, 3);
  encoded_line_of(&room, 0, 8);
  encoded_line_of(&room, 2, 4);
  encoded_line_of(&room, 1, 2);
  encoded_line_of(&room, 3, 7);
  printf("places %zu:", bidi_encoded_places(&room, 0, places, 8));
  for (size_t i = 0; i < 6; i++) printf(" %zu", places[i]);
  printf(", of no line %zu; paragraphs", bidi_encoded_places(&room, 2, places, 8));
  for (size_t i = 0; i < 8; i++) printf(" %u", bidi_encoded_para_level_at(&room, i));
  bidi_room_free(&room);
  status = bidi_base_level_utf8(tables, utf8 + 5, 2, BIDI_AUTO, &level, &place);
  printf("\nbase utf8 %u: %u", status, level);
  status = bidi_base_levels_utf8(tables, utf8, 7, BIDI_AUTO, levels, 2, &count, &place);
  printf(", all %u: %zu, %u %u", status, count, levels[0], levels[1]);
  status = bidi_is_left_to_right_utf8(tables, utf8, 1, &stays, &place);
  printf(", left to right %u: %u", status, stays);
  status = bidi_is_left_to_right_utf8(tables, no_utf8, 2, &stays, &place);
  printf(", ill-formed %u at %llu\n", status, (unsigned long long)place);
  status = bidi_base_level_utf16(tables, utf16 + 4, 1, BIDI_AUTO, &level, &place);
  printf("base utf16 %u: %u", status, level);
  status = bidi_base_levels_utf16(tables, utf16, 5, BIDI_AUTO, levels, 1, &count, &place);
  printf(", all %u: %zu", status, count);
  status = bidi_is_left_to_right_utf16(tables, utf16, 5, &stays, &place);
  printf(", left to right %u: %u", status, stays);
  status = bidi_base_level_utf16(tables, no_utf16, 2, 4, &level, &place);
  printf(", no direction %u", status);
  status = bidi_base_level_utf16(tables, no_utf16, 2, BIDI_RTL, &level, &place);
  printf(", ill-formed %u at %llu\n", status, (unsigned long long)place);
}

/* Prints a line of a text in code units as it is shown, and what comes after it in the array. */
static void show_utf8(bidi_room *room, bidi_tables *tables, const uint8_t *text, size_t n, size_t k, size_t capacity) {
  uint8_t shown[8] = { 0x77, 0x77, 0x77, 0x77, 0x77, 0x77, 0x77, 0x77 };
  printf("shown utf8 %zu:", bidi_encoded_shown_utf8(room, tables, text, n, k, shown, capacity));
  for (size_t i = 0; i < 8; i++) printf(" %02X", shown[i]);
  printf("\n");
}

static void show_utf16(bidi_room *room, bidi_tables *tables, const uint16_t *text, size_t n, size_t k,
                       size_t capacity) {
  uint16_t shown[4] = { 0x7777, 0x7777, 0x7777, 0x7777 };
  printf("shown utf16 %zu:", bidi_encoded_shown_utf16(room, tables, text, n, k, shown, capacity));
  for (size_t i = 0; i < 4; i++) printf(" %04X", shown[i]);
  printf("\n");
}

/* Each count that is 0, an array that is too short, two lines, a mirrored character, and what was read as U+FFFD. */
static void show_in_code_units(bidi_tables *tables) {
  const uint8_t utf8[] = { 'a', ' ', 0xD7, 0x90, '(', 0xD7, 0x91, ')' }, no_utf8[] = { 0xFF, 0xD7, 0x90 };
  const uint16_t utf16[] = { 0x5D0, 0xD83D, 0xDE00, '<' }, no_utf16[] = { 0xDE00, 0x5D0 };
  const uint32_t letter[] = { 'a' };
  const size_t breaks[] = { 5 };
  bidi_tables no_tables = BIDI_NONE;
  bidi_room room = BIDI_NONE, codes = BIDI_NONE;
  uint64_t place = 77;
  show_utf8(&room, tables, utf8, 0, 0, 8);
  show_utf16(&room, tables, utf16, 0, 0, 4);
  bidi_room_new(1, &codes);
  bidi_lay_out(&codes, tables, letter, 1, BIDI_AUTO, NULL, 0, &place);
  show_utf8(&codes, tables, utf8, 1, 0, 8);
  show_utf16(&codes, tables, utf16, 1, 0, 4);
  bidi_room_free(&codes);
  bidi_room_new_encoded(8, &room);
  bidi_lay_out_utf8(&room, tables, utf8, 8, BIDI_AUTO, NULL, 0, &place);
  show_utf8(&room, tables, utf8, 8, 0, 8);
  show_utf8(&room, tables, utf8, 8, 0, 7);
  show_utf8(&room, tables, utf8, 7, 0, 8);
  show_utf8(&room, tables, utf8, 8, 1, 8);
  show_utf8(&room, &no_tables, utf8, 8, 0, 8);
  bidi_encoded_set_lines(&room, breaks, 1, &place);
  show_utf8(&room, tables, utf8, 8, 0, 8);
  show_utf8(&room, tables, utf8, 8, 1, 8);
  bidi_lay_out_utf8_lossy(&room, tables, no_utf8, 3, BIDI_AUTO, NULL, 0, &place);
  show_utf8(&room, tables, no_utf8, 3, 0, 8);
  bidi_lay_out_utf16(&room, tables, utf16, 4, BIDI_AUTO, NULL, 0, &place);
  show_utf16(&room, tables, utf16, 4, 0, 4);
  show_utf16(&room, tables, utf16, 4, 0, 3);
  show_utf16(&room, tables, utf16, 3, 0, 4);
  show_utf16(&room, tables, utf16, 4, 1, 4);
  show_utf16(&room, &no_tables, utf16, 4, 0, 4);
  bidi_lay_out_utf16_lossy(&room, tables, no_utf16, 2, BIDI_AUTO, NULL, 0, &place);
  show_utf16(&room, tables, no_utf16, 2, 0, 4);
  bidi_room_free(&room);
}

int main(int argc, char **argv) {
  bidi_tables tables = BIDI_NONE;
  bidi_room room = BIDI_NONE;
  bidi_judge handle = BIDI_NONE;
  bidi_fault fault = { 0, 0 };
  const uint32_t text[1] = { 'a' };
  const size_t none[1] = { 0 };
  lay_out(&room, &tables, text, 1, BIDI_AUTO, none, 0);
  set_lines(&room, &tables, none, 0);
  reject_runs("run", bidi_run, bidi_runs, &room);
  print_room(&room, 64);
  lay_out(&room, &tables, text, 1, BIDI_AUTO, none, 0);
  reject_files(&tables);
  uint32_t status = read_tables(argc > 1 ? argv[1] : "ucd", &tables, &fault);
  print_fault("tables", status, &fault, &tables);
  printf("mirrors %c %c %c, of no character %X\n", bidi_mirror(&tables, '('), bidi_mirror(&tables, '['),
         bidi_mirror(&tables, 'a'), bidi_mirror(&tables, 0xD800));
  lay_out_texts(&room, &tables);
  set_lines_again(&room, &tables);
  lay_out_lines_alone(&room, &tables);
  lay_out_classes(&room, &tables);
  lay_out_by_limits(&room, &tables);
  judge_files(&handle, &tables);
  status = read_tables(argc > 1 ? argv[1] : "ucd", &tables, &fault);
  print_fault("tables", status, &fault, &tables);
  judge_by_limits(&handle, &tables);
  share_tables(&tables, &room);
  use_standard_tables(&room);
  lay_out_encoded(&tables);
  ask_in_code_units(&tables);
  show_in_code_units(&tables);
  print_texts();
  report_on_files(&tables, &room);
  print_room(&room, 1000);
  print_room(&room, 16777217);
  status = bidi_judge_new_characters((bidi_tables *)&room, &handle);
  printf("a room for tables: %u, mirror %c\n", status, bidi_mirror((bidi_tables *)&room, '('));
  for (int i = 0; i < 2; i++) {
    bidi_room_free(&room);
    bidi_tables_free(&tables);
    bidi_judge_free(&handle);
  }
  printf("freed: %d %d %d\n", room.made, tables.made, handle.made);
  return 0;
}
