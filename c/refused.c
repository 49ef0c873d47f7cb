/* refused UCD: refuses each allocation of tables, rooms and judges in turn. The call returns BIDI_MEMORY, the handle is
 * unchanged, and nothing is lost (seen under valgrind). It prints how many were refused, and how many bytes the call
 * asks for if none is. Link with -Wl,--wrap=malloc,--wrap=realloc. */
#include "bidi.h"
#include <stdlib.h>
static long refused_at, asked;
static size_t asked_bytes;
void *__real_malloc(size_t n);
void *__real_realloc(void *p, size_t n);
static bool is_refused(size_t n) { asked_bytes += n; return ++asked == refused_at; }
void *__wrap_malloc(size_t n) { return is_refused(n) ? NULL : __real_malloc(n); }
void *__wrap_realloc(void *p, size_t n) { return is_refused(n) ? NULL : __real_realloc(p, n); }
#include "read_file.h"

static long wrong;
/* Refuses the first, the second .. allocation of a call until the call returns `end`. Prints how many were refused, and
 * how many bytes the last call asked for. */
#define IN_TURN_UNTIL(end, name, call, unchanged) do { \
    long k = 1; \
    for (;; k++) { \
      asked = 0; asked_bytes = 0; refused_at = k; \
      uint32_t status = (call); \
      refused_at = 0; \
      if (status == (end)) break; \
      if (status != BIDI_MEMORY || !(unchanged)) wrong++; \
    } \
    printf("%s: %ld refused, %zu bytes\n", name, k - 1, asked_bytes); \
  } while (0)
#define IN_TURN(name, call, unchanged) IN_TURN_UNTIL(BIDI_DONE, name, call, unchanged)

static void report_refused(bidi_tables *tables) {
  bidi_report report = BIDI_NONE;
  const uint8_t row[] = "0061;2;1;0;0\n0061;2;0;0;1";
  bidi_wrong_case item;
  bidi_counts counts;
  size_t used = 0, passed = 0;
  IN_TURN("report", bidi_report_new_classes(&report), !report.made);
  IN_TURN("report by tables", bidi_report_new_characters(tables, &report), report.made && tables->made);
  asked = 0; refused_at = 1;
  uint32_t status = bidi_report_feed(&report, row, sizeof row - 1, &used);
  while (bidi_report_next(&report, &item) == BIDI_DONE) passed++;
  status += bidi_report_feed(&report, row + used, sizeof row - 1 - used, &used);
  status += bidi_report_finish(&report, &counts);
  while (bidi_report_next(&report, &item) == BIDI_DONE) passed++;
  refused_at = 0;
  printf("reported: status %u, handed %zu, wrong %llu, %ld asked\n", status, passed,
         (unsigned long long)counts.wrong_cases, asked);
  bidi_report_free(&report);
}

/* A fault is found before any memory is taken for its line: a refused allocation hides it only if an earlier line or an
 * earlier file took memory. */
static void faulty_refused(const uint8_t *classes, size_t a, const uint8_t *brackets, size_t b) {
  bidi_tables tables = BIDI_NONE; bidi_fault fault = { 0, 0 };
  const uint8_t bad[] = "X;L\n", later[] = "0041;L\nX;L\n", again[] = "0041;L\n0041;R\n";
  IN_TURN_UNTIL(BIDI_CLASS_FILE, "faulty first line",
                bidi_tables_new(bad, 4, brackets, b, bad, 4, &tables, &fault), false);
  if (fault.line != 1 || tables.made) wrong++;
  IN_TURN_UNTIL(BIDI_CLASS_FILE, "faulty second line",
                bidi_tables_new(later, 11, brackets, b, bad, 4, &tables, &fault), !tables.made);
  if (fault.line != 2 || tables.made) wrong++;
  IN_TURN_UNTIL(BIDI_CLASS_FILE, "stated again in the second line",
                bidi_tables_new(again, 14, brackets, b, bad, 4, &tables, &fault), !tables.made);
  if (fault.line != 2 || tables.made) wrong++;
  IN_TURN_UNTIL(BIDI_MIRROR_FILE, "faulty last file",
                bidi_tables_new(classes, a, brackets, b, bad, 4, &tables, &fault), !tables.made);
  if (fault.line != 1 || tables.made) wrong++;
}

int main(int argc, char **argv) {
  const char *ucd = argc > 1 ? argv[1] : "ucd";
  size_t a, b, c;
  uint8_t *classes = read_file(ucd, "DerivedBidiClass.txt", &a), *brackets = read_file(ucd, "BidiBrackets.txt", &b),
          *mirrors = read_file(ucd, "BidiMirroring.txt", &c);
  bidi_tables tables = BIDI_NONE; bidi_room room = BIDI_NONE; bidi_judge judge = BIDI_NONE; bidi_fault fault;
  uint64_t place = 0;
  IN_TURN("room", bidi_room_new(500, &room), !room.made);
  IN_TURN("room again", bidi_room_new(600, &room), bidi_room_size(&room) == 500);
  bidi_room encoded = BIDI_NONE;
  IN_TURN("encoded room", bidi_room_new_encoded(500, &encoded), !encoded.made);
  faulty_refused(classes, a, brackets, b);
  IN_TURN("tables", bidi_tables_new(classes, a, brackets, b, mirrors, c, &tables, &fault), !tables.made);
  const uint32_t text[] = { 'a', 0x5D0, '1' }; const size_t none[1] = { 0 };
  uint8_t levels[3]; size_t order[3], n; uint32_t shown[3]; bidi_run_t run;
  asked = 0; refused_at = 1;
  uint32_t status = bidi_lay_out(&room, &tables, text, 3, BIDI_AUTO, none, 0, &place);
  bidi_levels(&room, levels, 3); bidi_order(&room, 0, order, 3); bidi_places(&room, 0, order, 3);
  bidi_line_of(&room, 0, 2, levels, 3, order, 3, &n);
  bidi_run(&room, 0, 0, &run); bidi_runs(&room, 0, &run, 1); bidi_shown(&room, &tables, text, 3, 0, shown, 3);
  bidi_mirror(&tables, '(');
  bidi_class(&tables, '(', levels); bidi_bracket(&tables, '(', levels);
  bidi_base_level(&tables, text, 3, BIDI_AUTO, levels, &place); bidi_is_left_to_right(&tables, text, 3, levels, &place);
  bidi_base_levels(&tables, text, 3, BIDI_AUTO, levels, 3, &n, &place);
  const uint8_t bytes[] = { 'a', 0xD7, 0x90 }; const uint16_t units[] = { 'a', 0x5D0 }; bidi_line_t line_of;
  status += bidi_lay_out_utf8(&encoded, &tables, bytes, 3, BIDI_AUTO, none, 0, &place);
  status += bidi_lay_out_utf8_lossy(&encoded, &tables, bytes, 2, BIDI_AUTO, none, 0, &place);
  status += bidi_lay_out_utf16(&encoded, &tables, units, 2, BIDI_AUTO, none, 0, &place);
  status += bidi_lay_out_utf16_lossy(&encoded, &tables, units, 2, BIDI_AUTO, none, 0, &place);
  const size_t second[] = { 1 };
  status += bidi_encoded_set_lines(&encoded, second, 1, &place);
  bidi_index_of(&encoded, 1); bidi_offset_of(&encoded, 1); bidi_level_at(&encoded, 1);
  bidi_encoded_levels(&encoded, levels, 3); bidi_encoded_line(&encoded, 0, &line_of);
  bidi_encoded_run(&encoded, 0, 0, &run); bidi_encoded_runs(&encoded, 0, &run, 1);
  bidi_encoded_order(&encoded, 0, order, 3);
  printf("layout and look-ups: status %u, %ld asked\n", status, asked);
  refused_at = 0;
  IN_TURN("judge", bidi_judge_new_classes(&judge), !judge.made);
  IN_TURN("judge by tables", bidi_judge_new_characters(&tables, &judge), judge.made && tables.made);
  bidi_tables shared = BIDI_NONE, standard = BIDI_NONE;
  IN_TURN("shared", bidi_tables_share(&tables, &shared), tables.made && !shared.made);
  IN_TURN("standard", bidi_tables_standard(&standard), !standard.made);
  bidi_tables_free(&shared); bidi_tables_free(&standard);
  asked = 0; refused_at = 1;
  bidi_verdict verdict;
  status = bidi_judge_feed(&judge, (const uint8_t *)"0061;2;0;0;0\n", 13);
  uint32_t finished = bidi_judge_finish(&judge, &verdict);
  printf("judged: status %u, %u, answer %u, %ld asked\n", status, finished, verdict.answer, asked);
  refused_at = 0;
  uint8_t line[BIDI_VERDICT_LINE];
  size_t length = 0;
  IN_TURN("text", bidi_verdict_text(&verdict, line, sizeof line, &length), length == 0);
  verdict.answer = 9;
  IN_TURN_UNTIL(BIDI_NO_VERDICT, "text of no verdict", bidi_verdict_text(&verdict, line, sizeof line, &length), false);
  report_refused(&tables);
  bidi_room_free(&room); bidi_room_free(&encoded); bidi_tables_free(&tables); bidi_judge_free(&judge);
  free(classes); free(brackets); free(mirrors);
  printf("wrong: %ld\n", wrong);
  return wrong != 0;
}
