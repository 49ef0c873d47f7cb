/* report KIND UCD PIECE: reports on the standard input: a BidiTest.txt if KIND is `classes`, and a
 * BidiCharacterTest.txt, by the tables of UCD, if it is `characters`. It is fed in pieces of at most PIECE bytes.
 * Prints what `bidi report` prints, and ends with 0 if the file is right. */
#include "bidi.h"
#include "read_file.h"
#include <string.h>
static const char *const directions[] = { "ltr", "rtl", "auto", "auto-rtl" };
static bidi_report report = BIDI_NONE;

static uint32_t new_report(const char *kind, const char *ucd) {
  bidi_tables tables = BIDI_NONE;
  bidi_fault fault;
  if (strcmp(kind, "characters")) return bidi_report_new_classes(&report);
  if (read_tables(ucd, &tables, &fault)) return BIDI_NO_TABLES;
  uint32_t status = bidi_report_new_characters(&tables, &report);
  bidi_tables_free(&tables);
  return status;
}

static void print_item(const char *word, bidi_item item) {
  printf("%s ", word);
  if (item.kind == BIDI_ITEM_ENDED) printf("nothing");
  else if (item.kind == BIDI_ITEM_REMOVED) printf("x");
  else printf("%zu", item.value);
}

static void print_cases(void) {
  bidi_wrong_case wrong;
  while (bidi_report_next(&report, &wrong) == BIDI_DONE) {
    printf("line %llu: %s: ", (unsigned long long)wrong.line, directions[wrong.direction]);
    if (wrong.place == BIDI_WRONG_PARA_LEVEL) printf("paragraph level");
    else printf("%s at %zu", wrong.place == BIDI_WRONG_LEVELS ? "levels" : "order", wrong.index);
    print_item(": claimed", wrong.claimed);
    print_item(", defined", wrong.defined);
    printf("\n");
  }
}

static int print_counts(const bidi_counts *c) {
  typedef unsigned long long word;
  if (c->cause) {
    const bidi_verdict verdict = { BIDI_MALFORMED, c->cause, 0, c->malformed, 0, 0, 0 };
    uint8_t line[BIDI_VERDICT_LINE];
    size_t length;
    if (bidi_verdict_text(&verdict, line, sizeof line, &length)) return 2;
    fwrite(line, 1, length, stdout);
  }
  printf("%llu rows, %llu wrong; %llu cases, %llu wrong\n", (word)c->rows, (word)c->wrong_rows, (word)c->cases,
         (word)c->wrong_cases);
  printf("wrong by direction: auto %llu, ltr %llu, rtl %llu, auto-rtl %llu\n", (word)c->auto_ltr, (word)c->ltr,
         (word)c->rtl, (word)c->auto_rtl);
  printf("wrong by place: paragraph level %llu, levels %llu, order %llu\n", (word)c->para_level, (word)c->levels,
         (word)c->order);
  return c->cause != 0 || c->wrong_cases != 0;
}

static int feed(const uint8_t *piece, size_t n) {
  for (size_t at = 0, used; at < n; at += used) {
    if (bidi_report_feed(&report, piece + at, n - at, &used)) return 2;
    print_cases();
  }
  return 0;
}

int main(int argc, char **argv) {
  uint8_t piece[4096];
  bidi_counts counts;
  if (argc < 4 || new_report(argv[1], argv[2])) return 2;
  size_t n, most = strtoul(argv[3], NULL, 10);
  while ((n = fread(piece, 1, most, stdin)) > 0) if (feed(piece, n)) return 2;
  if (bidi_report_finish(&report, &counts)) return 2;
  print_cases();
  int status = print_counts(&counts);
  bidi_report_free(&report);
  return status;
}
