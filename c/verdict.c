/* verdict KIND [UCD]: judges the standard input: a BidiTest.txt if KIND is `classes`, and a BidiCharacterTest.txt, by
 * the tables of UCD, if it is `characters`. Prints the line that states the verdict, and ends with 0 if it is yes. */
#include "bidi.h"
#include "read_file.h"
#include <string.h>

static uint32_t new_judge(int argc, char **argv, bidi_judge *judge) {
  bidi_tables tables = BIDI_NONE;
  bidi_fault fault;
  if (argc < 3 || strcmp(argv[1], "characters")) return bidi_judge_new_classes(judge);
  if (read_tables(argv[2], &tables, &fault)) return BIDI_NO_TABLES;
  uint32_t status = bidi_judge_new_characters(&tables, judge);
  bidi_tables_free(&tables);
  return status;
}

int main(int argc, char **argv) {
  bidi_judge judge = BIDI_NONE;
  uint8_t piece[4096], line[BIDI_VERDICT_LINE];
  size_t n, length;
  bidi_verdict verdict;
  if (new_judge(argc, argv, &judge)) return 2;
  while ((n = fread(piece, 1, sizeof piece, stdin)) > 0) bidi_judge_feed(&judge, piece, n);
  if (bidi_judge_finish(&judge, &verdict) || bidi_verdict_text(&verdict, line, sizeof line, &length)) return 2;
  fwrite(line, 1, length, stdout);
  return verdict.answer != BIDI_YES;
}
