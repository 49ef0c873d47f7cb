/* manual: runs the examples of README.md and docs/C.md on small texts. tools/check_docs.py compares the documents with
 * this file. A run is printed as its code points in brackets, with R for right to left. */
#include "bidi.h"
#include <stdio.h>
#include <stdlib.h>

enum { LEFT_TO_RIGHT, RIGHT_TO_LEFT };

static void draw(const uint32_t *codes, size_t n, int direction) {
  printf(direction == RIGHT_TO_LEFT ? "R[" : "[");
  for (size_t i = 0; i < n; i++) printf("%s%04X", i ? " " : "", codes[i]);
  printf("]\n");
}

static void draw_bytes(const uint8_t *text, size_t n, int direction) {
  printf(direction == RIGHT_TO_LEFT ? "R[" : "[");
  for (size_t i = 0; i < n; i++) printf("%s%02X", i ? " " : "", text[i]);
  printf("]\n");
}

static void show(const uint32_t *codes, size_t n) {
  bidi_tables tables = BIDI_NONE;
  bidi_room room = BIDI_NONE;
  uint64_t place = 0;
  bidi_run_t *runs = malloc((n + 1) * sizeof *runs); /* a line has no more runs than code points */
  uint32_t status = runs ? bidi_tables_standard(&tables) : BIDI_MEMORY;
  if (!status) status = bidi_room_new(n, &room);
  if (!status) status = bidi_lay_out(&room, &tables, codes, n, BIDI_AUTO, NULL, 0, &place);
  for (size_t k = 0; k < bidi_line_count(&room); k++)
    for (size_t i = 0, count = bidi_runs(&room, k, runs, n); i < count; i++)
      draw(codes + runs[i].start, runs[i].length, runs[i].level % 2 ? RIGHT_TO_LEFT : LEFT_TO_RIGHT);
  printf("status %u, place %llu\n", status, (unsigned long long)place);
  bidi_room_free(&room);
  bidi_tables_free(&tables);
  free(runs);
}

static bidi_tables tables = BIDI_NONE;

static void show_bytes(const uint8_t *text, size_t length) {
  bidi_room room = BIDI_NONE;
  uint64_t place = 0;
  bidi_run_t *runs = malloc((length + 1) * sizeof *runs); /* a line has no more runs than code units */
  uint32_t status = runs ? bidi_room_new_encoded(length, &room) : BIDI_MEMORY;
  if (!status) status = bidi_lay_out_utf8(&room, &tables, text, length, BIDI_AUTO, NULL, 0, &place);
  for (size_t k = 0; k < bidi_line_count(&room); k++)
    for (size_t i = 0, count = bidi_encoded_runs(&room, k, runs, length); i < count; i++)
      draw_bytes(text + runs[i].start, runs[i].length, runs[i].level % 2 ? RIGHT_TO_LEFT : LEFT_TO_RIGHT);
  printf("status %u, place %llu\n", status, (unsigned long long)place);
  bidi_room_free(&room);
  free(runs);
}

static void print(const bidi_wrong_case *item) {
  printf("line %llu, index %zu\n", (unsigned long long)item->line, item->index);
}

static int report_on(FILE *file) {
  uint8_t bytes[16];
  size_t n;
  bidi_report report = BIDI_NONE;
  bidi_wrong_case item;
  bidi_counts counts;
  if (bidi_report_new_characters(&tables, &report)) return 1;
  while ((n = fread(bytes, 1, sizeof bytes, file)) > 0)
    for (size_t at = 0, used; at < n; at += used) {
      if (bidi_report_feed(&report, bytes + at, n - at, &used)) return 1;
      while (bidi_report_next(&report, &item) == BIDI_DONE) print(&item);
    }
  if (bidi_report_finish(&report, &counts)) return 1;
  while (bidi_report_next(&report, &item) == BIDI_DONE) print(&item);
  bidi_report_free(&report);
  printf("%llu rows, %llu wrong\n", (unsigned long long)counts.rows, (unsigned long long)counts.wrong_rows);
  return 0;
}

static size_t width_of(uint32_t code) {
  return code >= 0x300 && code < 0x370 ? 0 : code >= 0x4E00 && code < 0xA000 ? 2 : 1;
}

/* A row of the screen as it was laid out last: its positions from left to right. */
struct row { size_t count, *order; };

/* Lays out the text of a row, without its line end, in the room of all rows, and keeps the order. */
uint32_t lay_out_row(bidi_room *room, const bidi_tables *tables, const uint32_t *codes, size_t n, struct row *row) {
  uint64_t place;
  uint32_t status = n > bidi_room_size(room) ? bidi_room_new(n, room) : BIDI_DONE;
  if (!status) status = bidi_lay_out(room, tables, codes, n, BIDI_AUTO, NULL, 0, &place);
  if (status) return status;
  size_t *order = realloc(row->order, (n + 1) * sizeof *order);
  if (!order) return BIDI_MEMORY;
  row->order = order;
  row->count = bidi_order(room, 0, order, n);
  return BIDI_DONE;
}

/* The position that is shown in a column, or n right of the row's end. */
size_t position_in(const struct row *row, const uint32_t *codes, size_t n, size_t column) {
  for (size_t place = 0; place < row->count; place++) {
    size_t width = width_of(codes[row->order[place]]);
    if (column < width) return row->order[place];
    column -= width;
  }
  return n;
}

/* The column in which a position is shown, or the row's end if X9 removes it. */
size_t column_of(const struct row *row, const uint32_t *codes, size_t position) {
  size_t column = 0;
  for (size_t place = 0; place < row->count && row->order[place] != position; place++)
    column += width_of(codes[row->order[place]]);
  return column;
}

static void show_row(bidi_room *room, const uint32_t *codes, size_t n, struct row *row) {
  uint32_t status = lay_out_row(room, &tables, codes, n, row);
  printf("row: status %u, size %zu, positions", status, bidi_room_size(room));
  for (size_t column = 0; column < n + 1; column++) printf(" %zu", position_in(row, codes, n, column));
  printf(", columns");
  for (size_t position = 0; position < n; position++) printf(" %zu", column_of(row, codes, position));
  printf("\n");
}

/* What docs/C.md says of handles of another kind, of empty texts, of rooms of the other kind, and of faulty files. */
static void show_corners(bidi_room *room) {
  uint8_t level = 9, stays = 9, one = 9;
  size_t count = 9;
  uint64_t place = 0;
  for (uint32_t direction = 0; direction < 4; direction++) {
    bidi_base_level(&tables, NULL, 0, direction, &level, &place);
    printf("empty: level %u", level);
    bidi_base_levels(&tables, NULL, 0, direction, &one, 1, &count, &place);
    printf(", levels of %zu\n", count);
  }
  bidi_is_left_to_right(&tables, NULL, 0, &stays, &place);
  printf("empty: left to right %u, level at 0 of a room of characters %u, its encoded levels %zu\n", stays,
         bidi_level_at(room, 0), bidi_encoded_levels(room, &one, 1));
  bidi_tables made = BIDI_NONE;
  bidi_fault fault = { 0, 0 };
  const uint8_t faulty[] = "\n;\n";
  printf("faulty files: %u", bidi_tables_new(faulty, 3, faulty, 3, faulty, 3, &made, &fault));
  printf(" at %llu", (unsigned long long)fault.line);
  printf(", %u\n", bidi_tables_new(NULL, 0, faulty, 3, faulty, 3, &made, &fault));
  bidi_tables_free((bidi_tables *)room);
  printf("a room freed as tables: %zu\n", bidi_room_size(room));
  bidi_room_new(4, room);
  bidi_tables_standard((bidi_tables *)room);
  printf("a room replaced by tables: %zu, %u\n", bidi_room_size(room), bidi_mirror((bidi_tables *)room, '('));
  bidi_room_free(room);
}

int main(void) {
  const uint32_t text[] = { 'a', ' ', 0x5D0, 0x301, '(', 0x4E2D, ')', '1' }, ended[] = { 0x5D0, '\r', '\n' };
  const uint8_t bytes[] = { 'a', 0xD7, 0x90, 0x0A, 0xFF };
  static uint32_t many[30];
  static char rows[] = "05D0;2;1;1;0\n0061;0;0;1;0\n";
  for (size_t i = 0; i < 30; i++) many[i] = i % 3 ? 'a' : 0x5D0;
  bidi_room room = BIDI_NONE;
  struct row row = { 0, NULL };
  show(text, 0);
  show(text, 8);
  show(ended, 3);
  show(many, 30);
  if (bidi_tables_standard(&tables) || bidi_room_new(4, &room)) return 1;
  show_bytes(bytes, 0);
  show_bytes(bytes, 4);
  show_bytes(bytes, 5);
  FILE *file = fmemopen(rows, sizeof rows - 1, "r");
  if (!file || report_on(file)) return 1;
  fclose(file);
  show_row(&room, text, 0, &row);
  show_row(&room, text, 8, &row);
  show_row(&room, ended, 1, &row);
  show_corners(&room);
  free(row.order);
  bidi_tables_free(&tables);
  return 0;
}
