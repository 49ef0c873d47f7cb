/* terminal COLUMNS < text: shows a file in UTF-8 as a terminal does that is so many columns wide. It lays out each line
 * of the file in the same room and wraps it into rows. It prints each row as it is shown, with the byte of the line
 * that each of its columns shows, for a click, and the column of each of its bytes, for the cursor. A column is one
 * shown character. The program decodes nothing: the room says where characters begin. */
#include "bidi.h"
#include <stdio.h>
#include <stdlib.h>
#define MOST 4096

static uint8_t text[MOST], shown[4 * MOST];
static size_t breaks[MOST], order[MOST], places[MOST];

static size_t read_line(void) { /* the next line of the file, without its LF */
  size_t n = 0;
  for (int c; n < MOST && (c = getchar()) != EOF && c != '\n'; n++) text[n] = c;
  return n;
}

/* Breaks each paragraph of the line after so many columns. What X9 removes takes none. */
static size_t wrap(const bidi_room *room, size_t width) {
  size_t count = 0;
  bidi_line_t line;
  for (size_t k = 0; bidi_encoded_line(room, k, &line) == BIDI_DONE; k++) {
    size_t column = 0;
    for (size_t at = line.start; at < line.end; at = bidi_offset_of(room, bidi_index_of(room, at) + 1)) {
      if (bidi_level_at(room, at) == BIDI_REMOVED) continue;
      if (column == width) {
        breaks[count++] = at;
        column = 0;
      }
      column++;
    }
  }
  return count;
}

static void print_row(const bidi_room *room, const bidi_tables *tables, size_t n, size_t k) {
  size_t m = bidi_encoded_shown_utf8(room, tables, text, n, k, shown, sizeof shown);
  putchar('|');
  fwrite(shown, 1, m, stdout);
  printf("|\nbytes  ");
  size_t columns = bidi_encoded_order(room, k, order, MOST), bytes = bidi_encoded_places(room, k, places, MOST);
  for (size_t i = 0; i < columns; i++) printf(" %zu", order[i]);
  printf("\ncolumns");
  for (size_t i = 0; i < bytes; i++) if (places[i] == BIDI_NOWHERE) printf(" -"); else printf(" %zu", places[i]);
  printf("\n");
}

static uint32_t show(bidi_room *room, const bidi_tables *tables, size_t n, size_t width) {
  uint64_t place = 0;
  uint32_t status = bidi_lay_out_utf8_lossy(room, tables, text, n, BIDI_AUTO, NULL, 0, &place);
  if (status) return status;
  status = bidi_encoded_set_lines(room, breaks, wrap(room, width), &place);
  if (status) return status;
  for (size_t k = 0; k < bidi_line_count(room); k++) print_row(room, tables, n, k);
  if (n == 0) printf("||\n");
  return BIDI_DONE;
}

int main(int argc, char **argv) {
  size_t width = argc == 2 ? strtoul(argv[1], NULL, 10) : 0;
  bidi_tables tables = BIDI_NONE; bidi_room room = BIDI_NONE;
  if (width == 0 || bidi_tables_standard(&tables) || bidi_room_new_encoded(MOST, &room)) return 2;
  for (int c; (c = getchar()) != EOF; ) {
    ungetc(c, stdin);
    uint32_t status = show(&room, &tables, read_line(), width);
    if (status) { fprintf(stderr, "status %u\n", status); return 2; }
  }
  bidi_room_free(&room); bidi_tables_free(&tables);
  return 0;
}
