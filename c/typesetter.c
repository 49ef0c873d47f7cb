/* typesetter COLUMNS.. < text: sets each paragraph of a text in lines of at most so many columns, for each given width,
 * as an editor does whose window is resized. It lays out a paragraph once and shapes its runs, which gives each
 * character its advance. By these it breaks the lines, and bidi_set_lines then says how each is shown. For another
 * width it only breaks the lines again. */
#include "bidi.h"
#include <stdio.h>
#include <stdlib.h>
#define MOST 4096

static size_t advances[MOST], breaks[MOST];
static uint32_t codes[MOST], shown[MOST];
static uint8_t levels[MOST];
static bidi_run_t runs[MOST];

static size_t read_line(void) { /* one paragraph of UTF-8, assumed to be well-formed, without its LF */
  size_t n = 0;
  for (int c; n < MOST && (c = getchar()) != EOF && c != '\n'; n++) {
    int more = c < 0x80 ? 0 : c < 0xE0 ? 1 : c < 0xF0 ? 2 : 3;
    for (codes[n] = more ? c & (0x3F >> more) : c; more > 0; more--) codes[n] = codes[n] << 6 | (getchar() & 0x3F);
  }
  return n;
}

static void print(uint32_t c) {
  if (c < 0x80) putchar(c);
  else if (c < 0x800) printf("%c%c", 0xC0 | c >> 6, 0x80 | (c & 0x3F));
  else if (c < 0x10000) printf("%c%c%c", 0xE0 | c >> 12, 0x80 | (c >> 6 & 0x3F), 0x80 | (c & 0x3F));
  else printf("%c%c%c%c", 0xF0 | c >> 18, 0x80 | (c >> 12 & 0x3F), 0x80 | (c >> 6 & 0x3F), 0x80 | (c & 0x3F));
}

static int is_mark(uint32_t c) {
  return (c >= 0x300 && c < 0x370) || (c >= 0x591 && c < 0x5C0) || (c >= 0x64B && c < 0x660);
}

/* In place of a shaper, which sees one run of one level at a time: marks and what X9 removes take no column, and an
 * alef after a lam is part of the ligature. */
static void shape(size_t start, size_t end) {
  for (size_t i = start; i < end; i++) {
    int joined = i > start && codes[i] == 0x627 && codes[i - 1] == 0x644;
    advances[i] = levels[i] == BIDI_REMOVED || is_mark(codes[i]) || joined ? 0 : 1;
  }
}

static size_t shape_runs(const bidi_room *room) { /* returns how many runs there are */
  size_t all = 0;
  for (size_t k = 0, n; (n = bidi_runs(room, k, runs, MOST)) > 0; k++, all += n)
    for (size_t i = 0; i < n; i++) shape(runs[i].start, runs[i].start + runs[i].length);
  return all;
}

static size_t break_lines(size_t n, size_t width) { /* after the last space that still fits, or within a word */
  size_t count = 0, column = 0, start = 0, space = 0;
  for (size_t i = 0; i < n; i++) {
    if (column + advances[i] > width && codes[i] != ' ') {
      breaks[count] = space > start ? space : i;
      start = breaks[count++];
      column = 0;
      for (size_t k = start; k < i; k++) column += advances[k];
    }
    column += advances[i];
    if (codes[i] == ' ') space = i + 1;
  }
  return count;
}

static uint32_t set(bidi_room *room, const bidi_tables *tables, size_t n, size_t width) {
  uint64_t place = 0;
  uint32_t status = bidi_set_lines(room, breaks, break_lines(n, width), &place);
  if (status) return status;
  for (size_t k = 0; k < bidi_line_count(room); k++) {
    size_t m = bidi_shown(room, tables, codes, n, k, shown, MOST);
    printf("%zu|", width);
    for (size_t i = 0; i < m; i++) print(shown[i]);
    printf("|\n");
  }
  return BIDI_DONE;
}

int main(int argc, char **argv) {
  bidi_tables tables = BIDI_NONE; bidi_room room = BIDI_NONE; uint64_t place = 0;
  if (bidi_tables_standard(&tables) || bidi_room_new(MOST, &room)) return 2;
  while (!feof(stdin)) {
    size_t n = read_line();
    if (n == 0) continue;
    uint32_t status = bidi_lay_out(&room, &tables, codes, n, BIDI_AUTO, breaks, 0, &place);
    if (status) { fprintf(stderr, "status %u at %llu\n", status, (unsigned long long)place); return 2; }
    bidi_levels(&room, levels, MOST);
    printf("%zu characters, %zu runs\n", n, shape_runs(&room));
    for (int k = 1; k < argc; k++) {
      size_t width = strtoul(argv[k], NULL, 10);
      if (width == 0) return 2;
      status = set(&room, &tables, n, width);
      if (status) { fprintf(stderr, "status %u\n", status); return 2; }
    }
  }
  bidi_room_free(&room); bidi_tables_free(&tables);
  return 0;
}
