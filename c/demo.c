/* demo UCD WIDTH < text: prints a text as it is shown, at most WIDTH characters a line. */
#include "bidi.h"
#include "read_file.h"
#define MOST 4096

static size_t read_text(uint32_t *codes) { /* UTF-8, assumed to be well-formed */
  size_t n = 0;
  for (int c; n < MOST && (c = getchar()) != EOF; n++) {
    int more = c < 0x80 ? 0 : c < 0xE0 ? 1 : c < 0xF0 ? 2 : 3;
    for (codes[n] = more ? c & (0x3F >> more) : c; more > 0; more--) codes[n] = codes[n] << 6 | (getchar() & 0x3F);
  }
  return n;
}

static void print(uint32_t c) {
  if (c < 0x80) putchar(c);
  else if (c < 0x800) printf("%c%c", 0xC0 | c >> 6, 0x80 | (c & 0x3F));
  else if (c < 0x10000) printf("%c%c%c", 0xE0 | c >> 12, 0x80 | (c >> 6 & 0x3F), 0x80 | (c & 0x3F));
  else printf("%c%c%c%c", 0xF0 | c >> 18, 0x80 | (c >> 12 & 0x3F), 0x80 | (c >> 6 & 0x3F), 0x80 | (c & 0x3F));
}

int main(int argc, char **argv) {
  bidi_tables tables = BIDI_NONE; bidi_room room = BIDI_NONE; bidi_fault fault; uint64_t place = 0;
  static uint32_t codes[MOST], shown[MOST]; static size_t breaks[MOST];
  size_t width = argc == 3 ? strtoul(argv[2], NULL, 10) : 0, count = 0, column = 0;
  if (width == 0 || read_tables(argv[1], &tables, &fault) || bidi_room_new(MOST, &room)) return 2;
  size_t n = read_text(codes);
  for (size_t i = 0; i < n; i++) {
    if (column == width) { breaks[count++] = i; column = 0; }
    column = codes[i] == '\n' ? 0 : column + 1;
  }
  uint32_t status = bidi_lay_out(&room, &tables, codes, n, BIDI_AUTO, breaks, count, &place);
  if (status) { fprintf(stderr, "status %u at %llu\n", status, (unsigned long long)place); return 2; }
  for (size_t k = 0; k < bidi_line_count(&room); k++) {
    size_t m = bidi_shown(&room, &tables, codes, n, k, shown, MOST);
    for (size_t i = 0; i < m; i++) if (shown[i] != '\n') print(shown[i]);
    putchar('\n');
  }
  bidi_room_free(&room); bidi_tables_free(&tables);
  return 0;
}
