/* sizes UCD: tries the greatest sizes that calls take if memory suffices: full rooms of up to 16,777,216 code points or
 * code units, property files of more than a million bytes, and tables with 65,538 owners. No call returns BIDI_MEMORY
 * here, whatever the size. sizes.out has the output, which is the same for the published files as for those of the
 * folder ucd. */
#include "bidi.h"
#include "read_file.h"
#include <string.h>

/* Fills a room for n code points with a text of Latin letters, broken in its middle. */
static void fill_room(bidi_tables *tables, size_t n) {
  bidi_room room = BIDI_NONE;
  uint64_t place = 0;
  uint32_t *codes = malloc(n * sizeof *codes), status = bidi_room_new(n, &room);
  for (size_t i = 0; codes && i < n; i++) codes[i] = 'a';
  size_t breaks[] = { n / 2 };
  printf("room of %zu: status %u, size %zu", n, status, bidi_room_size(&room));
  status = bidi_lay_out(&room, tables, codes, n, BIDI_AUTO, breaks, 1, &place);
  bidi_line_t line = { 0 };
  printf("; laid out: status %u, lines %zu", status, bidi_line_count(&room));
  status = bidi_line(&room, 1, &line);
  printf("; second line: status %u, [%zu,%zu)", status, line.start, line.end);
  status = bidi_set_lines(&room, breaks, 0, &place);
  printf("; one line: status %u, lines %zu\n", status, bidi_line_count(&room));
  bidi_room_free(&room);
  free(codes);
}

/* Fills a room for n code points with a text of pieces. Prints how many positions have each level, how many are
 * elsewhere in the order than where L2 puts those of each piece, and how many runs there are, four of each piece. */
static void fill_mixed(bidi_tables *tables, size_t n) {
  static const uint32_t piece[] = { 'a', ' ', 0x5D0, '(', '1', ')', 0x202B, ' ', 0x202C, 0x5D1 };
  static const size_t shown[] = { 0, 1, 9, 7, 5, 4, 3, 2 };
  bidi_room room = BIDI_NONE;
  uint64_t place = 0;
  uint32_t *codes = malloc(n * sizeof *codes), status = bidi_room_new(n, &room);
  uint8_t *levels = malloc(n);
  size_t *order = malloc(n * sizeof *order), counts[256] = { 0 }, misplaced = 0;
  if (!codes || !levels || !order) exit(2);
  for (size_t i = 0; i < n; i++) codes[i] = piece[i % 10];
  if (!status) status = bidi_lay_out(&room, tables, codes, n, BIDI_LTR, NULL, 0, &place);
  size_t found = bidi_levels(&room, levels, n), remain = bidi_order(&room, 0, order, n);
  for (size_t i = 0; i < found; i++) counts[levels[i]]++;
  for (size_t i = 0; i < remain; i++) misplaced += order[i] != i / 8 * 10 + shown[i % 8];
  printf("mixed text of %zu: status %u; level 0 %zu, 1 %zu, 2 %zu, removed %zu; misplaced %zu; runs %zu\n", n, status,
         counts[0], counts[1], counts[2], counts[BIDI_REMOVED], misplaced, bidi_runs(&room, 0, NULL, 0));
  bidi_room_free(&room);
  free(codes); free(levels); free(order);
}

/* Fills a room for n code units with a text of Latin letters in UTF-8, broken in its middle. */
static void fill_encoded(bidi_tables *tables, size_t n) {
  bidi_room room = BIDI_NONE;
  uint64_t place = 0;
  uint8_t *text = malloc(n);
  if (!text) exit(2);
  memset(text, 'a', n);
  uint32_t status = bidi_room_new_encoded(n, &room);
  size_t breaks[] = { n / 2 };
  printf("room of %zu code units: status %u, size %zu", n, status, bidi_room_size(&room));
  status = bidi_lay_out_utf8(&room, tables, text, n, BIDI_AUTO, breaks, 1, &place);
  bidi_line_t line = { 0 };
  printf("; laid out: status %u, lines %zu", status, bidi_line_count(&room));
  status = bidi_encoded_line(&room, 1, &line);
  printf("; second line: status %u, [%zu,%zu)\n", status, line.start, line.end);
  bidi_room_free(&room);
  free(text);
}

/* Makes a room of each kind for n units. */
static void make_rooms(size_t n) {
  bidi_room codes = BIDI_NONE, encoded = BIDI_NONE;
  uint32_t status = bidi_room_new(n, &codes), encoded_status = bidi_room_new_encoded(n, &encoded);
  printf("rooms of %zu: status %u %u, size %zu %zu\n", n, status, encoded_status, bidi_room_size(&codes),
         bidi_room_size(&encoded));
  bidi_room_free(&codes);
  bidi_room_free(&encoded);
}

#define OWNERS 65537
#define ROOMS 1024

/* Shares tables with so many more owners, each of which lays out a text in one of many rooms. The first owner is freed
 * before the others. */
static void share_tables(bidi_tables *tables) {
  static bidi_tables owners[OWNERS];
  static bidi_room rooms[ROOMS];
  static const uint32_t codes[] = { 0x5D0, ' ', '1' };
  size_t failed = 0, wrong = 0;
  uint64_t place = 0;
  for (size_t i = 0; i < ROOMS; i++) failed += bidi_room_new(3, &rooms[i]) != BIDI_DONE;
  for (size_t i = 0; i < OWNERS; i++) failed += bidi_tables_share(tables, &owners[i]) != BIDI_DONE;
  bidi_tables_free(tables);
  for (size_t i = 0; i < OWNERS; i++) {
    bidi_room *room = &rooms[i % ROOMS];
    uint8_t levels[3] = { 0 };
    failed += bidi_lay_out(room, &owners[i], codes, 3, BIDI_AUTO, NULL, 0, &place) != BIDI_DONE;
    wrong += bidi_levels(room, levels, 3) != 3 || levels[0] != 1 || levels[1] != 1 || levels[2] != 2;
    bidi_tables_free(&owners[i]);
  }
  for (size_t i = 0; i < ROOMS; i++) bidi_room_free(&rooms[i]);
  printf("%d owners of tables, %d rooms: %zu failed, %zu wrong\n", OWNERS, ROOMS, failed, wrong);
}

/* Returns the bytes of a property file after so many bytes of comments. */
static uint8_t *after_comments(const char *folder, const char *name, size_t comments, size_t *n) {
  uint8_t *file = read_file(folder, name, n), *bytes = malloc(comments + *n);
  if (!bytes) exit(2);
  memset(bytes, '#', comments);
  for (size_t i = 63; i < comments; i += 64) bytes[i] = '\n';
  memcpy(bytes + comments, file, *n);
  free(file);
  *n += comments;
  return bytes;
}

/* Makes tables from files that begin with so many bytes of comments. */
static void read_long_files(const char *folder, size_t comments, bidi_tables *tables) {
  size_t a, b, c;
  bidi_fault fault = { 0 };
  uint8_t *classes = after_comments(folder, "DerivedBidiClass.txt", comments, &a);
  uint8_t *brackets = after_comments(folder, "BidiBrackets.txt", comments, &b);
  uint8_t *mirrors = after_comments(folder, "BidiMirroring.txt", comments, &c);
  uint32_t status = bidi_tables_new(classes, a, brackets, b, mirrors, c, tables, &fault);
  printf("comments of %zu bytes: status %u, mirrored %04X\n", comments, status, bidi_mirror(tables, '('));
  free(classes); free(brackets); free(mirrors);
}

int main(int argc, char **argv) {
  (void)argc;
  bidi_tables tables = BIDI_NONE;
  read_long_files(argv[1], 1 << 20, &tables);
  read_long_files(argv[1], 1 << 22, &tables);
  fill_room(&tables, 4096);
  fill_room(&tables, 1000000);
  fill_mixed(&tables, 1000000);
  fill_room(&tables, 4194305);
  fill_room(&tables, 16777216);
  fill_encoded(&tables, 1000001);
  fill_encoded(&tables, 16777216);
  make_rooms(65536);
  make_rooms(65537);
  make_rooms(1048577);
  share_tables(&tables);
  return 0;
}
