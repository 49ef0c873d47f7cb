/* threads UCD: eight threads lay out texts at once by the same tables, each with a handle of its own on them and a room
 * of its own. Two of them also judge a file by these tables. The results are those of one thread. The first handle on
 * the tables is freed while they work, and a room is made in one thread and read in another. Then eight threads use the
 * same handle on tables and the same three rooms at once: by every look-up, and by layouts, judges and reports with
 * these tables. The rooms have one text in code points, in UTF-8 and in UTF-16. */
#include "bidi.h"
#include "read_file.h"
#include <pthread.h>
#include <string.h>
#define THREADS 8
#define TEXTS 40
#define LENGTH 64
#define UNITS (3 * LENGTH)
#define SHARED 39 /* the number of the text in the shared rooms */

/* The result of a text: its levels and the line as it is shown. */
typedef struct {
  size_t levels_count, shown_count;
  uint8_t levels[LENGTH];
  uint32_t shown[LENGTH];
} answer;

typedef struct {
  pthread_t thread;
  bidi_tables tables;
  bidi_room room;
  bool judges;
  size_t wrong;
} worker;

static answer expected[TEXTS];

/* A text in three encodings. Each of its characters is one unit of UTF-16. */
typedef struct {
  size_t n, bytes;
  uint32_t codes[LENGTH];
  uint16_t utf16[LENGTH];
  uint8_t utf8[UNITS];
} encodings;

static encodings text; /* the one in the shared rooms */

/* Makes the text with this number, of letters of both directions, digits, brackets and signs. */
static size_t text_of(size_t number, uint32_t *codes) {
  static const uint32_t some[] = { 'a', 0x5D0, ' ', '(', ')', '1', 0x5D1, 'b', '+', '[', ']', 0x202B, 0x202C, '-' };
  size_t n = 8 + number % (LENGTH - 8);
  uint64_t state = number + 1;
  for (size_t i = 0; i < n; i++) {
    state = state * 6364136223846793005u + 1442695040888963407u;
    codes[i] = some[(state >> 33) % (sizeof some / sizeof *some)];
  }
  return n;
}

/* Writes characters of at most 16 bits in UTF-8, and returns the number of bytes. */
static size_t utf8_of(const uint32_t *codes, size_t n, uint8_t *utf8) {
  size_t count = 0;
  for (size_t i = 0; i < n; i++) {
    uint32_t code = codes[i];
    if (code >= 0x800) utf8[count++] = 0xE0 | code >> 12;
    if (code >= 0x80) utf8[count++] = code >= 0x800 ? 0x80 | (code >> 6 & 0x3F) : 0xC0 | code >> 6;
    utf8[count++] = code >= 0x80 ? 0x80 | (code & 0x3F) : code;
  }
  return count;
}

static void encode(size_t number, encodings *it) {
  it->n = text_of(number, it->codes);
  it->bytes = utf8_of(it->codes, it->n, it->utf8);
  for (size_t i = 0; i < it->n; i++) it->utf16[i] = it->codes[i];
}

/* Reads the text with this number, which the room has laid out. */
static void read_out(const bidi_room *room, const bidi_tables *tables, size_t number, answer *found) {
  uint32_t codes[LENGTH];
  size_t n = text_of(number, codes);
  memset(found, 0, sizeof *found);
  found->levels_count = bidi_levels(room, found->levels, LENGTH);
  found->shown_count = bidi_shown(room, tables, codes, n, 0, found->shown, LENGTH);
}

static bool lays_out(bidi_room *room, const bidi_tables *tables, size_t number, answer *found) {
  const size_t none[1] = { 0 };
  uint32_t codes[LENGTH];
  size_t n = text_of(number, codes);
  uint64_t place;
  if (bidi_lay_out(room, tables, codes, n, number % 4, none, 0, &place)) return false;
  read_out(room, tables, number, found);
  return true;
}

static bool lays_out_utf8(bidi_room *room, const bidi_tables *tables, size_t number, answer *found) {
  encodings it;
  uint64_t place;
  encode(number, &it);
  if (bidi_lay_out_utf8(room, tables, it.utf8, it.bytes, number % 4, NULL, 0, &place)) return false;
  read_out(room, tables, number, found);
  return true;
}

static bool judges_right(const bidi_tables *tables) {
  static const char row[] = "0061 05D0;2;0;0 1;0 1\n";
  bidi_judge judge = BIDI_NONE;
  bidi_verdict verdict;
  if (bidi_judge_new_characters(tables, &judge)) return false;
  for (size_t i = 0; i < 20; i++) bidi_judge_feed(&judge, (const uint8_t *)row, sizeof row - 1);
  return bidi_judge_finish(&judge, &verdict) == BIDI_DONE && verdict.answer == BIDI_YES && verdict.rows == 20;
}

static bool reports_right(const bidi_tables *tables) {
  static const char row[] = "0061 05D0;2;0;0 1;1 0\n"; /* its order is wrong */
  bidi_report report = BIDI_NONE;
  bidi_wrong_case item;
  bidi_counts counts = { 0 };
  size_t used;
  if (bidi_report_new_characters(tables, &report)) return false;
  bool right = bidi_report_feed(&report, (const uint8_t *)row, sizeof row - 1, &used) == BIDI_DONE
    && bidi_report_next(&report, &item) == BIDI_DONE && item.place == BIDI_WRONG_ORDER
    && bidi_report_finish(&report, &counts) == BIDI_DONE && counts.wrong_cases == 1;
  bidi_report_free(&report);
  return right;
}

static void *work(void *passed) {
  worker *self = passed;
  for (size_t round = 0; round < 20; round++) {
    for (size_t number = 0; number < TEXTS; number++) {
      answer found;
      if (!lays_out(&self->room, &self->tables, number, &found) || memcmp(&found, &expected[number], sizeof found))
        self->wrong++;
    }
    if (self->judges && !judges_right(&self->tables)) self->wrong++;
  }
  bidi_tables_free(&self->tables);
  return NULL;
}

/* What all readers share: a handle on tables, and rooms with the text in code points, in UTF-8 and in UTF-16. */
typedef struct {
  const bidi_tables *tables;
  const bidi_room *codes, *utf8, *utf16;
} shared_handles;

/* A thread that reads them, with rooms of its own. */
typedef struct {
  pthread_t thread;
  const shared_handles *shared;
  bidi_room own, own_encoded;
  size_t wrong;
} reader;

/* Each function that looks up returns how many results are wrong. This one looks up characters by the tables, and in
 * characters what a shared room of any kind has of its text. */
static size_t look_up(const bidi_tables *tables, const bidi_room *room, const answer *found) {
  uint8_t number, levels[LENGTH];
  bidi_line_t line = { 0 };
  bidi_run_t run;
  size_t order[LENGTH], wrong = bidi_mirror(tables, '(') != ')' || bidi_paired_bracket(tables, '(') != ')';
  wrong += bidi_class(tables, 0x5D0, &number) || number != 1;
  wrong += bidi_bracket(tables, ')', &number) || number != BIDI_CLOSING;
  wrong += bidi_order(room, 0, order, LENGTH) != found->shown_count;
  wrong += bidi_places(room, 0, order, LENGTH) != found->levels_count;
  wrong += bidi_whole_levels(room, levels, LENGTH) != found->levels_count;
  wrong += bidi_resolved_levels(room, levels, LENGTH) != found->levels_count;
  wrong += bidi_para_levels(room, levels, LENGTH) != 1 || bidi_room_size(room) < found->levels_count;
  wrong += bidi_line_count(room) != 1 || bidi_line(room, 0, &line) || line.shown != found->shown_count;
  return wrong + (bidi_run(room, 0, 0, &run) || bidi_runs(room, 0, NULL, 0) == 0);
}

/* Looks up the classes and brackets of the text, and its levels without a layout, by the tables. */
static size_t look_up_text(const bidi_tables *tables, uint8_t para_level) {
  uint8_t level[3] = { 9, 9, 9 }, levels[3][LENGTH] = { { 0 } }, stays[3] = { 9, 9, 9 };
  uint8_t classes[LENGTH], brackets[LENGTH], number;
  size_t n = text.n, m = text.bytes, count[3] = { 9, 9, 9 }, wrong = 0;
  uint32_t direction = SHARED % 4;
  uint64_t place;
  wrong += bidi_base_level(tables, text.codes, n, direction, &level[0], &place) != BIDI_DONE;
  wrong += bidi_base_level_utf8(tables, text.utf8, m, direction, &level[1], &place) != BIDI_DONE;
  wrong += bidi_base_level_utf16(tables, text.utf16, n, direction, &level[2], &place) != BIDI_DONE;
  wrong += bidi_base_levels(tables, text.codes, n, direction, levels[0], LENGTH, &count[0], &place) != BIDI_DONE;
  wrong += bidi_base_levels_utf8(tables, text.utf8, m, direction, levels[1], LENGTH, &count[1], &place) != BIDI_DONE;
  wrong += bidi_base_levels_utf16(tables, text.utf16, n, direction, levels[2], LENGTH, &count[2], &place) != BIDI_DONE;
  wrong += bidi_is_left_to_right(tables, text.codes, n, &stays[0], &place) != BIDI_DONE;
  wrong += bidi_is_left_to_right_utf8(tables, text.utf8, m, &stays[1], &place) != BIDI_DONE;
  wrong += bidi_is_left_to_right_utf16(tables, text.utf16, n, &stays[2], &place) != BIDI_DONE;
  for (size_t i = 0; i < 3; i++)
    wrong += level[i] != para_level || count[i] != 1 || levels[i][0] != para_level || stays[i];
  wrong += bidi_classes(tables, text.codes, n, classes, LENGTH, brackets, LENGTH, &place) != BIDI_DONE;
  for (size_t i = 0; i < n; i++) {
    wrong += bidi_class(tables, text.codes[i], &number) || number != classes[i];
    wrong += bidi_bracket(tables, text.codes[i], &number) || number != brackets[i];
  }
  return wrong;
}

/* Looks up the line of an encoded room and its runs: they are those in characters, at the offsets of these. */
static size_t look_up_runs(const bidi_room *room, size_t units) {
  bidi_line_t line = { 0 };
  bidi_run_t run, runs[LENGTH], unit_run, unit_runs[UNITS];
  size_t count = bidi_runs(room, 0, runs, LENGTH), wrong = bidi_encoded_runs(room, 0, unit_runs, UNITS) != count;
  for (size_t i = 0; i < count && !wrong; i++) {
    size_t start = bidi_offset_of(room, runs[i].start), end = bidi_offset_of(room, runs[i].start + runs[i].length);
    wrong += unit_runs[i].start != start || unit_runs[i].length != end - start || unit_runs[i].level != runs[i].level;
  }
  wrong += bidi_encoded_line(room, 0, &line) || line.start != 0 || line.end != units;
  wrong += bidi_run(room, 0, 0, &run) || bidi_encoded_run(room, 0, 0, &unit_run);
  return wrong + (wrong == 0 && unit_run.start != bidi_offset_of(room, run.start));
}

/* Looks up in code units what an encoded room has: each unit has what its character has. */
static size_t look_up_units(const bidi_room *room) {
  uint8_t levels[LENGTH], unit_levels[UNITS], para_level = 9;
  size_t order[LENGTH], places[LENGTH], offsets[UNITS], unit_places[UNITS], wrong = 0;
  size_t n = bidi_levels(room, levels, LENGTH), units = bidi_encoded_levels(room, unit_levels, UNITS);
  wrong += bidi_places(room, 0, places, LENGTH) != n || bidi_para_levels(room, &para_level, 1) != 1;
  wrong += bidi_encoded_places(room, 0, unit_places, UNITS) != units || bidi_index_of(room, units) != n;
  for (size_t at = 0; at < units && !wrong; at++) {
    size_t index = bidi_index_of(room, at);
    wrong += bidi_offset_of(room, index) > at || bidi_offset_of(room, index + 1) <= at;
    wrong += unit_levels[at] != levels[index] || bidi_level_at(room, at) != levels[index];
    wrong += unit_places[at] != places[index] || bidi_encoded_para_level_at(room, at) != para_level;
  }
  size_t shown = bidi_order(room, 0, order, LENGTH);
  wrong += bidi_encoded_order(room, 0, offsets, UNITS) != shown;
  for (size_t i = 0; i < shown && !wrong; i++) wrong += offsets[i] != bidi_offset_of(room, order[i]);
  return wrong + look_up_runs(room, units);
}

/* Looks up the line of both encoded rooms as it is shown. */
static size_t look_up_shown(const shared_handles *shared, const answer *found) {
  uint8_t shown_utf8[UNITS], expected_utf8[UNITS];
  uint16_t shown_utf16[LENGTH];
  size_t n = utf8_of(found->shown, found->shown_count, expected_utf8), wrong = 0;
  wrong += bidi_encoded_shown_utf8(shared->utf8, shared->tables, text.utf8, text.bytes, 0, shown_utf8, UNITS) != n
    || memcmp(shown_utf8, expected_utf8, n);
  n = bidi_encoded_shown_utf16(shared->utf16, shared->tables, text.utf16, text.n, 0, shown_utf16, LENGTH);
  wrong += n != found->shown_count;
  for (size_t i = 0; i < n && !wrong; i++) wrong += shown_utf16[i] != found->shown[i];
  return wrong;
}

static size_t look_up_all(const shared_handles *shared) {
  const bidi_room *rooms[] = { shared->codes, shared->utf8, shared->utf16 };
  size_t wrong = look_up_units(shared->utf8) + look_up_units(shared->utf16);
  answer found;
  uint8_t para_level = 9;
  for (size_t i = 0; i < 3; i++) {
    read_out(rooms[i], shared->tables, SHARED, &found);
    wrong += memcmp(&found, &expected[SHARED], sizeof found) != 0;
    wrong += look_up(shared->tables, rooms[i], &found);
  }
  bidi_para_levels(shared->codes, &para_level, 1);
  return wrong + look_up_text(shared->tables, para_level) + look_up_shown(shared, &found);
}

static void *read_shared(void *passed) {
  reader *self = passed;
  const bidi_tables *tables = self->shared->tables;
  for (size_t round = 0; round < 400; round++) {
    bidi_tables another = BIDI_NONE;
    answer own;
    size_t number = round % TEXTS;
    self->wrong += look_up_all(self->shared);
    self->wrong += round % 100 == 0 && !(judges_right(tables) && reports_right(tables));
    self->wrong += !lays_out(&self->own, tables, number, &own) || memcmp(&own, &expected[number], sizeof own);
    self->wrong += !lays_out_utf8(&self->own_encoded, tables, number, &own)
      || memcmp(&own, &expected[number], sizeof own);
    self->wrong += bidi_tables_share(tables, &another) || bidi_mirror(&another, '(') != ')';
    bidi_tables_free(&another);
  }
  return NULL;
}

/* How many results of these threads are wrong. */
static size_t read_at_once(const shared_handles *shared) {
  static reader readers[THREADS];
  size_t wrong = 0;
  for (size_t i = 0; i < THREADS; i++) {
    reader *it = &readers[i];
    it->shared = shared;
    if (bidi_room_new(LENGTH, &it->own) || bidi_room_new_encoded(UNITS, &it->own_encoded)) exit(2);
    if (pthread_create(&it->thread, NULL, read_shared, it)) exit(2);
  }
  for (size_t i = 0; i < THREADS; i++) {
    pthread_join(readers[i].thread, NULL);
    wrong += readers[i].wrong;
    bidi_room_free(&readers[i].own);
    bidi_room_free(&readers[i].own_encoded);
  }
  return wrong;
}

/* Lays the text out in a room for each encoding, and returns how many results are wrong of the threads that read
 * them. */
static size_t share_rooms(const bidi_tables *tables, bidi_room *room) {
  bidi_room utf8 = BIDI_NONE, utf16 = BIDI_NONE;
  const shared_handles shared = { tables, room, &utf8, &utf16 };
  answer found;
  uint64_t place;
  encode(SHARED, &text);
  if (bidi_room_new_encoded(UNITS, &utf8) || bidi_room_new_encoded(LENGTH, &utf16)) exit(2);
  size_t wrong = !lays_out(room, tables, SHARED, &found) || !lays_out_utf8(&utf8, tables, SHARED, &found);
  wrong += bidi_lay_out_utf16(&utf16, tables, text.utf16, text.n, SHARED % 4, NULL, 0, &place) != BIDI_DONE;
  wrong += read_at_once(&shared);
  bidi_room_free(&utf8);
  bidi_room_free(&utf16);
  return wrong;
}

int main(int argc, char **argv) {
  bidi_tables tables = BIDI_NONE;
  bidi_room room = BIDI_NONE;
  bidi_fault fault;
  static worker workers[THREADS];
  size_t wrong = 0;
  if (read_tables(argc > 1 ? argv[1] : "ucd", &tables, &fault) || bidi_room_new(LENGTH, &room)) return 2;
  for (size_t number = 0; number < TEXTS; number++) wrong += !lays_out(&room, &tables, number, &expected[number]);
  for (size_t i = 0; i < THREADS; i++) {
    worker *it = &workers[i];
    it->judges = i < 2;
    if (bidi_tables_share(&tables, &it->tables) || bidi_room_new(LENGTH, &it->room)) return 2;
    if (pthread_create(&it->thread, NULL, work, it)) return 2;
  }
  bidi_tables shared_tables = BIDI_NONE;
  if (bidi_tables_share(&tables, &shared_tables)) return 2;
  bidi_tables_free(&tables);
  for (size_t i = 0; i < THREADS; i++) {
    uint8_t levels[LENGTH];
    pthread_join(workers[i].thread, NULL);
    size_t n = bidi_levels(&workers[i].room, levels, LENGTH);
    answer *last = &expected[TEXTS - 1];
    wrong += workers[i].wrong + (n != last->levels_count || memcmp(levels, last->levels, n));
    bidi_room_free(&workers[i].room);
  }
  printf("threads %d, texts %d: %zu wrong\n", THREADS, TEXTS, wrong);
  size_t wrong_read = share_rooms(&shared_tables, &room);
  printf("threads %d, shared rooms and one handle on tables: %zu wrong\n", THREADS, wrong_read);
  bidi_room_free(&room);
  bidi_tables_free(&shared_tables);
  return wrong + wrong_read != 0;
}
