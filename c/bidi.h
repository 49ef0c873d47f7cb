/* bidi.h: the Unicode Bidirectional Algorithm (UAX #9, P1 to L2, L4) and a judge of its conformance files, proved.
 *
 * Link with what `pkg-config --libs bidi_c` prints (with `--static` if only the archives are installed), or link
 * program.o libbidi_c.a libbidi_c_heap.a. The second archive has malloc, realloc and free under the names that the
 * first one calls; before it is installed it is liblibc_c.a of the kit, and for aarch64 c/heap.c. The manual is
 * share/doc/bidi/docs/C.md below the prefix, and docs/C.md of the source. The contracts of crates/bidi_c say what is
 * proved of each call.
 *
 * Preconditions (unchecked), each with what goes wrong otherwise:
 *  - A handle (bidi_tables, bidi_room, bidi_judge, bidi_report) is BIDI_NONE before its first call, and only these
 *    calls change it. Otherwise a call follows an invalid pointer.
 *  - A handle that is not empty is not copied; pass its address. Otherwise its contents are used after they were freed.
 *    (bidi_tables_share makes another handle on the same tables.)
 *  - A handle that is not empty is freed by its call. Otherwise its memory is lost, and nothing worse.
 *  - While a call uses a handle that it does not take as `const`, no other call uses that handle. Otherwise a call
 *    reads what another one writes. Any number of calls that take a handle as `const` may run at once, in any threads.
 *    (It is proved that such a call leaves the handle's contents unchanged. That such calls may run at once is tested,
 *    not proved: their code writes only the counts of owners of tables, which are atomic.)
 *  - Between calls a handle may move to another thread (`Send` is proved of it) if that thread sees what the first one
 *    did, as after a lock, a start, a join or a sequentially consistent atomic. Otherwise: as above.
 *  - Each pointer points to as many items as its length says, and is aligned for its type. If the length is 0, it may
 *    be null. Otherwise memory that is not the caller's is read or written.
 *  - What a call writes is used by no other argument of it. What it only reads may overlap. Otherwise what is written
 *    is not what the contracts say.
 *  - No call is made from a signal handler, or in a forked child of a process with threads. Otherwise malloc may be
 *    stuck.
 *  - malloc, realloc and free are of one allocator, and align to 16 if the size allows it, as the C library's do.
 *
 * No call blocks, aborts, or stores a pointer that it was passed. Layouts, look-ups, bidi_judge_feed, bidi_judge_finish
 * and all calls on a report once it is made take no memory. bidi_verdict_text frees what it takes.
 */
#ifndef BIDI_H
#define BIDI_H
/* The version of this header. */
#define BIDI_VERSION "1.1.0"
#define BIDI_VERSION_MAJOR 1
#define BIDI_VERSION_MINOR 1
#define BIDI_VERSION_PATCH 0
/* The edition of Unicode whose tables are built in. */
#define BIDI_EDITION "17.0.0"
/* bidi_version and bidi_edition write those of the library. */
#include <stdbool.h>
#include <stddef.h>
#include <stdint.h>
#ifdef __cplusplus
extern "C" {
#endif

/* Handles: for tables, for a room for texts with the layout of the last one, and for a judge of a test file. That for a
 * report on a test file comes below. */
typedef struct { void *at; bool made; } bidi_tables;
typedef struct { void *at; bool made; } bidi_room;
typedef struct { void *at; bool made; } bidi_judge;
#define BIDI_NONE { 0, false }

/* Statuses. A number never changes its meaning; new ones may come. A call that fails changes only the place, the fault
 * or the length that it names. After BIDI_DONE place and fault are unchanged. */
enum {
  BIDI_DONE = 0,
  BIDI_MEMORY = 1,             /* an allocation failed */
  BIDI_TOO_BIG = 2,            /* a room for more than 16,777,216 code points or code units */
  BIDI_TOO_LONG = 3,           /* the text is longer than the room */
  BIDI_NO_CHARACTER = 4,       /* place: index of the first code point that is no scalar value */
  BIDI_NO_CLASS = 5,           /* place: index of the first number that is no class, of units no class or bracket */
  BIDI_BREAK_OUT_OF_RANGE = 6, /* place: index of the first faulty break, which is 0 or not below the length */
  BIDI_BREAK_NOT_RISING = 7,   /* place: index of the first faulty break, which is not above the one before */
  BIDI_NO_DIRECTION = 8,       /* the number is no direction */
  BIDI_NO_ROOM = 9,            /* the handle contains no room of the kind that the call takes */
  BIDI_NO_TABLES = 10,         /* the handle contains no tables */
  BIDI_NO_LINE = 11,           /* no line has the number */
  BIDI_CLASS_FILE = 12,        /* fault: of DerivedBidiClass.txt */
  BIDI_BRACKET_FILE = 13,      /* fault: of BidiBrackets.txt */
  BIDI_MIRROR_FILE = 14,       /* fault: of BidiMirroring.txt */
  BIDI_NO_PLACE = 15,          /* the line has no such place */
  BIDI_NO_JUDGE = 16,          /* the handle contains no judge */
  BIDI_DEPTH = 17,             /* the given depth is 0 or above 125 */
  BIDI_BRACKETS = 18,          /* the depth is allowed, and the given number of brackets is above 63 */
  BIDI_NO_VERDICT = 19,        /* the numbers encode no verdict */
  BIDI_TOO_SMALL = 20,         /* the result has more items than the array takes */
  BIDI_LINE_NOT_FORWARD = 21,  /* the line does not start below its end */
  BIDI_LINE_BEYOND_TEXT = 22,  /* it starts below its end, which is after the end of the text */
  BIDI_LINE_CROSSES = 23,      /* it is within the text, and goes on after the end of a paragraph */
  BIDI_ILL_FORMED = 24,        /* place: offset of the first code unit that is not part of a character */
  BIDI_BREAK_INSIDE = 25,      /* place: index of the first break that is inside a character */
  BIDI_NO_REPORT = 26,         /* the handle contains no report, or one whose file has ended if more of it is passed */
  BIDI_NO_CASE = 27,           /* all wrong cases that were found last have been returned */
  BIDI_CASES_LEFT = 28,        /* not all wrong cases that were found last have been returned */
  BIDI_NO_LEVEL = 29           /* place: index of the first number that is above the greatest level, 126 */
};

/* Directions: that of all paragraphs, or of each by its first strong character (P2, P3). If it has none, BIDI_AUTO
 * takes left-to-right and BIDI_AUTO_RTL right-to-left. */
enum { BIDI_LTR = 0, BIDI_RTL = 1, BIDI_AUTO = 2, BIDI_AUTO_RTL = 3 };

/* Limits: how deep explicit levels go (BD2), 1 to 125, and how many brackets can be open at once (BD16), 0 to 63; with
 * 0 no pair counts. Calls without limits take the standard's, 125 and 63. Depth is checked before brackets, and both
 * before everything else. */
typedef struct { uint8_t depth, brackets; } bidi_limits;

#define BIDI_REMOVED 255       /* the level of a position that X9 removes */
#define BIDI_NOWHERE SIZE_MAX  /* the place of a position that X9 removes */

/* The fault of a property file: the number of its first faulty line, from 1, and the kind of fault. */
typedef struct { uint64_t line; uint32_t kind; } bidi_fault;
enum {
  BIDI_FAULT_CODE_POINT = 1,    /* a field is no code point of 4 to 6 upper-case hex digits */
  BIDI_FAULT_BACKWARDS = 2,     /* a range ends below its start */
  BIDI_FAULT_CLASS_NAME = 3,    /* a field is no name of a class */
  BIDI_FAULT_FIELDS = 4,        /* a line has another number of fields than the file has */
  BIDI_FAULT_OVERLAP = 5,       /* a line of classes has a code point of an earlier one */
  BIDI_FAULT_TWICE = 6,         /* a line of brackets or mirrored characters has the character of an earlier one */
  BIDI_FAULT_BRACKET_KIND = 7,  /* the third field of a bracket's line is neither o nor c */
  BIDI_FAULT_LINE_TOO_LONG = 8, /* a line has more than 65,536 bytes */
  BIDI_FAULT_TOO_MANY = 9       /* too many lines of data or of defaults */
};

/* Makes tables from the bytes of DerivedBidiClass.txt, BidiBrackets.txt and BidiMirroring.txt. What `tables` contained
 * before is freed after that. */
uint32_t bidi_tables_new(const uint8_t *classes, size_t classes_len, const uint8_t *brackets, size_t brackets_len,
                         const uint8_t *mirrors, size_t mirrors_len, bidi_tables *tables, bidi_fault *fault);
/* bidi_tables_standard puts the tables of the built-in edition of Unicode into a handle. They are constants: nothing is
 * read, and memory is taken for the handle alone. bidi_edition writes the number of that edition to `text`, as 17.0.0,
 * if it fits there, with no zero after it. It returns how many bytes the number has. */
uint32_t bidi_tables_standard(bidi_tables *tables);
size_t bidi_edition(uint8_t *text, size_t capacity);
/* Writes the version of the library, as 1.1.0, in the same way. */
size_t bidi_version(uint8_t *text, size_t capacity);
/* Makes `shared` another handle on the same tables, which stays valid when `tables` is freed. What `shared` contained
 * before is freed. The tables are freed with the last of their owners: handles, judges and reports. */
uint32_t bidi_tables_share(const bidi_tables *tables, bidi_tables *shared);
void bidi_tables_free(bidi_tables *tables);
/* Returns the mirrored character of a code point (L4), or the code point itself if it has none. */
uint32_t bidi_mirror(const bidi_tables *tables, uint32_t code);
/* Writes the class of a code point in the tables: its number, as bidi_lay_out_classes takes it. Fails with
 * BIDI_NO_TABLES; then with BIDI_NO_CHARACTER if `code` is no scalar value. */
uint32_t bidi_class(const bidi_tables *tables, uint32_t code, uint8_t *class_number);
/* Writes what a code point is as a bracket in the tables (BD14, BD15): BIDI_NO_BRACKET, BIDI_OPENING or BIDI_CLOSING.
 * Fails as bidi_class does. */
enum { BIDI_NO_BRACKET = 0, BIDI_OPENING = 1, BIDI_CLOSING = 2 };
uint32_t bidi_bracket(const bidi_tables *tables, uint32_t code, uint8_t *bracket);

/* What is known of a text of code points without a layout. bidi_base_level writes the level of its first paragraph (P1
 * to P3), 0 or 1. bidi_is_left_to_right writes 1 if the text has only classes that stay at level 0, neither R, AL nor
 * AN, and no initiator, else 0. If 1, all of its levels are 0, unless the caller asks for right-to-left paragraphs.
 * They return the first of these errors: BIDI_NO_TABLES; BIDI_NO_DIRECTION, only from bidi_base_level;
 * BIDI_NO_CHARACTER, whose index is `place`. The result is unchanged then. No memory is taken. */
uint32_t bidi_base_level(const bidi_tables *tables, const uint32_t *codes, size_t n, uint32_t direction, uint8_t *level,
                         uint64_t *place);
uint32_t bidi_is_left_to_right(const bidi_tables *tables, const uint32_t *codes, size_t n, uint8_t *stays,
                               uint64_t *place);
/* Writes the level of each of a text's paragraphs, in their order, if all fit. `count` is how many there are, no more
 * than n. Fails as bidi_base_level does; `levels` and `count` are unchanged then. */
uint32_t bidi_base_levels(const bidi_tables *tables, const uint32_t *codes, size_t n, uint32_t direction,
                          uint8_t *levels, size_t capacity, size_t *count, uint64_t *place);
/* Do the same for a text in UTF-8 or UTF-16. They fail with BIDI_ILL_FORMED in place of BIDI_NO_CHARACTER; `place` is
 * then the offset of the first code unit that is not part of a character. */
uint32_t bidi_base_level_utf8(const bidi_tables *tables, const uint8_t *text, size_t n, uint32_t direction,
                              uint8_t *level, uint64_t *place);
uint32_t bidi_base_level_utf16(const bidi_tables *tables, const uint16_t *text, size_t n, uint32_t direction,
                               uint8_t *level, uint64_t *place);
uint32_t bidi_base_levels_utf8(const bidi_tables *tables, const uint8_t *text, size_t n, uint32_t direction,
                               uint8_t *levels, size_t capacity, size_t *count, uint64_t *place);
uint32_t bidi_base_levels_utf16(const bidi_tables *tables, const uint16_t *text, size_t n, uint32_t direction,
                                uint8_t *levels, size_t capacity, size_t *count, uint64_t *place);
uint32_t bidi_is_left_to_right_utf8(const bidi_tables *tables, const uint8_t *text, size_t n, uint8_t *stays,
                                    uint64_t *place);
uint32_t bidi_is_left_to_right_utf16(const bidi_tables *tables, const uint16_t *text, size_t n, uint8_t *stays,
                                     uint64_t *place);

/* Makes a room for texts of up to n code points, 100 bytes for each. What `room` contained before is freed after
 * that. */
uint32_t bidi_room_new(size_t n, bidi_room *room);
void bidi_room_free(bidi_room *room);
/* Returns the n that the room was made for, 0 without a room. */
size_t bidi_room_size(const bidi_room *room);

/* Lays out a text of code points (P1 to L2). Lines begin at its start, after each paragraph separator, and at each of
 * `breaks`: positions of the text, rising, none 0, all below n. */
uint32_t bidi_lay_out(bidi_room *room, const bidi_tables *tables, const uint32_t *codes, size_t n, uint32_t direction,
                      const size_t *breaks, size_t break_count, uint64_t *place);

/* Does the same by the given limits. */
uint32_t bidi_lay_out_with(bidi_room *room, const bidi_tables *tables, const uint32_t *codes, size_t n,
                           uint32_t direction, const size_t *breaks, size_t break_count, bidi_limits limits,
                           uint64_t *place);

/* Do the same for a text of classes, which has no brackets. Classes by number, from 0:
 * L R AL EN ES ET AN CS NSM BN B S WS ON LRE LRO RLE RLO PDF LRI RLI FSI PDI. */
uint32_t bidi_lay_out_classes(bidi_room *room, const uint8_t *classes, size_t n, uint32_t direction,
                              const size_t *breaks, size_t break_count, uint64_t *place);
uint32_t bidi_lay_out_classes_with(bidi_room *room, const uint8_t *classes, size_t n, uint32_t direction,
                                   const size_t *breaks, size_t break_count, bidi_limits limits, uint64_t *place);

/* Breaks the text that was laid out last into other lines (L1, L2). Its levels before L1, its direction and its limits
 * stay. For callers that shape a text and know only then where its lines end. */
uint32_t bidi_set_lines(bidi_room *room, const size_t *breaks, size_t break_count, uint64_t *place);

/* Lays out one line alone of that text, [start, end) (L1, L2), at the cost of that line, wherever its other lines end.
 * Writes the level of each of its positions, its shown positions from left to right, as positions of the whole text,
 * and how many these are. Both arrays must take end - start items. The room is unchanged, also its lines. Fails with
 * BIDI_NO_ROOM, BIDI_TOO_SMALL, or one of BIDI_LINE_..; nothing is written then. */
uint32_t bidi_line_of(bidi_room *room, size_t start, size_t end, uint8_t *levels, size_t level_capacity, size_t *order,
                      size_t order_capacity, size_t *shown);

/* Look-ups of what was laid out last. Each returns how many items there are, 0 if there is nothing to look up, and
 * writes them only if all fit. */
size_t bidi_levels(const bidi_room *room, uint8_t *levels, size_t capacity);      /* after L1, of each code point */
size_t bidi_para_levels(const bidi_room *room, uint8_t *levels, size_t capacity); /* P2, P3, of each paragraph */
size_t bidi_line_count(const bidi_room *room);

/* Writes line k, from 0: [start, end) of the text, and how many of its positions are shown (X9 removes the others). */
typedef struct { size_t start, end, shown; } bidi_line_t;
uint32_t bidi_line(const bidi_room *room, size_t k, bidi_line_t *line);
/* Writes its shown positions, those of the whole text, from left to right (L2): the map from places to positions. */
size_t bidi_order(const bidi_room *room, size_t k, size_t *order, size_t capacity);
/* Writes the place from the left of each of its positions, from `start` on: the map from positions to places. */
size_t bidi_places(const bidi_room *room, size_t k, size_t *places, size_t capacity);

/* Writes the visual run of line k that begins at the place `from`: positions [start, start + length) of one level, with
 * removed ones between them, but not beside them. They are at the `shown` places from there. One run after another:
 *   for (size_t at = 0; bidi_run(&room, k, at, &run) == BIDI_DONE; at += run.shown) */
typedef struct { size_t start, length, shown; uint8_t level; } bidi_run_t;
uint32_t bidi_run(const bidi_room *room, size_t k, size_t from, bidi_run_t *run);
/* Writes all visual runs of line k from left to right, as bidi_order writes positions. They cover the line: each of its
 * positions is in exactly one of them. A removed position (X9) has the level of its line's next position that remains,
 * else that of the paragraph, so a run may begin and end with such positions. Those at the line's end that join no run
 * are a run of their own, with `shown` 0: the leftmost if the paragraph's level is 1, else the rightmost. */
size_t bidi_runs(const bidi_room *room, size_t k, bidi_run_t *runs, size_t capacity);

/* Writes line k as it is shown, from left to right, mirrored by the tables if the level is odd (L4). `codes` is the
 * whole text that was laid out. Returns 0 for a text of another length. */
size_t bidi_shown(const bidi_room *room, const bidi_tables *tables, const uint32_t *codes, size_t n, size_t k,
                  uint32_t *shown, size_t capacity);

/* Texts in UTF-8 and UTF-16, in offsets: the number of code units (bytes, or 16 bits) before something. */

/* Makes a room for such texts of up to n code units, 128 bytes for each. It takes only texts in code units, and the
 * rooms above take none. bidi_set_lines and bidi_line_of take no such room. All look-ups above do, and count in
 * characters. */
uint32_t bidi_room_new_encoded(size_t n, bidi_room *room);

/* Lay out a text in UTF-8 or UTF-16 as bidi_lay_out does one of code points. `breaks` are offsets, each at the start of
 * a character: rising, none 0, all below n. They return the first of these errors: BIDI_TOO_LONG; BIDI_ILL_FORMED; a
 * break out of range or not rising; BIDI_BREAK_INSIDE. The lossy calls read U+FFFD where a text is ill-formed: in UTF-8
 * for each maximal subpart (of the bytes there, all that could begin a character, or else one), in UTF-16 for each lone
 * surrogate. No break may be inside such a part. */
uint32_t bidi_lay_out_utf8(bidi_room *room, const bidi_tables *tables, const uint8_t *text, size_t n,
                           uint32_t direction, const size_t *breaks, size_t break_count, uint64_t *place);
uint32_t bidi_lay_out_utf8_lossy(bidi_room *room, const bidi_tables *tables, const uint8_t *text, size_t n,
                                 uint32_t direction, const size_t *breaks, size_t break_count, uint64_t *place);
uint32_t bidi_lay_out_utf16(bidi_room *room, const bidi_tables *tables, const uint16_t *text, size_t n,
                            uint32_t direction, const size_t *breaks, size_t break_count, uint64_t *place);
uint32_t bidi_lay_out_utf16_lossy(bidi_room *room, const bidi_tables *tables, const uint16_t *text, size_t n,
                                  uint32_t direction, const size_t *breaks, size_t break_count, uint64_t *place);

/* Do the same by the given limits. */
uint32_t bidi_lay_out_utf8_with(bidi_room *room, const bidi_tables *tables, const uint8_t *text, size_t n,
                                uint32_t direction, const size_t *breaks, size_t break_count, bidi_limits limits,
                                uint64_t *place);
uint32_t bidi_lay_out_utf8_lossy_with(bidi_room *room, const bidi_tables *tables, const uint8_t *text, size_t n,
                                      uint32_t direction, const size_t *breaks, size_t break_count, bidi_limits limits,
                                      uint64_t *place);
uint32_t bidi_lay_out_utf16_with(bidi_room *room, const bidi_tables *tables, const uint16_t *text, size_t n,
                                 uint32_t direction, const size_t *breaks, size_t break_count, bidi_limits limits,
                                 uint64_t *place);
uint32_t bidi_lay_out_utf16_lossy_with(bidi_room *room, const bidi_tables *tables, const uint16_t *text, size_t n,
                                       uint32_t direction, const size_t *breaks, size_t break_count, bidi_limits limits,
                                       uint64_t *place);

/* Breaks the text of the room into other lines as bidi_set_lines does, but at offsets. Fails for breaks as the calls
 * above do; the lines are unchanged then. */
uint32_t bidi_encoded_set_lines(bidi_room *room, const size_t *breaks, size_t break_count, uint64_t *place);

/* bidi_index_of returns the index of the character that the code unit at an offset belongs to, from the text's end on
 * the number of its characters. bidi_offset_of returns the offset at which a character begins, after the last one that
 * of the text's end. Without such a room both return 0. */
size_t bidi_index_of(const bidi_room *room, size_t offset);
size_t bidi_offset_of(const bidi_room *room, size_t index);
/* bidi_level_at returns the level of the code unit at an offset, that of its character: BIDI_REMOVED if X9 removes it,
 * or there is no such code unit. bidi_encoded_levels writes all of them as bidi_levels does those of characters. */
uint8_t bidi_level_at(const bidi_room *room, size_t offset);
size_t bidi_encoded_levels(const bidi_room *room, uint8_t *levels, size_t capacity);
/* Writes line k as bidi_line does, but with `start` and `end` in offsets. */
uint32_t bidi_encoded_line(const bidi_room *room, size_t k, bidi_line_t *line);
/* Writes the offsets at which the shown characters of line k begin, from left to right (L2), as bidi_order writes their
 * indices. */
size_t bidi_encoded_order(const bidi_room *room, size_t k, size_t *order, size_t capacity);
/* Writes the visual run of line k that begins at the place `from`, as bidi_run does, but with `start` and `length` in
 * code units. */
uint32_t bidi_encoded_run(const bidi_room *room, size_t k, size_t from, bidi_run_t *run);
/* Writes all visual runs of line k as bidi_runs does, but with `start` and `length` in code units. */
size_t bidi_encoded_runs(const bidi_room *room, size_t k, bidi_run_t *runs, size_t capacity);
/* Writes the place from the left of each code unit of line k, from its `start` on: that of its character, as
 * bidi_places writes those of positions. */
size_t bidi_encoded_places(const bidi_room *room, size_t k, size_t *places, size_t capacity);
/* Write line k as bidi_shown does, but in the encoding of the text that was laid out, and count code units. `text` is
 * the whole text. What was read as U+FFFD is shown as U+FFFD. They return 0 for a text of another length. */
size_t bidi_encoded_shown_utf8(const bidi_room *room, const bidi_tables *tables, const uint8_t *text, size_t n,
                               size_t k, uint8_t *shown, size_t capacity);
size_t bidi_encoded_shown_utf16(const bidi_room *room, const bidi_tables *tables, const uint16_t *text, size_t n,
                                size_t k, uint16_t *shown, size_t capacity);
/* Returns the level of the paragraph (P2, P3) in which the code unit at an offset is; 255 if there is no such unit. */
uint8_t bidi_encoded_para_level_at(const bidi_room *room, size_t offset);
/* Lays out one line alone of the text, as bidi_line_of does, but from the offset `start` up to `end`. Writes the level
 * of each of its code units, the offsets of its shown characters from left to right, and how many these are. Fails also
 * with BIDI_BREAK_INSIDE if it starts or ends inside a character; nothing is written then. */
uint32_t bidi_encoded_line_of(bidi_room *room, size_t start, size_t end, uint8_t *levels, size_t level_capacity,
                              size_t *order, size_t order_capacity, size_t *shown);

/* For engines that have their own front: their own class look-up, levels or lines. Calls without a handle need no
 * tables and take no memory. Each returns the first of its errors, in the order in which they are listed here; only
 * `place` is written then. */

/* Writes the class and the bracket of each of n code points, as bidi_class and bidi_bracket do, to the fronts of two
 * arrays. Fails with BIDI_NO_TABLES; with BIDI_TOO_SMALL if one of the arrays takes fewer than n items; with
 * BIDI_NO_CHARACTER. */
uint32_t bidi_classes(const bidi_tables *tables, const uint32_t *codes, size_t n, uint8_t *classes,
                      size_t class_capacity, uint8_t *brackets, size_t bracket_capacity, uint64_t *place);
/* Returns the bracket that a code point pairs with (BD14 to BD16): the one that closes it, or the one that it closes.
 * Returns 0 if it is no bracket, or no scalar value, or pairs with none in the tables, or there are no tables.
 * Canonically equivalent brackets have the same partner in the published files: 3009 for 2329 and for 3008. So the
 * partner of a bracket's partner is the same for both. */
uint32_t bidi_paired_bracket(const bidi_tables *tables, uint32_t code);
/* Writes the level of the first paragraph of a text of classes by number, as bidi_base_level does of code points. Fails
 * with BIDI_NO_DIRECTION; with BIDI_NO_CLASS. */
uint32_t bidi_base_level_classes(const uint8_t *classes, size_t n, uint32_t direction, uint8_t *level, uint64_t *place);
/* Does L1 of one line of n positions, in place, by its classes and the level of its paragraph. What X9 removes has
 * levels too. Separators get the paragraph's level, and so do white space, isolate formatting characters and what X9
 * removes, before a separator or at the line's end. Other levels are not looked at. Fails with BIDI_TOO_SMALL if
 * `levels` has fewer than n items; with BIDI_NO_LEVEL and place 0 if the paragraph's level is above 126; with
 * BIDI_NO_CLASS. */
uint32_t bidi_reset_levels(const uint8_t *classes, size_t n, uint8_t para_level, uint8_t *levels, size_t capacity,
                           uint64_t *place);
/* Does L2 of one line by n levels, one for each of its positions, also for what X9 removes: writes the positions from
 * left to right to the front of `order`. Takes time in proportion to n and the sum of the levels. Fails with
 * BIDI_TOO_SMALL if `order` takes fewer than n items; with BIDI_NO_LEVEL. */
uint32_t bidi_reorder(const uint8_t *levels, size_t n, size_t *order, size_t capacity, uint64_t *place);

/* A text by classes and brackets has one unit for each position: the number of its class; BIDI_NO_BRACKET, BIDI_OPENING
 * or BIDI_CLOSING; and a key, which is the same for an opening and a closing bracket that can be a pair (BD16). A
 * bracket counts as one only if its class is ON (BD14, BD15). */
typedef struct { uint8_t class_number, bracket; uint32_t key; } bidi_unit;
/* Lays out a text of units as bidi_lay_out_classes does one of classes. After BIDI_NO_CLASS place is the index of the
 * first unit whose class or bracket is none of these numbers. */
uint32_t bidi_lay_out_units(bidi_room *room, const bidi_unit *units, size_t n, uint32_t direction, const size_t *breaks,
                            size_t break_count, uint64_t *place);
/* Does the same by the given limits. */
uint32_t bidi_lay_out_units_with(bidi_room *room, const bidi_unit *units, size_t n, uint32_t direction,
                                 const size_t *breaks, size_t break_count, bidi_limits limits, uint64_t *place);
/* Write the level of each position of the text that was laid out last, in positions of characters, as bidi_levels
 * writes those after L1. bidi_resolved_levels: before L1 (P1 to I2), BIDI_REMOVED if X9 removes the position.
 * bidi_whole_levels: after L1. There a position that X9 removes has the level of the one before it, but in two cases
 * that of its paragraph: at the paragraph's start, and if only white space, isolate formatting characters and what X9
 * removes come between it and the next separator or the text's end. */
size_t bidi_resolved_levels(const bidi_room *room, uint8_t *levels, size_t capacity);
size_t bidi_whole_levels(const bidi_room *room, uint8_t *levels, size_t capacity);

/* Make a judge of a BidiTest.txt. What `judge` contained before is freed after that. */
uint32_t bidi_judge_new_classes(bidi_judge *judge);
uint32_t bidi_judge_new_classes_with(bidi_judge *judge, bidi_limits limits);
/* Make a judge of a BidiCharacterTest.txt by tables, which it shares: `tables` keeps them, and may be freed before
 * it. */
uint32_t bidi_judge_new_characters(const bidi_tables *tables, bidi_judge *judge);
uint32_t bidi_judge_new_characters_with(const bidi_tables *tables, bidi_judge *judge, bidi_limits limits);
void bidi_judge_free(bidi_judge *judge);
/* Passes the next bytes of the file, as many or as few as there are. */
uint32_t bidi_judge_feed(bidi_judge *judge, const uint8_t *bytes, size_t n);

/* The verdict on all bytes that were passed, as the whole file. What a verdict doesn't name is 0. */
typedef struct {
  uint32_t answer;    /* BIDI_YES, BIDI_MALFORMED or BIDI_WRONG */
  uint32_t reason;    /* malformed: BIDI_CAUSE_..; wrong: BIDI_WRONG_.. */
  uint32_t direction; /* wrong: the direction */
  uint64_t line;      /* malformed, wrong: the number of the line, from 1 */
  size_t index;       /* wrong: the index in the list of levels or of the order */
  uint64_t rows;      /* yes: how many rows */
  uint64_t cases;     /* yes: how many cases */
} bidi_verdict;
enum { BIDI_YES = 0, BIDI_MALFORMED = 1, BIDI_WRONG = 2 };
enum { BIDI_WRONG_PARA_LEVEL = 1, BIDI_WRONG_LEVELS = 2, BIDI_WRONG_ORDER = 3 };
enum {
  BIDI_CAUSE_LINE_TOO_LONG = 1, BIDI_CAUSE_DIRECTIVE = 2, BIDI_CAUSE_LEVEL_ITEM = 3, BIDI_CAUSE_ORDER_ITEM = 4,
  BIDI_CAUSE_CLASS_ITEM = 5, BIDI_CAUSE_BIT_SET = 6, BIDI_CAUSE_NO_EXPECTATION = 7, BIDI_CAUSE_FIELD_COUNT = 8,
  BIDI_CAUSE_CODE_POINT = 9, BIDI_CAUSE_DIRECTION_FIELD = 10, BIDI_CAUSE_PARA_FIELD = 11, BIDI_CAUSE_EMPTY_ROW = 12
};
/* Writes the verdict, and frees the judge. */
uint32_t bidi_judge_finish(bidi_judge *judge, bidi_verdict *verdict);

/* Writes the line that states a verdict, as the command prints it, with its LF and no zero after it, to `text` if it
 * fits there. `length` is its number of bytes, also after BIDI_TOO_SMALL, when nothing is written, as with a capacity
 * of 0. Fails with BIDI_NO_VERDICT if a number is none of those above, or one that the verdict doesn't name is not 0.
 * Then, and after BIDI_MEMORY, `length` is unchanged. No line has more than BIDI_VERDICT_LINE bytes. */
#define BIDI_VERDICT_LINE 72
uint32_t bidi_verdict_text(const bidi_verdict *verdict, uint8_t *text, size_t capacity, size_t *length);

/* A report on a test file: all of its wrong cases, up to its first malformed line, one by one, and their counts. It is
 * made like a judge, and fed line by line:
 *   for (size_t at = 0, used; at < n; at += used) {
 *     if (bidi_report_feed(&report, bytes + at, n - at, &used)) return 1;
 *     while (bidi_report_next(&report, &item) == BIDI_DONE) print(&item);
 *   }
 * After the last byte of the file come bidi_report_finish, and the wrong cases of a last line without LF in the same
 * way. */
typedef struct { void *at; bool made; } bidi_report;
uint32_t bidi_report_new_classes(bidi_report *report);
uint32_t bidi_report_new_classes_with(bidi_report *report, bidi_limits limits);
uint32_t bidi_report_new_characters(const bidi_tables *tables, bidi_report *report);
uint32_t bidi_report_new_characters_with(const bidi_tables *tables, bidi_report *report, bidi_limits limits);
void bidi_report_free(bidi_report *report);
/* Passes the next bytes of the file, as many or as few as there are. Stops after the first line that has wrong cases,
 * or takes all: `used` is how many bytes it took. Fails with BIDI_NO_REPORT; with BIDI_CASES_LEFT if bidi_report_next
 * has not returned all wrong cases that were found last. `used` is unchanged then. */
uint32_t bidi_report_feed(bidi_report *report, const uint8_t *bytes, size_t n, size_t *used);

/* What a row claims at a place, or what the layout of its text has there. */
typedef struct { uint32_t kind; size_t value; } bidi_item;
enum {
  BIDI_ITEM_ENDED = 0,    /* nothing, the list ends before the place; value: 0 */
  BIDI_ITEM_REMOVED = 1,  /* a position that X9 removes; value: 0 */
  BIDI_ITEM_LEVEL = 2,    /* value: the level */
  BIDI_ITEM_POSITION = 3  /* value: the position */
};
/* A row that is wrong under one of its directions, with the first place that differs. */
typedef struct {
  uint64_t line;      /* the number of the line, from 1 */
  uint32_t direction; /* the direction */
  uint32_t place;     /* BIDI_WRONG_.. */
  size_t index;       /* the index in the list of levels or of the order, from 0 */
  bidi_item claimed;  /* what the row claims there */
  bidi_item defined;  /* what P1 to L2 give there */
} bidi_wrong_case;
/* Writes the next of the wrong cases that were found last, those of one line, in the order auto, LTR, RTL, auto-RTL.
 * Fails with BIDI_NO_REPORT; with BIDI_NO_CASE if none is left. `item` is unchanged then. */
uint32_t bidi_report_next(bidi_report *report, bidi_wrong_case *item);

/* The counts of a file, up to its first malformed line; each is at most 2^64 - 1. */
typedef struct {
  uint64_t rows, cases;                     /* a row has a case for each direction that it names */
  uint64_t wrong_rows, wrong_cases;         /* rows with a wrong case */
  uint64_t ltr, rtl, auto_ltr, auto_rtl;    /* the wrong cases by direction */
  uint64_t para_level, levels, order;       /* the wrong cases by what differs first */
  uint64_t malformed;                       /* the number of the first malformed line, from 1, or 0 */
  uint32_t cause;                           /* BIDI_CAUSE_.., or 0 if no line is malformed */
} bidi_counts;
/* Passes the end of the file, and writes the counts of all of it. The report takes no more bytes after that, but
 * bidi_report_next returns the wrong cases of a last line without LF. Fails as bidi_report_feed does. */
uint32_t bidi_report_finish(bidi_report *report, bidi_counts *counts);

#ifdef __cplusplus
}
#endif
#endif
