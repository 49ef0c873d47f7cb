/* FriBidi's calls of the algorithm, over the calls of bidi.h: bidi types, bracket types, mirrored characters, the
 * direction of a paragraph, embedding levels, the order of a line, and the removal of marks. All other calls (character
 * sets, joining, shaping, log2vis and the deprecated names) stay FriBidi's own and call these.
 *
 * build.sh builds the shared object; docs/FRIBIDI.md says how to use it and what differs. */
#define _GNU_SOURCE
#include <fribidi.h>
#include <pthread.h>
#include <stdlib.h>
#include <string.h>
#include "bidi.h"
#define SHOW __attribute__((visibility("default")))

/* Class numbers of bidi.h, in its order. */
enum { L, R, AL, EN, ES, ET, AN, CS, NSM, BN, B, S, WS, ON, LRE, LRO, RLE, RLO, PDF, LRI, RLI, FSI, PDI, CLASSES };

/* FriBidi's type of each class. */
static const FriBidiCharType types_of_classes[CLASSES] = {
  [L] = FRIBIDI_TYPE_LTR, [R] = FRIBIDI_TYPE_RTL, [AL] = FRIBIDI_TYPE_AL, [EN] = FRIBIDI_TYPE_EN,
  [ES] = FRIBIDI_TYPE_ES, [ET] = FRIBIDI_TYPE_ET, [AN] = FRIBIDI_TYPE_AN, [CS] = FRIBIDI_TYPE_CS,
  [NSM] = FRIBIDI_TYPE_NSM, [BN] = FRIBIDI_TYPE_BN, [B] = FRIBIDI_TYPE_BS, [S] = FRIBIDI_TYPE_SS,
  [WS] = FRIBIDI_TYPE_WS, [ON] = FRIBIDI_TYPE_ON, [LRE] = FRIBIDI_TYPE_LRE, [LRO] = FRIBIDI_TYPE_LRO,
  [RLE] = FRIBIDI_TYPE_RLE, [RLO] = FRIBIDI_TYPE_RLO, [PDF] = FRIBIDI_TYPE_PDF, [LRI] = FRIBIDI_TYPE_LRI,
  [RLI] = FRIBIDI_TYPE_RLI, [FSI] = FRIBIDI_TYPE_FSI, [PDI] = FRIBIDI_TYPE_PDI,
};

/* The class of FriBidi's type; ON for types of an application's own, as 0 is. No two types have one slot, and the slot
 * of 0 is that of another type. */
#define SLOT(TYPE) ((uint32_t)(TYPE) * 22696005u >> 26)
#define TYPE_OF(NUMBER, TYPE) [SLOT(FRIBIDI_TYPE_##TYPE##_VAL)] = { FRIBIDI_TYPE_##TYPE##_VAL, NUMBER }
static const struct { uint32_t type; uint8_t number; } slots[64] = {
  TYPE_OF(L, LTR), TYPE_OF(R, RTL), TYPE_OF(AL, AL), TYPE_OF(EN, EN), TYPE_OF(ES, ES), TYPE_OF(ET, ET),
  TYPE_OF(AN, AN), TYPE_OF(CS, CS), TYPE_OF(NSM, NSM), TYPE_OF(BN, BN), TYPE_OF(B, BS), TYPE_OF(S, SS),
  TYPE_OF(WS, WS), TYPE_OF(LRE, LRE), TYPE_OF(LRO, LRO), TYPE_OF(RLE, RLE), TYPE_OF(RLO, RLO), TYPE_OF(PDF, PDF),
  TYPE_OF(LRI, LRI), TYPE_OF(RLI, RLI), TYPE_OF(FSI, FSI), TYPE_OF(PDI, PDI),
};

static inline uint8_t class_of(FriBidiCharType type) {
  uint32_t number = type, slot = SLOT(number);
  return slots[slot].type == number ? slots[slot].number : ON;
}

/* A character and its bracket type. */
typedef struct { FriBidiChar ch; FriBidiBracketType type; } seen_bracket;
enum { SEEN = 64 };

/* What a thread owns: tables, a room for texts, and columns for its calls, each for `capacity` characters. */
typedef struct {
  bidi_tables tables;
  bidi_room room;
  seen_bracket seen[SEEN];
  size_t capacity;
  bidi_unit *units;     /* a text as classes and brackets */
  uint8_t *classes;     /* classes alone */
  uint8_t *brackets;    /* what bidi_classes writes besides */
  size_t *order;        /* of a line */
  FriBidiChar *copy;    /* of a line's characters */
  FriBidiStrIndex *map; /* of its map, or the inverse of a map */
} state;

enum { LEAST_CAPACITY = 256, STORED_CAPACITY = 65536 };
static pthread_once_t once = PTHREAD_ONCE_INIT;
static pthread_key_t key;
static int no_key;
static __thread state *own __attribute__((tls_model("initial-exec"))); /* found without a call */

static void free_columns(state *s) {
  bidi_room_free(&s->room);
  free(s->units);
  free(s->classes);
  free(s->brackets);
  free(s->order);
  free(s->copy);
  free(s->map);
  s->units = NULL;
  s->classes = s->brackets = NULL;
  s->order = NULL;
  s->copy = NULL;
  s->map = NULL;
  s->capacity = 0;
}

static void free_state(void *at) {
  state *s = at;
  free_columns(s);
  bidi_tables_free(&s->tables);
  free(s);
  own = NULL;
}

static void make_key(void) { no_key = pthread_key_create(&key, free_state); }

/* Makes the state of a thread, with tables, at its first call. Returns NULL if there is no memory. */
static __attribute__((noinline)) state *make_state(void) {
  state *s = calloc(1, sizeof *s);
  pthread_once(&once, make_key);
  if (!s) return NULL;
  if (no_key || bidi_tables_standard(&s->tables) || pthread_setspecific(key, s)) {
    free_state(s);
    return NULL;
  }
  return own = s;
}

static inline state *state_of_thread(void) { return __builtin_expect(own != NULL, 1) ? own : make_state(); }

/* Makes the columns of a thread larger. If there is no memory, the thread has no columns. */
static __attribute__((noinline)) bool grow(state *s, size_t n) {
  size_t capacity = LEAST_CAPACITY;
  while (capacity < n && capacity < STORED_CAPACITY) capacity *= 2;
  if (capacity < n) capacity = n;
  free_columns(s);
  s->units = malloc(capacity * sizeof *s->units);
  s->classes = malloc(capacity);
  s->brackets = malloc(capacity);
  s->order = malloc(capacity * sizeof *s->order);
  s->copy = malloc(capacity * sizeof *s->copy);
  s->map = malloc(capacity * sizeof *s->map);
  if (s->units && s->classes && s->brackets && s->order && s->copy && s->map &&
      !bidi_room_new(capacity, &s->room)) {
    s->capacity = capacity;
    return true;
  }
  free_columns(s);
  return false;
}

/* Returns the state of this thread, with columns for n characters, or NULL if there is no memory. */
static inline state *state_for(FriBidiStrIndex n) {
  state *s = state_of_thread();
  return s && (s->capacity >= (size_t)n || grow(s, n)) ? s : NULL;
}

/* Frees the columns after a text that was longer than the others. */
static inline void end(state *s) {
  if (__builtin_expect(s->capacity > STORED_CAPACITY, 0)) free_columns(s);
}

SHOW void fribidi_get_bidi_types(const FriBidiChar *str, const FriBidiStrIndex len, FriBidiCharType *types) {
  enum { PIECE = 1024 }; /* at a value that is no character, bidi_classes reads the rest of a piece once more */
  state *s = len > 0 ? state_for(len < PIECE ? len : PIECE) : NULL;
  for (FriBidiStrIndex done = 0; done < len;) {
    uint64_t place = 0;
    size_t n = len - done < PIECE ? len - done : PIECE;
    uint32_t status = s ? bidi_classes(&s->tables, str + done, n, s->classes, n, s->brackets, n, &place) : BIDI_MEMORY;
    bool whole = status == BIDI_DONE;
    if (status == BIDI_NO_CHARACTER) {
      n = place;
      status = bidi_classes(&s->tables, str + done, n, s->classes, n, s->brackets, n, &place);
    }
    if (status) n = 0;
    for (size_t i = 0; i < n; i++) types[done + i] = types_of_classes[s->classes[i]];
    done += n;
    if (!whole) types[done++] = FRIBIDI_TYPE_LTR; /* as FriBidi has it of what is no character */
  }
}

SHOW FriBidiCharType fribidi_get_bidi_type(FriBidiChar ch) {
  state *s = state_of_thread();
  uint8_t number;
  return s && !bidi_class(&s->tables, ch, &number) ? types_of_classes[number] : FRIBIDI_TYPE_LTR;
}

/* Returns the bracket type of a character by the tables. */
static __attribute__((noinline)) FriBidiBracketType find_bracket(state *s, FriBidiChar ch) {
  uint8_t kind;
  if (bidi_bracket(&s->tables, ch, &kind) || kind == BIDI_NO_BRACKET) return FRIBIDI_NO_BRACKET;
  /* the opening bracket of the pair, the same one for canonical equivalents */
  uint32_t pair = bidi_paired_bracket(&s->tables, ch);
  return kind == BIDI_CLOSING ? pair : bidi_paired_bracket(&s->tables, pair) | FRIBIDI_BRACKET_OPEN_MASK;
}

/* Returns the same, from a cache of earlier characters. At first each entry is U+0000, which is no bracket. */
static inline FriBidiBracketType bracket_of(state *s, FriBidiChar ch) {
  seen_bracket *seen = &s->seen[ch % SEEN];
  if (seen->ch != ch) *seen = (seen_bracket){ ch, find_bracket(s, ch) };
  return seen->type;
}

SHOW FriBidiBracketType fribidi_get_bracket(FriBidiChar ch) {
  state *s = state_of_thread();
  return s ? bracket_of(s, ch) : FRIBIDI_NO_BRACKET;
}

SHOW void fribidi_get_bracket_types(const FriBidiChar *str, const FriBidiStrIndex len, const FriBidiCharType *types,
                                    FriBidiBracketType *btypes) {
  state *s = state_of_thread();
  for (FriBidiStrIndex i = 0; i < len; i++)
    btypes[i] = s && types[i] == FRIBIDI_TYPE_ON ? bracket_of(s, str[i]) : FRIBIDI_NO_BRACKET;
}

SHOW fribidi_boolean fribidi_get_mirror_char(FriBidiChar ch, FriBidiChar *mirrored) {
  state *s = state_of_thread();
  FriBidiChar other = s ? bidi_mirror(&s->tables, ch) : ch;
  if (mirrored) *mirrored = other;
  return other != ch;
}

static FriBidiParType direction_of(uint8_t level) { return level ? FRIBIDI_PAR_RTL : FRIBIDI_PAR_LTR; }

/* P2 and P3 of n classes that begin a text, or of its first ones. Returns whether a strong character says the level. */
static bool find_level_in(const uint8_t *classes, size_t n, uint8_t *level) {
  uint8_t if_rtl = 1;
  uint64_t place;
  *level = 0;
  bidi_base_level_classes(classes, n, BIDI_AUTO, level, &place);
  if (*level == 0) bidi_base_level_classes(classes, n, BIDI_AUTO_RTL, &if_rtl, &place);
  return *level == if_rtl;
}

/* Does the same for all of them. If the first ones say the level, the others don't count. Most texts begin with a
 * letter. */
static bool find_level(const uint8_t *classes, size_t n, uint8_t *level) {
  for (size_t first = 8; first < n; first *= 8)
    if (find_level_in(classes, first, level)) return true;
  return find_level_in(classes, n, level);
}

SHOW FriBidiParType fribidi_get_par_direction(const FriBidiCharType *types, const FriBidiStrIndex len) {
  state *s = len > 0 ? state_for(len) : NULL;
  FriBidiParType found = FRIBIDI_PAR_ON;
  if (!s) return found;
  for (FriBidiStrIndex i = 0; i < len; i++) s->classes[i] = class_of(types[i]);
  /* FriBidi goes on to the first paragraph that has a strong character. */
  for (FriBidiStrIndex start = 0, next; found == FRIBIDI_PAR_ON && start < len; start = next) {
    uint8_t level;
    for (next = start; next < len && s->classes[next++] != B;) {}
    if (find_level(s->classes + start, next - start, &level)) found = direction_of(level);
  }
  end(s);
  return found;
}

/* Lays out a paragraph of these types and brackets. Returns whether that was possible. */
static bool lay_out(state *s, const FriBidiCharType *types, const FriBidiBracketType *brackets, size_t n,
                    FriBidiParType *direction, FriBidiLevel *levels) {
  uint8_t base = FRIBIDI_DIR_TO_LEVEL(*direction), found;
  uint32_t masks = 0;
  uint64_t place;
  uint8_t *classes = s->classes;
  bidi_unit *units = s->units;
  for (size_t i = 0; i < n; i++) {
    masks |= types[i];
    classes[i] = class_of(types[i]);
    units[i] = (bidi_unit){ .class_number = classes[i] };
  }
  for (size_t i = 0; brackets && i < n; i++)
    if (brackets[i] != FRIBIDI_NO_BRACKET) {
      units[i].bracket = FRIBIDI_IS_BRACKET_OPEN(brackets[i]) ? BIDI_OPENING : BIDI_CLOSING;
      units[i].key = FRIBIDI_BRACKET_ID(brackets[i]);
    }
  if (!FRIBIDI_IS_STRONG(*direction) && find_level(s->classes, n, &found)) {
    base = found;
    *direction = direction_of(base);
  }
  if (bidi_lay_out_units(&s->room, s->units, n, base ? BIDI_RTL : BIDI_LTR, NULL, 0, &place)) return false;
  /* If X9 removes no character, each has a level, and copying them is faster. */
  if (!FRIBIDI_IS_EXPLICIT_OR_BN(masks)) return bidi_levels(&s->room, (uint8_t *)levels, n) == n;
  return bidi_whole_levels(&s->room, (uint8_t *)levels, n) == n;
}

/* Returns the greatest of these levels plus one. */
static FriBidiLevel one_above(FriBidiLevel most, const FriBidiLevel *levels, FriBidiStrIndex len) {
  for (FriBidiStrIndex i = 0; i < len; i++)
    if (levels[i] > most) most = levels[i];
  return most + 1;
}

SHOW FriBidiLevel fribidi_get_par_embedding_levels_ex(const FriBidiCharType *types, const FriBidiBracketType *brackets,
                                                      const FriBidiStrIndex len, FriBidiParType *pbase_dir,
                                                      FriBidiLevel *levels) {
  if (len <= 0) return len == 0;
  state *s = state_for(len);
  if (!s) return 0;
  bool made = lay_out(s, types, brackets, len, pbase_dir, levels);
  end(s);
  return made ? one_above(FRIBIDI_DIR_TO_LEVEL(*pbase_dir), levels, len) : 0;
}

SHOW FriBidiLevel fribidi_get_par_embedding_levels(const FriBidiCharType *types, const FriBidiStrIndex len,
                                                   FriBidiParType *pbase_dir, FriBidiLevel *levels) {
  return fribidi_get_par_embedding_levels_ex(types, NULL, len, pbase_dir, levels);
}

/* Reverses the items from `start` up to `end` of the given arrays. */
static void reverse(FriBidiChar *str, FriBidiStrIndex *map, FriBidiStrIndex start, FriBidiStrIndex end) {
  for (end--; start < end; start++, end--) {
    if (str) {
      FriBidiChar c = str[start];
      str[start] = str[end], str[end] = c;
    }
    if (map) {
      FriBidiStrIndex m = map[start];
      map[start] = map[end], map[end] = m;
    }
  }
}

/* L3, which is FriBidi's own: marks come after their base in what is reversed then. */
static void reorder_marks(const FriBidiCharType *types, FriBidiStrIndex off, FriBidiStrIndex end,
                          const FriBidiLevel *levels, FriBidiChar *str, FriBidiStrIndex *map) {
  for (FriBidiStrIndex i = end - 1; i >= off; i--)
    if (FRIBIDI_LEVEL_IS_RTL(levels[i]) && types[i] == FRIBIDI_TYPE_NSM) {
      FriBidiStrIndex last = i;
      while (i > off && FRIBIDI_IS_EXPLICIT_OR_BN_OR_NSM(types[i]) && levels[i - 1] == levels[last]) i--;
      reverse(str, map, i, last + 1);
    }
}

SHOW FriBidiLevel fribidi_reorder_line(FriBidiFlags flags, const FriBidiCharType *types, const FriBidiStrIndex len,
                                       const FriBidiStrIndex off, const FriBidiParType base_dir, FriBidiLevel *levels,
                                       FriBidiChar *str, FriBidiStrIndex *map) {
  uint64_t place;
  if (len <= 0) return len == 0;
  state *s = state_for(len);
  if (!s) return 0;
  /* What comes before the line's last letter, number or mark was reset when the levels were made. */
  FriBidiStrIndex tail = len;
  while (tail > 0 && !(FRIBIDI_IS_LETTER(types[off + tail - 1]) || FRIBIDI_IS_NUMBER(types[off + tail - 1]) ||
                       types[off + tail - 1] == FRIBIDI_TYPE_NSM))
    tail--;
  for (FriBidiStrIndex i = tail; i < len; i++) s->classes[i] = class_of(types[off + i]);
  uint8_t *line = (uint8_t *)levels + off;
  bool made = (tail == len || !bidi_reset_levels(s->classes + tail, len - tail, FRIBIDI_DIR_TO_LEVEL(base_dir),
                                                 line + tail, len - tail, &place)) &&
              !bidi_reorder(line, len, s->order, len, &place);
  if (made) {
    if (flags & FRIBIDI_FLAG_REORDER_NSM) reorder_marks(types, off, off + len, levels, str, map);
    if (str) {
      memcpy(s->copy, str + off, len * sizeof *str);
      for (FriBidiStrIndex i = 0; i < len; i++) str[off + i] = s->copy[s->order[i]];
    }
    if (map) {
      memcpy(s->map, map + off, len * sizeof *map);
      for (FriBidiStrIndex i = 0; i < len; i++) map[off + i] = s->map[s->order[i]];
    }
  }
  end(s);
  return made ? one_above(0, levels + off, len) : 0;
}

/* Returns whether the removal of marks removes a character: what X9 removes, isolate formatting characters, U+200E and
 * U+200F. */
static bool is_mark(FriBidiChar ch) {
  FriBidiCharType type = fribidi_get_bidi_type(ch);
  return FRIBIDI_IS_EXPLICIT_OR_BN(type) || FRIBIDI_IS_ISOLATE(type) || ch == FRIBIDI_CHAR_LRM ||
         ch == FRIBIDI_CHAR_RLM;
}

SHOW FriBidiStrIndex fribidi_remove_bidi_marks(FriBidiChar *str, const FriBidiStrIndex len, FriBidiStrIndex *to_this,
                                               FriBidiStrIndex *from_this, FriBidiLevel *levels) {
  FriBidiStrIndex remaining = 0, *inverse = from_this;
  if (len <= 0 || !str) return 0;
  state *s = state_for(len);
  if (!s) return -1;
  if (to_this && !from_this) {
    inverse = s->map;
    for (FriBidiStrIndex i = 0; i < len; i++) inverse[i] = -1;
    for (FriBidiStrIndex i = 0; i < len; i++)
      if (to_this[i] >= 0 && to_this[i] < len) inverse[to_this[i]] = i;
  }
  for (FriBidiStrIndex i = 0; i < len; i++)
    if (!is_mark(str[i])) {
      str[remaining] = str[i];
      if (levels) levels[remaining] = levels[i];
      if (inverse) inverse[remaining] = inverse[i];
      remaining++;
    }
  if (to_this) {
    for (FriBidiStrIndex i = 0; i < len; i++) to_this[i] = -1;
    for (FriBidiStrIndex i = 0; i < remaining; i++)
      if (inverse[i] >= 0 && inverse[i] < len) to_this[inverse[i]] = i;
  }
  end(s);
  return remaining;
}
