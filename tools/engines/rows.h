/* Reads texts, lines `CODE POINTS;DIRECTION` (hexadecimal; 0 left-to-right, 1 right-to-left, 2 found in the text;
 * fields after a further semicolon are skipped), and writes the row that an engine makes of each. A row has the form of
 * BidiCharacterTest.txt, but each character has a level and a place, also those that rule X9 removes: an engine need
 * not report which ones these are. A `|` between two code points ends a line of layout; the row then has a `|` at the
 * same place in its levels and its order. A text at which the engine crashes, or takes more than two seconds, gets a
 * row `CODE POINTS;DIRECTION;failed`.
 *
 * With the word `--classes` it writes the classes instead: lines `FIRST..LAST;CLASS` for all code points, with `-` as
 * the class of those that the engine takes for no character.
 *
 * An engine's file defines lay_out and class_of, and its main calls run_words. */
#define _GNU_SOURCE
#include <stdint.h>
#include <stdio.h>
#include <stdlib.h>
#include <string.h>
#include <sys/mman.h>
#include <sys/wait.h>
#include <unistd.h>
#define MOST 4096
#define SECONDS 2
#define CODES 0x110000

/* A text of n code points, in lines; ends[k] is where line k ends. */
typedef struct { uint32_t codes[MOST]; int n, direction, ends[MOST], lines; } text;

/* What an engine makes of a text: the first paragraph's level, the level of each character, and line by line the
 * character at each place from the left. */
typedef struct { int paragraph, levels[MOST], order[MOST]; } layout;

/* Lays out a text. Returns 0, or 1 if the engine fails. */
static int lay_out(const text *asked, layout *made);

/* The short name of a code point's class. */
static const char *class_of(uint32_t code);

typedef struct { char *start; size_t length; } text_line;

static void read_text(const char *from, text *into) {
  char *at = (char *)from;
  into->n = into->lines = 0;
  while (*at && *at != ';' && into->n < MOST) {
    if (*at == '|') {
      into->ends[into->lines++] = into->n;
      at++;
    } else {
      char *item = at;
      into->codes[into->n++] = strtoul(item, &at, 16);
      if (at == item) _exit(3);
    }
    while (*at == ' ') at++;
  }
  into->ends[into->lines++] = into->n;
  into->direction = *at == ';' ? at[1] - '0' : 2;
}

/* Writes one item for each character, in this form, with the ends of lines between them. */
static void write_items(FILE *out, const text *of, const int *items, const char *form) {
  for (int i = 0, line = 0; i < of->n; i++) {
    if (i) fputs(i == of->ends[line] ? " | " : " ", out);
    if (i == of->ends[line]) line++;
    fprintf(out, form, items[i]);
  }
}

static void write_row(text_line line) {
  static text asked;
  static layout made;
  char *row = NULL;
  size_t length;
  FILE *out = open_memstream(&row, &length);
  read_text(line.start, &asked);
  write_items(out, &asked, (const int *)asked.codes, "%04X");
  fprintf(out, ";%d;", asked.direction);
  if (lay_out(&asked, &made)) fputs("failed", out);
  else {
    fprintf(out, "%d;", made.paragraph);
    write_items(out, &asked, made.levels, "%d");
    fputc(';', out);
    write_items(out, &asked, made.order, "%d");
  }
  fputc('\n', out);
  fclose(out);
  if (write(1, row, length) != (ssize_t)length) _exit(3);
  free(row);
}

static size_t read_lines(text_line **lines) {
  size_t count = 0, room = 0, size = 0;
  char *line = NULL;
  ssize_t length;
  *lines = NULL;
  for (; (length = getline(&line, &size, stdin)) > 0; line = NULL, size = 0) {
    if (line[0] == '#' || line[0] == '\n') continue;
    if (count == room) *lines = realloc(*lines, sizeof **lines * (room = room ? 2 * room : 1024));
    (*lines)[count++] = (text_line){ line, strcspn(line, "\n") };
  }
  return count;
}

/* A process of its own writes the rows, and another goes on after the text at which it ended. Returns 2 if a line is no
 * text, or a write fails. */
static int write_rows(void) {
  text_line *lines;
  size_t count = read_lines(&lines);
  size_t *done = mmap(NULL, sizeof *done, PROT_READ | PROT_WRITE, MAP_SHARED | MAP_ANONYMOUS, -1, 0);
  for (*done = 0; *done < count;) {
    pid_t child = fork();
    if (child == 0) {
      for (; *done < count; ++*done) {
        alarm(SECONDS);
        write_row(lines[*done]);
      }
      _exit(0);
    }
    int status;
    if (child < 0 || waitpid(child, &status, 0) < 0 || (WIFEXITED(status) && WEXITSTATUS(status) == 3)) return 2;
    if (*done == count) break;
    char *direction = memchr(lines[*done].start, ';', lines[*done].length);
    int shown = direction ? (int)(direction + 2 - lines[*done].start) : (int)lines[*done].length;
    dprintf(1, "%.*s;failed\n", shown, lines[*done].start);
    ++*done;
  }
  return 0;
}

/* Writes the class of each code point, by ranges. Returns 0. */
static int write_classes(void) {
  for (uint32_t first = 0, end; first < CODES; first = end) {
    const char *name = class_of(first);
    for (end = first + 1; end < CODES && !strcmp(class_of(end), name);) end++;
    printf("%04X..%04X;%s\n", first, end - 1, name);
  }
  return 0;
}

/* Does what the words say; `version` is what `--version` prints. */
static int run_words(int argc, char **argv, const char *version) {
  if (argc == 1) return write_rows();
  if (argc == 2 && !strcmp(argv[1], "--classes")) return write_classes();
  if (argc == 2 && !strcmp(argv[1], "--version")) return puts(version) < 0;
  return 2;
}
