/* Lays out a text with an engine, again and again: the levels and the visual order of one paragraph as one line,
 * direction auto. An engine that defines WITH_LINES lays out each line of the file as a text of its own.
 *
 * usage: lay_out_.. FILE ROUNDS [FOLDER]
 *
 * An engine's file defines `prepare`, which allocates and stores the text, and `lay_out_once`, which looks up the
 * classes and lays out the text. An engine that takes UTF-8 gets the bytes of the file. FOLDER has the property files,
 * for an engine that reads them. Of all ROUNDS + 1 calls all but the first are timed. It prints the number of
 * characters and the nanoseconds that each takes, the least of ten batches. Count instructions with valgrind
 * --tool=callgrind --toggle-collect=lay_out_once.
 */
#include <stdint.h>
#include <stdio.h>
#include <stdlib.h>
#include <time.h>

enum { BATCHES = 10 };

static void fail(const char *what) {
    fprintf(stderr, "lay_out: %s\n", what);
    exit(1);
}

static void *room(size_t bytes) {
    void *made = malloc(bytes + 1);
    if (!made) fail("no memory");
    return made;
}

static uint8_t *read_bytes(const char *path, size_t *length) {
    FILE *file = fopen(path, "rb");
    if (!file || fseek(file, 0, SEEK_END)) fail(path);
    long size = ftell(file);
    rewind(file);
    uint8_t *bytes = room((size_t)size);
    if (fread(bytes, 1, (size_t)size, file) != (size_t)size) fail(path);
    fclose(file);
    *length = (size_t)size;
    return bytes;
}

/* The code points of well-formed UTF-8. */
static uint32_t *decode(const uint8_t *bytes, size_t length, size_t *count) {
    uint32_t *codes = room(sizeof(uint32_t) * length);
    size_t n = 0;
    for (size_t i = 0; i < length; n++) {
        uint8_t first = bytes[i++];
        int more = first < 0xC0 ? 0 : first < 0xE0 ? 1 : first < 0xF0 ? 2 : 3;
        uint32_t code = more ? first & (0x3F >> more) : first;
        for (; more && i < length; more--) code = code << 6 | (bytes[i++] & 0x3F);
        codes[n] = code;
    }
    *count = n;
    return codes;
}

/* The bytes of the file, which is in UTF-8. */
static uint8_t *file_bytes;
static size_t file_length;

/* A line of the file, without its LF: where it begins, in code points and in bytes, and how many it has. */
struct line {
    size_t start, count, first_byte, bytes;
};

/* Of the engine: `use_line` chooses the line that `lay_out_once` lays out. */
static void prepare(const uint32_t *codes, size_t n, const char *folder);
#ifdef WITH_LINES
static void use_line(const struct line *line);
#else
static void use_line(const struct line *line) { (void)line; }
#endif
void lay_out_once(void);

static struct line *lines;
static size_t line_count;

/* Finds the lines of a file; one without LF is one line. */
static void find_lines(const uint32_t *codes, size_t n) {
    lines = room(sizeof *lines * (n + 1));
    struct line line = {0, 0, 0, 0};
    size_t byte = 0;
    for (size_t i = 0; i <= n; i++) {
        if (i == n || codes[i] == '\n') {
            line.count = i - line.start;
            line.bytes = byte - line.first_byte;
            lines[line_count++] = line;
            line = (struct line){i + 1, 0, byte + 1, 0};
        }
        if (i < n) byte += codes[i] < 0x80 ? 1 : codes[i] < 0x800 ? 2 : codes[i] < 0x10000 ? 3 : 4;
    }
}

static void lay_out_lines(void) {
    for (size_t k = 0; k < line_count; k++) {
        use_line(lines + k);
        lay_out_once();
    }
}

static double seconds(void) {
    struct timespec now;
    clock_gettime(CLOCK_MONOTONIC, &now);
    return now.tv_sec + now.tv_nsec * 1e-9;
}

int main(int count, char **words) {
    if (count < 3) fail("usage: lay_out FILE ROUNDS [FOLDER]");
    size_t n;
    file_bytes = read_bytes(words[1], &file_length);
    uint32_t *codes = decode(file_bytes, file_length, &n);
    prepare(codes, n, count > 3 ? words[3] : ".");
#ifdef WITH_LINES
    find_lines(codes, n);
#else
    (void)find_lines;
    line_count = 1;
#endif

    lay_out_lines();
    double least = 0;
    long left = atol(words[2]);
    for (int batch = 0; batch < BATCHES; batch++) {
        long rounds = left / (BATCHES - batch);
        if (!rounds) continue;
        double start = seconds();
        for (long round = 0; round < rounds; round++) lay_out_lines();
        double each = (seconds() - start) * 1e9 / rounds / (n ? n : 1);
        if (least == 0 || each < least) least = each;
        left -= rounds;
    }
    printf("%zu characters, %.1f ns a character\n", n, least);
    return 0;
}
