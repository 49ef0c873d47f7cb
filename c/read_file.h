/* A file's bytes, for these programs. */
#include <stdio.h>
#include <stdlib.h>
static uint8_t *read_file(const char *folder, const char *name, size_t *n) {
  char path[4096];
  snprintf(path, sizeof path, "%s/%s", folder, name);
  FILE *file = fopen(path, "rb");
  if (!file) { perror(path); exit(2); }
  size_t room = 1 << 16;
  uint8_t *bytes = malloc(room);
  for (*n = 0; bytes; ) {
    size_t got = fread(bytes + *n, 1, room - *n, file);
    if (got == 0) break;
    *n += got;
    if (*n == room) bytes = realloc(bytes, room *= 2);
  }
  if (!bytes || ferror(file)) { perror(path); exit(2); }
  fclose(file);
  return bytes;
}
static uint32_t read_tables(const char *folder, bidi_tables *tables, bidi_fault *fault) {
  size_t a, b, c;
  uint8_t *classes = read_file(folder, "DerivedBidiClass.txt", &a);
  uint8_t *brackets = read_file(folder, "BidiBrackets.txt", &b);
  uint8_t *mirrors = read_file(folder, "BidiMirroring.txt", &c);
  uint32_t status = bidi_tables_new(classes, a, brackets, b, mirrors, c, tables, fault);
  free(classes); free(brackets); free(mirrors);
  return status;
}
