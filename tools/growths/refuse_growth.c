// Loaded before the C library (LD_PRELOAD), it refuses one growth of the program that it is loaded into: the one whose
// number, counted from 1, is in the environment as REFUSED_GROWTH. It then writes a byte to the file descriptor 9, so
// that whoever runs the program can tell whether there were so many.
#include <stddef.h>
#include <stdlib.h>
#include <unistd.h>

// The C library's own names of these calls.
void *__libc_malloc(size_t size);
void *__libc_realloc(void *old, size_t size);

static unsigned long growths = 0;
static unsigned long refused = 0;

__attribute__((constructor)) static void read_refused(void) {
    const char *number = getenv("REFUSED_GROWTH");
    if (number != NULL) {
        refused = strtoul(number, NULL, 10);
    }
}

static int is_refused(void) {
    growths++;
    if (growths != refused) {
        return 0;
    }
    return write(9, "!", 1) == 1;
}

void *malloc(size_t size) {
    return is_refused() ? NULL : __libc_malloc(size);
}

void *realloc(void *old, size_t size) {
    return is_refused() ? NULL : __libc_realloc(old, size);
}
