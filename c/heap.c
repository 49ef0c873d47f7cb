/* heap: the part of the library that allocates, for machines for which the kit has none. It has the three functions
 * that the library calls, over malloc, realloc and free, as the kit's liblibc_c.a has them for x86-64. docs/C.md
 * ("Machines") says what they owe the library, which trusts them as it trusts the kit's. */
#include <stddef.h>
#include <stdint.h>
#include <stdlib.h>

/* Whether there is memory, and where. If there is none, `at` points to a byte that nobody reads or writes. `has` is 0
 * or 1 in a whole register, so it is right for a caller that reads one byte of it, and for one that reads all. */
struct tried {
  uint64_t has;
  void *at;
};

static struct tried tried(void *at) {
  static char nothing;
  return (struct tried){ at != NULL, at != NULL ? at : &nothing };
}

/* Takes memory for `n` bytes, aligned to `alignment`. That divides 16, to which malloc aligns. For no bytes it takes
 * some, since malloc may return NULL for none. */
struct tried rattle_alloc(size_t n, size_t alignment) {
  return tried(malloc(n != 0 ? n : alignment));
}

/* Makes `at` a block of `n` bytes; the first `used` stay, as realloc preserves all that fit. If there is no memory,
 * the block is unchanged. */
struct tried rattle_realloc(void *at, size_t used, size_t n, size_t alignment) {
  (void)used;
  return tried(realloc(at, n != 0 ? n : alignment));
}

void rattle_dealloc(void *at) {
  free(at);
}
