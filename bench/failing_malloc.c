// A malloc whose call number FAIL_AT fails, from 1, for bench/allocations.py to preload.
// Where that call was reached, the program's standard error says so.
#include <errno.h>
#include <stddef.h>
#include <stdlib.h>
#include <unistd.h>

extern void *__libc_malloc(size_t);
extern void *__libc_calloc(size_t, size_t);
extern void *__libc_realloc(void *, size_t);
extern void *__libc_memalign(size_t, size_t);

static long calls, fail_at;

__attribute__((constructor)) static void begin(void) {
  const char *text = getenv("FAIL_AT");
  calls = 0;
  fail_at = text ? atol(text) : 0;
}

static int fails(void) {
  static const char told[] = "failed\n";
  if (++calls != fail_at) return 0;
  errno = ENOMEM;
  return write(STDERR_FILENO, told, sizeof told - 1) > 0;
}

void *malloc(size_t size) { return fails() ? NULL : __libc_malloc(size); }
void *calloc(size_t count, size_t size) { return fails() ? NULL : __libc_calloc(count, size); }
void *realloc(void *old, size_t size) { return fails() ? NULL : __libc_realloc(old, size); }
void *aligned_alloc(size_t align, size_t size) { return fails() ? NULL : __libc_memalign(align, size); }

int posix_memalign(void **into, size_t align, size_t size) {
  if (fails()) return ENOMEM;
  *into = __libc_memalign(align, size);
  return *into ? 0 : ENOMEM;
}
