/* Preloaded into a program: the allocation of the number that FAIL_ALLOCATION names is refused, and no other. Where that
   refusal was made, the file that ALLOCATION_REFUSED names is made. */
#define _GNU_SOURCE
#include <dlfcn.h>
#include <errno.h>
#include <fcntl.h>
#include <stdatomic.h>
#include <stdlib.h>
#include <unistd.h>

/* Workers allocate at once. */
static atomic_long left;

__attribute__((constructor)) static void begin(void) {
  const char *number = getenv("FAIL_ALLOCATION");
  left = number ? atol(number) : 0;
}

static int refused(void) {
  if (atomic_fetch_sub(&left, 1) != 1) return 0;
  const char *name = getenv("ALLOCATION_REFUSED");
  if (name) close(open(name, O_CREAT | O_WRONLY, 0600));
  errno = ENOMEM;
  return 1;
}

void *malloc(size_t size) {
  static void *(*next)(size_t);
  if (!next) *(void **)&next = dlsym(RTLD_NEXT, "malloc");
  return refused() ? NULL : next(size);
}

void *realloc(void *kept, size_t size) {
  static void *(*next)(void *, size_t);
  if (!next) *(void **)&next = dlsym(RTLD_NEXT, "realloc");
  return refused() ? NULL : next(kept, size);
}
