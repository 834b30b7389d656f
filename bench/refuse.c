/* Refuses one request for memory of the program that this is loaded into, by LD_PRELOAD: the one whose number, from 1, REFUSED
   says. Requests count from the start of the program's own code, those of the loader do not. A refusal is told by a byte to the
   descriptor REFUSED_TOLD. Nothing here takes memory. */
#include <errno.h>
#include <stdlib.h>
#include <unistd.h>

extern void *__libc_malloc(size_t size);
extern void *__libc_calloc(size_t count, size_t size);
extern void *__libc_realloc(void *old, size_t size);
extern void *__libc_memalign(size_t alignment, size_t size);

/* How many requests there are up to the refused one; 0 where none is to be refused any more. */
static long left;
static int told;

__attribute__((constructor)) static void start(void) {
  const char *number = getenv("REFUSED"), *descriptor = getenv("REFUSED_TOLD");
  if (number == NULL || descriptor == NULL) return;
  told = atoi(descriptor);
  left = atol(number);
}

static int refused(void) {
  if (left == 0 || --left != 0) return 0;
  if (write(told, "!", 1) != 1) abort();
  errno = ENOMEM;
  return 1;
}

void *malloc(size_t size) { return refused() ? NULL : __libc_malloc(size); }

void *calloc(size_t count, size_t size) { return refused() ? NULL : __libc_calloc(count, size); }

void *realloc(void *old, size_t size) { return refused() ? NULL : __libc_realloc(old, size); }

void *aligned_alloc(size_t alignment, size_t size) { return refused() ? NULL : __libc_memalign(alignment, size); }

int posix_memalign(void **place, size_t alignment, size_t size) {
  void *made = refused() ? NULL : __libc_memalign(alignment, size);
  if (made == NULL) return ENOMEM;
  *place = made;
  return 0;
}
