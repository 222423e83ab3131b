/* Refuses one growth of a program, which this library is preloaded to: the Nth call from a point on that asks the C
   library for memory. That point and N are given in one of two ways.

   The environment: REFUSED_GROWTH=N counts from the start of the program on. Where REFUSED_GROWTH_TOLD names a file
   descriptor, one byte is written to it when the growth is refused.

   Orders of the program itself: it asks for ORDER + N bytes, which no C library has. N is the growth to refuse, counted
   from there on; for 0 none is refused any more, and for ASK the next one is refused exactly where the last order
   was met. An order is refused itself, so a program that gives orders runs without this library as well. */
#define _GNU_SOURCE
#include <errno.h>
#include <stddef.h>
#include <stdint.h>
#include <stdlib.h>
#include <unistd.h>

#define ORDER ((size_t)1 << 60)
#define ASK ((size_t)1 << 32)

extern void *__libc_malloc(size_t size);
extern void *__libc_calloc(size_t count, size_t size);
extern void *__libc_realloc(void *block, size_t size);
extern void *__libc_memalign(size_t alignment, size_t size);

/* how many growths are left up to the one to refuse, that one included; 0 where none is to be refused */
static size_t left;
/* whether the last order was met */
static int met;
/* where a refusal is told; -1 for nowhere */
static int told = -1;

static size_t number_of(const char *name) {
  const char *text = getenv(name);
  return text ? strtoul(text, NULL, 10) : 0;
}

__attribute__((constructor)) static void begin(void) {
  if (getenv("REFUSED_GROWTH_TOLD")) told = (int)number_of("REFUSED_GROWTH_TOLD");
  left = number_of("REFUSED_GROWTH");
}

static void obey(size_t order) {
  if (order == ASK) {
    left = met ? 1 : 0;
  } else {
    left = order;
    if (order) met = 0;
  }
}

/* whether a growth by so many bytes is refused */
static int refuses(size_t size) {
  if (size >= ORDER && size <= ORDER + ASK) {
    obey(size - ORDER);
  } else if (left == 0 || --left > 0) {
    return 0;
  } else {
    met = 1;
    if (told >= 0 && write(told, "x", 1) != 1) _exit(99);
  }
  errno = ENOMEM;
  return 1;
}

void *malloc(size_t size) { return refuses(size) ? NULL : __libc_malloc(size); }

void *calloc(size_t count, size_t size) { return refuses(size) ? NULL : __libc_calloc(count, size); }

void *realloc(void *block, size_t size) { return refuses(size) ? NULL : __libc_realloc(block, size); }

void *memalign(size_t alignment, size_t size) { return refuses(size) ? NULL : __libc_memalign(alignment, size); }

void *aligned_alloc(size_t alignment, size_t size) { return memalign(alignment, size); }

int posix_memalign(void **block, size_t alignment, size_t size) {
  void *made = memalign(alignment, size);
  if (!made) return ENOMEM;
  *block = made;
  return 0;
}
