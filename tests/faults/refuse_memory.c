/* Refuses the allocation REFUSE of a run: of all, or of those after the first byte of standard input was asked for
   (REFUSE_FROM_INPUT), or after a file was opened (REFUSE_FROM_FILE). With REFUSE_BLOCKS each one of that many bytes or more.
   Next to the allocations, the blocks are counted that were given and not freed. */
#include "preload.h"
#include <stdarg.h>
#include <string.h>

static int asked, waits;
static unsigned long refused, block;

static int refuse(size_t size) {
  if (!asked) {
    asked = 1;
    refused = number("REFUSE");
    block = number("REFUSE_BLOCKS");
    waits = getenv("REFUSE_FROM_INPUT") || getenv("REFUSE_FROM_FILE");
  }
  return !waits && (++counts()->calls == refused || (block && size >= block));
}

ssize_t read(int from, void *to, size_t size) {
  NEXT(read);
  if (from == 0) waits = 0;
  return next(from, to, size);
}

int open(const char *path, int how, ...) {
  NEXT(open);
  va_list more;
  va_start(more, how);
  int mode = va_arg(more, int);
  va_end(more);
  const char *named = getenv("REFUSE_FROM_FILE");
  if (named && !strcmp(named, path)) waits = 0;
  return next(path, how, mode);
}

/* A block that was given, if it was. */
static void *held(void *block) {
  if (block) counts()->taken++;
  return block;
}

void *malloc(size_t size) {
  NEXT(malloc);
  return refuse(size) ? 0 : held(next(size));
}

void *aligned_alloc(size_t to, size_t size) {
  NEXT(aligned_alloc);
  return refuse(size) ? 0 : held(next(to, size));
}

void *realloc(void *old, size_t size) {
  NEXT(realloc);
  if (refuse(size)) return 0;
  return old ? next(old, size) : held(next(old, size));
}

void free(void *block) {
  NEXT(free);
  if (block) counts()->taken--;
  next(block);
}
