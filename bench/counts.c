/* Counts in a run what it copies (COUNT=1), or what memory it holds (COUNT=2): that of pages of 4,096 bytes, and all
   else. */
#include "preload.h"
#include <malloc.h>
#include <stdint.h>
#include <string.h>

enum counted { COPIES = 1, MEMORY };

/* What is counted, as COUNT says. */
static enum counted counted(void) {
  static unsigned long first;
  if (!first) first = number("COUNT");
  return first;
}

/* A copy of bytes adds to `taken`. C's own function can't be asked for here, since looking for it may copy. */
static void *copy(void *to, const void *from, size_t size) {
  void *at = to;
  __asm__ volatile("rep movsb" : "+D"(at), "+S"(from), "+c"(size) : : "memory");
  return to;
}

static void add_copy(size_t size) {
  if (counted() == COPIES) {
    counts()->calls++;
    counts()->taken += size;
  }
}

void *memcpy(void *to, const void *from, size_t size) {
  add_copy(size);
  return copy(to, from, size);
}

void *memmove(void *to, const void *from, size_t size) {
  add_copy(size);
  uintptr_t start = (uintptr_t)to, other = (uintptr_t)from;
  if (start <= other || start - other >= size) return copy(to, from, size);
  for (size_t at = size; at > 0; at--) ((volatile char *)to)[at - 1] = ((const char *)from)[at - 1];
  return to;
}

/* Adds a block to what is held, or takes it away: a page to `calls`, and all else to `taken`. */
static void *held(void *block, int sign) {
  if (block && counted() == MEMORY) {
    size_t size = malloc_usable_size(block);
    *(size >= 4096 && size < 4128 ? &counts()->calls : &counts()->taken) += sign * (long)size;
  }
  return block;
}

void *malloc(size_t size) {
  NEXT(malloc);
  return held(next(size), 1);
}

void *aligned_alloc(size_t to, size_t size) {
  NEXT(aligned_alloc);
  return held(next(to, size), 1);
}

void *realloc(void *old, size_t size) {
  NEXT(realloc);
  held(old, -1);
  void *block = next(old, size);
  held(block || !size ? block : old, 1);
  return block;
}

void free(void *block) {
  NEXT(free);
  next(held(block, -1));
}
