/* SPDX-License-Identifier: Apache-2.0 */
/* A library that stands before the allocator of a program (LD_PRELOAD) and refuses the calls with the numbers from
   REFUSED_FIRST to REFUSED_LAST, counted from 1. The first eight bytes of the file REFUSED_COUNT get the number of calls
   that were made, however the program ends. */
#include <errno.h>
#include <fcntl.h>
#include <stdlib.h>
#include <sys/mman.h>

void *__libc_malloc(size_t size);
void *__libc_calloc(size_t number, size_t size);
void *__libc_realloc(void *old, size_t size);
void *__libc_memalign(size_t alignment, size_t size);

static long before_start, first, last;
static long *calls = &before_start;

__attribute__((constructor)) static void start(void) {
  int file = open(getenv("REFUSED_COUNT"), O_RDWR);
  void *place = mmap(NULL, sizeof *calls, PROT_READ | PROT_WRITE, MAP_SHARED, file, 0);
  if (place == MAP_FAILED) abort();
  first = atol(getenv("REFUSED_FIRST"));
  last = atol(getenv("REFUSED_LAST"));
  calls = place;
}

static int is_refused(void) {
  long number = __atomic_add_fetch(calls, 1, __ATOMIC_RELAXED);
  if (number < first || number > last) return 0;
  errno = ENOMEM;
  return 1;
}

void *malloc(size_t size) { return is_refused() ? NULL : __libc_malloc(size); }
void *calloc(size_t number, size_t size) { return is_refused() ? NULL : __libc_calloc(number, size); }
void *realloc(void *old, size_t size) { return is_refused() ? NULL : __libc_realloc(old, size); }
void *aligned_alloc(size_t alignment, size_t size) { return is_refused() ? NULL : __libc_memalign(alignment, size); }
