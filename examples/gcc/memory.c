/* SPDX-License-Identifier: Apache-2.0 */
/* What the compiler calls for data that is copied, set or compared. It must not make calls of itself of these loops. */
#pragma GCC optimize("no-tree-loop-distribute-patterns")

void *memcpy(void *to, const void *from, unsigned long size) {
  char *target = to;
  for (const char *source = from; size; size--) *target++ = *source++;
  return to;
}

void *memmove(void *to, const void *from, unsigned long size) {
  char *target = to;
  const char *source = from;
  if (target < source) return memcpy(to, from, size);
  while (size--) target[size] = source[size];
  return to;
}

void *memset(void *to, int byte, unsigned long size) {
  for (char *target = to; size; size--) *target++ = (char)byte;
  return to;
}

int memcmp(const void *one, const void *other, unsigned long size) {
  const unsigned char *a = one, *b = other;
  for (; size; size--, a++, b++)
    if (*a != *b) return *a - *b;
  return 0;
}
