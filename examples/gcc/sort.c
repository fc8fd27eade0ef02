/* SPDX-License-Identifier: Apache-2.0 */
/* Sorts the lines of its input, once by their bytes and once by their lengths. The order is a function that the sort calls
   by a pointer. */
#include "print.h"
#include "shuffler.h"

enum { MOST_BYTES = 65536, MOST_LINES = 2048 };

typedef long (*order)(const char *, const char *);

static char text[MOST_BYTES + 1];
static const char *lines[MOST_LINES], *merged[MOST_LINES];

static long by_bytes(const char *a, const char *b) {
  while (*a && *a == *b) a++, b++;
  return (unsigned char)*a - (unsigned char)*b;
}

static long by_length(const char *a, const char *b) {
  long difference = (long)length_of(a) - (long)length_of(b);
  return difference ? difference : by_bytes(a, b);
}

/* Puts two neighbouring runs of sorted lines together. */
static void merge(long from, long middle, long to, order of) {
  long left = from, right = middle;
  for (long at = from; at < to; at++) {
    int takes_left = left < middle && (right == to || of(lines[left], lines[right]) <= 0);
    merged[at] = takes_left ? lines[left++] : lines[right++];
  }
  for (long at = from; at < to; at++) lines[at] = merged[at];
}

static void sort(long from, long to, order of) {
  if (to - from < 2) return;
  long middle = from + (to - from) / 2;
  sort(from, middle, of);
  sort(middle, to, of);
  merge(from, middle, to, of);
}

/* Cuts the text into lines, and answers how many there are. */
static long cut(long size) {
  long count = 0;
  const char *start = text;
  for (long at = 0; at < size && count < MOST_LINES; at++) {
    if (text[at] != '\n') continue;
    text[at] = 0;
    lines[count++] = start;
    start = text + at + 1;
  }
  if (start < text + size && count < MOST_LINES) lines[count++] = start;
  return count;
}

static void show(const char *title, long count) {
  print(title);
  for (long at = 0; at < count; at++) {
    print(lines[at]);
    print("\n");
  }
}

int main(void) {
  long count = cut(read_all(text, MOST_BYTES));
  sort(0, count, by_bytes);
  show("by bytes:\n", count);
  sort(0, count, by_length);
  show("\nby length:\n", count);
  return 0;
}
