/* SPDX-License-Identifier: Apache-2.0 */
/* Frames that one instruction cannot make: above 2,047 bytes sp moves by a register, and ra is saved in between. */
#include "print.h"

#define APART __attribute__((noinline))

APART static void fill(int *values, int size, int by) {
  for (int i = 0; i < size; i++) values[i] = i * by;
}

APART static long sum(const int *values, int size, int step) {
  long total = 0;
  for (int i = 0; i < size; i += step) total += values[i];
  return total;
}

/* The deepest frame that moves sp once. */
APART static long shallow(int by) {
  int values[500];
  fill(values, 500, by);
  return sum(values, 500, 50);
}

APART static long deep(int by) {
  int values[520];
  fill(values, 520, by);
  return sum(values, 520, 40) + shallow(by + 1);
}

/* Above 4,096 bytes the register takes two instructions. */
APART static long deepest(int by) {
  int values[1100];
  fill(values, 1100, by);
  return sum(values, 1100, 100) + (by > 3 ? 0 : shallow(by));
}

APART static long again(int depth) {
  char text[1024];
  for (int i = 0; i < 1024; i += 64) text[i] = (char)(depth + i);
  long total = depth ? again(depth - 1) : 0;
  for (int i = 0; i < 1024; i += 64) total += text[i];
  return total;
}

int main(void) {
  print_line("shallow", shallow(3));
  print_line("deep", deep(2));
  print_line("deepest", deepest(1));
  print_line("again", again(5));
  return 0;
}
