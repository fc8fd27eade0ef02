/* SPDX-License-Identifier: Apache-2.0 */
/* Functions that do not come back. The code behind a call of one is another path's, but counts as reached from the call:
   where only some paths have a frame (-fshrink-wrap) that may be refused. The program ends with code 4. */
#include "print.h"

#define ALONE __attribute__((noinline))

_Noreturn static void leave(long status) {
  register long number __asm__("a7") = 93;
  register long first __asm__("a0") = status;
  __asm__ volatile("ecall" : : "r"(number), "r"(first));
  __builtin_unreachable();
}

_Noreturn ALONE static void fail(const char *why, long status) {
  print_line(why, status);
  leave(status);
}

ALONE static int checked(const int *from, int size, int at) {
  if (at < 0) fail("below", 3);
  if (at >= size) fail("above", 4);
  return from[at];
}

ALONE static long divided(long a, long b) {
  if (!b) fail("zero", 5);
  return a / b;
}

ALONE static long tenfold(int number) {
  switch (number) {
    case 1: return 10;
    case 2: return 20;
    case 3: return 30;
    case 4: return 40;
    case 5: return 50;
    default: __builtin_unreachable();
  }
}

static const int values[] = {4, 8, 15, 16, 23, 42};
static volatile int limit = 7;

int main(void) {
  long sum = 0;
  for (int i = 0; i < 6; i++) sum += checked(values, 6, i) * tenfold(i % 5 + 1);
  print_line("sum", sum);
  print_line("divided", divided(sum, limit));
  for (int i = 0; i < limit; i++) sum += checked(values, 6, i);
  print_line("not reached", sum);
  return 0;
}
