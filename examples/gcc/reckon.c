/* SPDX-License-Identifier: Apache-2.0 */
/* Reckons texts in reverse Polish notation, by a table of names and functions. */
#include "print.h"

typedef long (*operation)(long, long);

static long add(long a, long b) { return a + b; }
static long subtract(long a, long b) { return a - b; }
static long multiply(long a, long b) { return a * b; }
static long divide(long a, long b) { return b ? a / b : 0; }
static long remainder_of(long a, long b) { return b ? a % b : a; }

static long power(long a, long b) {
  if (b <= 0) return 1;
  long half = power(a, b / 2);
  return half * half * (b % 2 ? a : 1);
}

static const struct entry {
  const char *name;
  operation does;
} entries[] = {
  {"+", add}, {"-", subtract}, {"*", multiply}, {"/", divide}, {"%", remainder_of}, {"^", power},
};

static long stack[16];
static int depth;

static void push(long value) { stack[depth++ & 15] = value; }
static long pop(void) { return stack[--depth & 15]; }

static operation find(char name) {
  for (unsigned i = 0; i < sizeof entries / sizeof *entries; i++)
    if (entries[i].name[0] == name) return entries[i].does;
  return 0;
}

static long reckon(const char *text) {
  depth = 0;
  while (*text) {
    if (*text >= '0' && *text <= '9') {
      long value = 0;
      while (*text >= '0' && *text <= '9') value = 10 * value + (*text++ - '0');
      push(value);
      continue;
    }
    operation does = find(*text++);
    if (does) {
      long b = pop(), a = pop();
      push(does(a, b));
    }
  }
  return pop();
}

int main(void) {
  static const char *const texts[] = {"2 3 + 4 *", "7 2 - 3 ^", "1000000007 97 %", "6 0 /", "10 18 ^ 7 /"};
  for (unsigned i = 0; i < sizeof texts / sizeof *texts; i++) print_line(texts[i], reckon(texts[i]));
  return 0;
}
