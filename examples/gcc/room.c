/* SPDX-License-Identifier: Apache-2.0 */
/* An array whose size is known only as the program runs: sp moves by a number that is not known, which is refused. */
#include "print.h"

__attribute__((noinline)) static long sum_of_squares(int size) {
  long squares[size], sum = 0;
  for (int i = 0; i < size; i++) squares[i] = (long)i * i;
  for (int i = 0; i < size; i++) sum += squares[i];
  return sum;
}

static volatile int size = 9;

int main(void) {
  print_line("sum", sum_of_squares(size));
  return 0;
}
