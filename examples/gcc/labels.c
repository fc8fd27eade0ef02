/* SPDX-License-Identifier: Apache-2.0 */
/* A machine that jumps from instruction to instruction by a table of labels (GNU C). The table is data, so it counts as
   a jump table; the address of a label in code would be refused. */
#include "print.h"

enum { ADD, DOUBLE, SHOW, AGAIN, STOP };

static const unsigned char code[] = {ADD, 3, DOUBLE, SHOW, AGAIN, 0, STOP};

static long run(const unsigned char *bytes, long value, long limit) {
  static const void *const labels[] = {&&add, &&twice, &&show, &&again, &&stop};
  const unsigned char *at = bytes;
  goto *labels[*at++];
add:
  value += *at++;
  goto *labels[*at++];
twice:
  value *= 2;
  goto *labels[*at++];
show:
  print_line("shows", value);
  goto *labels[*at++];
again:
  at = value < limit ? bytes + *at : at + 1;
  goto *labels[*at++];
stop:
  return value;
}

int main(void) {
  print_line("ends with", run(code, 1, 1000));
  return 0;
}
