/* SPDX-License-Identifier: Apache-2.0 */
/* One switch. Where addresses count from the program counter, its table has differences of labels: such a file is
   refused, since two records stand at each place of the table. */
void write_bytes(const char *text, unsigned long size);

static volatile int chosen = 3;

int main(void) {
  switch (chosen) {
    case 0: write_bytes("none\n", 5); return 7;
    case 1: write_bytes("one\n", 4); return 5;
    case 2: write_bytes("two\n", 4); return 3;
    case 3: write_bytes("three\n", 6); return 0;
    case 4: write_bytes("four\n", 5); return 2;
    case 5: write_bytes("five\n", 5); return 4;
    default: return 1;
  }
}
