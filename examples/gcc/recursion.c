/* SPDX-License-Identifier: Apache-2.0 */
/* Deep recursion, long enough that new layouts come while many return addresses are on the stack. */
#include "print.h"

static long ackermann(long m, long n) {
  if (!m) return n + 1;
  if (!n) return ackermann(m - 1, 1);
  return ackermann(m - 1, ackermann(m, n - 1));
}

static long moves;
static int pegs[3] = {8};

static void move_tower(int height, int from, int to, int by) {
  if (!height) return;
  move_tower(height - 1, from, by, to);
  pegs[from]--;
  pegs[to]++;
  moves++;
  move_tower(height - 1, by, to, from);
}

static int is_odd(unsigned number);
static int is_even(unsigned number) { return number == 0 || is_odd(number - 1); }
static int is_odd(unsigned number) { return number != 0 && is_even(number - 1); }

static void swap(char *a, char *b) {
  char other = *a;
  *a = *b;
  *b = other;
}

static long permutations;

static void permute(char *text, unsigned from, unsigned size) {
  if (from == size) {
    if (permutations++ % 5 == 0) {
      print(text);
      print("\n");
    }
    return;
  }
  for (unsigned i = from; i < size; i++) {
    swap(text + from, text + i);
    permute(text, from + 1, size);
    swap(text + from, text + i);
  }
}

int main(void) {
  char text[] = "abcd";
  permute(text, 0, 4);
  print_line("permutations", permutations);
  move_tower(8, 0, 2, 1);
  print_line("moves", moves);
  print_line("moved", pegs[2]);
  print_line("even", is_even(100));
  print_line("ackermann", ackermann(3, 4));
  return 0;
}
