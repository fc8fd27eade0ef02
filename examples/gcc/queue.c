/* SPDX-License-Identifier: Apache-2.0 */
/* Four harts share a queue: the first puts numbers into it, three take them out and reckon. A place in the queue is taken
   by a compare and exchange (LR and SC), sums are kept by additions in memory (AMO). What is written is the same in
   whatever order the harts have their turns. */
#include "print.h"
#include "shuffler.h"

enum { BOXES = 16, WORKERS = 3, NUMBERS = 60, STACK = 4096, STOP = 0 };

/* A box may be filled by the one who is at its turn, and emptied at the turn behind that. */
struct box {
  long turn, number;
};

static struct box boxes[BOXES];
static long fills, empties;
static long steps, taken[1 + WORKERS];
static char stacks[WORKERS][STACK] __attribute__((aligned(16)));

/* Takes the turn from a counter, if nobody else did. */
static int takes(long *counter, long turn) {
  return __atomic_compare_exchange_n(counter, &turn, turn + 1, 0, __ATOMIC_SEQ_CST, __ATOMIC_SEQ_CST);
}

/* The next turn of a counter, once the box that it leads to is at that turn and `past` more. */
static struct box *next_box(long *counter, long past, long *turn) {
  for (;;) {
    *turn = __atomic_load_n(counter, __ATOMIC_SEQ_CST);
    struct box *box = &boxes[*turn % BOXES];
    if (__atomic_load_n(&box->turn, __ATOMIC_SEQ_CST) == *turn + past && takes(counter, *turn)) return box;
  }
}

static void put(long number) {
  long turn;
  struct box *box = next_box(&fills, 0, &turn);
  box->number = number;
  __atomic_store_n(&box->turn, turn + 1, __ATOMIC_SEQ_CST);
}

static long take(void) {
  long turn;
  struct box *box = next_box(&empties, 1, &turn);
  long number = box->number;
  __atomic_store_n(&box->turn, turn + BOXES, __ATOMIC_SEQ_CST);
  return number;
}

/* How often a number is halved, or tripled and one added, until it is 1. */
static long steps_of(long number) {
  long count = 0;
  for (; number != 1; count++) number = number % 2 ? 3 * number + 1 : number / 2;
  return count;
}

/* What each further hart does. */
static long work(long expected) {
  if (own_number() != expected) return 1;
  for (long number; (number = take()) != STOP;) {
    __atomic_fetch_add(&steps, steps_of(number), __ATOMIC_SEQ_CST);
    taken[expected]++;
  }
  return 0;
}

int main(void) {
  for (long i = 0; i < BOXES; i++) boxes[i].turn = i;
  for (long i = 1; i <= WORKERS; i++)
    if (start_hart(work, i, stacks[i - 1] + STACK) != i) return 1;
  for (long number = 1; number <= NUMBERS; number++) put(number);
  for (long i = 0; i < WORKERS; i++) put(STOP);

  long all = 0;
  for (long i = 1; i <= WORKERS; i++) {
    while (!has_ended(i)) {}
    all += taken[i];
  }
  print_line("numbers", all);
  print_line("steps", steps);
  print_line("hart", own_number());
  print_line("no such hart", has_ended(1 + WORKERS));
  return 0;
}
