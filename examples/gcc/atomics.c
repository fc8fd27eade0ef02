/* SPDX-License-Identifier: Apache-2.0 */
/* Words that are changed by LR and SC and by AMO instructions, in inline assembly and by the compiler's own calls. */
#include "print.h"

static long word;
static int half, lock;

/* Puts a value in place of another, and answers what was there. */
static long swap_if(long *at, long old, long new) {
  long found;
  int failed;
  __asm__ volatile(
    "1: lr.d.aq %0, (%2)\n"
    "   bne %0, %3, 2f\n"
    "   sc.d.rl %1, %4, (%2)\n"
    "   bnez %1, 1b\n"
    "2:"
    : "=&r"(found), "=&r"(failed) : "r"(at), "r"(old), "r"(new) : "memory");
  return found;
}

/* An SC without its LR stores nothing. */
static int is_refused(int *at) {
  int failed;
  __asm__ volatile("sc.w %0, zero, (%1)" : "=r"(failed) : "r"(at) : "memory");
  return failed != 0;
}

#define DOES(name, instruction)                                                                      \
  static long name(long *at, long by) {                                                              \
    long old;                                                                                        \
    __asm__ volatile(instruction ".d %0, %2, (%1)" : "=r"(old) : "r"(at), "r"(by) : "memory");       \
    return old;                                                                                      \
  }
DOES(add, "amoadd")
DOES(exchange, "amoswap")
DOES(mask, "amoand")
DOES(least, "amomin")
DOES(greatest, "amomaxu")

static long (*const steps[])(long *, long) = {add, exchange, greatest, least, mask};
static const long with[] = {100, -5, 7, -9, 0xff};

static void take(int *at) {
  while (__atomic_exchange_n(at, 1, __ATOMIC_ACQUIRE)) {}
}

static void give(int *at) { __atomic_store_n(at, 0, __ATOMIC_RELEASE); }

int main(void) {
  print_line("found", swap_if(&word, 0, 41));
  print_line("found", swap_if(&word, 7, 99));
  for (unsigned i = 0; i < sizeof with / sizeof *with; i++) print_line("was", steps[i](&word, with[i]));
  print_line("word", word);
  take(&lock);
  for (int i = 0; i < 3; i++) __atomic_fetch_add(&half, 0x40000000, __ATOMIC_RELAXED);
  give(&lock);
  print_line("half", half);
  print_line("refused", is_refused(&lock));
  long expected = 5;
  while (!__atomic_compare_exchange_n(&word, &expected, 6, 0, __ATOMIC_SEQ_CST, __ATOMIC_RELAXED))
    print_line("expected", expected);
  print_line("word", word);
  return 0;
}
