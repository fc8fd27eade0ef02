/* SPDX-License-Identifier: Apache-2.0 */
/* The environment calls of a guest, as C functions. A program that includes this is linked with entry.S.

   An answer below zero says why a call was refused: -9 no such file, -14 bytes that cannot be read or written, -22 no
   function whose address is taken, -1 too many harts or no such hart. Where a byte of a saved return address is among
   those that a call may read into or writes from, the run ends there with a leak. */
#ifndef SHUFFLER_H
#define SHUFFLER_H

enum { CALL_READ = 63, CALL_WRITE = 64, CALL_EXIT_HART = 93, CALL_EXIT = 94, CALL_START = 2000, CALL_ENDED = 2001, CALL_NUMBER = 2002 };

/* The call of this number with its arguments; all registers but that of the answer stay. */
static inline long environment(long number, long first, long second, long third) {
  register long a0 __asm__("a0") = first;
  register long a1 __asm__("a1") = second;
  register long a2 __asm__("a2") = third;
  register long a3 __asm__("a3") = 0;
  register long a7 __asm__("a7") = number;
  __asm__ volatile("ecall" : "+r"(a0) : "r"(a1), "r"(a2), "r"(a3), "r"(a7) : "memory");
  return a0;
}

/* Reads at most `size` bytes of the input, and answers how many there were: 0 at its end. */
static inline long read_input(void *into, unsigned long size) { return environment(CALL_READ, 0, (long)into, (long)size); }

/* Reads up to the input's end or until `size` bytes are there, and answers how many there are. */
static inline long read_all(char *into, long size) {
  long all = 0, more;
  while (all < size && (more = read_input(into + all, (unsigned long)(size - all))) > 0) all += more;
  return all;
}

/* Adds bytes to the output, and answers how many: all. */
static inline long write_output(const void *from, unsigned long size) { return environment(CALL_WRITE, 1, (long)from, (long)size); }

/* Ends the run, whatever other harts there are, with a code from 0 to 255. */
_Noreturn static inline void exit_run(int code) {
  environment(CALL_EXIT, code, 0, 0);
  for (;;) {}
}

/* Ends this hart alone. The run ends when no hart is left, with the code of the first, which has the number 0. */
_Noreturn static inline void exit_hart(int code) {
  environment(CALL_EXIT_HART, code, 0, 0);
  for (;;) {}
}

/* Starts a hart at a function with an argument. `stack_end` is the address behind its stack, a multiple of 16. It ends
   when the function returns, with what that returns as its code. Answers the hart's number, from 1 to 63. */
static inline long start_hart(long (*function)(long), long argument, void *stack_end) {
  return environment(CALL_START, (long)function, argument, (long)stack_end);
}

/* 1 where the hart of this number has ended, 0 where it has not. */
static inline long has_ended(long hart) { return environment(CALL_ENDED, hart, 0, 0); }

/* The number of the hart that asks. */
static inline long own_number(void) { return environment(CALL_NUMBER, 0, 0, 0); }

#endif
