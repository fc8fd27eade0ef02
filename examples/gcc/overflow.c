/* SPDX-License-Identifier: Apache-2.0 */
/* Greets whom its input names. The name is copied to the stack without a look at its length: a longer one is written over
   the return address of `greet`. In overflow.in it is the address of `vault`, again and again. */
#include "print.h"
#include "shuffler.h"

static char input[256];

/* Nothing leads here, but a machine that takes return addresses from memory as they are can be led here. */
__attribute__((noinline)) void vault(void) {
  print("\nthe vault is open\n");
  exit_run(0);
}

__attribute__((noinline)) static void copy_line(char *to, const char *from, const char *end) {
  while (from < end && *from != '\n') *to++ = *from++;
  *to = 0;
}

__attribute__((noinline)) static void greet(const char *from, const char *end) {
  char name[16];
  copy_line(name, from, end);
  print("hello, ");
  print(name);
  print("\n");
}

int main(void) {
  long size = read_all(input, sizeof input);
  print("who is it?\n");
  greet(input, input + size);
  print("good bye\n");
  return 0;
}
