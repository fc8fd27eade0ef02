/* SPDX-License-Identifier: Apache-2.0 */
/* Adds a number from its input to a pointer to a function, and calls what comes of it: as if the pointer was overwritten
   with an address that somebody worked out from one that leaked. In forged.in the number is the distance from `open` to
   `vault`, as it is in the file. */
#include "print.h"
#include "shuffler.h"

static char input[32];

__attribute__((noinline)) static void open(void) { print("the door is open\n"); }

/* Nothing leads here, but where code stays as it was linked its address can be worked out. */
__attribute__((noinline)) void vault(void) { print("the vault is open\n"); }

static void (*volatile leads_to)(void) = open;

static long number_in(const char *text) {
  int is_negative = *text == '-';
  long number = 0;
  for (text += is_negative; *text >= '0' && *text <= '9'; text++) number = 10 * number + (*text - '0');
  return is_negative ? -number : number;
}

int main(void) {
  leads_to();
  read_all(input, sizeof input - 1);
  leads_to = (void (*)(void))((char *)leads_to + number_in(input));
  leads_to();
  return 0;
}
