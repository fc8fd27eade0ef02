/* SPDX-License-Identifier: Apache-2.0 */
/* Text to the output: what the programs share. */
#include "print.h"

unsigned long length_of(const char *text) {
  unsigned long length = 0;
  while (text[length]) length++;
  return length;
}

void print(const char *text) { write_bytes(text, length_of(text)); }

/* A number in a base from 2 to 16, by division. */
void print_number(unsigned long number, unsigned base) {
  static const char digits[] = "0123456789abcdef";
  char text[64];
  unsigned place = sizeof text;
  do {
    text[--place] = digits[number % base];
    number /= base;
  } while (number);
  write_bytes(text + place, sizeof text - place);
}

/* Programs may have a line end of their own. */
__attribute__((weak)) const char *line_end(void) { return "\n"; }

void print_line(const char *name, long value) {
  print(name);
  print(value < 0 ? " -" : " ");
  print_number(value < 0 ? -(unsigned long)value : (unsigned long)value, 10);
  print(line_end());
}
