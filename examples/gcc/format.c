/* SPDX-License-Identifier: Apache-2.0 */
/* Text by a format and a variable number of arguments: those in registers are stored above the frame's other parts. */
#include <stdarg.h>
#include "print.h"

static char line[128];
static unsigned length;

static void put(char sign) {
  if (length < sizeof line) line[length++] = sign;
}

static void put_number(unsigned long number, unsigned base, int width, char pad) {
  char digits[64];
  int size = 0;
  do {
    digits[size++] = "0123456789abcdef"[number % base];
    number /= base;
  } while (number);
  while (width-- > size) put(pad);
  while (size) put(digits[--size]);
}

static unsigned format(const char *text, ...) {
  va_list more;
  va_start(more, text);
  length = 0;
  for (; *text; text++) {
    if (*text != '%') {
      put(*text);
      continue;
    }
    char pad = ' ';
    int width = 0;
    if (*++text == '0') pad = *text++;
    while (*text >= '0' && *text <= '9') width = 10 * width + (*text++ - '0');
    if (*text == '*') {
      width = va_arg(more, int);
      text++;
    }
    switch (*text) {
      case 'd': {
        long number = va_arg(more, long);
        if (number < 0) put('-');
        put_number(number < 0 ? -(unsigned long)number : (unsigned long)number, 10, width, pad);
        break;
      }
      case 'u': put_number(va_arg(more, unsigned long), 10, width, pad); break;
      case 'x': put_number(va_arg(more, unsigned long), 16, width, pad); break;
      case 'b': put_number(va_arg(more, unsigned long), 2, width, pad); break;
      case 'c': put((char)va_arg(more, int)); break;
      case 's':
        for (const char *part = va_arg(more, const char *); *part; part++) put(*part);
        break;
      case '%': put('%'); break;
      default: put('?');
    }
  }
  va_end(more);
  write_bytes(line, length);
  return length;
}

/* More arguments than registers: the last ones come on the stack. */
static long sum_of(int count, ...) {
  va_list more;
  va_start(more, count);
  long sum = 0;
  while (count--) sum += va_arg(more, long);
  va_end(more);
  return sum;
}

int main(void) {
  unsigned size = format("%d %u %x %b %c %s %% %q\n", -17L, 42ul, 0xbeeful, 10ul, 'z', "text");
  format("%08x|%8d|%03u|%*d|\n", 0xabcul, 123L, 5ul, 6, 77L);
  format("%d %x\n", -9223372036854775807L - 1, ~0ul);
  format("size %d sum %d\n", (long)size, sum_of(11, 1L, 2L, 3L, 4L, 5L, 6L, 7L, 8L, 9L, 10L, 1L << 40));
  return 0;
}
