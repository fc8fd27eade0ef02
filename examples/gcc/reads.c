/* SPDX-License-Identifier: Apache-2.0 */
/* Reads all of its input, in pieces of several sizes, and says what it read: bytes, lines, words and a checksum. */
#include "print.h"

static unsigned char buffer[4096];

static long read_bytes(void *into, unsigned long size) {
  register long file asm("a0") = 0;
  register void *place asm("a1") = into;
  register unsigned long length asm("a2") = size;
  register long call asm("a7") = 63;
  asm volatile("ecall" : "+r"(file) : "r"(place), "r"(length), "r"(call) : "memory");
  return file;
}

static const unsigned long sizes[] = {1, 7, 64, 1000, 4096, 3, 512};

struct counts {
  unsigned long bytes, lines, words, reads, checksum;
  int in_word;
};

static void take(struct counts *counts, const unsigned char *text, long size) {
  for (long i = 0; i < size; i++) {
    unsigned char c = text[i];
    int space = c == ' ' || c == '\n' || c == '\t';
    counts->checksum = (counts->checksum ^ c) * 0x100000001b3ul;
    counts->lines += c == '\n';
    counts->words += counts->in_word && space;
    counts->in_word = !space;
  }
  counts->bytes += (unsigned long)size;
  counts->reads++;
}

int main(void) {
  struct counts counts = {0, 0, 0, 0, 0xcbf29ce484222325ul, 0};
  for (unsigned turn = 0;; turn++) {
    long size = read_bytes(buffer, sizes[turn % 7]);
    if (size < 0) return 1;
    if (size == 0) break;
    take(&counts, buffer, size);
  }
  print_line("bytes", (long)counts.bytes);
  print_line("lines", (long)counts.lines);
  print_line("words", (long)counts.words);
  print_line("reads", (long)counts.reads);
  print_line("checksum", (long)(counts.checksum >> 8));
  return counts.in_word;
}
