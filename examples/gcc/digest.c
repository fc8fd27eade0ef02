/* SPDX-License-Identifier: Apache-2.0 */
/* SHA-256 of some texts (FIPS 180-4). */
#include "print.h"

static const unsigned constants[64] = {
  0x428a2f98, 0x71374491, 0xb5c0fbcf, 0xe9b5dba5, 0x3956c25b, 0x59f111f1, 0x923f82a4, 0xab1c5ed5,
  0xd807aa98, 0x12835b01, 0x243185be, 0x550c7dc3, 0x72be5d74, 0x80deb1fe, 0x9bdc06a7, 0xc19bf174,
  0xe49b69c1, 0xefbe4786, 0x0fc19dc6, 0x240ca1cc, 0x2de92c6f, 0x4a7484aa, 0x5cb0a9dc, 0x76f988da,
  0x983e5152, 0xa831c66d, 0xb00327c8, 0xbf597fc7, 0xc6e00bf3, 0xd5a79147, 0x06ca6351, 0x14292967,
  0x27b70a85, 0x2e1b2138, 0x4d2c6dfc, 0x53380d13, 0x650a7354, 0x766a0abb, 0x81c2c92e, 0x92722c85,
  0xa2bfe8a1, 0xa81a664b, 0xc24b8b70, 0xc76c51a3, 0xd192e819, 0xd6990624, 0xf40e3585, 0x106aa070,
  0x19a4c116, 0x1e376c08, 0x2748774c, 0x34b0bcb5, 0x391c0cb3, 0x4ed8aa4a, 0x5b9cca4f, 0x682e6ff3,
  0x748f82ee, 0x78a5636f, 0x84c87814, 0x8cc70208, 0x90befffa, 0xa4506ceb, 0xbef9a3f7, 0xc67178f2,
};
static const unsigned start[8] = {
  0x6a09e667, 0xbb67ae85, 0x3c6ef372, 0xa54ff53a, 0x510e527f, 0x9b05688c, 0x1f83d9ab, 0x5be0cd19,
};

struct digest {
  unsigned state[8];
  unsigned char block[64];
  unsigned long size;
};

static unsigned turned(unsigned word, int by) { return word >> by | word << (32 - by); }

static unsigned mixed(unsigned word, int a, int b, int c) {
  return turned(word, a) ^ turned(word, b) ^ turned(word, c);
}

static unsigned spread(unsigned word, int a, int b, int c) {
  return turned(word, a) ^ turned(word, b) ^ word >> c;
}

static void take_block(struct digest *d) {
  unsigned words[64], s[8];
  for (int i = 0; i < 16; i++) {
    words[i] = 0;
    for (int k = 0; k < 4; k++) words[i] = words[i] << 8 | d->block[4 * i + k];
  }
  for (int i = 16; i < 64; i++) {
    words[i] = words[i - 16] + words[i - 7] + spread(words[i - 15], 7, 18, 3) + spread(words[i - 2], 17, 19, 10);
  }
  for (int i = 0; i < 8; i++) s[i] = d->state[i];
  for (int i = 0; i < 64; i++) {
    unsigned first = s[7] + mixed(s[4], 6, 11, 25) + ((s[4] & s[5]) ^ (~s[4] & s[6])) + constants[i] + words[i];
    unsigned second = mixed(s[0], 2, 13, 22) + ((s[0] & s[1]) ^ (s[0] & s[2]) ^ (s[1] & s[2]));
    for (int k = 7; k; k--) s[k] = s[k - 1];
    s[4] += first;
    s[0] = first + second;
  }
  for (int i = 0; i < 8; i++) d->state[i] += s[i];
}

static void take(struct digest *d, unsigned char byte) {
  d->block[d->size++ % 64] = byte;
  if (d->size % 64 == 0) take_block(d);
}

static void show(const char *text, unsigned times) {
  struct digest d = {.size = 0};
  for (int i = 0; i < 8; i++) d.state[i] = start[i];
  while (times--)
    for (const char *sign = text; *sign; sign++) take(&d, (unsigned char)*sign);
  unsigned long bits = 8 * d.size;
  take(&d, 0x80);
  while (d.size % 64 != 56) take(&d, 0);
  for (int shift = 56; shift >= 0; shift -= 8) take(&d, (unsigned char)(bits >> shift));
  for (int i = 0; i < 8; i++)
    for (int shift = 28; shift >= 0; shift -= 4) print_number(d.state[i] >> shift & 15, 16);
  print("\n");
}

/* The compiler calls these for data that is copied or cleared. */
void *memcpy(void *to, const void *from, unsigned long size) {
  char *target = to;
  for (const char *source = from; size; size--) *target++ = *source++;
  return to;
}

void *memset(void *to, int byte, unsigned long size) {
  for (char *target = to; size; size--) *target++ = (char)byte;
  return to;
}

int main(void) {
  show("", 1);
  show("abc", 1);
  show("shuffler ", 100);
  return 0;
}
