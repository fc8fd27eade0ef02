/* SPDX-License-Identifier: Apache-2.0 */
/* The smallest program: it writes a line. */
#include "shuffler.h"

static const char text[] = "hello from wherever this function lies\n";

int main(void) {
  return write_output(text, sizeof text - 1) != sizeof text - 1;
}
