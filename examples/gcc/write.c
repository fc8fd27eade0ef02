/* SPDX-License-Identifier: Apache-2.0 */
/* What print.c writes by, in programs that start at entry.S. */
#include "print.h"
#include "shuffler.h"

void write_bytes(const char *text, unsigned long size) { write_output(text, size); }
