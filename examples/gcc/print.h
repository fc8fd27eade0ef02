/* SPDX-License-Identifier: Apache-2.0 */
void write_bytes(const char *text, unsigned long size);
unsigned long length_of(const char *text);
void print(const char *text);
void print_number(unsigned long number, unsigned base);
void print_line(const char *name, long value);
const char *line_end(void);
