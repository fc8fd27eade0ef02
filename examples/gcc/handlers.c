/* SPDX-License-Identifier: Apache-2.0 */
/* Does what the lines of its input say: names of handlers with `+` between them, a blank, and the text that they are done
   to, one after the other. The handlers stand in a table beside their names. In the running program such a pointer is a
   token that stands for the function: it can be copied, compared and called, wherever the function lies by then. */
#include "print.h"
#include "shuffler.h"

/* Changes a text in place, and answers its new size, which is no greater. */
typedef long (*handler)(char *text, long size);

static long upper(char *text, long size) {
  for (long at = 0; at < size; at++)
    if (text[at] >= 'a' && text[at] <= 'z') text[at] -= 'a' - 'A';
  return size;
}

static long reverse(char *text, long size) {
  for (long at = 0, last = size - 1; at < last; at++, last--) {
    char other = text[at];
    text[at] = text[last];
    text[last] = other;
  }
  return size;
}

static char turned(char sign, char first) { return (char)(first + (sign - first + 13) % 26); }

static long turn(char *text, long size) {
  for (long at = 0; at < size; at++) {
    if (text[at] >= 'a' && text[at] <= 'z') text[at] = turned(text[at], 'a');
    else if (text[at] >= 'A' && text[at] <= 'Z') text[at] = turned(text[at], 'A');
  }
  return size;
}

static long squeeze(char *text, long size) {
  long kept = 0;
  for (long at = 0; at < size; at++)
    if (text[at] != ' ' || (kept && text[kept - 1] != ' ')) text[kept++] = text[at];
  return kept;
}

static struct entry {
  const char *name;
  handler does;
  long uses;
} entries[] = {{"upper", upper, 0}, {"reverse", reverse, 0}, {"turn", turn, 0}, {"squeeze", squeeze, 0}};

enum { COUNT = sizeof entries / sizeof *entries };

static int is_name(const char *name, const char *text, long size) {
  long at = 0;
  while (at < size && name[at] && name[at] == text[at]) at++;
  return at == size && !name[at];
}

static struct entry *find(const char *text, long size) {
  for (unsigned i = 0; i < COUNT; i++)
    if (is_name(entries[i].name, text, size)) return &entries[i];
  return 0;
}

/* Where the first of two signs stands, or the text ends. */
static long until(const char *text, long size, char sign, char other) {
  long at = 0;
  while (at < size && text[at] != sign && text[at] != other) at++;
  return at;
}

static void do_line(char *line, long size) {
  long names = until(line, size, ' ', ' ');
  char *text = line + names + (names < size);
  long length = size - (text - line);
  for (long at = 0, end; at < names; at = end + 1) {
    end = at + until(line + at, names - at, '+', ' ');
    struct entry *entry = find(line + at, end - at);
    if (!entry) {
      print("no such handler: ");
      text = line + at, length = end - at;
      break;
    }
    entry->uses++;
    length = entry->does(text, length);
  }
  write_output(text, (unsigned long)length);
  print("\n");
}

static char input[4096];

int main(void) {
  long size = read_all(input, sizeof input), start = 0;
  for (long at = 0; at < size; at++) {
    if (input[at] != '\n') continue;
    do_line(input + start, at - start);
    start = at + 1;
  }
  for (unsigned i = 0; i < COUNT; i++) print_line(entries[i].name, entries[i].uses);
  return 0;
}
