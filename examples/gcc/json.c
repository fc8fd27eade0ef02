/* SPDX-License-Identifier: Apache-2.0 */
/* Reads each line of its input as a JSON text, and says how many values it has and how deep they are nested, or where it
   is no such text. The input may be anything: sizes and depth have limits, and no byte is written by it. */
#include "print.h"
#include "shuffler.h"

enum { MOST_BYTES = 16384, MOST_DEPTH = 32 };

static char input[MOST_BYTES];

/* The part of a line that was not read yet, what was seen, and what was wrong. */
struct reader {
  const char *at, *end;
  long values, deepest;
  const char *wrong;
};

static int fail(struct reader *r, const char *wrong) {
  r->wrong = wrong;
  return 0;
}

static int comes(const struct reader *r, char sign) { return r->at < r->end && *r->at == sign; }

static int takes(struct reader *r, char sign) {
  if (!comes(r, sign)) return 0;
  r->at++;
  return 1;
}

static void skip_blanks(struct reader *r) {
  while (comes(r, ' ') || comes(r, '\t') || comes(r, '\r')) r->at++;
}

static int is_digit(const struct reader *r) { return r->at < r->end && *r->at >= '0' && *r->at <= '9'; }

static int read_digits(struct reader *r) {
  if (!is_digit(r)) return fail(r, "a digit is missing");
  while (is_digit(r)) r->at++;
  return 1;
}

static int read_number(struct reader *r) {
  takes(r, '-');
  if (!takes(r, '0') && !read_digits(r)) return 0;
  if (takes(r, '.') && !read_digits(r)) return 0;
  if (!takes(r, 'e') && !takes(r, 'E')) return 1;
  if (!takes(r, '+')) takes(r, '-');
  return read_digits(r);
}

static int is_hexadecimal(char sign) {
  return (sign >= '0' && sign <= '9') || (sign >= 'a' && sign <= 'f') || (sign >= 'A' && sign <= 'F');
}

static int read_hexadecimal(struct reader *r) {
  for (int digits = 0; digits < 4; digits++, r->at++)
    if (r->at == r->end || !is_hexadecimal(*r->at)) return fail(r, "four digits are missing");
  return 1;
}

/* What stands behind a backslash. */
static int read_escape(struct reader *r) {
  if (r->at == r->end) return fail(r, "a string has no end");
  switch (*r->at++) {
    case '"': case '\\': case '/': case 'b': case 'f': case 'n': case 'r': case 't': return 1;
    case 'u': return read_hexadecimal(r);
    default: r->at--; return fail(r, "no such escape");
  }
}

static int read_string(struct reader *r) {
  if (!takes(r, '"')) return fail(r, "a string is missing");
  while (!takes(r, '"')) {
    if (r->at == r->end) return fail(r, "a string has no end");
    if ((unsigned char)*r->at < ' ') return fail(r, "a string has a control character");
    if (*r->at++ == '\\' && !read_escape(r)) return 0;
  }
  return 1;
}

static int read_word(struct reader *r, const char *word) {
  for (; *word; word++)
    if (!takes(r, *word)) return fail(r, "no such word");
  return 1;
}

static int read_value(struct reader *r, long depth);

static int read_array(struct reader *r, long depth) {
  r->at++;
  skip_blanks(r);
  if (takes(r, ']')) return 1;
  do {
    if (!read_value(r, depth + 1)) return 0;
  } while (takes(r, ','));
  return takes(r, ']') || fail(r, "a comma or ] is missing");
}

static int read_member(struct reader *r, long depth) {
  skip_blanks(r);
  if (!read_string(r)) return 0;
  skip_blanks(r);
  return takes(r, ':') ? read_value(r, depth) : fail(r, "a colon is missing");
}

static int read_object(struct reader *r, long depth) {
  r->at++;
  skip_blanks(r);
  if (takes(r, '}')) return 1;
  do {
    if (!read_member(r, depth + 1)) return 0;
  } while (takes(r, ','));
  return takes(r, '}') || fail(r, "a comma or } is missing");
}

static int read_by_sign(struct reader *r, long depth) {
  if (r->at == r->end) return fail(r, "a value is missing");
  switch (*r->at) {
    case '{': return read_object(r, depth);
    case '[': return read_array(r, depth);
    case '"': return read_string(r);
    case 't': return read_word(r, "true");
    case 'f': return read_word(r, "false");
    case 'n': return read_word(r, "null");
    case '-': case '0': case '1': case '2': case '3': case '4': case '5': case '6': case '7': case '8': case '9':
      return read_number(r);
    default: return fail(r, "a value is missing");
  }
}

/* A value, with the blanks around it. */
static int read_value(struct reader *r, long depth) {
  if (depth > MOST_DEPTH) return fail(r, "too deep");
  if (depth > r->deepest) r->deepest = depth;
  skip_blanks(r);
  if (!read_by_sign(r, depth)) return 0;
  skip_blanks(r);
  r->values++;
  return 1;
}

/* Says what a line is, and answers whether it is a JSON text. */
static int tell(long number, const char *line, const char *end) {
  struct reader r = {line, end, 0, 0, 0};
  int is_text = read_value(&r, 1) && (r.at == end || fail(&r, "more than one value"));
  print("line ");
  print_number((unsigned long)number, 10);
  print(is_text ? ": values " : ": at ");
  print_number((unsigned long)(is_text ? r.values : r.at - line + 1), 10);
  print(is_text ? " depth " : " ");
  if (is_text) print_number((unsigned long)r.deepest, 10);
  else print(r.wrong);
  print("\n");
  return is_text;
}

int main(void) {
  const char *line = input, *end = input + read_all(input, MOST_BYTES);
  long number = 0, wrong = 0;
  for (const char *at = line; at < end; at++) {
    if (*at != '\n') continue;
    wrong += !tell(++number, line, at);
    line = at + 1;
  }
  print_line("wrong", wrong);
  return wrong > 0;
}
