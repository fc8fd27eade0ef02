/* SPDX-License-Identifier: Apache-2.0 */
/* Figures with tables of functions, an alias, a weak function that is put in place, and data that points to data. */
#include "print.h"

struct figure;
struct kind {
  const char *name;
  long (*area)(const struct figure *);
  void (*grow)(struct figure *, long);
};
struct figure {
  const struct kind *kind;
  long width, height;
  struct figure *next;
};

static long area_of_box(const struct figure *f) { return f->width * f->height; }
static long area_of_wedge(const struct figure *f) { return area_of_box(f) / 2; }
static void grow_both(struct figure *f, long by) { f->width += by; f->height += by; }
static void grow_width(struct figure *f, long by) { f->width += by; }

static const struct kind box = {"box", area_of_box, grow_both};
static const struct kind wedge = {"wedge", area_of_wedge, grow_width};

static struct figure last = {&wedge, 7, 8, 0}, middle = {&box, 3, 4, &last};
struct figure figures = {&box, 1, 2, &middle};

/* The line end of this program stands in place of the weak one. */
const char *line_end(void) { return ".\n"; }

__attribute__((noinline)) long total(const struct figure *f) { return f ? f->kind->area(f) + total(f->next) : 0; }
long sum(const struct figure *f) __attribute__((alias("total")));

__attribute__((weak, noinline)) long weight(const struct figure *f) { return 3 * f->width + f->height; }

static long (*measures[])(const struct figure *) = {total, weight, area_of_box};

static unsigned mixed = 1;
static unsigned mix(void) { return mixed = mixed * 1103515245u + 12345u; }

static void sort(long *values, long from, long to, int (*comes_first)(long, long)) {
  if (to - from < 2) return;
  long middle_value = values[from + (to - from) / 2], low = from, high = to - 1;
  while (low <= high) {
    while (comes_first(values[low], middle_value)) low++;
    while (comes_first(middle_value, values[high])) high--;
    if (low <= high) {
      long other = values[low];
      values[low++] = values[high];
      values[high--] = other;
    }
  }
  sort(values, from, high + 1, comes_first);
  sort(values, low, to, comes_first);
}

static int is_less(long a, long b) { return a < b; }
static int is_more(long a, long b) { return a > b; }

static long values[100];

int main(void) {
  for (struct figure *f = &figures; f; f = f->next) print_line(f->kind->name, f->kind->area(f));
  figures.kind->grow(&figures, 10);
  last.kind->grow(&last, 10);
  for (unsigned i = 0; i < 3; i++) print_line("measure", measures[i](&figures));
  print_line("sum", sum(&figures));
  for (unsigned i = 0; i < 100; i++) values[i] = mix() >> 16 & 0x3ff;
  sort(values, 0, 100, is_less);
  print_line("least", values[0]);
  print_line("middle", values[50]);
  sort(values, 0, 100, is_more);
  print_line("greatest", values[0]);
  print_number(figures.width * 1000003 ^ 0xfeedface, 16);
  print(line_end());
  return 0;
}
