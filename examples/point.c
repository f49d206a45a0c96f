/* Shows what a table says at one point: the exact watts, the f64, the whole watts of the display and the cost.

   cc -Iinclude examples/point.c target/staticlib/libkiln.a -o point
   ./point tables/kiln-refined-near-top-heat.table 900 200 2950

   Exits with 0, or with the refusal number, which is shown with its words; with 255 where an argument is no such thing,
   the file can't be read or the output can't be written. */
#include "kiln_table.h"

#include <errno.h>
#include <inttypes.h>
#include <stdio.h>
#include <stdlib.h>
#include <string.h>

static uint8_t file[KILN_FILE_BYTES + 1], tree[KILN_TREE_BYTES];
static int64_t numbers[KILN_PLACES];

/* Whether the text is a whole number that fits; a sign, a point or a space is none of it. */
static int number_of(const char *name, const char *text, size_t *number) {
  size_t digits = strspn(text, "0123456789");
  unsigned long long value = 0;
  errno = 0;
  if (digits && !text[digits]) value = strtoull(text, NULL, 10);
  if (!digits || text[digits] || errno || value > SIZE_MAX) {
    fprintf(stderr, "point: %s is '%s', not a whole number from 0 to %zu\n", name, text, (size_t)SIZE_MAX);
    return 0;
  }
  *number = (size_t)value;
  return 1;
}

/* The file's length, of at most one byte more than any that is accepted; SIZE_MAX where it can't be read. */
static size_t length_of(const char *name) {
  FILE *in = fopen(name, "rb");
  size_t length = SIZE_MAX;
  if (in) {
    length = fread(file, 1, sizeof file, in);
    if (ferror(in)) length = SIZE_MAX;
  }
  if (length == SIZE_MAX) fprintf(stderr, "point: the table file '%s' can't be read: %s\n", name, strerror(errno));
  if (in) fclose(in);
  return length;
}

/* Prints a numerator over D as a mixed number in lowest terms, such as 500, 3/64 or -1 1/2. */
static void print_mixed(int64_t numerator) {
  int64_t size = numerator < 0 ? -numerator : numerator;  /* at most 32,000 D, so that its size fits */
  int64_t whole = size / KILN_DENOMINATOR, part = size % KILN_DENOMINATOR, a = KILN_DENOMINATOR, b = part;
  while (b) {
    int64_t rest = a % b;
    a = b;
    b = rest;
  }
  if (numerator < 0) printf("-");
  if (whole || !part) printf("%" PRId64, whole);
  if (whole && part) printf(" ");
  if (part) printf("%" PRId64 "/%" PRId64, part / a, KILN_DENOMINATOR / a);
}

/* Prints the figures at a point as far as none is refused; the refusal number. */
static uint8_t show(const struct kiln_table *table, struct kiln_point point, size_t tariff) {
  int64_t numerator, shown;
  double watts;
  size_t cost;
  uint8_t refused = kiln_table_exact(table, point, &numerator);
  if (refused) return refused;
  printf("exact:   %" PRId64 "/%" PRId64 " watts\n         = ", numerator, KILN_DENOMINATOR);
  print_mixed(numerator);
  printf(" watts\n");
  refused = kiln_table_watts(table, point, &watts);
  if (refused) return refused;
  printf("f64:     %.6f watts\n", watts);
  refused = kiln_table_display(table, point, &shown);
  if (refused) return refused;
  printf("display: %" PRId64 " watts\n", shown);
  refused = kiln_table_cost(table, point, tariff, &cost);
  if (refused) return refused;
  printf("cost:    %zu hundredths of a cent an hour, at %zu a kWh\n", cost, tariff);
  return 0;
}

int main(int argc, char **argv) {
  struct kiln_room room = {tree, KILN_TREE_BYTES, numbers, KILN_PLACES};
  struct kiln_table table;
  struct kiln_point point;
  size_t length, tariff;
  uint8_t refused;
  if (argc != 5) {
    fprintf(stderr, "point: four arguments are needed: TABLE U V TARIFF\n"
                    "  TABLE   a table file\n"
                    "  U, V    the point, in steps of 1/128 cell: U along temperature, V along climb rate\n"
                    "  TARIFF  hundredths of a cent a kWh, 0 to 99999\n");
    return 255;
  }
  if (!number_of("U", argv[2], &point.u) || !number_of("V", argv[3], &point.v) ||
      !number_of("TARIFF", argv[4], &tariff)) return 255;
  length = length_of(argv[1]);
  if (length == SIZE_MAX) return 255;
  refused = kiln_table_read_file(file, length, room, &table);
  if (!refused) {
    printf("sheet:   %zu by %zu cells, u 0 to %zu, v 0 to %zu\n", table.w, table.h, 128 * table.w, 128 * table.h);
    printf("point:   u %zu, v %zu\n", point.u, point.v);
    refused = show(&table, point, tariff);
  }
  if (refused) printf("refused %d: %s\n", refused, kiln_refusal_words(refused));
  if (fflush(stdout) || ferror(stdout)) {
    fprintf(stderr, "point: the output can't be written\n");
    return 255;
  }
  return refused;
}
