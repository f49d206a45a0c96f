/* Tells whether a display draws its dot at a point: whether the table is refined under it.

   cc -Iinclude examples/dot.c target/staticlib/libkiln.a -o dot
   ./dot tables/kiln-refined-near-top-heat.table 900 200

   Exits with 0, or with the refusal number, which is shown with its words; with 255 where an argument is no such thing,
   the file can't be read or the output can't be written. */
#include "kiln_table.h"

#include <errno.h>
#include <stdio.h>
#include <stdlib.h>
#include <string.h>

static uint8_t file[KILN_FILE_BYTES + 1], tree[KILN_TREE_BYTES];
static int64_t numbers[KILN_PLACES];

/* Whether the text is a whole number that fits; a sign, a point or a space is none of it. */
static int number_of(const char *name, const char *text, size_t *number) {
  size_t digits = strspn(text, "0123456789");
  unsigned long long value = 0;
  errno = 0;
  if (digits && !text[digits]) value = strtoull(text, NULL, 10);
  if (!digits || text[digits] || errno || value > SIZE_MAX) {
    fprintf(stderr, "dot: %s is '%s', not a whole number from 0 to %zu\n", name, text, (size_t)SIZE_MAX);
    return 0;
  }
  *number = (size_t)value;
  return 1;
}

/* The file's length, of at most one byte more than any that is accepted; SIZE_MAX where it can't be read. */
static size_t length_of(const char *name) {
  FILE *in = fopen(name, "rb");
  size_t length = SIZE_MAX;
  if (in) {
    length = fread(file, 1, sizeof file, in);
    if (ferror(in)) length = SIZE_MAX;
  }
  if (length == SIZE_MAX) fprintf(stderr, "dot: the table file '%s' can't be read: %s\n", name, strerror(errno));
  if (in) fclose(in);
  return length;
}

/* Prints the quarter square that holds the point, the greatest level under it and whether there is a dot; the refusal
   number. A point off the sheet is refused as by a reading, and the level is not asked for. */
static uint8_t show(const struct kiln_table *table, struct kiln_point point) {
  if (point.u > 128 * table->w || point.v > 128 * table->h) return KILN_POINT;
  const struct kiln_box quarter = kiln_table_quarter(table, point);
  uint8_t least, greatest;
  size_t visited;
  uint8_t refused = kiln_table_least_level(table, quarter, &least, &greatest, &visited);
  if (refused) return refused;
  printf("quarter: u %zu to %zu, v %zu to %zu\n", quarter.u0, quarter.u1, quarter.v0, quarter.v1);
  printf("level:   %d\n", greatest);
  printf("dot:     %s\n", greatest > 0 ? "yes" : "no");
  return 0;
}

int main(int argc, char **argv) {
  struct kiln_room room = {tree, KILN_TREE_BYTES, numbers, KILN_PLACES};
  struct kiln_table table;
  struct kiln_point point;
  size_t length;
  uint8_t refused;
  if (argc != 4) {
    fprintf(stderr, "dot: three arguments are needed: TABLE U V\n"
                    "  TABLE   a table file\n"
                    "  U, V    the point, in steps of 1/128 cell: U along temperature, V along climb rate\n");
    return 255;
  }
  if (!number_of("U", argv[2], &point.u) || !number_of("V", argv[3], &point.v)) return 255;
  length = length_of(argv[1]);
  if (length == SIZE_MAX) return 255;
  refused = kiln_table_read_file(file, length, room, &table);
  if (!refused) {
    printf("sheet:   %zu by %zu cells, u 0 to %zu, v 0 to %zu\n", table.w, table.h, 128 * table.w, 128 * table.h);
    printf("point:   u %zu, v %zu\n", point.u, point.v);
    refused = show(&table, point);
  }
  if (refused) printf("refused %d: %s\n", refused, kiln_refusal_words(refused));
  if (fflush(stdout) || ferror(stdout)) {
    fprintf(stderr, "dot: the output can't be written\n");
    return 255;
  }
  return refused;
}
