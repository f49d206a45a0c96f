/* Tells which way the arrow beside the figure points at a point: whether hotter or a quicker climb costs more.

   cc -Iinclude examples/arrow.c target/staticlib/libkiln.a -o arrow
   ./arrow tables/kiln-refined-near-top-heat.table 900 200

   Exits with 0, or with the refusal number, which is shown with its words; with 255 where an argument is no such thing,
   the file can't be read or the output can't be written. */
#include "kiln_table.h"

#include <errno.h>
#include <stdio.h>
#include <stdlib.h>
#include <string.h>

static uint8_t file[KILN_FILE_BYTES + 1], tree[KILN_TREE_BYTES];
static int64_t numbers[KILN_PLACES];

/* Whether the text is a whole number that fits; a sign, a point or a space is none of it. */
static int number_of(const char *name, const char *text, size_t *number) {
  size_t digits = strspn(text, "0123456789");
  unsigned long long value = 0;
  errno = 0;
  if (digits && !text[digits]) value = strtoull(text, NULL, 10);
  if (!digits || text[digits] || errno || value > SIZE_MAX) {
    fprintf(stderr, "arrow: %s is '%s', not a whole number from 0 to %zu\n", name, text, (size_t)SIZE_MAX);
    return 0;
  }
  *number = (size_t)value;
  return 1;
}

/* The file's length, of at most one byte more than any that is accepted; SIZE_MAX where it can't be read. */
static size_t length_of(const char *name) {
  FILE *in = fopen(name, "rb");
  size_t length = SIZE_MAX;
  if (in) {
    length = fread(file, 1, sizeof file, in);
    if (ferror(in)) length = SIZE_MAX;
  }
  if (length == SIZE_MAX) fprintf(stderr, "arrow: the table file '%s' can't be read: %s\n", name, strerror(errno));
  if (in) fclose(in);
  return length;
}

/* Prints a slope, 0 where the exact one may be 0, and what it says. Three digits are coarser than its bound. */
static void show_slope(const char *direction, double slope, const char *name, enum kiln_way way) {
  const char *words = way == KILN_WAY_MORE ? "more" : way == KILN_WAY_LESS ? "less" : "the same";
  double shown = way == KILN_WAY_EVEN ? 0 : slope;
  printf("%s: %.3f watts per eighth of a cell: %s costs %s\n", direction, shown, name, words);
}

/* Prints the watts, both slopes and the arrow; the refusal number. */
static uint8_t show(const struct kiln_table *table, struct kiln_point point) {
  struct kiln_watts_and_slopes at;
  uint8_t refused = kiln_table_slopes(table, point, &at);
  if (refused) return refused;
  printf("watts:   %.6f\n", at.watts);
  show_slope("along u", at.along_u, "hotter", kiln_hotter(at));
  show_slope("along v", at.along_v, "a quicker climb", kiln_quicker(at));
  double more = at.along_u - at.along_v;
  switch (kiln_arrow_of(at)) {
    case KILN_ARROW_HOTTER:
      printf("arrow:   hotter costs more than a quicker climb, by %.3f watts per eighth of a cell\n", more);
      break;
    case KILN_ARROW_EVEN:
      printf("arrow:   hotter and a quicker climb cost the same\n");
      break;
    case KILN_ARROW_QUICKER:
      printf("arrow:   a quicker climb costs more than hotter, by %.3f watts per eighth of a cell\n", -more);
      break;
  }
  return 0;
}

int main(int argc, char **argv) {
  struct kiln_room room = {tree, KILN_TREE_BYTES, numbers, KILN_PLACES};
  struct kiln_table table;
  struct kiln_point point;
  size_t length;
  uint8_t refused;
  if (argc != 4) {
    fprintf(stderr, "arrow: three arguments are needed: TABLE U V\n"
                    "  TABLE   a table file\n"
                    "  U, V    the point, in steps of 1/128 cell: U along temperature, V along climb rate\n");
    return 255;
  }
  if (!number_of("U", argv[2], &point.u) || !number_of("V", argv[3], &point.v)) return 255;
  length = length_of(argv[1]);
  if (length == SIZE_MAX) return 255;
  refused = kiln_table_read_file(file, length, room, &table);
  if (!refused) {
    printf("sheet:   %zu by %zu cells, u 0 to %zu, v 0 to %zu\n", table.w, table.h, 128 * table.w, 128 * table.h);
    printf("point:   u %zu, v %zu\n", point.u, point.v);
    refused = show(&table, point);
  }
  if (refused) printf("refused %d: %s\n", refused, kiln_refusal_words(refused));
  if (fflush(stdout) || ferror(stdout)) {
    fprintf(stderr, "arrow: the output can't be written\n");
    return 255;
  }
  return refused;
}
