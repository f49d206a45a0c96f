/* Writes a table to a file as a plain bicubic grid, as kiln makers exchange them; reads that file again over the
   table's own tree, over one with the whole sheet at level 3 and, where a second table is named, over the tree of
   that one; and tells of each whether the coefficients are those that were to be expected.

   cc -Iinclude examples/grid.c target/staticlib/libkiln.a -o grid
   ./grid tables/kiln-refined-near-top-heat.table refined.grid
   ./grid tables/kiln-refined-near-top-heat.table refined.grid tables/kiln-unrefined.table
   ./grid tables/kiln-fitted-near-top-heat.table fitted.grid tables/kiln-unrefined.table

   The table of the first two lines is a refined copy of the unrefined one, so that both have the same grid. The
   fitted one bends where the unrefined one has no small cells, and the last line is refused with 21.

   Exits with 0, or with the refusal number, which is shown with its words; with 255 where the arguments are too few or
   too many, a file can't be read or written or the output can't be. */
#include "kiln_table.h"

#include <errno.h>
#include <stdio.h>
#include <string.h>

static uint8_t file[KILN_FILE_BYTES + 1], other_file[KILN_FILE_BYTES + 1], grid[KILN_GRID_BYTES + 1];
static uint8_t tree[KILN_TREE_BYTES], finest_tree[KILN_TREE_BYTES], other_tree[KILN_TREE_BYTES];
static int64_t numbers[KILN_PLACES], finest_numbers[KILN_PLACES], other_numbers[KILN_PLACES], given[KILN_PLACES];

/* The file's length, of at most one byte more than any that is accepted; SIZE_MAX where it can't be read. */
static size_t length_of(const char *what, const char *name, uint8_t *bytes, size_t most) {
  FILE *in = fopen(name, "rb");
  size_t length = SIZE_MAX;
  if (in) {
    length = fread(bytes, 1, most, in);
    if (ferror(in)) length = SIZE_MAX;
  }
  if (length == SIZE_MAX) fprintf(stderr, "grid: the %s file '%s' can't be read: %s\n", what, name, strerror(errno));
  if (in) fclose(in);
  return length;
}

/* Whether so many bytes of the grid were written to the file of this name. */
static int put(const char *name, size_t length) {
  FILE *out = fopen(name, "wb");
  int good = out != NULL;
  if (out) {
    good = fwrite(grid, 1, length, out) == length;
    if (fclose(out)) good = 0;
  }
  if (!good) fprintf(stderr, "grid: the grid file '%s' can't be written: %s\n", name, strerror(errno));
  return good;
}

/* A number of the grid: five bytes after two heads and the sides, two's complement, high byte first. */
static int64_t number_in_grid(size_t place) {
  const uint8_t *bytes = grid + 8 + 5 * place;
  int64_t number = bytes[0] < 128 ? bytes[0] : bytes[0] - 256;
  for (int k = 1; k < 5; k++) number = 256 * number + bytes[k];
  return number;
}

/* Whether the coefficients of level 3, which come last, are the numbers of the grid. */
static int as_in_grid(const struct kiln_table *table) {
  size_t finest = kiln_level_places(table->w, table->h, 3), before = table->numbers_len - finest;
  int same = 1;
  for (size_t k = 0; k < finest; k++) same = same && table->numbers[before + k] == number_in_grid(k);
  return same;
}

/* Whether two tables have the same coefficients. */
static int alike(const struct kiln_table *a, const struct kiln_table *b) {
  return a->w == b->w && a->h == b->h && a->numbers_len == b->numbers_len &&
         !memcmp(a->numbers, b->numbers, a->numbers_len * sizeof *a->numbers);
}

/* Reads the grid over the tree of a table and prints what came of it; the refusal number. */
static uint8_t show_over(const char *whose, size_t length, const struct kiln_table *over, const char *expected,
                         int by_grid) {
  struct kiln_table made;
  uint8_t refused = kiln_table_read_grid(grid, length, over->tree, over->tree_len, given, KILN_PLACES, &made);
  if (refused) return refused;
  int same = by_grid ? as_in_grid(&made) : alike(&made, over);
  printf("%-13s %zu by %zu cells, tree length %zu, %s %s\n", whose, made.w, made.h, made.tree_len,
         same ? "the coefficients of" : "other coefficients than", expected);
  return 0;
}

/* Prints what comes of the grid over the tree with the whole sheet at level 3, which insertion gives; the refusal
   number. */
static uint8_t show_finest(size_t length, const struct kiln_table *table) {
  const struct kiln_room room = {finest_tree, KILN_TREE_BYTES, finest_numbers, KILN_PLACES};
  const struct kiln_box whole = {0, 0, 4 * table->w, 4 * table->h};
  struct kiln_table finest;
  uint8_t refused = kiln_table_insert(table, whole, 3, room, &finest);
  return refused ? refused : show_over("level 3 tree:", length, &finest, "the grid", 1);
}

/* The same over the tree of another table file. */
static uint8_t show_other(size_t length, size_t other_length) {
  const struct kiln_room room = {other_tree, KILN_TREE_BYTES, other_numbers, KILN_PLACES};
  struct kiln_table other;
  uint8_t refused = kiln_table_read_file(other_file, other_length, room, &other);
  return refused ? refused : show_over("other tree:", length, &other, "the other table", 0);
}

int main(int argc, char **argv) {
  const struct kiln_room room = {tree, KILN_TREE_BYTES, numbers, KILN_PLACES};
  struct kiln_table table;
  size_t length, other_length = 0;
  uint8_t refused;
  if (argc != 3 && argc != 4) {
    fprintf(stderr, "grid: two arguments are needed, or three: TABLE GRID [OTHER]\n"
                    "  TABLE   a table file\n"
                    "  GRID    a name for the file of its grid\n"
                    "  OTHER   a table file over whose tree the grid is read too\n");
    return 255;
  }
  length = length_of("table", argv[1], file, sizeof file);
  if (argc == 4) other_length = length_of("other table", argv[3], other_file, sizeof other_file);
  if (length == SIZE_MAX || other_length == SIZE_MAX) return 255;
  refused = kiln_table_read_file(file, length, room, &table);
  if (!refused) {
    printf("sheet:        %zu by %zu cells\n", table.w, table.h);
    refused = kiln_table_write_grid(&table, grid, KILN_GRID_BYTES, &length);
  }
  if (!refused) {
    if (!put(argv[2], length)) return 255;
    printf("grid:         %zu bytes, %zu by %zu coefficients\n", length, 8 * table.w + 3, 8 * table.h + 3);
    length = length_of("grid", argv[2], grid, sizeof grid);
    if (length == SIZE_MAX) return 255;
    refused = show_over("own tree:", length, &table, "the table", 0);
  }
  if (!refused) refused = show_finest(length, &table);
  if (!refused && argc == 4) refused = show_other(length, other_length);
  if (refused) printf("refused %d: %s\n", refused, kiln_refusal_words(refused));
  if (fflush(stdout) || ferror(stdout)) {
    fprintf(stderr, "grid: the output can't be written\n");
    return 255;
  }
  return refused;
}
