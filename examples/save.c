/* Loads a table file, inserts a box, saves the finer table to another file, reads off that one how many functions are
   active, loads it and reads the same figures.

   cc -Iinclude examples/save.c target/staticlib/libkiln.a -o save
   ./save tables/kiln-unrefined.table finer.table */
#include "kiln_table.h"

#include <stdio.h>

static uint8_t file[KILN_FILE_BYTES + 1], tree[KILN_TREE_BYTES], finer_tree[KILN_TREE_BYTES];
static int64_t numbers[KILN_PLACES], finer_numbers[KILN_PLACES];

/* Whether the file of this name was read; its length, of at most one byte more than any that is accepted. */
static int get(const char *name, size_t *length) {
  FILE *in = fopen(name, "rb");
  int good = in != NULL;
  if (in) {
    *length = fread(file, 1, sizeof file, in);
    good = !ferror(in);
    fclose(in);
  }
  if (!good) fprintf(stderr, "save: '%s' can't be read\n", name);
  return good;
}

/* Whether so many bytes were written to the file of this name. */
static int put(const char *name, size_t length) {
  FILE *out = fopen(name, "wb");
  int good = out != NULL;
  if (out) {
    good = fwrite(file, 1, length, out) == length;
    if (fclose(out)) good = 0;
  }
  if (!good) fprintf(stderr, "save: '%s' can't be written\n", name);
  return good;
}

/* Prints watts and cost at the point (900, 200) of a table, at 29.50 cents per kWh; the refusal number. */
static uint8_t show(const char *when, const struct kiln_table *table) {
  const struct kiln_point point = {900, 200};
  double watts;
  size_t cost;
  uint8_t refused = kiln_table_watts(table, point, &watts);
  if (!refused) refused = kiln_table_cost(table, point, 2950, &cost);
  if (!refused) printf("%s: %.6f watts, %zu hundredths of a cent an hour\n", when, watts, cost);
  return refused;
}

/* Prints how many functions of each level are active, as the file says it. A file that was saved has these counts; one
   of an earlier version may lack them. */
static void show_counts(size_t length) {
  size_t n[4];
  if (!kiln_file_counts(file, length, n)) return;
  printf("active: %zu of level 0, %zu of level 1, %zu of level 2, %zu of level 3\n", n[0], n[1], n[2], n[3]);
}

int main(int argc, char **argv) {
  const struct kiln_room room = {tree, KILN_TREE_BYTES, numbers, KILN_PLACES};
  const struct kiln_room finer_room = {finer_tree, KILN_TREE_BYTES, finer_numbers, KILN_PLACES};
  const struct kiln_box box = {28, 4, 32, 8};
  struct kiln_table table, finer;
  size_t length;
  uint8_t refused;
  if (argc != 3) {
    fprintf(stderr, "save: a table file and a name for the finer one are needed\n");
    return 255;
  }
  if (!get(argv[1], &length)) return 255;
  refused = kiln_table_read_file(file, length, room, &table);
  if (!refused) refused = show("loaded", &table);
  if (!refused) refused = kiln_table_insert(&table, box, 3, finer_room, &finer);
  if (!refused) refused = kiln_table_write_file(&finer, file, KILN_FILE_BYTES, &length);
  if (!refused) {
    if (!put(argv[2], length)) return 255;
    printf("saved: %zu bytes\n", length);
    if (!get(argv[2], &length)) return 255;
    show_counts(length);
    refused = kiln_table_read_file(file, length, room, &table);
  }
  if (!refused) refused = show("loaded again", &table);
  if (refused) printf("refused %d\n", refused);
  return refused;
}
