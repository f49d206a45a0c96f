/* Loads a table file, reads watts and cost at a point, inserts a box around it and reads again: no figure moves.

   cc -Iinclude examples/read_and_refine.c target/staticlib/libkiln.a -o read_and_refine
   ./read_and_refine tables/kiln-refined-near-top-heat.table */
#include "kiln.h"

#include <stdio.h>

static uint8_t file[KILN_FILE_BYTES + 1], tree[KILN_TREE_BYTES], finer_tree[KILN_TREE_BYTES];
static int64_t numbers[KILN_PLACES], finer_numbers[KILN_PLACES];
static size_t w, h, places;

/* Prints watts and cost at the point (900, 200) of a table, at 29.50 cents per kWh; the refusal number. */
static uint8_t show(const char *when, const uint8_t *t, size_t t_len, const int64_t *n) {
  double watts;
  size_t cost;
  uint8_t refused = kiln_watts(w, h, t, t_len, n, places, 900, 200, &watts);
  if (!refused) refused = kiln_cost(w, h, t, t_len, n, places, 900, 200, 2950, &cost);
  if (!refused) printf("%s: %.6f watts, %zu hundredths of a cent an hour\n", when, watts, cost);
  return refused;
}

int main(int argc, char **argv) {
  FILE *in = argc == 2 ? fopen(argv[1], "rb") : NULL;
  if (!in) {
    fprintf(stderr, "read_and_refine: no table file\n");
    return 255;
  }
  size_t file_len = fread(file, 1, sizeof file, in), tree_len, finer_len;
  fclose(in);
  places = kiln_file_places(file, file_len);
  uint8_t refused = kiln_read_file(file, file_len, tree, sizeof tree, numbers, places, &tree_len, &w, &h);
  if (!refused) refused = show("before", tree, tree_len, numbers);
  if (!refused) refused = kiln_insert(w, h, tree, tree_len, numbers, places, 28, 4, 32, 8, 3, finer_tree,
                                      sizeof finer_tree, finer_numbers, places, &finer_len);
  if (!refused) refused = show("after", finer_tree, finer_len, finer_numbers);
  if (refused) printf("refused %d\n", refused);
  return refused;
}
