/* Surfaces whose coefficients are known by arithmetic: what a table over any tree holds of one, and what its grid is.
   At some level each coefficient is the product of a number for its column and one for its row. So it is at each
   finer level, by the two-scale weights 1, 4, 6, 4, 1 of each direction: the eights that they are over are those of
   the finer unit, 1/64 of the coarser. A function that is active over a tree has the coefficient of its level. */
#include "kiln_table.h"

#include <string.h>

enum { LEVELS = 4, MOST = 67 };  /* MOST is a row of level 3 of the longest side */

struct surface {
  size_t w, h, from;  /* the sides, and the level at which the product is given */
  int64_t along_u[LEVELS][MOST], along_v[LEVELS][MOST];
};

/* The tree of a table, which stands in a buffer of its own. */
struct regions {
  size_t length;
  uint8_t tree[KILN_TREE_BYTES];
};

static uint8_t grid_due[KILN_GRID_BYTES], active[KILN_PLACES];
static int64_t numbers_due[KILN_PLACES];

static size_t row(size_t side, size_t level) {
  return (side << level) + 3;
}

/* "functions 2i to 2i+4 of level L+1 with weights 1, 4, 6, 4, 1 over 8": eight times the sums of a direction. */
static void doubled(const int64_t *coarse, size_t coarse_row, int64_t *fine, size_t fine_row) {
  static const int64_t weights[5] = {1, 4, 6, 4, 1};
  for (size_t k = 0; k < fine_row; k++) {
    fine[k] = 0;
    for (size_t p = 0; p < coarse_row; p++)
      if (k + 3 >= 2 * p && k + 3 - 2 * p < 5) fine[k] += weights[k + 3 - 2 * p] * coarse[p];
  }
}

/* Finds the finer levels of a surface from its own. */
static void refined(struct surface *of) {
  for (size_t level = of->from; level + 1 < LEVELS; level++) {
    doubled(of->along_u[level], row(of->w, level), of->along_u[level + 1], row(of->w, level + 1));
    doubled(of->along_v[level], row(of->h, level), of->along_v[level + 1], row(of->h, level + 1));
  }
}

/* The same number throughout a level, which is 8 times as great along each side of the next finer one. */
static struct surface constant(size_t w, size_t h, size_t from, int64_t number) {
  struct surface made;
  memset(&made, 0, sizeof made);
  made.w = w, made.h = h, made.from = from;
  for (size_t k = 0; k < row(w, from); k++) made.along_u[from][k] = number;
  for (size_t k = 0; k < row(h, from); k++) made.along_v[from][k] = 1;
  refined(&made);
  return made;
}

/* Whole watts that differ from place to place, both signs, at most 178 by 179 in size. */
static struct surface uneven(size_t w, size_t h) {
  struct surface made;
  memset(&made, 0, sizeof made);
  made.w = w, made.h = h;
  for (size_t k = 0; k < row(w, 0); k++) made.along_u[0][k] = (int64_t)((71 * k * k + 13 * k) % 357) - 178;
  for (size_t k = 0; k < row(h, 0); k++) made.along_v[0][k] = 179 - (int64_t)((37 * k * k + 101 * k) % 359);
  refined(&made);
  return made;
}

/* A single number in the low corner of a level. */
static struct surface corner(size_t w, size_t h, size_t from, int64_t number) {
  struct surface made = constant(w, h, from, 0);
  made.along_u[from][0] = number;
  memset(made.along_v, 0, sizeof made.along_v);
  made.along_v[from][0] = 1;
  refined(&made);
  return made;
}

static int64_t coefficient(const struct surface *of, size_t level, size_t place) {
  return of->along_u[level][place % row(of->w, level)] * of->along_v[level][place / row(of->w, level)];
}

/* Puts one number of a grid. */
static void number_put(uint8_t *grid, size_t place, int64_t number) {
  for (size_t b = 0; b < 5; b++) grid[8 + 5 * place + b] = (uint8_t)((uint64_t)number >> (8 * (4 - b)));
}

/* Puts the surface's grid together in grid_due; its length. "sheet, then every level 3 coefficient, as tags 1 and 19
   only", "j rises, within a row i rises". */
static size_t grid_of(const struct surface *of) {
  size_t places = row(of->w, 3) * row(of->h, 3), bytes = 5 * places;
  const uint8_t heads[8] = {1, 0, 2, (uint8_t)of->w, (uint8_t)of->h, 19, (uint8_t)(bytes / 256), (uint8_t)bytes};
  memset(grid_due, 77, sizeof grid_due);
  memcpy(grid_due, heads, 8);
  for (size_t k = 0; k < places; k++) number_put(grid_due, k, coefficient(of, 3, k));
  return 8 + bytes;
}

/* Puts the coefficients of the surface over a tree together in numbers_due: those of active functions, and 0. */
static size_t numbers_of(const struct surface *of, const struct regions *over) {
  size_t at = 0;
  for (size_t level = 0; level < LEVELS; level++) {
    size_t places = row(of->w, level) * row(of->h, level);
    if (kiln_activity(of->w, of->h, over->tree, over->length, level, active, places)) return 0;
    for (size_t k = 0; k < places; k++) numbers_due[at++] = active[k] ? coefficient(of, level, k) : 0;
  }
  return at;
}
