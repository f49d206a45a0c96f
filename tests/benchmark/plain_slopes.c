/* Watts and both slopes in plain C, from one check of the table and one patch. */
#include "plain_patch.h"

/* The derivatives of the four splines by the way across the cell, as whole numbers over 6 times the square of its
   steps. */
static void derivatives_at(int64_t steps, int64_t r, int64_t slope[4]) {
  int64_t q = steps - r, a = 3 * q * q, x = 12 * r * q, d = 3 * r * r;
  slope[0] = -a;
  slope[1] = -x - d;
  slope[2] = a + x;
  slope[3] = d;
}

static int64_t weigh(const int64_t weight[4], const int64_t of[4]) {
  int64_t sum = 0;
  for (size_t k = 0; k < 4; k++) sum += weight[k] * of[k];
  return sum;
}

/* A derivative lacks one factor of a cell's steps, of which an eighth has 16: a slope by an eighth is a whole number
   over D / 16 at each level. */
uint8_t plain_slopes(size_t w, size_t h, const uint8_t *tree, size_t tree_len, const int64_t *numbers,
                     size_t numbers_len, size_t u, size_t v, double *watts, double *along_u, double *along_v) {
  struct regions regions;
  uint8_t cause = check(w, h, tree, tree_len, numbers, numbers_len, &regions);
  if (cause) return cause;
  if (u > 128 * w || v > 128 * h) return OFF_SHEET;
  size_t last;
  patch p = patch_at(numbers, &regions, w, h, u, v, &last);
  int64_t steps = 128 >> last, r = (int64_t)u - steps * (int64_t)cell_of(w, last, u);
  int64_t s = (int64_t)v - steps * (int64_t)cell_of(h, last, v);
  int64_t across[4], rises_across[4], along[4], rises_along[4], row[4], rising_row[4];
  splines_at(steps, r, across);
  splines_at(steps, s, along);
  derivatives_at(steps, r, rises_across);
  derivatives_at(steps, s, rises_along);
  for (size_t k = 0; k < 4; k++) {
    row[k] = weigh(along, p.at[k]);
    rising_row[k] = weigh(rises_along, p.at[k]);
  }
  *watts = (double)weigh(across, row) / (double)D;
  *along_u = (double)weigh(rises_across, row) / (double)(D / 16);
  *along_v = (double)weigh(across, rising_row) / (double)(D / 16);
  return 0;
}
