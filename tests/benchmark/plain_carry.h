/* Carried values row by row, and 0 at passive places: insertion and both converters of full grids share them. */
#ifndef PLAIN_CARRY_H
#define PLAIN_CARRY_H

#include "plain_inside.h"

/* The first step of row b's two-scale sums, along v: a child for each of the n columns of the coarser level. */
static inline void along_v(const int64_t *restrict coarse, size_t n, size_t b, int64_t *restrict sums) {
  const int64_t *x = coarse + b / 2 * n, *y = x + n, *z = y + n;
  if (b % 2)
    for (size_t c = 0; c < n; c++) sums[c] = x[c] + 6 * y[c] + z[c];
  else
    for (size_t c = 0; c < n; c++) sums[c] = 4 * (x[c] + y[c]);
}

/* A row's carried values: own numbers where the support lies in the level's region, else the second step, along u. */
static inline void carry_row(const int64_t *restrict own, const int64_t *restrict sums, struct marks inside, size_t e,
                             size_t n, int64_t *restrict out) {
  for (size_t a = 0; a < n; a += 2, sums++, inside = next_two(inside, e)) {
    out[a] = inside.even & 1 ? own[a] : 4 * (sums[0] + sums[1]);
    if (a + 1 < n) out[a + 1] = inside.odd & 1 ? own[a + 1] : sums[0] + 6 * sums[1] + sums[2];
  }
}

/* 0 at the places of a row that are not marked. */
static inline void clear_row(struct marks m, size_t e, size_t n, int64_t *out) {
  for (size_t a = 0; a < n; a += 2, m = next_two(m, e)) {
    if (!(m.even & 1)) out[a] = 0;
    if (a + 1 < n && !(m.odd & 1)) out[a + 1] = 0;
  }
}

/* 0 at every place whose function is passive. */
static inline void clear_passive(const struct regions *regions, size_t w, size_t h, int64_t *out) {
  for (size_t level = 0; level < LEVELS; level++) {
    size_t n = functions(w, level), m = functions(h, level);
    for (size_t b = 0; b < m; b++, out += n) clear_row(active_row(regions, w, h, level, b), eighths(level), n, out);
  }
}

#endif
