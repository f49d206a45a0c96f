/* The patch of coefficients around a point, and the splines there: readings in plain C and the slopes share them. */
#ifndef PLAIN_PATCH_H
#define PLAIN_PATCH_H

#include "plain_inside.h"

static const int64_t D = (int64_t)36 << 42;

/* Sixteen coefficients: entry [k][l] is that of the k-th function along u and the l-th along v. */
typedef struct {
  int64_t at[4][4];
} patch;

/* The cell of a level that holds a point; at the far edge the last one. */
static inline size_t cell_of(size_t n, size_t level, size_t u) {
  size_t cell = u / (128 >> level), last = (n << level) - 1;
  return cell < last ? cell : last;
}

/* The quarter along one side that holds a place: the greater on a shared edge, at the far edge the last one. */
static inline size_t quarter_of(size_t n, size_t u) {
  size_t q = u / 32, last = 4 * n - 1;
  return q < last ? q : last;
}

/* The level of a quarter square: in how many regions it lies, since they are nested. */
static inline size_t level_of(const struct regions *regions, size_t q, size_t r) {
  size_t level = 0;
  for (size_t l = 0; l < LEVELS - 1; l++) level += regions->row[l][r] >> q & 1;
  return level;
}

/* The patch of level 0: its own coefficients, in rows of n. */
static inline patch coarsest(const int64_t *numbers, size_t n, size_t a, size_t b) {
  patch p;
  for (size_t k = 0; k < 4; k++)
    for (size_t l = 0; l < 4; l++) p.at[k][l] = numbers[(b + l) * n + a + k];
  return p;
}

/* The children in one half of four parents in a row, at their parents' places. */
static inline void line(int64_t *i, int64_t *j, int64_t *k, int64_t *l, size_t half) {
  int64_t ab = *i + *j, bc = *j + *k, cd = *k + *l, x = ab + 4 * *j + bc, y = 4 * bc, z = bc + 4 * *k + cd;
  *i = half == 0 ? 4 * ab : x;
  *j = half == 0 ? x : y;
  *k = half == 0 ? y : z;
  *l = half == 0 ? z : 4 * cd;
}

/* One step of subdivision, in place: along v row by row, then along u column by column. */
static inline void subdivide(patch *p, size_t g, size_t h) {
  for (size_t k = 0; k < 4; k++) line(&p->at[k][0], &p->at[k][1], &p->at[k][2], &p->at[k][3], h);
  for (size_t l = 0; l < 4; l++) line(&p->at[0][l], &p->at[1][l], &p->at[2][l], &p->at[3][l], g);
}

/* The patch of a level from the one above: own coefficients where the support lies in the level's region. */
static inline patch finer(patch coarse, const int64_t *numbers, const struct regions *regions, size_t w, size_t h,
                   size_t level, size_t u, size_t v) {
  size_t a = cell_of(w, level, u), b = cell_of(h, level, v), n = functions(w, level);
  const int64_t *own = numbers + start(w, h, level) + b * n + a;
  patch next = coarse;
  subdivide(&next, a % 2, b % 2);
  for (size_t l = 0; l < 4; l++, own += n) {
    struct marks inside = inside_row(regions, w, h, level, b + l);
    for (size_t k = 0; k < 4; k++)
      if (marked(inside, a + k, eighths(level))) next.at[k][l] = own[k];
  }
  return next;
}

/* The four splines at r steps into a cell of so many, as whole numbers that add up to 6 times the cube of those. */
static inline void splines_at(int64_t steps, int64_t r, int64_t spline[4]) {
  int64_t q = steps - r, a = q * q * q, x = r * r * q, y = r * q * q, d = r * r * r;
  spline[0] = a;
  spline[1] = d + 6 * x + 12 * y + 4 * a;
  spline[2] = 4 * d + 12 * x + 6 * y + a;
  spline[3] = d;
}

/* The patch at a point of the sheet, subdivided up to the level of the quarter square that holds it, which is told. */
static inline patch patch_at(const int64_t *numbers, const struct regions *regions, size_t w, size_t h, size_t u,
                             size_t v, size_t *last) {
  patch p = coarsest(numbers, functions(w, 0), cell_of(w, 0, u), cell_of(h, 0, v));
  *last = level_of(regions, quarter_of(w, u), quarter_of(h, v));
  for (size_t level = 1; level <= *last; level++) p = finer(p, numbers, regions, w, h, level, u, v);
  return p;
}

#endif
