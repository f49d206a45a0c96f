/* The watts and both slopes of kiln_slopes in one struct, and the arrow beside the figure, for C and C++. Includes
   kiln.h; kiln_table.h includes this header.

   Hotter is along u, the chamber temperature, and quicker along v, the climb rate. What costs more takes more watts: at
   one tariff the cost rises and falls with them, but for a draw below 0, which costs nothing either way. How many
   degrees, or degrees per hour, an eighth of a cell is, the table's maker chose: the arrow compares one of each.

   A slope is within KILN_SLOPE_BOUND of the exact one. So where it is at most that in size the exact one may be 0, and
   where two differ by at most twice that the exact ones may be equal: there the functions below tell even. More, less,
   hotter and quicker are told only where the exact slopes say the same. */
#ifndef KILN_ARROW_H
#define KILN_ARROW_H

#include "kiln.h"

/* 2^-20 watts per eighth of a cell: no slope that kiln_slopes gives is farther from the exact one. */
#define KILN_SLOPE_BOUND (1.0 / 1048576)

/* The watts at a point, and the slopes there along u and along v, in watts per eighth of a cell. */
struct kiln_watts_and_slopes {
  double watts;
  double along_u;
  double along_v;
};

/* kiln_slopes, with the three in one struct. A refusal leaves at as it was. */
static inline uint8_t kiln_slopes_at(size_t w, size_t h, const uint8_t *tree, size_t tree_len, const int64_t *numbers,
                                     size_t numbers_len, size_t u, size_t v, struct kiln_watts_and_slopes *at) {
  return kiln_slopes(w, h, tree, tree_len, numbers, numbers_len, u, v, &at->watts, &at->along_u, &at->along_v);
}

/* What going on in one direction costs, compared with the point. */
enum kiln_way {
  KILN_WAY_LESS = -1,
  KILN_WAY_EVEN = 0,
  KILN_WAY_MORE = 1
};

/* The way of one slope: even where the exact one may be 0. */
static inline enum kiln_way kiln_way_of(double slope) {
  return slope > KILN_SLOPE_BOUND ? KILN_WAY_MORE : slope < -KILN_SLOPE_BOUND ? KILN_WAY_LESS : KILN_WAY_EVEN;
}

/* Whether hotter costs more or less than at the point. */
static inline enum kiln_way kiln_hotter(struct kiln_watts_and_slopes at) {
  return kiln_way_of(at.along_u);
}

/* Whether a quicker climb costs more or less than at the point. */
static inline enum kiln_way kiln_quicker(struct kiln_watts_and_slopes at) {
  return kiln_way_of(at.along_v);
}

/* Which of the two directions costs more. */
enum kiln_arrow {
  KILN_ARROW_QUICKER = -1,
  KILN_ARROW_EVEN = 0,
  KILN_ARROW_HOTTER = 1
};

/* Which costs more for an eighth of a cell, hotter or a quicker climb: the one of the greater slope, even where the
   exact ones may be equal. Where both cost less than at the point, that is the one that saves less. */
static inline enum kiln_arrow kiln_arrow_of(struct kiln_watts_and_slopes at) {
  /* A difference that is rounded crosses no power of two. */
  double more = at.along_u - at.along_v;
  return more > 2 * KILN_SLOPE_BOUND ? KILN_ARROW_HOTTER : more < -2 * KILN_SLOPE_BOUND ? KILN_ARROW_QUICKER
                                                                                        : KILN_ARROW_EVEN;
}

#endif
