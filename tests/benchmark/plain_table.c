/* Tables in plain C: the check of a table, least level, activity, a fresh table, one coefficient set. */
#include "plain_inside.h"

/* What is wrong with a table's coefficients: an active one past its limit, a passive one that is not 0. */
struct faults {
  bool over, stray;
};

/* Adds the faults of one row of a level, whose active functions are marked. */
static inline void row_faults(const int64_t *row, size_t n, struct marks m, size_t level, struct faults *faults) {
  for (size_t a = 0; a < n; a++) {
    if (row[a] == 0) continue;
    if (!marked(m, a, eighths(level))) faults->stray = true;
    else if (past_limit(row[a], level)) faults->over = true;
  }
}

/* A row of zeros has no fault, whichever of its functions are active. */
static inline bool only_zeros(const int64_t *row, size_t n) {
  for (size_t a = 0; a < n; a++)
    if (row[a] != 0) return false;
  return true;
}

uint8_t check(size_t w, size_t h, const uint8_t *tree, size_t tree_len, const int64_t *numbers, size_t numbers_len,
              struct regions *regions) {
  struct faults faults = {false, false};
  uint8_t cause = region_cause(w, h, tree, tree_len, regions);
  if (cause) return cause;
  if (numbers_len != start(w, h, LEVELS)) return BAD_LENGTH;
  for (size_t level = 0; level < LEVELS; level++) {
    size_t n = functions(w, level), m = functions(h, level);
    for (size_t b = 0; b < m; b++, numbers += n)
      if (!only_zeros(numbers, n)) row_faults(numbers, n, active_row(regions, w, h, level, b), level, &faults);
  }
  /* The lowest number that applies: 4 also where a passive place before it is not 0. */
  return faults.over ? OVER_LIMIT : faults.stray ? PASSIVE_NOT_0 : 0;
}

uint8_t plain_table_cause(size_t w, size_t h, const uint8_t *tree, size_t tree_len, const int64_t *numbers,
                          size_t numbers_len) {
  struct regions regions;
  return check(w, h, tree, tree_len, numbers, numbers_len, &regions);
}

struct found {
  uint8_t least, greatest;
  size_t visited;
};

/* The end of the tree written from `at` on: a node ends one of the trees left to read, or begins four. */
static const uint8_t *skip(const uint8_t *at) {
  for (size_t left = 1; left > 0;) left = *at++ == SPLIT ? left + 3 : left - 1;
  return at;
}

/* Visits the tree written from `at` on where its square shares area with the box, and returns its end. */
static const uint8_t *visit(const uint8_t *at, size_t x, size_t y, size_t side, const struct box *box,
                            struct found *found) {
  if (!meets(box, x, y, side)) return skip(at);
  uint8_t byte = *at++;
  found->visited++;
  if (byte != SPLIT) {
    if (byte < found->least) found->least = byte;
    if (byte > found->greatest) found->greatest = byte;
    return at;
  }
  size_t half = side / 2;
  at = visit(at, x, y, half, box, found);
  at = visit(at, x + half, y, half, box, found);
  at = visit(at, x, y + half, half, box, found);
  return visit(at, x + half, y + half, half, box, found);
}

size_t visited_under(const uint8_t *tree, const struct box *box) {
  struct found found = {LEAF_MAX, 0, 0};
  visit(tree, 0, 0, QUARTERS, box, &found);
  return found.visited;
}

uint8_t plain_least_level(size_t w, size_t h, const uint8_t *tree, size_t tree_len, size_t u0, size_t v0, size_t u1,
                          size_t v1, uint8_t *least, uint8_t *greatest, size_t *visited) {
  struct regions regions;
  struct box box = {u0, v0, u1, v1};
  struct found found = {LEAF_MAX, 0, 0};
  uint8_t cause = region_cause(w, h, tree, tree_len, &regions);
  if (cause) return cause;
  if (bad_box(w, h, &box)) return BAD_BOX;
  visit(tree, 0, 0, QUARTERS, &box, &found);
  *least = found.least;
  *greatest = found.greatest;
  *visited = found.visited;
  return 0;
}

/* Writes the marks of one row, a byte each. */
static inline void mark_row(struct marks m, size_t e, size_t n, uint8_t *out) {
  for (size_t a = 0; a < n; a += 2, m = next_two(m, e)) {
    out[a] = m.even & 1;
    if (a + 1 < n) out[a + 1] = m.odd & 1;
  }
}

uint8_t plain_activity(size_t w, size_t h, const uint8_t *tree, size_t tree_len, size_t level, uint8_t *out,
                       size_t out_len) {
  struct regions regions;
  uint8_t cause = region_cause(w, h, tree, tree_len, &regions);
  if (cause) return cause;
  if (level >= LEVELS) return BAD_LEVEL;
  if (out_len != places(w, h, level)) return BAD_OUTPUT;
  size_t n = functions(w, level), m = functions(h, level);
  for (size_t b = 0; b < m; b++, out += n) mark_row(active_row(&regions, w, h, level, b), eighths(level), n, out);
  return 0;
}

uint8_t plain_fresh(size_t w, size_t h, int64_t number, uint8_t *tree_out, size_t tree_len, int64_t *numbers_out,
                    size_t numbers_len, size_t *length) {
  if (!good_sides(w, h)) return BAD_SIDE;
  if (past_limit(number, 0)) return BAD_NUMBER;
  if (numbers_len != start(w, h, LEVELS)) return BAD_OUTPUT;
  if (tree_len < 1) return TREE_OUTPUT_SHORT;
  size_t coarse = places(w, h, 0);
  for (size_t at = 0; at < coarse; at++) numbers_out[at] = number;
  for (size_t at = coarse; at < numbers_len; at++) numbers_out[at] = 0;
  tree_out[0] = 0;
  *length = 1;
  return 0;
}

static bool index_fits(size_t n, size_t level, int64_t i) {
  return i >= -3 && i < (int64_t)(n << level);
}

uint8_t plain_set(size_t w, size_t h, const uint8_t *tree, size_t tree_len, int64_t *numbers, size_t numbers_len,
                  size_t level, int64_t i, int64_t j, int64_t number) {
  struct regions regions;
  uint8_t cause = check(w, h, tree, tree_len, numbers, numbers_len, &regions);
  if (cause) return cause;
  if (level >= LEVELS) return BAD_LEVEL;
  if (!index_fits(w, level, i) || !index_fits(h, level, j)) return NOT_ACTIVE;
  size_t a = (size_t)(i + 3), b = (size_t)(j + 3);
  if (!marked(active_row(&regions, w, h, level, b), a, eighths(level))) return NOT_ACTIVE;
  if (past_limit(number, level)) return BAD_NUMBER;
  numbers[start(w, h, level) + b * functions(w, level) + a] = number;
  return 0;
}
