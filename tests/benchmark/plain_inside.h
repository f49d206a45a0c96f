/* What the files of the plain C program share: refusal numbers, regions as rows of bits, marks, the checks. */
#ifndef PLAIN_INSIDE_H
#define PLAIN_INSIDE_H

#include "plain.h"

#include <stdbool.h>
#include <string.h>

/* Refusal numbers of documents 01 and 02. */
enum {
  BAD_SIDE = 1, BAD_TREE, BAD_LENGTH, OVER_LIMIT, PASSIVE_NOT_0, OFF_SHEET, BAD_BOX, BAD_LEVEL, NOT_ACTIVE, BAD_NUMBER,
  BAD_TARIFF, FILE_ENDS, BAD_TAG, BAD_FIELD, BYTES_AFTER, BAD_OUTPUT, TREE_OUTPUT_SHORT, FILE_OUTPUT_SHORT,
  NOT_ITS_SLIP, BAD_COUNT, NO_TABLE
};

/* The tree covers 32 by 32 quarters. */
enum { LEVELS = 4, QUARTERS = 32, LEAF_MAX = 3, SPLIT = 4, TREE_MAX = 1365 };

/* A file's field: a head of a tag and a two-byte length, then its body. */
enum { HEAD = 3, TAG_SIDES = 1, TAG_TREE, TAG_COUNTS, TAG_LEVEL_0 = 16, TAG_NOTE = 32 };
enum { SIDES_BYTES = 2, COUNTS_BYTES = 8, NUMBER_BYTES = 5, NOTE_MAX = 64 };

/* The regions of levels 1 to 3: bit q of row[l][r] is set where quarter square (q, r) has level l + 1 or more. */
struct regions {
  uint32_t row[LEVELS - 1][QUARTERS];
};

/* A box of quarters, low corner first. */
struct box {
  size_t u0, v0, u1, v1;
};

/* Marks of the functions of one row of a level, where a cell's side is e eighths: function a stands at place
   a / 2 * e of the word for its parity. */
struct marks {
  uint64_t even, odd;
};

static inline bool marked(struct marks m, size_t a, size_t e) {
  return (a % 2 ? m.odd : m.even) >> (a / 2 * e) & 1;
}

/* Moves the marks of the next two functions to the lowest places. */
static inline struct marks next_two(struct marks m, size_t e) {
  return (struct marks){m.even >> e, m.odd >> e};
}

/* The side of a level's cells in eighths of a level 0 cell. */
static inline size_t eighths(size_t level) {
  return 8 >> level;
}

static inline size_t functions(size_t n, size_t level) {
  return (n << level) + 3;
}

static inline size_t places(size_t w, size_t h, size_t level) {
  return functions(w, level) * functions(h, level);
}

/* Where a level's coefficients start; at level 4, how many there are. */
static inline size_t start(size_t w, size_t h, size_t level) {
  size_t at = 0;
  for (size_t k = 0; k < level; k++) at += places(w, h, k);
  return at;
}

static inline bool good_sides(size_t w, size_t h) {
  return w >= 1 && w <= 8 && h >= 1 && h <= 8;
}

/* Past 32,000 watts in the level's unit of 1/64^level watt. */
static inline bool past_limit(int64_t number, size_t level) {
  int64_t limit = (int64_t)32000 << (6 * level);
  return number > limit || number < -limit;
}

/* Cause 7: a box with no area, or past the sheet. */
static inline bool bad_box(size_t w, size_t h, const struct box *box) {
  return box->u1 <= box->u0 || box->v1 <= box->v0 || box->u1 > 4 * w || box->v1 > 4 * h;
}

/* The square of this side at (x, y) shares area with the box. */
static inline bool meets(const struct box *box, size_t x, size_t y, size_t side) {
  return x < box->u1 && box->u0 < x + side && y < box->v1 && box->v0 < y + side;
}

/* The square lies in the box. */
static inline bool covers(const struct box *box, size_t x, size_t y, size_t side) {
  return box->u0 <= x && x + side <= box->u1 && box->v0 <= y && y + side <= box->v1;
}

/* Four leaves of a byte each are equal. */
static inline bool four_equal(const uint8_t *leaf) {
  return leaf[0] == leaf[1] && leaf[0] == leaf[2] && leaf[0] == leaf[3];
}

/* A word with the n bits from x on set. */
static inline uint32_t span(size_t x, size_t n) {
  return UINT32_MAX >> (QUARTERS - n) << x;
}

/* Raises a single quarter square: most leaves of a deep tree are such. */
static inline void raise_quarter(struct regions *regions, size_t x, size_t y, uint8_t level) {
  uint32_t mask = (uint32_t)1 << x;
  if (level < 1) return;
  regions->row[0][y] |= mask;
  if (level < 2) return;
  regions->row[1][y] |= mask;
  if (level < 3) return;
  regions->row[2][y] |= mask;
}

/* Raises the quarter squares of a box to a level; those above it stay. */
void raise_box(struct regions *regions, const struct box *box, size_t level);

/* Causes 1 and 2, with the regions where none applies. */
uint8_t region_cause(size_t w, size_t h, const uint8_t *tree, size_t len, struct regions *regions);

/* Of row b of a level from 1 on, the functions whose cut support lies in the region of their level. */
struct marks inside_row(const struct regions *regions, size_t w, size_t h, size_t level, size_t b);

/* The active functions of row b of a level. */
struct marks active_row(const struct regions *regions, size_t w, size_t h, size_t level, size_t b);

/* The nodes of a tree that are visited for the levels under a box. */
size_t visited_under(const uint8_t *tree, const struct box *box);

/* How many functions of each level are active. */
void count_active(const struct regions *regions, size_t w, size_t h, size_t counts[LEVELS]);

/* Causes 1 to 5, with the regions where none applies. */
uint8_t check(size_t w, size_t h, const uint8_t *tree, size_t tree_len, const int64_t *numbers, size_t numbers_len,
              struct regions *regions);

#endif
