/* Regions as rows of bits in plain C: one walk judges a tree and paints it; the functions in a region, row by row. */
#include "plain_inside.h"

void raise_box(struct regions *regions, const struct box *box, size_t level) {
  uint32_t mask = span(box->u0, box->u1 - box->u0);
  for (size_t l = 0; l < level; l++)
    for (size_t r = box->v0; r < box->v1; r++) regions->row[l][r] |= mask;
}

/* What a walk of a tree has at hand: the tree's end, the sheet's sides in quarters, the regions to paint. */
struct walk {
  const uint8_t *end;
  size_t wide, high;
  struct regions *regions;
};

static inline bool on_sheet(const struct walk *walk, size_t x, size_t y, size_t side) {
  return x + side <= walk->wide && y + side <= walk->high;
}

/* The children of a split of side 2 are single quarters, so that they can only be leaves: most splits are such. The
   sheet's edges are edges of such squares, so that all four lie on the sheet or none does. */
static const uint8_t *walk_quarters(const struct walk *walk, const uint8_t *leaf, size_t x, size_t y) {
  if (walk->end - leaf < 4) return NULL;
  uint8_t greatest = on_sheet(walk, x, y, 2) ? LEAF_MAX : 0;
  if (leaf[0] > greatest || leaf[1] > greatest || leaf[2] > greatest || leaf[3] > greatest) return NULL;
  if (four_equal(leaf)) return NULL;
  raise_quarter(walk->regions, x, y, leaf[0]);
  raise_quarter(walk->regions, x + 1, y, leaf[1]);
  raise_quarter(walk->regions, x, y + 1, leaf[2]);
  raise_quarter(walk->regions, x + 1, y + 1, leaf[3]);
  return leaf + 4;
}

/* Judges the tree written from `at` on, of the square of this side at (x, y), and raises the squares of its leaves.
   Returns its end, or NULL where it is not of the form. */
static const uint8_t *walk_tree(const struct walk *walk, const uint8_t *at, size_t x, size_t y, size_t side) {
  if (at == walk->end) return NULL;
  uint8_t byte = *at++;
  if (byte == 0) return at;
  if (byte <= LEAF_MAX) {
    if (!on_sheet(walk, x, y, side)) return NULL;
    raise_box(walk->regions, &(struct box){x, y, x + side, y + side}, byte);
    return at;
  }
  if (byte != SPLIT) return NULL;
  if (side == 2) return walk_quarters(walk, at, x, y);
  const uint8_t *first = at;
  size_t half = side / 2;
  if (!(at = walk_tree(walk, at, x, y, half))) return NULL;
  if (!(at = walk_tree(walk, at, x + half, y, half))) return NULL;
  if (!(at = walk_tree(walk, at, x, y + half, half))) return NULL;
  if (!(at = walk_tree(walk, at, x + half, y + half, half))) return NULL;
  /* Four children of a byte each are leaves. */
  return at == first + 4 && four_equal(first) ? NULL : at;
}

uint8_t region_cause(size_t w, size_t h, const uint8_t *tree, size_t len, struct regions *regions) {
  if (!good_sides(w, h)) return BAD_SIDE;
  struct walk walk = {tree + len, 4 * w, 4 * h, regions};
  memset(regions, 0, sizeof *regions);
  const uint8_t *end = walk_tree(&walk, tree, 0, 0, QUARTERS);
  return end && end == walk.end ? 0 : BAD_TREE;
}

/* The quarters under a cut support along one side, from low to before high. */
struct window {
  size_t low, high;
};

/* The window of function a of a level, in eighths first: a level 3 edge may halve a quarter. */
static inline struct window window_of(size_t n, size_t e, size_t a) {
  size_t low = a > 3 ? (a - 3) * e : 0;
  size_t high = (a + 1) * e < 8 * n ? (a + 1) * e : 8 * n;
  return (struct window){low / 2, (high + 1) / 2};
}

/* The bits that are set in all the rows of a window, with 16 places before them. The places beside the sheet are set:
   supports are cut to the sheet. */
static inline uint64_t common(const uint32_t *row, struct window at, size_t w) {
  uint32_t word = UINT32_MAX;
  for (size_t r = at.low; r < at.high; r++) word &= row[r];
  return (uint64_t)word << 16 | ~((uint64_t)span(0, 4 * w) << 16);
}

/* The functions whose cut support has only set bits under it, given the bits common to the rows under it. */
static inline struct marks in_runs(uint64_t word, size_t e) {
  /* Bit k says that the 2 e bits from k on are set: the width of a support, 4 e eighths. */
  for (size_t n = 1; n < 2 * e; n *= 2) word &= word >> n;
  /* Every other support of level 3 halves two quarters and so covers three: two runs of two. */
  uint64_t even = e == 1 ? word & word >> 1 : word;
  return (struct marks){even >> (32 - 3 * e) / 2, word >> (16 - e)};
}

struct marks inside_row(const struct regions *regions, size_t w, size_t h, size_t level, size_t b) {
  size_t e = eighths(level);
  return in_runs(common(regions->row[level - 1], window_of(h, e, b), w), e);
}

/* In the region of their own level, which is everything at level 0, and not of the next, which is nothing at 3. */
struct marks active_row(const struct regions *regions, size_t w, size_t h, size_t level, size_t b) {
  size_t e = eighths(level);
  struct window under = window_of(h, e, b);
  struct marks own = {UINT64_MAX, UINT64_MAX}, finer = {0, 0};
  if (level > 0) own = in_runs(common(regions->row[level - 1], under, w), e);
  if (level < LEVELS - 1) finer = in_runs(common(regions->row[level], under, w), e);
  return (struct marks){own.even & ~finer.even, own.odd & ~finer.odd};
}
