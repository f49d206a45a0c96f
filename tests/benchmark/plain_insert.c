/* The enquiry and the commit of an insertion in plain C: the new tree and its slip; the coefficients carried over,
   passive places cleared. */
#include "plain_carry.h"

/* What the insertion has at hand: the regions that it raises, the box and the level named, and the place of the next
   byte of the new tree. */
struct raising {
  struct regions *regions;
  const struct box *box;
  size_t level;
  uint8_t *to;
};

static inline uint8_t level_at(const struct regions *regions, size_t x, size_t y) {
  return (uint8_t)((regions->row[0][y] >> x & 1) + (regions->row[1][y] >> x & 1) + (regions->row[2][y] >> x & 1));
}

/* No quarter of the square lies in the region of level l + 1. */
static inline bool none_in(const struct regions *regions, size_t l, size_t x, size_t y, size_t side) {
  uint32_t mask = span(x, side);
  for (size_t r = y; r < y + side; r++)
    if (regions->row[l][r] & mask) return false;
  return true;
}

/* Joins the four trees written after `at`: four children of a byte each are leaves, and equal ones become one. */
static inline void join(struct raising *work, uint8_t *at) {
  if (work->to == at + 5 && four_equal(at + 1)) {
    *at = at[1];
    work->to = at + 1;
  } else {
    *at = SPLIT;
  }
}

/* Writes the tree of the square of this side at (x, y), away from the box. */
static void build_tree(struct raising *work, size_t x, size_t y, size_t side) {
  if (side == 1) {
    *work->to++ = level_at(work->regions, x, y);
    return;
  }
  if (none_in(work->regions, 0, x, y, side)) {
    *work->to++ = 0;
    return;
  }
  size_t half = side / 2;
  uint8_t *at = work->to++;
  build_tree(work, x, y, half);
  build_tree(work, x + half, y, half);
  build_tree(work, x, y + half, half);
  build_tree(work, x + half, y + half, half);
  join(work, at);
}

/* Raises the quarters of the square of this side at (x, y) that lie in the box, and writes the square's new tree. */
static void raise_tree(struct raising *work, size_t x, size_t y, size_t side) {
  if (!meets(work->box, x, y, side)) {
    build_tree(work, x, y, side);
    return;
  }
  if (side == 1) {
    raise_quarter(work->regions, x, y, (uint8_t)work->level);
    *work->to++ = level_at(work->regions, x, y);
    return;
  }
  if (covers(work->box, x, y, side)
      && (work->level == LEAF_MAX || none_in(work->regions, work->level, x, y, side))) {
    raise_box(work->regions, &(struct box){x, y, x + side, y + side}, work->level);
    *work->to++ = (uint8_t)work->level;
    return;
  }
  size_t half = side / 2;
  uint8_t *at = work->to++;
  raise_tree(work, x, y, half);
  raise_tree(work, x + half, y, half);
  raise_tree(work, x, y + half, half);
  raise_tree(work, x + half, y + half, half);
  join(work, at);
}

/* The carried values of all functions, level by level. */
static void carry(const int64_t *numbers, const struct regions *regions, size_t w, size_t h, int64_t *out) {
  int64_t sums[35];
  memcpy(out, numbers, places(w, h, 0) * sizeof *out);
  for (size_t level = 1; level < LEVELS; level++) {
    const int64_t *coarse = out + start(w, h, level - 1);
    size_t n = functions(w, level), m = functions(h, level), at = start(w, h, level);
    for (size_t b = 0; b < m; b++, at += n) {
      along_v(coarse, functions(w, level - 1), b, sums);
      carry_row(numbers + at, sums, inside_row(regions, w, h, level, b), eighths(level), n, out + at);
    }
  }
}

/* Causes 1 to 5, 7 and 8, with the table's regions where none applies. */
static uint8_t insertion_cause(size_t w, size_t h, const uint8_t *tree, size_t tree_len, const int64_t *numbers,
                               size_t numbers_len, const struct box *box, size_t level, struct regions *regions) {
  uint8_t cause = check(w, h, tree, tree_len, numbers, numbers_len, regions);
  if (cause) return cause;
  if (bad_box(w, h, box)) return BAD_BOX;
  return level < 1 || level >= LEVELS ? BAD_LEVEL : 0;
}

/* The numbers of a slip beside its box and level. */
struct slip {
  size_t length, active[LEVELS], visited;
};

/* Raises the regions, writes their tree, and finds the slip. */
static void find_slip(size_t w, size_t h, const struct box *box, size_t level, uint8_t *built, struct regions *regions,
                      struct slip *slip) {
  struct raising work = {regions, box, level, built};
  raise_tree(&work, 0, 0, QUARTERS);
  slip->length = (size_t)(work.to - built);
  count_active(regions, w, h, slip->active);
  slip->visited = visited_under(built, box);
}

uint8_t plain_enquire(size_t w, size_t h, const uint8_t *tree, size_t tree_len, const int64_t *numbers,
                      size_t numbers_len, size_t u0, size_t v0, size_t u1, size_t v1, size_t level, size_t *slip_length,
                      size_t *slip_active, size_t *slip_visited) {
  struct regions regions;
  struct box box = {u0, v0, u1, v1};
  struct slip slip;
  uint8_t built[TREE_MAX], cause = insertion_cause(w, h, tree, tree_len, numbers, numbers_len, &box, level, &regions);
  if (cause) return cause;
  find_slip(w, h, &box, level, built, &regions, &slip);
  *slip_length = slip.length;
  memcpy(slip_active, slip.active, sizeof slip.active);
  *slip_visited = slip.visited;
  return 0;
}

uint8_t plain_commit(size_t w, size_t h, const uint8_t *tree, size_t tree_len, const int64_t *numbers,
                     size_t numbers_len, size_t u0, size_t v0, size_t u1, size_t v1, size_t level, size_t slip_length,
                     const size_t *slip_active, size_t slip_visited, uint8_t *tree_out, size_t tree_out_len,
                     int64_t *numbers_out, size_t numbers_out_len, size_t *length) {
  struct regions regions, raised;
  struct box box = {u0, v0, u1, v1};
  struct slip slip;
  uint8_t built[TREE_MAX], cause = insertion_cause(w, h, tree, tree_len, numbers, numbers_len, &box, level, &regions);
  if (cause) return cause;
  raised = regions;
  find_slip(w, h, &box, level, built, &raised, &slip);
  if (slip.length != slip_length || slip.visited != slip_visited) return NOT_ITS_SLIP;
  if (memcmp(slip.active, slip_active, sizeof slip.active)) return NOT_ITS_SLIP;
  if (numbers_out_len != start(w, h, LEVELS)) return BAD_OUTPUT;
  if (tree_out_len < slip.length) return TREE_OUTPUT_SHORT;
  memcpy(tree_out, built, slip.length);
  carry(numbers, &regions, w, h, numbers_out);
  clear_passive(&raised, w, h, numbers_out);
  *length = slip.length;
  return 0;
}
