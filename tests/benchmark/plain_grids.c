/* Both converters of full grids in plain C. Towards the grid carried values go from level to level in strips of one
   level 0 cell's rows. From a grid numbers go back from level to level, cell by cell, and are then held to the grid. */
#include "plain_carry.h"
#include "plain_fields.h"
#include "plain_put.h"

enum { FINEST = LEVELS - 1, TAG_GRID = TAG_LEVEL_0 + FINEST, GRID_AT = HEAD + SIDES_BYTES, GRID_BODY = GRID_AT + HEAD };

/* The most functions of a level along a side, and the rows of a level under one level 0 cell's. */
enum { WIDE_1 = 19, WIDE_2 = 35, WIDE_3 = 67, ROWS_1 = 5, ROWS_2 = 7, COARSER_MAX = 121 + 361 + 1225 };

/* What a conversion of a table has at hand. */
struct table {
  size_t w, h;
  const int64_t *numbers;
  const struct regions *regions;
};

/* The carried values of row b of a level, from rows of the coarser level that start with its row `first`. */
static inline void carried_row(const struct table *t, size_t level, size_t b, const int64_t *coarse, size_t first,
                               int64_t *out) {
  int64_t sums[WIDE_2];
  size_t n = functions(t->w, level);
  along_v(coarse, functions(t->w, level - 1), b - 2 * first, sums);
  carry_row(t->numbers + start(t->w, t->h, level) + b * n, sums, inside_row(t->regions, t->w, t->h, level, b),
            eighths(level), n, out);
}

/* Writes a row's numbers, and returns the position after them. */
static inline uint8_t *put_row(uint8_t *to, const int64_t *row, size_t n) {
  for (size_t a = 0; a < n; a++) to = put_number(to, row[a]);
  return to;
}

/* Writes the level 3 rows over row y of level 0 cells, in the last strip those beyond it too. */
static uint8_t *put_strip(const struct table *t, size_t y, uint8_t *to) {
  int64_t level_1[ROWS_1 * WIDE_1], level_2[ROWS_2 * WIDE_2], row[WIDE_3];
  size_t n_1 = functions(t->w, 1), n_2 = functions(t->w, 2), n_3 = functions(t->w, 3);
  size_t rows = y + 1 < t->h ? 8 : 11;
  for (size_t k = 0; k < ROWS_1; k++)
    carried_row(t, 1, 2 * y + k, t->numbers + y * functions(t->w, 0), y, level_1 + k * n_1);
  for (size_t k = 0; k < ROWS_2; k++) carried_row(t, 2, 4 * y + k, level_1, 2 * y, level_2 + k * n_2);
  for (size_t k = 0; k < rows; k++) {
    carried_row(t, 3, 8 * y + k, level_2, 4 * y, row);
    to = put_row(to, row, n_3);
  }
  return to;
}

uint8_t plain_write_grid(size_t w, size_t h, const uint8_t *tree, size_t tree_len, const int64_t *numbers,
                         size_t numbers_len, uint8_t *grid_out, size_t grid_out_len, size_t *length) {
  struct regions regions;
  uint8_t cause = check(w, h, tree, tree_len, numbers, numbers_len, &regions), *to = grid_out;
  if (cause) return cause;
  size_t body = NUMBER_BYTES * places(w, h, FINEST);
  if (grid_out_len < GRID_BODY + body) return FILE_OUTPUT_SHORT;
  struct table table = {w, h, numbers, &regions};
  to = put_head(to, TAG_SIDES, SIDES_BYTES);
  *to++ = (uint8_t)w;
  *to++ = (uint8_t)h;
  to = put_head(to, TAG_GRID, body);
  for (size_t y = 0; y < h; y++) to = put_strip(&table, y, to);
  *length = GRID_BODY + body;
  return 0;
}

/* A grid in byte order. */
static uint8_t judge_grid(const struct file *file) {
  size_t end;
  uint8_t cause = field_at(file, 0, TAG_SIDES, SIDES_BYTES, SIDES_BYTES, &end);
  if (cause) return cause;
  size_t w = file->bytes[HEAD], h = file->bytes[HEAD + 1];
  if (!good_sides(w, h)) return BAD_SIDE;
  size_t count = places(w, h, FINEST), body = NUMBER_BYTES * count;
  if ((cause = field_at(file, GRID_AT, TAG_GRID, body, body, &end))) return cause;
  for (size_t k = 0; k < count; k++)
    if (past_limit(number_at(file->bytes + GRID_BODY + NUMBER_BYTES * k), FINEST)) return OVER_LIMIT;
  return end < file->len ? BYTES_AFTER : 0;
}

/* What a conversion of a grid has at hand: the numbers of levels 0 to 2 that it finds, and the grid's of level 3. */
struct back {
  size_t w, h;
  const uint8_t *body;
  const struct regions *regions;
  int64_t *found;
};

/* The parents of four children around the near half of a cell, at their places: the second of three children, then the
   others from those known. Around the far half they are mirrored. Where a remainder is left it is cut off. */
static inline void parents(int64_t *i, int64_t *j, int64_t *k, int64_t *l) {
  int64_t q = (4 * *j - *i - *k) / 16, r = *k / 4 - q;
  *i = *i / 4 - q;
  *j = q;
  *k = r;
  *l = *l - q - 6 * r;
}

/* A step of subdivision along a side undone, in half g: four lines of so many places between numbers, a step apart. */
static inline void undo(int64_t *at, size_t between, size_t step, size_t g) {
  for (size_t l = 0; l < 4; l++, at += step) {
    if (g == 0) parents(at, at + between, at + 2 * between, at + 3 * between);
    else parents(at + 3 * between, at + 2 * between, at + between, at);
  }
}

/* The sixteen numbers of the next level around its cell (x, y): entry [l][k] is the k-th along u, the l-th along v. */
static inline void finer_numbers(const struct back *back, size_t level, size_t x, size_t y, int64_t at[4][4]) {
  size_t n = functions(back->w, level + 1), first = y * n + x;
  if (level + 1 == FINEST) {
    for (size_t l = 0; l < 4; l++)
      for (size_t k = 0; k < 4; k++) at[l][k] = number_at(back->body + NUMBER_BYTES * (first + l * n + k));
    return;
  }
  const int64_t *from = back->found + start(back->w, back->h, level + 1) + first;
  for (size_t l = 0; l < 4; l++, from += n)
    for (size_t k = 0; k < 4; k++) at[l][k] = from[k];
}

/* Takes the sixteen numbers around cell (x / 2, y / 2) of a level from those around cell (x, y) of the next. */
static inline bool step_back(const struct back *back, size_t level, size_t x, size_t y) {
  int64_t at[4][4];
  size_t n = functions(back->w, level);
  int64_t *to = back->found + start(back->w, back->h, level) + y / 2 * n + x / 2;
  finer_numbers(back, level, x, y, at);
  undo(at[0], 1, 4, x % 2);
  undo(at[0], 4, 1, y % 2);
  for (size_t l = 0; l < 4; l++)
    for (size_t k = 0; k < 4; k++)
      if (past_limit(at[l][k], level)) return false;
  for (size_t l = 0; l < 4; l++, to += n) memcpy(to, at[l], sizeof at[l]);
  return true;
}

/* The first quarter square of cell (x, y) of a level, row by row, that has this level at most. */
static inline bool quarter_in(const struct back *back, size_t level, size_t x, size_t y, size_t *q, size_t *r) {
  size_t side = 4 >> level;
  for (*r = side * y; *r < side * (y + 1); ++*r)
    for (*q = side * x; *q < side * (x + 1); ++*q)
      if (!(back->regions->row[level][*r] >> *q & 1)) return true;
  return false;
}

/* The numbers of a row of cells, where a quarter square of the cell has this level at most. A square waits until the
   next one is found, and is left out where the next one's cell begins among the functions done or right after them:
   each function around its own cell is then done or around the next one's. */
static bool row_back(const struct back *back, size_t level, size_t y) {
  size_t q, r, u = 0, v = 0, done = 0;
  bool waiting = false;
  for (size_t x = 0; x < back->w << level; x++) {
    if (!quarter_in(back, level, x, y, &q, &r)) continue;
    if (waiting && x > done) {
      if (!step_back(back, level, u, v)) return false;
      done = u / 2 + 4;
    }
    waiting = true;
    /* A quarter lies in half a cell of level 1, is one of level 2, and holds two of level 3 along a side. */
    u = level == 0 ? q / 2 : level == 1 ? q : 2 * q, v = level == 0 ? r / 2 : level == 1 ? r : 2 * r;
  }
  return !waiting || step_back(back, level, u, v);
}

static bool level_back(const struct back *back, size_t level) {
  for (size_t y = 0; y < back->h << level; y++)
    if (!row_back(back, level, y)) return false;
  return true;
}

/* Reads n numbers from bytes. */
static inline void take_row(const uint8_t *from, size_t n, int64_t *row) {
  for (size_t a = 0; a < n; a++) row[a] = number_at(from + NUMBER_BYTES * a);
}

/* The rows of a level from 1 on are those carried from the coarser one. */
static bool level_fits(const struct back *back, size_t level) {
  int64_t sums[WIDE_2], taken[WIDE_3], carried[WIDE_3];
  size_t n = functions(back->w, level), m = functions(back->h, level);
  const int64_t *coarse = back->found + start(back->w, back->h, level - 1);
  const int64_t *row = coarse + places(back->w, back->h, level - 1);
  const uint8_t *from = back->body;
  for (size_t b = 0; b < m; b++, row += n, from += NUMBER_BYTES * n) {
    const int64_t *own = level == FINEST ? taken : row;
    if (level == FINEST) take_row(from, n, taken);
    along_v(coarse, functions(back->w, level - 1), b, sums);
    carry_row(own, sums, inside_row(back->regions, back->w, back->h, level, b), eighths(level), n, carried);
    for (size_t k = 0; k < n; k++)
      if (carried[k] != own[k]) return false;
  }
  return true;
}

/* Finds the numbers of levels 2 to 0 and holds them to each other and to the grid. */
static bool convert(const struct back *back) {
  for (size_t level = FINEST; level-- > 0;)
    if (!level_back(back, level)) return false;
  for (size_t level = 1; level < LEVELS; level++)
    if (!level_fits(back, level)) return false;
  return true;
}

uint8_t plain_read_grid(const uint8_t *grid, size_t grid_len, const uint8_t *tree, size_t tree_len,
                        int64_t *numbers_out, size_t numbers_out_len, size_t *w, size_t *h) {
  struct regions regions;
  struct file file = {grid, grid_len};
  int64_t found[COARSER_MAX];
  uint8_t cause = judge_grid(&file);
  if (cause) return cause;
  size_t wide = grid[HEAD], high = grid[HEAD + 1], coarser = start(wide, high, FINEST);
  if ((cause = region_cause(wide, high, tree, tree_len, &regions))) return cause;
  struct back back = {wide, high, grid + GRID_BODY, &regions, found};
  memset(found, 0, sizeof found);
  if (!convert(&back)) return NO_TABLE;
  if (numbers_out_len != start(wide, high, LEVELS)) return BAD_OUTPUT;
  memcpy(numbers_out, found, coarser * sizeof *found);
  take_row(back.body, places(wide, high, FINEST), numbers_out + coarser);
  clear_passive(&regions, wide, high, numbers_out);
  *w = wide;
  *h = high;
  return 0;
}
