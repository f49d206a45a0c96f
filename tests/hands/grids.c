/* Document 02, "The full-grid dialect": tables written as grids and grids read as tables, each over several trees,
   plain and with structs, beside coefficients that are known by arithmetic; each refusal beside another, and what it
   leaves.
   Prints a line for each thing that is not as due, and a count at the end. */
#include "grids.h"
#include "held.h"

enum { TREES = 7, LIMIT_BITS = 18 };  /* the trees of a sheet; 64^3 is 2^18 */
static const int64_t limit = INT64_C(32000) << LIMIT_BITS;
static struct regions trees[TREES];
static uint8_t grid[KILN_GRID_BYTES + 80], out[KILN_GRID_BYTES + 3];
static int64_t numbers[KILN_PLACES + 1], spare[KILN_PLACES];
static const struct kiln_table unmade = {9, 9, NULL, 9, NULL, 9};

static int never_made(const struct kiln_table *table) {
  return table->w == 9 && table->h == 9 && !table->tree && table->tree_len == 9 && !table->numbers &&
         table->numbers_len == 9;
}

static void filled(void) {
  for (size_t k = 0; k <= KILN_PLACES; k++) numbers[k] = 77;
}

/* Whether the numbers hold what they held, from here on. */
static int left_from(size_t from) {
  while (from <= KILN_PLACES && numbers[from] == 77) from++;
  return from == KILN_PLACES + 1;
}

/* Raises a box of the tree of a sheet, whatever a table over it holds. */
static void raised(size_t w, size_t h, struct regions *of, const size_t box[4], size_t level) {
  static uint8_t tree[KILN_TREE_BYTES];
  memset(spare, 0, sizeof spare);
  HELD(!kiln_insert(w, h, of->tree, of->length, spare, kiln_places(w, h), box[0], box[1], box[2], box[3], level, tree,
                    KILN_TREE_BYTES, numbers, kiln_places(w, h), &of->length));
  memcpy(of->tree, tree, of->length);
}

/* The trees of a sheet: each level throughout, and three with levels beside each other, in boxes on odd quarters. */
static void trees_of(size_t w, size_t h) {
  const size_t whole[4] = {0, 0, 4 * w, 4 * h}, low[4] = {0, 0, 3, 4 * h - 1};
  const size_t high[4] = {4 * w - 3, 4 * h - 3, 4 * w, 4 * h}, one[4] = {1, 2, 2, 3};
  for (size_t k = 0; k < TREES; k++) {
    trees[k].length = 1;
    trees[k].tree[0] = 0;
    if (k == 6 || (k && k < LEVELS)) raised(w, h, &trees[k], whole, k == 6 ? 1 : k);
    if (k >= LEVELS) raised(w, h, &trees[k], low, 2);
    if (k == LEVELS) raised(w, h, &trees[k], one, 3);
    else if (k > LEVELS) raised(w, h, &trees[k], high, 3);
  }
}

/* What the plain call and the one with a struct refuse a grid with, where they leave all that they were lent; 255
   where they do not or differ, 0 where they accept it. Places that are too many are lent to the plain call alone. */
static uint8_t refusal_of(size_t length, const struct regions *over, size_t places) {
  struct kiln_table made = unmade;
  size_t w = 7, h = 7, needed = kiln_grid_places(grid, length);
  filled();
  uint8_t refused = kiln_read_grid(grid, length, over->tree, over->length, numbers, places, &w, &h);
  if (!refused) return 0;
  if (!left_from(0) || w != 7 || h != 7) return 255;
  if (places > needed) return refused;
  if (kiln_table_read_grid(grid, length, over->tree, over->length, numbers, places, &made) != refused) return 255;
  return left_from(0) && never_made(&made) ? refused : 255;
}

/* Whether both read the grid as the table over a tree that stands in numbers_due. */
static int reads_as_due(size_t length, const struct regions *over, size_t w, size_t h) {
  struct kiln_table made = unmade;
  size_t places = kiln_places(w, h), told_w = 7, told_h = 7;
  filled();
  int same = !kiln_read_grid(grid, length, over->tree, over->length, numbers, places, &told_w, &told_h);
  same = same && told_w == w && told_h == h && left_from(places) && kiln_grid_places(grid, length) == places;
  same = same && !memcmp(numbers, numbers_due, places * sizeof *numbers);
  same = same && !kiln_table_cause(w, h, over->tree, over->length, numbers, places);
  filled();
  same = same && !kiln_table_read_grid(grid, length, over->tree, over->length, numbers, KILN_PLACES + 1, &made);
  same = same && made.w == w && made.h == h && made.tree == over->tree && made.tree_len == over->length;
  same = same && made.numbers == numbers && made.numbers_len == places && left_from(places);
  return same && !memcmp(numbers, numbers_due, places * sizeof *numbers);
}

/* Whether both write the grid in grid_due for the table in numbers_due; "bytes past the grid are untouched". */
static int writes_as_due(size_t length, const struct regions *over, size_t w, size_t h) {
  struct kiln_table table = {w, h, over->tree, over->length, numbers_due, kiln_places(w, h)};
  size_t told = 7;
  memset(out, 77, sizeof out);
  int same = !kiln_write_grid(w, h, over->tree, over->length, numbers_due, kiln_places(w, h), out, length, &told);
  same = same && told == length && told == kiln_grid_length(w, h) && !memcmp(out, grid_due, length);
  same = same && out[length] == 77 && out[length + 1] == 77 && out[length + 2] == 77;
  memset(out, 77, sizeof out);
  told = 7;
  same = same && !kiln_table_write_grid(&table, out, sizeof out, &told) && told == length;
  return same && !memcmp(out, grid_due, length) && out[length] == 77 && out[sizeof out - 1] == 77;
}

/* "every acceptable table converts, and reads the same everywhere"; "the table over those regions with the same exact
   reading at every point": over each tree of a sheet the grid is that of the surface, and so is the table read. */
static void both_ways(const struct surface *of) {
  size_t length = grid_of(of);
  memcpy(grid, grid_due, length);
  for (size_t k = 0; k < TREES; k++) {
    HELD(numbers_of(of, &trees[k]) == kiln_places(of->w, of->h));
    HELD(writes_as_due(length, &trees[k], of->w, of->h));
    HELD(reads_as_due(length, &trees[k], of->w, of->h));
  }
}

/* One number of a grid more or less by one: over a tree with that function active the table has that coefficient so.
   Over any other no table has those readings: the surface would bend inside a quarter square of a coarser level. */
static void one_number_changed(const struct surface *of, size_t every) {
  size_t length = grid_of(of), places = kiln_places(of->w, of->h), finest = row(of->w, 3) * row(of->h, 3);
  size_t kept = 0, refused = 0;
  int same = 1;
  memcpy(grid, grid_due, length);
  for (size_t t = 0; t < TREES; t++) {
    numbers_of(of, &trees[t]);  /* leaves the activity of level 3 */
    for (size_t k = t; k < finest; k += every) {
      int64_t *number = numbers_due + places - finest + k, by = k % 2 ? 1 : -1;
      number_put(grid, k, coefficient(of, 3, k) + by);
      if (active[k]) {
        *number += by;
        same &= reads_as_due(length, &trees[t], of->w, of->h);
        *number -= by;
        kept++;
      } else {
        same &= refusal_of(length, &trees[t], places) == KILN_NO_TABLE;
        refused++;
      }
      number_put(grid, k, coefficient(of, 3, k));
    }
  }
  HELD(same && kept > 9 && refused > 9);
}

/* A grid of one number throughout reads that many 1/64^3 watt. "no acceptable table" where a coefficient of a level L
   that is active would not be whole: the number is then no multiple of 64^(3 - L). */
static void not_whole(size_t w, size_t h) {
  static const int64_t tried[12] = {1, -1, 63, 64, -64, 96, 4095, 4096, 12288, -262143, 262144, INT64_C(8388608000)};
  size_t done = 0;
  for (size_t k = 0; k < 12; k++) {
    const struct surface of = constant(w, h, 3, tried[k]);
    size_t length = grid_of(&of), places = kiln_places(w, h);
    memcpy(grid, grid_due, length);
    for (size_t t = 0; t < TREES; t++) {
      int whole = 1;
      for (size_t level = 0, at = 0; level < LEVELS; level++) {
        int64_t unit = INT64_C(1) << (6 * (3 - level));
        size_t n = row(w, level) * row(h, level);
        HELD(!kiln_activity(w, h, trees[t].tree, trees[t].length, level, active, n));
        for (size_t place = 0; place < n; place++) {
          numbers_due[at++] = active[place] ? tried[k] / unit : 0;
          if (active[place] && tried[k] % unit) whole = 0;
        }
      }
      done += (size_t)whole;
      if (whole) HELD(reads_as_due(length, &trees[t], w, h) && writes_as_due(length, &trees[t], w, h));
      else HELD(refusal_of(length, &trees[t], places) == KILN_NO_TABLE);
    }
  }
  HELD(done >= 12 + 2 * (TREES - 1) + 6);  /* all over level 3, two over each other tree, six over levels 1 and 2 */
}

/* "no acceptable table": a coefficient of level L past its limit, where the grid's own numbers are within theirs. Over
   each finer level throughout there is a table, over a coarser one none. */
static void past_a_limit(size_t w, size_t h) {
  for (size_t level = 0; level < 3; level++)
    for (int k = 0; k < 4; k++) {
      int64_t number = ((INT64_C(32000) << (6 * level)) + k % 2) * (k / 2 ? -1 : 1);
      const struct surface of = corner(w, h, level, number);
      size_t length = grid_of(&of), places = kiln_places(w, h);
      memcpy(grid, grid_due, length);
      for (size_t t = 0; t < LEVELS; t++) {
        if (t < level || (t == level && k % 2)) {
          HELD(refusal_of(length, &trees[t], places) == KILN_NO_TABLE);
        } else {
          HELD(numbers_of(&of, &trees[t]) == places && reads_as_due(length, &trees[t], w, h));
          HELD(writes_as_due(length, &trees[t], w, h));
        }
      }
    }
}

/* A good grid of 1 by 1, and its length; over the trees 3 and 5 it is accepted. */
static size_t good_grid(void) {
  const struct surface of = uneven(1, 1);
  size_t length = grid_of(&of);
  memcpy(grid, grid_due, length);
  memset(grid + length, 77, 80);
  return length;
}

static uint8_t with_byte(size_t at, size_t byte, size_t length) {
  good_grid();
  grid[at] = (uint8_t)byte;
  return refusal_of(length, &trees[3], 211);
}

/* "whole head, tag, length, whole body, contents", for each of the two fields; then 15. */
static void in_byte_order(void) {
  size_t length = good_grid();
  int same = length == 613;
  for (size_t cut = 0; cut <= length; cut++)
    same &= refusal_of(cut, &trees[3], 211) == (cut < length ? KILN_FILE_ENDS : KILN_DONE);
  HELD(same && refusal_of(length + 80, &trees[3], 211) == KILN_FILE_GOES_ON);
  for (size_t b = 0; b < 256; b++) {
    same &= with_byte(0, b, length) == (b == 1 ? KILN_DONE : KILN_FILE_TAG);
    same &= with_byte(1, b, length) == (b == 0 ? KILN_DONE : KILN_FILE_FIELD_LENGTH);
    same &= with_byte(2, b, length) == (b == 2 ? KILN_DONE : KILN_FILE_FIELD_LENGTH);
    /* A side of another sheet makes the length of tag 19 wrong. */
    for (size_t side = 3; side < 5; side++)
      same &= with_byte(side, b, length) == (b < 1 || b > 8 ? KILN_SIDE : b > 1 ? KILN_FILE_FIELD_LENGTH : KILN_DONE);
    same &= with_byte(5, b, length) == (b == 19 ? KILN_DONE : KILN_FILE_TAG);
    same &= with_byte(6, b, length) == (b == 2 ? KILN_DONE : KILN_FILE_FIELD_LENGTH);
    same &= with_byte(7, b, length) == (b == 93 ? KILN_DONE : KILN_FILE_FIELD_LENGTH);
    same &= with_byte(length, b, length + 1) == KILN_FILE_GOES_ON;
  }
  HELD(same);
  HELD(with_byte(0, 2, 2) == KILN_FILE_ENDS && with_byte(0, 2, 3) == KILN_FILE_TAG);
  HELD(with_byte(2, 3, 3) == KILN_FILE_FIELD_LENGTH && with_byte(3, 9, 4) == KILN_FILE_ENDS);
  HELD(with_byte(3, 9, 5) == KILN_SIDE && with_byte(5, 2, 7) == KILN_FILE_ENDS && with_byte(5, 2, 8) == KILN_FILE_TAG);
  HELD(with_byte(7, 92, 8) == KILN_FILE_FIELD_LENGTH && with_byte(8, 127, length - 1) == KILN_FILE_ENDS);
  HELD(with_byte(8, 127, length + 1) == KILN_COEFFICIENT_LIMIT);
}

/* "Grid coefficients past their limit give 4", the first number and the last and each sign; five bytes hold more. */
static void limits(void) {
  static const int64_t past[4] = {1, 77, INT64_C(1) << 33, (INT64_C(1) << 39) - 1 - (INT64_C(32000) << LIMIT_BITS)};
  size_t length = good_grid();
  for (size_t place = 0; place <= 120; place += 60)
    for (int sign = -1; sign < 2; sign += 2) {
      number_put(grid, place, sign * limit);
      HELD(refusal_of(length, &trees[3], 211) == KILN_DONE);
      for (size_t k = 0; k < 4; k++) {
        number_put(grid, place, sign * (limit + past[k]));
        HELD(refusal_of(length, &trees[3], 211) == KILN_COEFFICIENT_LIMIT);
      }
      number_put(grid, place, 0);
    }
}

/* "tags 1 and 19 only": no tree, no counts, no note; a table file is no grid, nor is a grid one. */
static void other_fields(void) {
  static const uint8_t counts[11] = {3, 0, 8, 0, 0, 0, 0, 0, 0, 0, 121}, note[5] = {32, 0, 2, 79, 75};
  size_t length = good_grid(), told = 7, w = 7, h = 7;
  memcpy(grid + length, note, 5);
  HELD(refusal_of(length + 5, &trees[3], 211) == KILN_FILE_GOES_ON);
  HELD(refusal_of(length + 3, &trees[3], 211) == KILN_FILE_GOES_ON);
  memmove(grid + 16, grid + 5, length - 5);
  memcpy(grid + 5, counts, 11);
  HELD(refusal_of(length + 11, &trees[3], 211) == KILN_FILE_TAG);
  length = good_grid();
  HELD(kiln_read_file(grid, length, out, KILN_TREE_BYTES, spare, 211, &told, &w, &h) == KILN_FILE_TAG);
  const struct surface of = uneven(1, 1);
  HELD(numbers_of(&of, &trees[3]) == 211 && told == 7 && w == 7 && h == 7);
  HELD(!kiln_write_file(1, 1, trees[3].tree, trees[3].length, numbers_due, 211, 0, NULL, 0, grid, sizeof grid, &told));
  HELD(refusal_of(told, &trees[3], 211) == KILN_FILE_TAG);
}

/* "after the checks of both inputs, the grid's first, and before 16". */
static void one_after_another(void) {
  static const size_t others[4] = {210, 212, 0, KILN_PLACES};
  static const struct regions equal = {5, {4, 0, 0, 0, 0}}, none = {0, {0}}, beyond = {1, {1}}, on = {2, {0, 0}};
  const struct regions *const bad[4] = {&equal, &none, &beyond, &on};
  size_t length = good_grid(), w = 7, h = 7;
  for (size_t k = 0; k < 4; k++) {
    HELD(refusal_of(length, &trees[k], others[k]) == KILN_OUTPUT_LENGTH);
    HELD(refusal_of(length, bad[k], 211) == KILN_TREE && refusal_of(length, bad[k], others[k]) == KILN_TREE);
    HELD(refusal_of(length + 1, bad[k], others[k]) == KILN_FILE_GOES_ON);
    HELD(refusal_of(length - 1, bad[k], others[k]) == KILN_FILE_ENDS);
    number_put(grid, 60, limit + 1);
    HELD(refusal_of(length, bad[k], others[k]) == KILN_COEFFICIENT_LIMIT);
    number_put(grid, 60, 5);
    HELD(refusal_of(length, bad[k], others[k]) == KILN_TREE);
    HELD(refusal_of(length, &trees[0], others[k]) == KILN_NO_TABLE && refusal_of(length, &trees[2], 211) == 21);
    HELD(refusal_of(length, &trees[3], others[k]) == KILN_OUTPUT_LENGTH && refusal_of(length, &trees[3], 211) == 0);
    good_grid();
  }
  HELD(kiln_read_grid(NULL, 0, NULL, 0, NULL, 0, &w, &h) == KILN_FILE_ENDS && w == 7 && h == 7);
  HELD(kiln_read_grid(grid, length, NULL, 0, NULL, 0, &w, &h) == KILN_TREE && w == 7 && h == 7);
  HELD(kiln_read_grid(grid, length, trees[0].tree, 1, NULL, 0, &w, &h) == KILN_OUTPUT_LENGTH && w == 7 && h == 7);
}

/* "A longer grid is refused with the same number when only its first KILN_GRID_BYTES + 1 bytes are lent", over the
   whole sheet at level 3 and over what is no tree. No longer grid gives 12: both heads and the longest body are there
   whole. */
static void longer_than_any(const struct surface *of) {
  static const struct regions equal = {5, {4, 0, 0, 0, 0}};
  static const int after[3] = {0, 32, 77};
  size_t length = grid_of(of), places = kiln_places(of->w, of->h);
  const size_t due[9][3] = {  /* a byte, what it is and the number that it gives */
    {0, 2, KILN_FILE_TAG}, {5, 3, KILN_FILE_TAG}, {1, 1, KILN_FILE_FIELD_LENGTH}, {7, 0, KILN_FILE_FIELD_LENGTH},
    {3, of->w % 8 + 1, KILN_FILE_FIELD_LENGTH}, {4, 9, KILN_SIDE}, {8, 127, KILN_COEFFICIENT_LIMIT},
    {length - 5, 128, KILN_COEFFICIENT_LIMIT}, {0, 1, KILN_FILE_GOES_ON}};
  for (size_t k = 0; k < 27; k++) {
    const size_t *one = due[k / 3], lent[3] = {KILN_GRID_BYTES + 1, KILN_GRID_BYTES + 2, sizeof grid};
    int same = 1;
    memset(grid, after[k % 3], sizeof grid);
    memcpy(grid, grid_due, length);
    grid[one[0]] = (uint8_t)one[1];
    for (size_t n = 0; n < 3; n++)
      same &= refusal_of(lent[n], &trees[3], places) == one[2] && refusal_of(lent[n], &equal, places) == one[2];
    HELD(same);
  }
}

/* Whether both writers refuse a table with this number, and leave what they were lent. */
static int writing_refused(uint8_t number, struct kiln_table table, size_t lent) {
  size_t length = 7;
  memset(out, 77, sizeof out);
  int same = kiln_table_write_grid(&table, out, lent, &length) == number &&
             kiln_write_grid(table.w, table.h, table.tree, table.tree_len, table.numbers, table.numbers_len, out, lent,
                             &length) == number;
  return same && length == 7 && out[0] == 77 && !memcmp(out, out + 1, sizeof out - 1);
}

/* "Tables are checked as elsewhere": 1 to 5, each beside those after it; "A grid output too short gives 18, judged
   last". */
static void writing(void) {
  static const uint8_t equal[5] = {4, 0, 0, 0, 0};
  const struct surface of = uneven(1, 1);
  struct kiln_table table = {9, 1, equal, 5, numbers_due, 210};
  size_t told = 7;
  HELD(numbers_of(&of, &trees[0]) == 211);
  numbers_due[3] = 32001, numbers_due[210] = 1;
  HELD(writing_refused(KILN_SIDE, table, 612) && writing_refused(KILN_SIDE, table, sizeof out));
  table.w = 1;
  HELD(writing_refused(KILN_TREE, table, 612) && writing_refused(KILN_TREE, table, 0));
  table.tree_len = 1, table.tree = trees[0].tree;
  HELD(writing_refused(KILN_NUMBERS_LENGTH, table, 612));
  table.numbers_len = 211;
  HELD(writing_refused(KILN_COEFFICIENT_LIMIT, table, 612));
  numbers_due[3] = 32000;
  HELD(writing_refused(KILN_PASSIVE_NOT_ZERO, table, 612));
  numbers_due[210] = 0;
  for (size_t lent = 0; lent < 613; lent++) HELD(writing_refused(KILN_FILE_OUTPUT_SHORT, table, lent));
  HELD(kiln_table_write_grid(&table, NULL, 0, &told) == KILN_FILE_OUTPUT_SHORT && told == 7);
  HELD(kiln_table_write_grid(&table, out, 613, &told) == KILN_DONE && told == 613);
}

/* The struct of the table that was written may be the one that is made, with its numbers in their own place. */
static void in_place(void) {
  const struct surface of = uneven(1, 1);
  struct kiln_table table = {1, 1, trees[5].tree, trees[5].length, spare, 211};
  size_t length = 7;
  HELD(numbers_of(&of, &trees[5]) == 211);
  memcpy(spare, numbers_due, 211 * sizeof *spare);
  HELD(!kiln_table_write_grid(&table, grid, sizeof grid, &length) && length == 613);
  memset(spare, 0, sizeof spare);
  HELD(!kiln_table_read_grid(grid, length, table.tree, table.tree_len, spare, 211, &table));
  HELD(table.tree == trees[5].tree && table.numbers == spare && !memcmp(spare, numbers_due, 211 * sizeof *spare));
}

/* "5 bytes each": the lengths of grids, and what a grid says of the slice that is due. */
static void sizes(void) {
  static const uint8_t sides[5] = {9, 9, 9, 2, 1};
  size_t longest = 0;
  int same = 1;
  for (size_t w = 0; w < 10; w++)
    for (size_t h = 0; h < 10; h++) {
      size_t due = w < 1 || h < 1 || w > 8 || h > 8 ? 0 : 8 + 5 * (8 * w + 3) * (8 * h + 3);
      same &= kiln_grid_length(w, h) == due;
      longest = due > longest ? due : longest;
    }
  HELD(same && longest == KILN_GRID_BYTES && kiln_grid_length((size_t)-1, 1) == 0);
  HELD(kiln_grid_length(1, 1) == 613 && kiln_grid_length(2, 1) == 8 + 5 * 19 * 11);
  HELD(kiln_grid_places(sides, 5) == 341 && kiln_grid_places(sides, 4) == 0 && kiln_grid_places(NULL, 0) == 0);
  HELD(kiln_grid_places(grid_due, 0) == 0 && KILN_NO_TABLE == 21);
  HELD(!strcmp(kiln_refusal_words(KILN_NO_TABLE), "no acceptable table over that tree has the grid's readings"));
}

int main(void) {
  static const size_t sheets[5][3] = {{3, 2, 9}, {1, 3, 5}, {2, 1, 3}, {8, 8, 397}, {1, 1, 1}};
  for (size_t k = 0; k < 5; k++) {
    size_t w = sheets[k][0], h = sheets[k][1];
    const struct surface of = uneven(w, h), most = constant(w, h, 0, -32000);
    trees_of(w, h);
    both_ways(&of);
    both_ways(&most);
    one_number_changed(&of, sheets[k][2]);
    not_whole(w, h);
    past_a_limit(w, h);
    longer_than_any(&of);
  }
  /* The trees are now those of 1 by 1. */
  in_byte_order();
  limits();
  other_fields();
  one_after_another();
  writing();
  in_place();
  sizes();
  return all_held("grids");
}
