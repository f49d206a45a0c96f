/* Document 02, "Fine detail mark": the least and the greatest level under a box with the nodes visited, refused calls
   included; the quarter square that holds a point; and where a display draws its dot.
   Prints a line for each thing that is not as due, and a count at the end. */
#include "kiln_table.h"
#include "boxes.h"
#include "held.h"

static const uint8_t flat[1] = {0}, whole_3[1] = {3}, equal[5] = {4, 0, 0, 0, 0};
static const uint8_t level_1[13] = {4, 4, 4, 1}, corners[5] = {4, 0, 1, 2, 3}, beside[9] = {4, 4, 3};

static uint8_t tree[KILN_TREE_BYTES], finer_tree[KILN_TREE_BYTES];
static int64_t numbers[KILN_PLACES], finer_numbers[KILN_PLACES];
static const struct kiln_room room = {tree, KILN_TREE_BYTES, numbers, KILN_PLACES};
static const struct kiln_room finer_room = {finer_tree, KILN_TREE_BYTES, finer_numbers, KILN_PLACES};

/* A sheet with its tree, without coefficients: the least level call takes no others. */
static struct kiln_table over(size_t w, size_t h, const uint8_t *regions, size_t regions_len) {
  struct kiln_table table = {w, h, regions, regions_len, NULL, 0};
  return table;
}

/* Whether the call gives these three, from the struct and plain. */
static int gives(struct kiln_table t, struct kiln_box b, uint8_t least, uint8_t greatest, size_t visited) {
  uint8_t low[2] = {77, 77}, high[2] = {77, 77};
  size_t count[2] = {77, 77};
  int done = !kiln_table_least_level(&t, b, &low[0], &high[0], &count[0]) &&
             !kiln_least_level(t.w, t.h, t.tree, t.tree_len, b.u0, b.v0, b.u1, b.v1, &low[1], &high[1], &count[1]);
  for (int k = 0; k < 2; k++) done = done && low[k] == least && high[k] == greatest && count[k] == visited;
  return done;
}

/* Whether the call is refused with this number, and all three hold what they held. */
static int refused_with(uint8_t number, struct kiln_table t, struct kiln_box b) {
  uint8_t least = 77, greatest = 78;
  size_t visited = 79;
  uint8_t refused = kiln_least_level(t.w, t.h, t.tree, t.tree_len, b.u0, b.v0, b.u1, b.v1, &least, &greatest, &visited);
  return refused == number && least == 77 && greatest == 78 && visited == 79;
}

/* Document 01's tree 4 4 4 1 and nine 0: splits of 32, 16 and 8 quarters a side, of whose corner four by four have
   level 1. "The root is visited, and each child of a visited split whose square shares area with the box". */
static void bench_sheet(void) {
  struct kiln_table one = over(1, 1, level_1, 13), two = over(2, 1, level_1, 13);
  HELD(gives(over(1, 1, flat, 1), box(1, 1, 2, 2), 0, 0, 1));
  HELD(gives(over(8, 8, whole_3, 1), box(0, 0, 32, 32), 3, 3, 1));
  HELD(gives(one, box(0, 0, 4, 4), 1, 1, 4) && gives(one, box(3, 0, 4, 1), 1, 1, 4));
  HELD(gives(two, box(0, 0, 8, 4), 0, 1, 5) && gives(two, box(3, 0, 5, 1), 0, 1, 5));
  HELD(gives(two, box(0, 0, 4, 4), 1, 1, 4) && gives(two, box(4, 0, 8, 4), 0, 0, 4));
}

/* Sixteen quarters a side: south-west 0, south-east 1, north-west 2, north-east 3. A square that only touches the box
   shares no area with it. */
static void four_levels(void) {
  struct kiln_table t = over(8, 8, corners, 5);
  HELD(gives(t, box(0, 0, 32, 32), 0, 3, 5) && gives(t, box(15, 15, 17, 17), 0, 3, 5));
  HELD(gives(t, box(0, 0, 16, 16), 0, 0, 2) && gives(t, box(16, 0, 32, 16), 1, 1, 2));
  HELD(gives(t, box(0, 16, 16, 32), 2, 2, 2) && gives(t, box(16, 16, 32, 32), 3, 3, 2));
  HELD(gives(t, box(0, 15, 16, 17), 0, 2, 3) && gives(t, box(15, 0, 17, 16), 0, 1, 3));
  HELD(gives(t, box(31, 15, 32, 17), 1, 3, 3) && gives(t, box(15, 31, 17, 32), 2, 3, 3));
}

/* Level 3 fills the corner's eight by eight quarters. It is not visited for a box beside it in the same split. */
static void beside_a_finer_square(void) {
  struct kiln_table t = over(8, 8, beside, 9);
  HELD(gives(t, box(8, 0, 16, 8), 0, 0, 3) && gives(t, box(0, 8, 8, 16), 0, 0, 3));
  HELD(gives(t, box(7, 7, 8, 8), 3, 3, 3) && gives(t, box(7, 0, 9, 1), 0, 3, 4));
  HELD(gives(t, box(8, 8, 16, 16), 0, 0, 3) && gives(t, box(7, 7, 9, 9), 0, 3, 6));
}

/* "1, 2, 7", the lowest where several apply; nothing is written. */
static void refusals(void) {
  struct kiln_table t = over(2, 1, level_1, 13);
  HELD(refused_with(KILN_SIDE, over(0, 1, flat, 1), box(0, 0, 1, 1)));
  HELD(refused_with(KILN_SIDE, over(1, 9, equal, 5), box(1, 1, 1, 1)));
  HELD(refused_with(KILN_TREE, over(8, 8, equal, 5), box(0, 0, 1, 1)));
  HELD(refused_with(KILN_TREE, over(1, 1, NULL, 0), box(0, 0, 5, 4)));
  HELD(refused_with(KILN_TREE, over(1, 1, level_1, 12), box(0, 0, 4, 4)));
  HELD(refused_with(KILN_BOX, t, box(0, 0, 9, 4)) && refused_with(KILN_BOX, t, box(0, 0, 8, 5)));
  HELD(refused_with(KILN_BOX, t, box(2, 0, 2, 4)) && refused_with(KILN_BOX, t, box(0, 3, 8, 2)));
  HELD(refused_with(KILN_BOX, t, box(0, 0, SIZE_MAX, 4)) && refused_with(KILN_BOX, t, box(SIZE_MAX, 0, 8, 4)));
}

/* "on a shared edge the one of greater u or v, at a far edge the last": of the quarters of a side that have a place
   between their ends, ends included, the last. Past the sheet a quarter is past it too. */
static void quarters(void) {
  int same = 1;
  for (size_t side = 1; side <= 8; side++) {
    for (size_t steps = 0; steps <= 128 * side; steps++) {
      size_t last = SIZE_MAX;
      for (size_t q = 0; q < 4 * side; q++) if (32 * q <= steps && steps <= 32 * (q + 1)) last = q;
      same &= kiln_quarter(side, steps) == last;
    }
    for (size_t past = 1; past < 300; past++) same &= kiln_quarter(side, 128 * side + past) >= 4 * side;
    same &= kiln_quarter(side, SIZE_MAX) >= 4 * side;
  }
  HELD(same);
  HELD(kiln_quarter(1, 31) == 0 && kiln_quarter(1, 32) == 1 && kiln_quarter(1, 128) == 3 && kiln_quarter(2, 128) == 4);
}

/* On 3 by 2 the box 4,2 to 9,8 has level 2: from u 128 up to the step before 288, and from v 64 to the far edge. For a
   point off the sheet the call is refused, and nothing is written. */
static void dots(void) {
  const struct kiln_sheet sheet = {3, 2};
  struct kiln_table t = over(3, 2, NULL, 0);
  int same = 1, drawn = 0;
  HELD(kiln_table_fresh(sheet, 700, room, &t) == KILN_DONE);
  HELD(kiln_table_insert(&t, box(4, 2, 9, 8), 2, finer_room, &t) == KILN_DONE);
  for (size_t u = 0; u <= 384 + 40; u++)
    for (size_t v = 0; v <= 256 + 40; v++) {
      uint8_t least = 77, greatest = 77, refused;
      size_t visited = 77;
      refused = kiln_table_least_level(&t, kiln_table_quarter(&t, at(u, v)), &least, &greatest, &visited);
      int off = u > 384 || v > 256, dot = u >= 128 && u < 288 && v >= 64;
      if (off) same &= refused == KILN_BOX && least == 77 && greatest == 77 && visited == 77;
      else same &= !refused && least == greatest && greatest == (dot ? 2 : 0);
      drawn += !refused && greatest > 0;
    }
  HELD(same && drawn == 160 * 193);
  HELD(kiln_table_quarter(&t, at(288, 63)).u0 == 9 && kiln_table_quarter(&t, at(288, 63)).v0 == 1);
  HELD(kiln_table_quarter(&t, at(384, 256)).u1 == 12 && kiln_table_quarter(&t, at(384, 256)).v1 == 8);
}

int main(void) {
  bench_sheet();
  four_levels();
  beside_a_finer_square();
  refusals();
  quarters();
  dots();
  return all_held("levels under boxes");
}
