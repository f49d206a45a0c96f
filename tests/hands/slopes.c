/* Document 02, "An arrow beside the figure": the watts and both slopes at a point, refused calls included; the same in
   one struct; and what the arrow says on both sides of each limit.
   Prints a line for each thing that is not as due, and a count at the end. */
#include "kiln_table.h"
#include "boxes.h"
#include "held.h"

#include <float.h>
#include <math.h>
#include <string.h>

enum { ONE = 211, FINEST = 4489 };  /* the places of 1 by 1, and of level 3 of 8 by 8 */
static const uint8_t flat[1] = {0}, equal[5] = {4, 0, 0, 0, 0}, level_1[13] = {4, 4, 4, 1}, whole_3[1] = {3};

static uint8_t tree[KILN_TREE_BYTES], finer_tree[KILN_TREE_BYTES];
static int64_t numbers[KILN_PLACES], finer_numbers[KILN_PLACES];
static const struct kiln_room room = {tree, KILN_TREE_BYTES, numbers, KILN_PLACES};
static const struct kiln_room finer_room = {finer_tree, KILN_TREE_BYTES, finer_numbers, KILN_PLACES};

/* "Each lies within 2^-20 of the exact derivative"; "Watts keep the bound of 2^-30". */
static int close_to(double slope, double due) { return fabs(slope - due) <= ldexp(1, -20); }
static int watts_are(double watts, double due) { return fabs(watts - due) <= ldexp(1, -30); }

static struct kiln_table over(size_t w, size_t h, const uint8_t *regions, size_t regions_len, size_t places) {
  struct kiln_table table = {w, h, regions, regions_len, numbers, places};
  return table;
}

/* What a plain call takes of a table. */
#define PLAIN(t) (t).w, (t).h, (t).tree, (t).tree_len, (t).numbers, (t).numbers_len

static struct kiln_watts_and_slopes sloping(double along_u, double along_v) {
  struct kiln_watts_and_slopes made_slopes = {7, along_u, along_v};
  return made_slopes;
}

/* Whether the call is refused with this number, plain, in a struct and with a table in one, and writes nothing. */
static int refused_with(uint8_t number, struct kiln_table t, size_t u, size_t v) {
  double watts = 77, along_u = 78, along_v = 79;
  struct kiln_watts_and_slopes left = {77, 78, 79};
  return kiln_slopes(PLAIN(t), u, v, &watts, &along_u, &along_v) == number &&
         kiln_slopes_at(PLAIN(t), u, v, &left) == number && kiln_table_slopes(&t, at(u, v), &left) == number &&
         watts == 77 && along_u == 78 && along_v == 79 &&
         left.watts == 77 && left.along_u == 78 && left.along_v == 79;
}

/* "Checks are those of a float reading": 1 to 6, the lowest where several apply. */
static void refusals(void) {
  const struct kiln_table one = over(1, 1, flat, 1, ONE);
  memset(numbers, 0, sizeof numbers);
  HELD(refused_with(KILN_SIDE, over(0, 1, equal, 5, 0), 999, 0));
  HELD(refused_with(KILN_SIDE, over(1, 9, flat, 1, ONE), 0, 0));
  HELD(refused_with(KILN_TREE, over(1, 1, equal, 5, 0), 999, 0));
  HELD(refused_with(KILN_TREE, over(1, 1, NULL, 0, ONE), 0, 0));
  HELD(refused_with(KILN_NUMBERS_LENGTH, over(1, 1, flat, 1, ONE - 1), 999, 0));
  HELD(refused_with(KILN_NUMBERS_LENGTH, over(1, 1, flat, 1, ONE + 1), 0, 0));
  HELD(refused_with(KILN_POINT, one, 129, 0) && refused_with(KILN_POINT, one, 0, 129));
  HELD(refused_with(KILN_POINT, one, SIZE_MAX, 0) && refused_with(KILN_POINT, one, 0, SIZE_MAX));
  numbers[ONE - 1] = 1;
  HELD(refused_with(KILN_PASSIVE_NOT_ZERO, one, 0, 0) && refused_with(KILN_PASSIVE_NOT_ZERO, one, 0, 129));
  numbers[5] = 32001;
  HELD(refused_with(KILN_COEFFICIENT_LIMIT, one, 0, 0) && refused_with(KILN_COEFFICIENT_LIMIT, one, 0, 129));
}

/* Of "(1-t)^3, 3t^3-6t^2+4, -3t^3+3t^2+3t+1 and t^3, each over 6" the derivatives at t 0 are -3, 0, 3 and 0, and at t 1
   they are 0, -3, 0 and 3, each over 6; "At the far edges the last cell's polynomial counts". */
static void one_function(void) {
  static const double slopes[2][4] = {{-3, 0, 3, 0}, {0, -3, 0, 3}}, values[2][4] = {{1, 4, 1, 0}, {0, 1, 4, 1}};
  struct kiln_table t = over(1, 1, flat, 1, ONE);
  int same = 1;
  for (size_t k = 0; k < 16; k++)
    for (size_t corner = 0; corner < 4; corner++) {
      struct kiln_watts_and_slopes found;
      size_t a = k % 4, b = k / 4, far_u = corner % 2, far_v = corner / 2;
      memset(numbers, 0, sizeof numbers);
      numbers[k] = 36 * 8;
      same &= kiln_table_slopes(&t, at(128 * far_u, 128 * far_v), &found) == KILN_DONE;
      same &= watts_are(found.watts, 8 * values[far_u][a] * values[far_v][b]);
      same &= close_to(found.along_u, slopes[far_u][a] * values[far_v][b]);
      same &= close_to(found.along_v, values[far_u][a] * slopes[far_v][b]);
    }
  HELD(same);
}

/* A reading in watts, at a point so many steps along u or along v; where it is refused, near no number. */
static double reading(const struct kiln_table *t, int along_v, size_t steps, size_t other) {
  int64_t numerator = 0;
  if (kiln_table_exact(t, along_v ? at(other, steps) : at(steps, other), &numerator)) return HUGE_VAL;
  return (double)numerator / (double)KILN_DENOMINATOR;
}

/* A slope from exact readings: inside a cell of level 3 they are a cubic, which four of them, five steps apart,
   determine by their differences. What doubles round off is far below the bound. */
static double derivative(const struct kiln_table *t, int along_v, size_t side, size_t steps, size_t other) {
  size_t cell = steps == 128 * side ? 8 * side - 1 : steps / 16;
  double y[4], k = (double)steps - 16.0 * (double)cell;
  for (size_t n = 0; n < 4; n++) y[n] = reading(t, along_v, 16 * cell + 5 * n, other);
  double one = y[1] - y[0], two = y[2] - 2 * y[1] + y[0], three = y[3] - 3 * y[2] + 3 * y[1] - y[0];
  return 16 * (150 * one + 15 * (2 * k - 5) * two + (3 * k * k - 30 * k + 50) * three) / 750;
}

/* A sheet of 3 by 2 whose watts bend in both directions, unrefined and refined: the derivatives of its exact readings
   at knots and between, far edges included, plain and in a struct. */
static void beside_readings(void) {
  struct kiln_table t = over(3, 2, flat, 1, kiln_places(3, 2));
  int same = 1, apart = 0;
  memset(numbers, 0, sizeof numbers);
  for (int64_t a = 0; a < 6; a++)
    for (int64_t b = 0; b < 5; b++) numbers[6 * b + a] = 900 * a - 71 * a * a * b + 350 * b * b;
  for (int refined = 0; refined < 2; refined++) {
    for (size_t u = 0; u <= 384; u += 24)
      for (size_t v = 0; v <= 256; v += 16) {
        double watts, along_u, along_v;
        struct kiln_watts_and_slopes found;
        same &= kiln_slopes(PLAIN(t), u, v, &watts, &along_u, &along_v) == KILN_DONE;
        same &= watts_are(watts, reading(&t, 0, u, v));
        same &= close_to(along_u, derivative(&t, 0, 3, u, v)) && close_to(along_v, derivative(&t, 1, 2, v, u));
        same &= kiln_table_slopes(&t, at(u, v), &found) == KILN_DONE;
        same &= found.watts == watts && found.along_u == along_u && found.along_v == along_v;
        apart += fabs(along_u) > 1 && fabs(along_v) > 1 && fabs(along_u - along_v) > 1;
      }
    HELD(same && apart > 200 * (refined + 1));
    if (!refined) {
      HELD(kiln_table_insert(&t, box(2, 1, 9, 6), 1, finer_room, &t) == KILN_DONE);
      HELD(kiln_table_insert(&t, box(5, 2, 12, 8), 3, room, &t) == KILN_DONE);
    }
  }
}

/* Level 3 on 8 by 8, at the middle of a cell: two columns, or rows, at one limit and two at the other. */
static void greatest(void) {
  struct kiln_table t = over(8, 8, whole_3, 1, KILN_PLACES);
  const int64_t limit = INT64_C(8388608000);
  struct kiln_watts_and_slopes found;
  memset(numbers, 0, sizeof numbers);
  for (size_t k = 0; k < FINEST; k++) numbers[KILN_PLACES - FINEST + k] = k % 67 < 32 ? -limit : limit;
  HELD(kiln_table_slopes(&t, at(16 * 30 + 8, 900), &found) == KILN_DONE && watts_are(found.watts, 0));
  HELD(close_to(found.along_u, KILN_GREATEST_SLOPE) && close_to(found.along_v, 0));
  HELD(kiln_hotter(found) == KILN_WAY_MORE && kiln_quicker(found) == KILN_WAY_EVEN);
  HELD(kiln_arrow_of(found) == KILN_ARROW_HOTTER);
  for (size_t k = 0; k < FINEST; k++) numbers[KILN_PLACES - FINEST + k] = k / 67 < 32 ? limit : -limit;
  HELD(kiln_table_slopes(&t, at(900, 16 * 30 + 8), &found) == KILN_DONE && watts_are(found.watts, 0));
  HELD(close_to(found.along_u, 0) && close_to(found.along_v, -KILN_GREATEST_SLOPE));
  HELD(kiln_hotter(found) == KILN_WAY_EVEN && kiln_quicker(found) == KILN_WAY_LESS);
  HELD(kiln_arrow_of(found) == KILN_ARROW_HOTTER);
}

/* S: the watts rise by 1,000 over a cell along u, so by 125 over an eighth, and not along v; with level 1 the same. */
static void slopes_of_s(void) {
  struct kiln_table t = over(1, 1, flat, 1, ONE);
  for (int refined = 0; refined < 2; refined++) {
    int same = 1;
    memset(numbers, 0, sizeof numbers);
    for (int64_t k = 0; k < (refined ? 25 : 16); k++)
      numbers[refined ? 16 + k : k] = refined ? 32000 * (k % 5 - 1) : 1000 * (k % 4 - 1);
    if (refined) t.tree = level_1, t.tree_len = 13;
    for (size_t u = 0; u <= 128; u++)
      for (size_t v = 0; v <= 128; v += 32) {
        struct kiln_watts_and_slopes found;
        same &= kiln_table_slopes(&t, at(u, v), &found) == KILN_DONE && watts_are(found.watts, 7.8125 * (double)u);
        same &= close_to(found.along_u, 125) && close_to(found.along_v, 0);
        same &= kiln_hotter(found) == KILN_WAY_MORE && kiln_quicker(found) == KILN_WAY_EVEN;
        same &= kiln_arrow_of(found) == KILN_ARROW_HOTTER;
      }
    HELD(same);
  }
}

/* Even up to 2^-20, where the exact slope may be 0, and for two up to 2^-19, where they may be equal; no further. */
static void arrows(void) {
  const double limit = ldexp(1, -20), above = limit * (1 + DBL_EPSILON), step = ldexp(1, -37), high = 40000;
  const double slopes[9] = {-48000, -1, -above, -limit, 0, limit, above, 1, 48000};
  HELD(KILN_SLOPE_BOUND == limit && above > limit);
  HELD(kiln_way_of(0) == KILN_WAY_EVEN && kiln_way_of(limit) == KILN_WAY_EVEN && kiln_way_of(-limit) == KILN_WAY_EVEN);
  HELD(kiln_way_of(above) == KILN_WAY_MORE && kiln_way_of(-above) == KILN_WAY_LESS);
  HELD(kiln_way_of(48000) == KILN_WAY_MORE && kiln_way_of(-48000) == KILN_WAY_LESS);
  HELD(kiln_hotter(sloping(above, -above)) == KILN_WAY_MORE && kiln_quicker(sloping(above, -above)) == KILN_WAY_LESS);
  HELD(kiln_arrow_of(sloping(2 * limit, 0)) == KILN_ARROW_EVEN);
  HELD(kiln_arrow_of(sloping(0, 2 * limit)) == KILN_ARROW_EVEN);
  HELD(kiln_arrow_of(sloping(2 * above, 0)) == KILN_ARROW_HOTTER);
  HELD(kiln_arrow_of(sloping(0, 2 * above)) == KILN_ARROW_QUICKER);
  HELD(kiln_arrow_of(sloping(-5, -3)) == KILN_ARROW_QUICKER && kiln_arrow_of(sloping(-3, -5)) == KILN_ARROW_HOTTER);
  HELD(kiln_arrow_of(sloping(high + 2 * limit, high)) == KILN_ARROW_EVEN);
  HELD(kiln_arrow_of(sloping(high + 2 * limit + step, high)) == KILN_ARROW_HOTTER);
  HELD(kiln_arrow_of(sloping(-high, -high + 2 * limit)) == KILN_ARROW_EVEN);
  HELD(kiln_arrow_of(sloping(-high, -high + 2 * limit + step)) == KILN_ARROW_QUICKER);
  for (size_t k = 0; k < 81; k++) {
    struct kiln_watts_and_slopes one = sloping(slopes[k % 9], slopes[k / 9]);
    int apart = kiln_hotter(one) - kiln_quicker(one);
    if (apart == 2) HELD(kiln_arrow_of(one) == KILN_ARROW_HOTTER);
    if (apart == -2) HELD(kiln_arrow_of(one) == KILN_ARROW_QUICKER);
    if (k % 9 == k / 9) HELD(apart == 0 && kiln_arrow_of(one) == KILN_ARROW_EVEN);
  }
}

int main(void) {
  refusals();
  one_function();
  beside_readings();
  greatest();
  slopes_of_s();
  arrows();
  return all_held("slopes and arrows");
}
