/* Makes every call of include/kiln.h and kiln_grid.h on document 01's bench sheet, refused ones included.
   Prints a line for each thing that is not as the bench sheet says, and a count at the end. */
#include "kiln.h"
#include "held.h"

#include <math.h>
#include <string.h>

#define NO_NOTE 0, NULL, 0
enum { ONE = 211, FINE = 25 };  /* the places of 1 by 1, and of its level 1 */
static const int64_t columns[4] = {-1000, 0, 1000, 2000}, fine_columns[5] = {-32000, 0, 32000, 64000, 96000};
static const uint8_t flat[1] = {0}, split[5] = {4, 0, 0, 0, 0}, whole_1[1] = {1}, whole_3[1] = {3};
static const uint8_t level_1[13] = {4, 4, 4, 1};

static int64_t s[ONE], fine[ONE], many[KILN_PLACES], more[KILN_PLACES];
static uint8_t tree[KILN_TREE_BYTES], bytes[KILN_PLACES], out[KILN_FILE_BYTES], file[112];
static uint8_t least, greatest;
static size_t length, visited, cost;
static int64_t numerator, figure;
static double watts;

static size_t ones(size_t n) {
  size_t sum = 0;
  for (size_t k = 0; k < n; k++) sum += bytes[k];
  return sum;
}

/* Whether the file output from here on holds what it was filled with. */
static int nines(size_t from) {
  while (from < sizeof out && out[from] == 9) from++;
  return from == sizeof out;
}

/* "S is 1 by 1 with level 0 columns -1,000, 0, 1,000, 2,000 (i = -3 to 0), equal in all rows." */
static void sheet_s(void) {
  HELD(kiln_places(1, 1) == ONE && kiln_level_places(1, 1, 1) == FINE);
  for (size_t k = 0; k < 16; k++) s[k] = columns[k % 4];
  HELD(kiln_table_cause(1, 1, flat, 1, s, ONE) == KILN_DONE);
  HELD(kiln_exact(1, 1, flat, 1, s, ONE, 64, 5, &numerator) == KILN_DONE);
  HELD(numerator == 500 * KILN_DENOMINATOR && numerator == INT64_C(79164837199872000));
  HELD(kiln_watts(1, 1, flat, 1, s, ONE, 64, 5, &watts) == KILN_DONE && fabs(watts - 500) <= ldexp(1, -30));
  HELD(kiln_display(1, 1, flat, 1, s, ONE, 128, 0, &figure) == KILN_DONE && figure == 1000);
  HELD(kiln_display(1, 1, flat, 1, s, ONE, 129, 0, &figure) == KILN_POINT && figure == 1000);
  HELD(kiln_exact(1, 1, flat, 1, s, ONE, 0, 129, &numerator) == KILN_POINT && numerator == 500 * KILN_DENOMINATOR);
}

/* Document 02, "One record holds the watts and both slopes": S rises by 1,000 watts over a cell along u, so by 125 over
   an eighth, and not along v; at the far edges too. A refused call leaves all three values. */
static void slopes_of_s(void) {
  static const size_t along[3] = {0, 64, 128};
  double along_u = 7, along_v = 8;
  watts = 9;
  HELD(kiln_slopes(9, 1, flat, 1, s, ONE, 64, 5, &watts, &along_u, &along_v) == KILN_SIDE);
  HELD(kiln_slopes(1, 1, split, 5, s, ONE, 64, 5, &watts, &along_u, &along_v) == KILN_TREE);
  HELD(kiln_slopes(1, 1, flat, 1, s, ONE - 1, 64, 5, &watts, &along_u, &along_v) == KILN_NUMBERS_LENGTH);
  HELD(kiln_slopes(1, 1, flat, 1, s, ONE, 129, 5, &watts, &along_u, &along_v) == KILN_POINT);
  HELD(kiln_slopes(1, 1, flat, 1, s, ONE, 64, 129, &watts, &along_u, &along_v) == KILN_POINT);
  s[3] = 32001, s[ONE - 1] = 1;
  HELD(kiln_slopes(1, 1, flat, 1, s, ONE, 64, 129, &watts, &along_u, &along_v) == KILN_COEFFICIENT_LIMIT);
  s[3] = columns[3];
  HELD(kiln_slopes(1, 1, flat, 1, s, ONE, 64, 129, &watts, &along_u, &along_v) == KILN_PASSIVE_NOT_ZERO);
  s[ONE - 1] = 0;
  HELD(watts == 9 && along_u == 7 && along_v == 8);
  for (size_t k = 0; k < 9; k++) {
    HELD(kiln_slopes(1, 1, flat, 1, s, ONE, along[k % 3], along[k / 3], &watts, &along_u, &along_v) == KILN_DONE);
    HELD(fabs(watts - 500.0 * (double)(k % 3)) <= ldexp(1, -30));
    HELD(fabs(along_u - 125) <= ldexp(1, -20) && fabs(along_v) <= ldexp(1, -20));
  }
}

/* Document 02, "Enquire, then insert", on S and the level 1 box 0,0 to 4,4: the slip has the tree's 13 bytes, 25 active
   functions of level 1 and 4 nodes. A refused call leaves what it was lent; a slip with one number changed is 19, which
   comes before 16 and 17; a commit of the slip itself writes the bench sheet's tree and columns. */
static void slip_of_s(void) {
  size_t told = 7, active[4] = {7, 7, 7, 7}, seen = 7, left = 7;
  HELD(kiln_enquire(0, 1, flat, 1, s, ONE, 0, 0, 4, 4, 1, &told, active, &seen) == KILN_SIDE);
  HELD(kiln_enquire(1, 1, split, 5, s, ONE, 0, 0, 4, 4, 1, &told, active, &seen) == KILN_TREE);
  HELD(kiln_enquire(1, 1, flat, 1, s, ONE - 1, 0, 0, 4, 4, 1, &told, active, &seen) == KILN_NUMBERS_LENGTH);
  HELD(kiln_enquire(1, 1, flat, 1, s, ONE, 0, 0, 5, 4, 4, &told, active, &seen) == KILN_BOX);
  HELD(kiln_enquire(1, 1, flat, 1, s, ONE, 0, 0, 4, 4, 4, &told, active, &seen) == KILN_LEVEL);
  HELD(told == 7 && active[0] == 7 && active[1] == 7 && active[2] == 7 && active[3] == 7 && seen == 7);
  HELD(kiln_enquire(1, 1, flat, 1, s, ONE, 0, 0, 4, 4, 1, &told, active, &seen) == KILN_DONE);
  HELD(told == 13 && active[0] == 0 && active[1] == 25 && active[2] == 0 && active[3] == 0 && seen == 4);
  memset(tree, 9, sizeof tree);
  for (int k = 0; k < 6; k++) {
    size_t wrong[6] = {told, active[0], active[1], active[2], active[3], seen};
    wrong[k]++;
    HELD(kiln_commit(1, 1, flat, 1, s, ONE, 0, 0, 4, 4, 1, wrong[0], wrong + 1, wrong[5], tree, k % 2 ? 12 : 13, fine,
                     k % 3 ? 210 : ONE, &left) == KILN_SLIP);
  }
  HELD(kiln_commit(1, 1, flat, 1, s, ONE, 0, 0, 4, 4, 4, told, active, seen, tree, 13, fine, ONE, &left) == KILN_LEVEL);
  HELD(kiln_commit(1, 1, flat, 1, s, ONE, 0, 0, 4, 5, 1, told, active, seen, tree, 13, fine, ONE, &left) == KILN_BOX);
  HELD(kiln_commit(1, 1, flat, 1, s, ONE, 0, 0, 4, 4, 1, told, active, seen, tree, 12, fine, 210, &left) == 16);
  HELD(kiln_commit(1, 1, flat, 1, s, ONE, 0, 0, 4, 4, 1, told, active, seen, tree, 12, fine, ONE, &left) == 17);
  HELD(left == 7 && tree[0] == 9 && tree[12] == 9 && fine[16] == 0);
  HELD(kiln_commit(1, 1, flat, 1, s, ONE, 0, 0, 4, 4, 1, told, active, seen, tree, 13, fine, ONE, &left) == KILN_DONE);
  HELD(left == 13 && !memcmp(tree, level_1, 13) && tree[13] == 9);
  HELD(fine[0] == 0 && fine[16] == -32000 && fine[40] == 96000 && fine[41] == 0);
  memset(fine, 0, sizeof fine);
}

/* "S, level 1 box 0,0 to 4,4: tree 4 4 4 1 and nine 0; 25 active", "least level 1, 4 nodes"; greatest level 1, as all
   of the sheet has it. On 2 by 1 the western half has level 1, the greatest, and the eastern half 0, the least. */
static void box_inserted(void) {
  memset(tree, 9, sizeof tree);
  HELD(kiln_insert(1, 1, flat, 1, s, ONE, 0, 0, 5, 4, 1, tree, sizeof tree, fine, ONE, &length) == KILN_BOX);
  HELD(kiln_insert(1, 1, flat, 1, s, ONE, 0, 0, 4, 4, 4, tree, sizeof tree, fine, ONE, &length) == KILN_LEVEL);
  HELD(kiln_insert(1, 1, flat, 1, s, ONE, 0, 0, 4, 4, 1, tree, sizeof tree, fine, 210, &length) == KILN_OUTPUT_LENGTH);
  HELD(kiln_insert(1, 1, flat, 1, s, ONE, 0, 0, 4, 4, 1, tree, 12, fine, ONE, &length) == KILN_TREE_OUTPUT_SHORT);
  HELD(length == 0 && tree[0] == 9 && fine[16] == 0);
  HELD(kiln_insert(1, 1, flat, 1, s, ONE, 0, 0, 4, 4, 1, tree, sizeof tree, fine, ONE, &length) == KILN_DONE);
  HELD(length == 13 && !memcmp(tree, level_1, 13) && tree[13] == 9);
  int same = 1;
  for (size_t k = 0; k < FINE; k++) same &= fine[16 + k] == fine_columns[k % 5];
  HELD(same && fine[0] == 0 && fine[15] == 0 && fine[41] == 0 && fine[ONE - 1] == 0);
  HELD(kiln_activity(1, 1, tree, length, 1, bytes, FINE) == KILN_DONE && ones(FINE) == 25);
  HELD(kiln_exact(1, 1, tree, length, fine, ONE, 64, 5, &numerator) == KILN_DONE);
  HELD(numerator == 500 * KILN_DENOMINATOR);
  HELD(kiln_least_level(1, 1, tree, length, 0, 0, 4, 4, &least, &greatest, &visited) == KILN_DONE);
  HELD(least == 1 && greatest == 1 && visited == 4);
  HELD(kiln_least_level(2, 1, tree, length, 0, 0, 8, 4, &least, &greatest, &visited) == KILN_DONE);
  HELD(least == 0 && greatest == 1 && visited == 5);
  HELD(kiln_least_level(1, 1, tree, length, 0, 0, 5, 4, &least, &greatest, &visited) == KILN_BOX);
  HELD(least == 0 && greatest == 1 && visited == 5);
  HELD(kiln_activity(2, 1, tree, length, 0, bytes, 20) == KILN_DONE && ones(20) == 16);
  HELD(kiln_activity(2, 1, tree, length, 1, bytes, 35) == KILN_DONE && ones(35) == 10);
}

/* On 2 by 1, what lies to the east: u before v, i before j. */
static void east(void) {
  size_t two = kiln_places(2, 1);
  HELD(kiln_fresh(2, 1, 700, tree, sizeof tree, many, two, &length) == KILN_DONE && length == 1);
  HELD(kiln_set(2, 1, flat, 1, many, two, 0, 1, 0, 5) == KILN_DONE && many[19] == 5);
  HELD(kiln_set(2, 1, flat, 1, many, two, 0, 0, 1, 5) == KILN_FUNCTION);
  HELD(kiln_insert(2, 1, flat, 1, many, two, 4, 0, 8, 4, 1, tree, sizeof tree, more, two, &length) == KILN_DONE);
  HELD(length == 13 && tree[3] == 0 && tree[4] == 1);
  HELD(kiln_insert(2, 1, flat, 1, many, two, 0, 4, 4, 8, 1, tree, sizeof tree, more, two, &length) == KILN_BOX);
  HELD(kiln_watts(2, 1, flat, 1, many, two, 256, 128, &watts) == KILN_DONE && watts > 0 && watts < 700);
  HELD(kiln_cost(2, 1, flat, 1, many, two, 128, 256, 1500, &cost) == KILN_POINT);
}

/* "only (-3, -3) is 1: at (0, 0) 2^42", "Only (-2, -2) is 1: at (0, 0) 2^46"; 32,000 accepted and 32,001 not. */
static void coefficients_set(void) {
  HELD(kiln_fresh(1, 1, 0, tree, 1, many, ONE, &length) == KILN_DONE && length == 1 && tree[0] == 0);
  HELD(kiln_set(1, 1, flat, 1, many, ONE, 0, -3, -3, 1) == KILN_DONE && many[0] == 1);
  HELD(kiln_exact(1, 1, flat, 1, many, ONE, 0, 0, &numerator) == KILN_DONE && numerator == INT64_C(1) << 42);
  HELD(kiln_exact(1, 1, flat, 1, many, ONE, 128, 128, &numerator) == KILN_DONE && numerator == 0);
  HELD(kiln_set(1, 1, flat, 1, many, ONE, 0, -3, -3, 0) == KILN_DONE);
  HELD(kiln_set(1, 1, flat, 1, many, ONE, 0, -2, -2, 1) == KILN_DONE && many[5] == 1);
  HELD(kiln_exact(1, 1, flat, 1, many, ONE, 0, 0, &numerator) == KILN_DONE && numerator == INT64_C(1) << 46);
  HELD(kiln_set(1, 1, flat, 1, many, ONE, 0, 0, -3, 32000) == KILN_DONE && many[3] == 32000);
  HELD(kiln_set(1, 1, flat, 1, many, ONE, 0, 0, -3, -32001) == KILN_NUMBER_LIMIT && many[3] == 32000);
  HELD(kiln_set(1, 1, flat, 1, many, ONE, 1, 0, 0, 1) == KILN_FUNCTION);
  HELD(kiln_set(1, 1, flat, 1, many, ONE, 0, 1, 0, 1) == KILN_FUNCTION);
  HELD(kiln_set(1, 1, flat, 1, many, ONE, 4, 0, 0, 1) == KILN_LEVEL);
  many[3] = 32001, many[ONE - 1] = 1;
  HELD(kiln_table_cause(1, 1, flat, 1, many, ONE) == KILN_COEFFICIENT_LIMIT);
  many[3] = 0;
  HELD(kiln_table_cause(1, 1, flat, 1, many, ONE) == KILN_PASSIVE_NOT_ZERO);
  HELD(kiln_table_cause(1, 1, flat, 1, many, ONE - 1) == KILN_NUMBERS_LENGTH);
}

/* Beside 500.5 watts, 32,032 units of 1/64 watt. A unit of function (0, 0) of level 1 is one numerator at (1, 1): t is
   1/64 there in each direction, and t^3/6 squared over 64 is 1/D. The display tells it, the f64 does not. */
static void beside_a_half(void) {
  memset(many, 0, sizeof many);
  for (size_t k = 0; k < FINE; k++) many[16 + k] = 32032;
  HELD(kiln_exact(1, 1, level_1, 13, many, ONE, 1, 1, &numerator) == KILN_DONE);
  HELD(numerator == 1001 * (KILN_DENOMINATOR / 2));
  HELD(kiln_display(1, 1, level_1, 13, many, ONE, 1, 1, &figure) == KILN_DONE && figure == 501);
  HELD(kiln_set(1, 1, level_1, 13, many, ONE, 1, 0, 0, 32031) == KILN_DONE);
  HELD(kiln_exact(1, 1, level_1, 13, many, ONE, 1, 1, &numerator) == KILN_DONE);
  HELD(numerator == 1001 * (KILN_DENOMINATOR / 2) - 1);
  HELD(kiln_display(1, 1, level_1, 13, many, ONE, 1, 1, &figure) == KILN_DONE && figure == 500);
  HELD(kiln_watts(1, 1, level_1, 13, many, ONE, 1, 1, &watts) == KILN_DONE && watts == 500.5 && round(watts) == 501);
}

/* "Fresh table of 1 watt: tariff 1,499 costs 1, tariff 1,500 costs 2."; "An exact reading of 31/64 watt at tariff
   99,999 now costs 48", and shows as 0; 1/64 watt below zero costs 0; the greatest cost. */
static void costs(void) {
  HELD(kiln_fresh(2, 3, 32001, tree, 1, more, kiln_places(2, 3), &length) == KILN_NUMBER_LIMIT);
  HELD(kiln_fresh(2, 3, 1, tree, 1, more, kiln_places(2, 3), &length) == KILN_DONE);
  HELD(kiln_cost(2, 3, tree, 1, more, kiln_places(2, 3), 7, 9, 1499, &cost) == KILN_DONE && cost == 1);
  HELD(kiln_cost(2, 3, tree, 1, more, kiln_places(2, 3), 7, 9, 1500, &cost) == KILN_DONE && cost == 2);
  HELD(kiln_cost(2, 3, tree, 1, more, kiln_places(2, 3), 7, 9, 100000, &cost) == KILN_TARIFF && cost == 2);
  memset(many, 0, sizeof many);
  for (size_t k = 0; k < 16; k++) many[k] = columns[k % 4] / 1000;
  HELD(kiln_display(1, 1, flat, 1, many, ONE, 62, 5, &figure) == KILN_DONE && figure == 0);
  HELD(kiln_cost(1, 1, flat, 1, many, ONE, 62, 5, 99999, &cost) == KILN_DONE && cost == 48);
  for (size_t k = 0; k < 16; k++) many[k] = -many[k];
  HELD(kiln_exact(1, 1, flat, 1, many, ONE, 2, 5, &numerator) == KILN_DONE && numerator == -KILN_DENOMINATOR / 64);
  HELD(kiln_cost(1, 1, flat, 1, many, ONE, 2, 5, 99999, &cost) == KILN_DONE && cost == 0);
  HELD(kiln_fresh(8, 8, 32000, tree, 1, many, KILN_PLACES, &length) == KILN_DONE);
  HELD(kiln_cost(8, 8, tree, 1, many, KILN_PLACES, 1024, 1024, 99999, &cost) == KILN_DONE);
  HELD(cost == KILN_GREATEST_COST);
}

/* "8 by 8, tree 3: 4,489 active.", "Tree 4 0 0 0 0: 2. Tree 1 on 1 by 1: 2, on 8 by 8 accepted."; empty slices. */
static void trees(void) {
  HELD(kiln_places(8, 8) == KILN_PLACES && kiln_places(9, 1) == 0 && kiln_places(1, 0) == 0);
  HELD(kiln_activity(8, 8, whole_3, 1, 3, bytes, 4489) == KILN_DONE && ones(4489) == 4489);
  HELD(kiln_activity(8, 8, whole_3, 1, 3, bytes, 4488) == KILN_OUTPUT_LENGTH);
  HELD(kiln_activity(8, 8, whole_3, 1, (size_t)-1, NULL, 0) == KILN_LEVEL);
  least = 77, greatest = 78, visited = 79;
  HELD(kiln_least_level(8, 8, split, 5, 0, 0, 1, 1, &least, &greatest, &visited) == KILN_TREE);
  HELD(kiln_least_level(1, 1, whole_1, 1, 0, 0, 1, 1, &least, &greatest, &visited) == KILN_TREE);
  HELD(least == 77 && greatest == 78 && visited == 79);
  HELD(kiln_least_level(8, 8, whole_1, 1, 0, 0, 1, 1, &least, &greatest, &visited) == KILN_DONE);
  HELD(least == 1 && greatest == 1 && visited == 1);
  HELD(kiln_least_level(8, 8, NULL, 0, 0, 0, 1, 1, &least, &greatest, &visited) == KILN_TREE);
  HELD(least == 1 && greatest == 1 && visited == 1);
  HELD(kiln_table_cause(1, 1, flat, 1, NULL, 0) == KILN_NUMBERS_LENGTH);
  HELD(kiln_table_cause(9, 1, NULL, 0, NULL, 0) == KILN_SIDE);
  HELD(kiln_fresh(1, 1, 0, NULL, 0, more, ONE, &length) == KILN_TREE_OUTPUT_SHORT);
}

/* "The table file": that of S read, with its counts and without them, and the same cut short by a byte, and none; and
   S written to it again, with them. */
static void file_of_s(void) {
  static const uint8_t heads[23] = {1, 0, 2, 1, 1, 2, 0, 1, 0, 3, 0, 8, 0, 16, 0, 0, 0, 0, 0, 0, 16, 0, 80};
  static const uint8_t tail[9] = {17, 0, 0, 18, 0, 0, 19, 0, 0};
  uint8_t older[101];
  size_t w, h;
  memcpy(file, heads, 23);
  for (size_t k = 0; k < 16; k++)
    for (size_t b = 0; b < 5; b++) file[23 + 5 * k + b] = (uint8_t)((uint64_t)s[k] >> (8 * (4 - b)));
  memcpy(file + 103, tail, 9);
  memcpy(older, file, 9);
  memcpy(older + 9, file + 20, 92);
  HELD(kiln_file_places(file, 112) == ONE && kiln_file_places(older, 101) == ONE);
  HELD(kiln_read_file(file, 112, tree, 1, more, ONE, &length, &w, &h) == KILN_DONE);
  HELD(length == 1 && w == 1 && h == 1 && tree[0] == 0 && !memcmp(more, s, sizeof s));
  HELD(kiln_read_file(file, 111, tree, 1, more, ONE, &length, &w, &h) == KILN_FILE_ENDS);
  memset(more, 9, sizeof more);
  HELD(kiln_read_file(older, 101, tree, 1, more, ONE, &length, &w, &h) == KILN_DONE);
  HELD(length == 1 && w == 1 && h == 1 && tree[0] == 0 && !memcmp(more, s, sizeof s));
  HELD(kiln_read_file(older, 100, tree, 1, more, ONE, &length, &w, &h) == KILN_FILE_ENDS);
  HELD(kiln_read_file(NULL, 0, NULL, 0, NULL, 0, &length, &w, &h) == KILN_FILE_ENDS);
  memset(out, 9, sizeof out);
  length = 7;
  HELD(kiln_write_file(1, 1, flat, 1, s, ONE, NO_NOTE, out, 111, &length) == KILN_FILE_OUTPUT_SHORT);
  HELD(kiln_write_file(1, 1, flat, 1, s, ONE, NO_NOTE, NULL, 0, &length) == KILN_FILE_OUTPUT_SHORT);
  HELD(length == 7 && nines(0));
  HELD(kiln_write_file(1, 1, flat, 1, s, ONE, NO_NOTE, out, 112, &length) == KILN_DONE);
  HELD(length == 112 && !memcmp(out, file, 112) && nines(112));
}

/* Document 02, "A bench note": S written with a note of 0 to 64 bytes. The bench loader tells the part of the file
   that it is, and the controller's loader passes over it. */
static void note_of_s(void) {
  static const uint8_t note[64] = {83, 0, 255, 32};
  size_t w, h;
  for (size_t n = 0; n <= 64; n++) {
    memset(out, 9, sizeof out);
    length = 7;
    HELD(kiln_write_file(1, 1, flat, 1, s, ONE, 1, note, n, out, 114 + n, &length) == KILN_FILE_OUTPUT_SHORT);
    HELD(length == 7 && nines(0));
    HELD(kiln_write_file(1, 1, flat, 1, s, ONE, 1, note, n, out, 115 + n, &length) == KILN_DONE && length == 115 + n);
    HELD(!memcmp(out, file, 112) && out[112] == 32 && out[113] == 0 && out[114] == n);
    HELD(!memcmp(out + 115, note, n) && nines(115 + n));
    memset(more, 9, sizeof more);
    kiln_bench bench = kiln_load_bench(out, 115 + n, tree, 1, more, ONE);
    HELD(bench.code == KILN_DONE && bench.length == 1 && bench.w == 1 && bench.h == 1 && !memcmp(more, s, sizeof s));
    HELD(bench.note.stands == 1 && bench.note.offset == 115 && bench.note.length == n);
    memset(more, 9, sizeof more);
    HELD(kiln_read_file(out, 115 + n, tree, 1, more, ONE, &length, &w, &h) == KILN_DONE);
    HELD(length == 1 && w == 1 && h == 1 && tree[0] == 0 && !memcmp(more, s, sizeof s));
    HELD(kiln_read_file(out, 114 + n, tree, 1, more, ONE, &length, &w, &h) == KILN_FILE_ENDS);
    HELD(kiln_read_file(out, 116 + n, tree, 1, more, ONE, &length, &w, &h) == KILN_FILE_GOES_ON);
  }
}

/* "with none there, or a refused call, it says none and the part is empty"; "a lent note above 64 bytes gives 14". */
static void no_note_of_s(void) {
  static const uint8_t note[65] = {83};
  uint8_t noted = 7;
  size_t w = 7, h = 7, offset = 7, size = 7;
  length = 7;
  memset(more, 9, sizeof more);
  memset(tree, 9, sizeof tree);
  HELD(kiln_read_bench(file, 111, tree, 1, more, ONE, &length, &w, &h, &noted, &offset, &size) == KILN_FILE_ENDS);
  HELD(length == 7 && w == 7 && h == 7 && noted == 7 && offset == 7 && size == 7);
  HELD(tree[0] == 9 && !memcmp(more, more + 1, sizeof more - sizeof *more) && *(uint8_t *)more == 9);
  HELD(kiln_read_bench(file, 112, tree, 1, more, ONE, &length, &w, &h, &noted, &offset, &size) == KILN_DONE);
  HELD(length == 1 && w == 1 && h == 1 && noted == 0 && offset == 0 && size == 0 && !memcmp(more, s, sizeof s));
  kiln_bench none = kiln_load_bench(file, 112, tree, 1, more, ONE);
  kiln_bench cut = kiln_load_bench(file, 111, tree, 1, more, ONE);
  HELD(none.code == KILN_DONE && none.length == 1 && none.w == 1 && none.h == 1);
  HELD(none.note.stands == 0 && none.note.offset == 0 && none.note.length == 0);
  HELD(cut.code == KILN_FILE_ENDS && cut.length == 0 && cut.w == 0 && cut.h == 0);
  HELD(cut.note.stands == 0 && cut.note.offset == 0 && cut.note.length == 0);
  length = 7;
  memset(out, 9, sizeof out);
  HELD(kiln_write_file(1, 1, flat, 1, s, ONE, 1, note, 65, out, sizeof out, &length) == KILN_FILE_FIELD_LENGTH);
  HELD(kiln_write_file(1, 1, flat, 1, s, ONE, 1, note, 65, out, 0, &length) == KILN_FILE_FIELD_LENGTH);
  HELD(kiln_write_file(1, 0, flat, 1, s, ONE, 1, note, 65, out, 0, &length) == KILN_SIDE && length == 7 && nines(0));
  HELD(kiln_write_file(1, 1, flat, 1, s, ONE, 0, note, 65, out, 112, &length) == KILN_DONE && length == 112);
  HELD(!memcmp(out, file, 112) && nines(112));
}

/* "Each acceptable table has one file": that of S with level 1, 25 numbers after a tree of 13 bytes, read again; 18 is
   "judged last"; no file is longer than KILN_FILE_BYTES. */
static void files_written(void) {
  static const uint8_t heads[8] = {1, 0, 2, 1, 1, 2, 0, 13};
  static const uint8_t counts[11] = {3, 0, 8, 0, 0, 0, 25}, levels[6] = {16, 0, 0, 17, 0, 125};
  static const uint8_t fine_counts[11] = {3, 0, 8, 0, 0, 0, 0, 0, 0, 0x11, 0x89};
  static const uint8_t lowest[5] = {255, 255, 255, 131, 0}, tail[6] = {18, 0, 0, 19, 0, 0};
  static const uint8_t limits[10] = {1, 0xf4, 0, 0, 0, 0xfe, 0x0c, 0, 0, 0};
  size_t w, h;
  memset(out, 9, sizeof out);
  HELD(kiln_write_file(1, 1, level_1, 13, fine, ONE, NO_NOTE, out, KILN_FILE_BYTES, &length) == KILN_DONE);
  HELD(length == 169);
  HELD(!memcmp(out, heads, 8) && !memcmp(out + 8, level_1, 13) && !memcmp(out + 21, counts, 11));
  HELD(!memcmp(out + 32, levels, 6) && !memcmp(out + 38, lowest, 5) && !memcmp(out + 163, tail, 6) && nines(169));
  HELD(kiln_read_file(out, 169, tree, sizeof tree, more, ONE, &length, &w, &h) == KILN_DONE && w == 1 && h == 1);
  HELD(length == 13 && !memcmp(tree, level_1, 13) && !memcmp(more, fine, sizeof fine));
  length = 7;
  memset(out, 9, sizeof out);
  HELD(kiln_write_file(9, 1, level_1, 13, fine, ONE, NO_NOTE, out, 9, &length) == KILN_SIDE);
  HELD(kiln_write_file(1, 1, level_1, 12, fine, ONE, NO_NOTE, out, 9, &length) == KILN_TREE);
  HELD(kiln_write_file(1, 1, level_1, 13, fine, ONE - 1, NO_NOTE, out, 9, &length) == KILN_NUMBERS_LENGTH);
  more[16] = 2048001, more[0] = 1;
  HELD(kiln_write_file(1, 1, level_1, 13, more, ONE, NO_NOTE, out, 168, &length) == KILN_COEFFICIENT_LIMIT);
  more[16] = 2048000;
  HELD(kiln_write_file(1, 1, level_1, 13, more, ONE, NO_NOTE, out, 168, &length) == KILN_PASSIVE_NOT_ZERO);
  more[0] = 0;
  HELD(kiln_write_file(1, 1, level_1, 13, more, ONE, NO_NOTE, out, 168, &length) == KILN_FILE_OUTPUT_SHORT);
  HELD(length == 7 && nines(0));
  for (size_t k = 0; k < KILN_PLACES; k++) many[k] = k < 1707 ? 0 : -1;
  many[1707] = INT64_C(8388608000), many[1708] = -many[1707];  /* the limits of level 3 */
  HELD(kiln_write_file(8, 8, whole_3, 1, many, KILN_PLACES, NO_NOTE, out, 22476, &length) == KILN_FILE_OUTPUT_SHORT);
  HELD(kiln_write_file(8, 8, whole_3, 1, many, KILN_PLACES, NO_NOTE, out, 22477, &length) == KILN_DONE);
  HELD(length == 22477 && out[29] == 19 && out[30] == 0x57 && out[31] == 0xad && nines(22477));
  HELD(!memcmp(out + 9, fine_counts, 11) && !memcmp(out + 32, limits, 10) && out[42] == 255 && out[22476] == 255);
}

/* Document 02, "The full-grid dialect": S rises by 125 watts from column to column of level 3, which is 32,768,000 of
   1/64^3 watt, and column -2 is its zero. Its grid is read as S and as S with level 1; with the last number one more
   there is such a table over neither tree. A refused call leaves what it was lent. */
static void grid_of_s(void) {
  static const uint8_t heads[8] = {1, 0, 2, 1, 1, 19, 2, 93};
  uint8_t grid[613];
  size_t w = 7, h = 7;
  memcpy(grid, heads, 8);
  for (size_t k = 0; k < 121; k++)
    for (size_t b = 0; b < 5; b++)
      grid[8 + 5 * k + b] = (uint8_t)((uint64_t)(32768000 * ((int64_t)(k % 11) - 1)) >> (8 * (4 - b)));
  memset(out, 9, sizeof out);
  length = 7;
  HELD(kiln_grid_length(1, 1) == 613 && kiln_grid_length(8, 8) == KILN_GRID_BYTES && kiln_grid_places(grid, 8) == ONE);
  HELD(kiln_write_grid(1, 9, flat, 1, s, ONE, out, 612, &length) == KILN_SIDE);
  HELD(kiln_write_grid(1, 1, flat, 1, s, ONE - 1, out, 612, &length) == KILN_NUMBERS_LENGTH);
  HELD(kiln_write_grid(1, 1, flat, 1, s, ONE, out, 612, &length) == KILN_FILE_OUTPUT_SHORT && length == 7 && nines(0));
  HELD(kiln_write_grid(1, 1, flat, 1, s, ONE, out, 613, &length) == KILN_DONE);
  HELD(length == 613 && !memcmp(out, grid, 613) && nines(613));
  HELD(kiln_write_grid(1, 1, level_1, 13, fine, ONE, out, 613, &length) == KILN_DONE && !memcmp(out, grid, 613));
  memset(more, 9, sizeof more);
  HELD(kiln_read_grid(grid, 612, split, 5, more, 0, &w, &h) == KILN_FILE_ENDS);
  HELD(kiln_read_grid(grid, 613, split, 5, more, 0, &w, &h) == KILN_TREE);
  HELD(kiln_read_grid(grid, 613, flat, 1, more, ONE - 1, &w, &h) == KILN_OUTPUT_LENGTH);
  grid[612]++;
  HELD(kiln_read_grid(grid, 613, flat, 1, more, ONE, &w, &h) == KILN_NO_TABLE);
  HELD(kiln_read_grid(grid, 613, level_1, 13, more, 0, &w, &h) == KILN_NO_TABLE);
  grid[612]--;
  HELD(w == 7 && h == 7 && !memcmp(more, more + 1, sizeof more - sizeof *more) && *(uint8_t *)more == 9);
  HELD(kiln_read_grid(grid, 613, flat, 1, more, ONE, &w, &h) == KILN_DONE);
  HELD(w == 1 && h == 1 && !memcmp(more, s, sizeof s));
  HELD(kiln_read_grid(grid, 613, level_1, 13, more, ONE, &w, &h) == KILN_DONE && !memcmp(more, fine, sizeof fine));
}

int main(void) {
  sheet_s();
  slopes_of_s();
  slip_of_s();
  box_inserted();
  east();
  coefficients_set();
  beside_a_half();
  costs();
  trees();
  file_of_s();
  note_of_s();
  no_note_of_s();
  files_written();
  grid_of_s();
  return all_held("calls from C");
}
