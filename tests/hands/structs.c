/* Makes every call of include/kiln_table.h on document 01's bench sheet, refused ones included, and each beside the
   plain call of kiln.h on a refined table, at many points and boxes; enquiries and commits alone are made by slips.c,
   and grids by grids.c.
   Prints a line for each thing that is not as due, and a count at the end. */
#include "kiln_table.h"
#include "boxes.h"
#include "held.h"

#include <math.h>
#include <string.h>

enum { ONE = 211, TWO = 341, FINE = 25 };  /* the places of 1 by 1, of 2 by 1, and of level 1 of 1 by 1 */
static const uint8_t level_1[13] = {4, 4, 4, 1};

static uint8_t tree_a[KILN_TREE_BYTES], tree_b[KILN_TREE_BYTES], plain_tree[KILN_TREE_BYTES];
static int64_t numbers_a[KILN_PLACES], numbers_b[KILN_PLACES], plain_numbers[KILN_PLACES];
static uint8_t bytes[KILN_PLACES], plain_bytes[KILN_PLACES];
static const struct kiln_room room_a = {tree_a, KILN_TREE_BYTES, numbers_a, KILN_PLACES};
static const struct kiln_room room_b = {tree_b, KILN_TREE_BYTES, numbers_b, KILN_PLACES};

static struct kiln_sheet sheet(size_t w, size_t h) {
  struct kiln_sheet made_sheet = {w, h};
  return made_sheet;
}

static struct kiln_function function(size_t level, int64_t i, int64_t j) {
  struct kiln_function one = {level, i, j};
  return one;
}

/* The table that a call must have made in a room. */
static int is(const struct kiln_table *table, size_t w, size_t h, struct kiln_room room, size_t tree_len,
              size_t places) {
  return table->w == w && table->h == h && table->tree == room.tree && table->tree_len == tree_len &&
         table->numbers == room.numbers && table->numbers_len == places;
}

static size_t ones(size_t n) {
  size_t sum = 0;
  for (size_t k = 0; k < n; k++) sum += bytes[k];
  return sum;
}

/* The file of S: "1 by 1 with level 0 columns -1,000, 0, 1,000, 2,000 (i = -3 to 0), equal in all rows". */
enum { S_BYTES = 112 };
static void file_of_s(uint8_t *file) {
  static const uint8_t heads[23] = {1, 0, 2, 1, 1, 2, 0, 1, 0, 3, 0, 8, 0, 16, 0, 0, 0, 0, 0, 0, 16, 0, 80};
  static const uint8_t tail[9] = {17, 0, 0, 18, 0, 0, 19, 0, 0};
  static const uint8_t columns[4][5] = {
    {255, 255, 255, 252, 24}, {0, 0, 0, 0, 0}, {0, 0, 0, 3, 232}, {0, 0, 0, 7, 208}};
  memcpy(file, heads, 23);
  for (size_t k = 0; k < 16; k++) memcpy(file + 23 + 5 * k, columns[k % 4], 5);
  memcpy(file + 103, tail, 9);
}

/* Every place of a room holds 77, so that what is written shows. */
static void filled(struct kiln_room room) {
  memset(room.tree, 77, room.tree_len);
  for (size_t k = 0; k < room.numbers_len; k++) room.numbers[k] = 77;
}

static int room_b_untouched(void) {
  int same = 1;
  for (size_t k = 0; k < KILN_TREE_BYTES; k++) same &= tree_b[k] == 77;
  for (size_t k = 0; k < KILN_PLACES; k++) same &= numbers_b[k] == 77;
  return same;
}

/* "S at (64, 5): numerator 500 x D"; its corners are 0 at u 0 and 1,000 at u 128, so an eighth of a cell is 125. */
static void s_is_read(struct kiln_table *s) {
  uint8_t file[S_BYTES];
  struct kiln_table other = {9, 9, NULL, 9, NULL, 9};
  struct kiln_room few = room_b, short_tree = room_b;
  struct kiln_watts_and_slopes slopes = {77, 78, 79};
  int64_t numerator = 77, figure = 77;
  double watts = 77;
  few.numbers_len = ONE - 1;
  short_tree.tree_len = 0;
  file_of_s(file);
  HELD(kiln_table_read_file(file, S_BYTES - 1, room_b, &other) == KILN_FILE_ENDS);
  file[13] = 15;
  HELD(kiln_table_read_file(file, S_BYTES, room_b, &other) == KILN_FILE_COUNT);
  file[13] = 16;
  HELD(kiln_table_read_file(NULL, 0, room_b, &other) == KILN_FILE_ENDS);
  HELD(kiln_table_read_file(file, S_BYTES, few, &other) == KILN_OUTPUT_LENGTH);
  HELD(kiln_table_read_file(file, S_BYTES, short_tree, &other) == KILN_TREE_OUTPUT_SHORT);
  HELD(other.w == 9 && other.h == 9 && !other.tree && other.tree_len == 9 && !other.numbers && other.numbers_len == 9);
  HELD(room_b_untouched());
  HELD(kiln_table_read_file(file, S_BYTES, room_a, s) == KILN_DONE && is(s, 1, 1, room_a, 1, ONE));
  HELD(tree_a[0] == 0 && tree_a[1] == 77 && numbers_a[0] == -1000 && numbers_a[15] == 2000 && numbers_a[16] == 0);
  HELD(numbers_a[ONE - 1] == 0 && numbers_a[ONE] == 77 && kiln_table_judge(s) == KILN_DONE);
  HELD(kiln_table_exact(s, at(64, 5), &numerator) == KILN_DONE && numerator == 500 * KILN_DENOMINATOR);
  HELD(kiln_table_exact(s, at(129, 0), &numerator) == KILN_POINT && numerator == 500 * KILN_DENOMINATOR);
  HELD(kiln_table_watts(s, at(64, 5), &watts) == KILN_DONE && fabs(watts - 500) <= ldexp(1, -30));
  watts = 77;
  HELD(kiln_table_watts(s, at(0, 129), &watts) == KILN_POINT && watts == 77);
  HELD(kiln_table_slopes(s, at(0, 129), &slopes) == KILN_POINT);
  HELD(slopes.watts == 77 && slopes.along_u == 78 && slopes.along_v == 79);
  HELD(kiln_table_slopes(s, at(64, 5), &slopes) == KILN_DONE && fabs(slopes.watts - 500) <= ldexp(1, -30));
  HELD(fabs(slopes.along_u - 125) <= ldexp(1, -20) && fabs(slopes.along_v) <= ldexp(1, -20));
  HELD(kiln_table_display(s, at(0, 128), &figure) == KILN_DONE && figure == 0);
  HELD(kiln_table_display(s, at(128, 0), &figure) == KILN_DONE && figure == 1000);
  HELD(kiln_table_display(s, at(0, 129), &figure) == KILN_POINT && figure == 1000);
}

/* "The file's length is returned"; "file output shorter than the file, judged last; bytes past the file are
   untouched". */
static void s_is_written(const struct kiln_table *s) {
  uint8_t file[S_BYTES], out[S_BYTES + 3];
  struct kiln_table other = *s;
  size_t length = 77;
  file_of_s(file);
  memset(out, 77, sizeof out);
  other.numbers_len = ONE - 1;
  HELD(kiln_table_write_file(&other, out, S_BYTES - 1, &length) == KILN_NUMBERS_LENGTH);
  HELD(kiln_table_write_file(s, out, S_BYTES - 1, &length) == KILN_FILE_OUTPUT_SHORT);
  HELD(length == 77 && out[0] == 77 && !memcmp(out, out + 1, sizeof out - 1));
  HELD(kiln_table_write_file(s, out, sizeof out, &length) == KILN_DONE && length == S_BYTES);
  HELD(!memcmp(out, file, S_BYTES) && out[S_BYTES] == 77 && out[S_BYTES + 1] == 77 && out[S_BYTES + 2] == 77);
}

/* "The bench loader also says whether a note stands there ..."; "The writer takes a note or none". */
static void s_has_a_note(const struct kiln_table *s) {
  static const uint8_t note[5] = {7, 32, 0, 0, 255};
  uint8_t file[S_BYTES + 8], out[S_BYTES + 8];
  struct kiln_table other = {9, 9, NULL, 9, NULL, 9};
  struct kiln_room few = room_b, short_tree = room_b;
  kiln_bench bench;
  size_t length = 77;
  few.numbers_len = ONE - 1;
  short_tree.tree_len = 0;
  file_of_s(file);
  HELD(kiln_table_write_noted(s, 1, note, 5, out, S_BYTES + 7, &length) == KILN_FILE_OUTPUT_SHORT && length == 77);
  HELD(kiln_table_write_noted(s, 1, note, 5, out, S_BYTES + 8, &length) == KILN_DONE && length == S_BYTES + 8);
  HELD(!memcmp(out, file, S_BYTES) && out[S_BYTES] == 32 && out[S_BYTES + 1] == 0 && out[S_BYTES + 2] == 5);
  HELD(!memcmp(out + S_BYTES + 3, note, 5));
  HELD(kiln_table_write_noted(s, 1, out, 65, file, 0, &length) == KILN_FILE_FIELD_LENGTH && length == S_BYTES + 8);
  for (int k = 0; k < 4; k++) {
    bench = k == 0 ? kiln_table_load_bench(out, S_BYTES + 7, room_b, &other)
          : k == 1 ? kiln_table_load_bench(out, S_BYTES + 8, few, &other)
          : k == 2 ? kiln_table_load_bench(out, S_BYTES + 8, short_tree, &other)
                   : kiln_table_load_bench(NULL, 0, room_b, &other);
    HELD(bench.code == (k % 3 == 0 ? 12 : 15 + k) && !bench.length && !bench.w && !bench.h);
    HELD(!bench.note.stands && !bench.note.offset && !bench.note.length && room_b_untouched());
  }
  HELD(other.w == 9 && other.h == 9 && !other.tree && other.tree_len == 9 && !other.numbers && other.numbers_len == 9);
  bench = kiln_table_load_bench(out, S_BYTES + 8, room_b, &other);
  HELD(bench.code == KILN_DONE && bench.length == 1 && bench.w == 1 && bench.h == 1);
  HELD(is(&other, 1, 1, room_b, 1, ONE) && !memcmp(numbers_a, numbers_b, ONE * sizeof *numbers_a));
  HELD(bench.note.stands == 1 && bench.note.offset == S_BYTES + 3 && bench.note.length == 5);
  memset(file, 77, sizeof file);
  HELD(kiln_table_write_noted(&other, bench.note.stands, out + bench.note.offset, bench.note.length, file, sizeof file,
                              &length) == KILN_DONE && length == S_BYTES + 8 && !memcmp(file, out, length));
  bench = kiln_table_load_bench(out, S_BYTES, room_b, &other);
  HELD(bench.code == KILN_DONE && !bench.note.stands && !bench.note.offset && !bench.note.length);
  filled(room_b);
}

/* "S, level 1 box 0,0 to 4,4: tree 4 4 4 1 and nine 0; 25 active, columns ..."; "least level 1, 4 nodes"; greatest
   level 1, as all of the sheet has it. */
static void box_is_inserted(const struct kiln_table *s) {
  static const int64_t fine_columns[5] = {-32000, 0, 32000, 64000, 96000};
  struct kiln_table fine = {9, 9, NULL, 9, NULL, 9};
  struct kiln_room few = room_b, short_tree = room_b;
  uint8_t least = 77, greatest = 77;
  size_t visited = 77;
  int64_t numerator = 77;
  int same = 1;
  few.numbers_len = ONE - 1;
  short_tree.tree_len = 12;
  HELD(kiln_table_insert(s, box(0, 0, 5, 4), 1, room_b, &fine) == KILN_BOX);
  HELD(kiln_table_insert(s, box(0, 0, 4, 4), 0, room_b, &fine) == KILN_LEVEL);
  HELD(kiln_table_insert(s, box(0, 0, 4, 4), 1, few, &fine) == KILN_OUTPUT_LENGTH);
  HELD(kiln_table_insert(s, box(0, 0, 4, 4), 1, short_tree, &fine) == KILN_TREE_OUTPUT_SHORT);
  HELD(fine.w == 9 && fine.h == 9 && !fine.tree && fine.tree_len == 9 && !fine.numbers && fine.numbers_len == 9);
  HELD(room_b_untouched());
  fine = *s;  /* the struct that is read may be the one that is made */
  HELD(kiln_table_insert(&fine, box(0, 0, 4, 4), 1, room_b, &fine) == KILN_DONE && is(&fine, 1, 1, room_b, 13, ONE));
  HELD(!memcmp(tree_b, level_1, 13) && tree_b[13] == 77 && numbers_b[ONE] == 77);
  for (size_t k = 0; k < ONE; k++)
    same &= numbers_b[k] == (k < 16 || k >= 16 + FINE ? 0 : fine_columns[(k - 16) % 5]);
  HELD(same);
  HELD(kiln_table_exact(&fine, at(64, 5), &numerator) == KILN_DONE && numerator == 500 * KILN_DENOMINATOR);
  HELD(kiln_table_least_level(&fine, box(0, 0, 5, 4), &least, &greatest, &visited) == KILN_BOX);
  HELD(least == 77 && greatest == 77 && visited == 77);
  HELD(kiln_table_least_level(&fine, box(0, 0, 4, 4), &least, &greatest, &visited) == KILN_DONE);
  HELD(least == 1 && greatest == 1 && visited == 4);
  HELD(kiln_table_activity(&fine, 1, bytes, FINE) == KILN_DONE && ones(FINE) == 25);
  HELD(kiln_table_activity(&fine, 1, bytes, FINE - 1) == KILN_OUTPUT_LENGTH);
  HELD(kiln_table_activity(&fine, 4, bytes, FINE) == KILN_LEVEL);
}

/* "2 by 1, the same box: 16 active at level 0, 10 at level 1. Box 0,0 to 8,4: least level 0, 5 nodes", greatest level 1
   in the box that was inserted; 700 x D. This file has no counts: "Files lacking it are still loaded." */
static void two_by_one_from_file(void) {
  static const uint8_t heads[24] = {1, 0, 2, 2, 1, 2, 0, 13, 4, 4, 4, 1, 0, 0, 0, 0, 0, 0, 0, 0, 0, 16, 0, 80};
  static const uint8_t head_1[3] = {17, 0, 50}, tail[6] = {18, 0, 0, 19, 0, 0};
  static const uint8_t watts_700[5] = {0, 0, 0, 2, 188}, units_44800[5] = {0, 0, 0, 175, 0};
  struct kiln_table table;
  int64_t numerator = 77;
  uint8_t file[163];
  memcpy(file, heads, 24);
  for (size_t k = 0; k < 16; k++) memcpy(file + 24 + 5 * k, watts_700, 5);
  memcpy(file + 104, head_1, 3);
  for (size_t k = 0; k < 10; k++) memcpy(file + 107 + 5 * k, units_44800, 5);
  memcpy(file + 157, tail, 6);
  HELD(kiln_table_read_file(file, 163, room_b, &table) == KILN_DONE && is(&table, 2, 1, room_b, 13, TWO));
  HELD(kiln_table_exact(&table, at(256, 128), &numerator) == KILN_DONE && numerator == 700 * KILN_DENOMINATOR);
}

static void two_by_one(void) {
  struct kiln_table flat = {9, 9, NULL, 9, NULL, 9}, table;
  uint8_t least = 77, greatest = 77;
  size_t visited = 77;
  int64_t numerator = 77;
  HELD(kiln_table_fresh(sheet(2, 9), 700, room_a, &flat) == KILN_SIDE);
  HELD(kiln_table_fresh(sheet(2, 1), 32001, room_a, &flat) == KILN_NUMBER_LIMIT && flat.w == 9 && !flat.tree);
  HELD(kiln_table_fresh(sheet(2, 1), 700, room_a, &flat) == KILN_DONE && is(&flat, 2, 1, room_a, 1, TWO));
  HELD(kiln_table_exact(&flat, at(256, 128), &numerator) == KILN_DONE && numerator == 700 * KILN_DENOMINATOR);
  HELD(kiln_table_exact(&flat, at(128, 256), &numerator) == KILN_POINT);
  HELD(kiln_table_insert(&flat, box(0, 0, 4, 4), 1, room_b, &table) == KILN_DONE && is(&table, 2, 1, room_b, 13, TWO));
  HELD(kiln_table_activity(&table, 0, bytes, 20) == KILN_DONE && ones(20) == 16);
  HELD(kiln_table_activity(&table, 1, bytes, 35) == KILN_DONE && ones(35) == 10);
  HELD(kiln_table_least_level(&table, box(0, 0, 8, 4), &least, &greatest, &visited) == KILN_DONE);
  HELD(least == 0 && greatest == 1 && visited == 5);
  HELD(kiln_table_exact(&table, at(256, 128), &numerator) == KILN_DONE && numerator == 700 * KILN_DENOMINATOR);
  HELD(kiln_table_set(&flat, function(0, 1, 0), 5) == KILN_DONE && numbers_a[19] == 5);
  HELD(kiln_table_set(&flat, function(0, 0, 1), 6) == KILN_FUNCTION && numbers_a[18] == 700);
}

/* "only (-3, -3) is 1: at (0, 0) 2^42", "Only (-2, -2) is 1: at (0, 0) 2^46"; 32,000 accepted and 32,001 not. */
static void one_is_set(void) {
  struct kiln_table table;
  int64_t numerator = 77;
  HELD(kiln_table_fresh(sheet(1, 1), 0, room_a, &table) == KILN_DONE);
  HELD(kiln_table_set(&table, function(0, -3, -3), 1) == KILN_DONE);
  HELD(kiln_table_exact(&table, at(0, 0), &numerator) == KILN_DONE && numerator == INT64_C(1) << 42);
  HELD(kiln_table_exact(&table, at(128, 128), &numerator) == KILN_DONE && numerator == 0);
  HELD(kiln_table_set(&table, function(0, -3, -3), 0) == KILN_DONE);
  HELD(kiln_table_set(&table, function(0, -2, -2), 1) == KILN_DONE);
  HELD(kiln_table_exact(&table, at(0, 0), &numerator) == KILN_DONE && numerator == INT64_C(1) << 46);
  HELD(kiln_table_set(&table, function(0, -3, 0), 32001) == KILN_NUMBER_LIMIT && numbers_a[12] == 0);
  HELD(kiln_table_set(&table, function(0, -3, 0), 32000) == KILN_DONE && numbers_a[12] == 32000);
  HELD(kiln_table_set(&table, function(4, -3, 0), 1) == KILN_LEVEL);
  numbers_a[12] = 32001;
  HELD(kiln_table_judge(&table) == KILN_COEFFICIENT_LIMIT);
  table.numbers_len = ONE - 1;
  HELD(kiln_table_judge(&table) == KILN_NUMBERS_LENGTH);
  table.tree_len = 0;
  HELD(kiln_table_judge(&table) == KILN_TREE);
}

/* "Fresh table of 1 watt: tariff 1,499 costs 1, tariff 1,500 costs 2."; the greatest cost. */
static void costs(void) {
  struct kiln_table table;
  size_t cost = 77;
  HELD(kiln_table_fresh(sheet(2, 3), 1, room_a, &table) == KILN_DONE);
  HELD(is(&table, 2, 3, room_a, 1, kiln_places(2, 3)));
  HELD(kiln_table_cost(&table, at(7, 9), 1499, &cost) == KILN_DONE && cost == 1);
  HELD(kiln_table_cost(&table, at(7, 9), 1500, &cost) == KILN_DONE && cost == 2);
  HELD(kiln_table_cost(&table, at(7, 9), 100000, &cost) == KILN_TARIFF && cost == 2);
  HELD(kiln_table_cost(&table, at(0, 385), 100000, &cost) == KILN_POINT && cost == 2);
  HELD(kiln_table_fresh(sheet(2, 3), 32000, room_a, &table) == KILN_DONE);
  HELD(kiln_table_cost(&table, at(7, 9), 99999, &cost) == KILN_DONE && cost == KILN_GREATEST_COST);
}

/* What a plain call takes of a table. */
#define SHEET(t) (t).w, (t).h
#define REGIONS(t) SHEET(t), (t).tree, (t).tree_len
#define PLAIN(t) REGIONS(t), (t).numbers, (t).numbers_len

/* Whether the plain buffers hold a table of a tree's length. */
static int plain_is(const struct kiln_table *table, size_t tree_len) {
  return table->tree_len == tree_len && !memcmp(table->tree, plain_tree, tree_len) &&
         table->numbers_len == kiln_places(table->w, table->h) &&
         !memcmp(table->numbers, plain_numbers, table->numbers_len * sizeof *plain_numbers);
}

/* Readings at points on a sheet of 3 by 2 and past it, and with tariffs that are allowed and not. */
static void readings_beside_plain(const struct kiln_table *table) {
  const struct kiln_table t = *table;
  int same = 1, refused = 0;
  for (size_t u = 0; u <= 400; u += 25)
    for (size_t v = 0; v <= 270; v += 27) {
      int64_t exact[2] = {7, 7}, figure[2] = {7, 7};
      double watts[2] = {7, 7}, plain[3] = {7, 7, 7};
      struct kiln_watts_and_slopes slopes = {7, 7, 7};
      size_t cost[2] = {7, 7}, tariff = 370 * u;
      same &= kiln_table_exact(&t, at(u, v), &exact[0]) == kiln_exact(PLAIN(t), u, v, &exact[1]);
      same &= kiln_table_watts(&t, at(u, v), &watts[0]) == kiln_watts(PLAIN(t), u, v, &watts[1]);
      same &= kiln_table_slopes(&t, at(u, v), &slopes) == kiln_slopes(PLAIN(t), u, v, plain, plain + 1, plain + 2);
      same &= slopes.watts == plain[0] && slopes.along_u == plain[1] && slopes.along_v == plain[2];
      same &= kiln_table_display(&t, at(u, v), &figure[0]) == kiln_display(PLAIN(t), u, v, &figure[1]);
      same &= kiln_table_cost(&t, at(u, v), tariff, &cost[0]) == kiln_cost(PLAIN(t), u, v, tariff, &cost[1]);
      same &= exact[0] == exact[1] && figure[0] == figure[1] && watts[0] == watts[1] && cost[0] == cost[1];
      refused += exact[0] == 7;
    }
  HELD(same && refused == 11 + 16);  /* u 400 with each v, v 270 with each other u */
}

/* Each box of whole quarters, some past the sheet or without area; each level's activity, and a level past them. */
static void regions_beside_plain(const struct kiln_table *table) {
  const struct kiln_table t = *table;
  int same = 1;
  for (size_t k = 0; k < 14 * 10 * 14 * 10; k++) {
    size_t u0 = k % 14, v0 = k / 14 % 10, u1 = k / 140 % 14, v1 = k / 1960, visited[2] = {7, 7};
    uint8_t least[2] = {7, 7}, greatest[2] = {7, 7};
    same &= kiln_table_least_level(&t, box(u0, v0, u1, v1), &least[0], &greatest[0], &visited[0]) ==
            kiln_least_level(REGIONS(t), u0, v0, u1, v1, &least[1], &greatest[1], &visited[1]);
    same &= least[0] == least[1] && greatest[0] == greatest[1] && visited[0] == visited[1];
  }
  for (size_t level = 0; level < 5; level++) {
    size_t n = kiln_level_places(t.w, t.h, level);
    same &= kiln_table_activity(&t, level, bytes, n) == kiln_activity(REGIONS(t), level, plain_bytes, n);
    same &= !memcmp(bytes, plain_bytes, n);
  }
  HELD(same);
}

/* The file of a table, with a note and without, and the table that it loads in the room that the table is not in. */
static void file_beside_plain(const struct kiln_table *table) {
  const struct kiln_table t = *table;
  struct kiln_table again;
  size_t length[2] = {7, 7}, w, h, offset, size;
  uint8_t noted;
  HELD(kiln_table_write_noted(&t, 1, t.tree, 9, bytes, sizeof bytes, &length[0]) == KILN_DONE);
  HELD(kiln_write_file(PLAIN(t), 1, t.tree, 9, plain_bytes, sizeof plain_bytes, &length[1]) == KILN_DONE);
  HELD(length[0] == length[1] && !memcmp(bytes, plain_bytes, length[0]));
  kiln_bench bench = kiln_table_load_bench(bytes, length[0], room_b, &again);
  HELD(kiln_read_bench(bytes, length[0], plain_tree, KILN_TREE_BYTES, plain_numbers, t.numbers_len, &length[1], &w, &h,
                       &noted, &offset, &size) == bench.code);
  HELD(bench.code == KILN_DONE && plain_is(&again, length[1]) && w == t.w && h == t.h);
  HELD(bench.note.stands == 1 && noted == 1 && bench.note.offset == offset && bench.note.length == 9 && size == 9);
  HELD(offset == length[0] - 9 && !memcmp(bytes + offset, t.tree, 9));
  HELD(kiln_table_write_file(&t, bytes, sizeof bytes, &length[0]) == KILN_DONE);
  HELD(kiln_write_file(PLAIN(t), 0, NULL, 0, plain_bytes, sizeof plain_bytes, &length[1]) == KILN_DONE);
  HELD(length[0] == length[1] && !memcmp(bytes, plain_bytes, length[0]));
  HELD(kiln_table_read_file(bytes, length[0], room_b, &again) == KILN_DONE && plain_is(&again, t.tree_len));
  HELD(kiln_table_write_file(&t, bytes, length[0] - 1, &length[0]) == KILN_FILE_OUTPUT_SHORT);
  HELD(length[0] == length[1]);
}

/* A sheet of 3 by 2 whose coefficients differ, refined twice: each table that is written, and each call on it. */
static void beside_plain(void) {
  uint8_t file[S_BYTES];
  struct kiln_table t;
  size_t length = 0, w = 0, h = 0;
  int same = 1;
  file_of_s(file);
  HELD(kiln_table_read_file(file, S_BYTES, room_b, &t) == KILN_DONE);
  HELD(kiln_read_file(file, S_BYTES, plain_tree, 1, plain_numbers, ONE, &length, &w, &h) == KILN_DONE);
  HELD(plain_is(&t, length) && t.w == w && t.h == h);
  HELD(kiln_table_fresh(sheet(3, 2), -9, room_a, &t) == KILN_DONE);
  HELD(kiln_fresh(3, 2, -9, plain_tree, 1, plain_numbers, kiln_places(3, 2), &length) == KILN_DONE);
  HELD(plain_is(&t, length) && t.w == 3 && t.h == 2);
  for (int64_t j = -3; j < 3; j++)
    for (int64_t i = -3; i < 4; i++) {
      int64_t number = 1000 * i + 170 * j * j - 31 * i * j;
      same &= kiln_table_set(&t, function(0, i, j), number) ==
              kiln_set(SHEET(t), plain_tree, length, plain_numbers, t.numbers_len, 0, i, j, number);
    }
  HELD(same && plain_is(&t, length) && t.numbers[0] == -3000 + 1530 - 279);
  HELD(kiln_insert(PLAIN(t), 2, 1, 9, 6, 1, plain_tree, KILN_TREE_BYTES, plain_numbers, t.numbers_len, &length) == 0);
  HELD(kiln_table_insert(&t, box(2, 1, 9, 6), 1, room_b, &t) == KILN_DONE && plain_is(&t, length));
  HELD(kiln_insert(PLAIN(t), 3, 1, 12, 7, 2, plain_tree, KILN_TREE_BYTES, plain_numbers, t.numbers_len, &length) == 0);
  HELD(kiln_table_insert(&t, box(3, 1, 12, 7), 2, room_a, &t) == KILN_DONE && plain_is(&t, length));
  HELD(kiln_table_judge(&t) == kiln_table_cause(PLAIN(t)));
  readings_beside_plain(&t);
  regions_beside_plain(&t);
  file_beside_plain(&t);
}

int main(void) {
  struct kiln_table s;
  filled(room_a);
  filled(room_b);
  s_is_read(&s);
  s_is_written(&s);
  s_has_a_note(&s);
  box_is_inserted(&s);
  two_by_one_from_file();
  two_by_one();
  one_is_set();
  costs();
  beside_plain();
  return all_held("tables in a struct");
}
