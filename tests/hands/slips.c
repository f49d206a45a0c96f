/* Document 02, "Enquire, then insert": the enquiry's slip and the commit that takes one, plain and with structs, on the
   bench sheet and on a refined table; refused calls included, and what they leave; old slips and false ones; and the
   insertion that makes both calls.
   Prints a line for each thing that is not as due, and a count at the end. */
#include "kiln_table.h"
#include "boxes.h"
#include "held.h"

#include <string.h>

enum { ONE = 211, TOLD = 6, TRIED = 5 };  /* the places of 1 by 1; what a slip tells; every so many boxes are tried */
static const uint8_t flat[1] = {0}, equal[5] = {4, 0, 0, 0, 0};

static uint8_t tree_a[KILN_TREE_BYTES], tree_b[KILN_TREE_BYTES], tree_c[KILN_TREE_BYTES], bytes[KILN_PLACES];
static int64_t numbers_a[KILN_PLACES], numbers_b[KILN_PLACES], numbers_c[KILN_PLACES];
static const struct kiln_room room_a = {tree_a, KILN_TREE_BYTES, numbers_a, KILN_PLACES};
static const struct kiln_room room_b = {tree_b, KILN_TREE_BYTES, numbers_b, KILN_PLACES};
static const struct kiln_room room_c = {tree_c, KILN_TREE_BYTES, numbers_c, KILN_PLACES};

/* What the plain calls take of a table, of a box, of a slip and of a room. */
#define PLAIN(t) (t).w, (t).h, (t).tree, (t).tree_len, (t).numbers, (t).numbers_len
#define CORNERS(b) (b).u0, (b).v0, (b).u1, (b).v1
#define NUMBERS(s) CORNERS((s).box), (s).level, (s).length, (s).active, (s).visited
#define OUT(room, places) (room).tree, (room).tree_len, (room).numbers, (places)

/* Every place of a room holds 77, so that what is written shows; whether it still does, from some places on. */
static void filled(struct kiln_room room) {
  memset(room.tree, 77, room.tree_len);
  for (size_t k = 0; k < room.numbers_len; k++) room.numbers[k] = 77;
}

static int left_from(struct kiln_room room, size_t tree_from, size_t numbers_from) {
  int same = 1;
  for (size_t k = tree_from; k < room.tree_len; k++) same &= room.tree[k] == 77;
  for (size_t k = numbers_from; k < room.numbers_len; k++) same &= room.numbers[k] == 77;
  return same;
}

static struct kiln_table fresh(size_t w, size_t h, int64_t number, struct kiln_room room) {
  const struct kiln_sheet sheet = {w, h};
  struct kiln_table table = {0, 0, NULL, 0, NULL, 0};
  HELD(kiln_table_fresh(sheet, number, room, &table) == KILN_DONE);
  return table;
}

static int same_table(const struct kiln_table *a, const struct kiln_table *b) {
  return a->w == b->w && a->h == b->h && a->tree_len == b->tree_len && !memcmp(a->tree, b->tree, a->tree_len) &&
         a->numbers_len == b->numbers_len && !memcmp(a->numbers, b->numbers, a->numbers_len * sizeof *a->numbers);
}

/* The numbers that a slip tells beside its box and level: the length, four counts and the nodes. */
static size_t *told(struct kiln_slip *slip, int k) {
  return k == 0 ? &slip->length : k == TOLD - 1 ? &slip->visited : &slip->active[k - 1];
}

static int same_told(struct kiln_slip a, struct kiln_slip b) {
  int same = 1;
  for (int k = 0; k < TOLD; k++) same &= *told(&a, k) == *told(&b, k);
  return same;
}

static struct kiln_slip slip_of(struct kiln_box b, size_t level, size_t number) {
  struct kiln_slip slip = {b, level, number, {number, number, number, number}, number};
  return slip;
}

/* Whether the enquiry tells these numbers, from the struct and plain. */
static int tells(struct kiln_table t, struct kiln_box b, size_t level, struct kiln_slip due) {
  struct kiln_slip given = slip_of(box(7, 7, 7, 7), 7, 7), plain = given;
  int done = !kiln_table_enquire(&t, b, level, &given) &&
             !kiln_enquire(PLAIN(t), CORNERS(b), level, &plain.length, plain.active, &plain.visited);
  done = done && given.level == level && !memcmp(&given.box, &b, sizeof b);
  return done && same_told(given, due) && same_told(plain, due);
}

/* Whether the enquiry is refused with this number, and all that it was lent holds what it held. */
static int enquiry_refused(uint8_t number, struct kiln_table t, struct kiln_box b, size_t level) {
  struct kiln_slip given = slip_of(box(7, 8, 9, 10), 11, 12), plain = given, before = given;
  int refused = kiln_table_enquire(&t, b, level, &given) == number &&
                kiln_enquire(PLAIN(t), CORNERS(b), level, &plain.length, plain.active, &plain.visited) == number;
  return refused && !memcmp(&given, &before, sizeof given) && !memcmp(&plain, &before, sizeof plain);
}

/* Whether the commit is refused with this number, from the struct and plain, and nothing is written to room_b. */
static int commit_refused(uint8_t number, struct kiln_table t, struct kiln_slip slip, struct kiln_room out) {
  struct kiln_table made = {9, 9, NULL, 9, NULL, 9};
  size_t length = 77;
  filled(room_b);
  int refused = kiln_table_commit(&t, &slip, out, &made) == number && !made.tree && made.tree_len == 9 && made.w == 9;
  size_t places = kiln_room_places(out, kiln_places(t.w, t.h));
  refused = refused && kiln_commit(PLAIN(t), NUMBERS(slip), OUT(out, places), &length) == number && length == 77;
  return refused && left_from(room_b, 0, 0);
}

/* Whether the insertion is refused with this number, from the struct and plain, and nothing is written to room_b. */
static int insertion_refused(uint8_t number, struct kiln_table t, struct kiln_box b, size_t level,
                             struct kiln_room out) {
  struct kiln_table made = {9, 9, NULL, 9, NULL, 9};
  size_t length = 77;
  filled(room_b);
  int refused = kiln_table_insert(&t, b, level, out, &made) == number && !made.tree && made.tree_len == 9;
  size_t places = kiln_room_places(out, kiln_places(t.w, t.h));
  refused = refused && kiln_insert(PLAIN(t), CORNERS(b), level, OUT(out, places), &length) == number && length == 77;
  return refused && left_from(room_b, 0, 0);
}

/* "S, level 1 box 0,0 to 4,4: tree 4 4 4 1 and nine 0; 25 active", "least level 1, 4 nodes"; "2 by 1, the same box: 16
   active at level 0, 10 at level 1". "8 by 8, tree 3: 4,489 active." Coefficients have no part in a slip. */
static void bench_sheet(void) {
  const struct kiln_box cell = box(0, 0, 4, 4);
  const struct kiln_slip one = {cell, 1, 13, {0, 25, 0, 0}, 4}, two = {cell, 1, 13, {16, 10, 0, 0}, 4};
  const struct kiln_slip eight = {box(0, 0, 32, 32), 3, 1, {0, 0, 0, 4489}, 1};
  HELD(tells(fresh(1, 1, 700, room_a), cell, 1, one) && tells(fresh(1, 1, -9, room_a), cell, 1, one));
  HELD(tells(fresh(2, 1, 700, room_a), cell, 1, two));
  HELD(tells(fresh(8, 8, 1, room_a), eight.box, 3, eight));
}

/* "with insertion's checks": 1 to 5, 7, 8, the lowest where several apply; for the commit of the slip's own box and
   level, then 19, "after 8 and before 16", then 16 and 17. Each cause comes with the ones after it. */
static void refusals(void) {
  const struct kiln_box cell = box(0, 0, 4, 4), past = box(0, 0, 5, 4);
  struct kiln_table t = fresh(1, 1, 700, room_a);
  struct kiln_room few = room_b, short_tree = room_b, none = room_b;
  struct kiln_slip slip = {cell, 1, 13, {0, 25, 0, 0}, 4}, wrong = slip_of(past, 4, 9);
  few.numbers_len = none.numbers_len = ONE - 1;
  short_tree.tree_len = none.tree_len = 12;
  struct kiln_table side = {9, 1, equal, 5, numbers_a, ONE - 1}, bad_tree = {1, 1, equal, 5, numbers_a, ONE - 1};
  struct kiln_table length = {1, 1, flat, 1, numbers_a, ONE - 1};
  const struct kiln_table judged[3] = {side, bad_tree, length};
  for (uint8_t k = 0; k < 3; k++) {
    HELD(enquiry_refused(k + 1, judged[k], past, 4) && enquiry_refused(k + 1, judged[k], cell, 1));
    HELD(commit_refused(k + 1, judged[k], wrong, none) && commit_refused(k + 1, judged[k], slip, room_b));
    HELD(insertion_refused(k + 1, judged[k], past, 4, none));
  }
  numbers_a[15] = 32001, numbers_a[16] = 1;
  HELD(enquiry_refused(KILN_COEFFICIENT_LIMIT, t, past, 4) && commit_refused(KILN_COEFFICIENT_LIMIT, t, wrong, none));
  HELD(insertion_refused(KILN_COEFFICIENT_LIMIT, t, past, 4, none));
  numbers_a[15] = 32000;
  HELD(enquiry_refused(KILN_PASSIVE_NOT_ZERO, t, past, 4) && commit_refused(KILN_PASSIVE_NOT_ZERO, t, wrong, none));
  HELD(insertion_refused(KILN_PASSIVE_NOT_ZERO, t, past, 4, none));
  numbers_a[16] = 0;
  HELD(enquiry_refused(KILN_BOX, t, past, 4) && commit_refused(KILN_BOX, t, wrong, none));
  HELD(enquiry_refused(KILN_BOX, t, box(2, 0, 2, 4), 1) && enquiry_refused(KILN_BOX, t, box(0, 0, 4, SIZE_MAX), 1));
  HELD(insertion_refused(KILN_BOX, t, past, 4, none));
  wrong.box = cell;
  HELD(enquiry_refused(KILN_LEVEL, t, cell, 4) && commit_refused(KILN_LEVEL, t, wrong, none));
  HELD(enquiry_refused(KILN_LEVEL, t, cell, 0) && enquiry_refused(KILN_LEVEL, t, cell, SIZE_MAX));
  HELD(insertion_refused(KILN_LEVEL, t, cell, 0, none));
  wrong.level = 1;
  HELD(commit_refused(KILN_SLIP, t, wrong, none) && commit_refused(KILN_SLIP, t, wrong, few));
  HELD(commit_refused(KILN_SLIP, t, wrong, short_tree) && commit_refused(KILN_SLIP, t, wrong, room_b));
  HELD(commit_refused(KILN_OUTPUT_LENGTH, t, slip, none) && commit_refused(KILN_OUTPUT_LENGTH, t, slip, few));
  HELD(commit_refused(KILN_TREE_OUTPUT_SHORT, t, slip, short_tree));
  HELD(insertion_refused(KILN_OUTPUT_LENGTH, t, cell, 1, none));
  HELD(insertion_refused(KILN_TREE_OUTPUT_SHORT, t, cell, 1, short_tree));
}

/* A table of 3 by 2 in room_a whose coefficients differ, with regions of three levels: boxes are inserted into it in
   room_b and back. */
static struct kiln_table refined(void) {
  struct kiln_table t = fresh(3, 2, 0, room_a);
  for (size_t k = 0; k < kiln_level_places(3, 2, 0); k++) numbers_a[k] = (int64_t)(k * k * 71 % 4001) - 2000;
  HELD(kiln_table_insert(&t, box(2, 1, 9, 6), 1, room_b, &t) == KILN_DONE);
  HELD(kiln_table_insert(&t, box(5, 2, 12, 7), 3, room_a, &t) == KILN_DONE && kiln_table_judge(&t) == KILN_DONE);
  return t;
}

/* "19, the slip is not the one that this table gives": each number one more, one less, half and as great as there is,
   two exchanged, and those of another box or level. */
static void false_slips(void) {
  const struct kiln_table t = refined();
  const struct kiln_box drawn = box(1, 0, 7, 5);
  struct kiln_slip slip = slip_of(drawn, 2, 0), other;
  struct kiln_table made;
  int same = 1, changed = 0;
  HELD(kiln_table_enquire(&t, drawn, 2, &slip) == KILN_DONE);
  HELD(kiln_table_commit(&t, &slip, room_b, &made) == KILN_DONE);
  for (int k = 0; k < TOLD; k++) {
    const size_t was = *told(&slip, k), wrong[4] = {was + 1, was - 1, SIZE_MAX, was ? was / 2 : 2};
    for (int m = 0; m < 4; m++) {
      other = slip;
      *told(&other, k) = wrong[m];
      same &= commit_refused(KILN_SLIP, t, other, room_b);
    }
    for (int m = 0; m < k; m++) {
      other = slip;
      *told(&other, k) = *told(&slip, m);
      *told(&other, m) = was;
      changed += !same_told(slip, other);
      same &= same_told(slip, other) || commit_refused(KILN_SLIP, t, other, room_b);
    }
  }
  HELD(same && changed >= 12);  /* of fifteen pairs */
  for (int k = 0; k < 5; k++) {
    other = slip;
    size_t *part[5] = {&other.box.u0, &other.box.v0, &other.box.u1, &other.box.v1, &other.level};
    *part[k] += 1;
    HELD(commit_refused(KILN_SLIP, t, other, room_b));
  }
}

/* Whether a table is what a slip told, by other calls: the tree's length, the activity and the least level. */
static int left_as_told(const struct kiln_table *t, struct kiln_slip slip) {
  uint8_t least, greatest;
  size_t visited = 0;
  int same = t->tree_len == slip.length && !kiln_table_least_level(t, slip.box, &least, &greatest, &visited);
  for (size_t level = 0; level < 4; level++) {
    size_t places = kiln_level_places(t->w, t->h, level), count = 0;
    same = same && !kiln_table_activity(t, level, bytes, places);
    for (size_t k = 0; k < places; k++) count += bytes[k];
    same &= count == slip.active[level];
  }
  return same && visited == slip.visited && least >= slip.level;
}

static int no_figure_moved(const struct kiln_table *t, const struct kiln_table *finer) {
  int same = 1;
  for (size_t u = 0; u <= 128 * t->w; u += 77)
    for (size_t v = 0; v <= 128 * t->h; v += 64) {
      int64_t before = 7, after = 8;
      same &= !kiln_table_exact(t, at(u, v), &before) && !kiln_table_exact(finer, at(u, v), &after) && before == after;
    }
  return same;
}

/* Boxes of a refined table, each to a level: the enquiry changes nothing, the commit leaves what the slip told, moves
   no figure and writes nothing past the table; the insertion of both calls writes the same; the new table gives the
   same slip, and a commit of it changes nothing. */
static void told_and_left(void) {
  const struct kiln_table t = refined();
  static uint8_t tree_was[KILN_TREE_BYTES];
  static int64_t numbers_was[KILN_PLACES];
  const size_t places = kiln_places(3, 2);
  int same = 1, tried = 0, grown = 0;
  memcpy(tree_was, tree_a, t.tree_len);
  memcpy(numbers_was, numbers_a, sizeof numbers_a);
  for (size_t k = 0; k < 12 * 8 * 12 * 8; k += TRIED) {
    struct kiln_box b = box(k % 12, k / 12 % 8, k / 96 % 12 + 1, k / 1152 + 1);
    struct kiln_slip slip = slip_of(b, 0, 0), again = slip;
    struct kiln_table finer, twice;
    size_t length = 0;
    if (b.u0 >= b.u1 || b.v0 >= b.v1) continue;
    same &= !kiln_table_enquire(&t, b, k % 3 + 1, &slip) && !memcmp(tree_a, tree_was, t.tree_len);
    filled(room_b);
    same &= !kiln_table_commit(&t, &slip, room_b, &finer) && !memcmp(numbers_a, numbers_was, sizeof numbers_a);
    same &= left_as_told(&finer, slip) && no_figure_moved(&t, &finer) && left_from(room_b, slip.length, places);
    same &= !kiln_insert(PLAIN(t), CORNERS(b), k % 3 + 1, OUT(room_c, places), &length) && length == slip.length;
    same &= !memcmp(tree_c, tree_b, length) && !memcmp(numbers_c, numbers_b, places * sizeof *numbers_b);
    same &= !kiln_commit(PLAIN(t), NUMBERS(slip), OUT(room_c, places), &length) && length == slip.length;
    same &= !memcmp(tree_c, tree_b, length) && !memcmp(numbers_c, numbers_b, places * sizeof *numbers_b);
    same &= !kiln_table_enquire(&finer, b, slip.level, &again) && same_told(again, slip);
    same &= !kiln_table_commit(&finer, &slip, room_c, &twice) && same_table(&twice, &finer);
    tried++;
    grown += slip.length > t.tree_len;
  }
  HELD(same && tried > 500 && grown > 100);
}

/* A slip is an old one once another box is inserted: 19, and an enquiry tells anew. It serves after a coefficient is
   set, and for another table over the same tree. */
static void old_slips(void) {
  const struct kiln_function first = {0, -3, -3};
  const struct kiln_box drawn = box(0, 0, 2, 2);
  struct kiln_table t = refined(), other = fresh(3, 2, 0, room_c), finer, made;
  struct kiln_slip slip = slip_of(drawn, 0, 0), anew = slip;
  HELD(kiln_table_enquire(&t, drawn, 3, &slip) == KILN_DONE);
  HELD(kiln_table_set(&t, first, 31999) == KILN_DONE);
  HELD(kiln_table_commit(&t, &slip, room_b, &finer) == KILN_DONE && left_as_told(&finer, slip));
  HELD(kiln_table_insert(&other, box(2, 1, 9, 6), 1, room_b, &other) == KILN_DONE);
  HELD(kiln_table_insert(&other, box(5, 2, 12, 7), 3, room_c, &other) == KILN_DONE && !same_table(&other, &t));
  HELD(kiln_table_commit(&other, &slip, room_b, &made) == KILN_DONE && left_as_told(&made, slip));
  HELD(kiln_table_insert(&t, box(0, 6, 2, 8), 3, room_c, &other) == KILN_DONE);
  HELD(commit_refused(KILN_SLIP, other, slip, room_b));
  HELD(kiln_table_enquire(&other, drawn, 3, &anew) == KILN_DONE && !same_told(anew, slip));
  HELD(kiln_table_commit(&other, &anew, room_b, &made) == KILN_DONE && left_as_told(&made, anew));
  HELD(commit_refused(KILN_SLIP, t, anew, room_b));
}

int main(void) {
  bench_sheet();
  refusals();
  false_slips();
  told_and_left();
  old_slips();
  HELD(KILN_SLIP == 19 && strstr(kiln_refusal_words(19), "the slip is not the one that this table gives"));
  return all_held("slips");
}
