/* That kiln_insert and kiln_table_insert make an enquiry and, unless it is refused, a commit of its slip, and hand each
   parameter on to its place. The library's commit is refused wherever its enquiry is, so that it can't show this: both
   calls stand here in place of the library's, and keep what they are handed.
   Prints a line for each thing that is not as due, and a count at the end. */
#include "kiln_table.h"
#include "held.h"

#include <string.h>

enum { TAKEN = 11 };  /* the sides, two lengths, the corners and the level of a call, and two lengths of outputs */
static uint8_t tree[3], tree_out[10];
static int64_t numbers[4], numbers_out[600];
static size_t asked[TAKEN], committed[TAKEN], slip[6], enquiries, commits;
static uint8_t enquiry_gives, commit_gives;
static int lent;

/* Keeps the numbers that a call takes; whether the buffers are those that the test lends. */
static void kept(size_t *into, size_t w, size_t h, const uint8_t *t, size_t t_len, const int64_t *n, size_t n_len,
                 size_t u0, size_t v0, size_t u1, size_t v1, size_t level) {
  const size_t taken[9] = {w, h, t_len, n_len, u0, v0, u1, v1, level};
  memcpy(into, taken, sizeof taken);
  lent = lent && t == tree && n == numbers;
}

uint8_t kiln_enquire(size_t w, size_t h, const uint8_t *t, size_t t_len, const int64_t *n, size_t n_len, size_t u0,
                     size_t v0, size_t u1, size_t v1, size_t level, size_t *slip_length, size_t *slip_active,
                     size_t *slip_visited) {
  enquiries++;
  kept(asked, w, h, t, t_len, n, n_len, u0, v0, u1, v1, level);
  if (enquiry_gives) return enquiry_gives;
  *slip_length = 101;
  for (size_t k = 0; k < 4; k++) slip_active[k] = 102 + k;
  *slip_visited = 106;
  return 0;
}

uint8_t kiln_commit(size_t w, size_t h, const uint8_t *t, size_t t_len, const int64_t *n, size_t n_len, size_t u0,
                    size_t v0, size_t u1, size_t v1, size_t level, size_t slip_length, const size_t *slip_active,
                    size_t slip_visited, uint8_t *t_out, size_t t_out_len, int64_t *n_out, size_t n_out_len,
                    size_t *length) {
  commits++;
  kept(committed, w, h, t, t_len, n, n_len, u0, v0, u1, v1, level);
  committed[9] = t_out_len;
  committed[10] = n_out_len;
  slip[0] = slip_length;
  memcpy(slip + 1, slip_active, 4 * sizeof *slip);
  slip[5] = slip_visited;
  lent = lent && t_out == tree_out && n_out == numbers_out;
  if (commit_gives) return commit_gives;
  *length = 55;
  return 0;
}

/* Whether the calls made were one enquiry with all that was handed in, and so many commits, with its slip. */
static int handed_on(size_t places, size_t so_many) {
  const size_t due[TAKEN] = {1, 2, 3, 4, 5, 6, 7, 8, 9, 10, places}, told[6] = {101, 102, 103, 104, 105, 106};
  int same = lent && enquiries == 1 && commits == so_many && !memcmp(asked, due, 9 * sizeof *due);
  if (so_many) same = same && !memcmp(committed, due, sizeof due) && !memcmp(slip, told, sizeof told);
  return same;
}

static void start(uint8_t enquiry, uint8_t commit) {
  enquiry_gives = enquiry;
  commit_gives = commit;
  enquiries = commits = 0;
  lent = 1;
  memset(asked, 0, sizeof asked);
  memset(committed, 0, sizeof committed);
  memset(slip, 0, sizeof slip);
}

/* What the enquiry gives, what the commit gives, and what is to come of both. */
static const uint8_t cases[5][3] = {{0, 0, 0}, {7, 0, 7}, {8, 16, 8}, {0, 17, 17}, {200, 0, 200}};

static void plain(const uint8_t *answers) {
  size_t length = 77;
  start(answers[0], answers[1]);
  HELD(kiln_insert(1, 2, tree, 3, numbers, 4, 5, 6, 7, 8, 9, tree_out, 10, numbers_out, 11, &length) == answers[2]);
  HELD(handed_on(11, answers[0] == 0) && length == (answers[2] ? 77 : 55));
}

static void in_structs(const uint8_t *answers) {
  const struct kiln_table table = {1, 2, tree, 3, numbers, 4};
  const struct kiln_room room = {tree_out, 10, numbers_out, 600};
  const struct kiln_box box = {5, 6, 7, 8};
  struct kiln_table made = {9, 9, NULL, 9, NULL, 9};
  start(answers[0], answers[1]);
  HELD(kiln_table_insert(&table, box, 9, room, &made) == answers[2]);
  HELD(handed_on(kiln_places(1, 2), answers[0] == 0));
  if (answers[2]) HELD(made.w == 9 && made.h == 9 && !made.tree && made.tree_len == 9 && made.numbers_len == 9);
  else HELD(made.w == 1 && made.h == 2 && made.tree == tree_out && made.tree_len == 55 && made.numbers == numbers_out);
}

int main(void) {
  for (size_t k = 0; k < 5; k++) {
    plain(cases[k]);
    in_structs(cases[k]);
  }
  return all_held("insertions of two calls");
}
