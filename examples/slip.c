/* Tells what inserting a box would make of a table, as a stand shows it before a person accepts the box; inserts it
   where accept is said, and shows that what was told is what was left and that no figure moved. No file is written.

   cc -Iinclude examples/slip.c target/staticlib/libkiln.a -o slip
   ./slip tables/kiln-unrefined.table 28 4 32 8 3
   ./slip tables/kiln-unrefined.table 28 4 32 8 3 accept

   Exits with 0, or with the refusal number, which is shown with its words; with 255 where an argument is no such thing,
   the file can't be read or the output can't be written. */
#include "kiln_table.h"

#include <errno.h>
#include <stdio.h>
#include <stdlib.h>
#include <string.h>

static uint8_t file[KILN_FILE_BYTES + 1], bytes[KILN_PLACES];
static uint8_t tree[KILN_TREE_BYTES], finer_tree[KILN_TREE_BYTES], other_tree[KILN_TREE_BYTES];
static int64_t numbers[KILN_PLACES], finer_numbers[KILN_PLACES], other_numbers[KILN_PLACES];
static const struct kiln_room room = {tree, KILN_TREE_BYTES, numbers, KILN_PLACES};
static const struct kiln_room finer_room = {finer_tree, KILN_TREE_BYTES, finer_numbers, KILN_PLACES};
static const struct kiln_room other_room = {other_tree, KILN_TREE_BYTES, other_numbers, KILN_PLACES};

/* Whether the text is a whole number that fits; a sign, a point or a space is none of it. */
static int number_of(const char *name, const char *text, size_t *number) {
  size_t digits = strspn(text, "0123456789");
  unsigned long long value = 0;
  errno = 0;
  if (digits && !text[digits]) value = strtoull(text, NULL, 10);
  if (!digits || text[digits] || errno || value > SIZE_MAX) {
    fprintf(stderr, "slip: %s is '%s', not a whole number from 0 to %zu\n", name, text, (size_t)SIZE_MAX);
    return 0;
  }
  *number = (size_t)value;
  return 1;
}

/* The file's length, of at most one byte more than any that is accepted; SIZE_MAX where it can't be read. */
static size_t length_of(const char *name) {
  FILE *in = fopen(name, "rb");
  size_t length = SIZE_MAX;
  if (in) {
    length = fread(file, 1, sizeof file, in);
    if (ferror(in)) length = SIZE_MAX;
  }
  if (length == SIZE_MAX) fprintf(stderr, "slip: the table file '%s' can't be read: %s\n", name, strerror(errno));
  if (in) fclose(in);
  return length;
}

/* Finds what a slip tells, of a table as it is: its tree's length, how many functions of each level are active and the
   nodes visited under a box; the refusal number. */
static uint8_t as_it_is(const struct kiln_table *table, struct kiln_box box, struct kiln_slip *is) {
  uint8_t least, greatest, refused = kiln_table_least_level(table, box, &least, &greatest, &is->visited);
  is->length = table->tree_len;
  for (size_t level = 0; level < 4 && !refused; level++) {
    size_t places = kiln_level_places(table->w, table->h, level);
    refused = kiln_table_activity(table, level, bytes, places);
    is->active[level] = 0;
    for (size_t k = 0; k < places && !refused; k++) is->active[level] += bytes[k];
  }
  return refused;
}

static size_t sum(const size_t active[4]) {
  return active[0] + active[1] + active[2] + active[3];
}

/* Prints what the slip tells, beside what the table is now; the refusal number. */
static uint8_t show(const struct kiln_table *table, const struct kiln_slip *slip) {
  struct kiln_slip now;
  uint8_t refused = as_it_is(table, slip->box, &now);
  if (refused) return refused;
  printf("tree bytes:     %zu now, %zu then\n", now.length, slip->length);
  for (int k = 0; k < 4; k++) printf("level %d active: %zu now, %zu then\n", k, now.active[k], slip->active[k]);
  printf("coefficients:   %zu now, %zu then\n", sum(now.active), sum(slip->active));
  printf("nodes visited:  %zu now, %zu then\n", now.visited, slip->visited);
  return 0;
}

/* Prints what the commit left, and whether it is what the slip told; the refusal number. */
static uint8_t show_left(const struct kiln_table *finer, const struct kiln_slip *slip) {
  struct kiln_slip left;
  uint8_t refused = as_it_is(finer, slip->box, &left);
  if (refused) return refused;
  int told = left.length == slip->length && left.visited == slip->visited;
  for (int k = 0; k < 4; k++) told = told && left.active[k] == slip->active[k];
  const size_t *n = left.active;
  printf("inserted:       tree of %zu bytes, %zu + %zu + %zu + %zu active, %zu nodes visited: %s\n", left.length, n[0],
         n[1], n[2], n[3], left.visited, told ? "as told" : "not as told");
  return 0;
}

/* Prints the figure at each corner of the box, before and after, and whether the exact reading there is the same; the
   refusal number. */
static uint8_t show_corners(const struct kiln_table *table, const struct kiln_table *finer, struct kiln_box box) {
  for (int k = 0; k < 4; k++) {
    struct kiln_point at = {32 * (k % 2 ? box.u1 : box.u0), 32 * (k / 2 ? box.v1 : box.v0)};
    int64_t before, after, exact_before, exact_after;
    uint8_t refused = kiln_table_display(table, at, &before);
    if (!refused) refused = kiln_table_display(finer, at, &after);
    if (!refused) refused = kiln_table_exact(table, at, &exact_before);
    if (!refused) refused = kiln_table_exact(finer, at, &exact_after);
    if (refused) return refused;
    printf("u %zu, v %zu: %lld watts before, %lld after, exactly %s\n", at.u, at.v, (long long)before,
           (long long)after, exact_before == exact_after ? "the same" : "moved");
  }
  return 0;
}

/* Prints what becomes of the slip where someone else raised the whole sheet to level 3 before it is committed, so that
   it is an old one; the refusal number of that insertion. */
static uint8_t show_old(const struct kiln_table *table, const struct kiln_slip *slip) {
  const struct kiln_box whole = {0, 0, 4 * table->w, 4 * table->h};
  struct kiln_table other;
  uint8_t refused = kiln_table_insert(table, whole, 3, other_room, &other);
  if (refused) return refused;
  refused = kiln_table_commit(&other, slip, finer_room, &other);
  if (refused) printf("old slip:       refused %d once the whole sheet has level 3: %s\n", refused,
                      kiln_refusal_words(refused));
  else printf("old slip:       serves also once the whole sheet has level 3\n");
  return 0;
}

/* Prints the slip of a box and, where the box is accepted, inserts it and prints what was left; the refusal number. */
static uint8_t enquired(const struct kiln_table *table, struct kiln_box box, size_t level, int accepted) {
  struct kiln_slip slip;
  struct kiln_table finer;
  uint8_t refused = kiln_table_enquire(table, box, level, &slip);
  if (!refused) refused = show(table, &slip);
  if (refused) return refused;
  if (!accepted) {
    printf("nothing was changed: say accept after the level to insert the box\n");
    return 0;
  }
  refused = kiln_table_commit(table, &slip, finer_room, &finer);
  if (!refused) refused = show_left(&finer, &slip);
  if (!refused) refused = show_corners(table, &finer, box);
  return refused ? refused : show_old(table, &slip);
}

int main(int argc, char **argv) {
  struct kiln_table table;
  struct kiln_box box;
  size_t level, length;
  uint8_t refused;
  int accepted = argc == 8 && !strcmp(argv[7], "accept");
  if (argc != 7 && !accepted) {
    fprintf(stderr, "slip: six arguments are needed, or seven: TABLE U0 V0 U1 V1 LEVEL [accept]\n"
                    "  TABLE            a table file\n"
                    "  U0, V0, U1, V1   the box, in quarters of a cell, low corner first\n"
                    "  LEVEL            the level to which it is to be raised, 1 to 3\n"
                    "  accept           to insert the box; without it nothing is changed\n");
    return 255;
  }
  if (!number_of("U0", argv[2], &box.u0) || !number_of("V0", argv[3], &box.v0) || !number_of("U1", argv[4], &box.u1) ||
      !number_of("V1", argv[5], &box.v1) || !number_of("LEVEL", argv[6], &level)) return 255;
  length = length_of(argv[1]);
  if (length == SIZE_MAX) return 255;
  refused = kiln_table_read_file(file, length, room, &table);
  if (!refused) {
    printf("sheet:          %zu by %zu cells, u 0 to %zu, v 0 to %zu in quarters\n", table.w, table.h, 4 * table.w,
           4 * table.h);
    printf("box:            u %zu to %zu, v %zu to %zu, to level %zu\n", box.u0, box.u1, box.v0, box.v1, level);
    refused = enquired(&table, box, level, accepted);
  }
  if (refused) printf("refused %d: %s\n", refused, kiln_refusal_words(refused));
  if (fflush(stdout) || ferror(stdout)) {
    fprintf(stderr, "slip: the output can't be written\n");
    return 255;
  }
  return refused;
}
