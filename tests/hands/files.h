/* Table files put together field by field, and what reading one of them gives, by the controller's loader and by the
   bench loader. */
#include "kiln_table.h"

#include <string.h>

/* A sheet and its tree, with the active functions of each level: document 01's bench sheet, and a sheet with a quarter
   of each level, of which the evaluator has the counts. */
struct form {
  size_t w, h, tree_len;
  uint8_t tree[13];
  size_t active[4];
};
enum { FORMS = 5, MIXED = 4 };
static const struct form forms[FORMS] = {
  {1, 1, 1, {0}, {16, 0, 0, 0}},
  {1, 1, 13, {4, 4, 4, 1}, {0, 25, 0, 0}},
  {2, 1, 13, {4, 4, 4, 1}, {16, 10, 0, 0}},
  {8, 8, 1, {3}, {0, 0, 0, 4489}},
  {8, 8, 5, {4, 0, 1, 2, 3}, {49, 88, 304, 1024}}};

/* Some bytes more than any file, so that one can go on. */
static uint8_t file[KILN_FILE_BYTES + 16], again[KILN_FILE_BYTES], tree[KILN_TREE_BYTES], bytes[KILN_PLACES];
static int64_t numbers[KILN_PLACES];
static const struct kiln_room room = {tree, KILN_TREE_BYTES, numbers, KILN_PLACES};
static const struct kiln_table unmade = {9, 9, NULL, 9, NULL, 9};

static size_t head_put(size_t at, size_t tag, size_t length) {
  file[at] = (uint8_t)tag;
  file[at + 1] = (uint8_t)(length / 256);
  file[at + 2] = (uint8_t)(length % 256);
  return at + 3;
}

/* Where the field after the tree's starts. */
static size_t after_tree(const struct form *form) {
  return 8 + form->tree_len;
}

/* Puts together a file whose k-th active coefficient in each level is k, with these counts or, for NULL, without, and
   with no note; its length. */
static size_t file_of(const struct form *form, const size_t *counts) {
  size_t at = head_put(0, 1, 2);
  file[at++] = (uint8_t)form->w;
  file[at++] = (uint8_t)form->h;
  at = head_put(at, 2, form->tree_len);
  memcpy(file + at, form->tree, form->tree_len);
  at += form->tree_len;
  if (counts) {
    at = head_put(at, 3, 8);
    for (size_t level = 0; level < 4; level++) {
      file[at++] = (uint8_t)(counts[level] / 256);
      file[at++] = (uint8_t)(counts[level] % 256);
    }
  }
  for (size_t level = 0; level < 4; level++) {
    at = head_put(at, 16 + level, 5 * form->active[level]);
    for (size_t k = 0; k < form->active[level]; k++, at += 5) {
      memset(file + at, 0, 3);
      file[at + 3] = (uint8_t)(k / 256);
      file[at + 4] = (uint8_t)(k % 256);
    }
  }
  return at;
}

/* Every place of the room holds 77, so that what is written shows. */
static void room_filled(void) {
  memset(tree, 77, sizeof tree);
  for (size_t k = 0; k < KILN_PLACES; k++) numbers[k] = 77;
}

static int room_untouched(void) {
  int same = 1;
  for (size_t k = 0; k < KILN_TREE_BYTES; k++) same &= tree[k] == 77;
  for (size_t k = 0; k < KILN_PLACES; k++) same &= numbers[k] == 77;
  return same;
}

/* Whether a struct holds what a call was to make it from. */
static int never_made(const struct kiln_table *table) {
  return table->w == unmade.w && table->h == unmade.h && table->tree == unmade.tree &&
         table->tree_len == unmade.tree_len && table->numbers == unmade.numbers &&
         table->numbers_len == unmade.numbers_len;
}

/* "it says none and the part is empty", and there is nothing else beside the code. */
static int nothing_but(const kiln_bench *bench, uint8_t code) {
  return bench->code == code && !bench->length && !bench->w && !bench->h && !bench->note.stands &&
         !bench->note.offset && !bench->note.length;
}

/* What both loaders refuse so much of the file with, where all that was lent holds what it held; 255 where it does not
   or they differ, 0 where it is accepted. */
static uint8_t refusal_of(size_t length) {
  struct kiln_table read = unmade, benched = unmade;
  room_filled();
  kiln_bench bench = kiln_table_load_bench(file, length, room, &benched);
  if (!bench.code) return kiln_table_read_file(file, length, room, &read) ? 255 : 0;
  uint8_t refused = kiln_table_read_file(file, length, room, &read);
  return room_untouched() && never_made(&read) && never_made(&benched) && nothing_but(&bench, refused) ? refused : 255;
}

/* Whether a table that was read is of this form, with k as the k-th active coefficient in each level. */
static int is_of(const struct form *form, const struct kiln_table *read) {
  int same = read->w == form->w && read->h == form->h && read->tree_len == form->tree_len &&
             !memcmp(read->tree, form->tree, form->tree_len) && read->numbers_len == kiln_places(form->w, form->h);
  const int64_t *number = numbers;
  for (size_t level = 0; same && level < 4; level++) {
    size_t places = kiln_level_places(form->w, form->h, level), k = 0;
    same &= !kiln_table_activity(read, level, bytes, places);
    for (size_t place = 0; place < places; place++) same &= *number++ == (bytes[place] ? (int64_t)k++ : 0);
    same &= k == form->active[level];
  }
  return same;
}

/* Whether the controller's loader reads the file as such a table. */
static int reads_as(const struct form *form, size_t length, struct kiln_table *read) {
  room_filled();
  return !kiln_table_read_file(file, length, room, read) && is_of(form, read);
}
