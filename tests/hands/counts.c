/* The counts in a table file (document 02, "Counts in the file"): files with them, without them and with wrong ones,
   each refusal beside another, and what kiln_file_counts reads off.
   Prints a line for each thing that is not as the papers say, and a count at the end. */
#include "files.h"
#include "held.h"

enum { FIELD = 11 };  /* the counts' field: its head and eight bytes */

/* "Files lacking it are still loaded. The writer always puts it, so saving what was loaded reproduces the bytes only of
   files that had it." 18 counts the field. */
static void read_and_written(const struct form *form) {
  struct kiln_table read;
  for (int with = 0; with < 2; with++) {
    size_t length = file_of(form, with ? form->active : NULL), counted, written = 7;
    HELD(reads_as(form, length, &read));
    HELD(refusal_of(length - 1) == KILN_FILE_ENDS);
    file[length] = 0;
    HELD(refusal_of(length + 1) == KILN_FILE_GOES_ON);
    HELD(reads_as(form, length, &read));
    counted = file_of(form, form->active);
    HELD(counted == length + (with ? 0 : FIELD));
    memset(again, 9, sizeof again);
    HELD(kiln_table_write_file(&read, again, counted - 1, &written) == KILN_FILE_OUTPUT_SHORT);
    HELD(kiln_table_write_file(&read, again, counted - FIELD, &written) == KILN_FILE_OUTPUT_SHORT);
    HELD(written == 7 && again[0] == 9 && !memcmp(again, again + 1, sizeof again - 1));
    HELD(kiln_table_write_file(&read, again, counted, &written) == KILN_DONE && written == counted);
    HELD(!memcmp(again, file, counted) && again[counted] == 9);
  }
}

/* What is read off a file that was written is what kiln_activity has; off one that is cut before the counts end, or has
   none, nothing is. */
static void read_off(const struct form *form) {
  size_t end = after_tree(form) + FIELD, length = file_of(form, NULL), counts[4] = {7, 7, 7, 7};
  struct kiln_table read;
  int same = 1;
  HELD(!kiln_file_counts(file, length, counts) && counts[0] == 7 && counts[3] == 7);
  HELD(reads_as(form, length, &read) && !kiln_table_write_file(&read, again, sizeof again, &length));
  for (size_t cut = 0; cut < end; cut++) same &= !kiln_file_counts(again, cut, counts);
  HELD(same && counts[0] == 7 && counts[1] == 7 && counts[2] == 7 && counts[3] == 7);
  for (size_t cut = end; cut <= length; cut++) {
    counts[0] = counts[1] = counts[2] = counts[3] = 70000;
    same &= kiln_file_counts(again, cut, counts) == 1 && !memcmp(counts, form->active, sizeof counts);
  }
  HELD(same);
  for (size_t level = 0; level < 4; level++) {
    size_t places = kiln_level_places(form->w, form->h, level), ones = 0;
    same &= !kiln_table_activity(&read, level, bytes, places);
    for (size_t place = 0; place < places; place++) ones += bytes[place];
    same &= counts[level] == ones;
    same &= counts[level] == 256u * again[11 + form->tree_len + 2 * level] + again[12 + form->tree_len + 2 * level];
  }
  HELD(same && again[after_tree(form)] == 3);
}

/* "20, a count differs from the tree's": each count alone by a bit, by one, five times it, that of the passive places;
   the counts in another order, and with their bytes in another order. */
static void wrong_counts(const struct form *form) {
  size_t counts[4], told[4];
  for (size_t level = 0; level < 4; level++) {
    size_t true_count = form->active[level], others[20] = {true_count + 1, (true_count + 65535) % 65536,
      true_count ? 5 * true_count % 65536 : 5, kiln_level_places(form->w, form->h, level) - true_count};
    int same = 1;
    for (size_t bit = 0; bit < 16; bit++) others[4 + bit] = true_count ^ ((size_t)1 << bit);
    for (size_t k = 0; k < 20; k++) {
      memcpy(counts, form->active, sizeof counts);
      counts[level] = others[k];
      size_t length = file_of(form, counts);
      same &= others[k] != true_count && refusal_of(length) == KILN_FILE_COUNT;
      same &= kiln_file_counts(file, length, told) && !memcmp(told, counts, sizeof told);
    }
    HELD(same);
  }
  for (size_t level = 0; level < 4; level++) counts[level] = form->active[3 - level];
  HELD(refusal_of(file_of(form, counts)) == KILN_FILE_COUNT);
  for (size_t level = 0; level < 4; level++)  /* low byte first */
    counts[level] = form->active[level] % 256 * 256 + form->active[level] / 256;
  HELD(refusal_of(file_of(form, counts)) == KILN_FILE_COUNT);
}

/* Makes the file of a form anew, with right counts or with those of no function, and changes one byte. */
static size_t changed(const struct form *form, int right, size_t place, size_t byte) {
  static const size_t none[4] = {0, 0, 0, 0};
  size_t length = file_of(form, right ? form->active : none);
  file[place] = (uint8_t)byte;
  return length;
}

/* In byte order: after the tree's field "whole head, tag, length, whole body, contents", and those before tag 16's. */
static void in_byte_order(const struct form *form) {
  size_t at = after_tree(form), end = at + FIELD, length;
  int same = 1;
  for (size_t tag = 0; tag < 256; tag++) {
    /* 3 and 16 are due after the tree, each with its own length; after the counts 16 alone. */
    enum kiln_refusal of_other = tag == 3 || tag == 16 ? KILN_FILE_FIELD_LENGTH : KILN_FILE_TAG;
    same &= refusal_of(changed(form, 1, at, tag)) == (tag == 3 ? KILN_DONE : of_other);
    same &= refusal_of(changed(form, 1, end, tag)) == (tag == 16 ? KILN_DONE : KILN_FILE_TAG);
    same &= refusal_of(changed(form, 0, end, tag)) == KILN_FILE_COUNT;
    length = file_of(form, NULL);
    file[at] = (uint8_t)tag;
    same &= refusal_of(length) == (tag == 16 ? KILN_DONE : of_other);
    for (size_t cut = at; cut < at + 3; cut++) same &= refusal_of(cut) == KILN_FILE_ENDS;
  }
  HELD(same);
  for (size_t told = 0; told < 256; told++) {
    enum kiln_refusal due = told == 8 ? KILN_FILE_COUNT : KILN_FILE_FIELD_LENGTH;
    changed(form, 0, at + 2, told);
    for (size_t cut = at + 3; cut <= end; cut++)
      same &= refusal_of(cut) == (told == 8 && cut < end ? KILN_FILE_ENDS : due);
    if (told) same &= refusal_of(changed(form, 0, at + 1, told)) == KILN_FILE_FIELD_LENGTH;
  }
  HELD(same);
  length = file_of(form, form->active);
  for (size_t cut = 0; cut < length; cut++) same &= refusal_of(cut) == KILN_FILE_ENDS;
  HELD(same);
}

/* A wrong count beside what comes before it and after it. */
static void beside_other_causes(void) {
  const struct form *form = &forms[MIXED];
  size_t end = after_tree(form) + FIELD, length, w = 7, h = 7, read = 7;
  int same = 1;
  HELD(refusal_of(changed(form, 0, 3, 9)) == KILN_SIDE);
  HELD(refusal_of(changed(form, 0, 8, 3)) == KILN_TREE);
  HELD(refusal_of(changed(form, 0, 5, 3)) == KILN_FILE_TAG);
  HELD(refusal_of(changed(form, 1, end + 1, 9)) == KILN_FILE_FIELD_LENGTH);
  HELD(refusal_of(changed(form, 0, end + 1, 9)) == KILN_FILE_COUNT);
  HELD(refusal_of(changed(form, 1, end + 3, 127)) == KILN_COEFFICIENT_LIMIT);
  HELD(refusal_of(changed(form, 0, end + 3, 127)) == KILN_FILE_COUNT);
  length = changed(form, 0, 0, 1);
  for (size_t cut = end; cut < length; cut++) same &= refusal_of(cut) == KILN_FILE_COUNT;
  HELD(same && refusal_of(length + 1) == KILN_FILE_COUNT);
  HELD(kiln_read_file(file, length, tree, 0, numbers, KILN_PLACES - 1, &read, &w, &h) == KILN_FILE_COUNT);
  changed(form, 1, 0, 1);
  HELD(kiln_read_file(file, length, tree, 0, numbers, KILN_PLACES - 1, &read, &w, &h) == KILN_OUTPUT_LENGTH);
  HELD(kiln_read_file(file, length, tree, 4, numbers, KILN_PLACES, &read, &w, &h) == KILN_TREE_OUTPUT_SHORT);
  HELD(read == 7 && w == 7 && h == 7);
  file[length] = 0;
  HELD(refusal_of(KILN_FILE_BYTES + 1) == KILN_FILE_GOES_ON && refusal_of(sizeof file) == KILN_FILE_GOES_ON);
  memmove(file + length, file + end - FIELD, FIELD);  /* the counts a second time, and only, after the last field */
  HELD(refusal_of(length + FIELD) == KILN_FILE_GOES_ON);
  memmove(file + end - FIELD, file + end, length + FIELD - end);
  HELD(refusal_of(length) == KILN_FILE_GOES_ON && refusal_of(length - FIELD) == 0);
  length = changed(form, 1, 0, 1);
  memmove(file + end, file + end - FIELD, length - (end - FIELD));  /* twice after the tree */
  HELD(refusal_of(length + FIELD) == KILN_FILE_TAG);
}

/* Off bytes that are no file: nothing beyond them is read, and what stands there is told. */
static void read_off_anything(void) {
  static const uint8_t field[19] = {9, 9, 9, 9, 9, 2, 0, 0, 3, 0, 8, 255, 255, 0, 1, 1, 0, 18, 52};
  size_t counts[4] = {7, 7, 7, 7};
  HELD(!kiln_file_counts(NULL, 0, counts));
  memset(file, 2, sizeof file);
  HELD(!kiln_file_counts(file, 8 + 514 + FIELD, counts));
  memset(file, 255, sizeof file);
  file[5] = 2;
  HELD(!kiln_file_counts(file, sizeof file, counts) && counts[0] == 7 && counts[3] == 7);
  HELD(kiln_file_counts(field, 19, counts) == 1);
  HELD(counts[0] == 65535 && counts[1] == 1 && counts[2] == 256 && counts[3] == 0x1234);
  HELD(!strcmp(kiln_refusal_words(KILN_FILE_COUNT), "count in a file differs from the tree's"));
  HELD(KILN_FILE_COUNT == 20 && !strcmp(kiln_refusal_words(22), kiln_refusal_words(255)));
}

int main(void) {
  for (size_t k = 0; k < FORMS; k++) {
    read_and_written(&forms[k]);
    read_off(&forms[k]);
    wrong_counts(&forms[k]);
  }
  in_byte_order(&forms[0]);
  in_byte_order(&forms[2]);
  beside_other_causes();
  read_off_anything();
  return all_held("counts in files");
}
