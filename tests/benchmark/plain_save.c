/* File writing in plain C: the table and the note are checked, the file's length is found from the active counts, then
   the fields are written one after another, the counts among them and the note last. */
#include "plain_put.h"

/* Writes the field of the active counts, two bytes each, high byte first, and returns the position after it. */
static inline uint8_t *put_counts(uint8_t *to, const size_t counts[LEVELS]) {
  to = put_head(to, TAG_COUNTS, COUNTS_BYTES);
  for (size_t level = 0; level < LEVELS; level++) {
    *to++ = (uint8_t)(counts[level] >> 8);
    *to++ = (uint8_t)counts[level];
  }
  return to;
}

/* Writes the numbers of a row whose functions are marked, and returns the position after them. */
static inline uint8_t *save_row(const int64_t *row, struct marks m, size_t e, size_t n, uint8_t *to) {
  for (size_t a = 0; a < n; a += 2, m = next_two(m, e)) {
    if (m.even & 1) to = put_number(to, row[a]);
    if (a + 1 < n && m.odd & 1) to = put_number(to, row[a + 1]);
  }
  return to;
}

/* Writes a level's active coefficients in slice order, and returns the position after them. */
static uint8_t *save_level(const int64_t *numbers, const struct regions *regions, size_t w, size_t h, size_t level,
                           uint8_t *to) {
  size_t n = functions(w, level), m = functions(h, level);
  for (size_t b = 0; b < m; b++, numbers += n)
    to = save_row(numbers, active_row(regions, w, h, level, b), eighths(level), n, to);
  return to;
}

uint8_t plain_write_file(size_t w, size_t h, const uint8_t *tree, size_t tree_len, const int64_t *numbers,
                         size_t numbers_len, uint8_t noted, const uint8_t *note, size_t note_len, uint8_t *file_out,
                         size_t file_out_len, size_t *length) {
  struct regions regions;
  uint8_t cause = check(w, h, tree, tree_len, numbers, numbers_len, &regions), *to = file_out;
  if (cause) return cause;
  if (noted && note_len > NOTE_MAX) return BAD_FIELD;
  size_t counts[LEVELS], whole = HEAD + SIDES_BYTES + HEAD + tree_len + HEAD + COUNTS_BYTES;
  count_active(&regions, w, h, counts);
  for (size_t level = 0; level < LEVELS; level++) whole += HEAD + NUMBER_BYTES * counts[level];
  if (noted) whole += HEAD + note_len;
  if (file_out_len < whole) return FILE_OUTPUT_SHORT;
  to = put_head(to, TAG_SIDES, SIDES_BYTES);
  *to++ = (uint8_t)w;
  *to++ = (uint8_t)h;
  to = put_head(to, TAG_TREE, tree_len);
  memcpy(to, tree, tree_len);
  to = put_counts(to + tree_len, counts);
  for (size_t level = 0; level < LEVELS; level++) {
    to = put_head(to, TAG_LEVEL_0 + level, NUMBER_BYTES * counts[level]);
    if (counts[level]) to = save_level(numbers + start(w, h, level), &regions, w, h, level, to);
  }
  /* A note of no bytes may have any pointer. */
  if (noted) to = put_head(to, TAG_NOTE, note_len);
  if (noted && note_len) memcpy(to, note, note_len);
  *length = whole;
  return 0;
}
