/* File reading in plain C: the file is judged whole in byte order first, then the outputs are written. */
#include "plain_fields.h"

/* The sides' field is the first, so that the tree's body is at 8. */
enum { TREE_AT = HEAD + SIDES_BYTES, TREE_BODY = TREE_AT + HEAD };

/* The part of a file that its note is; all 0 where none stands there. */
struct note {
  uint8_t stands;
  size_t offset, length;
};

/* How many of the first n functions of a word are marked, of which one stands at every e-th place. */
static inline size_t count_word(uint64_t word, size_t e, size_t n) {
  static const uint64_t every[9] = {
    [1] = UINT64_MAX, [2] = 0x5555555555555555, [4] = 0x1111111111111111, [8] = 0x0101010101010101
  };
  return (size_t)__builtin_popcountll(word & every[e] & (((uint64_t)1 << n * e) - 1));
}

/* How many functions of a level are active. */
static size_t active_count(const struct regions *regions, size_t w, size_t h, size_t level) {
  size_t n = functions(w, level), m = functions(h, level), found = 0;
  for (size_t b = 0; b < m; b++) {
    struct marks row = active_row(regions, w, h, level, b);
    found += count_word(row.even, eighths(level), (n + 1) / 2) + count_word(row.odd, eighths(level), n / 2);
  }
  return found;
}

void count_active(const struct regions *regions, size_t w, size_t h, size_t counts[LEVELS]) {
  for (size_t level = 0; level < LEVELS; level++) counts[level] = active_count(regions, w, h, level);
}

/* The counts' field, which may stand at a position, and its four counts, two bytes each, high byte first: `end`
   receives the position after it, or this one where another tag stands here. */
static uint8_t judge_counts(const struct file *file, size_t at, const size_t counts[LEVELS], size_t *end) {
  *end = at;
  if (file->len - at < HEAD) return FILE_ENDS;
  if (file->bytes[at] != TAG_COUNTS) return 0;
  uint8_t cause = field_at(file, at, TAG_COUNTS, COUNTS_BYTES, COUNTS_BYTES, end);
  if (cause) return cause;
  const uint8_t *body = file->bytes + at + HEAD;
  for (size_t level = 0; level < LEVELS; level++)
    if (((size_t)body[2 * level] << 8 | body[2 * level + 1]) != counts[level]) return BAD_COUNT;
  return 0;
}

/* The field of a level at a position, and the limit of the coefficients in it. */
static uint8_t judge_level(const struct file *file, size_t at, size_t count, size_t level, size_t *end) {
  size_t n = NUMBER_BYTES * count;
  uint8_t cause = field_at(file, at, (uint8_t)(TAG_LEVEL_0 + level), n, n, end);
  if (cause) return cause;
  const uint8_t *body = file->bytes + at + HEAD;
  for (size_t k = 0; k < count; k++)
    if (past_limit(number_at(body + NUMBER_BYTES * k), level)) return OVER_LIMIT;
  return 0;
}

/* The note's field, which may stand after the last level's, and the end of the file after it: any byte that is not a
   note's is one too many. */
static uint8_t judge_note(const struct file *file, size_t at, struct note *note) {
  size_t end = at;
  *note = (struct note){0, 0, 0};
  if (at < file->len && file->bytes[at] == TAG_NOTE) {
    uint8_t cause = field_at(file, at, TAG_NOTE, 0, NOTE_MAX, &end);
    if (cause) return cause;
    *note = (struct note){1, at + HEAD, end - at - HEAD};
  }
  return end < file->len ? BYTES_AFTER : 0;
}

/* All fields in byte order: the regions, the positions after the tree's field and of the first level's, and the note.
   The active functions are counted once, for the counts' field and for the levels' lengths. */
static uint8_t judge(const struct file *file, struct regions *regions, size_t *tree_end, size_t *levels_at,
                     struct note *note) {
  size_t counts[LEVELS], last;
  uint8_t cause = field_at(file, 0, TAG_SIDES, SIDES_BYTES, SIDES_BYTES, &last);
  if (cause) return cause;
  size_t w = file->bytes[HEAD], h = file->bytes[HEAD + 1];
  if (!good_sides(w, h)) return BAD_SIDE;
  if ((cause = field_at(file, TREE_AT, TAG_TREE, 1, TREE_MAX, tree_end))) return cause;
  if ((cause = region_cause(w, h, file->bytes + TREE_BODY, *tree_end - TREE_BODY, regions))) return cause;
  count_active(regions, w, h, counts);
  if ((cause = judge_counts(file, *tree_end, counts, levels_at))) return cause;
  last = *levels_at;
  for (size_t level = 0; level < LEVELS; level++)
    if ((cause = judge_level(file, last, counts[level], level, &last))) return cause;
  return judge_note(file, last, note);
}

/* The body's next number for a marked function, 0 for another. */
static inline int64_t take(const uint8_t **body, bool here) {
  if (!here) return 0;
  int64_t number = number_at(*body);
  *body += NUMBER_BYTES;
  return number;
}

/* Loads a row from a level's body, and returns the position of the first number left. */
static inline const uint8_t *load_row(const uint8_t *body, struct marks m, size_t e, size_t n, int64_t *out) {
  for (size_t a = 0; a < n; a += 2, m = next_two(m, e)) {
    out[a] = take(&body, m.even & 1);
    if (a + 1 < n) out[a + 1] = take(&body, m.odd & 1);
  }
  return body;
}

/* A level's part of the coefficients: the active ones take the body's numbers in slice order, the others 0; a body of
   no bytes has none. */
static void load_level(const uint8_t *body, size_t len, const struct regions *regions, size_t w, size_t h, size_t level,
                       int64_t *out) {
  size_t n = functions(w, level), m = functions(h, level);
  if (!len) {
    memset(out, 0, n * m * sizeof *out);
    return;
  }
  for (size_t b = 0; b < m; b++, out += n)
    body = load_row(body, active_row(regions, w, h, level, b), eighths(level), n, out);
}

/* The coefficients of all levels, whose fields start at a position. */
static void load_levels(const uint8_t *field, const struct regions *regions, size_t w, size_t h, int64_t *out) {
  for (size_t level = 0; level < LEVELS; level++) {
    size_t body = length_at(field);
    load_level(field + HEAD, body, regions, w, h, level, out);
    field += HEAD + body;
    out += places(w, h, level);
  }
}

/* Loads a file into the outputs, with the note that it has; a refusal writes nothing but `note`. */
static uint8_t load(const struct file *file, uint8_t *tree_out, size_t tree_out_len, int64_t *numbers_out,
                    size_t numbers_out_len, size_t *length, size_t *w, size_t *h, struct note *note) {
  struct regions regions;
  const uint8_t *bytes = file->bytes;
  size_t tree_end, levels_at;
  uint8_t cause = judge(file, &regions, &tree_end, &levels_at, note);
  if (cause) return cause;
  size_t wide = bytes[HEAD], high = bytes[HEAD + 1], n = tree_end - TREE_BODY;
  if (numbers_out_len != start(wide, high, LEVELS)) return BAD_OUTPUT;
  if (tree_out_len < n) return TREE_OUTPUT_SHORT;
  memcpy(tree_out, bytes + TREE_BODY, n);
  load_levels(bytes + levels_at, &regions, wide, high, numbers_out);
  *length = n;
  *w = wide;
  *h = high;
  return 0;
}

uint8_t plain_read_file(const uint8_t *bytes, size_t len, uint8_t *tree_out, size_t tree_out_len, int64_t *numbers_out,
                        size_t numbers_out_len, size_t *length, size_t *w, size_t *h) {
  struct file file = {bytes, len};
  struct note note;
  return load(&file, tree_out, tree_out_len, numbers_out, numbers_out_len, length, w, h, &note);
}

uint8_t plain_read_bench(const uint8_t *bytes, size_t len, uint8_t *tree_out, size_t tree_out_len, int64_t *numbers_out,
                         size_t numbers_out_len, size_t *length, size_t *w, size_t *h, uint8_t *noted,
                         size_t *note_offset, size_t *note_length) {
  struct file file = {bytes, len};
  struct note note;
  uint8_t cause = load(&file, tree_out, tree_out_len, numbers_out, numbers_out_len, length, w, h, &note);
  if (cause) return cause;
  *noted = note.stands;
  *note_offset = note.offset;
  *note_length = note.length;
  return 0;
}
