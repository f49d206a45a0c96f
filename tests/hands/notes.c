/* The note in a table file (document 02, "A bench note"): files with one, with none and with a malformed one, read by
   the controller's loader and by the bench loader and written again, each refusal beside another.
   Prints a line for each thing that is not as the papers say, and a count at the end. */
#include "files.h"
#include "held.h"

enum { HEAD = 3, LONG = 65536 };
static const size_t lengths[6] = {0, 1, 2, 32, 63, 64};
static uint8_t long_note[LONG + KILN_NOTE_BYTES];

/* The k-th byte of a note: each is another one, and some are tags. */
static uint8_t note_byte(size_t k) {
  return (uint8_t)(32 + 37 * k);
}

/* Puts a note's field at a place of the file; the length with it. */
static size_t note_put(size_t at, size_t length) {
  at = head_put(at, 32, length);
  for (size_t k = 0; k < length; k++) file[at + k] = note_byte(k);
  return at + length;
}

static int is_note(const uint8_t *note, size_t length) {
  int same = 1;
  for (size_t k = 0; k < length; k++) same &= note[k] == note_byte(k);
  return same;
}

/* Whether the file output from here on holds what it was filled with. */
static int nines(size_t from) {
  while (from < sizeof again && again[from] == 9) from++;
  return from == sizeof again;
}

/* "The bench loader also says whether a note stands there and returns the note as the part of the file it is": by
   value and through pointers. A note of no bytes stands there. */
static void told(const struct form *form, size_t bare, size_t length) {
  struct kiln_table read = unmade;
  size_t whole = note_put(bare, length), tree_len = 7, w = 7, h = 7, offset = 7, size = 7;
  size_t places = kiln_places(form->w, form->h);
  uint8_t noted = 7;
  room_filled();
  kiln_bench bench = kiln_table_load_bench(file, whole, room, &read);
  HELD(bench.code == KILN_DONE && is_of(form, &read) && (places == KILN_PLACES || numbers[places] == 77));
  HELD(bench.w == form->w && bench.h == form->h && bench.length == form->tree_len);
  HELD(bench.note.stands == 1 && bench.note.length == length && bench.note.offset == whole - length);
  HELD(file + bench.note.offset == file + bare + HEAD && is_note(file + bench.note.offset, length));
  room_filled();
  HELD(kiln_read_bench(file, whole, tree, form->tree_len, numbers, places, &tree_len, &w, &h, &noted, &offset, &size)
       == KILN_DONE);
  HELD(tree_len == form->tree_len && w == form->w && h == form->h && noted == 1 && is_of(form, &read));
  HELD(offset == bench.note.offset && size == length);
}

/* "with none there ... it says none and the part is empty" */
static void told_none(const struct form *form, size_t bare) {
  struct kiln_table read = unmade;
  size_t tree_len = 7, w = 7, h = 7, offset = 7, size = 7, places = kiln_places(form->w, form->h);
  uint8_t noted = 7;
  room_filled();
  kiln_bench bench = kiln_table_load_bench(file, bare, room, &read);
  HELD(bench.code == KILN_DONE && is_of(form, &read));
  HELD(bench.w == form->w && bench.h == form->h && bench.length == form->tree_len);
  HELD(bench.note.stands == 0 && bench.note.offset == 0 && bench.note.length == 0);
  HELD(kiln_read_bench(file, bare, tree, form->tree_len, numbers, places, &tree_len, &w, &h, &noted, &offset, &size)
       == KILN_DONE);
  HELD(tree_len == form->tree_len && w == form->w && h == form->h && noted == 0 && offset == 0 && size == 0);
}

/* "Saving after the bench loader keeps it", with the counts that the file may have lacked; 18 counts the field. */
static void kept(const struct form *form, const size_t *counts, size_t length) {
  struct kiln_table read = unmade;
  size_t whole = note_put(file_of(form, counts), length), written = 7;
  kiln_bench bench = kiln_table_load_bench(file, whole, room, &read);
  HELD(bench.code == KILN_DONE && bench.note.stands && is_note(file + bench.note.offset, length));
  const uint8_t *note = file + bench.note.offset;
  size_t counted = whole + (counts ? 0 : HEAD + 8);
  memset(again, 9, sizeof again);
  HELD(kiln_table_write_noted(&read, bench.note.stands, note, bench.note.length, again, counted - 1, &written)
       == KILN_FILE_OUTPUT_SHORT);
  HELD(kiln_table_write_noted(&read, bench.note.stands, note, bench.note.length, again, counted - HEAD - length,
                              &written) == KILN_FILE_OUTPUT_SHORT);
  HELD(written == 7 && nines(0));
  HELD(kiln_table_write_noted(&read, bench.note.stands, note, bench.note.length, again, counted, &written)
       == KILN_DONE);
  HELD(written == counted && nines(counted));
  HELD(note_put(file_of(form, form->active), length) == counted && !memcmp(again, file, counted));
}

/* "The controller's loader passes over it"; "after the controller's loader the note is gone". Saving after the bench
   loader has told none puts none either. */
static void dropped(const struct form *form, size_t length) {
  struct kiln_table read = unmade;
  size_t bare = file_of(form, form->active), whole = note_put(bare, length), written = 7;
  HELD(reads_as(form, whole, &read));
  memset(again, 9, sizeof again);
  HELD(kiln_table_write_file(&read, again, bare - 1, &written) == KILN_FILE_OUTPUT_SHORT && written == 7 && nines(0));
  HELD(kiln_table_write_file(&read, again, bare, &written) == KILN_DONE && written == bare);
  HELD(!memcmp(again, file, bare) && nines(bare));
  kiln_bench bench = kiln_table_load_bench(file, bare, room, &read);
  HELD(bench.code == KILN_DONE && !bench.note.stands);
  memset(again, 9, sizeof again);
  HELD(kiln_table_write_noted(&read, bench.note.stands, file + bench.note.offset, bench.note.length, again, bare,
                              &written) == KILN_DONE);
  HELD(written == bare && !memcmp(again, file, bare) && nines(bare));
}

/* "The writer takes a note or none": any number but 0 says that one is lent; with 0 what is lent is passed over. */
static void lent(const struct form *form) {
  struct kiln_table read = unmade;
  size_t bare = file_of(form, form->active), written = 7;
  HELD(reads_as(form, bare, &read));
  for (size_t length = 0; length < sizeof long_note; length += length < 70 ? 1 : 3001) {
    memset(again, 9, sizeof again);
    written = 7;
    HELD(kiln_table_write_noted(&read, 0, long_note, length, again, bare, &written) == KILN_DONE && written == bare);
    HELD(!memcmp(again, file, bare) && nines(bare));
  }
  HELD(kiln_table_write_noted(&read, 1, NULL, 0, again, bare + HEAD, &written) == KILN_DONE);
  HELD(written == bare + HEAD && again[bare] == 32 && !again[bare + 1] && !again[bare + 2] && nines(written));
  int same = 1;
  for (size_t noted = 1; noted < 256; noted++) {
    memset(again, 9, sizeof again);
    same &= !kiln_table_write_noted(&read, (uint8_t)noted, long_note, noted % 65, again, sizeof again, &written);
    same &= written == note_put(bare, noted % 65) && !memcmp(again, file, written) && nines(written);
  }
  HELD(same);
  /* What is only read may overlap: a note that is the table's own tree. */
  HELD(kiln_table_write_noted(&read, 1, read.tree, read.tree_len, again, sizeof again, &written) == KILN_DONE);
  HELD(written == bare + HEAD + read.tree_len && !memcmp(again + bare + HEAD, form->tree, read.tree_len));
}

/* A passive place: the last, or where level 3 is there the last of level 0, which is under it. */
static size_t passive_place(const struct form *form) {
  return (form->active[3] ? kiln_level_places(form->w, form->h, 0) : kiln_places(form->w, form->h)) - 1;
}

/* "a lent note above 64 bytes gives 14": after 1 to 5, before 18. */
static void above_64(const struct form *form) {
  static const size_t above[8] = {65, 66, 128, 256, 320, 32768, LONG, LONG + 64};
  struct kiln_table read = unmade, other;
  size_t bare = file_of(form, form->active), written = 7;
  HELD(reads_as(form, bare, &read));
  memset(again, 9, sizeof again);
  for (size_t k = 0; k < 8; k++) {
    HELD(kiln_table_write_noted(&read, 1, long_note, above[k], again, sizeof again, &written)
         == KILN_FILE_FIELD_LENGTH);
    HELD(kiln_table_write_noted(&read, 255, long_note, above[k], again, 0, &written) == KILN_FILE_FIELD_LENGTH);
  }
  HELD(kiln_table_write_noted(&read, 1, long_note, 64, again, 0, &written) == KILN_FILE_OUTPUT_SHORT);
  other = read, other.w = 9;
  HELD(kiln_table_write_noted(&other, 1, long_note, 65, again, 0, &written) == KILN_SIDE);
  other = read, other.tree_len = 0;
  HELD(kiln_table_write_noted(&other, 1, long_note, 65, again, 0, &written) == KILN_TREE);
  other = read, other.numbers_len--;
  HELD(kiln_table_write_noted(&other, 1, long_note, 65, again, 0, &written) == KILN_NUMBERS_LENGTH);
  numbers[passive_place(form)] = -1;
  HELD(kiln_table_write_noted(&read, 1, long_note, 65, again, 0, &written) == KILN_PASSIVE_NOT_ZERO);
  size_t second = 0;  /* the second active function of a level has 1 */
  while (numbers[second] != 1) second++;
  numbers[second] = INT64_C(8388608001);
  HELD(kiln_table_write_noted(&read, 1, long_note, 65, again, 0, &written) == KILN_COEFFICIENT_LIMIT);
  HELD(written == 7 && nines(0));
}

/* "After tag 19 a byte other than 32 is 15, and so is any byte past the note"; 12 and 14 of the field itself. */
static void in_byte_order(const struct form *form) {
  size_t bare = file_of(form, form->active);
  int same = 1;
  for (size_t first = 0; first < 256; first++)
    for (size_t left = 1; left <= 5; left++) {
      memset(file + bare, 0, 5);
      file[bare] = (uint8_t)first;
      enum kiln_refusal due = left < HEAD ? KILN_FILE_ENDS : left == HEAD ? KILN_DONE : KILN_FILE_GOES_ON;
      same &= refusal_of(bare + left) == (first == 32 ? due : KILN_FILE_GOES_ON);
    }
  HELD(same);
  /* The length is judged before the body is known to be whole. */
  for (size_t length = 0; length < LONG; length += length < 700 ? 1 : 131) {
    head_put(bare, 32, length);
    for (size_t left = HEAD; left <= HEAD + 67; left++) {
      enum kiln_refusal due = left < HEAD + length ? KILN_FILE_ENDS : KILN_FILE_GOES_ON;
      if (left == HEAD + length) due = KILN_DONE;
      if (length > 64) due = KILN_FILE_FIELD_LENGTH;
      if (length < 66 || left % 32 == HEAD) same &= refusal_of(bare + left) == due;
    }
  }
  HELD(same);
  for (size_t k = 0; k < 6; k++) {
    size_t whole = note_put(bare, lengths[k]);
    for (size_t cut = bare + 1; cut < whole; cut++) same &= refusal_of(cut) == KILN_FILE_ENDS;
    for (size_t next = 0; next < 256; next++) {
      file[whole] = (uint8_t)next;
      same &= refusal_of(whole) == KILN_DONE && refusal_of(whole + 1) == KILN_FILE_GOES_ON;
    }
    HELD(same && note_put(note_put(bare, lengths[k]), 0) == whole + HEAD);  /* two notes */
    HELD(refusal_of(whole + HEAD) == KILN_FILE_GOES_ON && refusal_of(whole) == KILN_DONE);
  }
}

/* A malformed note beside what comes before it, and a good one before 16 and 17; a refusal writes to no parameter. */
static void beside_other_causes(const struct form *form) {
  size_t places = kiln_places(form->w, form->h), bare = file_of(form, form->active), whole = note_put(bare, 64);
  size_t levels = after_tree(form) + HEAD + 8, first = 0, read = 7, w = 7, h = 7, offset = 7, size = 7;
  uint8_t noted = 7;
  while (!form->active[first]) first++;  /* the first level with a coefficient, after the heads of empty ones */
  for (size_t fault = 0; fault < 3; fault++) {  /* too long, cut, gone on */
    size_t end = fault == 0 ? whole : fault == 1 ? whole - 1 : whole + 1;
    enum kiln_refusal due = fault == 0 ? KILN_FILE_FIELD_LENGTH : fault == 1 ? KILN_FILE_ENDS : KILN_FILE_GOES_ON;
    file_of(form, form->active);
    note_put(bare, 64);
    if (fault == 0) file[bare + 2] = 65;
    HELD(refusal_of(end) == due);
    room_filled();
    HELD(kiln_read_bench(file, end, tree, 0, numbers, places - 1, &read, &w, &h, &noted, &offset, &size) == due);
    HELD(room_untouched());
    file[levels + HEAD * (first + 1)] = 127;
    HELD(refusal_of(end) == KILN_COEFFICIENT_LIMIT);
    file[levels] = 32;
    HELD(refusal_of(end) == KILN_FILE_TAG);
    file[after_tree(form) + HEAD]++;
    HELD(refusal_of(end) == KILN_FILE_COUNT);
    file[3] = 0;
    HELD(refusal_of(end) == KILN_SIDE);
  }
  file_of(form, form->active);
  note_put(bare, 64);
  room_filled();
  HELD(kiln_read_bench(file, whole, tree, 0, numbers, places - 1, &read, &w, &h, &noted, &offset, &size)
       == KILN_OUTPUT_LENGTH);
  HELD(kiln_read_bench(file, whole, tree, form->tree_len - 1, numbers, places, &read, &w, &h, &noted, &offset, &size)
       == KILN_TREE_OUTPUT_SHORT);
  HELD(read == 7 && w == 7 && h == 7 && noted == 7 && offset == 7 && size == 7 && room_untouched());
  kiln_bench longer = kiln_load_bench(file, whole, tree, sizeof tree, numbers, places + 1);
  kiln_bench shorter = kiln_load_bench(file, whole, tree, form->tree_len - 1, numbers, places);
  kiln_bench none = kiln_load_bench(NULL, 0, NULL, 0, NULL, 0);
  HELD(nothing_but(&longer, KILN_OUTPUT_LENGTH) && nothing_but(&shorter, KILN_TREE_OUTPUT_SHORT));
  HELD(nothing_but(&none, KILN_FILE_ENDS) && room_untouched());
}

/* The header's sizes: no file is longer, and one byte more than that judges any input. */
static void sizes(void) {
  HELD(KILN_NOTE_BYTES == 64 && KILN_FILE_BYTES == 32443);
  HELD(KILN_FILE_BYTES == 8 * 3 + 2 + KILN_TREE_BYTES + 8 + 5 * KILN_PLACES + KILN_NOTE_BYTES);
  for (size_t k = 0; k < 6; k++) {
    size_t whole = note_put(file_of(&forms[MIXED], forms[MIXED].active), lengths[k]);
    memset(file + whole, 32, sizeof file - whole);
    HELD(refusal_of(KILN_FILE_BYTES + 1) == KILN_FILE_GOES_ON && refusal_of(sizeof file) == KILN_FILE_GOES_ON);
  }
  HELD(KILN_FILE_FIELD_LENGTH == 14 && !strcmp(kiln_refusal_words(14), "field length wrong"));
}

int main(void) {
  for (size_t k = 0; k < sizeof long_note; k++) long_note[k] = note_byte(k);
  for (size_t k = 0; k < FORMS; k++) {
    for (size_t length = 0; length <= KILN_NOTE_BYTES; length++) {
      told(&forms[k], file_of(&forms[k], length % 2 ? forms[k].active : NULL), length);
      dropped(&forms[k], length);
    }
    for (size_t n = 0; n < 6; n++) {
      kept(&forms[k], forms[k].active, lengths[n]);
      kept(&forms[k], NULL, lengths[n]);
    }
    told_none(&forms[k], file_of(&forms[k], forms[k].active));
    told_none(&forms[k], file_of(&forms[k], NULL));
    lent(&forms[k]);
    above_64(&forms[k]);
    beside_other_causes(&forms[k]);
  }
  in_byte_order(&forms[0]);
  in_byte_order(&forms[2]);
  sizes();
  return all_held("notes in files");
}
