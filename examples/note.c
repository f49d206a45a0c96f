/* A test stand loads a table file and shows its note, inserts a box and saves the finer table to another file with the
   note kept, or with the one that is named. A controller loads that file: the figures are the same, and what it would
   save has no note.

   cc -Iinclude examples/note.c target/staticlib/libkiln.a -o note
   ./note tables/kiln-unrefined.table noted.table 'Kiln 7, new elements'
   ./note noted.table finer.table */
#include "kiln_table.h"

#include <stdio.h>
#include <string.h>

/* The note that was loaded is a part of file, so that what is saved has a buffer of its own. */
static uint8_t file[KILN_FILE_BYTES + 1], saved[KILN_FILE_BYTES];
static uint8_t tree[KILN_TREE_BYTES], finer_tree[KILN_TREE_BYTES];
static int64_t numbers[KILN_PLACES], finer_numbers[KILN_PLACES];
static const struct kiln_room room = {tree, KILN_TREE_BYTES, numbers, KILN_PLACES};
static const struct kiln_room finer_room = {finer_tree, KILN_TREE_BYTES, finer_numbers, KILN_PLACES};

/* Whether the file of this name was read; its length, of at most one byte more than any that is accepted. */
static int get(const char *name, size_t *length) {
  FILE *in = fopen(name, "rb");
  int good = in != NULL;
  if (in) {
    *length = fread(file, 1, sizeof file, in);
    good = !ferror(in);
    fclose(in);
  }
  if (!good) fprintf(stderr, "note: '%s' can't be read\n", name);
  return good;
}

/* Whether so many bytes were written to the file of this name. */
static int put(const char *name, size_t length) {
  FILE *out = fopen(name, "wb");
  int good = out != NULL;
  if (out) {
    good = fwrite(saved, 1, length, out) == length;
    if (fclose(out)) good = 0;
  }
  if (!good) fprintf(stderr, "note: '%s' can't be written\n", name);
  return good;
}

/* Prints watts and cost at the point (900, 200) of a table, at 29.50 cents per kWh; the refusal number. */
static uint8_t show(const char *when, const struct kiln_table *table) {
  const struct kiln_point point = {900, 200};
  double watts;
  size_t cost;
  uint8_t refused = kiln_table_watts(table, point, &watts);
  if (!refused) refused = kiln_table_cost(table, point, 2950, &cost);
  if (!refused) printf("%s: %.6f watts, %zu hundredths of a cent an hour\n", when, watts, cost);
  return refused;
}

/* Prints the note of a file. It may be of any bytes: the backslash, and those that are no letters, digits, signs or
   spaces of ASCII, show as \x7f does. */
static void show_note(const uint8_t *of, kiln_note note) {
  if (!note.stands) {
    printf("note: none\n");
    return;
  }
  printf("note: '");
  for (const uint8_t *byte = of + note.offset; byte < of + note.offset + note.length; byte++) {
    if (*byte >= ' ' && *byte <= '~' && *byte != '\\') printf("%c", *byte);
    else printf("\\x%02x", *byte);
  }
  printf("', %zu bytes\n", note.length);
}

/* What the stand does with a file of so many bytes: it saves the finer table, with another note if one is named. */
static uint8_t refined(size_t file_len, const char *named, size_t *saved_len) {
  const struct kiln_box box = {28, 4, 32, 8};
  struct kiln_table table, finer;
  kiln_bench bench = kiln_table_load_bench(file, file_len, room, &table);
  if (bench.code) return bench.code;
  show_note(file, bench.note);
  uint8_t refused = show("loaded", &table);
  if (!refused) refused = kiln_table_insert(&table, box, 3, finer_room, &finer);
  if (refused) return refused;
  if (named) return kiln_table_write_noted(&finer, 1, (const uint8_t *)named, strlen(named), saved, sizeof saved,
                                           saved_len);
  return kiln_table_write_noted(&finer, bench.note.stands, file + bench.note.offset, bench.note.length, saved,
                                sizeof saved, saved_len);
}

/* What a controller makes of the file that it was sent. */
static uint8_t loaded_by_controller(size_t file_len) {
  struct kiln_table table;
  size_t saved_len;
  uint8_t refused = kiln_table_read_file(file, file_len, room, &table);
  if (!refused) refused = show("controller", &table);
  if (!refused) refused = kiln_table_write_file(&table, saved, sizeof saved, &saved_len);
  if (refused) return refused;
  printf("saved by the controller: %zu bytes\n", saved_len);
  kiln_bench bench = kiln_table_load_bench(saved, saved_len, room, &table);
  if (!bench.code) show_note(saved, bench.note);
  return bench.code;
}

int main(int argc, char **argv) {
  size_t length;
  if (argc != 3 && argc != 4) {
    fprintf(stderr, "note: a table file, a name for the finer one and, if it is to be another, a note are needed\n");
    return 255;
  }
  if (!get(argv[1], &length)) return 255;
  uint8_t refused = refined(length, argc == 4 ? argv[3] : NULL, &length);
  if (!refused) {
    if (!put(argv[2], length)) return 255;
    printf("saved: %zu bytes\n", length);
    if (!get(argv[2], &length)) return 255;
    struct kiln_table sent;
    kiln_bench bench = kiln_table_load_bench(file, length, finer_room, &sent);
    if (!bench.code) show_note(file, bench.note);
    refused = bench.code ? bench.code : loaded_by_controller(length);
  }
  if (refused) printf("refused %d\n", refused);
  return refused;
}
