/* Reads the watts of a firing off a table, one point a minute, keeps a window over them and tells what it holds at the
   end: the energy of the last minutes, and the least and the greatest watts among them.

   cc -Iinclude examples/window.c target/staticlib/libkiln.a -o window
   ./window tables/kiln-refined-near-top-heat.table 3 880 200 890 200 900 200 910 200

   The window of the second line has three places: it ends with the last three of the four minutes.

   Exits with 0, or with the refusal number, which is shown with its words; with 255 where an argument is no such thing,
   the file can't be read or the output can't be written. */
#include "kiln_table.h"

#include <errno.h>
#include <inttypes.h>
#include <stdio.h>
#include <stdlib.h>
#include <string.h>

static uint8_t file[KILN_FILE_BYTES + 1], tree[KILN_TREE_BYTES];
static int64_t numbers[KILN_PLACES];
static int32_t records[KILN_WINDOW_PLACES + 1];  /* a place more than any window has, so that too many are refused */

/* Whether the text is a whole number that fits; a sign, a point or a space is none of it. */
static int number_of(const char *name, const char *text, size_t *number) {
  size_t digits = strspn(text, "0123456789");
  unsigned long long value = 0;
  errno = 0;
  if (digits && !text[digits]) value = strtoull(text, NULL, 10);
  if (!digits || text[digits] || errno || value > SIZE_MAX) {
    fprintf(stderr, "window: %s is '%s', not a whole number from 0 to %zu\n", name, text, (size_t)SIZE_MAX);
    return 0;
  }
  *number = (size_t)value;
  return 1;
}

/* The file's length, of at most one byte more than any that is accepted; SIZE_MAX where it can't be read. */
static size_t length_of(const char *name) {
  FILE *in = fopen(name, "rb");
  size_t length = SIZE_MAX;
  if (in) {
    length = fread(file, 1, sizeof file, in);
    if (ferror(in)) length = SIZE_MAX;
  }
  if (length == SIZE_MAX) fprintf(stderr, "window: the table file '%s' can't be read: %s\n", name, strerror(errno));
  if (in) fclose(in);
  return length;
}

/* Prints watt minutes as watt hours, exactly, such as 3, 2/60 or -1 30/60. */
static void print_hours(int64_t total) {
  int64_t size = total < 0 ? -total : total;  /* at most 1,440 times 32,000 */
  if (total < 0) printf("-");
  if (size >= 60 || !size) printf("%" PRId64, size / 60);
  if (size >= 60 && size % 60) printf(" ");
  if (size % 60) printf("%" PRId64 "/60", size % 60);
}

/* Prints what the window holds; the refusal number. */
static uint8_t show(size_t places, size_t held, size_t oldest) {
  int64_t total;
  uint8_t missing;
  int32_t least, greatest;
  uint8_t refused = kiln_window_figures(records, places, held, oldest, &total, &missing, &least, &greatest);
  if (refused) return refused;
  printf("held:     %zu of %zu\n", held, places);
  printf("total:    %" PRId64 " watt minutes = ", total);
  print_hours(total);
  printf(" watt hours\n");
  if (missing) {
    printf("no record is held\n");
    return 0;
  }
  printf("least:    %" PRId32 " watts\n", least);
  printf("greatest: %" PRId32 " watts\n", greatest);
  return 0;
}

/* Adds the watts at each point, given as u and v, to a window that starts empty, and prints each minute and what is
   held in the end; the refusal number. */
static uint8_t fired(const struct kiln_table *table, size_t places, char **points, size_t minutes) {
  size_t held = 0, oldest = 0;
  int64_t watts, total;
  uint8_t missing;
  int32_t least, greatest;
  /* Asked for its judgement alone: a window of no places or of too many is told before the first minute. */
  uint8_t refused = kiln_window_figures(records, places, held, oldest, &total, &missing, &least, &greatest);
  for (size_t k = 0; k < minutes && !refused; k++) {
    struct kiln_point point;
    point.u = (size_t)strtoull(points[2 * k], NULL, 10);  /* known to be a number, as V is */
    point.v = (size_t)strtoull(points[2 * k + 1], NULL, 10);
    refused = kiln_table_display(table, point, &watts);
    if (!refused) refused = kiln_add_record(records, places, &held, &oldest, watts);
    if (!refused) printf("minute %zu: u %zu, v %zu: %" PRId64 " watts\n", k + 1, point.u, point.v, watts);
  }
  return refused ? refused : show(places, held, oldest);
}

int main(int argc, char **argv) {
  struct kiln_room room = {tree, KILN_TREE_BYTES, numbers, KILN_PLACES};
  struct kiln_table table;
  size_t length, places = 0, number;
  uint8_t refused;
  if (argc < 3 || argc % 2 == 0) {
    fprintf(stderr, "window: two arguments are needed, and two for each minute: TABLE PLACES [U V]...\n"
                    "  TABLE    a table file\n"
                    "  PLACES   how many minutes the window holds, 1 to 1440\n"
                    "  U, V     a minute's point, in steps of 1/128 cell: U along temperature, V along climb rate\n");
    return 255;
  }
  if (!number_of("PLACES", argv[2], &places)) return 255;
  for (int k = 3; k < argc; k++)
    if (!number_of(k % 2 ? "U" : "V", argv[k], &number)) return 255;
  length = length_of(argv[1]);
  if (length == SIZE_MAX) return 255;
  refused = kiln_table_read_file(file, length, room, &table);
  if (!refused) {
    printf("sheet:    %zu by %zu cells, u 0 to %zu, v 0 to %zu\n", table.w, table.h, 128 * table.w, 128 * table.h);
    printf("places:   %zu\n", places);
    /* No more places than there are may be lent; one above the limit is refused as more are. */
    if (places > KILN_WINDOW_PLACES) places = KILN_WINDOW_PLACES + 1;
    refused = fired(&table, places, argv + 3, (size_t)(argc - 3) / 2);
  }
  if (refused) printf("refused %d: %s\n", refused, kiln_refusal_words(refused));
  if (fflush(stdout) || ferror(stdout)) {
    fprintf(stderr, "window: the output can't be written\n");
    return 255;
  }
  return refused;
}
