/* The fixed numbers of the kiln power surface, the lengths of a table's slices and of a grid, what a table file says
   of itself and the quarter that holds a place, for C and C++. No function here makes a call. The words are those of
   kiln.h, which includes this header: a program need not name it. */
#ifndef KILN_SIZES_H
#define KILN_SIZES_H

#include <stddef.h>
#include <stdint.h>

/* No tree is longer: a tree output of this length is never too short. */
#define KILN_TREE_BYTES 1365

/* The places of an 8 by 8 sheet, the greatest number of coefficients. */
#define KILN_PLACES 6196

/* No note is longer, in bytes. */
#define KILN_NOTE_BYTES 64

/* No file that is accepted or written is longer: the fields' eight heads, the sides, the longest tree, eight bytes of
   counts, five for each place and the longest note. A file output of this length is never too short. A longer file is
   refused with the same number when only its first KILN_FILE_BYTES + 1 bytes are lent. */
#define KILN_FILE_BYTES 32443

/* No grid that is accepted or written is longer: two heads, the sides and five bytes for each level 3 place of an 8
   by 8 sheet. A grid output of this length is never too short. A longer grid is refused with the same number when only
   its first KILN_GRID_BYTES + 1 bytes are lent. */
#define KILN_GRID_BYTES 22453

/* D = 36 * 2^42: an exact reading of x watts has the numerator x * D. */
#define KILN_DENOMINATOR INT64_C(158329674399744)

/* No cost is greater, in hundredths of a cent per hour: 32,000 watts at a tariff of 99,999. */
#define KILN_GREATEST_COST 3199968

/* No exact slope is greater in size, in watts per eighth of a cell: one and a half times 32,000 watts. */
#define KILN_GREATEST_SLOPE 48000

/* No window over records has more places: a day of minutes. */
#define KILN_WINDOW_PLACES 1440

/* No record that a window takes is greater in size, in whole watts. */
#define KILN_GREATEST_RECORD 32000

/* The places of one level of a w by h sheet: the length of kiln_activity's output. 0 for a side that is not 1 to 8 or
   a level that is not 0 to 3, which the calls refuse with another number. */
static inline size_t kiln_level_places(size_t w, size_t h, size_t level) {
  if (w < 1 || w > 8 || h < 1 || h > 8 || level > 3) return 0;
  return ((w << level) + 3) * ((h << level) + 3);
}

/* The places of a w by h sheet: the length of its coefficient slice. 0 for a side that is not 1 to 8. */
static inline size_t kiln_places(size_t w, size_t h) {
  return kiln_level_places(w, h, 0) + kiln_level_places(w, h, 1) + kiln_level_places(w, h, 2)
    + kiln_level_places(w, h, 3);
}

/* The places of the sheet of a table file, whose sides are its bytes 3 and 4: the length of the numbers output that
   kiln_read_file and kiln_read_bench need. 0 where the file is too short to have sides or they are not 1 to 8, which
   is refused with another number. */
static inline size_t kiln_file_places(const uint8_t *file, size_t file_len) {
  return file_len < 5 ? 0 : kiln_places(file[3], file[4]);
}

/* The length in bytes of the grid of a w by h sheet, which kiln_write_grid's output must have at least: two heads, the
   sides and five bytes for each place of level 3. 0 for a side that is not 1 to 8, which is refused with another
   number. */
static inline size_t kiln_grid_length(size_t w, size_t h) {
  size_t places = kiln_level_places(w, h, 3);
  return places ? 3 + 2 + 3 + 5 * places : 0;
}

/* The places of the sheet of a grid, whose sides are its bytes 3 and 4: the length of the numbers output that
   kiln_read_grid needs. 0 where the grid is too short to have sides or they are not 1 to 8, which is refused with
   another number. */
static inline size_t kiln_grid_places(const uint8_t *grid, size_t grid_len) {
  return kiln_file_places(grid, grid_len);
}

/* How many functions of each level are active, as a table file says it, without loading the file. Returns 1 and writes
   the counts of levels 0 to 3 where a field of tag 3 and length 8 stands whole after the tree's field of tag 2, which
   starts at byte 5; else, as for a file without counts, returns 0 and writes nothing. Any bytes may be lent.

   With n = 256*file[6] + file[7], the tree's length, file[8 + n] is 3 in a file that has counts, and the count of level
   L is 256*file[11 + n + 2*L] + file[12 + n + 2*L].

   This tells what the file says and judges nothing else of it. That the counts are those of the tree is known of a file
   that kiln_read_file accepts, which refuses a wrong count with 20. */
static inline int kiln_file_counts(const uint8_t *file, size_t file_len, size_t counts[4]) {
  if (file_len < 8 || file[5] != 2) return 0;
  size_t field = 8 + 256 * (size_t)file[6] + file[7];
  if (file_len < field + 11 || file[field] != 3 || file[field + 1] != 0 || file[field + 2] != 8) return 0;
  for (size_t level = 0; level < 4; level++) {
    const uint8_t *count = file + field + 3 + 2 * level;
    counts[level] = 256 * (size_t)count[0] + count[1];
  }
  return 1;
}

/* The quarter that holds a place along a side of the sheet, counted from 0: on an edge that two quarters share the
   later one, and at the far edge the last. So kiln_quarter(w, u) and kiln_quarter(h, v) are the low corner of the
   quarter square that holds a point, and one more each the high corner.

   side    w or h, 1 to 8
   steps   u or v; where it is past the far edge the quarter is past the sheet, and a box with it is refused with 7 */
static inline size_t kiln_quarter(size_t side, size_t steps) {
  return steps == 128 * side ? 4 * side - 1 : steps / 32;
}

#endif
