/* The kiln power surface: the library's calls, for C and C++.

   Power draw over chamber temperature and climb rate is a surface of truncated hierarchical bicubic splines on a sheet
   of W by H cells. The calls make, load, refine, read and save tables of such a surface, and keep a window over the
   last hours of a firing. `tools/archive.sh` writes the library to target/staticlib/libkiln.a, for x86-64. It needs
   memcpy and memset and nothing else.

   Headers
     There are seven, in one folder. This one includes kiln_sizes.h, the fixed numbers and the lengths of slices,
     kiln_refusal.h, the refusal numbers 1 to 21 and their words, kiln_grid.h, the two calls for plain bicubic grids,
     and kiln_window.h, the two calls for a window over records and their numbers, 22 and 23. kiln_table.h has the
     calls for tables again, with a table, a box and a slip in structs, and kiln_arrow.h an arrow for the display. The
     calls are proved; the static inline functions in the headers are plain C, which is tested and not proved.

   Answers
     Every call returns 0 when it is done, else the refusal number of the cause that applies, the lowest where several
     do, but 19 and 21 before 16 and 17; a file is judged in byte order, and so is a grid, before the tree that is lent
     with it (enum kiln_refusal; kiln_refusal_words). Each call names those that it can give. What it gives beside is
     written through its pointers. A refused call writes nothing: every buffer and every value that was lent holds what
     it held before. Every call ends in one of the two, whatever the numbers and the contents of the buffers are.

   Slices
     A buffer passes as a pointer and, right after it, a length in elements. The length is taken as said: that many
     elements must be there, aligned as their type is. An empty slice (length 0) may have any pointer, NULL too. A
     pointer without a length after it is for a single value that the call writes, but slip_active, which is for exactly
     four, one for each of the levels 0 to 3; neither may be NULL. What an output holds before the call does not matter,
     but two calls write a part of what they are lent: kiln_set also reads its numbers, and kiln_add_record its held
     and oldest; what stands at the other places of the slice stays.

   Overlap
     Whatever a call writes must not overlap anything else that it is lent. So a commit writes another table and
     never the one that it reads. Slices that a call only reads (const) may overlap each other.

   Threads, stack and memory
     The library has no state: what a call does depends on what it is lent and on nothing else. Any number of calls may
     run at a time as long as none writes what another reads or writes; what is only read may be shared between
     threads. No call allocates, takes a lock or touches a file. None takes more than 8 KiB of stack, but
     kiln_read_grid, which takes up to 20 KiB; this is measured by the benchmark and held by the gate, not proved. */
#ifndef KILN_H
#define KILN_H

#include "kiln_grid.h"
#include "kiln_refusal.h"
#include "kiln_sizes.h"
#include "kiln_window.h"

#include <stddef.h>
#include <stdint.h>

#ifdef __cplusplus
extern "C" {
#endif

/* The version of this header, which is that of the library it came with. The archive itself carries none: compile a
   program with the header of the archive that it links. */
#define KILN_VERSION_MAJOR 0
#define KILN_VERSION_MINOR 10
#define KILN_VERSION_PATCH 0

/* The table

   A table is a sheet, a tree and a coefficient slice. It is acceptable when none of the causes 1 to 5 applies to it.

   w, h: the sheet is w by h cells of level 0, each side 1 to 8. Levels are 0 to 3, and each one halves the cells. w
   and u run along the chamber temperature, h and v along the climb rate. How many degrees a cell is, where the first
   one begins and how a temperature or a rate is rounded to a step is the controller's to say: neither a table nor its
   file carries a scale.

   tree: the regions. A quarter is a quarter of a level 0 cell's side; each square one quarter on a side has a level 0
   to 3. The tree covers 32 by 32 quarters from the sheet's corner and is written parent first: bytes 0 to 3 are a leaf
   of that level, byte 4 a split followed by its south-west, south-east, north-west and north-east children (west is
   small u, south small v). A single quarter can't split, four children that are equal leaves are not allowed, and
   squares beyond the sheet have level 0. So one set of regions has one tree, of 1 to 1,365 bytes. A lent tree ends
   with its slice: pass the tree's own length, not that of the buffer that it stands in.

   numbers: the coefficients, kiln_places(w, h) of them: level 0 first, then 1, 2, 3; in a level j rises, within a row
   i rises. In level L both i and j start at -3; i ends at w*2^L - 1 and j at h*2^L - 1, so a row has w*2^L + 3 places
   and there are h*2^L + 3 rows. A level L coefficient is a signed whole number of 1/64^L watt, at most 32,000*64^L in
   size. The support of function (i, j) is four by four cells of its level, from cell edge i to i + 4 along u and from
   j to j + 4 along v, cut to the sheet. A function is active when the least level under its support is its own: the
   least of all squares that share area with it, also where a level 3 edge halves one. Passive places hold 0.

   u, v: a point, in steps of 1/128 cell of level 0: 0 to 128*w and 0 to 128*h, far edges included. The quarter square
   that holds it is on a shared edge the one of greater u, or of greater v, at a corner of both; at a far edge it is the
   last (kiln_quarter).

   u0, v0, u1, v1: a box, two corners in whole quarters, low corner first: u0 < u1 <= 4*w and v0 < v1 <= 4*h.

   A negative number that C turns into a size_t is far above every limit and is refused with its cause's number. */

/* Judges a table: 0 for an acceptable one, else the lowest of the causes 1 to 5 that applies. Writes nothing.

   w, h, tree, numbers   the table; any contents and lengths

   Every other call that takes a table makes this check itself. */
uint8_t kiln_table_cause(size_t w, size_t h, const uint8_t *tree, size_t tree_len, const int64_t *numbers,
                         size_t numbers_len);

/* The least and the greatest level under a box, with the number of tree nodes visited: the root, and each child of a
   visited split whose square shares area with the box. The greatest level is found from the same visited nodes as the
   least, and comes with the same count.

   A display may draw a dot where a table is refined under a point: there the greatest level under the quarter square
   that holds the point (kiln_quarter) is above 0. examples/dot.c has it whole.

   w, h, tree       the sheet and its tree
   u0, v0, u1, v1   the box
   least            receives the least level, 0 to 3
   greatest         receives the greatest level, from the least to 3
   visited          receives the number of nodes

   Refusals: 1, 2, 7. A refusal leaves least, greatest and visited as they were.

   greatest is new in 0.5.0, before visited, and least was called level. A program compiled with an earlier header still
   links, and its call is undefined: it must be compiled anew. */
uint8_t kiln_least_level(size_t w, size_t h, const uint8_t *tree, size_t tree_len, size_t u0, size_t v0, size_t u1,
                         size_t v1, uint8_t *least, uint8_t *greatest, size_t *visited);

/* The activity of a level: one byte for each of its places, in the order of the coefficients, 1 for an active function
   and 0 for a passive one.

   w, h, tree   the sheet and its tree
   level        0 to 3
   out          receives the bytes; its length must be kiln_level_places(w, h, level)

   Refusals: 1, 2, 8, 16. A refusal leaves out as it was. */
uint8_t kiln_activity(size_t w, size_t h, const uint8_t *tree, size_t tree_len, size_t level, uint8_t *out,
                      size_t out_len);

/* A fresh table: the tree is the one byte 0, all level 0 coefficients are one number and all other places 0.

   w, h          the sheet
   number        whole watts, -32,000 to 32,000
   tree_out      receives the tree; 1 byte or longer, and what is past the tree is untouched
   numbers_out   receives the coefficients; its length must be kiln_places(w, h)
   length        receives the tree's length, 1

   Refusals: 1, 10, 16, 17. A refusal leaves tree_out, numbers_out and length as they were. */
uint8_t kiln_fresh(size_t w, size_t h, int64_t number, uint8_t *tree_out, size_t tree_out_len, int64_t *numbers_out,
                   size_t numbers_out_len, size_t *length);

/* Enquires what the insertion of a box would make of a table, so that its price can be looked at before the box is
   accepted. Nothing is inserted; what is given is a slip: the box and the level that were asked for, and what is told
   here of the new tree, the one that kiln_commit then writes. The table's coefficients have no part in a slip.

   w, h, tree, numbers   the table; it is not changed
   u0, v0, u1, v1        the box
   level                 1 to 3
   slip_length           receives the new tree's length
   slip_active           receives four numbers: how many functions of levels 0 to 3 are active over the new tree
   slip_visited          receives the number of tree nodes that kiln_least_level over the box visits in the new tree

   Refusals: 1 to 5, 7, 8. A refusal leaves slip_length, slip_active and slip_visited as they were. */
uint8_t kiln_enquire(size_t w, size_t h, const uint8_t *tree, size_t tree_len, const int64_t *numbers,
                     size_t numbers_len, size_t u0, size_t v0, size_t u1, size_t v1, size_t level,
                     size_t *slip_length, size_t *slip_active, size_t *slip_visited);

/* Inserts the box of a slip: each square in it gets the greater of its old level and the slip's, and the coefficients
   are carried over, so that the exact reading at every point of the sheet stays what it was. Reads one table and writes
   another, whose tree is as the slip told.

   A slip serves for each table that itself gives the same one for that box and level, whichever table gave it. So it
   serves after kiln_set, and for the table that its own commit wrote, whose tree it leaves as it is. It no longer
   serves once another insertion has changed what it tells: enquire anew.

   w, h, tree, numbers   the table that is read; it is not changed
   u0, v0, u1, v1        the slip's box
   level                 the slip's level
   slip_length           the new tree's length, as kiln_enquire told it
   slip_active           four numbers: the active functions of levels 0 to 3, as told; they are not changed
   slip_visited          the nodes visited, as told
   tree_out              receives the new tree; as long as the new tree or longer (slip_length and KILN_TREE_BYTES are),
                         and what is past the tree is untouched
   numbers_out           receives the new coefficients; its length must be kiln_places(w, h)
   length                receives the new tree's length

   Refusals: 1 to 5, 7 and 8 for the slip's box and level, 19 for a slip that is not the one that this table gives for
   them, then 16, 17. A refusal leaves tree_out, numbers_out and length as they were. */
uint8_t kiln_commit(size_t w, size_t h, const uint8_t *tree, size_t tree_len, const int64_t *numbers,
                    size_t numbers_len, size_t u0, size_t v0, size_t u1, size_t v1, size_t level, size_t slip_length,
                    const size_t *slip_active, size_t slip_visited, uint8_t *tree_out, size_t tree_out_len,
                    int64_t *numbers_out, size_t numbers_out_len, size_t *length);

/* Inserts a box that no one has to accept first: kiln_enquire, and then kiln_commit with its slip, so that the table is
   judged twice. The parameters are those of the two, and the box, the level and the outputs are as said there.

   Refusals: 1 to 5, 7, 8, 16, 17. A refusal leaves tree_out, numbers_out and length as they were.

   Before 0.8.0 this was a call of the archive, which has it no more: a program compiled with an earlier header does not
   link if it inserts. Its source does with this one, unchanged. */
static inline uint8_t kiln_insert(size_t w, size_t h, const uint8_t *tree, size_t tree_len, const int64_t *numbers,
                                  size_t numbers_len, size_t u0, size_t v0, size_t u1, size_t v1, size_t level,
                                  uint8_t *tree_out, size_t tree_out_len, int64_t *numbers_out,
                                  size_t numbers_out_len, size_t *length) {
  size_t slip_length = 0, slip_active[4] = {0, 0, 0, 0}, slip_visited = 0;
  uint8_t refused = kiln_enquire(w, h, tree, tree_len, numbers, numbers_len, u0, v0, u1, v1, level, &slip_length,
                                 slip_active, &slip_visited);
  if (refused) return refused;
  return kiln_commit(w, h, tree, tree_len, numbers, numbers_len, u0, v0, u1, v1, level, slip_length, slip_active,
                     slip_visited, tree_out, tree_out_len, numbers_out, numbers_out_len, length);
}

/* Sets one active coefficient and writes its one place.

   w, h, tree   the table's sheet and tree
   numbers      the table's coefficients, of which one is written
   level        the function's level, 0 to 3
   i, j         the function, each from -3
   number       the coefficient in units of 1/64^level watt, at most 32,000*64^level in size

   Refusals: 1 to 5, 8, 9, 10. A refusal leaves numbers as they were. */
uint8_t kiln_set(size_t w, size_t h, const uint8_t *tree, size_t tree_len, int64_t *numbers, size_t numbers_len,
                 size_t level, int64_t i, int64_t j, int64_t number);

/* The exact reading at a point: what the active coefficients times their truncated functions add up to.
   How far a table is refined at the point affects only how long a reading takes, not the figure.

   w, h, tree, numbers   the table
   u, v                  the point
   numerator             receives the watts as a numerator over KILN_DENOMINATOR

   Refusals: 1 to 6. A refusal leaves numerator as it was. */
uint8_t kiln_exact(size_t w, size_t h, const uint8_t *tree, size_t tree_len, const int64_t *numbers,
                   size_t numbers_len, size_t u, size_t v, int64_t *numerator);

/* The reading at a point as a double, which lies within 2^-30 watt of the exact one. Doubles must be rounded to
   nearest, as they are unless a program says otherwise.

   The figure for people is kiln_display's. This one rounded to whole watts can be a watt off it: where the exact
   reading is one numerator below 500.5 watts the display is 500, and the double is 500.5, which rounds to 501.

   w, h, tree, numbers   the table
   u, v                  the point
   watts                 receives the watts; neither an infinity nor NaN

   Refusals: 1 to 6. A refusal leaves watts as they were. */
uint8_t kiln_watts(size_t w, size_t h, const uint8_t *tree, size_t tree_len, const int64_t *numbers,
                   size_t numbers_len, size_t u, size_t v, double *watts);

/* The watts at a point and both slopes there, for an arrow that shows whether a hotter or a quicker climb costs more. A
   slope is the derivative of the surface in watts per eighth of a cell: the change of the watts over an eighth of a
   level 0 cell, 16 steps, at the rate that they have at the point, negative where they fall. At a far edge the last
   cell's polynomial counts. Doubles must be rounded to nearest, as for kiln_watts. kiln_arrow.h has the three in one
   struct, and tells what the arrow says.

   w, h, tree, numbers   the table
   u, v                  the point
   watts                 receives the watts, within 2^-30 watt of the exact reading
   along_u               receives the slope along u, hotter, within 2^-20 of the exact one
   along_v               receives the slope along v, quicker, within 2^-20 of the exact one
                         (none of the three is an infinity or NaN)

   Refusals: 1 to 6. A refusal leaves watts, along_u and along_v as they were. */
uint8_t kiln_slopes(size_t w, size_t h, const uint8_t *tree, size_t tree_len, const int64_t *numbers,
                    size_t numbers_len, size_t u, size_t v, double *watts, double *along_u, double *along_v);

/* The figure for the display: the exact watts rounded to the nearest whole number, halves upward, also below zero
   (-0.5 gives 0 and -1.5 gives -1).

   w, h, tree, numbers   the table
   u, v                  the point
   watts                 receives the whole watts

   Refusals: 1 to 6. A refusal leaves watts as they were. */
uint8_t kiln_display(size_t w, size_t h, const uint8_t *tree, size_t tree_len, const int64_t *numbers,
                     size_t numbers_len, size_t u, size_t v, int64_t *watts);

/* The cost per hour: the exact watts times the tariff over 1,000, rounded once, to the nearest whole number, halves
   upward; 0 for exact watts of 0 or less. The display's whole watts have no part in it: 31/64 watt shows as 0 and at
   99,999 costs 48.

   Versions before 0.6.0 took the display's whole watts in place of the exact ones.

   w, h, tree, numbers   the table
   u, v                  the point
   tariff                hundredths of a cent per kWh, 0 to 99,999
   cost                  receives hundredths of a cent per hour, at most KILN_GREATEST_COST

   Refusals: 1 to 6, 11. A refusal leaves cost as it was. */
uint8_t kiln_cost(size_t w, size_t h, const uint8_t *tree, size_t tree_len, const int64_t *numbers,
                  size_t numbers_len, size_t u, size_t v, size_t tariff, size_t *cost);

/* Reads a table file, as a controller does: the note is passed over. The file has fields of a one-byte tag, a two-byte
   length (high byte first) and a body, in this order, all present but tag 3's, which older files lack, and tag 32's,
   which any may lack: tag 1, W and H, a byte each; tag 2, the tree; tag 3, how many functions of levels 0 to 3 are
   active, two bytes each, high byte first, so of length 8; tags 16 to 19, the active coefficients of levels 0 to 3 in
   slice order, five bytes each, two's complement, high byte first; tag 32, a note, 0 to 64 bytes of any kind. What is
   read is an acceptable table, the same with the counts as without, and with a note, with another and with none.

   file          the whole file, any bytes
   tree_out      receives the tree; as long as the tree or longer (KILN_TREE_BYTES always is), and what is past the
                 tree is untouched
   numbers_out   receives the coefficients; its length must be kiln_file_places(file, file_len)
   length        receives the tree's length
   w, h          receive the sheet's sides

   Refusals: 1, 2, 4, 12 to 17, 20, not the lowest but the first in byte order: for each field 12 for a head that is
   not whole, 13, 14, 12 for a body that is not whole, then 1, 2, 20 or 4 for the contents of sides, tree, counts or
   coefficients. After the tree a tag of 3 or 16 is due, and 20 is for a count that is not the tree's. After tag 19's
   field the file ends or the note's comes: 15 is for a first byte other than 32, even where fewer than three bytes are
   left; else 12 for a head that is not whole, 14 for a length above 64, 12 for a body that is not whole, then 15 for
   bytes past the note. 16 and 17 come last. A refusal leaves tree_out, numbers_out, length, w and h as they were. */
uint8_t kiln_read_file(const uint8_t *file, size_t file_len, uint8_t *tree_out, size_t tree_out_len,
                       int64_t *numbers_out, size_t numbers_out_len, size_t *length, size_t *w, size_t *h);

/* Reads a table file, as a test stand does: it gives all that kiln_read_file gives, with the same refusals, and tells
   where in the file the note stands. kiln_load_bench returns the same in one value.

   file, tree_out, numbers_out, length, w, h   as for kiln_read_file
   noted         receives 1 where a note stands in the file, also one of no bytes, and 0 where none does
   note_offset   receives where in the file the note starts, file_len - note_length, so file_len itself for a note of
                 no bytes; 0 where there is none
   note_length   receives the note's length, 0 to 64, and 0 where there is none

   Refusals: those of kiln_read_file, in the same order. A refusal leaves tree_out, numbers_out, length, w, h, noted,
   note_offset and note_length as they were. */
uint8_t kiln_read_bench(const uint8_t *file, size_t file_len, uint8_t *tree_out, size_t tree_out_len,
                        int64_t *numbers_out, size_t numbers_out_len, size_t *length, size_t *w, size_t *h,
                        uint8_t *noted, size_t *note_offset, size_t *note_length);

/* The part of a file that a note is: length bytes from file + offset on. stands is 1, also for a note of no bytes,
   whose offset is the file's length; where there is no note, it is 0, and so are offset and length. */
typedef struct kiln_note {
  uint8_t stands;
  size_t offset;
  size_t length;
} kiln_note;

/* What kiln_load_bench returns: the refusal number or 0, the tree's length, the sheet's sides and the note. */
typedef struct kiln_bench {
  uint8_t code;
  size_t length;
  size_t w;
  size_t h;
  kiln_note note;
} kiln_bench;

/* kiln_read_bench, with all that it gives in one value. After a refusal code is its number and all else is 0: no note
   stands there and its part is empty; tree_out and numbers_out are as they were. */
static inline kiln_bench kiln_load_bench(const uint8_t *file, size_t file_len, uint8_t *tree_out, size_t tree_out_len,
                                         int64_t *numbers_out, size_t numbers_out_len) {
  kiln_bench bench = {0, 0, 0, 0, {0, 0, 0}};
  bench.code = kiln_read_bench(file, file_len, tree_out, tree_out_len, numbers_out, numbers_out_len, &bench.length,
                               &bench.w, &bench.h, &bench.note.stands, &bench.note.offset, &bench.note.length);
  return bench;
}

/* Writes the table file of a table, in the form that kiln_read_file has, always with the counts of tag 3, and with a
   note or none. Each acceptable table has one such file for each note and one for none: reading what was written gives
   the same sides, tree, coefficients and note. Writing a table that was read, with the note that was read, gives the
   bytes of a file that had the counts, and of another one the same with the counts added, 11 bytes more.
   kiln_file_counts tells the counts of what was written.

   A note that kiln_read_bench told is kept by passing it on: noted, file + note_offset, note_length. As a part of the
   file that was read it must not overlap file_out. kiln_read_file tells of no note, so that what it read is saved with
   none: the note is gone.

   w, h, tree, numbers   the table; it is not changed
   noted                 0 for no note, any other number for one
   note                  the note, 0 to 64 bytes of any kind; where noted is 0 it is passed over, whatever it holds and
                         however long it is (NULL and 0 will do)
   file_out              receives the file; as long as the file, with its note, or longer (KILN_FILE_BYTES always is),
                         and what is past the file is untouched
   length                receives the file's length

   Refusals: 1 to 5, 14 for a note of above 64 bytes, 18. A refusal leaves file_out and length as they were.

   noted, note and note_len are new in 0.4.0. A program compiled with an earlier header still links, and its call is
   undefined: it must be compiled anew. */
uint8_t kiln_write_file(size_t w, size_t h, const uint8_t *tree, size_t tree_len, const int64_t *numbers,
                        size_t numbers_len, uint8_t noted, const uint8_t *note, size_t note_len, uint8_t *file_out,
                        size_t file_out_len, size_t *length);

#ifdef __cplusplus
}
#endif

#endif
