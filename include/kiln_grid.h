/* The full-grid dialect: the two calls that write a table as a plain bicubic grid and read one as a table, for C and
   C++. kiln.h includes this header, and says what holds of every call and what a table is: a program need not name it.

   Kiln makers whose tables have other regions, or none, exchange grids: the sheet and every coefficient of the surface
   at level 3, where a table is refined and where it is not. A grid has two fields, each with a tag and a length as a
   table file's (kiln_read_file), and no other: tag 1, W and H, a byte each; tag 19, every number of level 3, active or
   not, (8*W + 3)*(8*H + 3) in the order of a level's coefficients, five bytes each, two's complement, high byte first.
   Each is a whole number of 1/64^3 watt, at most 32,000*64^3 in size. The grid's reading at a point
   is what the numbers times the level 3 functions add up to there.

   Both calls are new in 0.9.0, and no other call moved. A program that makes and reads no grids need not change, nor
   be compiled anew. */
#ifndef KILN_GRID_H
#define KILN_GRID_H

#include "kiln_refusal.h"
#include "kiln_sizes.h"

#include <stddef.h>
#include <stdint.h>

#ifdef __cplusplus
extern "C" {
#endif

/* Writes the grid of a table. Each acceptable table has one, which has the table's exact reading at every point.
   Tables that read the same have the same grid, however they are refined.

   w, h, tree, numbers   the table; it is not changed
   grid_out              receives the grid; as long as the grid or longer (KILN_GRID_BYTES always is), and what is past
                         the grid is untouched
   length                receives the grid's length, which is kiln_grid_length(w, h)

   Refusals: 1 to 5, then 18. A refusal leaves grid_out and length as they were. */
uint8_t kiln_write_grid(size_t w, size_t h, const uint8_t *tree, size_t tree_len, const int64_t *numbers,
                        size_t numbers_len, uint8_t *grid_out, size_t grid_out_len, size_t *length);

/* Reads a grid as a table over the regions that the caller wants: the one table over that tree with the grid's exact
   reading at every point. The table's tree is the one that was lent.

   grid          the whole grid, any bytes
   tree          the tree of the wanted regions, for the sheet of the grid; it is not changed
   numbers_out   receives the coefficients; its length must be kiln_grid_places(grid, grid_len)
   w, h          receive the sheet's sides

   Refusals, in this order: of the grid 1, 4 and 12 to 15, the first in byte order; of the tree 2; then 21; then 16.
   Of the grid, for each field 12 for a head that is not whole, 13, 14, 12 for a body that is not whole, then 1 for the
   sides or 4 for a number past its limit, and last 15 for any byte after the two fields. So a table file is refused
   with 13, for its tree, and a grid with a note after it with 15. 21 is for a grid whose readings no acceptable table
   over that tree has: a number bends the surface where the tree is too coarse for it, or a coefficient would not be
   whole, or be past its limit. Over a tree with the whole sheet at level 3 it does not occur: the coefficients of level
   3 are the grid's numbers, and all others are 0. A refusal leaves numbers_out, w and h as they were.

   This call takes up to 20 KiB of stack. */
uint8_t kiln_read_grid(const uint8_t *grid, size_t grid_len, const uint8_t *tree, size_t tree_len,
                       int64_t *numbers_out, size_t numbers_out_len, size_t *w, size_t *h);

#ifdef __cplusplus
}
#endif

#endif
