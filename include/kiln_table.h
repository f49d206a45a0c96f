/* The calls of kiln.h with a table in one struct, for C and C++.

   A table, a point, a box, a slip, a function and a sheet are structs of their own, so that a compiler refuses one in
   place of another, and a table's sides, buffers and lengths stay together. Each function makes the one call that it
   names, but for kiln_table_insert, which makes two, and those of rooms and of quarters, which make none: what the call
   gives, its refusals and what they leave are said in kiln.h, and below what differs. Members are best said by name, in
   C as (struct kiln_point){.u = 64, .v = 5}. Includes kiln.h, and kiln_arrow.h for the struct of watts and slopes. */
#ifndef KILN_TABLE_H
#define KILN_TABLE_H

#include "kiln_arrow.h"

/* A table that calls read. Only kiln_table_set writes numbers: those of a table in read-only memory may be cast. */
struct kiln_table {
  size_t w;
  size_t h;
  const uint8_t *tree;
  size_t tree_len;  /* the tree's own length, not that of the buffer that it stands in */
  int64_t *numbers;
  size_t numbers_len;
};

/* A sheet of w by h cells. */
struct kiln_sheet {
  size_t w;
  size_t h;
};

/* A point in steps of 1/128 cell: u along w, v along h. */
struct kiln_point {
  size_t u;
  size_t v;
};

/* A box in whole quarters of a cell, from its low corner (u0, v0) to its high corner (u1, v1). */
struct kiln_box {
  size_t u0;
  size_t v0;
  size_t u1;
  size_t v1;
};

/* A slip: a box and the level to which it is to be raised, and what a table's tree would then be. */
struct kiln_slip {
  struct kiln_box box;
  size_t level;
  size_t length;     /* the new tree's length */
  size_t active[4];  /* how many functions of levels 0 to 3 are active over the new tree */
  size_t visited;    /* the tree nodes that one kiln_table_least_level over the box visits in the new tree */
};

/* Function (i, j) of a level, i along w and j along h, each from -3. */
struct kiln_function {
  size_t level;
  int64_t i;
  int64_t j;
};

/* Buffers that a call writes a table to, of KILN_TREE_BYTES and KILN_PLACES for any table. What is past the table is
   left as it was. Too few numbers are refused with 16, a tree buffer that is too short with 17. */
struct kiln_room {
  uint8_t *tree;
  size_t tree_len;
  int64_t *numbers;
  size_t numbers_len;
};

/* The length to lend of a room's numbers: as many places as are needed, or all there are where these are fewer. */
static inline size_t kiln_room_places(struct kiln_room room, size_t needed) {
  return room.numbers_len < needed ? room.numbers_len : needed;
}

/* Makes the struct of a table that a call wrote to a room. */
static inline void kiln_room_written(struct kiln_room room, size_t w, size_t h, size_t tree_len,
                                     struct kiln_table *made) {
  made->w = w;
  made->h = h;
  made->tree = room.tree;
  made->tree_len = tree_len;
  made->numbers = room.numbers;
  made->numbers_len = kiln_places(w, h);
}

/* kiln_read_file. The table that made receives lies in the room. A refusal leaves room and made as they were. */
static inline uint8_t kiln_table_read_file(const uint8_t *file, size_t file_len, struct kiln_room room,
                                           struct kiln_table *made) {
  size_t tree_len = 0, w = 0, h = 0;
  uint8_t refused = kiln_read_file(file, file_len, room.tree, room.tree_len, room.numbers,
                                   kiln_room_places(room, kiln_file_places(file, file_len)), &tree_len, &w, &h);
  if (!refused) kiln_room_written(room, w, h, tree_len, made);
  return refused;
}

/* kiln_load_bench. The table that made receives lies in the room. A refusal leaves room and made as they were; what is
   returned then has its number as code, and says that no note stands there. */
static inline kiln_bench kiln_table_load_bench(const uint8_t *file, size_t file_len, struct kiln_room room,
                                               struct kiln_table *made) {
  kiln_bench bench = kiln_load_bench(file, file_len, room.tree, room.tree_len, room.numbers,
                                     kiln_room_places(room, kiln_file_places(file, file_len)));
  if (!bench.code) kiln_room_written(room, bench.w, bench.h, bench.length, made);
  return bench;
}

/* kiln_write_file, with a note or, where noted is 0, none. The note of a bench that was loaded from file is kept by
   passing on bench.note.stands, file + bench.note.offset and bench.note.length; file_out must not overlap it. */
static inline uint8_t kiln_table_write_noted(const struct kiln_table *table, uint8_t noted, const uint8_t *note,
                                             size_t note_len, uint8_t *file_out, size_t file_out_len, size_t *length) {
  return kiln_write_file(table->w, table->h, table->tree, table->tree_len, table->numbers, table->numbers_len, noted,
                         note, note_len, file_out, file_out_len, length);
}

/* kiln_write_file, with no note. */
static inline uint8_t kiln_table_write_file(const struct kiln_table *table, uint8_t *file_out, size_t file_out_len,
                                            size_t *length) {
  return kiln_table_write_noted(table, 0, NULL, 0, file_out, file_out_len, length);
}

/* kiln_write_grid. */
static inline uint8_t kiln_table_write_grid(const struct kiln_table *table, uint8_t *grid_out, size_t grid_out_len,
                                            size_t *length) {
  return kiln_write_grid(table->w, table->h, table->tree, table->tree_len, table->numbers, table->numbers_len,
                         grid_out, grid_out_len, length);
}

/* kiln_read_grid. The table that made receives has the tree that is lent, where that stands, and its coefficients in
   numbers, of KILN_PLACES for any sheet: what is past them is left as it was, and too few are refused with 16. made
   may be the struct whose tree is lent. A refusal leaves numbers and made as they were. */
static inline uint8_t kiln_table_read_grid(const uint8_t *grid, size_t grid_len, const uint8_t *tree, size_t tree_len,
                                           int64_t *numbers, size_t numbers_len, struct kiln_table *made) {
  struct kiln_room room = {NULL, 0, numbers, numbers_len};  /* the table's tree is the one that is lent */
  size_t w = 0, h = 0;
  uint8_t refused = kiln_read_grid(grid, grid_len, tree, tree_len, numbers,
                                   kiln_room_places(room, kiln_grid_places(grid, grid_len)), &w, &h);
  if (refused) return refused;
  kiln_room_written(room, w, h, tree_len, made);
  made->tree = tree;
  return refused;
}

/* kiln_fresh. The table that made receives lies in the room. A refusal leaves room and made as they were. */
static inline uint8_t kiln_table_fresh(struct kiln_sheet sheet, int64_t number, struct kiln_room room,
                                       struct kiln_table *made) {
  size_t tree_len = 0;
  uint8_t refused = kiln_fresh(sheet.w, sheet.h, number, room.tree, room.tree_len, room.numbers,
                               kiln_room_places(room, kiln_places(sheet.w, sheet.h)), &tree_len);
  if (!refused) kiln_room_written(room, sheet.w, sheet.h, tree_len, made);
  return refused;
}

/* kiln_enquire. A refusal leaves slip as it was. */
static inline uint8_t kiln_table_enquire(const struct kiln_table *table, struct kiln_box box, size_t level,
                                         struct kiln_slip *slip) {
  uint8_t refused = kiln_enquire(table->w, table->h, table->tree, table->tree_len, table->numbers, table->numbers_len,
                                 box.u0, box.v0, box.u1, box.v1, level, &slip->length, slip->active, &slip->visited);
  if (refused) return refused;
  slip->box = box;
  slip->level = level;
  return refused;
}

/* kiln_commit. The table that made receives lies in the room, which must not overlap the one that is read; made may be
   the struct of the one that is read. A refusal leaves room and made as they were. */
static inline uint8_t kiln_table_commit(const struct kiln_table *table, const struct kiln_slip *slip,
                                        struct kiln_room room, struct kiln_table *made) {
  size_t tree_len = 0;
  uint8_t refused = kiln_commit(table->w, table->h, table->tree, table->tree_len, table->numbers, table->numbers_len,
                                slip->box.u0, slip->box.v0, slip->box.u1, slip->box.v1, slip->level, slip->length,
                                slip->active, slip->visited, room.tree, room.tree_len, room.numbers,
                                kiln_room_places(room, kiln_places(table->w, table->h)), &tree_len);
  if (!refused) kiln_room_written(room, table->w, table->h, tree_len, made);
  return refused;
}

/* kiln_insert, which is kiln_table_enquire and kiln_table_commit. Room and made are as for the latter. */
static inline uint8_t kiln_table_insert(const struct kiln_table *table, struct kiln_box box, size_t level,
                                        struct kiln_room room, struct kiln_table *made) {
  struct kiln_slip slip;
  uint8_t refused = kiln_table_enquire(table, box, level, &slip);
  return refused ? refused : kiln_table_commit(table, &slip, room, made);
}

/* kiln_set. Writes one of the table's numbers. */
static inline uint8_t kiln_table_set(struct kiln_table *table, struct kiln_function function, int64_t number) {
  return kiln_set(table->w, table->h, table->tree, table->tree_len, table->numbers, table->numbers_len, function.level,
                  function.i, function.j, number);
}

/* kiln_table_cause. */
static inline uint8_t kiln_table_judge(const struct kiln_table *table) {
  return kiln_table_cause(table->w, table->h, table->tree, table->tree_len, table->numbers, table->numbers_len);
}

/* kiln_exact. */
static inline uint8_t kiln_table_exact(const struct kiln_table *table, struct kiln_point point, int64_t *numerator) {
  return kiln_exact(table->w, table->h, table->tree, table->tree_len, table->numbers, table->numbers_len, point.u,
                    point.v, numerator);
}

/* kiln_watts. */
static inline uint8_t kiln_table_watts(const struct kiln_table *table, struct kiln_point point, double *watts) {
  return kiln_watts(table->w, table->h, table->tree, table->tree_len, table->numbers, table->numbers_len, point.u,
                    point.v, watts);
}

/* kiln_slopes, with what it gives in one struct, of which kiln_hotter, kiln_quicker and kiln_arrow_of tell the arrow. A
   refusal leaves at as it was. */
static inline uint8_t kiln_table_slopes(const struct kiln_table *table, struct kiln_point point,
                                        struct kiln_watts_and_slopes *at) {
  return kiln_slopes_at(table->w, table->h, table->tree, table->tree_len, table->numbers, table->numbers_len, point.u,
                        point.v, at);
}

/* kiln_display. */
static inline uint8_t kiln_table_display(const struct kiln_table *table, struct kiln_point point, int64_t *watts) {
  return kiln_display(table->w, table->h, table->tree, table->tree_len, table->numbers, table->numbers_len, point.u,
                      point.v, watts);
}

/* kiln_cost. */
static inline uint8_t kiln_table_cost(const struct kiln_table *table, struct kiln_point point, size_t tariff,
                                      size_t *cost) {
  return kiln_cost(table->w, table->h, table->tree, table->tree_len, table->numbers, table->numbers_len, point.u,
                   point.v, tariff, cost);
}

/* The quarter square that holds a point, as a box (kiln_quarter): where its greatest level is above 0, a display draws
   its dot. A point off the sheet makes a box past the sheet, which kiln_table_least_level refuses with 7.
   Where 6 is wanted, as by a reading, check the point first, as examples/dot.c does. */
static inline struct kiln_box kiln_table_quarter(const struct kiln_table *table, struct kiln_point point) {
  size_t u = kiln_quarter(table->w, point.u), v = kiln_quarter(table->h, point.v);
  struct kiln_box quarter = {u, v, u + 1, v + 1};
  return quarter;
}

/* kiln_least_level. Takes the table's sheet and tree; its numbers are not looked at. */
static inline uint8_t kiln_table_least_level(const struct kiln_table *table, struct kiln_box box, uint8_t *least,
                                             uint8_t *greatest, size_t *visited) {
  return kiln_least_level(table->w, table->h, table->tree, table->tree_len, box.u0, box.v0, box.u1, box.v1, least,
                          greatest, visited);
}

/* kiln_activity. Takes the table's sheet and tree; its numbers are not looked at. */
static inline uint8_t kiln_table_activity(const struct kiln_table *table, size_t level, uint8_t *out, size_t out_len) {
  return kiln_activity(table->w, table->h, table->tree, table->tree_len, level, out, out_len);
}

#endif
