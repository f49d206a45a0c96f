/* The calls of the library, under its own names (PREFIX kiln_) or under those of the plain C program (plain_). */
#ifndef PLAIN_H
#define PLAIN_H

#include <stddef.h>
#include <stdint.h>

#ifndef PREFIX
#define PREFIX plain_
#endif
#define JOINED(prefix, name) prefix##name
#define NAMED(prefix, name) JOINED(prefix, name)
#define CALL(name) NAMED(PREFIX, name)

uint8_t CALL(table_cause)(size_t w, size_t h, const uint8_t *tree, size_t tree_len, const int64_t *numbers,
                          size_t numbers_len);
uint8_t CALL(least_level)(size_t w, size_t h, const uint8_t *tree, size_t tree_len, size_t u0, size_t v0, size_t u1,
                          size_t v1, uint8_t *least, uint8_t *greatest, size_t *visited);
uint8_t CALL(activity)(size_t w, size_t h, const uint8_t *tree, size_t tree_len, size_t level, uint8_t *out,
                       size_t out_len);
uint8_t CALL(fresh)(size_t w, size_t h, int64_t number, uint8_t *tree_out, size_t tree_len, int64_t *numbers_out,
                    size_t numbers_len, size_t *length);
uint8_t CALL(set)(size_t w, size_t h, const uint8_t *tree, size_t tree_len, int64_t *numbers, size_t numbers_len,
                  size_t level, int64_t i, int64_t j, int64_t number);
uint8_t CALL(enquire)(size_t w, size_t h, const uint8_t *tree, size_t tree_len, const int64_t *numbers,
                      size_t numbers_len, size_t u0, size_t v0, size_t u1, size_t v1, size_t level, size_t *slip_length,
                      size_t *slip_active, size_t *slip_visited);
uint8_t CALL(commit)(size_t w, size_t h, const uint8_t *tree, size_t tree_len, const int64_t *numbers,
                     size_t numbers_len, size_t u0, size_t v0, size_t u1, size_t v1, size_t level, size_t slip_length,
                     const size_t *slip_active, size_t slip_visited, uint8_t *tree_out, size_t tree_out_len,
                     int64_t *numbers_out, size_t numbers_out_len, size_t *length);
uint8_t CALL(exact)(size_t w, size_t h, const uint8_t *tree, size_t tree_len, const int64_t *numbers,
                    size_t numbers_len, size_t u, size_t v, int64_t *numerator);
uint8_t CALL(watts)(size_t w, size_t h, const uint8_t *tree, size_t tree_len, const int64_t *numbers,
                    size_t numbers_len, size_t u, size_t v, double *watts);
uint8_t CALL(slopes)(size_t w, size_t h, const uint8_t *tree, size_t tree_len, const int64_t *numbers,
                     size_t numbers_len, size_t u, size_t v, double *watts, double *along_u, double *along_v);
uint8_t CALL(display)(size_t w, size_t h, const uint8_t *tree, size_t tree_len, const int64_t *numbers,
                      size_t numbers_len, size_t u, size_t v, int64_t *watts);
uint8_t CALL(cost)(size_t w, size_t h, const uint8_t *tree, size_t tree_len, const int64_t *numbers,
                   size_t numbers_len, size_t u, size_t v, size_t tariff, size_t *cost);
uint8_t CALL(read_file)(const uint8_t *file, size_t file_len, uint8_t *tree_out, size_t tree_out_len,
                        int64_t *numbers_out, size_t numbers_out_len, size_t *length, size_t *w, size_t *h);
uint8_t CALL(read_bench)(const uint8_t *file, size_t file_len, uint8_t *tree_out, size_t tree_out_len,
                         int64_t *numbers_out, size_t numbers_out_len, size_t *length, size_t *w, size_t *h,
                         uint8_t *noted, size_t *note_offset, size_t *note_length);
uint8_t CALL(write_file)(size_t w, size_t h, const uint8_t *tree, size_t tree_len, const int64_t *numbers,
                         size_t numbers_len, uint8_t noted, const uint8_t *note, size_t note_len, uint8_t *file_out,
                         size_t file_out_len, size_t *length);
uint8_t CALL(write_grid)(size_t w, size_t h, const uint8_t *tree, size_t tree_len, const int64_t *numbers,
                         size_t numbers_len, uint8_t *grid_out, size_t grid_out_len, size_t *length);
uint8_t CALL(read_grid)(const uint8_t *grid, size_t grid_len, const uint8_t *tree, size_t tree_len,
                        int64_t *numbers_out, size_t numbers_out_len, size_t *w, size_t *h);
uint8_t CALL(add_record)(int32_t *window, size_t window_len, size_t *held, size_t *oldest, int64_t watts);
uint8_t CALL(window_figures)(const int32_t *window, size_t window_len, size_t held, size_t oldest, int64_t *total,
                             uint8_t *missing, int32_t *least, int32_t *greatest);

#endif
