/* Fields of bytes that are read, and the numbers in them: table files and full grids share them. */
#ifndef PLAIN_FIELDS_H
#define PLAIN_FIELDS_H

#include "plain_inside.h"

struct file {
  const uint8_t *bytes;
  size_t len;
};

/* The length in the head that stands at a position. */
static inline size_t length_at(const uint8_t *head) {
  return (size_t)head[1] << 8 | head[2];
}

/* The field due at a position, its length between two bounds: `end` receives the position after its body. */
static uint8_t field_at(const struct file *file, size_t at, uint8_t tag, size_t low, size_t high, size_t *end) {
  size_t left = file->len - at;
  if (left < HEAD) return FILE_ENDS;
  if (file->bytes[at] != tag) return BAD_TAG;
  size_t n = length_at(file->bytes + at);
  if (n < low || n > high) return BAD_FIELD;
  if (left < HEAD + n) return FILE_ENDS;
  *end = at + HEAD + n;
  return 0;
}

/* Five bytes, two's complement, high byte first. */
static inline int64_t number_at(const uint8_t *at) {
  int64_t n = (int64_t)at[0] << 32 | (int64_t)at[1] << 24 | (int64_t)at[2] << 16 | (int64_t)at[3] << 8 | at[4];
  return n < (int64_t)1 << 39 ? n : n - ((int64_t)1 << 40);
}

#endif
