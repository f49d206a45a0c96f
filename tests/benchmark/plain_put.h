/* Fields of bytes that are written, and the numbers in them: table files and full grids share them. */
#ifndef PLAIN_PUT_H
#define PLAIN_PUT_H

#include "plain_inside.h"

/* Writes a field's head, and returns the position after it. */
static inline uint8_t *put_head(uint8_t *to, size_t tag, size_t n) {
  to[0] = (uint8_t)tag;
  to[1] = (uint8_t)(n >> 8);
  to[2] = (uint8_t)n;
  return to + HEAD;
}

/* Writes five bytes, two's complement, high byte first, and returns the position after them. */
static inline uint8_t *put_number(uint8_t *to, int64_t number) {
  uint64_t n = (uint64_t)number;
  to[0] = (uint8_t)(n >> 32);
  to[1] = (uint8_t)(n >> 24);
  to[2] = (uint8_t)(n >> 16);
  to[3] = (uint8_t)(n >> 8);
  to[4] = (uint8_t)n;
  return to + NUMBER_BYTES;
}

#endif
