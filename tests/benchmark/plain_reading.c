/* Readings in plain C: exact over D, as f64, whole watts, cost. */
#include "plain_patch.h"

static int64_t evaluate(patch p, size_t steps, size_t r, size_t s) {
  int64_t across[4], along_v[4], sum = 0;
  splines_at((int64_t)steps, (int64_t)r, across);
  splines_at((int64_t)steps, (int64_t)s, along_v);
  for (size_t k = 0; k < 4; k++) {
    int64_t row = 0;
    for (size_t l = 0; l < 4; l++) row += along_v[l] * p.at[k][l];
    sum += across[k] * row;
  }
  return sum;
}

/* The exact reading over D = 36 × 2^42 after causes 1 to 6. It stops subdividing at the level of the quarter square
   that holds the point. D is the same at each level: steps of a cell halve, and units are 64 times finer. */
static uint8_t read_point(size_t w, size_t h, const uint8_t *tree, size_t tree_len, const int64_t *numbers,
                          size_t numbers_len, size_t u, size_t v, int64_t *numerator) {
  struct regions regions;
  uint8_t cause = check(w, h, tree, tree_len, numbers, numbers_len, &regions);
  if (cause) return cause;
  if (u > 128 * w || v > 128 * h) return OFF_SHEET;
  size_t last;
  patch p = patch_at(numbers, &regions, w, h, u, v, &last);
  size_t steps = 128 >> last;
  *numerator = evaluate(p, steps, u - steps * cell_of(w, last, u), v - steps * cell_of(h, last, v));
  return 0;
}

uint8_t plain_exact(size_t w, size_t h, const uint8_t *tree, size_t tree_len, const int64_t *numbers,
                    size_t numbers_len, size_t u, size_t v, int64_t *numerator) {
  return read_point(w, h, tree, tree_len, numbers, numbers_len, u, v, numerator);
}

uint8_t plain_watts(size_t w, size_t h, const uint8_t *tree, size_t tree_len, const int64_t *numbers,
                    size_t numbers_len, size_t u, size_t v, double *watts) {
  int64_t n;
  uint8_t cause = read_point(w, h, tree, tree_len, numbers, numbers_len, u, v, &n);
  if (!cause) *watts = (double)n / (double)D;
  return cause;
}

/* To the nearest whole number, halves upward, also below zero: n rounds to minus what -1 - n rounds to. */
static int64_t whole_watts(int64_t n) {
  return n < 0 ? -((-1 - n + D / 2) / D) : (n + D / 2) / D;
}

uint8_t plain_display(size_t w, size_t h, const uint8_t *tree, size_t tree_len, const int64_t *numbers,
                      size_t numbers_len, size_t u, size_t v, int64_t *watts) {
  int64_t n;
  uint8_t cause = read_point(w, h, tree, tree_len, numbers, numbers_len, u, v, &n);
  if (!cause) *watts = whole_watts(n);
  return cause;
}

/* n × tariff over 1,000 × D, to the nearest, halves upward. 64 bits do not hold n × tariff; with n = D × q + r they
   hold r × tariff + 500 × D, and q × tariff is added to what that is over D. */
static size_t nearest_cost(uint64_t n, size_t tariff) {
  uint64_t d = (uint64_t)D;
  return (n / d * tariff + (n % d * tariff + 500 * d) / d) / 1000;
}

uint8_t plain_cost(size_t w, size_t h, const uint8_t *tree, size_t tree_len, const int64_t *numbers,
                   size_t numbers_len, size_t u, size_t v, size_t tariff, size_t *cost) {
  int64_t n;
  uint8_t cause = read_point(w, h, tree, tree_len, numbers, numbers_len, u, v, &n);
  if (cause) return cause;
  if (tariff > 99999) return BAD_TARIFF;
  *cost = n <= 0 ? 0 : nearest_cost((uint64_t)n, tariff);
  return 0;
}
