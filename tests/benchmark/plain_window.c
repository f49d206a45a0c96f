/* A window over minute records in plain C: a record into it, and the total, the least and the greatest of those that
   it holds, in one pass over at most two straight parts of the slice. */
#include "plain.h"

#include <stdbool.h>

enum { NO_WINDOW = 22, PAST_RECORD = 23 };
enum { PLACES_MAX = 1440, RECORD_MAX = 32000 };

static inline bool is_window(size_t places, size_t held, size_t oldest) {
  return places != 0 && places <= PLACES_MAX && held <= places && oldest < places;
}

uint8_t plain_add_record(int32_t *window, size_t window_len, size_t *held, size_t *oldest, int64_t watts) {
  size_t n = *held, first = *oldest;
  if (!is_window(window_len, n, first)) return NO_WINDOW;
  if (watts < -RECORD_MAX || watts > RECORD_MAX) return PAST_RECORD;
  if (n < window_len) {
    size_t at = first + n;
    if (at >= window_len) at -= window_len;
    window[at] = (int32_t)watts;
    *held = n + 1;
  } else {
    window[first] = (int32_t)watts;
    *oldest = first + 1 < window_len ? first + 1 : 0;
  }
  return 0;
}

/* The figures of records that were met. */
struct figures {
  int64_t total;
  int32_t least, greatest;
};

/* With those from one place up to another. */
static inline struct figures with_part(struct figures f, const int32_t *at, const int32_t *end) {
  for (; at < end; at++) {
    f.total += *at;
    if (*at < f.least) f.least = *at;
    if (*at > f.greatest) f.greatest = *at;
  }
  return f;
}

uint8_t plain_window_figures(const int32_t *window, size_t window_len, size_t held, size_t oldest, int64_t *total,
                             uint8_t *missing, int32_t *least, int32_t *greatest) {
  if (!is_window(window_len, held, oldest)) return NO_WINDOW;
  if (held == 0) {
    *total = 0;
    *missing = 1;
    return 0;
  }
  struct figures f = {0, window[oldest], window[oldest]};
  size_t straight = window_len - oldest;
  if (held <= straight) {
    f = with_part(f, window + oldest, window + oldest + held);
  } else {
    f = with_part(f, window + oldest, window + window_len);
    f = with_part(f, window, window + (held - straight));
  }
  *total = f.total;
  *missing = 0;
  *least = f.least;
  *greatest = f.greatest;
  return 0;
}
