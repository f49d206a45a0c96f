/* Makes the calls that it is told of on standard input and answers on standard output. Each buffer is a block of its
   own of exactly its length, so that valgrind sees every byte that a call reads or writes beside it; and what an
   output held is unknown to valgrind, which sees an answer that depends on it. */
#include "kiln.h"

#include <stdio.h>
#include <stdlib.h>
#include <string.h>
#include <valgrind/memcheck.h>

/* One thing that is given to a call: a number, or `count` elements of `size` bytes. */
struct given {
  uint64_t size, count;
  void *at;
};

enum { MOST = 16 };
static struct given given[MOST];

static void take(void *to, size_t bytes) {
  if (fread(to, 1, bytes, stdin) != bytes) exit(2);
}

/* A number given, the elements of a buffer, and how many. */
#define N(k) given[k].count
#define B(k) ((const uint8_t *)given[k].at), given[k].count
#define Q(k) ((const int64_t *)given[k].at), given[k].count
#define I(k) ((int64_t)given[k].count)

/* A buffer that receives, of bytes or numbers, or as many elements as the call knows. */
static void *unknown(unsigned k) {
  VALGRIND_MAKE_MEM_UNDEFINED(given[k].at, given[k].size * given[k].count);
  return given[k].at;
}
#define OUT(k) unknown(k), given[k].count
#define ONE(k) unknown(k)

/* The note that is lent after a number which is 0 for none: what lies there is then unknown too. */
#define NOTE(k) (uint8_t)N(k), (N(k) ? given[(k) + 1].at : unknown((k) + 1)), given[(k) + 1].count

/* A window with so many records from the oldest's place on: what lies elsewhere is unknown, and everything is where it
   is no window. */
static const int32_t *records(unsigned k, uint64_t held, uint64_t oldest) {
  uint64_t places = given[k].count;
  int32_t *window = unknown(k);
  for (uint64_t n = 0; n < held && places <= KILN_WINDOW_PLACES && held <= places && oldest < places; n++)
    VALGRIND_MAKE_MEM_DEFINED(&window[(oldest + n) % places], sizeof *window);
  return window;
}

/* Makes the call, and has valgrind see whether what it gave depends on anything unknown: the last two where some are
   held, and the others in any case. */
static uint8_t window_figures(void) {
  const int32_t *window = records(0, N(1), N(2));
  uint8_t cause = kiln_window_figures(window, N(0), N(1), N(2), ONE(3), ONE(4), ONE(5), ONE(6));
  for (unsigned k = 3; k <= (N(1) ? 6 : 4) && !cause; k++)
    (void)VALGRIND_CHECK_MEM_IS_DEFINED(given[k].at, given[k].size);
  return cause;
}

static uint8_t make(const char *name) {
#define IS(call) (strcmp(name, #call) == 0)
  if (IS(table_cause)) return kiln_table_cause(N(0), N(1), B(2), Q(3));
  if (IS(least_level)) return kiln_least_level(N(0), N(1), B(2), N(3), N(4), N(5), N(6), ONE(7), ONE(8), ONE(9));
  if (IS(activity)) return kiln_activity(N(0), N(1), B(2), N(3), OUT(4));
  if (IS(fresh)) return kiln_fresh(N(0), N(1), I(2), OUT(3), OUT(4), ONE(5));
  if (IS(enquire)) {
    return kiln_enquire(N(0), N(1), B(2), Q(3), N(4), N(5), N(6), N(7), N(8), ONE(9), ONE(10), ONE(11));
  }
  if (IS(commit)) {
    return kiln_commit(N(0), N(1), B(2), Q(3), N(4), N(5), N(6), N(7), N(8), N(9), given[10].at, N(11), OUT(12),
                       OUT(13), ONE(14));
  }
  if (IS(set)) return kiln_set(N(0), N(1), B(2), given[3].at, given[3].count, N(4), I(5), I(6), I(7));
  if (IS(exact)) return kiln_exact(N(0), N(1), B(2), Q(3), N(4), N(5), ONE(6));
  if (IS(watts)) return kiln_watts(N(0), N(1), B(2), Q(3), N(4), N(5), ONE(6));
  if (IS(slopes)) return kiln_slopes(N(0), N(1), B(2), Q(3), N(4), N(5), ONE(6), ONE(7), ONE(8));
  if (IS(display)) return kiln_display(N(0), N(1), B(2), Q(3), N(4), N(5), ONE(6));
  if (IS(cost)) return kiln_cost(N(0), N(1), B(2), Q(3), N(4), N(5), N(6), ONE(7));
  if (IS(read_file)) return kiln_read_file(B(0), OUT(1), OUT(2), ONE(3), ONE(4), ONE(5));
  if (IS(read_bench)) {
    return kiln_read_bench(B(0), OUT(1), OUT(2), ONE(3), ONE(4), ONE(5), ONE(6), ONE(7), ONE(8));
  }
  if (IS(write_file)) return kiln_write_file(N(0), N(1), B(2), Q(3), NOTE(4), OUT(6), ONE(7));
  if (IS(write_grid)) return kiln_write_grid(N(0), N(1), B(2), Q(3), OUT(4), ONE(5));
  if (IS(read_grid)) return kiln_read_grid(B(0), B(1), OUT(2), ONE(3), ONE(4));
  if (IS(add_record)) return kiln_add_record(OUT(0), given[1].at, given[2].at, I(3));
  if (IS(window_figures)) return window_figures();
  exit(3);
}

int main(void) {
  char name[16];
  while (fread(name, 1, sizeof name, stdin) == sizeof name) {
    uint64_t n;
    take(&n, sizeof n);
    if (n > MOST) exit(4);
    for (uint64_t k = 0; k < n; k++) {
      take(&given[k], 2 * sizeof(uint64_t));
      given[k].at = NULL;
      if (given[k].size) {
        given[k].at = malloc(given[k].size * given[k].count);
        if (!given[k].at) exit(5);
        take(given[k].at, given[k].size * given[k].count);
      }
    }
    uint8_t cause = make(name);
    fwrite(&cause, 1, 1, stdout);
    for (uint64_t k = 0; k < n; k++) {
      size_t bytes = given[k].size * given[k].count;
      if (given[k].size == 0) continue;
      VALGRIND_MAKE_MEM_DEFINED(given[k].at, bytes);
      fwrite(given[k].at, 1, bytes, stdout);
      free(given[k].at);
    }
    fflush(stdout);
  }
  return 0;
}
