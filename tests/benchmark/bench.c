/* Makes each call once on a table, its files, with counts, without, and with counts and a note, that note, its full
   grid, windows of records, and points to read at, given on standard input: of the library (PREFIX kiln_) or of plain
   C (plain_). Run as `bench count` under callgrind it leaves one dump for each call, named like it; run as `bench
   stack` it prints the bytes of stack of each call, as `bench time` the nanoseconds of each call. With names of calls
   after that it makes those calls only. */
#include "plain.h"

#include <pthread.h>
#include <stdbool.h>
#include <stdio.h>
#include <stdlib.h>
#include <string.h>
#include <time.h>
#include <valgrind/callgrind.h>

static size_t w, h, tree_len, numbers_len, file_len, uncounted_len, with_note_len, note_len, grid_len;
static uint8_t tree[1365], out[4489], tree_out[1365], file[32376], uncounted[32365], with_note[32443], note[64];
static uint8_t file_out[32443], grid[22453], grid_out[22453];
static int64_t numbers[6196], numbers_out[6196];

/* Where it reads: all readings at the first, the exact one at each, as f64 and with slopes at the last too. */
static struct point {
  size_t u, v;
} points[3];
enum { POINTS = sizeof points / sizeof *points };

/* What the calls give beside a refusal number. */
static uint8_t least, greatest, noted;
static size_t amount, wide, high, note_at, note_size;

static unsigned nothing(void) {
  return 0;
}

static unsigned table_cause(void) {
  return CALL(table_cause)(w, h, tree, tree_len, numbers, numbers_len);
}

static unsigned least_level(void) {
  return CALL(least_level)(w, h, tree, tree_len, 0, 0, 4 * w, 4 * h, &least, &greatest, &amount);
}

/* Under the quarter square that holds the point of the readings, as a display asks that draws a dot there. */
static unsigned least_at(void) {
  size_t q = points[0].u / 32, r = points[0].v / 32;
  return CALL(least_level)(w, h, tree, tree_len, q, r, q + 1, r + 1, &least, &greatest, &amount);
}

static unsigned activity(void) {
  return CALL(activity)(w, h, tree, tree_len, 3, out, (8 * w + 3) * (8 * h + 3));
}

static unsigned fresh(void) {
  return CALL(fresh)(w, h, 700, tree_out, sizeof tree_out, numbers_out, numbers_len, &amount);
}

/* Writes the number that stands there, so that every call reads the same table. */
static unsigned set(void) {
  return CALL(set)(w, h, tree, tree_len, numbers, numbers_len, 0, 0, 0, numbers[3 * (w + 3) + 3]);
}

/* A box, and what its slip has beside it and level 3. */
struct slip {
  size_t u0, v0, u1, v1, length, active[4], visited;
};

/* The slips of the whole sheet, and of the quarter square that holds the point of the readings. */
static struct slip of_sheet, of_quarter;

static unsigned enquire_box(struct slip *slip) {
  return CALL(enquire)(w, h, tree, tree_len, numbers, numbers_len, slip->u0, slip->v0, slip->u1, slip->v1, 3,
                       &slip->length, slip->active, &slip->visited);
}

static unsigned commit_box(const struct slip *slip) {
  return CALL(commit)(w, h, tree, tree_len, numbers, numbers_len, slip->u0, slip->v0, slip->u1, slip->v1, 3,
                      slip->length, slip->active, slip->visited, tree_out, sizeof tree_out, numbers_out, numbers_len,
                      &amount);
}

static unsigned enquire(void) {
  return enquire_box(&of_sheet);
}

static unsigned commit(void) {
  return commit_box(&of_sheet);
}

static unsigned enquire_at(void) {
  return enquire_box(&of_quarter);
}

static unsigned commit_at(void) {
  return commit_box(&of_quarter);
}

static int64_t whole;
static double watts_read, along_u, along_v;

static unsigned exact(void) {
  return CALL(exact)(w, h, tree, tree_len, numbers, numbers_len, points[0].u, points[0].v, &whole);
}

static unsigned exact_1(void) {
  return CALL(exact)(w, h, tree, tree_len, numbers, numbers_len, points[1].u, points[1].v, &whole);
}

static unsigned exact_2(void) {
  return CALL(exact)(w, h, tree, tree_len, numbers, numbers_len, points[2].u, points[2].v, &whole);
}

static unsigned watts(void) {
  return CALL(watts)(w, h, tree, tree_len, numbers, numbers_len, points[0].u, points[0].v, &watts_read);
}

static unsigned watts_2(void) {
  return CALL(watts)(w, h, tree, tree_len, numbers, numbers_len, points[2].u, points[2].v, &watts_read);
}

static unsigned slopes(void) {
  return CALL(slopes)(w, h, tree, tree_len, numbers, numbers_len, points[0].u, points[0].v, &watts_read, &along_u,
                      &along_v);
}

static unsigned slopes_2(void) {
  return CALL(slopes)(w, h, tree, tree_len, numbers, numbers_len, points[2].u, points[2].v, &watts_read, &along_u,
                      &along_v);
}

static unsigned display(void) {
  return CALL(display)(w, h, tree, tree_len, numbers, numbers_len, points[0].u, points[0].v, &whole);
}

static unsigned cost(void) {
  return CALL(cost)(w, h, tree, tree_len, numbers, numbers_len, points[0].u, points[0].v, 1500, &amount);
}

static unsigned read_file(void) {
  return CALL(read_file)(file, file_len, tree_out, sizeof tree_out, numbers_out, numbers_len, &amount, &wide, &high);
}

static unsigned read_uncounted(void) {
  return CALL(read_file)(uncounted, uncounted_len, tree_out, sizeof tree_out, numbers_out, numbers_len, &amount, &wide,
                         &high);
}

static unsigned read_noted(void) {
  return CALL(read_file)(with_note, with_note_len, tree_out, sizeof tree_out, numbers_out, numbers_len, &amount, &wide,
                         &high);
}

static unsigned read_bench(void) {
  return CALL(read_bench)(file, file_len, tree_out, sizeof tree_out, numbers_out, numbers_len, &amount, &wide, &high,
                          &noted, &note_at, &note_size);
}

static unsigned bench_noted(void) {
  return CALL(read_bench)(with_note, with_note_len, tree_out, sizeof tree_out, numbers_out, numbers_len, &amount, &wide,
                          &high, &noted, &note_at, &note_size);
}

static unsigned write_file(void) {
  return CALL(write_file)(w, h, tree, tree_len, numbers, numbers_len, 0, note, 0, file_out, sizeof file_out, &amount);
}

static unsigned write_noted(void) {
  return CALL(write_file)(w, h, tree, tree_len, numbers, numbers_len, 1, note, note_len, file_out, sizeof file_out,
                          &amount);
}

static unsigned write_grid(void) {
  return CALL(write_grid)(w, h, tree, tree_len, numbers, numbers_len, grid_out, sizeof grid_out, &amount);
}

/* Over the table's own tree. */
static unsigned read_grid(void) {
  return CALL(read_grid)(grid, grid_len, tree, tree_len, numbers_out, numbers_len, &wide, &high);
}

/* Windows that begin at the same place, with what is due of each. They hold all of their places or none, so that a
   record goes to the oldest's place. */
static int32_t records[1440];
static struct window {
  size_t places, held, oldest;
  int64_t total;
  uint8_t missing;
  int32_t least, greatest;
} windows[3], given;
enum { WINDOWS = sizeof windows / sizeof *windows };

/* Writes the record that stands there, so that every call meets the same window. */
static unsigned add_to(const struct window *window) {
  size_t held = window->held, oldest = window->oldest;
  return CALL(add_record)(records, window->places, &held, &oldest, records[oldest]);
}

static unsigned figures_of(const struct window *window) {
  return CALL(window_figures)(records, window->places, window->held, window->oldest, &given.total, &given.missing,
                              &given.least, &given.greatest);
}

static unsigned add_record(void) {
  return add_to(&windows[0]);
}

static unsigned add_small(void) {
  return add_to(&windows[1]);
}

static unsigned add_first(void) {
  return add_to(&windows[2]);
}

static unsigned window_figures(void) {
  return figures_of(&windows[0]);
}

static unsigned figures_small(void) {
  return figures_of(&windows[1]);
}

static unsigned figures_none(void) {
  return figures_of(&windows[2]);
}

struct call {
  const char *name;
  unsigned (*make)(void);
};

static const struct call calls[] = {
  {"nothing", nothing}, {"table_cause", table_cause}, {"least_level", least_level}, {"least_at", least_at},
  {"activity", activity}, {"fresh", fresh}, {"set", set}, {"enquire", enquire}, {"commit", commit},
  {"enquire_at", enquire_at}, {"commit_at", commit_at},
  {"exact", exact}, {"exact_1", exact_1}, {"exact_2", exact_2}, {"watts", watts}, {"display", display}, {"cost", cost},
  {"watts_2", watts_2}, {"slopes", slopes}, {"slopes_2", slopes_2},
  {"read_file", read_file}, {"read_uncounted", read_uncounted}, {"read_noted", read_noted},
  {"read_bench", read_bench}, {"bench_noted", bench_noted}, {"write_file", write_file}, {"write_noted", write_noted},
  {"write_grid", write_grid}, {"read_grid", read_grid}, {"add_record", add_record}, {"add_small", add_small},
  {"add_first", add_first}, {"window_figures", window_figures}, {"figures_small", figures_small},
  {"figures_none", figures_none},
};

enum { CALLS = sizeof calls / sizeof *calls, DEPTH = 1 << 17, UNUSED = 0xA5 };
enum { ROUNDS = 7, ROUND_NANOSECONDS = 3000000 };
static _Alignas(4096) uint8_t room[DEPTH];

struct job {
  const struct call *call;
  size_t depth;
};

/* Makes the call, and finds how far below this frame the stack has changed. */
static void *work(void *given) {
  struct job *job = given;
  uint8_t *frame = __builtin_frame_address(0), *lowest = room;
  job->call->make();
  while (*lowest == UNUSED) lowest++;
  job->depth = (size_t)(frame - lowest);
  return NULL;
}

/* The bytes of stack of one call, made in a thread of its own, with those of the C functions that it calls. */
static size_t depth(const struct call *call) {
  struct job job = {call, 0};
  pthread_t thread;
  pthread_attr_t attributes;
  memset(room, UNUSED, DEPTH);
  pthread_attr_init(&attributes);
  pthread_attr_setstack(&attributes, room, DEPTH);
  if (pthread_create(&thread, &attributes, work, &job)) exit(2);
  pthread_join(thread, NULL);
  return job.depth;
}

/* Makes one call between two marks of callgrind; one piece of code for all calls, so that it costs the same. */
__attribute__((noipa)) static void count(const struct call *call) {
  CALLGRIND_ZERO_STATS;
  call->make();
  CALLGRIND_DUMP_STATS_AT(call->name);
}

/* The processor's time that this program has had, which other programs move less than the time of day. */
static double now(void) {
  struct timespec at;
  clock_gettime(CLOCK_PROCESS_CPUTIME_ID, &at);
  return 1e9 * (double)at.tv_sec + (double)at.tv_nsec;
}

/* The nanoseconds of one call, made over and over for some milliseconds: the least of several such rounds. */
static double nanoseconds(const struct call *call) {
  double least = 1e18;
  for (int round = 0; round < ROUNDS; round++) {
    double start = now(), spent = 0;
    long made = 0;
    for (long batch = 1; spent < ROUND_NANOSECONDS; batch *= 2) {
      for (long k = 0; k < batch; k++) call->make();
      made += batch;
      spent = now() - start;
    }
    if (spent / (double)made < least) least = spent / (double)made;
  }
  return least;
}

/* Whether a call is to be made: each where none is named. */
static bool asked(const struct call *call, char **names) {
  if (!*names || call->make == nothing) return true;
  while (*names && strcmp(call->name, *names)) names++;
  return *names;
}

/* Reads so many bytes, written as numbers. */
static bool get_bytes(uint8_t *to, size_t n) {
  for (size_t i = 0; i < n; i++)
    if (scanf("%hhu", &to[i]) != 1) return false;
  return true;
}

/* Reads a file that has so many bytes at most: its length, then its bytes. */
static bool get_file(uint8_t *to, size_t most, size_t *n) {
  return scanf("%zu", n) == 1 && *n <= most && get_bytes(to, *n);
}

/* Reads the records of the windows, and each window with what is due of it. */
static bool get_windows(void) {
  for (size_t k = 0; k < sizeof records / sizeof *records; k++)
    if (scanf("%d", &records[k]) != 1) return false;
  for (struct window *one = windows; one < windows + WINDOWS; one++) {
    if (scanf("%zu %zu %zu", &one->places, &one->held, &one->oldest) != 3) return false;
    if (scanf("%ld %hhu %d %d", &one->total, &one->missing, &one->least, &one->greatest) != 4) return false;
  }
  return true;
}

/* Whether the figures of a window are what is due of it. */
static bool figures_due(const struct window *due) {
  if (figures_of(due) || given.total != due->total || given.missing != due->missing) return false;
  return due->missing || (given.least == due->least && given.greatest == due->greatest);
}

/* Reads the points, which must be as many. */
static bool get_points(void) {
  for (size_t k = 0; k < POINTS; k++)
    if (scanf("%zu %zu", &points[k].u, &points[k].v) != 2) return false;
  return scanf("%*s") == EOF;
}

/* Reads the table, its files, the note, the grid, the windows and the points. */
static bool get_input(void) {
  if (scanf("%zu %zu %zu", &w, &h, &tree_len) != 3 || tree_len > sizeof tree) return false;
  if (!get_bytes(tree, tree_len)) return false;
  if (scanf("%zu", &numbers_len) != 1 || numbers_len > sizeof numbers / sizeof *numbers) return false;
  for (size_t i = 0; i < numbers_len; i++)
    if (scanf("%ld", &numbers[i]) != 1) return false;
  return get_file(file, sizeof file, &file_len) && get_file(uncounted, sizeof uncounted, &uncounted_len)
    && get_file(with_note, sizeof with_note, &with_note_len) && get_file(note, sizeof note, &note_len)
    && get_file(grid, sizeof grid, &grid_len) && get_windows() && get_points();
}

int main(int argc, char **argv) {
  char **names = argv + 2;
  if (argc < 2 || !get_input()) return 2;
  size_t q = points[0].u / 32, r = points[0].v / 32;
  of_sheet = (struct slip){.u1 = 4 * w, .v1 = 4 * h};
  of_quarter = (struct slip){.u0 = q, .v0 = r, .u1 = q + 1, .v1 = r + 1};
  /* A commit needs the slip of an enquiry. */
  if (enquire() || enquire_at()) return 1;
  /* No call may refuse; made once beforehand, none pays for being the first. A note is read and written where one is
     named. */
  for (int k = 0; k < CALLS; k++)
    if (asked(&calls[k], names) && calls[k].make()) return 1;
  if (bench_noted() || noted != 1 || note_size != note_len) return 1;
  if (write_noted() || amount != with_note_len) return 1;
  if (write_grid() || amount != grid_len || memcmp(grid_out, grid, grid_len)) return 1;
  if (read_grid() || memcmp(numbers_out, numbers, numbers_len * sizeof *numbers)) return 1;
  for (int k = 0; k < WINDOWS; k++)
    if (!figures_due(&windows[k])) return 1;
  if (!strcmp(argv[1], "stack"))
    for (int k = 0; k < CALLS; k++)
      if (asked(&calls[k], names)) printf("%s %zu\n", calls[k].name, depth(&calls[k]));
  if (!strcmp(argv[1], "time"))
    for (int k = 0; k < CALLS; k++)
      if (asked(&calls[k], names)) printf("%s %.1f\n", calls[k].name, nanoseconds(&calls[k]));
  if (!strcmp(argv[1], "count"))
    for (int k = 0; k < CALLS; k++)
      if (asked(&calls[k], names)) count(&calls[k]);
  return 0;
}
