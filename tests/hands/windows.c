/* Document 02, "The last hours of a firing": records added to a window and the figures of those held, accepted and
   refused; what each call leaves of the slice, of the state and of its outputs; and long runs, refused records among
   them, beside a plain list of the records that were accepted.
   Prints a line for each thing that is not as due, and a count at the end. */
#include "kiln.h"
#include "held.h"

#include <string.h>

enum { MOST = 1440, GUARD = 4, ROUNDS = 3 };  /* "1,440 places"; places lent to no call; how often a run goes round */
static int32_t places[MOST + 1 + GUARD], kept[MOST + 1 + GUARD];
static int64_t accepted[ROUNDS * MOST + 10];
static const int64_t beyond[12] = {32001, -32001, 32768, -32769, 65536, INT64_C(1) << 31, -(INT64_C(1) << 31),
                                   INT64_C(1) << 32, -(INT64_C(1) << 32), (INT64_C(1) << 40) + 5, INT64_MAX, INT64_MIN};
/* Places, records held and the oldest's place of windows that are none: "of 0 or above 1,440 places, or more held than
   places, or the oldest outside them", each alone, and two or three at once. */
static const size_t none[16][3] = {{0, 0, 0}, {0, 1, 0}, {0, 0, 1}, {1441, 0, 0}, {1441, 1441, 1440},
                                   {1441, 1442, 1441}, {4, 5, 0}, {4, SIZE_MAX, 3}, {1, 2, 0}, {1440, 1441, 0},
                                   {4, 0, 4}, {4, 4, 4}, {4, 2, SIZE_MAX}, {1, 0, 1}, {1440, 1440, 1440}, {4, 5, 4}};
/* Places, records held and the oldest's place of windows that are accepted. */
static const size_t some[10][3] = {{1, 0, 0}, {1, 1, 0}, {4, 0, 0}, {4, 0, 3}, {4, 2, 3}, {4, 3, 2}, {4, 4, 1},
                                   {1440, 0, 1439}, {1440, 1439, 1}, {1440, 1440, 1439}};

/* Every place holds a number of its own that no record has, and so do those past the slice. */
static void filled(void) {
  for (size_t k = 0; k < MOST + 1 + GUARD; k++) places[k] = kept[k] = 40000 + (int32_t)k;
}

/* Whether every place, past the slice too, holds what it is due to hold. */
static int as_kept(void) {
  return !memcmp(places, kept, sizeof kept);
}

/* Whether a record is refused with this number, and slice and state are as they were. */
static int record_refused(uint8_t number, const size_t window[3], int64_t watts) {
  size_t held_now = window[1], oldest = window[2];
  int32_t *lent = window[0] ? places : NULL;
  int refused = kiln_add_record(lent, window[0], &held_now, &oldest, watts) == number;
  return refused && held_now == window[1] && oldest == window[2] && as_kept();
}

/* Whether the figures are refused with 22, and the slice and all four outputs are as they were. */
static int figures_refused(const size_t window[3]) {
  int64_t total = 61;
  uint8_t missing = 62;
  int32_t least = 63, greatest = 64, *lent = window[0] ? places : NULL;
  int refused = kiln_window_figures(lent, window[0], window[1], window[2], &total, &missing, &least, &greatest) == 22;
  return refused && total == 61 && missing == 62 && least == 63 && greatest == 64 && as_kept();
}

/* Whether the figures of some records held are these, and the slice is as it was. */
static int figures_are(const size_t window[3], int64_t sum, int32_t low, int32_t high) {
  int64_t total = 61;
  uint8_t missing = 62;
  int32_t least = 63, greatest = 64;
  int done = !kiln_window_figures(places, window[0], window[1], window[2], &total, &missing, &least, &greatest);
  return done && total == sum && missing == 0 && least == low && greatest == high && as_kept();
}

/* "With none held the total is 0 and the other two are marked missing": nothing is written to them. */
static int figures_missing(const size_t window[3]) {
  int64_t total = 61;
  uint8_t missing = 62;
  int32_t least = 63, greatest = 64;
  int done = !kiln_window_figures(places, window[0], 0, window[2], &total, &missing, &least, &greatest);
  return done && total == 0 && missing == 1 && least == 63 && greatest == 64 && as_kept();
}

/* 22 for both calls; "23, ..., after 22". */
static void no_windows(void) {
  filled();
  for (size_t k = 0; k < 16; k++) {
    HELD(figures_refused(none[k]) && record_refused(22, none[k], 0));
    HELD(record_refused(22, none[k], 32000) && record_refused(22, none[k], -32000));
    for (size_t r = 0; r < 12; r++) HELD(record_refused(22, none[k], beyond[r]));
  }
}

/* "a new record beyond 32,000 in size": both sides of the limit, and numbers whose low half alone would be taken. */
static void limits(void) {
  static const int64_t within[6] = {32000, -32000, 31999, -31999, 0, -1};
  filled();
  for (size_t k = 0; k < 10; k++) {
    for (size_t r = 0; r < 12; r++) HELD(record_refused(23, some[k], beyond[r]));
    for (size_t r = 0; r < 6; r++) {
      size_t held_now = some[k][1], oldest = some[k][2], full = held_now == some[k][0];
      size_t place = full ? oldest : (oldest + held_now) % some[k][0];
      HELD(kiln_add_record(places, some[k][0], &held_now, &oldest, within[r]) == KILN_DONE);
      kept[place] = (int32_t)within[r];
      HELD(as_kept() && held_now == some[k][1] + !full && oldest == (some[k][2] + full) % some[k][0]);
      filled();
    }
  }
}

/* "A new record takes the place after the newest held, place 0 following the last place, and the first goes to the
   place named as the oldest's. When the window is full it overwrites the oldest, and the next place becomes the
   oldest's." */
static void one_after_another(void) {
  static const int64_t watts[6] = {100, -200, 32001, 300, 400, 500};
  /* After each of the six: three places; the records held, the oldest's place; the total, the least, the greatest. */
  static const int32_t due[6][8] = {
    {40000, 40001, 100, 1, 2, 100, 100, 100}, {-200, 40001, 100, 2, 2, -100, -200, 100},
    {-200, 40001, 100, 2, 2, -100, -200, 100}, {-200, 300, 100, 3, 2, 200, -200, 300},
    {-200, 300, 400, 3, 0, 500, -200, 400}, {500, 300, 400, 3, 1, 1200, 300, 500}};
  size_t window[3] = {3, 0, 2};
  filled();
  HELD(figures_missing(window));
  for (size_t k = 0; k < 6; k++) {
    uint8_t refused = kiln_add_record(places, 3, &window[1], &window[2], watts[k]);
    memcpy(kept, due[k], 3 * sizeof *kept);
    HELD(refused == (k == 2 ? 23 : 0) && as_kept());
    HELD(window[1] == (size_t)due[k][3] && window[2] == (size_t)due[k][4]);
    HELD(figures_are(window, due[k][5], due[k][6], due[k][7]));
  }
  /* One place: each record overwrites the one before, and the place stays. */
  window[0] = 1, window[1] = 0, window[2] = 0;
  for (int32_t k = 0; k < 5; k++) {
    HELD(kiln_add_record(places, 1, &window[1], &window[2], 7 * k) == KILN_DONE);
    kept[0] = 7 * k;
    HELD(window[1] == 1 && window[2] == 0 && figures_are(window, 7 * k, 7 * k, 7 * k));
  }
}

/* Whether the figures of a window are those of the list's last records, "as many as the window has places, or all if
   fewer". */
static int as_listed(const size_t window[3], size_t listed) {
  size_t first = listed < window[0] ? 0 : listed - window[0];
  int64_t sum = 0, low = accepted[first], high = accepted[first];
  for (size_t k = first; k < listed; k++) {
    sum += accepted[k];
    low = accepted[k] < low ? accepted[k] : low;
    high = accepted[k] > high ? accepted[k] : high;
  }
  return listed ? figures_are(window, sum, (int32_t)low, (int32_t)high) : figures_missing(window);
}

/* "After any run of records into one slice, refused ones included, begun with none held and no cause for 22": so many
   are accepted, with refused ones before, between and after them. Places that are never taken keep what they held. */
static void run(size_t of, size_t oldest, size_t so_many) {
  size_t window[3] = {of, 0, oldest};
  int same = 1;
  filled();
  same &= as_listed(window, 0);
  for (size_t k = 0; k < so_many; k++) {
    for (size_t r = 0; r < k * k % 11 % 4; r++) same &= record_refused(23, window, beyond[(k + r) % 12]);
    accepted[k] = (int64_t)((7919 * k + 3) * (k + 11) % 64001) - 32000;
    same &= kiln_add_record(places, of, &window[1], &window[2], accepted[k]) == KILN_DONE;
    kept[(oldest + k) % of] = (int32_t)accepted[k];
    same &= window[1] == (k < of ? k + 1 : of) && window[2] == (k < of ? oldest : (oldest + k + 1) % of);
    same &= as_kept();
    if (of < 100 || k % 37 == 0 || k + 3 > so_many || k % of < 2) same &= as_listed(window, k + 1);
    same &= record_refused(23, window, beyond[k % 12]);
  }
  HELD(same);
}

static void runs(void) {
  static const size_t of[7] = {1, 2, 3, 7, 60, 1439, MOST};
  for (size_t k = 0; k < 7; k++) {
    run(of[k], 0, ROUNDS * of[k] + 5);
    run(of[k], of[k] - 1, ROUNDS * of[k] + 5);
    run(of[k], of[k] / 2, of[k]);
    run(of[k], of[k] / 3, of[k] / 2);
  }
}

/* "least and greatest of the records held": what stands at other places has no part, nor does the order. */
static void held_alone(void) {
  static const int32_t six[6] = {900, -5, 20, -900, 7, 7};
  static const size_t windows[6][3] = {{6, 2, 1}, {6, 1, 3}, {6, 3, 4}, {6, 6, 5}, {6, 4, 5}, {6, 2, 4}};
  static const int32_t due[6][3] = {{15, -5, 20}, {-900, -900, -900}, {914, 7, 900}, {29, -900, 900}, {922, -5, 900},
                                    {14, 7, 7}};
  filled();
  memcpy(places, six, sizeof six);
  memcpy(kept, six, sizeof six);
  for (size_t k = 0; k < 6; k++) HELD(figures_are(windows[k], due[k][0], due[k][1], due[k][2]));
  for (size_t k = 0; k < 6; k++) {
    const size_t empty[3] = {6, 0, k};
    HELD(figures_missing(empty));
  }
}

/* The total is exact for any contents of a slice: 1,440 of the greatest and of the least int32_t. After a run it is at
   most 1,440 times 32,000 in size. */
static void totals(void) {
  static const int32_t stored[4] = {INT32_MAX, INT32_MIN, -1, 32001};
  static const int64_t due[4] = {MOST * (int64_t)INT32_MAX, MOST * (int64_t)INT32_MIN, -1440, 1440 * 32001};
  static const size_t oldest[3] = {0, 700, 1439};
  for (size_t k = 0; k < 4; k++) {
    for (size_t n = 0; n < MOST + 1 + GUARD; n++) places[n] = kept[n] = stored[k];
    for (size_t n = 0; n < 3; n++) {
      const size_t whole[3] = {MOST, MOST, oldest[n]}, one[3] = {MOST, 1, oldest[n]}, empty[3] = {MOST, 0, oldest[n]};
      HELD(figures_are(whole, due[k], stored[k], stored[k]) && figures_are(one, stored[k], stored[k], stored[k]));
      HELD(figures_missing(empty));
    }
  }
  for (int64_t sign = -1; sign < 2; sign += 2) {
    size_t window[3] = {MOST, 0, 77};
    int same = 1;
    filled();
    for (size_t k = 0; k < MOST + 5; k++)
      same &= !kiln_add_record(places, MOST, &window[1], &window[2], sign * KILN_GREATEST_RECORD);
    for (size_t k = 0; k < MOST; k++) kept[k] = (int32_t)sign * 32000;
    HELD(same && figures_are(window, sign * 46080000, (int32_t)sign * 32000, (int32_t)sign * 32000));
  }
}

/* "minute records, each whole watts": S of document 01's bench sheet rises from 0 watts at u 0 to 1,000 at u 128, and
   its display's watts are handed on as they are. */
static void of_the_bench_sheet(void) {
  static const int64_t columns[4] = {-1000, 0, 1000, 2000};
  static const size_t along[4] = {0, 128, 64, 96};
  static const int32_t due[3] = {750, 1000, 500};
  static const uint8_t flat[1] = {0};
  int64_t s[211], watts = 7;
  size_t window[3] = {3, 0, 0};
  for (size_t k = 0; k < 211; k++) s[k] = k < 16 ? columns[k % 4] : 0;
  filled();
  for (size_t k = 0; k < 4; k++) {
    HELD(kiln_display(1, 1, flat, 1, s, 211, along[k], 5, &watts) == KILN_DONE);
    HELD(kiln_add_record(places, 3, &window[1], &window[2], watts) == KILN_DONE);
  }
  memcpy(kept, due, sizeof due);
  HELD(window[1] == 3 && window[2] == 1 && figures_are(window, 2250, 500, 1000));
}

/* The fixed numbers; and that 22 and 23 have no words of their own. */
static void names(void) {
  HELD(KILN_WINDOW_PLACES == MOST && KILN_WINDOW_PLACES == 24 * 60 && KILN_GREATEST_RECORD == 32000);
  HELD(!strcmp(kiln_refusal_words(22), "a cause that this version has no words for"));
  HELD(!strcmp(kiln_refusal_words(23), "a cause that this version has no words for"));
}

int main(void) {
  no_windows();
  limits();
  one_after_another();
  runs();
  held_alone();
  totals();
  of_the_bench_sheet();
  names();
  return all_held("windows");
}
