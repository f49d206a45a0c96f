/* The last hours of a firing: the two calls that keep a window over a long run of records and tell the total, the
   least and the greatest of those held, for C and C++. kiln.h includes this header, and says what holds of every call:
   a program need not name it.

   A record is whole watts, as kiln_display gives them, one for each minute. A window is a slice of places for records,
   1 to KILN_WINDOW_PLACES of them, and beside it a state of two numbers: how many records are held, and the place of
   the oldest. Places count from 0, and place 0 follows the last: of the records held, the one k after the oldest is at
   place (oldest + k) % window_len. Slice and state are the caller's, who keeps them from call to call. A window begins
   with none held and the oldest's place anywhere in the slice: 0 and 0 will do. What the slice holds then does not
   matter.

   What is proved of a run: let it begin with none held and no cause for 22, hand each call the state that the one
   before left, and let nothing else write the slice. Then the figures for the state last left are the sum, the least
   and the greatest of the last records that were accepted, as many as the window has places, or all where they are
   fewer; records that were refused in between have no part in them. Places that are not held still hold what they held
   at the start. So after such a run no total is beyond 46,080,000 in size, 1,440 times 32,000.

   The total of minute records in watts is in watt minutes: divided by 60 it is watt hours.

   Refusals of both calls
     22   a window of 0 or above 1,440 places, or more held than places, or the oldest outside them
     23   a new record beyond 32,000 in size, after 22
   kiln_refusal.h has no names for these two numbers, and kiln_refusal_words tells neither: it has for both the words
   of a number that it does not know.

   Both calls are new in 0.10.0, and no other call moved: a program that keeps no window need not change. */
#ifndef KILN_WINDOW_H
#define KILN_WINDOW_H

#include "kiln_refusal.h"
#include "kiln_sizes.h"

#include <stddef.h>
#include <stdint.h>

#ifdef __cplusplus
extern "C" {
#endif

/* Adds a record to a window. While there is room the record takes the place after the newest held, the first one the
   place named as the oldest's, and one more is held. In a full window it overwrites the oldest, and the next place
   becomes the oldest's. Every other place is untouched.

   window   the places, of which one is written
   held     how many records are held: is read, and receives one more unless the window is full
   oldest   the place of the oldest, or where none is held that of the first to come: is read, and receives the next
            place, 0 after the last, where the window is full
   watts    the record, -32,000 to 32,000; an int64_t, so that what kiln_display gives is handed on as it is

   Refusals: 22, then 23. A refusal leaves window, held and oldest as they were: the run goes on as if the record had
   not been. */
uint8_t kiln_add_record(int32_t *window, size_t window_len, size_t *held, size_t *oldest, int64_t watts);

/* The total, the least and the greatest of the records that a window holds. Writes nothing to the window. The figures
   are those of whatever stands at the places held: stored records are not judged, and the total is exact for any.

   window           the places
   held, oldest     the state, as kiln_add_record left it
   total            receives the sum of the records held, 0 where none is
   missing          receives 1 where none is held, so that there is neither a least nor a greatest, and 0 where some are
   least, greatest  receive the least and the greatest record held; where missing receives 1 they are left as they
                    were, and hold no figure

   Refusals: 22. A refusal leaves total, missing, least and greatest as they were. */
uint8_t kiln_window_figures(const int32_t *window, size_t window_len, size_t held, size_t oldest, int64_t *total,
                            uint8_t *missing, int32_t *least, int32_t *greatest);

#ifdef __cplusplus
}
#endif

#endif
