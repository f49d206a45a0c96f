/* The numbers that the calls of kiln.h return, and their words, for C and C++. kiln.h includes this header: a program
   need not name it. */
#ifndef KILN_REFUSAL_H
#define KILN_REFUSAL_H

#include <stdint.h>

/* The causes of refusal, in words by kiln_refusal_words. Later versions may have more numbers. 14 is also for a note
   above 64 bytes that is lent to kiln_write_file: its field would have a wrong length, so the words serve for both. A
   grid is a file of two fields: 12 to 15 and 18 are also for one, and 4 for any of its numbers. */
enum kiln_refusal {
  KILN_DONE = 0,
  KILN_SIDE = 1,
  KILN_TREE = 2,
  KILN_NUMBERS_LENGTH = 3,
  KILN_COEFFICIENT_LIMIT = 4,
  KILN_PASSIVE_NOT_ZERO = 5,
  KILN_POINT = 6,
  KILN_BOX = 7,
  KILN_LEVEL = 8,
  KILN_FUNCTION = 9,
  KILN_NUMBER_LIMIT = 10,
  KILN_TARIFF = 11,
  KILN_FILE_ENDS = 12,
  KILN_FILE_TAG = 13,
  KILN_FILE_FIELD_LENGTH = 14,
  KILN_FILE_GOES_ON = 15,
  KILN_OUTPUT_LENGTH = 16,
  KILN_TREE_OUTPUT_SHORT = 17,
  KILN_FILE_OUTPUT_SHORT = 18,
  KILN_SLIP = 19,
  KILN_FILE_COUNT = 20,
  KILN_NO_TABLE = 21
};

/* What a call returned, in words; for every number, never NULL. */
static inline const char *kiln_refusal_words(uint8_t number) {
  switch (number) {
    case KILN_DONE: return "no refusal";
    case KILN_SIDE: return "a side of 0 or above 8";
    case KILN_TREE: return "tree not of the form of a region tree";
    case KILN_NUMBERS_LENGTH: return "coefficient slice not of the total length";
    case KILN_COEFFICIENT_LIMIT: return "active coefficient past its limit";
    case KILN_PASSIVE_NOT_ZERO: return "passive place not 0";
    case KILN_POINT: return "point off the sheet";
    case KILN_BOX: return "box with no area, or past the sheet";
    case KILN_LEVEL: return "level not 1 to 3 (insert) or 0 to 3 (set, activity)";
    case KILN_FUNCTION: return "set: index out of range or function passive";
    case KILN_NUMBER_LIMIT: return "set, fresh: number past its limit";
    case KILN_TARIFF: return "tariff above 99,999";
    case KILN_FILE_ENDS: return "file ends inside a head or body";
    case KILN_FILE_TAG: return "other tag than the one due";
    case KILN_FILE_FIELD_LENGTH: return "field length wrong";
    case KILN_FILE_GOES_ON: return "bytes after the last field";
    case KILN_OUTPUT_LENGTH: return "numbers or activity output not of the exact length";
    case KILN_TREE_OUTPUT_SHORT: return "tree output shorter than the tree";
    case KILN_FILE_OUTPUT_SHORT: return "file output shorter than the file";
    case KILN_SLIP: return "the slip is not the one that this table gives for the slip's own box and level";
    case KILN_FILE_COUNT: return "count in a file differs from the tree's";
    case KILN_NO_TABLE: return "no acceptable table over that tree has the grid's readings";
    default: return "a cause that this version has no words for";
  }
}

#endif
