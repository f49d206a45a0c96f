/* A point and a box from their numbers. */
#include "kiln_table.h"

static struct kiln_point at(size_t u, size_t v) {
  struct kiln_point point = {u, v};
  return point;
}

static struct kiln_box box(size_t u0, size_t v0, size_t u1, size_t v1) {
  struct kiln_box made_box = {u0, v0, u1, v1};
  return made_box;
}
