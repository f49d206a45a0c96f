/* What a test program holds: each thing counted, and a line for one that is not as due. */
#include <stdio.h>

static int made, wrong;

static void held(int good, const char *words) {
  made++;
  if (good) return;
  wrong++;
  printf("not held: %s\n", words);
}
#define HELD(condition) held(condition, #condition)

/* The count at the end, and the program's status. */
static int all_held(const char *words) {
  printf("%s: %d held, %d not\n", words, made - wrong, wrong);
  return wrong != 0;
}
