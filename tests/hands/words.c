/* Prints the header's version, and the words of every number that a call can return. */
#include "kiln.h"

#include <stdio.h>

int main(void) {
  printf("version %d.%d.%d\n", KILN_VERSION_MAJOR, KILN_VERSION_MINOR, KILN_VERSION_PATCH);
  for (unsigned number = 0; number < 256; number++) printf("%u %s\n", number, kiln_refusal_words((uint8_t)number));
  return 0;
}
