/* EXPECT: where something is not so, says the line and ends the program with 1. */
#include <stdio.h>
#include <stdlib.h>

#define EXPECT(what)                                    \
  do {                                                  \
    if (!(what)) {                                      \
      printf("line %d: not so: %s\n", __LINE__, #what); \
      exit(1);                                          \
    }                                                   \
  } while (0)
