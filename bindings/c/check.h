/* check.h: tests that say where they fail. */
#ifndef CHECK_H
#define CHECK_H
#include "covetrivet.h"
#include <stdio.h>
#include <stdlib.h>

/* A call that must answer this. */
#define ANSWERS(wanted, call)                                                                       \
  do {                                                                                              \
    uint32_t answered = (call);                                                                     \
    if (answered != (uint32_t)(wanted)) {                                                           \
      fprintf(stderr, "%s:%d: %s answered %u and not %u\n", __FILE__, __LINE__, #call, answered,     \
              (unsigned)(wanted));                                                                   \
      exit(1);                                                                                      \
    }                                                                                               \
  } while (0)

/* What must be so. */
#define SO(that)                                                                                    \
  do {                                                                                              \
    if (!(that)) {                                                                                  \
      fprintf(stderr, "%s:%d: not so: %s\n", __FILE__, __LINE__, #that);                             \
      exit(1);                                                                                      \
    }                                                                                               \
  } while (0)
#endif
