/* How the test programs check a fact: where it does not hold, its line and words are printed and the program ends. */
#ifndef LOKHAZIM_TESTS_CHECK_H
#define LOKHAZIM_TESTS_CHECK_H

#include <stdio.h>
#include <stdlib.h>

#define CHECK(fact)                                                           \
    do {                                                                      \
        if (!(fact)) {                                                        \
            fprintf(stderr, "FAILED: line %d: %s\n", __LINE__, #fact);        \
            exit(EXIT_FAILURE);                                               \
        }                                                                     \
    } while (0)

#define ACCEPTED(call) CHECK((call) == LOKHAZIM_ACCEPTED)
#define REFUSED(refusal, call) CHECK((call) == LOKHAZIM_##refusal)

#endif
