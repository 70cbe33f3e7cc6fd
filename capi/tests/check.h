/* What the tests share. */
#ifndef CHECK_H
#define CHECK_H

#include "mooringakee.h"
#include <stdio.h>
#include <stdlib.h>

/* Ends the program where something is not as it must be. */
#define CHECK(is_so)                                                                     \
    do {                                                                                 \
        if (!(is_so)) {                                                                  \
            fprintf(stderr, "%s:%d: it must be that %s\n", __FILE__, __LINE__, #is_so);  \
            abort();                                                                     \
        }                                                                                \
    } while (0)

/* Checks that a call answers this code. */
#define ANSWERS(name, call)                                                              \
    do {                                                                                 \
        int32_t code_ = (call);                                                          \
        if (code_ != MOORINGAKEE_##name) {                                               \
            fprintf(stderr, "%s:%d: %s answers %s and not %s\n", __FILE__, __LINE__,     \
                    #call, mooringakee_code_name(code_), #name);                         \
            abort();                                                                     \
        }                                                                                \
    } while (0)

#endif
