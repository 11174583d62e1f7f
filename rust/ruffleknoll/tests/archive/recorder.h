/* How the calls of the recorder print what they are lent: see tests/archive.rs. */
#include <stdio.h>
#include "ruffleknoll.h"

#define SLICE(name, length) \
    do { \
        printf(" " #name "=["); \
        for (uint64_t i = 0; i < length; i++) { \
            printf(i ? " %lu" : "%lu", (unsigned long)name[i]); \
        } \
        printf("]"); \
    } while (0)

#define NUMBER(name) printf(" " #name "=%lu", (unsigned long)name)
