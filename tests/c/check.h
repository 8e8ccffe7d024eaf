/* Checks of the C tests. */
#ifndef CHECK_H
#define CHECK_H

#include "headboarded.h"

#include <stdio.h>
#include <stdlib.h>
#include <string.h>

extern unsigned long checks;

/* No address, and all of them. */
extern const hb_pool nothing, everything;

/* The last pick of a controller that has never picked. */
enum { NEVER = HB_NEVER_PICKED };

/* Counts, and stops at the first that does not hold. */
#define CHECK(holds) \
    do { \
        checks++; \
        if (!(holds)) { \
            fprintf(stderr, "FAILED %s:%d: %s\n", __FILE__, __LINE__, #holds); \
            exit(1); \
        } \
    } while (0)

/* A block of exactly so many bytes, each the same; what is read or written beside it is seen by valgrind. Of none, NULL. */
uint8_t *block(size_t bytes, uint8_t fill);

/* Every byte from one place to another is that. */
int all(const uint8_t *s, size_t from, size_t to, uint8_t fill);

void check_ground(void);
void check_pools(void);
void check_codec(void);
void check_passes(void);
void check_choices(void);
void check_model(void);
void check_module(void);

#endif
