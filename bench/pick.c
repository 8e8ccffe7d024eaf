/* Picks the next free address with the library and with plain C that walks, from several sets and after several last picks, checks
   that they give what is due, and dumps callgrind's count after each. A dump's label is  library|plain SET LAST PICKED */
#include "headboarded.h"

#include <stdio.h>
#include <stdlib.h>
#include <valgrind/callgrind.h>

enum { ADDRESSES = 128, NONE = 128 };

#define ALL UINT64_MAX
#define EVEN 0x5555555555555555u
#define BIT(n) ((uint64_t)1 << (n))
/* The rows of Table 17: 00h to 0Ch, 28h, 2Ch, 2Dh and 37h; 40h to 44h, 48h to 4Bh, 61h and 78h to 7Fh. */
#define LISTED { 0x0080310000001fff, 0xff00000200000f1f }

/* In the sets with one free address that one is the last pick: the walk to it goes all the way round. */
static const struct {
    const char *name;
    hb_pool used;
    uint8_t last;
    uint8_t due;
} cases[] = {
    { "empty", { 0, 0 }, 127, 0 },
    { "empty", { 0, 0 }, 0, 1 },
    { "empty", { 0, 0 }, 63, 64 },
    { "empty", { 0, 0 }, 126, 127 },
    { "full", { ALL, ALL }, 127, NONE },
    { "full", { ALL, ALL }, 0, NONE },
    { "full", { ALL, ALL }, 64, NONE },
    { "one-free", { ALL ^ BIT(0), ALL }, 0, 0 },
    { "one-free", { ALL ^ BIT(63), ALL }, 63, 63 },
    { "one-free", { ALL, ALL ^ BIT(0) }, 64, 64 },
    { "one-free", { ALL, ALL ^ BIT(62) }, 126, 126 },
    { "one-free", { ALL, ALL ^ BIT(63) }, 127, 127 },
    { "every-other", { EVEN, EVEN }, 127, 1 },
    { "every-other", { EVEN, EVEN }, 63, 65 },
    { "every-other", { EVEN, EVEN }, 126, 127 },
    { "listed", LISTED, 127, 0x0d },
    { "listed", LISTED, 0x3f, 0x45 },
    { "listed", LISTED, 0x77, 0x0d },
};

typedef uint8_t picker(hb_pool used, uint8_t last);

static uint8_t plain_next_free(hb_pool used, uint8_t last)
{
    unsigned a = last < ADDRESSES ? last : ADDRESSES - 1;
    for (unsigned steps = 0; steps < ADDRESSES; steps++) {
        a = (a + 1) % ADDRESSES;
        if (!((a < 64 ? used.low >> a : used.high >> (a - 64)) & 1))
            return (uint8_t)a;
    }
    return NONE;
}

static const struct program {
    const char *name;
    picker *pick;
} programs[] = { { "library", hb_pool_next_free }, { "plain", plain_next_free } };
enum { PROGRAMS = sizeof programs / sizeof programs[0], CASES = sizeof cases / sizeof cases[0] };

static void stop(const char *what)
{
    fprintf(stderr, "bench: %s\n", what);
    exit(1);
}

/* The count begins after the label is written. The program is not known to the compiler, so that nothing of the call is left out. */
static void measure(const struct program *p, size_t k)
{
    picker *volatile pick = p->pick;
    hb_pool used = cases[k].used;
    uint8_t last = cases[k].last, picked;
    char label[80];
    snprintf(label, sizeof label, "%s %s %u %u", p->name, cases[k].name, last, cases[k].due);
    CALLGRIND_ZERO_STATS;
    picked = pick(used, last);
    CALLGRIND_DUMP_STATS_AT(label);
    if (picked != cases[k].due)
        stop("another address was picked");
}

/* After every number, from every set: the library and plain C pick the same. */
static void compare(void)
{
    for (size_t k = 0; k < CASES; k++)
        for (unsigned last = 0; last < 256; last++)
            if (hb_pool_next_free(cases[k].used, (uint8_t)last) != plain_next_free(cases[k].used, (uint8_t)last))
                stop("the library and plain C pick differently");
}

int main(void)
{
    /* Once before the count, so that what the linker does at a first call falls out. */
    compare();
    measure(&programs[0], 0);
    for (size_t k = 0; k < CASES; k++)
        for (size_t i = 0; i < PROGRAMS; i++)
            measure(&programs[i], k);
    return 0;
}
