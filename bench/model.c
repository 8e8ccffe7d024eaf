/* Runs the library's and the plain models over shelves of 1, 10, 60 and 120 targets, checks that they agree on the answer and
   on every byte of both buffers, also on lists that are refused, and dumps callgrind's count after each. A dump's label is
   WHO TARGETS ANSWER BOUND GETS */
#include "baseline.h"

#include <stdio.h>
#include <stdlib.h>
#include <string.h>
#include <valgrind/callgrind.h>

enum { RECORD = 18, MOST = 120, ROOM = 2048, BEYOND = 32, LIST_ROOM = (MOST + 2) * RECORD, NEVER = 127 };

static const struct program {
    const char *name;
    runner *run;
} programs[] = { { "library", hb_run_model }, { "plain", plain_run_model }, { "table", table_run_model } };
enum { PROGRAMS = sizeof programs / sizeof programs[0] };

struct result {
    hb_model answer;
    uint8_t records[LIST_ROOM];
    uint8_t bindings[ROOM + BEYOND];
};

static void stop(const char *what)
{
    fprintf(stderr, "bench: %s\n", what);
    exit(1);
}

static uint32_t seed = 1;

static uint8_t any(void)
{
    seed = seed * 1664525 + 1013904223;
    return (uint8_t)(seed >> 24);
}

/* Targets of all kinds in no order: the fixed ones on addresses from 40h up, the first of them on rows of Table 17; of the
   others some hold none, some any. */
static void fill(uint8_t *records, size_t n)
{
    uint8_t fixed_at = 0x40;
    for (size_t i = 0; i < n; i++) {
        uint8_t *record = records + i * RECORD;
        for (int k = 0; k < 16; k++)
            record[k] = any();
        record[0] = (uint8_t)(record[0] % 64 + 64 * (i % 4));
        record[16] = i % 3 == 0 ? 0xff : any() | 1;
        if (record[0] < 64) {
            if (fixed_at == 0x61)
                fixed_at++;
            record[16] = (uint8_t)(2 * fixed_at++ + 1);
        }
        record[17] = any() % 2;
    }
}

static void run(const struct program *p, uint64_t low, uint8_t last, const uint8_t *records, size_t length, size_t room,
                const char *label, struct result *r)
{
    hb_pool occupied = { low, 0 };
    memcpy(r->records, records, LIST_ROOM);
    memset(r->bindings, 0xa5, sizeof r->bindings);
    memset(&r->answer, 0, sizeof r->answer);
    CALLGRIND_ZERO_STATS;
    r->answer = p->run(occupied, last, r->records, length, r->bindings, room);
    if (label != NULL)
        CALLGRIND_DUMP_STATS_AT(label);
}

static int same(const hb_model *a, const hb_model *b)
{
    return a->answer == b->answer && a->count == b->count && a->gets == b->gets && a->picked == b->picked
        && a->place == b->place && a->udid.high == b->udid.high && a->udid.low == b->udid.low && a->bound.low == b->bound.low
        && a->bound.high == b->bound.high;
}

/* All programs on one input: the answer that all give. */
static hb_model compare(uint64_t occupied, uint8_t last, const uint8_t *records, size_t length, size_t room)
{
    static struct result a, b;
    run(&programs[0], occupied, last, records, length, room, NULL, &a);
    for (int k = 1; k < PROGRAMS; k++) {
        run(&programs[k], occupied, last, records, length, room, NULL, &b);
        if (!same(&a.answer, &b.answer))
            stop("the library and plain C answer differently");
        if (memcmp(a.records, b.records, sizeof a.records) != 0)
            stop("the library and plain C leave other records");
        if (memcmp(a.bindings, b.bindings, sizeof a.bindings) != 0)
            stop("the library and plain C leave other bindings");
    }
    return a.answer;
}

static void compare_refusals(void)
{
    static uint8_t good[LIST_ROOM], bad[LIST_ROOM];
    static const struct {
        uint32_t answer;
        size_t length, room, byte;
        uint8_t value;
    } faults[] = {
        { 2, 180, ROOM - 1, 0, 0 }, { 9, 181, ROOM, 0, 0 }, { 9, (MOST + 1) * RECORD, ROOM, 0, 0 },
        { 10, 180, ROOM, 5 * RECORD + 16, 0xfe }, { 10, 180, ROOM, 5 * RECORD + 17, 2 },
        { 12, 180, ROOM, 4 * RECORD + 16, 0xff },
    };
    fill(good, MOST);
    for (size_t k = 0; k < sizeof faults / sizeof faults[0]; k++) {
        memcpy(bad, good, sizeof bad);
        if (faults[k].byte != 0)
            bad[faults[k].byte] = faults[k].value;
        if (compare(0, NEVER, bad, faults[k].length, faults[k].room).answer != faults[k].answer)
            stop("a list was refused with another number");
        if (compare(0, NEVER + 1, bad, faults[k].length, faults[k].room).answer != 1)
            stop("a last pick was not refused first");
    }
    memcpy(bad, good, sizeof bad);
    memcpy(bad + 7 * RECORD, bad + 3 * RECORD, 16);
    if (compare(0, NEVER, bad, 10 * RECORD, ROOM).answer != 11 || compare(0, NEVER, bad, 0, ROOM + BEYOND).gets != 0)
        stop("a list was refused with another number");
    if (compare(0, 255, bad, 10 * RECORD, ROOM).answer != 1)
        stop("a last pick was not refused first");
}

/* A fixed target on 2Ch, a row of Table 17, and a movable one that held it: the first stays, unless 2Ch is occupied. */
static void compare_rows(void)
{
    static uint8_t records[LIST_ROOM];
    hb_model m;
    memset(records, 0, sizeof records);
    records[16] = records[RECORD + 16] = 2 * 0x2c + 1;
    records[RECORD] = 0x80;
    m = compare(0, 0x2b, records, 2 * RECORD, ROOM);
    if (m.answer != 0 || m.bound.low != ((uint64_t)1 << 0x2c | (uint64_t)1 << 0x2e) || m.picked != 0x2e)
        stop("a row of the table was not passed over");
    if (compare((uint64_t)1 << 0x2c, NEVER, records, 2 * RECORD, ROOM).answer != 12)
        stop("an occupied row was not refused");
}

static void measure(size_t targets)
{
    static uint8_t records[LIST_ROOM];
    static struct result r;
    char label[80];
    hb_model m;
    memset(records, 0, sizeof records);
    fill(records, targets);
    for (size_t n = 0; n <= targets; n++)
        compare(0xff00000000 * n, (uint8_t)(n * 37 % (NEVER + 1)), records, n * RECORD, ROOM + n % BEYOND);
    m = compare(0, NEVER, records, targets * RECORD, ROOM);
    for (int k = 0; k < PROGRAMS; k++) {
        snprintf(label, sizeof label, "%s %zu %u %u %u", programs[k].name, targets, m.answer, m.count, m.gets);
        run(&programs[k], 0, NEVER, records, targets * RECORD, ROOM, label, &r);
    }
}

/* A shelf of 10 targets after every last pick: the runs end with many different ones. */
static void compare_last_picks(void)
{
    static uint8_t records[LIST_ROOM];
    uint8_t seen[NEVER + 1] = { 0 };
    size_t different = 0;
    memset(records, 0, sizeof records);
    fill(records, 10);
    for (unsigned last = 0; last <= NEVER; last++) {
        hb_model m = compare(0, (uint8_t)last, records, 10 * RECORD, ROOM);
        if (m.answer != 0 || m.picked > NEVER)
            stop("a run after a last pick did not end");
        different += !seen[m.picked];
        seen[m.picked] = 1;
    }
    if (different < 50)
        stop("the last pick makes too little of a difference");
}

int main(void)
{
    compare_refusals();
    compare_rows();
    measure(1);
    measure(10);
    measure(60);
    measure(120);
    compare_last_picks();
    return 0;
}
