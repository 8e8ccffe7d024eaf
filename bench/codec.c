/* Calls the library's and the plain encoder and decoder on each protocol, with and without PEC,
   checks that they agree, and dumps callgrind's count after each. Of the library both entries are called: library takes
   16-bit symbols, pairs takes a symbol as two bytes. A dump's label is
   WORK library|pairs|plain|table PROTOCOL PEC SENT RECEIVED SYMBOLS */
#include "baseline.h"
#include "symbols.h"

#include <stdio.h>
#include <stdlib.h>
#include <string.h>
#include <valgrind/callgrind.h>

enum { ROOM = 255, TRACE_ROOM = 2 * 525 };

struct transaction {
    uint8_t protocol;
    uint8_t command;
    uint8_t sent;
    uint8_t received;
};

/* Fixed sizes, then blocks of 32 bytes, then the longest. */
static const struct transaction transactions[] = {
    { 0, 0, 0, 0 }, { 1, 0, 1, 0 }, { 2, 0, 0, 1 }, { 3, 7, 1, 0 }, { 4, 7, 2, 0 }, { 5, 7, 0, 1 }, { 6, 7, 0, 2 },
    { 7, 7, 2, 2 }, { 8, 7, 32, 0 }, { 9, 7, 0, 32 }, { 10, 7, 16, 16 }, { 8, 7, 255, 0 }, { 9, 7, 0, 255 },
    { 10, 7, 200, 55 },
};

static const uint8_t ADDRESS = 0x2c;
static uint8_t sent[ROOM], received[ROOM];
/* 16-bit symbols, and pairs of bytes with the low byte first: the same memory on this kind of machine. */
static uint16_t symbols_out[TRACE_ROOM / 2], other_out[TRACE_ROOM / 2];
static uint8_t *const trace = (uint8_t *)symbols_out;
static uint8_t *const other_trace = (uint8_t *)other_out;
static uint8_t sent_back[ROOM], received_back[ROOM];

static hb_written library_encode(uint8_t protocol, uint8_t pec, uint8_t address, uint8_t direction, uint8_t command,
                                 const uint8_t *s, size_t s_len, const uint8_t *r, size_t r_len, uint8_t *out,
                                 size_t out_len)
{
    return hb_encode_symbols(protocol, pec, address, direction, command, s, s_len, r, r_len, (uint16_t *)out,
                             out_len / 2);
}

static hb_decoded library_decode(uint8_t protocol, uint8_t pec, const uint8_t *in, size_t in_len, uint8_t *s,
                                 size_t s_len, uint8_t *r, size_t r_len)
{
    return hb_decode_symbols(protocol, pec, (const uint16_t *)in, in_len / 2, s, s_len, r, r_len);
}

static void stop(const char *what)
{
    fprintf(stderr, "bench: %s\n", what);
    exit(1);
}

static char label[80];

/* The count begins after the label is written. */
#define BEGIN(work, who, t, pec, symbols) \
    snprintf(label, sizeof label, "%s %s %u %s %u %u %u", work, who, (t)->protocol, (pec) ? "p" : "-", (t)->sent, \
             (t)->received, (unsigned)(symbols)); \
    CALLGRIND_ZERO_STATS
#define END CALLGRIND_DUMP_STATS_AT(label)

static void measure_encode(const char *who, encoder *encode, const struct transaction *t, uint8_t pec, uint32_t symbols,
                           uint8_t *out)
{
    hb_written w;
    memset(out, 0, TRACE_ROOM);
    BEGIN("encode", who, t, pec, symbols);
    w = encode(t->protocol, pec, ADDRESS, 0, t->command, sent, t->sent, received, t->received, out, TRACE_ROOM);
    END;
    if (w.answer != 0 || w.symbols != symbols)
        stop("encoding was refused, or gave another length");
}

static void measure_decode(const char *who, decoder *decode, const struct transaction *t, uint8_t pec, uint32_t symbols)
{
    hb_decoded d;
    memset(sent_back, 0, ROOM);
    memset(received_back, 0, ROOM);
    BEGIN("decode", who, t, pec, symbols);
    d = decode(t->protocol, pec, trace, 2 * symbols, sent_back, ROOM, received_back, ROOM);
    END;
    if (d.answer != 0 || d.address != ADDRESS || d.command != t->command)
        stop("decoding gave another transaction");
    if (d.sent != t->sent || d.received != t->received)
        stop("decoding gave other lengths");
    if (memcmp(sent, sent_back, t->sent) != 0 || memcmp(received, received_back, t->received) != 0)
        stop("decoding gave other data");
}

/* The PEC of the bytes that the trace has before its PEC. */
static void measure_pec(const char *who, checker *pec_of, const struct transaction *t, uint32_t symbols)
{
    uint8_t message[TRACE_ROOM], given;
    size_t bytes = 0;
    for (uint32_t place = 0; place + 3 < symbols; place++)
        if (trace[2 * place + 1] == 0)
            message[bytes++] = trace[2 * place];
    BEGIN("pec", who, t, 1, symbols);
    given = pec_of(message, bytes);
    END;
    if (given != trace[2 * (symbols - 3)])
        stop("the PEC differs");
}

/* The library's first: its trace is what the others' are held against. */
static const struct program {
    const char *name;
    encoder *encode;
    decoder *decode;
    checker *pec;
} programs[] = {
    { "library", library_encode, library_decode, hb_pec }, { "pairs", hb_encode, hb_decode, hb_pec },
    { "plain", plain_encode, plain_decode, plain_pec }, { "table", table_encode, table_decode, table_pec },
};

static void measure(const struct transaction *t, uint8_t pec)
{
    uint32_t symbols = plain_encode(t->protocol, pec, ADDRESS, 0, t->command, sent, t->sent, received, t->received,
                                    trace, TRACE_ROOM).symbols;
    for (size_t k = 0; k < sizeof programs / sizeof programs[0]; k++) {
        const struct program *p = &programs[k];
        measure_encode(p->name, p->encode, t, pec, symbols, k == 0 ? trace : other_trace);
        if (k > 0 && memcmp(trace, other_trace, TRACE_ROOM) != 0)
            stop("the encoders differ");
        measure_decode(p->name, p->decode, t, pec, symbols);
        if (pec)
            measure_pec(p->name, p->pec, t, symbols);
    }
}

int main(void)
{
    for (int i = 0; i < ROOM; i++) {
        sent[i] = (uint8_t)(i * 151 + 77);
        received[i] = (uint8_t)(i * 89 + 5);
    }
    /* Once before the count, so that what the linker does at a first call falls out. */
    measure(&transactions[0], 0);
    CALLGRIND_ZERO_STATS;
    for (size_t k = 0; k < sizeof transactions / sizeof transactions[0]; k++)
        for (uint8_t pec = 0; pec < 2; pec++)
            if (transactions[k].protocol != 0 || !pec)
                measure(&transactions[k], pec);
    return 0;
}
