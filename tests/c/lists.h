/* Lists for a pass, entry by entry: traces, reports, first halves of a step, issues and declines. */
#ifndef LISTS_H
#define LISTS_H

#include "check.h"

static const hb_udid module = { 0x8001020304050607, 0x08090a0b0c0d0e0f };
static const hb_udid nobody = { 0, 0 };

/* A list of traces, reports and choices in a block of exactly its length. */
struct list {
    uint8_t *bytes;
    size_t length;
};

static inline void append(struct list *l, const uint8_t *trace, size_t symbols)
{
    l->bytes = realloc(l->bytes, l->length + 2 + 2 * symbols);
    if (l->bytes == NULL)
        exit(2);
    l->bytes[l->length] = (uint8_t)symbols;
    l->bytes[l->length + 1] = (uint8_t)(symbols >> 8);
    memcpy(l->bytes + l->length + 2, trace, 2 * symbols);
    l->length += 2 + 2 * symbols;
}

/* Appends the trace of a command. */
static inline void send(struct list *l, uint8_t kind, uint8_t address, const uint8_t *reply, size_t reply_len)
{
    uint8_t out[2 * HB_LONGEST_TRACE];
    hb_written w = hb_put_command(kind, module, address, reply, reply_len, out, sizeof out);
    CHECK(w.answer == HB_DONE);
    append(l, out, w.symbols);
}

/* The data of the module's reply to Get UDID, with this address byte. */
static inline void reply_with(uint8_t reply[17], uint8_t byte)
{
    hb_udid_put_bytes(module, reply, 17, 0);
    reply[16] = byte;
}

/* Get UDID, whose read address nobody acknowledges: 9 symbols. */
static const uint8_t silence[] = { 0, 1, 0xc2, 0, 2, 1, 3, 0, 2, 1, 0, 1, 0xc3, 0, 3, 1, 1, 1 };

/* Appends a report: HB_GONE and the address, as pairs. */
static inline void report(struct list *l, unsigned address)
{
    const uint8_t pair[] = { (uint8_t)address, (uint8_t)(address >> 8) };
    append(l, pair, 1);
    l->bytes[l->length - 4] = HB_GONE & 255;
    l->bytes[l->length - 3] = HB_GONE >> 8;
}

static inline uint32_t found(const struct list *l, uint8_t address)
{
    return hb_pass_lookup(nothing, NEVER, l->bytes, l->length, address).answer;
}

/* A fixed target at an address: its reply, and the Assign to it. */
static inline void fixed_replies(struct list *l, uint64_t high, uint8_t address)
{
    uint8_t out[2 * HB_LONGEST_TRACE], reply[17];
    hb_udid fixed = { high, 0 };
    hb_written w;
    hb_udid_put_bytes(fixed, reply, sizeof reply, 0);
    reply[16] = (uint8_t)(2 * address + 1);
    w = hb_put_command(HB_GET_UDID, nobody, 0, reply, sizeof reply, out, sizeof out);
    CHECK(w.answer == HB_DONE);
    append(l, out, w.symbols);
}

static inline void fixed_takes(struct list *l, uint64_t high, uint8_t address)
{
    uint8_t out[2 * HB_LONGEST_TRACE];
    hb_udid fixed = { high, 0 };
    hb_written w = hb_put_command(HB_ASSIGN, fixed, address, NULL, 0, out, sizeof out);
    CHECK(w.answer == HB_DONE);
    append(l, out, w.symbols);
}

static inline void fixed_joins(struct list *l, uint64_t high, uint8_t address)
{
    fixed_replies(l, high, address);
    fixed_takes(l, high, address);
}

/* Appends the reply of the module with its own address, and the Assign of it. */
static inline void join(struct list *l, uint8_t address)
{
    uint8_t reply[17];
    reply_with(reply, (uint8_t)(2 * address + 1));
    send(l, HB_GET_UDID, 0, reply, sizeof reply);
    send(l, HB_ASSIGN, address, NULL, 0);
}

/* Appends a pair so many times. */
static inline void append_pairs(struct list *l, unsigned pair, size_t times)
{
    l->bytes = realloc(l->bytes, l->length + 2 * times);
    if (l->bytes == NULL)
        exit(2);
    for (size_t i = 0; i < times; i++) {
        l->bytes[l->length++] = (uint8_t)pair;
        l->bytes[l->length++] = (uint8_t)(pair >> 8);
    }
}

/* The trace that is appended next is for the first half of a step. */
static inline void half(struct list *l)
{
    append_pairs(l, HB_CHOOSE, 1);
}

static inline void issue(struct list *l)
{
    append_pairs(l, HB_ISSUE, 1);
}

static inline void decline(struct list *l)
{
    append_pairs(l, HB_DECLINE, 1);
}

#endif
