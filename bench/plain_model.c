/* The model run, written the obvious way: the list is checked, the targets are sorted, each gets its address by the plain rule,
   and each command of the pass is written as its trace and read back. The same refusals, answers and writes as the library. */
#include "baseline.h"

#include <string.h>

enum { RECORD = 18, MOST = 120, ROOM = 2048, UDID_BYTES = 16, ADDRESS_BYTE = 16, FLAG = 17 };
enum { SEND_BYTE = 1, BLOCK_WRITE = 8, BLOCK_READ = 9 };
enum { START = 256, STOP, ACK, NACK };
enum { DEFAULT_ADDRESS = 0x61, PREPARE = 1, GET_UDID = 3, ASSIGN = 4, NO_ADDRESS = 0xff, ADDRESSES = 128 };
enum { DECODE_ROOM = 255, TRACE_ROOM = 2 * 525 };

/* The used addresses, a byte each. */
struct used {
    uint8_t has[ADDRESSES];
};

/* One of the first 21: not even a fixed target may stand there. */
static int is_reserved(unsigned a)
{
    return a <= 0x08 || a == 0x0c || a == 0x28 || a == 0x37 || a == 0x61 || a >= 0x78;
}

/* On one of the other rows of Table 17: no movable target is there. */
static int is_added(unsigned a)
{
    return (a >= 0x09 && a <= 0x0b) || a == 0x2c || a == 0x2d || (a >= 0x40 && a <= 0x44) || (a >= 0x48 && a <= 0x4b);
}

/* Where not even a fixed target may stand: the first 21, and the occupied. */
static struct used barred(uint64_t low, uint64_t high)
{
    struct used used;
    for (unsigned a = 0; a < ADDRESSES; a++)
        used.has[a] = is_reserved(a) || ((a < 64 ? low >> a : high >> (a - 64)) & 1);
    return used;
}

/* These and the added rows: what is used before anyone is bound. */
static struct used starting(struct used used)
{
    for (unsigned a = 0; a < ADDRESSES; a++)
        used.has[a] |= is_added(a);
    return used;
}

/* The first free address after the last pick, round from 7Fh to 00h; the last pick itself comes at the end. */
static int next_free(const struct used *used, unsigned last)
{
    for (unsigned a = last + 1; a < ADDRESSES; a++)
        if (!used->has[a])
            return (int)a;
    for (unsigned a = 0; a <= last; a++)
        if (!used->has[a])
            return (int)a;
    return -1;
}

static int is_fixed(const uint8_t *record)
{
    return record[0] < 0x40;
}

/* The refusals 9 to 12, each over the whole list. */

static hb_model refused(uint32_t number, size_t place)
{
    hb_model m;
    memset(&m, 0, sizeof m);
    m.answer = number;
    m.place = place;
    return m;
}

static size_t malformed(const uint8_t *records, size_t n)
{
    size_t i = 0;
    while (i < n && records[i * RECORD + ADDRESS_BYTE] % 2 == 1 && records[i * RECORD + FLAG] <= 1)
        i++;
    return i;
}

static size_t repeated(const uint8_t *records, size_t n)
{
    for (size_t i = 0; i < n; i++)
        for (size_t j = 0; j < i; j++)
            if (memcmp(records + i * RECORD, records + j * RECORD, UDID_BYTES) == 0)
                return i;
    return n;
}

static size_t misplaced(const uint8_t *records, size_t n, struct used used)
{
    for (size_t i = 0; i < n; i++) {
        const uint8_t *record = records + i * RECORD;
        if (!is_fixed(record))
            continue;
        if (used.has[record[ADDRESS_BYTE] / 2])
            return i;
        used.has[record[ADDRESS_BYTE] / 2] = 1;
    }
    return n;
}

/* The order of the targets, lowest identifier first. */
static void sort(const uint8_t *records, size_t n, uint8_t *order)
{
    for (size_t i = 0; i < n; i++) {
        size_t at = i;
        while (at > 0 && memcmp(records + order[at - 1] * RECORD, records + i * RECORD, UDID_BYTES) > 0) {
            order[at] = order[at - 1];
            at--;
        }
        order[at] = (uint8_t)i;
    }
}

/* What stands on the bus. */

struct bus {
    uint8_t trace[TRACE_ROOM];
    uint8_t sent[DECODE_ROOM];
    uint8_t received[DECODE_ROOM];
};

/* Writes a command as the trace that all acknowledge, and reads it back; says whether that went well. */
static int exchange(struct bus *bus, uint8_t protocol, uint8_t command, const uint8_t *sent, size_t sent_len,
                    const uint8_t *received, size_t received_len)
{
    hb_written w = NAMED(encode)(protocol, 1, DEFAULT_ADDRESS, 0, command, sent, sent_len, received, received_len,
                                 bus->trace, sizeof bus->trace);
    return w.answer == 0
        && NAMED(decode)(protocol, 1, bus->trace, 2 * (size_t)w.symbols, bus->sent, sizeof bus->sent, bus->received,
                         sizeof bus->received).answer == 0;
}

/* Writes a trace that is cut by a NACK, and reads it back. */
static int cut(struct bus *bus, uint8_t protocol, const uint16_t *symbols, size_t n)
{
    for (size_t i = 0; i < n; i++) {
        bus->trace[2 * i] = (uint8_t)symbols[i];
        bus->trace[2 * i + 1] = (uint8_t)(symbols[i] >> 8);
    }
    return NAMED(decode)(protocol, 1, bus->trace, 2 * n, bus->sent, sizeof bus->sent, bus->received,
                         sizeof bus->received).answer == 6;
}

static const uint16_t nobody[] = { START, 2 * DEFAULT_ADDRESS, NACK, STOP };
static const uint16_t silence[] = { START, 2 * DEFAULT_ADDRESS, ACK, GET_UDID, ACK, START, 2 * DEFAULT_ADDRESS + 1, NACK,
                                    STOP };

static uint64_t half(const uint8_t *bytes)
{
    uint64_t n = 0;
    for (int i = 0; i < 8; i++)
        n = n << 8 | bytes[i];
    return n;
}

static int abandoned(hb_model *m)
{
    m->answer = 14;
    return 0;
}

/* One target: its reply, its address by the plain rule, and the Assign. A pick is the last pick from then on. */
static int serve(struct bus *bus, struct used *used, uint8_t *record, uint8_t *bindings, hb_model *m)
{
    uint8_t data[UDID_BYTES + 1];
    int own, keeps, a;
    m->gets++;
    if (!exchange(bus, BLOCK_READ, GET_UDID, NULL, 0, record, UDID_BYTES + 1))
        return abandoned(m);
    own = bus->received[ADDRESS_BYTE] / 2;
    keeps = bus->received[ADDRESS_BYTE] != NO_ADDRESS && (is_fixed(bus->received) || !used->has[own]);
    a = keeps ? own : next_free(used, m->picked);
    if (a < 0) {
        m->answer = 13;
        m->udid.high = half(bus->received);
        m->udid.low = half(bus->received + 8);
        return 0;
    }
    if (!keeps)
        m->picked = (uint32_t)a;
    memcpy(data, bus->received, UDID_BYTES);
    data[UDID_BYTES] = (uint8_t)(2 * a);
    if (!exchange(bus, BLOCK_WRITE, ASSIGN, data, sizeof data, NULL, 0))
        return abandoned(m);
    record[ADDRESS_BYTE] = bus->sent[ADDRESS_BYTE] | 1;
    record[FLAG] = 1;
    used->has[a] = 1;
    memcpy(bindings + UDID_BYTES * a, bus->sent, UDID_BYTES);
    *(a < 64 ? &m->bound.low : &m->bound.high) |= (uint64_t)1 << (a % 64);
    m->count++;
    return 1;
}

static hb_model pass(struct used used, uint8_t last, uint8_t *records, size_t n, uint8_t *bindings)
{
    static const uint8_t prepare[] = { PREPARE };
    hb_model m = refused(0, 0);
    struct bus bus;
    uint8_t order[MOST];
    m.picked = last;
    memset(bindings, 0, ROOM);
    if (n == 0) {
        if (!cut(&bus, SEND_BYTE, nobody, sizeof nobody / sizeof nobody[0]))
            abandoned(&m);
        return m;
    }
    if (!exchange(&bus, SEND_BYTE, 0, prepare, sizeof prepare, NULL, 0)) {
        abandoned(&m);
        return m;
    }
    for (size_t i = 0; i < n; i++)
        records[i * RECORD + FLAG] = 0;
    sort(records, n, order);
    for (size_t i = 0; i < n; i++)
        if (!serve(&bus, &used, records + order[i] * RECORD, bindings, &m))
            return m;
    m.gets++;
    if (!cut(&bus, BLOCK_READ, silence, sizeof silence / sizeof silence[0]))
        abandoned(&m);
    return m;
}

hb_model NAMED(run_model)(hb_pool occupied, uint8_t last, uint8_t *records, size_t records_len, uint8_t *bindings,
                          size_t bindings_len)
{
    size_t n = records_len / RECORD, place;
    struct used no_place = barred(occupied.low, occupied.high);
    if (last >= ADDRESSES)
        return refused(1, 0);
    if (bindings_len < ROOM)
        return refused(2, 0);
    if (records_len % RECORD != 0 || n > MOST)
        return refused(9, 0);
    if ((place = malformed(records, n)) < n)
        return refused(10, place);
    if ((place = repeated(records, n)) < n)
        return refused(11, place);
    if ((place = misplaced(records, n, no_place)) < n)
        return refused(12, place);
    return pass(starting(no_place), last, records, n, bindings);
}
