/* The PEC, and an encoder and a decoder of the eleven protocols, written the obvious way:
   the same checks, answers and writes as the library. */
#include "baseline.h"

#include <string.h>

enum { QUICK, SEND_BYTE, RECEIVE_BYTE, WRITE_BYTE, WRITE_WORD, READ_BYTE, READ_WORD, PROCESS_CALL,
       BLOCK_WRITE, BLOCK_READ, BLOCK_PROCESS_CALL };
enum { START = 256, STOP, ACK, NACK };
enum { BLOCK_LIMIT = 255 };

#ifdef PEC_BY_TABLE
static const uint8_t remainders[256] = {
    0x00, 0x07, 0x0e, 0x09, 0x1c, 0x1b, 0x12, 0x15, 0x38, 0x3f, 0x36, 0x31, 0x24, 0x23, 0x2a, 0x2d,
    0x70, 0x77, 0x7e, 0x79, 0x6c, 0x6b, 0x62, 0x65, 0x48, 0x4f, 0x46, 0x41, 0x54, 0x53, 0x5a, 0x5d,
    0xe0, 0xe7, 0xee, 0xe9, 0xfc, 0xfb, 0xf2, 0xf5, 0xd8, 0xdf, 0xd6, 0xd1, 0xc4, 0xc3, 0xca, 0xcd,
    0x90, 0x97, 0x9e, 0x99, 0x8c, 0x8b, 0x82, 0x85, 0xa8, 0xaf, 0xa6, 0xa1, 0xb4, 0xb3, 0xba, 0xbd,
    0xc7, 0xc0, 0xc9, 0xce, 0xdb, 0xdc, 0xd5, 0xd2, 0xff, 0xf8, 0xf1, 0xf6, 0xe3, 0xe4, 0xed, 0xea,
    0xb7, 0xb0, 0xb9, 0xbe, 0xab, 0xac, 0xa5, 0xa2, 0x8f, 0x88, 0x81, 0x86, 0x93, 0x94, 0x9d, 0x9a,
    0x27, 0x20, 0x29, 0x2e, 0x3b, 0x3c, 0x35, 0x32, 0x1f, 0x18, 0x11, 0x16, 0x03, 0x04, 0x0d, 0x0a,
    0x57, 0x50, 0x59, 0x5e, 0x4b, 0x4c, 0x45, 0x42, 0x6f, 0x68, 0x61, 0x66, 0x73, 0x74, 0x7d, 0x7a,
    0x89, 0x8e, 0x87, 0x80, 0x95, 0x92, 0x9b, 0x9c, 0xb1, 0xb6, 0xbf, 0xb8, 0xad, 0xaa, 0xa3, 0xa4,
    0xf9, 0xfe, 0xf7, 0xf0, 0xe5, 0xe2, 0xeb, 0xec, 0xc1, 0xc6, 0xcf, 0xc8, 0xdd, 0xda, 0xd3, 0xd4,
    0x69, 0x6e, 0x67, 0x60, 0x75, 0x72, 0x7b, 0x7c, 0x51, 0x56, 0x5f, 0x58, 0x4d, 0x4a, 0x43, 0x44,
    0x19, 0x1e, 0x17, 0x10, 0x05, 0x02, 0x0b, 0x0c, 0x21, 0x26, 0x2f, 0x28, 0x3d, 0x3a, 0x33, 0x34,
    0x4e, 0x49, 0x40, 0x47, 0x52, 0x55, 0x5c, 0x5b, 0x76, 0x71, 0x78, 0x7f, 0x6a, 0x6d, 0x64, 0x63,
    0x3e, 0x39, 0x30, 0x37, 0x22, 0x25, 0x2c, 0x2b, 0x06, 0x01, 0x08, 0x0f, 0x1a, 0x1d, 0x14, 0x13,
    0xae, 0xa9, 0xa0, 0xa7, 0xb2, 0xb5, 0xbc, 0xbb, 0x96, 0x91, 0x98, 0x9f, 0x8a, 0x8d, 0x84, 0x83,
    0xde, 0xd9, 0xd0, 0xd7, 0xc2, 0xc5, 0xcc, 0xcb, 0xe6, 0xe1, 0xe8, 0xef, 0xfa, 0xfd, 0xf4, 0xf3
};

static uint8_t pec_byte(uint8_t crc, uint8_t byte)
{
    return remainders[crc ^ byte];
}
#else
static uint8_t pec_byte(uint8_t crc, uint8_t byte)
{
    crc ^= byte;
    for (int bit = 0; bit < 8; bit++)
        crc = (uint8_t)(crc & 0x80 ? crc << 1 ^ 0x07 : crc << 1);
    return crc;
}
#endif

uint8_t NAMED(pec)(const uint8_t *s, size_t n)
{
    uint8_t crc = 0;
    for (size_t i = 0; i < n; i++)
        crc = pec_byte(crc, s[i]);
    return crc;
}

/* What the protocols have. */

static int known(uint8_t protocol, uint8_t pec)
{
    return protocol <= BLOCK_PROCESS_CALL && !(protocol == QUICK && pec);
}

static int has_command(uint8_t protocol)
{
    return protocol >= WRITE_BYTE;
}

static int counts_sent(uint8_t protocol)
{
    return protocol == BLOCK_WRITE || protocol == BLOCK_PROCESS_CALL;
}

static int counts_received(uint8_t protocol)
{
    return protocol == BLOCK_READ || protocol == BLOCK_PROCESS_CALL;
}

static int reads(uint8_t protocol)
{
    switch (protocol) {
    case RECEIVE_BYTE: case READ_BYTE: case READ_WORD: case PROCESS_CALL: case BLOCK_READ: case BLOCK_PROCESS_CALL:
        return 1;
    default:
        return 0;
    }
}

static size_t fixed_sent(uint8_t protocol)
{
    switch (protocol) {
    case SEND_BYTE: case WRITE_BYTE:
        return 1;
    case WRITE_WORD: case PROCESS_CALL:
        return 2;
    default:
        return 0;
    }
}

static size_t fixed_received(uint8_t protocol)
{
    switch (protocol) {
    case RECEIVE_BYTE: case READ_BYTE:
        return 1;
    case READ_WORD: case PROCESS_CALL:
        return 2;
    default:
        return 0;
    }
}

static int lengths_allowed(uint8_t protocol, size_t sent, size_t received)
{
    switch (protocol) {
    case BLOCK_WRITE:
        return sent <= BLOCK_LIMIT && received == 0;
    case BLOCK_READ:
        return sent == 0 && received <= BLOCK_LIMIT;
    case BLOCK_PROCESS_CALL:
        return sent <= BLOCK_LIMIT && received <= BLOCK_LIMIT - sent;
    default:
        return sent == fixed_sent(protocol) && received == fixed_received(protocol);
    }
}

static size_t trace_length(uint8_t protocol, uint8_t pec, size_t sent, size_t received)
{
    size_t bytes = 1 + sent + received + (pec ? 1 : 0);
    size_t starts = 1;
    if (has_command(protocol))
        bytes++;
    if (counts_sent(protocol))
        bytes++;
    if (counts_received(protocol))
        bytes++;
    if (reads(protocol) && protocol != RECEIVE_BYTE) {
        bytes++;
        starts++;
    }
    return starts + 2 * bytes + 1;
}

/* Encoding. */

struct writer {
    uint8_t *out;
    size_t symbols;
    uint8_t with_pec;
    uint8_t pec;
};

static void put(struct writer *w, unsigned symbol)
{
    w->out[2 * w->symbols] = (uint8_t)symbol;
    w->out[2 * w->symbols + 1] = (uint8_t)(symbol >> 8);
    w->symbols++;
}

static void put_byte(struct writer *w, uint8_t byte, unsigned answer)
{
    put(w, byte);
    put(w, answer);
    if (w->with_pec)
        w->pec = pec_byte(w->pec, byte);
}

static void put_write_phase(struct writer *w, uint8_t protocol, uint8_t first, uint8_t command,
                            const uint8_t *sent, size_t sent_len)
{
    put(w, START);
    put_byte(w, first, ACK);
    if (has_command(protocol))
        put_byte(w, command, ACK);
    if (counts_sent(protocol))
        put_byte(w, (uint8_t)sent_len, ACK);
    for (size_t i = 0; i < sent_len; i++)
        put_byte(w, sent[i], ACK);
    if (w->with_pec && !reads(protocol))
        put_byte(w, w->pec, ACK);
}

static void put_read_phase(struct writer *w, uint8_t protocol, uint8_t address,
                           const uint8_t *received, size_t received_len)
{
    size_t left = received_len + (w->with_pec ? 1 : 0);
    if (protocol != RECEIVE_BYTE) {
        put(w, START);
        put_byte(w, (uint8_t)(2 * address + 1), ACK);
    }
    if (counts_received(protocol))
        put_byte(w, (uint8_t)received_len, left == 0 ? NACK : ACK);
    for (size_t i = 0; i < received_len; i++) {
        left--;
        put_byte(w, received[i], left == 0 ? NACK : ACK);
    }
    if (w->with_pec)
        put_byte(w, w->pec, NACK);
}

hb_written NAMED(encode)(uint8_t protocol, uint8_t pec, uint8_t address, uint8_t direction, uint8_t command,
                         const uint8_t *sent, size_t sent_len, const uint8_t *received, size_t received_len,
                         uint8_t *out, size_t out_len)
{
    hb_written result = { 1, 0 };
    struct writer w = { out, 0, pec, 0 };
    if (!known(protocol, pec) || address > 127 || direction > 1)
        return result;
    if ((protocol != QUICK && direction != 0) || (!has_command(protocol) && command != 0))
        return result;
    if (!lengths_allowed(protocol, sent_len, received_len))
        return result;
    result.answer = 2;
    if (out_len / 2 < trace_length(protocol, pec, sent_len, received_len))
        return result;
    if (protocol == RECEIVE_BYTE)
        direction = 1;
    put_write_phase(&w, protocol, (uint8_t)(2 * address + direction), command, sent, sent_len);
    if (reads(protocol))
        put_read_phase(&w, protocol, address, received, received_len);
    put(&w, STOP);
    result.answer = 0;
    result.symbols = (uint32_t)w.symbols;
    return result;
}

/* Decoding: each function says whether the trace still fits; if not, answer and value are set. */

struct reader {
    const uint8_t *trace;
    size_t symbols;
    size_t at;
    size_t bytes;
    uint8_t with_pec;
    uint8_t pec;
    uint32_t answer;
    uint32_t value;
};

static unsigned symbol_at(const struct reader *r, size_t place)
{
    return r->trace[2 * place] | (unsigned)r->trace[2 * place + 1] << 8;
}

static int fail(struct reader *r, uint32_t answer, size_t value)
{
    r->answer = answer;
    r->value = (uint32_t)value;
    return 0;
}

static int wrong(struct reader *r, uint32_t answer)
{
    return fail(r, symbol_at(r, r->at) > NACK ? 3 : answer, r->at);
}

static int expect(struct reader *r, unsigned symbol)
{
    if (r->at == r->symbols)
        return fail(r, 4, r->symbols);
    if (symbol_at(r, r->at) != symbol)
        return wrong(r, 5);
    r->at++;
    return 1;
}

/* A byte from lowest to highest. */
static int take_byte(struct reader *r, unsigned lowest, unsigned highest, uint8_t *byte)
{
    unsigned symbol;
    if (r->at == r->symbols)
        return fail(r, 4, r->symbols);
    symbol = symbol_at(r, r->at);
    if (symbol < lowest || symbol > highest)
        return wrong(r, 5);
    *byte = (uint8_t)symbol;
    r->at++;
    r->bytes++;
    return 1;
}

static int target_ack(struct reader *r)
{
    if (r->at == r->symbols || symbol_at(r, r->at) != NACK)
        return expect(r, ACK);
    r->at++;
    if (!expect(r, STOP))
        return 0;
    if (r->at < r->symbols)
        return wrong(r, 8);
    return fail(r, 6, r->bytes - 1);
}

static void count_in(struct reader *r, uint8_t byte)
{
    if (r->with_pec)
        r->pec = pec_byte(r->pec, byte);
}

static int take_sent(struct reader *r, uint8_t *byte)
{
    if (!take_byte(r, 0, 255, byte) || !target_ack(r))
        return 0;
    count_in(r, *byte);
    return 1;
}

static int take_received(struct reader *r, unsigned highest, uint8_t *byte)
{
    if (!take_byte(r, 0, highest, byte))
        return 0;
    count_in(r, *byte);
    return 1;
}

/* What a trace that fits holds, and where. */
struct found {
    uint8_t first;
    uint8_t command;
    uint8_t sent;
    uint8_t received;
    uint8_t pec;
    uint8_t right_pec;
    size_t sent_place;
    size_t received_place;
    size_t pec_place;
};

static int take_pec(struct reader *r, struct found *f)
{
    f->right_pec = r->pec;
    f->pec_place = r->at;
    return take_byte(r, 0, 255, &f->pec);
}

static int take_first(struct reader *r, uint8_t protocol, struct found *f)
{
    if (!expect(r, START) || !take_byte(r, 0, 255, &f->first))
        return 0;
    if (protocol != QUICK && f->first % 2 != (protocol == RECEIVE_BYTE)) {
        r->at--;
        return wrong(r, 5);
    }
    count_in(r, f->first);
    return target_ack(r);
}

static int take_write_phase(struct reader *r, uint8_t protocol, struct found *f)
{
    uint8_t byte;
    if (!take_first(r, protocol, f))
        return 0;
    if (has_command(protocol) && !take_sent(r, &f->command))
        return 0;
    f->sent = (uint8_t)fixed_sent(protocol);
    if (counts_sent(protocol) && !take_sent(r, &f->sent))
        return 0;
    f->sent_place = r->at;
    for (unsigned i = 0; i < f->sent; i++)
        if (!take_sent(r, &byte))
            return 0;
    if (r->with_pec && !reads(protocol))
        return take_pec(r, f) && target_ack(r);
    return 1;
}

static int take_address_again(struct reader *r, uint8_t first)
{
    uint8_t byte;
    if (!expect(r, START) || !take_byte(r, first + 1u, first + 1u, &byte))
        return 0;
    count_in(r, byte);
    return target_ack(r);
}

static int take_read_phase(struct reader *r, uint8_t protocol, struct found *f)
{
    uint8_t byte;
    unsigned with_pec = r->with_pec ? 1 : 0;
    if (protocol != RECEIVE_BYTE && !take_address_again(r, f->first))
        return 0;
    f->received = (uint8_t)fixed_received(protocol);
    if (counts_received(protocol)) {
        if (!take_received(r, (unsigned)BLOCK_LIMIT - f->sent, &f->received))
            return 0;
        if (!expect(r, f->received + with_pec == 0 ? NACK : ACK))
            return 0;
    }
    f->received_place = r->at;
    for (unsigned left = f->received + with_pec; left > with_pec; left--)
        if (!take_received(r, 255, &byte) || !expect(r, left == 1 ? NACK : ACK))
            return 0;
    return !with_pec || (take_pec(r, f) && expect(r, NACK));
}

static int take_trace(struct reader *r, uint8_t protocol, struct found *f)
{
    if (!take_write_phase(r, protocol, f))
        return 0;
    if (reads(protocol) && !take_read_phase(r, protocol, f))
        return 0;
    if (!expect(r, STOP))
        return 0;
    if (r->at < r->symbols)
        return wrong(r, 8);
    if (r->with_pec && f->pec != f->right_pec)
        return fail(r, 7, f->pec_place);
    return 1;
}

static void copy(const struct reader *r, size_t place, size_t count, uint8_t *to)
{
    for (size_t i = 0; i < count; i++)
        to[i] = (uint8_t)symbol_at(r, place + 2 * i);
}

hb_decoded NAMED(decode)(uint8_t protocol, uint8_t pec, const uint8_t *trace, size_t trace_len,
                         uint8_t *sent, size_t sent_len, uint8_t *received, size_t received_len)
{
    struct reader r = { trace, trace_len / 2, 0, 0, pec, 0, 0, 0 };
    hb_decoded result;
    struct found f;
    memset(&result, 0, sizeof result);
    memset(&f, 0, sizeof f);
    if (!known(protocol, pec)) {
        result.answer = 1;
        return result;
    }
    if (sent_len < BLOCK_LIMIT || received_len < BLOCK_LIMIT) {
        result.answer = 2;
        return result;
    }
    if (!take_trace(&r, protocol, &f)) {
        result.answer = r.answer;
        result.value = r.value;
        return result;
    }
    copy(&r, f.sent_place, f.sent, sent);
    copy(&r, f.received_place, f.received, received);
    result.address = f.first / 2;
    result.direction = protocol == QUICK ? f.first % 2 : 0;
    result.command = f.command;
    result.sent = f.sent;
    result.received = f.received;
    return result;
}
