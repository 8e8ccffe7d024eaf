/* The encoder, the decoder and the last data phase, with outputs of exactly the trace's length and one byte less. */
#include "check.h"

#include "../../bench/symbols.h"

static const struct {
    uint8_t protocol, pec, command;
    size_t sent, received, symbols;
} cases[] = {
    { HB_QUICK, 0, 0, 0, 0, 4 },          { HB_SEND_BYTE, 0, 0, 1, 0, 6 },      { HB_SEND_BYTE, 1, 0, 1, 0, 8 },
    { HB_RECEIVE_BYTE, 1, 0, 0, 1, 8 },   { HB_WRITE_BYTE, 1, 7, 1, 0, 10 },    { HB_WRITE_WORD, 0, 7, 2, 0, 10 },
    { HB_READ_BYTE, 1, 7, 0, 1, 13 },     { HB_READ_WORD, 0, 7, 0, 2, 13 },     { HB_PROCESS_CALL, 1, 7, 2, 2, 19 },
    { HB_BLOCK_WRITE, 0, 7, 0, 0, 8 },    { HB_BLOCK_WRITE, 1, 7, 255, 0, 520 }, { HB_BLOCK_READ, 0, 7, 0, 0, 11 },
    { HB_BLOCK_READ, 1, 7, 0, 255, 523 }, { HB_BLOCK_PROCESS_CALL, 1, 7, 200, 55, HB_LONGEST_TRACE },
};

static void fill(uint8_t *s, size_t n, unsigned step)
{
    for (size_t i = 0; i < n; i++)
        s[i] = (uint8_t)(i * step + 5);
}

/* Decodes what was encoded, by pairs and by symbols, and takes the last data phase. */
static void check_back(size_t k, const uint8_t *trace, const uint8_t *sent, const uint8_t *received)
{
    size_t n = cases[k].symbols, longest = cases[k].received > 0 ? cases[k].received : cases[k].sent;
    uint8_t *s = block(HB_DECODE_ROOM, 0xee), *r = block(HB_DECODE_ROOM, 0xee), *last = block(longest, 0xee);
    hb_decoded d = hb_decode(cases[k].protocol, cases[k].pec, trace, 2 * n, s, HB_DECODE_ROOM, r, HB_DECODE_ROOM);
    hb_decoded e = hb_decode_symbols(cases[k].protocol, cases[k].pec, (const uint16_t *)trace, n, s, HB_DECODE_ROOM, r,
                                     HB_DECODE_ROOM);
    hb_part p = hb_last_data(cases[k].protocol, d.sent, d.received, s, HB_DECODE_ROOM, r, HB_DECODE_ROOM, last, longest);
    CHECK(d.answer == 0 && d.address == 0x2c && d.direction == 0 && d.command == cases[k].command && d.value == 0);
    CHECK(d.sent == cases[k].sent && d.received == cases[k].received);
    CHECK(e.answer == 0 && e.sent == d.sent && e.received == d.received && e.command == d.command);
    CHECK(d.sent == 0 || memcmp(s, sent, d.sent) == 0);
    CHECK(d.received == 0 || memcmp(r, received, d.received) == 0);
    CHECK(all(s, d.sent, HB_DECODE_ROOM, 0xee) && all(r, d.received, HB_DECODE_ROOM, 0xee));
    CHECK(p.answer == 0 && p.length == longest);
    CHECK(longest == 0 || memcmp(last, cases[k].received > 0 ? received : sent, longest) == 0);
    if (longest > 0) {
        memset(last, 0xdd, longest);
        p = hb_last_data(cases[k].protocol, d.sent, d.received, s, HB_DECODE_ROOM, r, HB_DECODE_ROOM, last, longest - 1);
        CHECK(p.answer == 2 && p.length == 0 && all(last, 0, longest, 0xdd));
    }
    free(s);
    free(r);
    free(last);
}

static void check_case(size_t k)
{
    size_t n = cases[k].symbols;
    uint8_t *sent = block(cases[k].sent, 0), *received = block(cases[k].received, 0), *out = block(2 * n, 0xee);
    hb_written w;
    fill(sent, cases[k].sent, 7);
    fill(received, cases[k].received, 11);
    CHECK(hb_trace_length(cases[k].protocol, cases[k].pec, cases[k].sent, cases[k].received) == n);
    w = hb_encode(cases[k].protocol, cases[k].pec, 0x2c, 0, cases[k].command, sent, cases[k].sent, received,
                  cases[k].received, out, 2 * n - 1);
    CHECK(w.answer == 2 && w.symbols == 0 && all(out, 0, 2 * n, 0xee));
    w = hb_encode(cases[k].protocol, cases[k].pec, 0x80, 0, cases[k].command, sent, cases[k].sent, received,
                  cases[k].received, out, 2 * n);
    CHECK(w.answer == 1 && w.symbols == 0 && all(out, 0, 2 * n, 0xee));
    w = hb_encode_symbols(cases[k].protocol, cases[k].pec, 0x2c, 0, cases[k].command, sent, cases[k].sent, received,
                          cases[k].received, (uint16_t *)out, n - 1);
    CHECK(w.answer == 2 && all(out, 0, 2 * n, 0xee));
    w = hb_encode(cases[k].protocol, cases[k].pec, 0x2c, 0, cases[k].command, sent, cases[k].sent, received,
                  cases[k].received, out, 2 * n);
    CHECK(w.answer == 0 && w.symbols == n);
    check_back(k, out, sent, received);
    memset(out, 0xee, 2 * n);
    w = hb_encode_symbols(cases[k].protocol, cases[k].pec, 0x2c, 0, cases[k].command, sent, cases[k].sent, received,
                          cases[k].received, (uint16_t *)out, n);
    CHECK(w.answer == 0 && w.symbols == n);
    check_back(k, out, sent, received);
    free(sent);
    free(received);
    free(out);
}

/* NULL with the length 0, short buffers, and traces that are refused. */
static void check_refusals(void)
{
    uint8_t *s = block(HB_DECODE_ROOM, 0xee), *r = block(HB_DECODE_ROOM, 0xee);
    static const uint8_t cut[] = { 0, 1, 0x58, 0, 3, 1, 1, 1 };
    hb_decoded d;
    CHECK(hb_encode(HB_QUICK, 0, 0x2c, 1, 0, NULL, 0, NULL, 0, NULL, 0).answer == 2);
    CHECK(hb_encode(11, 0, 0x2c, 0, 0, NULL, 0, NULL, 0, NULL, 0).answer == 1);
    CHECK(hb_encode_symbols(HB_QUICK, 0, 0x2c, 1, 0, NULL, 0, NULL, 0, NULL, 0).answer == 2);
    CHECK(hb_trace_length(11, 0, 0, 0) == 0 && hb_trace_length(HB_QUICK, 1, 0, 0) == 0);
    CHECK(hb_decode(HB_QUICK, 0, NULL, 0, NULL, 0, NULL, 0).answer == 2);
    CHECK(hb_decode(HB_QUICK, 1, NULL, 0, NULL, 0, NULL, 0).answer == 1);
    CHECK(hb_decode(HB_SEND_BYTE, 1, cut, 8, s, HB_DECODE_ROOM - 1, r, HB_DECODE_ROOM).answer == 2);
    CHECK(hb_decode(HB_SEND_BYTE, 1, cut, 8, s, HB_DECODE_ROOM, r, HB_DECODE_ROOM - 1).answer == 2);
    d = hb_decode(HB_SEND_BYTE, 1, NULL, 0, s, HB_DECODE_ROOM, r, HB_DECODE_ROOM);
    CHECK(d.answer == 4 && d.value == 0);
    CHECK(hb_decode_symbols(HB_SEND_BYTE, 1, NULL, 0, s, HB_DECODE_ROOM, r, HB_DECODE_ROOM).answer == 4);
    d = hb_decode(HB_SEND_BYTE, 1, cut, 8, s, HB_DECODE_ROOM, r, HB_DECODE_ROOM);
    CHECK(d.answer == 6 && d.value == 0 && d.address == 0);
    d = hb_decode(HB_SEND_BYTE, 1, cut, 7, s, HB_DECODE_ROOM, r, HB_DECODE_ROOM);
    CHECK(d.answer == 4 && d.value == 3);
    CHECK(all(s, 0, HB_DECODE_ROOM, 0xee) && all(r, 0, HB_DECODE_ROOM, 0xee));
    CHECK(hb_last_data(HB_QUICK, 0, 0, NULL, 0, NULL, 0, NULL, 0).answer == 0);
    CHECK(hb_last_data(11, 1, 0, s, 1, r, 1, NULL, 0).length == 0);
    CHECK(hb_last_data(HB_BLOCK_WRITE, 5, 0, s, 4, r, 0, NULL, 0).length == 0);
    free(s);
    free(r);
}

/* Traces to and from 2ch that are refused: the number, the header's name of it, and where. */
static const struct {
    uint8_t protocol, pec;
    uint32_t number, name;
    size_t value, symbols;
    uint16_t trace[14];
} refused[] = {
    { HB_SEND_BYTE, 0, 3, HB_NO_SYMBOL, 1, 2, { HB_START, 260 } },
    { HB_SEND_BYTE, 0, 4, HB_ENDS_EARLY, 3, 3, { HB_START, 0x58, HB_ACK } },
    { HB_SEND_BYTE, 0, 5, HB_UNEXPECTED, 1, 2, { HB_START, HB_STOP } },
    { HB_SEND_BYTE, 0, 6, HB_NOT_ACKNOWLEDGED, 1, 6, { HB_START, 0x58, HB_ACK, 0x05, HB_NACK, HB_STOP } },
    { HB_SEND_BYTE, 1, 7, HB_PEC_DIFFERS, 5, 8, { HB_START, 0x58, HB_ACK, 0x05, HB_ACK, 0x00, HB_ACK, HB_STOP } },
    { HB_SEND_BYTE, 0, 8, HB_AFTER_STOP, 6, 7, { HB_START, 0x58, HB_ACK, 0x05, HB_ACK, HB_STOP, HB_STOP } },
    /* the last byte received gets ACK, one before it NACK; anything else in that place */
    { HB_RECEIVE_BYTE, 0, 17, HB_WRONG_ACK, 4, 6, { HB_START, 0x59, HB_ACK, 0x05, HB_ACK, HB_STOP } },
    { HB_RECEIVE_BYTE, 1, 17, HB_WRONG_ACK, 4, 6, { HB_START, 0x59, HB_ACK, 0x05, HB_NACK, HB_STOP } },
    { HB_RECEIVE_BYTE, 1, 5, HB_UNEXPECTED, 4, 5, { HB_START, 0x59, HB_ACK, 0x05, HB_STOP } },
    { HB_RECEIVE_BYTE, 1, 5, HB_UNEXPECTED, 4, 5, { HB_START, 0x59, HB_ACK, 0x05, 0x05 } },
    /* the wrong direction, first and repeated; another address; no byte at all */
    { HB_SEND_BYTE, 0, 18, HB_WRONG_ADDRESS, 1, 2, { HB_START, 0x59 } },
    { HB_RECEIVE_BYTE, 0, 18, HB_WRONG_ADDRESS, 1, 2, { HB_START, 0x58 } },
    { HB_READ_BYTE, 1, 18, HB_WRONG_ADDRESS, 6, 7, { HB_START, 0x58, HB_ACK, 0x10, HB_ACK, HB_START, 0x58 } },
    { HB_READ_BYTE, 1, 18, HB_WRONG_ADDRESS, 6, 7, { HB_START, 0x58, HB_ACK, 0x10, HB_ACK, HB_START, 0x5b } },
    { HB_READ_BYTE, 1, 5, HB_UNEXPECTED, 6, 7, { HB_START, 0x58, HB_ACK, 0x10, HB_ACK, HB_START, HB_ACK } },
    /* one byte sent: 255 received are too many, 254 are not */
    { HB_BLOCK_PROCESS_CALL, 0, 19, HB_WRONG_COUNT, 12, 13,
      { HB_START, 0x58, HB_ACK, 0x10, HB_ACK, 1, HB_ACK, 0x05, HB_ACK, HB_START, 0x59, HB_ACK, 255 } },
    { HB_BLOCK_PROCESS_CALL, 0, 4, HB_ENDS_EARLY, 13, 13,
      { HB_START, 0x58, HB_ACK, 0x10, HB_ACK, 1, HB_ACK, 0x05, HB_ACK, HB_START, 0x59, HB_ACK, 254 } },
    { HB_BLOCK_PROCESS_CALL, 0, 5, HB_UNEXPECTED, 12, 13,
      { HB_START, 0x58, HB_ACK, 0x10, HB_ACK, 1, HB_ACK, 0x05, HB_ACK, HB_START, 0x59, HB_ACK, HB_NACK } },
};

/* The numbers 3 to 8 and 17 to 19: nothing is written, and nothing else is answered. */
static void check_numbers(void)
{
    for (size_t k = 0; k < sizeof refused / sizeof refused[0]; k++) {
        uint8_t *s = block(HB_DECODE_ROOM, 0xee), *r = block(HB_DECODE_ROOM, 0xee);
        size_t n = refused[k].symbols;
        hb_decoded d = hb_decode(refused[k].protocol, refused[k].pec, (const uint8_t *)refused[k].trace, 2 * n, s,
                                 HB_DECODE_ROOM, r, HB_DECODE_ROOM);
        hb_decoded e = hb_decode_symbols(refused[k].protocol, refused[k].pec, refused[k].trace, n, s, HB_DECODE_ROOM, r,
                                         HB_DECODE_ROOM);
        CHECK(d.answer == refused[k].number && d.answer == refused[k].name && d.value == refused[k].value);
        CHECK(d.address == 0 && d.direction == 0 && d.command == 0 && d.sent == 0 && d.received == 0);
        CHECK(e.answer == d.answer && e.value == d.value);
        CHECK(all(s, 0, HB_DECODE_ROOM, 0xee) && all(r, 0, HB_DECODE_ROOM, 0xee));
        free(s);
        free(r);
    }
}

void check_codec(void)
{
    for (size_t k = 0; k < sizeof cases / sizeof cases[0]; k++)
        check_case(k);
    check_refusals();
    check_numbers();
}
