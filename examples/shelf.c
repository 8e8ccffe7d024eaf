/* Headboarded from C. A word is read from a module: its trace is written, and read back. Then a pass gives two modules their addresses.
 * One of them is pulled and another comes: in the next pass it does not get the address that became free. */
#include <inttypes.h>
#include <stdio.h>

#include "headboarded.h"

/* A record each: identifier, address byte, resolved flag. The first module is fixed at 09h, a row of Table 17 on which it may
 * stand; the second has no address. */
static uint8_t shelf[2 * HB_RECORD] = {
    0x00, 0x01, 0x0a, 0xd2, 0x00, 0x01, 0x00, 0x24, 0, 0, 0, 0, 0, 0, 0, 0x01, 0x13, 0,
    0x81, 0x01, 0x0a, 0xd2, 0x00, 0x03, 0x00, 0x24, 0, 0, 0, 0, 0, 0, 0, 0x04, 0xff, 0,
};
static uint8_t trace[2 * HB_LONGEST_TRACE], sent[HB_DECODE_ROOM], received[HB_DECODE_ROOM], bindings[HB_BINDINGS_ROOM];

/* Who is bound where. */
static void show(hb_pool bound)
{
    for (int a = 0; a < 128; a++) {
        if (hb_pool_has(bound, a)) {
            hb_udid u = hb_udid_from_bytes(bindings, sizeof bindings, 16 * a);
            printf("0x%02x: %016" PRIx64 "%016" PRIx64 "\n", a, u.high, u.low);
        }
    }
}

int main(void)
{
    /* README.md shows the lines from here .. */
    const uint8_t word[2] = {0x90, 0x01}; /* low byte first */
    hb_written w = hb_encode(HB_READ_WORD, 1, 0x0d, 0, 0x05, NULL, 0, word, sizeof word, trace, sizeof trace);
    printf("encode: %u, %u symbols\n", w.answer, w.symbols);

    hb_decoded d = hb_decode(HB_READ_WORD, 1, trace, 2 * w.symbols, sent, sizeof sent, received, sizeof received);
    printf("decode: %u, word %d\n", d.answer, received[0] + 256 * received[1]);

    hb_pool occupied = {0, 0}; /* no address is in use yet */
    uint8_t last = HB_NEVER_PICKED;
    hb_model m = hb_run_model(occupied, last, shelf, sizeof shelf, bindings, sizeof bindings);
    printf("model: %u, %u bound, %u Get UDIDs, last pick 0x%02x\n", m.answer, m.count, m.gets, m.picked);
    show(m.bound);

    /* The second module is pulled, and another comes. Its address is picked after the last one: it does not get 0Dh. */
    shelf[HB_RECORD + 15] = 0x05;
    shelf[HB_RECORD + 16] = 0xff;
    if (m.answer == HB_DONE || m.answer == HB_NO_FREE_ADDRESS)
        last = m.picked; /* of a refused run it is 0, and no last pick */
    m = hb_run_model(occupied, last, shelf, sizeof shelf, bindings, sizeof bindings);
    printf("model: %u, %u bound, %u Get UDIDs, last pick 0x%02x\n", m.answer, m.count, m.gets, m.picked);
    show(m.bound);
    /* .. to here. */
    return 0;
}
