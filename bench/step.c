/* Writes a script for the program passes, a pass of as many steps as asked:  step STEPS
   The first is Prepare To ARP, acknowledged; the second a target's reply to Get UDID, with its own address 20h;
   the third the Assign Address that binds it there, acknowledged. */
#include "headboarded.h"

#include <stdio.h>
#include <stdlib.h>

enum { SEND_BYTE = 1, BLOCK_WRITE = 8, BLOCK_READ = 9, DEFAULT_ADDRESS = 0x61 };

static const uint8_t prepare[] = { 0x01 };
static const uint8_t target[] = { 0xc1, 2, 3, 4, 5, 6, 7, 8, 9, 10, 11, 12, 13, 14, 15, 16, 2 * 0x20 };

static const struct {
    uint8_t protocol;
    uint8_t command;
    size_t sent;
    size_t received;
    const uint8_t *data;
} steps[] = {
    { SEND_BYTE, 0, sizeof prepare, 0, prepare },
    { BLOCK_READ, 3, 0, sizeof target, target },
    { BLOCK_WRITE, 4, sizeof target, 0, target },
};

int main(int argc, char **argv)
{
    uint8_t trace[2 * 525];
    long count = argc == 2 ? strtol(argv[1], NULL, 10) : 0;
    if (count < 1 || count > 3)
        return 2;
    putchar(1);
    for (long i = 0; i < count; i++) {
        hb_written w = hb_encode(steps[i].protocol, 1, DEFAULT_ADDRESS, 0, steps[i].command, steps[i].data, steps[i].sent,
                                 steps[i].data, steps[i].received, trace, sizeof trace);
        if (w.answer != 0)
            return 1;
        putchar(2);
        putchar((int)(w.symbols % 256));
        putchar((int)(w.symbols / 256));
        fwrite(trace, 2, w.symbols, stdout);
    }
    return 0;
}
