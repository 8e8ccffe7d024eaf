/* A module's firmware on the library: a controller reads who the module is, assigns it an address, and reads again. A driver of a real bus
 * would call from its interrupts what `packet` and `answer` call here. Built and run as README.md says. */
#include <stdio.h>

#include "headboarded.h"

static hb_module module;

/* A START and bytes that the controller sends; how many of them get ACK. */
static unsigned packet(const uint8_t *bytes, size_t n)
{
    unsigned acks = 0;
    module = hb_module_start(module);
    for (size_t i = 0; i < n; i++) {
        hb_heard h = hb_module_receive(module, bytes[i]);
        module = h.after;
        acks += h.ack;
    }
    return acks;
}

/* What the module sends until it has nothing left. Alone on its bus it never loses; a driver compares each bit with the wire, and calls
 * hb_module_lost where it sent a one and sees a zero. */
static void answer(void)
{
    for (hb_supplied s = hb_module_supply(module); s.drives; s = hb_module_supply(module)) {
        printf(" %02x", (unsigned)s.byte);
        module = s.after;
    }
    printf(" and no more\n");
}

/* Get UDID: a repeated START turns the direction. */
static void who(void)
{
    const uint8_t get[] = {0xc2, 0x03}, read[] = {0xc3};
    packet(get, sizeof get);
    printf("Get UDID: %s,", packet(read, sizeof read) ? "ACK" : "NACK");
    answer();
    module = hb_module_stop(module);
}

int main(void)
{
    /* README.md shows the lines from here .. */
    hb_udid udid = {0x81010ad200030024, 0x0000000000000004};
    module = hb_module_power_on(udid, 0xff, 0); /* it is volatile, and has no address */
    who();

    uint8_t assign[21] = {0xc2, 0x04, 17};
    hb_udid_put_bytes(udid, assign, sizeof assign, 3);
    assign[19] = hb_wire_for_write(0x0d);
    assign[20] = hb_pec(assign, 20);
    printf("Assign Address: %u of %zu bytes get ACK, ", packet(assign, sizeof assign), sizeof assign);
    module = hb_module_stop(module);
    printf("the address is 0x%02x\n", module.address);
    who(); /* it is resolved now, and silent */

    const uint8_t prepare[] = {0xc2, 0x01, 0xc0};
    packet(prepare, sizeof prepare);
    module = hb_module_stop(module);
    who();
    /* .. to here. */
    return 0;
}
