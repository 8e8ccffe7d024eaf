/* Lets a module of the library receive each kind of byte and supply each byte of a reply, checks what it answers, and dumps callgrind's
   count after each. A dump's label is  received|supplied BYTE  or, for a count with no call, which tells what the counting takes,  nothing */
#include "headboarded.h"

#include <stdio.h>
#include <stdlib.h>
#include <valgrind/callgrind.h>

enum { WRITE = 0xc2, READ = 0xc3, COUNT = 17, REPLY = 19, AT_20 = 0x41, NONE = 0xff };

/* Fixed, persistent, volatile and random: the same but for the top two bits. */
#define LOW 0x1f2e3d4c5b6a7988
static const hb_udid fixed = { 0x0123456789abcdef, LOW }, persistent = { 0x4123456789abcdef, LOW };
static const hb_udid volatil = { 0x8123456789abcdef, LOW }, randomly = { 0xc123456789abcdef, LOW };

static hb_heard (*volatile receive)(hb_module m, uint8_t byte) = hb_module_receive;
static hb_supplied (*volatile supply)(hb_module m) = hb_module_supply;

static void stop(const char *what)
{
    fprintf(stderr, "bench: %s\n", what);
    exit(1);
}

/* A module that a record describes. */
static hb_module of(hb_udid udid, uint8_t byte, uint8_t flag)
{
    hb_resumed r = hb_module_of_record(udid, byte, flag, 0xdeadbeef);
    if (r.answer != HB_DONE)
        stop("a record is refused");
    return r.after;
}

/* START and bytes, all acknowledged. */
static hb_module after(hb_module m, const uint8_t *s, size_t n)
{
    m = hb_module_start(m);
    for (size_t k = 0; k < n; k++) {
        hb_heard h = hb_module_receive(m, s[k]);
        if (!h.ack)
            stop("a byte is not acknowledged");
        m = h.after;
    }
    return m;
}

static hb_module after_command(hb_module m, uint8_t command)
{
    const uint8_t s[2] = { WRITE, command };
    return after(m, s, 2);
}

/* The count begins after the label is written. The functions are not known to the compiler, so that nothing of a call is left out. */
static void received(const char *name, hb_module m, uint8_t byte, uint32_t ack)
{
    char label[80];
    hb_heard h;
    snprintf(label, sizeof label, "received %s", name);
    CALLGRIND_ZERO_STATS;
    h = receive(m, byte);
    CALLGRIND_DUMP_STATS_AT(label);
    if (h.ack != ack)
        stop(label);
}

static hb_module supplied(const char *name, hb_module m, uint32_t drives, uint32_t byte)
{
    char label[80];
    hb_supplied s;
    snprintf(label, sizeof label, "supplied %s", name);
    CALLGRIND_ZERO_STATS;
    s = supply(m);
    CALLGRIND_DUMP_STATS_AT(label);
    if (s.drives != drives || s.byte != byte)
        stop(label);
    return s.after;
}

/* No call: what is counted here belongs to the counting. */
static void nothing(void)
{
    CALLGRIND_ZERO_STATS;
    CALLGRIND_DUMP_STATS_AT("nothing");
}

static void commands(hb_module m)
{
    hb_module begun = after_command(m, 0x01);
    m = hb_module_start(m);
    received("silent", hb_module_stop(m), WRITE, 0);
    received("first", m, WRITE, 1);
    received("first-refused", m, 0x40, 0);
    m = hb_module_receive(m, WRITE).after;
    received("command-Prepare", m, 0x01, 1);
    received("command-Reset", m, 0x02, 1);
    received("command-Get", m, 0x03, 1);
    received("command-Assign", m, 0x04, 1);
    received("command-directed-Reset", m, 0x40, 1);
    received("command-directed-Get", m, 0x41, 1);
    received("command-refused", m, 0x43, 0);
    received("PEC-Prepare", begun, 0xc0, 1);
    received("PEC-wrong", begun, 0xc1, 0);
}

/* Each place of the identifier has the same name; its dearest counts. */
static void assigning(hb_module m)
{
    uint8_t s[21] = { WRITE, 0x04, COUNT };
    hb_udid_put_bytes(m.udid, s, sizeof s, 3);
    s[19] = 0x42;
    s[20] = hb_pec(s, 20);
    received("count", after(m, s, 2), COUNT, 1);
    received("count-refused", after(m, s, 2), COUNT - 1, 0);
    for (size_t k = 3; k < 19; k++) {
        received("identifier", after(m, s, k), s[k], 1);
        received("identifier-refused", after(m, s, k), s[k] ^ 1, 0);
    }
    received("address", after(m, s, 19), s[19], 1);
    received("PEC-Assign", after(m, s, 20), s[20], 1);
    received("PEC-Assign-wrong", after(m, s, 20), s[20] ^ 1, 0);
    received("after-the-PEC", after(m, s, 21), 0, 0);
}

static void resets(void)
{
    received("PEC-Reset-fixed", after_command(of(fixed, AT_20, 1), 0x02), 0xc9, 1);
    received("PEC-Reset-persistent", after_command(of(persistent, AT_20, 1), 0x02), 0xc9, 1);
    received("PEC-Reset-volatile", after_command(of(volatil, AT_20, 1), 0x02), 0xc9, 1);
    received("PEC-Reset-random", after_command(of(randomly, AT_20, 1), 0x02), 0xc9, 1);
    received("PEC-directed-Reset", after_command(of(randomly, AT_20, 1), 0x40), 0x00, 1);
}

static void reads(hb_module m, hb_module resolved, uint8_t address_byte)
{
    uint8_t due[3 + REPLY] = { WRITE, 0x03, READ, COUNT };
    hb_module asked = hb_module_start(after_command(m, 0x03));
    hb_udid_put_bytes(m.udid, due, sizeof due, 4);
    due[20] = address_byte;
    due[21] = hb_pec(due, 21);
    received("read", asked, READ, 1);
    received("read-another-packet", asked, WRITE, 1);
    received("read-resolved", hb_module_start(after_command(resolved, 0x03)), READ, 0);
    received("read-directed", hb_module_start(after_command(resolved, 0x41)), READ, 1);
    supplied("released", asked, 0, 0xff);
    m = hb_module_receive(asked, READ).after;
    for (size_t k = 3; k < sizeof due; k++)
        m = supplied(k == 3 ? "count" : k < 20 ? "identifier" : k == 20 ? "address" : "PEC", m, 1, due[k]);
    supplied("released-after-the-PEC", m, 0, 0xff);
}

int main(void)
{
    /* Once before the count, so that what the linker does at a first call falls out. */
    receive(of(volatil, NONE, 0), 0);
    supply(of(volatil, NONE, 0));
    nothing();
    commands(of(volatil, AT_20, 1));
    assigning(of(volatil, NONE, 0));
    resets();
    reads(of(volatil, AT_20, 0), of(volatil, AT_20, 1), AT_20);
    return 0;
}
