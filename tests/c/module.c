/* A module's own end of the bus: packets heard whole and with mistakes, replies, arbitration, resets, any numbers in its state. */
#include "check.h"

static const hb_udid fixed = { 0x0102030405060708, 0x090a0b0c0d0e0f10 }, persistent = { 0x4102030405060708, 0x090a0b0c0d0e0f10 };
static const hb_udid volatil = { 0x8102030405060708, 0x090a0b0c0d0e0f10 }, randomly = { 0xc102030405060708, 0x090a0b0c0d0e0f10 };

enum { FRESH = 0x01020304, REPLY = 19, LAST_PHASE = 13 };

static int silent(hb_module m)
{
    return m.phase == 0 && m.place == 0 && m.pec == 0 && m.given == 0;
}

/* The identifier, Address Valid with the address, and Address Resolved. */
static int is(hb_module m, hb_udid udid, int valid, uint8_t address, int resolved)
{
    uint8_t byte = valid ? (uint8_t)(2 * address + 1) : 0xff;
    return hb_udid_is_same(m.udid, udid) && m.valid == valid && m.address == address && m.resolved == resolved &&
           hb_module_address_byte(m) == byte;
}

static int same_lasting(hb_module m, hb_module n)
{
    return hb_udid_is_same(m.udid, n.udid) && m.fresh == n.fresh && m.home == n.home && !m.valid == !n.valid &&
           m.address == n.address && !m.resolved == !n.resolved;
}

/* A module that a record describes. */
static hb_module of(hb_udid udid, uint8_t byte, uint8_t flag)
{
    hb_resumed r = hb_module_of_record(udid, byte, flag, 0xdeadbeef);
    CHECK(r.answer == HB_DONE && silent(r.after));
    return r.after;
}

/* START and bytes: how many are acknowledged, one after the other, before the first that is not. That one leaves it silent. */
static size_t hear(hb_module *m, const uint8_t *s, size_t n)
{
    *m = hb_module_start(*m);
    for (size_t k = 0; k < n; k++) {
        hb_heard h = hb_module_receive(*m, s[k]);
        CHECK(h.ack < 2);
        if (!h.ack) {
            CHECK(silent(h.after) && same_lasting(*m, h.after));
            return k;
        }
        *m = h.after;
    }
    return n;
}

/* C2h, the command and the PEC. */
static int obeys(hb_module *m, uint8_t command)
{
    uint8_t s[3] = { 0xc2, command, 0 };
    s[2] = hb_pec(s, 2);
    return hear(m, s, 3) == 3;
}

static size_t assign(hb_module *m, hb_udid udid, uint8_t byte, uint8_t wrong)
{
    uint8_t *s = block(21, 0);
    size_t taken;
    s[0] = 0xc2;
    s[1] = 0x04;
    s[2] = 17;
    hb_udid_put_bytes(udid, s, 19, 3);
    s[19] = byte;
    s[20] = hb_pec(s, 20) ^ wrong;
    taken = hear(m, s, 21);
    free(s);
    return taken;
}

/* A Get UDID up to its reply: how many of its three bytes are acknowledged. */
static size_t ask(hb_module *m, uint8_t command)
{
    const uint8_t s[2] = { 0xc2, command }, again = 0xc3;
    size_t taken = hear(m, s, 2);
    return taken < 2 ? taken : taken + hear(m, &again, 1);
}

static void released(hb_module m)
{
    hb_supplied s = hb_module_supply(m);
    CHECK(s.drives == 0 && s.byte == 0xff && same_lasting(m, s.after));
}

/* The whole reply, and nothing after it. */
static void check_reply(hb_module m, uint8_t command, hb_udid udid, uint8_t byte)
{
    uint8_t due[3 + REPLY] = { 0xc2, command, 0xc3, 17 };
    hb_udid_put_bytes(udid, due, sizeof due, 4);
    due[20] = byte;
    due[21] = hb_pec(due, 21);
    CHECK(ask(&m, command) == 3);
    for (int k = 3; k < 3 + REPLY; k++) {
        hb_supplied s = hb_module_supply(m);
        CHECK(s.drives == 1 && s.byte == due[k] && same_lasting(m, s.after));
        CHECK(silent(hb_module_lost(s.after)));
        released(hb_module_lost(s.after));
        m = s.after;
    }
    released(m);
    CHECK(hb_module_receive(m, 0xc2).ack == 0);
}

/* The layout that firmware keeps. */
static void check_layout(void)
{
    CHECK(sizeof(hb_module) == 32 && sizeof(hb_heard) == 40 && sizeof(hb_supplied) == 40 && sizeof(hb_resumed) == 40);
    CHECK(offsetof(hb_module, udid) == 0 && offsetof(hb_module, fresh) == 16 && offsetof(hb_module, home) == 20);
    CHECK(offsetof(hb_module, valid) == 21 && offsetof(hb_module, address) == 22 && offsetof(hb_module, resolved) == 23);
    CHECK(offsetof(hb_module, phase) == 24 && offsetof(hb_module, place) == 25);
    CHECK(offsetof(hb_module, pec) == 26 && offsetof(hb_module, given) == 27);
    CHECK(offsetof(hb_heard, ack) == 32 && offsetof(hb_supplied, drives) == 32 && offsetof(hb_supplied, byte) == 36);
    CHECK(offsetof(hb_resumed, answer) == 32);
}

/* Table 9, for every number that memory or ROM may hold. */
static void check_power_on(void)
{
    const hb_udid renewed = { randomly.high, 0x090a0b0c01020304 };
    for (unsigned a = 0; a < 256; a++) {
        uint8_t own = a < 128 ? (uint8_t)a : 0;
        hb_module m = hb_module_power_on(fixed, (uint8_t)a, FRESH);
        CHECK(is(m, fixed, a < 128, own, 0) && m.home == a && m.fresh == FRESH && silent(m));
        m = hb_module_power_on(persistent, (uint8_t)a, FRESH);
        CHECK(is(m, persistent, a < 128, own, 0) && silent(m));
        CHECK(is(hb_module_power_on(volatil, (uint8_t)a, FRESH), volatil, 0, 0, 0));
        CHECK(is(hb_module_power_on(randomly, (uint8_t)a, FRESH), renewed, 0, 0, 0));
    }
}

static void check_records(void)
{
    for (unsigned byte = 0; byte < 256; byte++)
        for (unsigned flag = 0; flag < 256; flag += flag < 3 ? 1 : 84) {
            hb_resumed r = hb_module_of_record(volatil, (uint8_t)byte, (uint8_t)flag, FRESH);
            hb_resumed f = hb_module_of_record(fixed, (uint8_t)byte, (uint8_t)flag, FRESH);
            if (byte % 2 == 0 || flag > 1) {
                CHECK(r.answer == HB_MALFORMED && f.answer == HB_MALFORMED);
                CHECK(is(r.after, (hb_udid){ 0, 0 }, 0, 0, 0) && r.after.fresh == 0 && r.after.home == 0 && silent(r.after));
            } else if (byte == 0xff) {
                CHECK(r.answer == HB_DONE && is(r.after, volatil, 0, 0, (int)flag) && r.after.home == 255);
                CHECK(f.answer == HB_TAKEN && f.after.home == 0 && f.after.fresh == 0 && f.after.valid == 0);
            } else {
                CHECK(r.answer == HB_DONE && is(r.after, volatil, 1, (uint8_t)(byte / 2), (int)flag));
                CHECK(f.answer == HB_DONE && is(f.after, fixed, 1, (uint8_t)(byte / 2), (int)flag));
                CHECK(f.after.home == byte / 2 && f.after.fresh == FRESH && silent(f.after));
            }
        }
}

/* First bytes and commands, each with every value. A directed one goes to the address, from 10h to 7Eh. */
static void check_commands(void)
{
    const hb_module none = of(volatil, 0xff, 0), at_20 = of(volatil, 0x41, 1), at_0f = of(volatil, 0x1f, 0), at_7e = of(volatil, 0xfd, 0);
    for (unsigned b = 0; b < 256; b++) {
        const uint8_t first = (uint8_t)b, s[2] = { 0xc2, (uint8_t)b };
        hb_module m = none, n = at_20, o = at_0f, p = at_7e;
        int general = b >= 1 && b <= 4;
        CHECK(hear(&m, &first, 1) == (b == 0xc2));
        CHECK(hb_module_receive(none, first).ack == 0);
        m = none;
        CHECK(hear(&m, s, 2) == (general ? 2 : 1));
        CHECK(hear(&n, s, 2) == (general || b == 0x40 || b == 0x41 ? 2 : 1));
        CHECK(hear(&o, s, 2) == (general ? 2 : 1));
        CHECK(hear(&p, s, 2) == (general || b == 0xfc || b == 0xfd ? 2 : 1));
    }
}

/* Prepare with every PEC but its own, and with it. */
static void check_prepare(void)
{
    for (unsigned pec = 0; pec < 256; pec++) {
        const uint8_t s[4] = { 0xc2, 0x01, (uint8_t)pec, 0 };
        hb_module m = of(volatil, 0x41, 1);
        CHECK(hear(&m, s, 4) == (pec == 0xc0 ? 3 : 2));
        CHECK(is(hb_module_stop(m), volatil, 1, 0x20, pec != 0xc0) && silent(hb_module_stop(m)));
    }
}

/* The same of Reset, general and directed. */
static void check_wrong_resets(void)
{
    for (unsigned pec = 0; pec < 256; pec++) {
        const uint8_t s[3] = { 0xc2, 0x02, (uint8_t)pec }, d[3] = { 0xc2, 0x40, (uint8_t)pec };
        hb_module m = of(volatil, 0x41, 1), n = of(volatil, 0x41, 1);
        CHECK(hear(&m, s, 3) == (pec == 0xc9 ? 3 : 2) && is(m, volatil, pec != 0xc9, pec == 0xc9 ? 0 : 0x20, pec != 0xc9));
        CHECK(hear(&n, d, 3) == (pec == 0x00 ? 3 : 2) && is(n, volatil, pec != 0x00, pec == 0x00 ? 0 : 0x20, pec != 0x00));
    }
}

static void check_assign(void)
{
    for (unsigned byte = 0; byte < 256; byte++) {
        hb_module m = of(volatil, 0xff, 0);
        CHECK(assign(&m, volatil, (uint8_t)byte, 0x80) == 20 && is(m, volatil, 0, 0, 0));
        CHECK(assign(&m, volatil, (uint8_t)byte, 0) == 21 && is(m, volatil, 1, (uint8_t)(byte / 2), 1));
        CHECK(assign(&m, volatil, 0x42, 0) == 21 && is(m, volatil, 1, 0x21, 1));
    }
    for (unsigned bit = 0; bit < 128; bit++) {
        hb_udid other = volatil;
        hb_module m = of(volatil, 0xff, 0);
        if (bit < 64)
            other.high ^= (uint64_t)1 << (63 - bit);
        else
            other.low ^= (uint64_t)1 << (127 - bit);
        CHECK(assign(&m, other, 0x42, 0) == 3 + bit / 8 && is(m, volatil, 0, 0, 0));
    }
    for (unsigned count = 0; count < 256; count++) {
        const uint8_t s[3] = { 0xc2, 0x04, (uint8_t)count };
        hb_module m = of(volatil, 0xff, 0);
        CHECK(hear(&m, s, 3) == (count == 17 ? 3 : 2));
    }
}

/* A reset, general and directed, of a module of each kind that was moved to 21h. */
static void check_resets(void)
{
    const hb_udid renewed = { randomly.high, 0x090a0b0cdeadbeef }, again = { randomly.high, 0x090a0b0c01020304 };
    const uint8_t commands[2] = { 0x02, 0x42 };
    for (int k = 0; k < 2; k++) {
        hb_module f = of(fixed, 0x41, 0), p = of(persistent, 0xff, 0), v = of(volatil, 0xff, 1), r = of(randomly, 0x41, 1);
        CHECK(assign(&f, fixed, 0x42, 0) == 21 && is(f, fixed, 1, 0x21, 1));
        CHECK(assign(&p, persistent, 0x42, 0) == 21 && assign(&v, volatil, 0x42, 0) == 21 && assign(&r, randomly, 0x42, 0) == 21);
        CHECK(!obeys(&f, 0x40) && obeys(&f, commands[k]) && is(f, fixed, 1, 0x20, 0));
        CHECK(obeys(&p, commands[k]) && is(p, persistent, 1, 0x21, 0));
        CHECK(obeys(&v, commands[k]) && is(v, volatil, 0, 0, 0) && !obeys(&v, 0x42));
        CHECK(obeys(&r, commands[k]) && is(r, renewed, 0, 0, 0));
        CHECK(assign(&r, randomly, 0x42, 0) == 3 + 12 && assign(&r, renewed, 0x42, 0) == 21);
        r = hb_module_refresh(r, FRESH);
        CHECK(is(r, renewed, 1, 0x21, 1) && r.fresh == FRESH && obeys(&r, 0x02) && is(r, again, 0, 0, 0));
    }
}

static void check_replies(void)
{
    hb_module m = of(volatil, 0xff, 0);
    check_reply(m, 0x03, volatil, 0xff);
    CHECK(ask(&m, 0x41) == 1);
    CHECK(assign(&m, volatil, 0x40, 0) == 21 && ask(&m, 0x03) == 2);
    check_reply(m, 0x41, volatil, 0x41);
    CHECK(obeys(&m, 0x01));
    check_reply(m, 0x03, volatil, 0x41);
    check_reply(m, 0x41, volatil, 0x41);
    CHECK(hear(&m, (const uint8_t[]){ 0xc2, 0x03 }, 2) == 2);
    CHECK(hb_module_receive(hb_module_start(m), 0xc3).ack == 1 && hb_module_receive(m, 0xc3).ack == 0);
    CHECK(hb_module_receive(hb_module_start(hb_module_stop(m)), 0xc3).ack == 0);
    m = hb_module_start(hb_module_start(m));
    CHECK(hb_module_receive(m, 0xc3).ack == 0);
    released(m);
    released(hb_module_stop(m));
}

/* Two on the wire, bit by bit: the one with the zero goes on to the end, and the other is told and is silent until START. */
static void check_arbitration(void)
{
    for (unsigned bit = 0; bit < 64; bit++) {
        hb_udid zero = { ~((uint64_t)1 << bit), volatil.low }, one = { UINT64_MAX, volatil.low };
        hb_module m[2] = { of(one, 0x41, 0), of(zero, 0x43, 0) };
        int sends[2] = { 1, 1 };
        CHECK(ask(&m[0], 0x03) == 3 && ask(&m[1], 0x03) == 3);
        for (int k = 0; k < REPLY; k++) {
            hb_supplied s[2] = { hb_module_supply(m[0]), hb_module_supply(m[1]) };
            CHECK(s[0].drives == (uint32_t)sends[0] && s[1].drives == (uint32_t)sends[1]);
            m[0] = s[0].after;
            m[1] = s[1].after;
            for (int power = 7; power >= 0; power--) {
                uint32_t wire = s[0].byte & s[1].byte & 1u << power;
                for (int i = 0; i < 2; i++)
                    if (sends[i] && (s[i].byte & 1u << power) != wire) {
                        m[i] = hb_module_lost(m[i]);
                        s[i].byte = 0xff;
                        sends[i] = 0;
                    }
            }
        }
        CHECK(sends[0] == 0 && sends[1] == 1 && silent(m[0]));
        released(m[0]);
        CHECK(hb_module_receive(m[0], 0xc2).ack == 0 && ask(&m[0], 0x03) == 3);
    }
}

/* Every number but 0 is a flag that is set. Where Address Valid is clear no directed command is acknowledged, whatever the address is. */
static void check_flags(void)
{
    const uint8_t s[2] = { 0xc2, 0x40 };
    for (unsigned flag = 0; flag < 256; flag++) {
        hb_module m = of(volatil, 0x41, 0), n = m;
        m.valid = (uint8_t)flag;
        CHECK(hear(&m, s, 2) == (flag ? 2 : 1) && hb_module_address_byte(m) == (flag ? 0x41 : 0xff));
        n.resolved = (uint8_t)flag;
        CHECK(ask(&n, 0x03) == (flag ? 2 : 3));
    }
}

/* Any numbers in the state: every call returns. Above the last phase it is silent; after START it obeys. */
static void check_any_numbers(void)
{
    for (unsigned k = 0; k < 256 * 16; k++) {
        uint8_t phase = (uint8_t)(k / 16), fill = (uint8_t)(k % 16 * 17);
        hb_module m = { { k * 0x9e3779b97f4a7c15u, k }, k, fill, fill, (uint8_t)~fill, (uint8_t)(k % 3), phase, fill, fill, fill };
        hb_heard h = hb_module_receive(m, (uint8_t)(k * 7));
        hb_supplied s = hb_module_supply(m);
        CHECK(h.ack < 2 && s.drives < 2 && s.byte < 256 && (s.drives || s.byte == 0xff));
        CHECK(phase <= LAST_PHASE || (h.ack == 0 && s.drives == 0));
        CHECK(silent(hb_module_stop(m)) && silent(hb_module_lost(m)) && same_lasting(hb_module_stop(m), m));
        CHECK(hb_module_refresh(m, 9).fresh == 9 && (m.valid || hb_module_address_byte(m) == 0xff));
        CHECK(obeys(&m, 0x01) && m.resolved == 0);
    }
}

void check_module(void)
{
    check_layout();
    check_power_on();
    check_records();
    check_commands();
    check_prepare();
    check_wrong_resets();
    check_assign();
    check_resets();
    check_replies();
    check_arbitration();
    check_flags();
    check_any_numbers();
}
