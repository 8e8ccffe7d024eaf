/* Commands and passes: a target that is bound, one that finds no address, an Assign that fails, last picks, reports. */
#include "lists.h"

static void check_commands(void)
{
    static const uint16_t prepare[] = { 256, 194, 258, 1, 258, 192, 258, 257 };
    uint8_t *out = block(16, 0xee), *reply = block(256, 1);
    hb_written w = hb_put_command(HB_PREPARE, nobody, 0, NULL, 0, out, 15);
    CHECK(w.answer == HB_TOO_SHORT && w.symbols == 0 && all(out, 0, 16, 0xee));
    CHECK(hb_put_command(HB_PREPARE, nobody, 0, NULL, 0, NULL, 0).answer == HB_TOO_SHORT);
    CHECK(hb_put_command(HB_GET_UDID, nobody, 0, reply, 256, out, 16).answer == HB_FORBIDDEN);
    CHECK(hb_put_command(HB_GET_UDID, nobody, 0, reply, 255, out, 16).answer == HB_TOO_SHORT);
    for (unsigned kind = HB_ENDED; kind < 256; kind++)
        CHECK(hb_put_command((uint8_t)kind, nobody, 0, NULL, 0, out, 16).answer == HB_FORBIDDEN);
    CHECK(all(out, 0, 16, 0xee));
    w = hb_put_command(HB_PREPARE, module, 3, reply, 256, out, 16);
    CHECK(w.answer == HB_DONE && w.symbols == 8);
    for (int i = 0; i < 8; i++)
        CHECK(out[2 * i] + 256 * out[2 * i + 1] == prepare[i]);
    free(out);
    free(reply);
}

/* Every number for an Assign: above 127 it is no address, and nothing is written; else the 17th byte of the data is twice the address. */
static void check_numbers(void)
{
    for (unsigned n = 0; n < 256; n++) {
        uint8_t *out = block(88, 0xee);
        hb_written w = hb_put_command(HB_ASSIGN, module, (uint8_t)n, NULL, 0, out, 88);
        if (n > 127)
            CHECK(w.answer == HB_FORBIDDEN && w.symbols == 0 && all(out, 0, 88, 0xee));
        else
            CHECK(w.answer == HB_DONE && w.symbols == 44 && out[78] == 2 * n && out[79] == 0);
        free(out);
    }
}

/* A command or a good end after a last pick, with every part of it. */
static void expect_after(uint8_t last, const struct list *l, uint32_t kind, uint32_t address, uint32_t gets, uint32_t picked)
{
    hb_command c = hb_pass(nothing, last, l->bytes, l->length);
    CHECK(c.kind == kind && c.answer == HB_DONE && c.address == address && c.gets == gets && c.picked == picked && c.reason == 0);
    CHECK(hb_udid_is_same(c.udid, kind == HB_ASSIGN ? module : nobody));
}

static void expect(const struct list *l, uint32_t kind, uint32_t address, uint32_t gets, uint32_t picked)
{
    expect_after(NEVER, l, kind, address, gets, picked);
}

/* A trace with no command outstanding: every part is 0 but the answer and the kind, and so is the last pick. */
static void expect_none_outstanding(uint8_t last, const struct list *l)
{
    hb_command c = hb_pass(nothing, last, l->bytes, l->length);
    CHECK(c.kind == HB_NOT_OUTSTANDING && c.answer == HB_NO_COMMAND);
    CHECK(c.address == 0 && c.gets == 0 && c.picked == 0 && c.reason == 0 && c.udid.high == 0 && c.udid.low == 0);
}

/* One target that holds 20h: it is bound there, nothing is picked, and the pass ends. */
static void check_bound(void)
{
    struct list l = { NULL, 0 };
    uint8_t reply[17];
    reply_with(reply, 2 * 0x20 + 1);
    expect(&l, HB_PREPARE, 0, 0, NEVER);
    send(&l, HB_PREPARE, 0, NULL, 0);
    expect(&l, HB_GET_UDID, 0, 1, NEVER);
    send(&l, HB_GET_UDID, 0, reply, sizeof reply);
    expect(&l, HB_ASSIGN, 0x20, 1, NEVER);
    CHECK(hb_pass_lookup(nothing, NEVER, l.bytes, l.length, 0x20).answer == HB_NOBODY);
    send(&l, HB_ASSIGN, 0x20, NULL, 0);
    expect(&l, HB_GET_UDID, 0, 2, NEVER);
    append(&l, silence, 9);
    expect(&l, HB_ENDED, 0, 2, NEVER);
    CHECK(hb_pass_lookup(nothing, NEVER, l.bytes, l.length, 0x20).answer == HB_DONE);
    CHECK(hb_pass_lookup(nothing, NEVER, l.bytes, l.length, 0x20).udid.high == module.high);
    CHECK(hb_pass_lookup(nothing, NEVER, l.bytes, l.length, 0x20).udid.low == module.low);
    CHECK(hb_pass_lookup(nothing, NEVER, l.bytes, l.length, 0x21).answer == HB_NOBODY);
    CHECK(hb_pass_lookup(nothing, NEVER, l.bytes, l.length, 128).answer == HB_FORBIDDEN);
    append(&l, silence, 9);
    expect_none_outstanding(NEVER, &l);
    CHECK(hb_pass_lookup(nothing, NEVER, l.bytes, l.length, 0x20).answer == HB_DONE);
    l.bytes[l.length - 20] = 10;
    expect(&l, HB_ENDED, 0, 2, NEVER);
    free(l.bytes);
}

/* No address is free; an empty trace; a list that ends within a number. */
static void check_ends(void)
{
    struct list l = { NULL, 0 };
    uint8_t reply[17];
    hb_command c;
    reply_with(reply, 0xff);
    send(&l, HB_PREPARE, 0, NULL, 0);
    send(&l, HB_GET_UDID, 0, reply, sizeof reply);
    c = hb_pass(everything, NEVER, l.bytes, l.length);
    CHECK(c.kind == HB_NONE_FREE && c.answer == HB_NO_FREE_ADDRESS && hb_udid_is_same(c.udid, module) && c.gets == 1);
    CHECK(c.address == 0 && c.picked == NEVER && hb_pass(everything, 0x33, l.bytes, l.length).picked == 0x33);
    expect(&l, HB_ASSIGN, 0x0d, 1, 0x0d);
    append(&l, reply, 0);
    expect(&l, HB_GET_UDID, 0, 2, 0x0d);
    CHECK(hb_pass_lookup(nothing, NEVER, l.bytes, l.length, 0x0d).answer == HB_NOBODY);
    l.bytes[l.length - 2] = 1;
    expect(&l, HB_ASSIGN, 0x0d, 1, 0x0d);
    free(l.bytes);
    CHECK(hb_pass(nothing, NEVER, NULL, 0).kind == HB_PREPARE && hb_pass_lookup(nothing, NEVER, NULL, 0, 0x0d).answer == HB_NOBODY);
    l.bytes = block(1, 0);
    CHECK(hb_pass(nothing, NEVER, l.bytes, 1).kind == HB_PREPARE);
    free(l.bytes);
    l.bytes = block(2, 0);
    CHECK(hb_pass(nothing, NEVER, l.bytes, 2).kind == HB_ABANDONED && hb_pass(nothing, NEVER, l.bytes, 2).answer == HB_PASS_ABANDONED);
    free(l.bytes);
}

/* A wrong symbol, whichever its number: 14 after Prepare To ARP, else Get UDID again. */
static void check_wrong_symbols(void)
{
    static const uint16_t direction[] = { HB_START, 0xc3 };
    static const uint16_t nack[] = { HB_START, 0xc2, HB_ACK, 3, HB_ACK, HB_START, 0xc3, HB_ACK, 17, HB_NACK };
    static const uint16_t stop[] = { HB_START, 0xc2, HB_ACK, 3, HB_ACK, HB_START, 0xc3, HB_ACK, 17, HB_STOP };
    struct list l = { NULL, 0 }, first = { NULL, 0 };
    append(&first, (const uint8_t *)direction, 2);
    CHECK(hb_pass(nothing, NEVER, first.bytes, first.length).kind == HB_ABANDONED);
    CHECK(hb_pass(nothing, NEVER, first.bytes, first.length).answer == HB_PASS_ABANDONED);
    send(&l, HB_PREPARE, 0, NULL, 0);
    append(&l, (const uint8_t *)direction, 2);
    expect(&l, HB_GET_UDID, 0, 2, NEVER);
    append(&l, (const uint8_t *)nack, 10);
    expect(&l, HB_GET_UDID, 0, 3, NEVER);
    append(&l, (const uint8_t *)stop, 10);
    expect(&l, HB_GET_UDID, 0, 4, NEVER);
    free(first.bytes);
    free(l.bytes);
}

/* The address that is picked after a last pick where nothing is occupied: the next that is on no row of Table 17, from 7Fh round
 * to 00h. */
static uint32_t after(unsigned last)
{
    do
        last = (last + 1) % 128;
    while (hb_is_listed((uint8_t)last));
    return last;
}

/* A target without an address, after every last pick: the address picked is the last pick, also where the Assign fails, and the next
 * reply gets the one after it. Above 127 the pass and the lookup are refused, whatever the list is. */
static void check_last_picks(void)
{
    struct list l = { NULL, 0 }, replied = { NULL, 0 }, failed = { NULL, 0 };
    uint8_t reply[17];
    reply_with(reply, 0xff);
    send(&replied, HB_PREPARE, 0, NULL, 0);
    send(&replied, HB_GET_UDID, 0, reply, sizeof reply);
    send(&failed, HB_PREPARE, 0, NULL, 0);
    send(&failed, HB_GET_UDID, 0, reply, sizeof reply);
    append(&failed, reply, 0);
    send(&failed, HB_GET_UDID, 0, reply, sizeof reply);
    for (unsigned last = 0; last < 128; last++) {
        expect_after((uint8_t)last, &l, HB_PREPARE, 0, 0, last);
        expect_after((uint8_t)last, &replied, HB_ASSIGN, after(last), 1, after(last));
        expect_after((uint8_t)last, &failed, HB_ASSIGN, after(after(last)), 2, after(after(last)));
        CHECK(hb_pass_lookup(nothing, (uint8_t)last, replied.bytes, replied.length, 0x20).answer == HB_NOBODY);
    }
    CHECK(after(0x76) == 0x77 && after(0x77) == 0x0d && after(126) == 0x0d && after(127) == 0x0d && after(0) == 0x0d);
    CHECK(after(0x2b) == 0x2e && after(0x3f) == 0x45 && after(0x47) == 0x4c && after(0x49) == 0x4c);
    for (unsigned last = 128; last < 256; last++) {
        hb_command c = hb_pass(nothing, (uint8_t)last, replied.bytes, last % 2 == 0 ? replied.length : 0);
        hb_found f = hb_pass_lookup(nothing, (uint8_t)last, replied.bytes, replied.length, (uint8_t)(last - 100));
        CHECK(c.kind == HB_NOT_OUTSTANDING && c.answer == HB_FORBIDDEN && c.address == 0 && c.gets == 0 && c.picked == 0);
        CHECK(c.reason == 0 && c.udid.high == 0 && c.udid.low == 0);
        CHECK(f.answer == HB_FORBIDDEN && f.udid.high == 0 && f.udid.low == 0);
    }
    CHECK(hb_pass(nothing, 128, NULL, 0).answer == HB_FORBIDDEN && hb_pass_lookup(nothing, 255, NULL, 0, 0x0d).answer == HB_FORBIDDEN);
    free(replied.bytes);
    free(failed.bytes);
}

/* The address that was picked is bound, and another pass, begun after it, gives the next newcomer another. The last pick is told at the
 * end of the pass, and no longer by a list that goes on behind it. */
static void check_vacated(void)
{
    struct list l = { NULL, 0 };
    uint8_t reply[17];
    reply_with(reply, 0xff);
    send(&l, HB_PREPARE, 0, NULL, 0);
    send(&l, HB_GET_UDID, 0, reply, sizeof reply);
    send(&l, HB_ASSIGN, 0x0e, NULL, 0);
    expect_after(0x0d, &l, HB_GET_UDID, 0, 2, 0x0e);
    CHECK(hb_pass_lookup(nothing, 0x0d, l.bytes, l.length, 0x0e).answer == HB_DONE);
    CHECK(hb_udid_is_same(hb_pass_lookup(nothing, 0x0d, l.bytes, l.length, 0x0e).udid, module));
    CHECK(hb_pass_lookup(nothing, 0x0e, l.bytes, l.length, 0x0e).answer == HB_NOBODY);
    expect_after(0x0e, &l, HB_GET_UDID, 0, 2, 0x0f);
    append(&l, silence, 9);
    expect_after(0x0d, &l, HB_ENDED, 0, 2, 0x0e);
    append(&l, silence, 9);
    expect_none_outstanding(0x0d, &l);
    CHECK(hb_pass_lookup(nothing, 0x0d, l.bytes, l.length, 0x0e).answer == HB_DONE);
    free(l.bytes);
}

/* Two fixed targets at one address: it is claimed by two, whatever is reported. */
static void check_claimed(void)
{
    struct list l = { NULL, 0 };
    send(&l, HB_PREPARE, 0, NULL, 0);
    for (uint64_t high = 1; high <= 2; high++) {
        fixed_joins(&l, high, 0x30);
        CHECK(found(&l, 0x30) == (high == 1 ? HB_DONE : HB_TWO));
    }
    CHECK(hb_pass(nothing, NEVER, l.bytes, l.length).gets == 3);
    report(&l, 0x30);
    CHECK(found(&l, 0x30) == HB_TWO);
    free(l.bytes);
}

/* The first of two is reported gone while the Assign to the second is outstanding: the second is bound. */
static void check_taken_back(void)
{
    struct list l = { NULL, 0 };
    hb_command before, after;
    send(&l, HB_PREPARE, 0, NULL, 0);
    fixed_joins(&l, 1, 0x30);
    fixed_replies(&l, 2, 0x30);
    before = hb_pass(nothing, NEVER, l.bytes, l.length);
    report(&l, 0x30);
    after = hb_pass(nothing, NEVER, l.bytes, l.length);
    CHECK(before.kind == HB_ASSIGN && before.address == 0x30 && before.udid.high == 2 && before.gets == 2);
    CHECK(after.kind == HB_ASSIGN && after.address == 0x30 && after.udid.high == 2 && after.gets == 2);
    CHECK(found(&l, 0x30) == HB_LEFT);
    fixed_takes(&l, 2, 0x30);
    CHECK(found(&l, 0x30) == HB_DONE && hb_pass_lookup(nothing, NEVER, l.bytes, l.length, 0x30).udid.high == 2);
    free(l.bytes);
}

/* On 48h, a prototype address, a fixed target is bound, unbound by another reply, and bound again. Unbound once more, it is sent an
 * Assign that fails; then it is bound and reported gone. Each time the movable module that held 48h gets a pick instead. Another fixed
 * target is bound there, and with a third one it is claimed by two. */
static void check_row(void)
{
    struct list l = { NULL, 0 };
    uint8_t reply[17];
    reply_with(reply, 2 * 0x48 + 1);
    send(&l, HB_PREPARE, 0, NULL, 0);
    fixed_joins(&l, 1, 0x48);
    CHECK(found(&l, 0x48) == HB_DONE);
    fixed_replies(&l, 1, 0x48);
    CHECK(found(&l, 0x48) == HB_NOBODY);
    fixed_takes(&l, 1, 0x48);
    CHECK(found(&l, 0x48) == HB_DONE);
    fixed_replies(&l, 1, 0x48);
    append(&l, reply, 0);
    CHECK(found(&l, 0x48) == HB_NOBODY);
    send(&l, HB_GET_UDID, 0, reply, sizeof reply);
    expect(&l, HB_ASSIGN, 0x0d, 4, 0x0d);
    expect_after(0x47, &l, HB_ASSIGN, 0x4c, 4, 0x4c);
    append(&l, reply, 0);
    fixed_joins(&l, 1, 0x48);
    CHECK(found(&l, 0x48) == HB_DONE);
    report(&l, 0x48);
    CHECK(found(&l, 0x48) == HB_LEFT);
    send(&l, HB_GET_UDID, 0, reply, sizeof reply);
    expect(&l, HB_ASSIGN, 0x0e, 6, 0x0e);
    expect_after(0x47, &l, HB_ASSIGN, 0x4d, 6, 0x4d);
    send(&l, HB_ASSIGN, 0x0e, NULL, 0);
    CHECK(found(&l, 0x48) == HB_LEFT && found(&l, 0x0e) == HB_DONE);
    fixed_joins(&l, 2, 0x48);
    CHECK(found(&l, 0x48) == HB_DONE && hb_pass_lookup(nothing, NEVER, l.bytes, l.length, 0x48).udid.high == 2);
    fixed_joins(&l, 3, 0x48);
    CHECK(found(&l, 0x48) == HB_TWO);
    free(l.bytes);
}

/* One fixed target at an address: two claim it where it is one of the 21 or is occupied, be it on a row or not; else it is bound. */
static void check_barred(void)
{
    for (unsigned a = 0; a < 127; a++) {
        struct list l = { NULL, 0 };
        hb_pool occupied = hb_pool_with(nothing, (uint8_t)a);
        send(&l, HB_PREPARE, 0, NULL, 0);
        fixed_joins(&l, 1, (uint8_t)a);
        CHECK(found(&l, (uint8_t)a) == (hb_is_reserved((uint8_t)a) ? HB_TWO : HB_DONE));
        CHECK(hb_pass_lookup(occupied, NEVER, l.bytes, l.length, (uint8_t)a).answer == HB_TWO);
        free(l.bytes);
    }
}

/* A module that is reported gone: its address is left, until it is bound again. The command stays. */
static void check_gone(void)
{
    struct list l = { NULL, 0 };
    report(&l, 0x20);
    expect(&l, HB_PREPARE, 0, 0, NEVER);
    CHECK(found(&l, 0x20) == HB_NOBODY);
    send(&l, HB_PREPARE, 0, NULL, 0);
    report(&l, 0x20);
    expect(&l, HB_GET_UDID, 0, 1, NEVER);
    join(&l, 0x20);
    CHECK(found(&l, 0x20) == HB_DONE);
    report(&l, 0x21);
    report(&l, 128);
    report(&l, 0xa0);
    report(&l, 0x120);
    report(&l, 0xffff);
    CHECK(found(&l, 0x20) == HB_DONE && found(&l, 0x21) == HB_NOBODY && found(&l, 128) == HB_FORBIDDEN);
    report(&l, 0x20);
    expect(&l, HB_GET_UDID, 0, 2, NEVER);
    CHECK(found(&l, 0x20) == HB_LEFT && hb_pass_lookup(nothing, NEVER, l.bytes, l.length, 0x20).udid.high == 0);
    report(&l, 0x20);
    CHECK(found(&l, 0x20) == HB_LEFT);
    join(&l, 0x20);
    expect(&l, HB_GET_UDID, 0, 3, NEVER);
    CHECK(found(&l, 0x20) == HB_DONE);
    free(l.bytes);
}

/* The old address of a module that replies again is not left. A report after the end of a pass, and after 21, counts too. */
static void check_gone_at_the_end(void)
{
    struct list l = { NULL, 0 };
    send(&l, HB_PREPARE, 0, NULL, 0);
    join(&l, 0x20);
    join(&l, 0x21);
    CHECK(found(&l, 0x20) == HB_NOBODY && found(&l, 0x21) == HB_DONE);
    report(&l, 0x20);
    CHECK(found(&l, 0x20) == HB_NOBODY && found(&l, 0x21) == HB_DONE);
    append(&l, silence, 9);
    expect(&l, HB_ENDED, 0, 3, NEVER);
    append(&l, silence, 9);
    expect_none_outstanding(NEVER, &l);
    report(&l, 0x21);
    expect_none_outstanding(NEVER, &l);
    CHECK(found(&l, 0x20) == HB_NOBODY && found(&l, 0x21) == HB_LEFT);
    l.length -= 4 + 2 + 2 * 9;
    report(&l, 0x21);
    expect(&l, HB_ENDED, 0, 3, NEVER);
    CHECK(found(&l, 0x21) == HB_LEFT);
    free(l.bytes);
}

/* A report that is cut, in a block of exactly the bytes that are left: the list ends before it. */
static void check_cut_reports(void)
{
    struct list l = { NULL, 0 };
    uint32_t with[5];
    send(&l, HB_PREPARE, 0, NULL, 0);
    join(&l, 0x20);
    report(&l, 0x20);
    for (size_t more = 0; more <= 4; more++) {
        size_t length = l.length - 4 + more;
        uint8_t *cut = block(length, 0);
        memcpy(cut, l.bytes, length);
        with[more] = hb_pass_lookup(nothing, NEVER, cut, length, 0x20).answer;
        CHECK(hb_pass(nothing, NEVER, cut, length).kind == HB_GET_UDID && hb_pass(nothing, NEVER, cut, length).gets == 2);
        free(cut);
    }
    CHECK(with[0] == HB_DONE && with[1] == HB_DONE && with[2] == HB_DONE && with[3] == HB_DONE && with[4] == HB_LEFT);
    for (size_t length = 1; length <= 4; length++) {
        uint8_t *alone = block(length, 0xff);
        CHECK(hb_pass(nothing, NEVER, alone, length).kind == HB_PREPARE);
        CHECK(hb_pass_lookup(nothing, NEVER, alone, length, 0x7f).answer == HB_NOBODY);
        CHECK(hb_pass(nothing, 128, alone, length).answer == HB_FORBIDDEN);
        free(alone);
    }
    CHECK(hb_pass(nothing, NEVER, NULL, 0).kind == HB_PREPARE);
    CHECK(hb_pass_lookup(nothing, NEVER, NULL, 0, 0x20).answer == HB_NOBODY);
    free(l.bytes);
}

/* A picked address that is taken back is picked again, after the others that are free: at once where it alone is. */
static void check_picked_again(void)
{
    struct list l = { NULL, 0 };
    uint8_t reply[17];
    hb_command c;
    reply_with(reply, 0xff);
    send(&l, HB_PREPARE, 0, NULL, 0);
    send(&l, HB_GET_UDID, 0, reply, sizeof reply);
    send(&l, HB_ASSIGN, 0x0d, NULL, 0);
    report(&l, 0x0d);
    expect(&l, HB_GET_UDID, 0, 2, 0x0d);
    send(&l, HB_GET_UDID, 0, reply, sizeof reply);
    expect(&l, HB_ASSIGN, 0x0e, 2, 0x0e);
    CHECK(found(&l, 0x0d) == HB_LEFT);
    c = hb_pass(hb_pool_without(everything, 0x0d), NEVER, l.bytes, l.length);
    CHECK(c.kind == HB_ASSIGN && c.address == 0x0d && c.picked == 0x0d && c.gets == 2);
    free(l.bytes);
}

void check_passes(void)
{
    check_commands();
    check_numbers();
    check_bound();
    check_ends();
    check_wrong_symbols();
    check_last_picks();
    check_vacated();
    check_claimed();
    check_taken_back();
    check_row();
    check_barred();
    check_gone();
    check_gone_at_the_end();
    check_cut_reports();
    check_picked_again();
}
