/* Target lists and the model run. */
#include "check.h"

static void put_record(uint8_t *record, uint8_t first, uint8_t address_byte, uint8_t flag)
{
    memset(record, first, 16);
    record[16] = address_byte;
    record[17] = flag;
}

static int unbound(hb_model m)
{
    return m.count == 0 && m.bound.low == 0 && m.bound.high == 0;
}

/* M8, with a binding buffer of exactly 2,048 bytes and of one more, and after a last pick: the one that picks gets that address. */
static void check_three(size_t room, uint8_t last, uint8_t picked)
{
    uint8_t *records = block(3 * HB_RECORD, 0), *bindings = block(room, 0xee);
    hb_pool bound;
    hb_model m;
    put_record(records, 0x80, 0xff, 1);
    put_record(records + HB_RECORD, 0x00, 0x13, 0);
    put_record(records + 2 * HB_RECORD, 0x40, 0x41, 1);
    CHECK(hb_check_targets(nothing, records, 3 * HB_RECORD).answer == 0);
    m = hb_run_model(nothing, last, records, 3 * HB_RECORD, bindings, room);
    CHECK(m.answer == HB_DONE && m.count == 3 && m.gets == 4 && m.place == 0 && m.udid.high == 0 && m.udid.low == 0);
    CHECK(m.picked == picked);
    bound = hb_pool_with(hb_pool_with(hb_pool_with(nothing, 0x09), 0x20), picked);
    CHECK(m.bound.low == bound.low && m.bound.high == bound.high);
    CHECK(records[16] == 2 * picked + 1 && records[HB_RECORD + 16] == 0x13 && records[2 * HB_RECORD + 16] == 0x41);
    for (int i = 0; i < 3; i++)
        CHECK(records[i * HB_RECORD + 17] == 1);
    CHECK(all(records, 0, 16, 0x80));
    for (unsigned a = 0; a < 128; a++)
        CHECK(all(bindings, 16 * a, 16 * a + 16, a == picked ? 0x80 : a == 0x20 ? 0x40 : 0));
    CHECK(all(bindings, HB_BINDINGS_ROOM, room, 0xee));
    free(records);
    free(bindings);
}

/* After every last pick the target of M8 that has no address gets the first one on the way round that is not
 * on a row of Table 17, and is not 20h. */
static void check_every_last_pick(void)
{
    for (unsigned last = 0; last < 128; last++) {
        unsigned picked = last;
        do
            picked = (picked + 1) % 128;
        while (hb_is_listed((uint8_t)picked) || picked == 0x20);
        check_three(HB_BINDINGS_ROOM, (uint8_t)last, (uint8_t)picked);
    }
}

/* On every address a fixed target alone, and a movable one that held it. The fixed one is bound there unless it is one of the 21; the
 * movable one keeps it if it is on no row, and else gets 0Dh. Where the address is occupied the fixed one is refused. */
static void check_rows(void)
{
    uint8_t *record = block(HB_RECORD, 0), *bindings = block(HB_BINDINGS_ROOM, 0xee);
    for (unsigned a = 0; a < 127; a++) {
        hb_pool occupied = hb_pool_with(nothing, (uint8_t)a);
        uint32_t due = hb_is_reserved((uint8_t)a) ? HB_TAKEN : HB_DONE;
        hb_model m;
        put_record(record, 0x01, (uint8_t)(2 * a + 1), 0);
        CHECK(hb_check_targets(nothing, record, HB_RECORD).answer == due);
        CHECK(hb_check_targets(occupied, record, HB_RECORD).answer == HB_TAKEN);
        CHECK(hb_run_model(occupied, NEVER, record, HB_RECORD, bindings, HB_BINDINGS_ROOM).answer == HB_TAKEN);
        m = hb_run_model(nothing, NEVER, record, HB_RECORD, bindings, HB_BINDINGS_ROOM);
        CHECK(m.answer == due && hb_pool_has(m.bound, (uint8_t)a) == (due == HB_DONE) && record[16] == 2 * a + 1);
        CHECK(due == HB_TAKEN || all(bindings, 16 * a, 16 * a + 16, 0x01));
        put_record(record, 0x80, (uint8_t)(2 * a + 1), 0);
        CHECK(hb_check_targets(occupied, record, HB_RECORD).answer == HB_DONE);
        m = hb_run_model(nothing, NEVER, record, HB_RECORD, bindings, HB_BINDINGS_ROOM);
        CHECK(m.answer == HB_DONE && m.count == 1 && record[16] == 2 * (hb_is_listed((uint8_t)a) ? 0x0d : a) + 1);
    }
    free(record);
    free(bindings);
}

/* M9: the smaller has no address, the larger holds 09h. */
static void check_two_movable(void)
{
    uint8_t *records = block(2 * HB_RECORD, 0), *bindings = block(HB_BINDINGS_ROOM, 0xee);
    hb_model m;
    put_record(records, 0x40, 0xff, 0);
    put_record(records + HB_RECORD, 0x80, 2 * 0x09 + 1, 0);
    m = hb_run_model(nothing, NEVER, records, 2 * HB_RECORD, bindings, HB_BINDINGS_ROOM);
    CHECK(m.answer == HB_DONE && m.count == 2 && m.gets == 3 && m.picked == 0x0e);
    CHECK(records[16] == 2 * 0x0d + 1 && records[HB_RECORD + 16] == 2 * 0x0e + 1);
    free(records);
    free(bindings);
}

/* A refusal leaves both buffers as they were. After a last pick above 127 it is 1, whatever else is refused. */
static void check_refused(uint64_t low, uint8_t *records, size_t length, size_t room, uint32_t answer, size_t place)
{
    static const uint8_t last[] = { NEVER, 0, 126, 128, 200, 255 };
    uint8_t *before = block(length, 0), *bindings = block(room, 0xee);
    hb_pool occupied = { low, 0 };
    hb_checked c = hb_check_targets(occupied, records, length);
    CHECK(answer == HB_TOO_SHORT || (c.answer == answer && c.place == place));
    if (length > 0)
        memcpy(before, records, length);
    for (size_t k = 0; k < sizeof last; k++) {
        hb_model m = hb_run_model(occupied, last[k], records, length, bindings, room);
        CHECK(m.answer == (last[k] > NEVER ? HB_FORBIDDEN : answer) && m.place == (last[k] > NEVER ? 0 : place));
        CHECK(m.gets == 0 && m.picked == 0 && m.udid.high == 0 && m.udid.low == 0 && unbound(m));
        CHECK(length == 0 || memcmp(before, records, length) == 0);
        CHECK(room == 0 || all(bindings, 0, room, 0xee));
    }
    free(before);
    free(bindings);
}

/* Every last pick above 127: 1, and a list that would run is left as it was. */
static void check_no_last_pick(void)
{
    uint8_t *record = block(HB_RECORD, 0), *bindings = block(HB_BINDINGS_ROOM, 0xee);
    for (unsigned last = 128; last < 256; last++) {
        hb_model m;
        put_record(record, 0x80, 0xff, 1);
        m = hb_run_model(nothing, (uint8_t)last, record, HB_RECORD, bindings, HB_BINDINGS_ROOM);
        CHECK(m.answer == HB_FORBIDDEN && m.place == 0 && m.gets == 0 && m.picked == 0 && unbound(m));
        CHECK(m.udid.high == 0 && m.udid.low == 0);
        CHECK(all(record, 0, 16, 0x80) && record[16] == 0xff && record[17] == 1 && all(bindings, 0, HB_BINDINGS_ROOM, 0xee));
        CHECK(hb_run_model(nothing, (uint8_t)last, NULL, 0, NULL, 0).answer == HB_FORBIDDEN);
    }
    free(record);
    free(bindings);
}

static void check_refusals(void)
{
    uint8_t *records = block(3 * HB_RECORD, 0), *many = block((HB_MOST_TARGETS + 1) * HB_RECORD, 1);
    for (uint8_t i = 0; i < 3; i++)
        put_record(records + i * HB_RECORD, i, (uint8_t)(0x21 + 2 * i), 0);
    check_refused(0, NULL, 0, 0, HB_TOO_SHORT, 0);
    check_refused(0, records, 3 * HB_RECORD, HB_BINDINGS_ROOM - 1, HB_TOO_SHORT, 0);
    check_refused(0, records, 1, HB_BINDINGS_ROOM, HB_BAD_LENGTH, 0);
    check_refused(0, records, 2 * HB_RECORD - 1, HB_BINDINGS_ROOM, HB_BAD_LENGTH, 0);
    check_refused(0, many, (HB_MOST_TARGETS + 1) * HB_RECORD, HB_BINDINGS_ROOM, HB_BAD_LENGTH, 0);
    check_refused(1 << 0x11, records, 3 * HB_RECORD, HB_BINDINGS_ROOM, HB_TAKEN, 1);
    memset(records + 2 * HB_RECORD, 0, 16);
    check_refused(1 << 0x11, records, 3 * HB_RECORD, HB_BINDINGS_ROOM, HB_REPEATED, 2);
    records[2 * HB_RECORD + 17] = 2;
    check_refused(1 << 0x11, records, 3 * HB_RECORD, HB_BINDINGS_ROOM, HB_MALFORMED, 2);
    records[HB_RECORD + 16] = 0x20;
    check_refused(1 << 0x11, records, 3 * HB_RECORD, HB_BINDINGS_ROOM, HB_MALFORMED, 1);
    free(records);
    free(many);
}

/* No target, and a target that finds no address. */
static void check_nobody(void)
{
    uint8_t *bindings = block(HB_BINDINGS_ROOM, 0xee), *record = block(HB_RECORD, 0);
    hb_model m = hb_run_model(nothing, NEVER, NULL, 0, bindings, HB_BINDINGS_ROOM);
    CHECK(m.answer == HB_DONE && m.gets == 0 && unbound(m) && all(bindings, 0, HB_BINDINGS_ROOM, 0));
    CHECK(m.picked == NEVER && hb_run_model(nothing, 0x33, NULL, 0, bindings, HB_BINDINGS_ROOM).picked == 0x33);
    CHECK(hb_check_targets(nothing, NULL, 0).answer == 0);
    put_record(record, 0x80, 0xff, 1);
    m = hb_run_model(everything, NEVER, record, HB_RECORD, bindings, HB_BINDINGS_ROOM);
    CHECK(m.answer == HB_NO_FREE_ADDRESS && m.gets == 1 && m.place == 0 && m.picked == NEVER && unbound(m));
    CHECK(hb_run_model(everything, 0, record, HB_RECORD, bindings, HB_BINDINGS_ROOM).picked == 0);
    CHECK(m.udid.high == 0x8080808080808080 && m.udid.low == 0x8080808080808080);
    CHECK(record[16] == 0xff && record[17] == 0);
    free(bindings);
    free(record);
}

/* A module is pulled, and another one comes: it gets the next address, and the vacated one only after all others. */
static void check_in_turn(void)
{
    uint8_t *bindings = block(HB_BINDINGS_ROOM, 0xee), *record = block(HB_RECORD, 0);
    uint8_t last = NEVER;
    unsigned free_ones = 128 - hb_pool_used(hb_pool_starting(nothing));
    hb_pool given = nothing;
    for (unsigned k = 0; k < free_ones; k++) {
        hb_model m;
        put_record(record, (uint8_t)(0x80 + k), 0xff, 0);
        m = hb_run_model(nothing, last, record, HB_RECORD, bindings, HB_BINDINGS_ROOM);
        CHECK(m.answer == HB_DONE && m.count == 1 && m.gets == 2 && !hb_pool_has(given, (uint8_t)m.picked));
        CHECK(hb_pool_has(m.bound, (uint8_t)m.picked) && record[16] == 2 * m.picked + 1);
        last = (uint8_t)m.picked;
        given = hb_pool_with(given, last);
    }
    CHECK(last == 0x77 && free_ones == 93 && hb_pool_used(given) == free_ones);
    put_record(record, 0x40, 0xff, 0);
    CHECK(hb_run_model(nothing, last, record, HB_RECORD, bindings, HB_BINDINGS_ROOM).picked == 0x0d);
    CHECK(hb_run_model(nothing, last, record, HB_RECORD, bindings, HB_BINDINGS_ROOM).picked == last);
    free(bindings);
    free(record);
}

void check_model(void)
{
    check_three(HB_BINDINGS_ROOM, NEVER, 0x0d);
    check_three(HB_BINDINGS_ROOM + 1, NEVER, 0x0d);
    check_three(HB_BINDINGS_ROOM, 0x3f, 0x45);
    check_three(HB_BINDINGS_ROOM, 0x77, 0x0d);
    check_every_last_pick();
    check_rows();
    check_two_movable();
    check_refusals();
    check_no_last_pick();
    check_nobody();
    check_in_turn();
}
