/* PEC, addresses, pools and identifiers. */
#include "check.h"

static void check_pec(void)
{
    uint8_t *text = block(9, 0);
    memcpy(text, "123456789", 9);
    CHECK(hb_pec(NULL, 0) == 0);
    CHECK(hb_pec(text, 0) == 0);
    CHECK(hb_pec(text, 9) == 0xf4);
    CHECK(hb_pec_byte(0, 0x01) == 0x07);
    CHECK(hb_pec_byte(0, 0x80) == 0x89);
    CHECK(hb_pec_bytes(0x5a, NULL, 0) == 0x5a);
    for (size_t n = 0; n <= 9; n++)
        CHECK(hb_pec_bytes(hb_pec(text, n), text + n, 9 - n) == 0xf4);
    free(text);
}

/* The rows of Table 17, as its bits and those that count: 35 addresses. */
static const struct {
    uint8_t bits, mask;
} rows[] = {
    { 0x00, 0x7f }, { 0x01, 0x7f }, { 0x02, 0x7f }, { 0x03, 0x7f }, { 0x04, 0x7c }, { 0x08, 0x7f }, { 0x09, 0x7f },
    { 0x0a, 0x7f }, { 0x0b, 0x7f }, { 0x0c, 0x7f }, { 0x28, 0x7f }, { 0x2c, 0x7f }, { 0x2d, 0x7f }, { 0x37, 0x7f },
    { 0x40, 0x7c }, { 0x44, 0x7f }, { 0x48, 0x7c }, { 0x61, 0x7f }, { 0x78, 0x7c }, { 0x7c, 0x7c },
};

static int on_a_row(unsigned n)
{
    for (size_t k = 0; k < sizeof rows / sizeof rows[0]; k++)
        if (n < 128 && (n & rows[k].mask) == rows[k].bits)
            return 1;
    return 0;
}

static void check_addresses(void)
{
    unsigned reserved = 0, listed = 0;
    for (unsigned n = 0; n < 256; n++) {
        uint8_t a = (uint8_t)n;
        CHECK(hb_wire_for_write(a) == 2 * (n % 128));
        CHECK(hb_wire_for_read(a) == 2 * (n % 128) + 1);
        CHECK(hb_address_from_wire(a) == n / 2);
        CHECK(hb_wire_is_read(a) == n % 2);
        CHECK(hb_is_seven_bit(a) == (n < 128));
        CHECK(hb_is_default(a) == (n == HB_DEFAULT_ADDRESS));
        CHECK(hb_is_host(a) == (n == HB_HOST_ADDRESS));
        CHECK(hb_is_alert_response(a) == (n == HB_ALERT_RESPONSE_ADDRESS));
        CHECK(hb_is_listed(a) == on_a_row(n));
        CHECK(hb_is_reserved(a) <= hb_is_listed(a));
        reserved += hb_is_reserved(a);
        listed += hb_is_listed(a);
    }
    CHECK(reserved == 21 && listed == 35);
    CHECK(hb_is_reserved(0x28) == 1 && hb_is_reserved(0x29) == 0 && hb_is_reserved(128) == 0);
    CHECK(hb_is_reserved(0x48) == 0 && hb_is_listed(0x48) == 1 && hb_is_listed(0x47) == 0 && hb_is_listed(0xc8) == 0);
}

void check_ground(void)
{
    check_pec();
    check_addresses();
}

static void check_sets(void)
{
    hb_pool p = { 0, 0 };
    for (unsigned n = 0; n < 128; n++) {
        CHECK(hb_pool_used(p) == n && hb_pool_lowest_free(p) == n);
        CHECK(hb_pool_has(p, (uint8_t)n) == 0);
        p = hb_pool_with(p, (uint8_t)n);
        CHECK(hb_pool_has(p, (uint8_t)n) == 1);
    }
    CHECK(p.low == UINT64_MAX && p.high == UINT64_MAX);
    CHECK(hb_pool_used(p) == 128 && hb_pool_lowest_free(p) == 128);
    p = hb_pool_without(p, 70);
    CHECK(p.high == (UINT64_MAX ^ 64) && hb_pool_lowest_free(p) == 70);
    p = hb_pool_without(p, 70);
    CHECK(hb_pool_used(p) == 127);
    for (unsigned n = 128; n < 256; n++) {
        hb_pool two = { 1, 2 }, more = hb_pool_with(two, (uint8_t)n), fewer = hb_pool_without(two, (uint8_t)n);
        CHECK(hb_pool_has(everything, (uint8_t)n) == 0);
        CHECK(more.low == 1 && more.high == 2 && fewer.low == 1 && fewer.high == 2);
    }
}

static int is_free(hb_pool pool, unsigned n)
{
    return ((n < 64 ? pool.low >> n : pool.high >> (n - 64)) & 1) == 0;
}

/* Every last pick: the walk from it on, round from 7Fh to 00h, stops at the first free address; where none is free it is 128. */
static void check_next_free(hb_pool pool)
{
    for (unsigned last = 0; last < 256; last++) {
        unsigned steps = 1, from = last > NEVER ? NEVER : last;
        while (steps <= 128 && !is_free(pool, (from + steps) % 128))
            steps++;
        CHECK(hb_pool_next_free(pool, (uint8_t)last) == (steps > 128 ? 128 : (from + steps) % 128));
    }
    CHECK(hb_pool_next_free(pool, NEVER) == hb_pool_lowest_free(pool));
}

static void check_picks(void)
{
    hb_pool two = hb_pool_without(hb_pool_without(everything, 0x09), 0x77);
    check_next_free(nothing);
    check_next_free(everything);
    check_next_free(hb_pool_starting(nothing));
    check_next_free(two);
    for (unsigned n = 0; n < 128; n++) {
        check_next_free(hb_pool_without(everything, (uint8_t)n));
        CHECK(hb_pool_next_free(hb_pool_without(everything, (uint8_t)n), (uint8_t)n) == n);
    }
    CHECK(hb_pool_next_free(nothing, 0) == 1 && hb_pool_next_free(nothing, 126) == 127 && hb_pool_next_free(nothing, 127) == 0);
    CHECK(hb_pool_next_free(nothing, 63) == 64 && hb_pool_next_free(nothing, 128) == 0 && hb_pool_next_free(nothing, 255) == 0);
    CHECK(hb_pool_next_free(two, 0x08) == 0x09 && hb_pool_next_free(two, 0x09) == 0x77 && hb_pool_next_free(two, 0x77) == 0x09);
    CHECK(hb_pool_next_free(everything, 0) == 128 && hb_pool_next_free(everything, 255) == 128);
}

static void check_starting(void)
{
    hb_pool occupied = { 1 << 0x0d, 1 }, start = hb_pool_starting(nothing), either = hb_pool_union(start, occupied);
    CHECK(hb_pool_used(start) == 35);
    for (unsigned n = 0; n < 128; n++)
        CHECK(hb_pool_has(start, (uint8_t)n) == hb_is_listed((uint8_t)n));
    CHECK(either.low == hb_pool_starting(occupied).low && either.high == hb_pool_starting(occupied).high);
    CHECK(hb_pool_used(either) == 36 && hb_pool_lowest_free(start) == 0x0d && hb_pool_lowest_free(either) == 0x0e);
}

/* 40h, which is on a row, and 0Dh are occupied. */
static void check_barred(void)
{
    hb_pool occupied = { 1 << 0x0d, 1 }, barred = hb_pool_barred(nothing), either = hb_pool_union(barred, occupied);
    CHECK(hb_pool_used(barred) == 21);
    for (unsigned n = 0; n < 128; n++)
        CHECK(hb_pool_has(barred, (uint8_t)n) == hb_is_reserved((uint8_t)n));
    CHECK(either.low == hb_pool_barred(occupied).low && either.high == hb_pool_barred(occupied).high);
    CHECK(hb_pool_used(either) == 23 && hb_pool_lowest_free(either) == 0x09);
    CHECK(hb_pool_used(hb_pool_barred(everything)) == 128 && hb_pool_used(hb_pool_starting(everything)) == 128);
}

static hb_udid halves(uint64_t high, uint64_t low)
{
    hb_udid u = { high, low };
    return u;
}

static void check_order(void)
{
    CHECK(hb_udid_is_same(halves(1, 2), halves(1, 2)) == 1 && hb_udid_is_same(halves(1, 2), halves(2, 1)) == 0);
    CHECK(hb_udid_is_below(halves(1, 9), halves(2, 0)) == 1 && hb_udid_is_below(halves(2, 0), halves(1, 9)) == 0);
    CHECK(hb_udid_is_below(halves(1, 2), halves(1, 2)) == 0 && hb_udid_is_below(halves(1, 1), halves(1, 2)) == 1);
    CHECK(hb_udid_is_fixed(halves(0x3fffffffffffffff, 0)) == 1 && hb_udid_is_fixed(halves(0x4000000000000000, 0)) == 0);
}

static void check_identifiers(void)
{
    uint8_t *s = block(16, 0), *short_one = block(15, 0xee), *long_one = block(20, 0xee);
    hb_udid u;
    for (unsigned i = 0; i < 16; i++)
        s[i] = (uint8_t)(i + 1);
    u = hb_udid_from_bytes(s, 16, 0);
    CHECK(u.high == 0x0102030405060708 && u.low == 0x090a0b0c0d0e0f10);
    CHECK(hb_udid_from_bytes(s, 16, 9).high == 0x0a0b0c0d0e0f1000 && hb_udid_from_bytes(s, 16, 9).low == 0);
    CHECK(hb_udid_from_bytes(NULL, 0, 0).high == 0 && hb_udid_from_bytes(s, 16, SIZE_MAX).low == 0);
    hb_udid_put_bytes(u, NULL, 0, 0);
    hb_udid_put_bytes(u, short_one, 15, 0);
    CHECK(all(short_one, 0, 15, 0xee));
    hb_udid_put_bytes(u, long_one, 20, 5);
    hb_udid_put_bytes(u, long_one, 20, SIZE_MAX);
    CHECK(all(long_one, 0, 20, 0xee));
    hb_udid_put_bytes(u, long_one, 20, 3);
    CHECK(all(long_one, 0, 3, 0xee) && memcmp(long_one + 3, s, 16) == 0 && long_one[19] == 0xee);
    check_order();
    free(s);
    free(short_one);
    free(long_one);
}

void check_pools(void)
{
    check_sets();
    check_picks();
    check_starting();
    check_barred();
    check_identifiers();
}
