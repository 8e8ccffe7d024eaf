/* Choosing apart from sending: a first half of a step, and what is chosen by it issued or declined. */
#include "lists.h"

/* The fixed targets of the lists: this one's identifier begins with the number. */
static hb_udid fixed(uint64_t high)
{
    hb_udid u = { high, 0 };
    return u;
}

/* A choice that waits where these are occupied, with every part of it. */
static void expect_chosen_among(hb_pool occupied, const struct list *l, hb_udid u, uint32_t address, uint32_t gets,
                                uint32_t picked, uint32_t reason)
{
    hb_command c = hb_pass(occupied, NEVER, l->bytes, l->length);
    CHECK(c.kind == HB_CHOSEN && c.answer == HB_DONE && c.address == address && c.gets == gets && c.picked == picked);
    CHECK(c.reason == reason && hb_udid_is_same(c.udid, u));
}

static void expect_chosen(const struct list *l, hb_udid u, uint32_t address, uint32_t gets, uint32_t picked, uint32_t reason)
{
    expect_chosen_among(nothing, l, u, address, gets, picked, reason);
}

/* Anything but a choice: its reason is 0. The identifier is that of an Assign, and else 0. */
static void expect_other(const struct list *l, uint32_t kind, uint32_t answer, hb_udid u, uint32_t address, uint32_t gets, uint32_t picked)
{
    hb_command c = hb_pass(nothing, NEVER, l->bytes, l->length);
    CHECK(c.kind == kind && c.answer == answer && c.address == address && c.gets == gets && c.picked == picked && c.reason == 0);
    CHECK(hb_udid_is_same(c.udid, u));
}

/* 21: every part is 0 but the answer and the kind. */
static void expect_21(const struct list *l)
{
    expect_other(l, HB_NOT_OUTSTANDING, HB_NO_COMMAND, nobody, 0, 0, 0);
}

/* An issue and a decline are 21 here. The list is as it was afterwards. */
static void expect_no_choice(struct list *l)
{
    size_t length = l->length;
    issue(l);
    expect_21(l);
    decline(l);
    expect_21(l);
    l->length = length;
}

/* A list in which the module replies with this address byte, to a first half. */
static struct list module_chosen(uint8_t byte)
{
    struct list l = { NULL, 0 };
    uint8_t reply[17];
    reply_with(reply, byte);
    half(&l);
    send(&l, HB_PREPARE, 0, NULL, 0);
    half(&l);
    send(&l, HB_GET_UDID, 0, reply, sizeof reply);
    return l;
}

/* The same for a fixed target at an address. */
static struct list fixed_chosen(uint64_t high, uint8_t address)
{
    struct list l = { NULL, 0 };
    send(&l, HB_PREPARE, 0, NULL, 0);
    half(&l);
    fixed_replies(&l, high, address);
    return l;
}

/* The numbers, and the place of the reason. */
static void check_constants(void)
{
    CHECK(HB_CHOOSE == 65534 && HB_ISSUE == 65533 && HB_DECLINE == 65532 && HB_CHOSEN == 8);
    CHECK(HB_FIXED == 1 && HB_KEPT == 2 && HB_PICKED == 3 && HB_CLAIMED == 4);
    CHECK(offsetof(hb_command, reason) == offsetof(hb_command, picked) + 4 && sizeof(hb_command) == 40);
    CHECK(hb_put_command(HB_CHOSEN, module, 0x20, NULL, 0, NULL, 0).answer == HB_FORBIDDEN);
}

/* A movable module keeps its address, or one is picked: with 0xff, on a row of Table 17, and where it is occupied. */
static void check_movable(void)
{
    struct list l = module_chosen(0x41);
    expect_chosen(&l, module, 0x20, 1, NEVER, HB_KEPT);
    CHECK(found(&l, 0x20) == HB_NOBODY);
    expect_chosen_among(hb_pool_with(nothing, 0x20), &l, module, 0x0d, 1, 0x0d, HB_PICKED);
    free(l.bytes);
    l = module_chosen(0xff);
    expect_chosen(&l, module, 0x0d, 1, 0x0d, HB_PICKED);
    CHECK(hb_pass(everything, NEVER, l.bytes, l.length).kind == HB_NONE_FREE);
    CHECK(hb_pass(everything, NEVER, l.bytes, l.length).reason == 0);
    issue(&l);
    CHECK(hb_pass(everything, NEVER, l.bytes, l.length).answer == HB_NO_COMMAND);
    free(l.bytes);
    l = module_chosen(0x91);
    expect_chosen(&l, module, 0x0d, 1, 0x0d, HB_PICKED);
    free(l.bytes);
}

/* One fixed target at every address: a claim where it is reserved or occupied, else fixed, on a row of Table 17 too. With 0xff, which
 * is 7Fh here, one is picked; with 0xfe it is 7Fh, which is reserved. */
static void check_fixed(void)
{
    for (unsigned a = 0; a < 127; a++) {
        struct list l = fixed_chosen(1, (uint8_t)a);
        hb_pool occupied = hb_pool_with(nothing, (uint8_t)a);
        expect_chosen(&l, fixed(1), a, 1, NEVER, hb_is_reserved((uint8_t)a) ? HB_CLAIMED : HB_FIXED);
        expect_chosen_among(occupied, &l, fixed(1), a, 1, NEVER, HB_CLAIMED);
        expect_chosen_among(everything, &l, fixed(1), a, 1, NEVER, HB_CLAIMED);
        free(l.bytes);
    }
    struct list l = fixed_chosen(1, 0x7f);
    expect_chosen(&l, fixed(1), 0x0d, 1, 0x0d, HB_PICKED);
    free(l.bytes);
}

/* A choice is issued and completes. A trace before the issue is 21 and leaves it waiting; so is an issue after it. */
static void check_issued(void)
{
    struct list l = module_chosen(0x41);
    append(&l, silence, 9);
    expect_21(&l);
    half(&l);
    send(&l, HB_ASSIGN, 0x20, NULL, 0);
    expect_21(&l);
    CHECK(found(&l, 0x20) == HB_NOBODY);
    issue(&l);
    expect_other(&l, HB_ASSIGN, HB_DONE, module, 0x20, 1, NEVER);
    expect_no_choice(&l);
    issue(&l);
    decline(&l);
    half(&l);
    send(&l, HB_ASSIGN, 0x20, NULL, 0);
    expect_other(&l, HB_GET_UDID, HB_DONE, nobody, 0, 2, NEVER);
    CHECK(found(&l, 0x20) == HB_DONE);
    expect_no_choice(&l);
    half(&l);
    append(&l, silence, 9);
    expect_other(&l, HB_ENDED, HB_DONE, nobody, 0, 2, NEVER);
    expect_no_choice(&l);
    CHECK(found(&l, 0x20) == HB_DONE);
    free(l.bytes);
}

/* The Assign fails: nobody is bound, the address is free again, and the same choice is made another time. */
static void check_failed(void)
{
    struct list l = module_chosen(0x41);
    uint8_t reply[17];
    reply_with(reply, 0x41);
    issue(&l);
    half(&l);
    append(&l, silence, 9);
    expect_other(&l, HB_GET_UDID, HB_DONE, nobody, 0, 2, NEVER);
    CHECK(found(&l, 0x20) == HB_NOBODY);
    half(&l);
    send(&l, HB_GET_UDID, 0, reply, sizeof reply);
    expect_chosen(&l, module, 0x20, 2, NEVER, HB_KEPT);
    free(l.bytes);
}

/* A choice is declined: 14, and 21 after it. What was bound stays, but the old binding of who replied is not put back. */
static void check_declined(void)
{
    struct list l = { NULL, 0 };
    uint8_t reply[17];
    reply_with(reply, 0xff);
    send(&l, HB_PREPARE, 0, NULL, 0);
    fixed_joins(&l, 1, 0x30);
    join(&l, 0x20);
    CHECK(found(&l, 0x20) == HB_DONE);
    half(&l);
    send(&l, HB_GET_UDID, 0, reply, sizeof reply);
    expect_chosen(&l, module, 0x0d, 3, 0x0d, HB_PICKED);
    CHECK(found(&l, 0x20) == HB_NOBODY && found(&l, 0x30) == HB_DONE);
    decline(&l);
    expect_other(&l, HB_ABANDONED, HB_PASS_ABANDONED, nobody, 0, 3, 0x0d);
    CHECK(found(&l, 0x20) == HB_NOBODY && found(&l, 0x0d) == HB_NOBODY && found(&l, 0x30) == HB_DONE);
    expect_no_choice(&l);
    append(&l, silence, 9);
    expect_21(&l);
    report(&l, 0x30);
    CHECK(found(&l, 0x30) == HB_LEFT);
    free(l.bytes);
}

/* A second fixed target at an address: a claim. Declined, the first stays bound. With the first reported gone, before the issue or after
 * it, the second is bound; else two claim it, and a third one's choice says so. */
static void check_claims(void)
{
    for (int when = 0; when < 4; when++) {
        struct list l = { NULL, 0 };
        send(&l, HB_PREPARE, 0, NULL, 0);
        fixed_joins(&l, 1, 0x30);
        half(&l);
        fixed_replies(&l, 2, 0x30);
        expect_chosen(&l, fixed(2), 0x30, 2, NEVER, HB_CLAIMED);
        if (when == 0)
            report(&l, 0x30);
        CHECK(hb_pass(nothing, NEVER, l.bytes, l.length).reason == HB_CLAIMED);
        if (when == 3)
            decline(&l);
        else
            issue(&l);
        if (when == 1)
            report(&l, 0x30);
        fixed_takes(&l, 2, 0x30);
        CHECK(found(&l, 0x30) == (when == 2 ? HB_TWO : HB_DONE));
        CHECK(hb_pass_lookup(nothing, NEVER, l.bytes, l.length, 0x30).udid.high == (when == 2 ? 0 : when == 3 ? 1 : 2));
        if (when == 2) {
            half(&l);
            fixed_replies(&l, 3, 0x30);
            expect_chosen(&l, fixed(3), 0x30, 3, NEVER, HB_CLAIMED);
        }
        free(l.bytes);
    }
}

/* No choice waits before a trace, after Prepare, and where a step has sent an Assign. */
static void check_none(void)
{
    struct list l = { NULL, 0 };
    expect_no_choice(&l);
    send(&l, HB_PREPARE, 0, NULL, 0);
    expect_no_choice(&l);
    fixed_replies(&l, 1, 0x30);
    expect_no_choice(&l);
    issue(&l);
    decline(&l);
    fixed_takes(&l, 1, 0x30);
    CHECK(found(&l, 0x30) == HB_DONE);
    free(l.bytes);
    l.bytes = NULL;
    l.length = 0;
    half(&l);
    append(&l, silence, 1);
    expect_other(&l, HB_ABANDONED, HB_PASS_ABANDONED, nobody, 0, 0, NEVER);
    expect_no_choice(&l);
    CHECK(hb_pass(nothing, 128, l.bytes, l.length).answer == HB_FORBIDDEN && hb_pass(nothing, 128, l.bytes, l.length).reason == 0);
    free(l.bytes);
}

/* The kind after the first bytes of a list, in a block of exactly so many. */
static uint32_t kind_of_first(const struct list *l, size_t length)
{
    uint8_t *cut = block(length, 0);
    uint32_t kind;
    if (length > 0)
        memcpy(cut, l->bytes, length);
    kind = hb_pass(nothing, NEVER, cut, length).kind;
    CHECK(hb_pass_lookup(nothing, NEVER, cut, length, 0x20).answer == HB_NOBODY);
    free(cut);
    return kind;
}

/* An entry that is cut does not count: the list ends before it. */
static void check_cut(void)
{
    struct list l = { NULL, 0 }, all = module_chosen(0x41);
    size_t prepared = 2 + 2 + 2 * 8, chosen = all.length;
    for (size_t length = 0; length <= chosen; length++)
        CHECK(kind_of_first(&all, length) == (length < prepared ? HB_PREPARE : length < chosen ? HB_GET_UDID : HB_CHOSEN));
    issue(&all);
    CHECK(kind_of_first(&all, chosen + 1) == HB_CHOSEN && kind_of_first(&all, chosen + 2) == HB_ASSIGN);
    all.length = chosen;
    decline(&all);
    CHECK(kind_of_first(&all, chosen + 1) == HB_CHOSEN && kind_of_first(&all, chosen + 2) == HB_ABANDONED);
    free(all.bytes);
    issue(&l);
    CHECK(kind_of_first(&l, 1) == HB_PREPARE && kind_of_first(&l, 2) == HB_NOT_OUTSTANDING);
    free(l.bytes);
}

/* A first half with no symbol, and with the most that a list can have; above 65531 it is no entry, and the list ends there. */
static void check_counts(void)
{
    for (unsigned count = 65529; count <= 65535; count++) {
        struct list l = module_chosen(0x41);
        issue(&l);
        half(&l);
        append_pairs(&l, count, 1);
        append_pairs(&l, HB_DECLINE, 65536);
        if (count <= 65531)
            expect_21(&l);
        else
            expect_other(&l, HB_ASSIGN, HB_DONE, module, 0x20, 1, NEVER);
        l.length -= 2 * (65536 - (size_t)count);
        expect_other(&l, count <= 65531 ? HB_GET_UDID : HB_ASSIGN, HB_DONE, count <= 65531 ? nobody : module,
                     count <= 65531 ? 0 : 0x20, count <= 65531 ? 2 : 1, NEVER);
        l.length -= 1;
        expect_other(&l, HB_ASSIGN, HB_DONE, module, 0x20, 1, NEVER);
        free(l.bytes);
    }
    struct list l = { NULL, 0 };
    half(&l);
    append_pairs(&l, 0, 1);
    expect_other(&l, HB_ABANDONED, HB_PASS_ABANDONED, nobody, 0, 0, NEVER);
    free(l.bytes);
}

void check_choices(void)
{
    check_constants();
    check_movable();
    check_fixed();
    check_issued();
    check_failed();
    check_declined();
    check_claims();
    check_none();
    check_cut();
    check_counts();
}
