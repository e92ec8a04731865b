/*
 * random_ledger [ROUNDS [SEED]]: sends and replies on ledgers that were opened, damaged or are random.
 *
 * Each answer and all that is left of the ledger is compared with what is worked out here, step by step, from the words of
 * document 02, orders 5 and 6. Beside a ledger that was opened goes a list of what was sent and not answered.
 */
#include "random.h"

#define LEDGER_NUMBERS \
    (BIT(EOS_DONE) | BIT(EOS_STATE_UNFIT) | BIT(EOS_CREDIT_SPENT) | BIT(EOS_XID_UNKNOWN) | BIT(EOS_GRANT_ZERO))

/* Each has to come: a wrap, within a run that was passed over too; a run behind which more are in flight; a refused send
 * behind whose last xid a run begins; a ledger with more in flight than its grant that takes a reply. */
static unsigned wraps, run_wraps, broken_runs, refused_runs, past_grant;

/* How often so many were passed over. */
static unsigned passed_seen[EOS_MAX_PASSED + 1];

/* ---- The answers, worked out ---- */

static uint32_t place_of(const struct eos_ledger *l, uint32_t xid)
{
    uint32_t i = 0;
    while (i < l->count && l->xids[i] != xid)
        i++;
    return i;
}

static int unfit(const struct eos_ledger *l)
{
    if (l->count > 32 || l->grant == 0)
        return 1;
    for (uint32_t i = 0; i < l->count; i++)
        for (uint32_t j = 0; j < i; j++)
            if (l->xids[i] == l->xids[j])
                return 1;
    return 0;
}

/* "places behind them are .. zero after an accepted operation" */
static void clear_behind(struct eos_ledger *l)
{
    for (uint32_t i = l->count; i < 32; i++)
        l->xids[i] = 0;
}

/* "the unbroken run of xids in flight that begins right behind the last one given": the place of the first xid behind the
 * last that is not in flight */
static uint32_t run_behind(const struct eos_ledger *l)
{
    uint8_t in_flight[34] = {0};
    uint32_t run = 0;
    for (uint32_t i = 0; i < l->count; i++) {
        uint64_t far = ((uint64_t)l->xids[i] + 0x100000000 - l->last) % 0x100000000;
        if (far >= 1 && far <= 33)
            in_flight[far - 1] = 1;
    }
    while (in_flight[run])
        run++;
    return run;
}

static struct eos_send_answer expected_send(struct eos_ledger *l)
{
    struct eos_send_answer a = {EOS_DONE, 0, 0};
    if (unfit(l))
        a.number = EOS_STATE_UNFIT;
    else if (l->count >= l->grant || l->count >= 32)
        a.number = EOS_CREDIT_SPENT;
    if (a.number != EOS_DONE) {
        refused_runs += l->count <= 32 && run_behind(l) > 0;
        return a;
    }
    a.passed = run_behind(l);
    a.xid = l->last;
    do {
        wraps += a.xid == UINT32_MAX;
        a.xid = a.xid == UINT32_MAX ? 0 : a.xid + 1;
    } while (place_of(l, a.xid) < l->count);
    passed_seen[a.passed]++;
    run_wraps += a.xid > 0 && a.xid < a.passed;
    broken_runs += a.passed > 0 && place_of(l, a.xid + 1) < l->count;
    l->xids[l->count++] = a.xid;
    l->last = a.xid;
    clear_behind(l);
    return a;
}

static uint32_t expected_reply(struct eos_ledger *l, uint32_t xid, uint32_t grant)
{
    uint32_t place;
    if (unfit(l))
        return EOS_STATE_UNFIT;
    if (grant == 0)
        return EOS_GRANT_ZERO;
    place = place_of(l, xid);
    if (place == l->count)
        return EOS_XID_UNKNOWN;
    past_grant += l->count > l->grant;
    l->count--;
    for (uint32_t i = place; i < l->count; i++)
        l->xids[i] = l->xids[i + 1];
    clear_behind(l);
    l->grant = grant;
    return EOS_DONE;
}

/* ---- One call, compared ---- */

static struct eos_send_answer send_one(struct lent lent)
{
    struct eos_ledger *ledger = (struct eos_ledger *)(void *)lent.bytes, after = *ledger;
    struct eos_send_answer expected = expected_send(&after), a = eos_ledger_send(ledger);
    answered(a.number, BIT(EOS_DONE) | BIT(EOS_STATE_UNFIT) | BIT(EOS_CREDIT_SPENT));
    CHECK(a.number == expected.number && a.xid == expected.xid && a.passed == expected.passed);
    CHECK(a.passed <= EOS_MAX_PASSED);
    CHECK(memcmp(ledger, &after, sizeof after) == 0);
    return a;
}

static uint32_t reply_one(struct lent lent, uint32_t xid, uint32_t grant)
{
    struct eos_ledger *ledger = (struct eos_ledger *)(void *)lent.bytes, after = *ledger;
    uint32_t expected = expected_reply(&after, xid, grant), number = eos_ledger_reply(ledger, xid, grant);
    answered(number, LEDGER_NUMBERS & ~BIT(EOS_CREDIT_SPENT));
    CHECK(number == expected);
    CHECK(memcmp(ledger, &after, sizeof after) == 0);
    return number;
}

/* ---- Inputs ---- */

static uint32_t some_grant(void)
{
    return below(4) ? 1 + below(40) : edge();
}

static uint32_t some_last(void)
{
    return below(2) ? UINT32_MAX - below(40) : edge();
}

static void exchange_xids(uint32_t *one, uint32_t *two)
{
    uint32_t was = *one;
    *one = *two;
    *two = was;
}

/* Any places, some of them the xids behind the last one, not always in their order, and with a gap. */
static struct eos_ledger some_ledger(void)
{
    struct eos_ledger l;
    noise(&l, sizeof l);
    l.last = some_last();
    l.grant = some_grant();
    l.count = below(8) ? below(34) : edge();
    uint32_t stretch = below(33), first = below(2) ? 1 : below(3);
    for (uint32_t i = 0; i < stretch; i++)
        l.xids[i] = l.last + first + i;
    if (below(2))
        l.count = stretch;
    if (below(2))
        exchange_xids(&l.xids[below(32)], &l.xids[below(32)]);
    if (below(4) == 0)
        l.xids[below(32)] += 64;
    if (below(4) == 0)
        l.xids[below(32)] = l.xids[below(32)];
    if (below(4) == 0)
        for (uint32_t i = below(33); i < 32; i++)
            l.xids[i] = below(2) ? 0 : l.xids[0];
    return l;
}

/* From an opening: 17 never comes, and what is in flight is what was sent and not answered, in sending order. */
static void history(void)
{
    uint32_t sent[64], count = 0, last = some_last(), number;
    struct lent lent = lend(sizeof(struct eos_ledger));
    struct eos_ledger *l = (struct eos_ledger *)(void *)lent.bytes;
    number = eos_ledger_open(last, l);
    answered(number, BIT(EOS_DONE));
    CHECK(l->count == 0 && l->grant == 1 && l->last == last);
    for (uint32_t i = 0; i < 32; i++)
        CHECK(l->xids[i] == 0);
    for (uint32_t steps = below(200); steps > 0; steps--) {
        if (below(2)) {
            struct eos_send_answer a = send_one(lent);
            if (a.number == EOS_DONE)
                sent[count++] = a.xid;
        } else {
            uint32_t at = below(count + 2);
            uint32_t xid = at < count ? sent[at] : some_last();
            number = reply_one(lent, xid, below(16) ? 1 + below(40) : edge());
            if (number == EOS_DONE) {
                for (at = 0; sent[at] != xid; at++)
                    CHECK(at + 1 < count);
                count--;
                memmove(sent + at, sent + at + 1, (count - at) * sizeof *sent);
            }
        }
        CHECK(!unfit(l) && l->count == count && memcmp(l->xids, sent, count * sizeof *sent) == 0);
    }
    give_back(lent);
}

static void one_round(void)
{
    struct eos_ledger l = some_ledger();
    struct lent sends = copy_of((uint8_t *)&l, sizeof l), replies = copy_of((uint8_t *)&l, sizeof l);
    send_one(sends);
    reply_one(replies, below(4) ? l.xids[below(32)] : edge(), below(8) ? some_grant() : 0);
    give_back(replies);
    give_back(sends);
    if (round_at % 16 == 0)
        history();
    if (round_at + 1 == 10000) {
        CHECK(wraps > 0 && run_wraps > 0 && broken_runs > 0 && refused_runs > 0 && past_grant > 0);
        for (uint32_t n = 0; n <= EOS_MAX_PASSED; n++)
            CHECK(passed_seen[n] > 0);
    }
}

int main(int argc, char **argv)
{
    return make_rounds(argc, argv, "ledger", one_round, LEDGER_NUMBERS);
}
