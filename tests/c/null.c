/*
 * null [ROUNDS [SEED]]: an empty buffer at a null pointer is as good as one at any other.
 *
 * Each call that is lent a buffer gets it at null with length 0, and again in the middle of pages that nobody may touch: the
 * numbers are the same, and so is all that is lent beside it. Where two buffers are lent, one of them or both are empty.
 */
#include "random.h"
#include <sys/mman.h>

enum { READ_HEADER, PAYLOAD, WRITE_HEADER, READ_SETUP, WRITE_SETUP, ERROR_REPLY, START, TAKE_PIECE, MESSAGE, CALLS };

/* Which of the lent buffers is empty. */
enum { FIRST = 1, SECOND = 2, BOTH = 3 };

static uint8_t *untouched;
static uint64_t cases;

/* Which numbers each call has answered. */
static uint32_t came[CALLS][BOTH + 1];

/* ---- What is lent: once for the call with null, once for the other ---- */

struct pair {
    struct lent of[2];
};

static struct pair twice(struct lent b)
{
    struct pair p = {{copy_of(b.bytes, b.length), copy_of(b.bytes, b.length)}};
    return p;
}

static struct pair twice_or_empty(struct lent b, int is_empty)
{
    struct pair p = {{{NULL, 0}, {untouched, 0}}};
    return is_empty ? p : twice(b);
}

static void the_same(struct pair p, int is_empty)
{
    if (is_empty)
        return;
    CHECK(same_bytes(p.of[0], p.of[1]));
    give_back(p.of[0]);
    give_back(p.of[1]);
}

#define LENT(pair) (pair).of[i].bytes, (pair).of[i].length

/* Both calls have answered this. */
static uint32_t one_number(int call, int which, const uint32_t *numbers)
{
    CHECK(numbers[0] == numbers[1] && numbers[0] <= EOS_REPLY_MISMATCH);
    came[call][which] |= BIT(numbers[0]);
    cases++;
    return numbers[0];
}

/* ---- Calls with one buffer ---- */

static void read_nothing(void)
{
    struct pair none = twice_or_empty((struct lent){NULL, 0}, 1);
    struct eos_header h[2];
    struct eos_setup s[2];
    uint32_t numbers[2], present[2];
    noise(&h[0], sizeof h[0]);
    noise(&s[0], sizeof s[0]);
    h[1] = h[0];
    s[1] = s[0];
    for (int i = 0; i < 2; i++)
        numbers[i] = eos_read_header(LENT(none), &h[i]);
    CHECK(one_number(READ_HEADER, FIRST, numbers) == EOS_SHORT_FRAME && memcmp(&h[0], &h[1], sizeof h[0]) == 0);

    for (int i = 0; i < 2; i++) {
        struct eos_part p = eos_payload(LENT(none));
        CHECK(p.offset == 0 && p.length == 0);
        numbers[i] = EOS_DONE;
    }
    one_number(PAYLOAD, FIRST, numbers);

    for (int i = 0; i < 2; i++)
        numbers[i] = eos_read_setup(LENT(none), &s[i], &present[i]);
    CHECK(one_number(READ_SETUP, FIRST, numbers) == EOS_DONE && present[0] == 0 && present[1] == 0);
    CHECK(s[0].remote_invalidation == 0 && s[0].send == EOS_MIN_SIZE && s[0].receive == EOS_MIN_SIZE);
    CHECK(memcmp(&s[0], &s[1], sizeof s[0]) == 0);
}

static void write_nothing(struct eos_header header, struct eos_setup setup)
{
    struct pair none = twice_or_empty((struct lent){NULL, 0}, 1);
    struct eos_header h[2] = {header, header};
    struct eos_setup s[2] = {setup, setup};
    size_t was = (size_t)any(), length[2] = {was, was};
    uint32_t numbers[2];
    for (int i = 0; i < 2; i++)
        numbers[i] = eos_write_header(&h[i], LENT(none), &length[i]);
    CHECK(one_number(WRITE_HEADER, FIRST, numbers) != EOS_DONE);
    CHECK(memcmp(&h[0], &header, sizeof header) == 0 && memcmp(&h[1], &header, sizeof header) == 0);

    for (int i = 0; i < 2; i++)
        numbers[i] = eos_write_setup(&s[i], LENT(none), &length[i]);
    CHECK(one_number(WRITE_SETUP, FIRST, numbers) != EOS_DONE);
    CHECK(memcmp(&s[0], &setup, sizeof setup) == 0 && memcmp(&s[1], &setup, sizeof setup) == 0);
    CHECK(length[0] == was && length[1] == was);
}

static uint32_t ask(struct eos_state state)
{
    struct pair none = twice_or_empty((struct lent){NULL, 0}, 1);
    struct eos_state s[2] = {state, state};
    size_t was = (size_t)any(), length[2] = {was, was};
    uint32_t numbers[2];
    for (int i = 0; i < 2; i++)
        numbers[i] = eos_message(&s[i], LENT(none), &length[i]);
    one_number(MESSAGE, FIRST, numbers);
    CHECK(length[0] == length[1] && length[0] == (numbers[0] == EOS_DONE ? 0 : was));
    CHECK(memcmp(&s[0], &state, sizeof state) == 0 && memcmp(&s[1], &state, sizeof state) == 0);
    return numbers[0];
}

/* ---- Calls with two ---- */

static uint32_t reply_to(int which, struct lent frame, uint32_t number, uint32_t limit, struct lent out)
{
    struct pair f = twice_or_empty(frame, which & FIRST), o = twice_or_empty(out, which & SECOND);
    size_t was = (size_t)any(), length[2] = {was, was};
    uint32_t numbers[2];
    for (int i = 0; i < 2; i++)
        numbers[i] = eos_error_reply(LENT(f), number, limit, LENT(o), &length[i]);
    one_number(ERROR_REPLY, which, numbers);
    CHECK(length[0] == length[1] && length[0] == (numbers[0] == EOS_DONE ? 0 : was));
    the_same(f, which & FIRST);
    the_same(o, which & SECOND);
    return numbers[0];
}

/* Stores the state, if there is one. */
static uint32_t start(int which, struct lent frame, struct lent out, struct eos_state *state)
{
    struct pair f = twice_or_empty(frame, which & FIRST), o = twice_or_empty(out, which & SECOND);
    struct eos_state s[2] = {*state, *state};
    uint32_t numbers[2];
    for (int i = 0; i < 2; i++)
        numbers[i] = eos_start(LENT(f), LENT(o), &s[i]);
    one_number(START, which, numbers);
    CHECK(memcmp(&s[0], &s[1], sizeof s[0]) == 0);
    CHECK(numbers[0] == EOS_DONE || memcmp(&s[0], state, sizeof s[0]) == 0);
    the_same(f, which & FIRST);
    the_same(o, which & SECOND);
    *state = s[0];
    return numbers[0];
}

/* An empty piece changes nothing, and over an empty buffer there is nothing to take. */
static uint32_t take(int which, struct eos_state state, struct lent piece, struct lent out)
{
    struct pair p = twice_or_empty(piece, which & FIRST), o = twice_or_empty(out, which & SECOND);
    struct eos_state s[2] = {state, state};
    uint32_t numbers[2];
    for (int i = 0; i < 2; i++) {
        struct eos_piece_answer a = eos_take_piece(&s[i], LENT(p), LENT(o));
        numbers[i] = a.number;
        CHECK(a.goes == 0);
    }
    one_number(TAKE_PIECE, which, numbers);
    CHECK(memcmp(&s[0], &state, sizeof state) == 0 && memcmp(&s[1], &state, sizeof state) == 0);
    the_same(p, which & FIRST);
    the_same(o, which & SECOND);
    return numbers[0];
}

/* ---- What is handed in ---- */

/* A frame whose message is empty: MSG with nothing, or NOMSG with empty segments at position 0. */
static struct lent empty_message(uint32_t segments)
{
    struct eos_header h = {.kind = segments > 0 ? EOS_NOMSG : EOS_MSG, .read_count = segments};
    uint8_t frame[EOS_MAX_HEADER];
    size_t length = 0;
    for (uint32_t i = 0; i < segments; i++)
        h.reads[i].target = (struct eos_segment){(uint32_t)any(), 0, any()};
    CHECK(eos_write_header(&h, frame, sizeof frame, &length) == EOS_DONE);
    return copy_of(frame, length);
}

/* One word of the state is changed. */
static struct eos_state damaged(struct eos_state s)
{
    uint32_t value = edge();
    size_t place = below(4) ? offsetof(struct eos_state, base) + 4 * below(8) : 4 * below(sizeof s / 4);
    memcpy((uint8_t *)&s + place, &value, sizeof value);
    return s;
}

/* A state over an empty buffer, with pieces empty and not. */
static void over_nothing(struct eos_state s, struct lent piece, struct lent out)
{
    take(FIRST, s, piece, out);
    take(SECOND, s, piece, out);
    take(BOTH, s, piece, out);
    ask(s);
}

static void empty_messages(void)
{
    struct lent one = lend(1), none = lend(0);
    for (uint32_t segments = 0; segments <= EOS_MAX_READ_SEGMENTS; segments++) {
        struct lent frame = empty_message(segments);
        struct eos_state s;
        noise(&s, sizeof s);
        CHECK(start(SECOND, frame, none, &s) == EOS_DONE && s.buffer == 0);
        CHECK(take(FIRST, s, none, none) == EOS_DONE && take(SECOND, s, none, none) == EOS_DONE);
        CHECK(take(BOTH, s, none, none) == EOS_DONE && take(SECOND, s, one, none) == EOS_PIECE_LONG);
        CHECK(take(FIRST, s, none, one) == EOS_STATE_UNFIT && ask(s) == EOS_DONE);
        for (int i = 0; i < 100; i++)
            over_nothing(damaged(s), one, none);
        give_back(frame);
    }
    give_back(one);
    give_back(none);
}

/* The longest message, in 16 segments; an empty piece before all of it, within and behind. */
static void longest_message(void)
{
    struct eos_header h = {.kind = EOS_NOMSG, .read_count = 16};
    struct lent out = lend(EOS_MAX_MESSAGE), none = lend(0);
    struct eos_state s;
    uint8_t frame[EOS_MAX_HEADER];
    size_t length = 0;
    for (uint32_t i = 0; i < 16; i++)
        h.reads[i].target.length = EOS_MAX_MESSAGE / 16;
    CHECK(eos_write_header(&h, frame, sizeof frame, &length) == EOS_DONE);
    CHECK(eos_start(frame, length, out.bytes, out.length, &s) == EOS_DONE);
    for (size_t taken = 0; taken <= EOS_MAX_MESSAGE; taken += EOS_MAX_MESSAGE / 32) {
        s.taken = taken;
        CHECK(take(FIRST, s, none, out) == EOS_DONE);
        CHECK(take(SECOND, s, none, out) == EOS_STATE_UNFIT && take(BOTH, s, none, out) == EOS_STATE_UNFIT);
        CHECK(ask(s) == EOS_STATE_UNFIT);
    }
    s.taken++;
    CHECK(take(FIRST, s, none, out) == EOS_STATE_UNFIT);
    give_back(out);
    give_back(none);
}

/* To a frame that gets a reply with these numbers, and to none. */
static void replies(void)
{
    struct lent frame = empty_message(0), out = lend(EOS_MAX_REPLY);
    for (uint32_t number = 0; number <= EOS_REPLY_MISMATCH + 1; number++)
        for (uint32_t limit = 0; limit < 2; limit++) {
            int refused = limit == 0 || number > 21;
            int due = number == 2 || number == 3 || (number >= 5 && number <= 9) || (number >= 11 && number <= 15);
            uint32_t none = refused ? EOS_BAD_ARGUMENT : EOS_DONE;
            CHECK(reply_to(FIRST, frame, number, limit, out) == none);
            CHECK(reply_to(BOTH, frame, number, limit, out) == none);
            CHECK(reply_to(SECOND, frame, number, limit, out) == (due && !refused ? EOS_BUFFER_SHORT : none));
        }
    give_back(frame);
    give_back(out);
}

static void one_round(void)
{
    struct lent frame = some_frame(), out = lend(below(80)), piece = lend(below(40));
    struct eos_header h = some_header(4 * below(12));
    struct eos_setup setup = {below(8) ? below(2) : edge(), 1024 * (1 + below(256)), below(4) ? 1024 : edge()};
    struct eos_state s;
    read_nothing();
    write_nothing(h, setup);
    memset(&h.reads, 0, sizeof h.reads);
    memcpy((uint8_t *)&h + 4 * below(sizeof h / 4), &(uint32_t){edge()}, 4);
    write_nothing(h, setup);
    noise(&h, sizeof h);
    write_nothing(h, setup);

    for (int which = FIRST; which <= BOTH; which++) {
        reply_to(which, frame, below(28), edge(), out);
        noise(&s, sizeof s);
        if (start(which, frame, out, &s) == EOS_DONE)
            over_nothing(s, piece, out);
    }
    /* A state over a buffer that is not empty, then one that is no state. */
    if (eos_start(frame.bytes, frame.length, out.bytes, out.length, &s) == EOS_DONE) {
        over_nothing(s, piece, out);
        over_nothing(damaged(s), piece, out);
    }
    noise(&s, sizeof s);
    s.buffer = below(2) ? 0 : out.length;
    s.read_count = edge();
    s.kind = below(3);
    over_nothing(s, piece, out);
    give_back(frame);
    give_back(out);
    give_back(piece);
}

/* All that a call can answer then has come. A message over an empty buffer is never short of bytes. */
static void all_came(void)
{
    const uint32_t unfit = BIT(EOS_DONE) | BIT(EOS_STATE_UNFIT);
    CHECK(came[WRITE_HEADER][FIRST] == (BIT(EOS_OVER_LIMIT) | BIT(EOS_POSITION_UNALIGNED) | BIT(EOS_KIND_AND_LISTS) |
                                        BIT(EOS_BUFFER_SHORT) | BIT(EOS_BAD_ARGUMENT)));
    CHECK(came[WRITE_SETUP][FIRST] == (BIT(EOS_BUFFER_SHORT) | BIT(EOS_BAD_ARGUMENT)));
    CHECK(came[ERROR_REPLY][FIRST] == ARGUMENT_NUMBERS && came[ERROR_REPLY][BOTH] == ARGUMENT_NUMBERS);
    CHECK(came[ERROR_REPLY][SECOND] == ROOM_NUMBERS);
    CHECK(came[START][FIRST] == BIT(EOS_SHORT_FRAME) && came[START][BOTH] == BIT(EOS_SHORT_FRAME));
    CHECK(came[START][SECOND] == (UP_TO(EOS_BUFFER_SHORT) & ~BIT(EOS_POSITION_FALLS)));
    CHECK(came[TAKE_PIECE][FIRST] == unfit && came[TAKE_PIECE][BOTH] == unfit);
    CHECK(came[TAKE_PIECE][SECOND] == (unfit | BIT(EOS_PIECE_LONG)) && came[MESSAGE][FIRST] == unfit);
}

int main(int argc, char **argv)
{
    uint64_t rounds = argc > 1 ? strtoull(argv[1], NULL, 10) : 10000;
    seed = argc > 2 ? strtoull(argv[2], NULL, 10) : 1;
    random_state = seed;
    untouched = mmap(NULL, 2 * PAGE, PROT_NONE, MAP_PRIVATE | MAP_ANONYMOUS, -1, 0);
    CHECK(untouched != MAP_FAILED);
    untouched += PAGE;
    empty_messages();
    longest_message();
    replies();
    for (round_at = 0; round_at < rounds; round_at++)
        one_round();
    if (rounds >= 10000)
        all_came();
    printf("null pointers: %" PRIu64 " cases, seed %" PRIu64 ": as they must be\n", cases, seed);
    return 0;
}
