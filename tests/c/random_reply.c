/* random_reply [ROUNDS [SEED]]: grants and error replies, on random, written and damaged frames. */
#include "random.h"

/* 3, 5 to 9 and 11 to 15. */
#define CHUNK_NUMBERS \
    (UP_TO(EOS_MESSAGE_LONG) & ~UP_TO(EOS_OTHER_VERSION) & ~BIT(EOS_DONE_RECEIVED) & ~BIT(EOS_OTHER_ERROR_CODE))

/* How long the reply is, if it has room: 8 has one though it is never given. */
static size_t reply_length(struct lent frame, uint32_t number)
{
    if (frame.length < 16 || word_at(frame, 12) == 4)
        return 0;
    return number == EOS_OTHER_VERSION ? EOS_MAX_REPLY : CHUNK_NUMBERS & BIT(number) ? 20 : 0;
}

/* Replies that were read with 0 and with 2, version replies and chunk replies: each has to come. */
static unsigned version_read, version_refused, chunk_to_other;

/* A version reply echoes the frame's version, a chunk reply has 1; what is not 1 is refused by the reader. */
static void check_reply(struct lent frame, struct lent out, size_t length, uint32_t limit)
{
    struct eos_header h, before;
    uint32_t asked = word_at(frame, 8), version = word_at(frame, 4), credit = asked < limit ? asked : limit;
    uint32_t read;
    memset(&before, 0x5a, sizeof before);
    h = before;
    CHECK(word_at(out, 0) == word_at(frame, 0) && word_at(out, 4) == (length == 20 ? 1 : version));
    CHECK(word_at(out, 8) == (credit > 0 ? credit : 1) && word_at(out, 12) == 4);
    CHECK(word_at(out, 16) == (length == 20 ? 2 : 1));
    CHECK(length == 20 || (word_at(out, 20) == 1 && word_at(out, 24) == 1));
    read = eos_read_header(out.bytes, length, &h);
    CHECK(read == (word_at(out, 4) == 1 ? EOS_DONE : EOS_OTHER_VERSION));
    if (read == EOS_DONE)
        CHECK(h.kind == (length == 20 ? EOS_ERROR_CHUNK : EOS_ERROR_VERSION) && h.credit == word_at(out, 8));
    else
        CHECK(memcmp(&h, &before, sizeof h) == 0);
    version_read += length == 28 && read == EOS_DONE;
    version_refused += read != EOS_DONE;
    chunk_to_other += length == 20 && version != 1;
}

static void reply_one(struct lent frame, uint32_t number)
{
    uint32_t limit = edge();
    struct lent out = lend(below(EOS_MAX_REPLY + 8));
    struct lent was = copy_of(out.bytes, out.length);
    size_t before = (size_t)any(), length = before;
    uint8_t *lent = remember(frame.bytes, frame.length);
    uint32_t done = eos_error_reply(frame.bytes, frame.length, number, limit, out.bytes, out.length, &length);
    unchanged(frame.bytes, frame.length, lent);
    length = stored(done, ROOM_NUMBERS, before, length);
    CHECK((done == EOS_BAD_ARGUMENT) == (number > EOS_HEADER_LONG || limit == 0));
    CHECK(length <= out.length && same_behind(out, was, length));
    if (done != EOS_BAD_ARGUMENT)
        CHECK((done == EOS_BUFFER_SHORT) == (reply_length(frame, number) > out.length));
    if (done == EOS_DONE)
        CHECK(length == reply_length(frame, number));
    if (length > 0)
        check_reply(frame, out, length, limit);
    give_back(was);
    give_back(out);
}

static void grant_one(void)
{
    uint32_t asked = edge(), limit = edge(), credit_before = (uint32_t)any(), credit = credit_before;
    uint32_t granted = eos_grant(asked, limit, &credit);
    answered(granted, ARGUMENT_NUMBERS);
    CHECK((granted == EOS_DONE) == (limit > 0));
    CHECK(granted == EOS_DONE ? 0 < credit && credit <= limit : credit == credit_before);
}

/* The number that a reassembly of the frame starts with. */
static uint32_t start_number(struct lent frame)
{
    struct eos_state s;
    struct lent out = lend(below(100));
    uint32_t number = eos_start(frame.bytes, frame.length, out.bytes, out.length, &s);
    give_back(out);
    return number;
}

static void one_round(void)
{
    struct lent frame = some_frame();
    reply_one(frame, start_number(frame));
    reply_one(frame, below(EOS_REPLY_MISMATCH + 2));
    give_back(frame);
    grant_one();
}

int main(int argc, char **argv)
{
    int done = make_rounds(argc, argv, "reply", one_round, ROOM_NUMBERS);
    CHECK(version_read > 0 && version_refused > 0 && chunk_to_other > 0);
    return done;
}
