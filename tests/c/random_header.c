/* random_header [ROUNDS [SEED]]: reading, writing and the payload, on random, written and damaged frames and headers, with
 * read lists in any order. */
#include "random.h"

/* 8 is never given. */
#define READ_NUMBERS (UP_TO(EOS_BYTES_BEHIND) & ~BIT(EOS_POSITION_FALLS))
/* 21 is never given. */
#define WRITE_NUMBERS                                                                                             \
    (BIT(EOS_DONE) | BIT(EOS_OVER_LIMIT) | BIT(EOS_POSITION_UNALIGNED) | BIT(EOS_KIND_AND_LISTS) |                \
     BIT(EOS_BUFFER_SHORT) | BIT(EOS_BAD_ARGUMENT))

/* ---- The numbers, and what a header and its bytes have to do with each other ---- */

/* The marker of optional data: a word that is there, and 0 or 1. */
static uint32_t marker_number(struct lent f, size_t place)
{
    return f.length - place < 4 ? EOS_ENDS_INSIDE_FIELD : word_at(f, place) > 1 ? EOS_BAD_MARKER : EOS_DONE;
}

/* A count and that many segments, of which at most so many; goes on behind them. */
static uint32_t segments_number(struct lent f, size_t *place, uint32_t *room)
{
    if (f.length - *place < 4)
        return EOS_ENDS_INSIDE_FIELD;
    uint32_t count = word_at(f, *place);
    if (count > *room)
        return EOS_OVER_LIMIT;
    if (f.length - *place - 4 < 16 * count)
        return EOS_ENDS_INSIDE_FIELD;
    *room -= count;
    *place += 4 + 16 * count;
    return EOS_DONE;
}

static uint32_t error_number(struct lent f)
{
    if (f.length < 20)
        return EOS_ENDS_INSIDE_FIELD;
    uint32_t code = word_at(f, 16);
    size_t whole = code == 1 ? 28 : 20;
    if (code != 1 && code != 2)
        return EOS_OTHER_ERROR_CODE;
    return f.length < whole ? EOS_ENDS_INSIDE_FIELD : f.length > whole ? EOS_BYTES_BEHIND : EOS_DONE;
}

static uint32_t lists_number(struct lent f, size_t *place)
{
    uint32_t number, writes = EOS_MAX_WRITE_SEGMENTS, replies = EOS_MAX_REPLY_SEGMENTS;
    for (uint32_t n = 0;; n++, *place += 24) {
        if ((number = marker_number(f, *place)) != EOS_DONE)
            return number;
        if (word_at(f, *place) == 0)
            break;
        if (n == EOS_MAX_READ_SEGMENTS)
            return EOS_OVER_LIMIT;
        if (f.length - *place < 24)
            return EOS_ENDS_INSIDE_FIELD;
        if (word_at(f, *place + 4) % 4 != 0)
            return EOS_POSITION_UNALIGNED;
    }
    *place += 4;
    for (uint32_t n = 0;; n++) {
        if ((number = marker_number(f, *place)) != EOS_DONE)
            return number;
        *place += 4;
        if (word_at(f, *place - 4) == 0)
            break;
        if (n == EOS_MAX_WRITE_CHUNKS)
            return EOS_OVER_LIMIT;
        if ((number = segments_number(f, place, &writes)) != EOS_DONE)
            return number;
    }
    if ((number = marker_number(f, *place)) != EOS_DONE)
        return number;
    *place += 4;
    return word_at(f, *place - 4) == 1 ? segments_number(f, place, &replies) : EOS_DONE;
}

static uint32_t read_number(struct lent f)
{
    size_t place = 16;
    if (f.length < 16)
        return EOS_SHORT_FRAME;
    if (word_at(f, 4) != 1)
        return EOS_OTHER_VERSION;
    switch (word_at(f, 12)) {
    case 0: return lists_number(f, &place);
    case 1: {
        uint32_t number = lists_number(f, &place);
        return number == EOS_DONE && place < f.length ? EOS_BYTES_BEHIND : number;
    }
    case 3: return EOS_DONE_RECEIVED;
    case 4: return error_number(f);
    default: return EOS_OTHER_PROCEDURE;
    }
}

/* The number of writing a header, and how many bytes that can be written has. */
static uint32_t write_number(const struct eos_header *h, size_t room, size_t *length)
{
    uint64_t writes = 0;
    if (h->kind > EOS_ERROR_CHUNK || h->reply_present > 1)
        return EOS_BAD_ARGUMENT;
    if (h->kind > EOS_NOMSG && (h->read_count > 0 || h->write_chunks > 0 || h->reply_present))
        return EOS_KIND_AND_LISTS;
    if (h->read_count > EOS_MAX_READ_SEGMENTS || h->write_chunks > EOS_MAX_WRITE_CHUNKS ||
        h->reply_count > (h->reply_present ? EOS_MAX_REPLY_SEGMENTS : 0))
        return EOS_OVER_LIMIT;
    for (uint32_t i = 0; i < h->write_chunks; i++)
        writes += h->write_counts[i];
    if (writes > EOS_MAX_WRITE_SEGMENTS)
        return EOS_OVER_LIMIT;
    for (uint32_t i = 0; i < h->read_count; i++)
        if (h->reads[i].position % 4 != 0)
            return EOS_POSITION_UNALIGNED;
    *length = h->kind == EOS_ERROR_CHUNK ? 20 : 28;
    *length += 24 * h->read_count + 8 * h->write_chunks + 16 * (size_t)writes;
    *length += h->reply_present ? 4 + 16 * h->reply_count : 0;
    return *length > room ? EOS_BUFFER_SHORT : EOS_DONE;
}

/* The header with what is unused or reserved zeroed. */
static struct eos_header plain(struct eos_header h)
{
    uint32_t writes = 0;
    for (uint32_t i = 0; i < h.write_chunks; i++)
        writes += h.write_counts[i];
    for (uint32_t i = 0; i < h.read_count; i++)
        h.reads[i].reserved = 0;
    memset(h.reads + h.read_count, 0, (EOS_MAX_READ_SEGMENTS - h.read_count) * sizeof *h.reads);
    memset(h.writes + writes, 0, (EOS_MAX_WRITE_SEGMENTS - writes) * sizeof *h.writes);
    memset(h.write_counts + h.write_chunks, 0, (EOS_MAX_WRITE_CHUNKS - h.write_chunks) * sizeof *h.write_counts);
    memset(h.reply + h.reply_count, 0, (EOS_MAX_REPLY_SEGMENTS - h.reply_count) * sizeof *h.reply);
    if (h.kind != EOS_ERROR_VERSION)
        h.low = h.high = 0;
    h.reserved = 0;
    return h;
}

/* The read segments of a header stand as they do in its bytes. */
static int wire_order(const struct eos_header *h, struct lent f)
{
    for (uint32_t i = 0; i < h->read_count; i++) {
        const struct eos_read_segment *r = &h->reads[i];
        size_t entry = 20 + 24 * (size_t)i;
        uint64_t offset = (uint64_t)word_at(f, entry + 12) << 32 | word_at(f, entry + 16);
        if (r->position != word_at(f, entry) || r->target.handle != word_at(f, entry + 4) ||
            r->target.length != word_at(f, entry + 8) || r->target.offset != offset)
            return 0;
    }
    return 1;
}

/* ---- The calls: what they store comes over noise, which a refusal leaves ---- */

static uint32_t read_header(struct lent frame, struct eos_header *h)
{
    struct eos_header was;
    noise(h, sizeof *h);
    was = *h;
    uint8_t *lent = remember(frame.bytes, frame.length);
    uint32_t number = eos_read_header(frame.bytes, frame.length, h);
    unchanged(frame.bytes, frame.length, lent);
    answered(number, READ_NUMBERS);
    CHECK(number == read_number(frame));
    CHECK(number == EOS_DONE || memcmp(h, &was, sizeof was) == 0);
    return number;
}

static struct eos_part payload(struct lent frame)
{
    uint8_t *was = remember(frame.bytes, frame.length);
    struct eos_part part = eos_payload(frame.bytes, frame.length);
    unchanged(frame.bytes, frame.length, was);
    return part;
}

static size_t write_header(const struct eos_header *h, struct lent out, uint32_t *number)
{
    size_t was = (size_t)any(), length = was, bytes = 0;
    uint8_t *lent = remember(h, sizeof *h);
    *number = eos_write_header(h, out.bytes, out.length, &length);
    unchanged(h, sizeof *h, lent);
    CHECK(*number == write_number(h, out.length, &bytes) && (*number != EOS_DONE || length == bytes));
    return stored(*number, WRITE_NUMBERS, was, length);
}

static void damage_header(struct eos_header *h)
{
    struct eos_read_segment *r = &h->reads[below(EOS_MAX_READ_SEGMENTS)];
    switch (below(8)) {
    case 0: h->kind = below(6); break;
    case 1: h->read_count = edge(); break;
    case 2: h->write_chunks = edge(); break;
    case 3: h->write_counts[below(EOS_MAX_WRITE_CHUNKS)] = edge(); break;
    case 4: h->reply_present = below(3); break;
    case 5: h->reply_count = edge(); break;
    case 6: r->position += 1 + below(4); break;
    default: r->target.length = edge(); break;
    }
}

/* ---- What must hold ---- */

/* The most bytes that a header took: the longest there is has to come. */
static size_t longest;

/* Writes a header; what was written, read again, gives it with what is unused zeroed. */
static void write_one(const struct eos_header *h)
{
    struct lent out = lend(below(2) ? EOS_MAX_HEADER - 1 + below(3) : below(EOS_MAX_HEADER));
    struct lent was = copy_of(out.bytes, out.length);
    struct eos_header back;
    uint32_t number;
    size_t length = write_header(h, out, &number);
    CHECK(length <= out.length && same_behind(out, was, length));
    CHECK((number == EOS_DONE) == (length > 0));
    CHECK(length <= EOS_MAX_HEADER && (number != EOS_BUFFER_SHORT || out.length < EOS_MAX_HEADER));
    longest = length > longest ? length : longest;
    if (number == EOS_DONE) {
        struct eos_header zeroed = plain(*h);
        CHECK(eos_read_header(out.bytes, length, &back) == EOS_DONE && memcmp(&back, &zeroed, sizeof back) == 0);
        CHECK(wire_order(h, out));
    }
    give_back(was);
    give_back(out);
}

/* Reads a frame; what was read, written again, gives its bytes before the payload. */
static void read_one(struct lent frame)
{
    struct eos_header h;
    uint32_t number = read_header(frame, &h);
    struct eos_part part = payload(frame);
    CHECK(part.length <= frame.length && part.offset <= frame.length - part.length);
    if (number != EOS_DONE) {
        CHECK(part.offset == 0 && part.length == 0);
        return;
    }
    CHECK(h.read_count <= EOS_MAX_READ_SEGMENTS && h.write_chunks <= EOS_MAX_WRITE_CHUNKS);
    CHECK(h.reply_present <= 1 && h.reply_count <= EOS_MAX_REPLY_SEGMENTS);
    CHECK(h.kind == EOS_MSG || (h.kind <= EOS_ERROR_CHUNK && part.length == 0));
    CHECK(wire_order(&h, frame));
    struct lent out = lend(frame.length - part.length), shorter = out;
    struct lent was = copy_of(out.bytes, out.length);
    uint32_t written;
    shorter.length--;
    CHECK(write_header(&h, shorter, &written) == 0 && written == EOS_BUFFER_SHORT && same_bytes(out, was));
    CHECK(write_header(&h, out, &written) == out.length && written == EOS_DONE);
    CHECK(memcmp(out.bytes, frame.bytes, out.length) == 0);
    give_back(was);
    give_back(out);
}

/* A frame whose read list is about as long as may be, with few positions that are no multiples of 4. */
static struct lent long_list(void)
{
    uint32_t count = EOS_MAX_READ_SEGMENTS - 1 + below(3);
    struct lent frame = lend(28 + 24 * count);
    put_word(frame, 4, 1);
    put_word(frame, 12, below(2));
    for (uint32_t i = 0; i < count; i++) {
        put_word(frame, 16 + 24 * i, 1);
        put_word(frame, 20 + 24 * i, below(16) ? 4 * below(32) : below(128));
    }
    memset(frame.bytes + 16 + 24 * count, 0, 12);
    return frame;
}

/* A header with its limits full, or nearly. */
static struct eos_header long_header(void)
{
    struct eos_header h;
    uint32_t room = EOS_MAX_WRITE_SEGMENTS;
    noise(&h, sizeof h);
    h.kind = below(2);
    h.read_count = EOS_MAX_READ_SEGMENTS - (below(8) == 0);
    for (uint32_t i = 0; i < h.read_count; i++)
        h.reads[i].position &= ~3u;
    h.write_chunks = EOS_MAX_WRITE_CHUNKS - (below(8) == 0);
    for (uint32_t i = 0; i < h.write_chunks; i++)
        room -= h.write_counts[i] = i + 1 < h.write_chunks ? below(room + 1) : room - (room > 0 && below(8) == 0);
    h.reply_present = 1;
    h.reply_count = EOS_MAX_REPLY_SEGMENTS - (below(8) == 0);
    return h;
}

static void one_round(void)
{
    struct lent frame = below(8) ? some_frame() : long_list();
    read_one(frame);
    give_back(frame);

    struct eos_header h = below(8) ? some_header(4 * below(12)) : long_header();
    noise(h.reads + h.read_count, (EOS_MAX_READ_SEGMENTS - h.read_count) * sizeof *h.reads);
    if (below(2))
        damage_header(&h);
    write_one(&h);
    /* In so many rounds the longest comes. */
    if (round_at + 1 == 10000)
        CHECK(longest == EOS_MAX_HEADER);
}

int main(int argc, char **argv)
{
    return make_rounds(argc, argv, "header", one_round, READ_NUMBERS | WRITE_NUMBERS);
}
