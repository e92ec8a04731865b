/*
 * random_returned [ROUNDS [SEED]]: what a reply says was landed, on pairs of headers that fit, were damaged or are random.
 *
 * Each answer is compared with one worked out here, condition by condition, from the words of document 02, order 1.
 */
#include "random.h"

#define RETURNED_NUMBERS                                                                              \
    (BIT(EOS_DONE) | BIT(EOS_OVER_LIMIT) | BIT(EOS_BAD_ARGUMENT) | BIT(EOS_REPLY_MISMATCH))

/* The conditions of 26 in the order's sequence; those of a chunk once for write chunks and once for the reply chunk. */
enum {
    XIDS,
    READS,
    ERROR_SENT,
    ERROR_BACK,
    CHUNKS,
    COUNTS,
    HANDLE,
    OFFSET,
    ABOVE,
    GAP,
    REPLY_COUNTS,
    REPLY_LACKS = REPLY_COUNTS + 5,
    REPLY_NOT_SENT,
    REPLY_IN_MSG,
    /* Not conditions, but to come too: a sum of more than 32 bits, and a header that is its own reply. */
    LONG_SUM,
    OWN_REPLY,
    TO_COME
};

/* Which conditions have held with no other beside them, so that the answer hung on them alone. */
static uint32_t came;

/* ---- The answer, worked out ---- */

static int argument_fits(const struct eos_header *h)
{
    return h->kind <= EOS_ERROR_CHUNK && h->reply_present <= 1;
}

/* "the writer's 7" */
static int within_limits(const struct eos_header *h)
{
    uint64_t segments = 0;
    for (uint32_t i = 0; i < EOS_MAX_WRITE_CHUNKS && i < h->write_chunks; i++)
        segments += h->write_counts[i];
    return h->read_count <= EOS_MAX_READ_SEGMENTS && h->write_chunks <= EOS_MAX_WRITE_CHUNKS &&
           segments <= EOS_MAX_WRITE_SEGMENTS && h->reply_count <= EOS_MAX_REPLY_SEGMENTS &&
           (h->reply_present || h->reply_count == 0);
}

static int is_error(const struct eos_header *h)
{
    return h->kind == EOS_ERROR_VERSION || h->kind == EOS_ERROR_CHUNK;
}

static uint32_t if_so(int holds, uint32_t condition)
{
    return holds ? BIT(condition) : 0;
}

/* The conditions of a chunk that both have. */
static uint32_t chunk_faults(const struct eos_segment *sent, uint32_t n, const struct eos_segment *back, uint32_t m)
{
    uint32_t faults = if_so(n != m, COUNTS);
    for (uint32_t i = 0; i < n && i < m; i++) {
        faults |= if_so(back[i].handle != sent[i].handle, HANDLE);
        faults |= if_so(back[i].offset != sent[i].offset, OFFSET);
        faults |= if_so(back[i].length > sent[i].length, ABOVE);
        for (uint32_t before = 0; before < i; before++)
            faults |= if_so(back[i].length > 0 && back[before].length < sent[before].length, GAP);
    }
    return faults;
}

static uint64_t chunk_bytes(const struct eos_segment *chunk, uint32_t n)
{
    uint64_t sum = 0;
    for (uint32_t i = 0; i < n; i++)
        sum += chunk[i].length;
    return sum;
}

/* The conditions of 26 that hold of headers within the limits, and the bytes landed where none does. */
static uint32_t faults_of(const struct eos_header *sent, const struct eos_header *reply, struct eos_landed *landed)
{
    const struct eos_segment *offered = sent->writes, *back = reply->writes;
    int both = sent->reply_present && reply->reply_present;
    uint64_t replied = reply->reply_present ? chunk_bytes(reply->reply, reply->reply_count) : 0;
    uint32_t faults = if_so(sent->xid != reply->xid, XIDS);
    faults |= if_so(reply->read_count > 0, READS);
    faults |= if_so(is_error(sent), ERROR_SENT) | if_so(is_error(reply), ERROR_BACK);
    faults |= if_so(sent->write_chunks != reply->write_chunks, CHUNKS);

    memset(landed, 0, sizeof *landed);
    for (uint32_t i = 0; i < sent->write_chunks && i < reply->write_chunks; i++) {
        uint32_t n = sent->write_counts[i], m = reply->write_counts[i];
        faults |= chunk_faults(offered, n, back, m);
        landed->writes[i] = chunk_bytes(back, m);
        offered += n;
        back += m;
    }
    landed->reply = replied;
    if (both)
        faults |= chunk_faults(sent->reply, sent->reply_count, reply->reply, reply->reply_count)
                  << (REPLY_COUNTS - COUNTS);
    faults |= if_so(reply->kind == EOS_NOMSG && !reply->reply_present, REPLY_LACKS);
    faults |= if_so(!sent->reply_present && reply->reply_present, REPLY_NOT_SENT);
    faults |= if_so(reply->kind == EOS_MSG && replied > 0, REPLY_IN_MSG);
    return faults;
}

static uint32_t number_of(const struct eos_header *sent, const struct eos_header *reply, struct eos_landed *landed)
{
    if (!argument_fits(sent) || !argument_fits(reply))
        return EOS_BAD_ARGUMENT;
    if (!within_limits(sent) || !within_limits(reply))
        return EOS_OVER_LIMIT;
    uint32_t faults = faults_of(sent, reply, landed);
    if ((faults & (faults - 1)) == 0)
        came |= faults;
    if (faults != 0)
        return EOS_REPLY_MISMATCH;
    came |= if_so(landed->writes[0] > UINT32_MAX, LONG_SUM) | if_so(sent == reply, OWN_REPLY);
    return EOS_DONE;
}

/* ---- The call: what it stores comes over noise, which a refusal leaves ---- */

/* A lent header; its place is aligned, because its length is a multiple of 8. */
static const struct eos_header *header_in(struct lent b)
{
    return (const struct eos_header *)(const void *)b.bytes;
}

static void compare(struct lent sent, struct lent reply)
{
    struct lent landed = lend(sizeof(struct eos_landed)), was = copy_of(landed.bytes, landed.length);
    struct eos_landed bytes;
    uint32_t expected = number_of(header_in(sent), header_in(reply), &bytes);
    uint8_t *lent_sent = remember(sent.bytes, sent.length), *lent_reply = remember(reply.bytes, reply.length);
    uint32_t number = eos_returned(header_in(sent), header_in(reply), (struct eos_landed *)(void *)landed.bytes);
    unchanged(sent.bytes, sent.length, lent_sent);
    unchanged(reply.bytes, reply.length, lent_reply);
    answered(number, RETURNED_NUMBERS);
    CHECK(number == expected);
    CHECK(number == EOS_DONE ? memcmp(landed.bytes, &bytes, sizeof bytes) == 0 : same_bytes(landed, was));
    give_back(was);
    give_back(landed);
}

/* ---- Pairs ---- */

static uint32_t some_length(void)
{
    return below(2) ? below(4) : edge();
}

/* A header to send, with lengths that are often 0 or at an edge. */
static struct eos_header some_call(void)
{
    struct eos_header h = some_header(4 * below(12));
    if (below(2))
        h.read_count = 0;
    for (uint32_t i = 0; i < EOS_MAX_WRITE_SEGMENTS; i++)
        h.writes[i].length = some_length();
    for (uint32_t i = 0; i < EOS_MAX_REPLY_SEGMENTS; i++)
        h.reply[i].length = some_length();
    return h;
}

/* Some segments stay full, one may be filled in part, and those behind it are empty. */
static void fill(struct eos_segment *chunk, uint32_t count)
{
    uint32_t full = below(3) ? below(count + 1) : count;
    for (uint32_t i = full; i < count; i++)
        chunk[i].length = i == full ? (uint32_t)(any() % (UINT64_C(1) + chunk[i].length)) : 0;
}

/* A reply that answers a header, unless that is an ERROR. */
static struct eos_header some_reply(const struct eos_header *sent)
{
    struct eos_header h = *sent;
    struct eos_segment *chunk = h.writes;
    h.read_count = 0;
    for (uint32_t i = 0; i < h.write_chunks; i++) {
        fill(chunk, h.write_counts[i]);
        chunk += h.write_counts[i];
    }
    h.kind = h.reply_present && below(2) ? EOS_NOMSG : EOS_MSG;
    if (h.kind == EOS_NOMSG)
        fill(h.reply, h.reply_count);
    else if (below(2))
        h.reply_present = h.reply_count = 0;
    for (uint32_t i = 0; h.kind == EOS_MSG && i < h.reply_count; i++)
        h.reply[i].length = 0;
    return h;
}

/* Noise in all that is ignored. */
static void blur(struct eos_header *h)
{
    uint32_t used = 0;
    for (uint32_t i = 0; i < h->write_chunks; i++)
        used += h->write_counts[i];
    noise(h->reads, sizeof h->reads);
    noise(h->writes + used, (EOS_MAX_WRITE_SEGMENTS - used) * sizeof *h->writes);
    noise(h->reply + h->reply_count, (EOS_MAX_REPLY_SEGMENTS - h->reply_count) * sizeof *h->reply);
    noise(h->write_counts + h->write_chunks, (EOS_MAX_WRITE_CHUNKS - h->write_chunks) * sizeof *h->write_counts);
    noise(&h->low, sizeof h->low);
    noise(&h->high, sizeof h->high);
    noise(&h->credit, sizeof h->credit);
    noise(&h->reserved, sizeof h->reserved);
}

/* One more, one less, or anything. */
static uint32_t near(uint32_t n)
{
    uint32_t by = below(3);
    return by == 2 ? edge() : n + 1 - 2 * by;
}

static void damage(struct eos_header *h)
{
    struct eos_segment *segment = below(2) ? &h->writes[below(EOS_MAX_WRITE_SEGMENTS)] : &h->reply[below(4)];
    uint32_t chunk = below(EOS_MAX_WRITE_CHUNKS);
    switch (below(11)) {
    case 0: h->kind = below(6); break;
    case 1: h->read_count = below(2) ? 1 : edge(); break;
    case 2: h->write_chunks = near(h->write_chunks); break;
    case 3: h->write_counts[chunk] = near(h->write_counts[chunk]); break;
    case 4: h->reply_present = below(3); break;
    case 5: h->reply_present = h->reply_count = 0; break;
    case 6: h->reply_count = near(h->reply_count); break;
    case 7: h->xid ^= BIT(below(32)); break;
    case 8: segment->handle ^= BIT(below(32)); break;
    case 9: segment->offset ^= UINT64_C(1) << below(64); break;
    default: segment->length = near(segment->length); break;
    }
}

/* Random words all over, with counts that may be within the limits. */
static void wild(struct eos_header *h)
{
    noise(h, sizeof *h);
    h->kind = below(5);
    h->reply_present = below(8) ? below(2) : edge();
    h->reply_count = below(4) ? 0 : edge();
    h->read_count = below(4) ? 0 : edge();
    h->write_chunks = below(4) ? below(3) : edge();
    h->write_counts[0] = below(4) ? below(3) : edge();
    h->write_counts[1] = below(4) ? below(3) : edge();
}

static void one_round(void)
{
    struct eos_header sent = some_call(), reply = some_reply(&sent);
    blur(&sent);
    blur(&reply);
    if (below(8) == 0)
        wild(&sent);
    if (below(16) == 0)
        wild(&reply);
    for (uint32_t damages = below(4); damages > 0; damages--)
        damage(below(2) ? &sent : &reply);

    struct lent call = copy_of((uint8_t *)&sent, sizeof sent), back = copy_of((uint8_t *)&reply, sizeof reply);
    compare(call, back);
    compare(call, call);
    give_back(back);
    give_back(call);
    if (round_at + 1 == 10000)
        CHECK(came == BIT(TO_COME) - 1);
}

int main(int argc, char **argv)
{
    return make_rounds(argc, argv, "returned", one_round, RETURNED_NUMBERS);
}
