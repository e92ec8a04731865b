/*
 * What the programs of random calls share: random numbers, buffers of just their length, and frames.
 *
 * Each lent buffer has just its length: under AddressSanitizer on the heap; else it ends at a page that nobody may touch,
 * which the library's own loads and stores meet too. Checked is what is cheap to say: the number, or that it is one of the
 * call's own; parts within bounds, nothing changed by a refusal or that is only read, what was written reads back, and any
 * cuts give what one piece gives.
 */
#ifndef RANDOM_H
#define RANDOM_H

#define _DEFAULT_SOURCE
#include <eoswynnor.h>
#include <inttypes.h>
#include <stdio.h>
#include <stdlib.h>
#include <string.h>

#if defined(__SANITIZE_ADDRESS__)
#define ON_HEAP 1
#elif defined(__has_feature)
#if __has_feature(address_sanitizer)
#define ON_HEAP 1
#endif
#endif
#ifndef ON_HEAP
#define ON_HEAP 0
#include <sys/mman.h>
#endif

/* Bytes in front of each buffer that nobody may change. */
enum { FRONT = 8, FRONT_BYTE = 0xee, PAGE = 4096 };

#define BIT(n) (UINT32_C(1) << (n))
#define UP_TO(n) (BIT((n) + 1) - 1)
#define ARGUMENT_NUMBERS (BIT(EOS_DONE) | BIT(EOS_BAD_ARGUMENT))
#define ROOM_NUMBERS (ARGUMENT_NUMBERS | BIT(EOS_BUFFER_SHORT))

static uint64_t seed = 1, round_at, random_state;
static uint32_t seen;

#define CHECK(claim)                                                                                              \
    do {                                                                                                          \
        if (!(claim)) {                                                                                           \
            fprintf(stderr, "%s:%d: seed %" PRIu64 ", round %" PRIu64 ": not so: %s\n", __FILE__, __LINE__, seed, \
                    round_at, #claim);                                                                            \
            exit(1);                                                                                              \
        }                                                                                                         \
    } while (0)

static inline uint64_t any(void)
{
    uint64_t z = random_state += UINT64_C(0x9e3779b97f4a7c15);
    z = (z ^ (z >> 30)) * UINT64_C(0xbf58476d1ce4e5b9);
    z = (z ^ (z >> 27)) * UINT64_C(0x94d049bb133111eb);
    return z ^ (z >> 31);
}

static inline uint32_t below(uint32_t n)
{
    return (uint32_t)(any() % n);
}

static inline size_t smaller(size_t a, size_t b)
{
    return a < b ? a : b;
}

/* ---- Buffers of just their length ---- */

struct lent {
    uint8_t *bytes;
    size_t length;
};

#if !ON_HEAP
static inline size_t pages(size_t length)
{
    return (FRONT + length + PAGE - 1) / PAGE * PAGE;
}
#endif

static inline struct lent lend(size_t length)
{
    struct lent b = {NULL, length};
#if ON_HEAP
    uint8_t *front = malloc(FRONT + length);
    CHECK(front != NULL);
#else
    uint8_t *all = mmap(NULL, pages(length) + PAGE, PROT_READ | PROT_WRITE, MAP_PRIVATE | MAP_ANONYMOUS, -1, 0);
    CHECK(all != MAP_FAILED && mprotect(all + pages(length), PAGE, PROT_NONE) == 0);
    uint8_t *front = all + pages(length) - length - FRONT;
#endif
    memset(front, FRONT_BYTE, FRONT);
    b.bytes = front + FRONT;
    for (size_t i = 0; i < length; i++)
        b.bytes[i] = (uint8_t)any();
    return b;
}

static inline struct lent copy_of(const uint8_t *bytes, size_t length)
{
    struct lent b = lend(length);
    memcpy(b.bytes, bytes, length);
    return b;
}

static inline void give_back(struct lent b)
{
    uint8_t *front = b.bytes - FRONT;
    for (size_t i = 0; i < FRONT; i++)
        CHECK(front[i] == FRONT_BYTE);
#if ON_HEAP
    free(front);
#else
    CHECK(munmap(b.bytes + b.length - pages(b.length), pages(b.length) + PAGE) == 0);
#endif
}

static inline int same_bytes(struct lent a, struct lent b)
{
    return a.length == b.length && memcmp(a.bytes, b.bytes, a.length) == 0;
}

/* Equal from this place on. */
static inline int same_behind(struct lent a, struct lent b, size_t place)
{
    return memcmp(a.bytes + place, b.bytes + place, a.length - place) == 0;
}

/* ---- What is lent for reading alone: a copy of it, compared after the call ---- */

static inline uint8_t *remember(const void *lent, size_t length)
{
    uint8_t *was = malloc(length + 1);
    CHECK(was != NULL);
    memcpy(was, lent, length);
    return was;
}

static inline void unchanged(const void *lent, size_t length, uint8_t *was)
{
    CHECK(memcmp(lent, was, length) == 0);
    free(was);
}

/* ---- Numbers and structs ---- */

static inline void answered(uint32_t number, uint32_t numbers)
{
    CHECK(number <= EOS_REPLY_MISMATCH && (numbers & BIT(number)) != 0);
    seen |= BIT(number);
}

static inline void noise(void *bytes, size_t length)
{
    for (size_t i = 0; i < length; i++)
        ((uint8_t *)bytes)[i] = (uint8_t)any();
}

/* How many bytes a writer wrote, or the message has; 0 where the call refused. */
static inline size_t stored(uint32_t number, uint32_t numbers, size_t was, size_t length)
{
    answered(number, numbers);
    CHECK(number == EOS_DONE || length == was);
    return number == EOS_DONE ? length : 0;
}

/* ---- Inputs ---- */

/* Up to three segments of one position behind those that are there. */
static inline void add_chunk(struct eos_header *h, uint32_t position, uint32_t length)
{
    for (uint32_t more = below(3);; more--) {
        uint32_t part = more ? below(length + 1) : length;
        struct eos_read_segment r = {position, 0, {(uint32_t)any(), part, any()}};
        h->reads[h->read_count++] = r;
        length -= part;
        if (more == 0)
            return;
    }
}

static inline void exchange(struct eos_read_segment *a, struct eos_read_segment *b)
{
    struct eos_read_segment was = *a;
    *a = *b;
    *b = was;
}

/* A sorted read list in one of the orders that may come on the wire. */
static inline void rearrange(struct eos_read_segment *reads, uint32_t count)
{
    struct eos_read_segment was[EOS_MAX_READ_SEGMENTS];
    uint32_t first = below(count + 1);
    memcpy(was, reads, count * sizeof *reads);
    switch (below(5)) {
    case 0: /* falling */
        for (uint32_t i = 0; i < count; i++)
            reads[i] = was[count - 1 - i];
        break;
    case 1: /* in any order */
        for (uint32_t i = count; i > 1; i--)
            exchange(&reads[i - 1], &reads[below(i)]);
        break;
    case 2: /* segments of one position apart: every other one, then the rest */
        for (uint32_t i = 0; i < count; i++)
            reads[i] = was[2 * i < count ? 2 * i : 2 * (i - (count + 1) / 2) + 1];
        break;
    case 3: /* the first ones last, those at position 0 among them */
        for (uint32_t i = 0; i < count; i++)
            reads[i] = was[(i + first) % count];
        break;
    default: break;
    }
}

/* A header that mostly can be written, and whose read list mostly stands over this base, in any order. */
static inline struct eos_header some_header(uint32_t base)
{
    struct eos_header h = {0};
    uint32_t position = 0, left = base / 4, room = EOS_MAX_WRITE_SEGMENTS;
    h.kind = below(8) ? below(2) : 2 + below(2);
    h.xid = (uint32_t)any();
    h.credit = below(40);
    if (h.kind == EOS_ERROR_VERSION) {
        h.low = (uint32_t)any();
        h.high = (uint32_t)any();
    }
    if (h.kind <= EOS_NOMSG) {
        if (h.kind == EOS_NOMSG)
            add_chunk(&h, 0, base);
        for (uint32_t chunks = below(4); chunks > 0 && left > 0; chunks--) {
            uint32_t skip = 1 + below(left), length = below(24);
            position += 4 * skip;
            left -= skip;
            add_chunk(&h, position, length);
            position += (length + 3) / 4 * 4;
        }
        rearrange(h.reads, h.read_count);
        h.write_chunks = below(EOS_MAX_WRITE_CHUNKS + 1);
        for (uint32_t i = 0; i < h.write_chunks; i++)
            room -= h.write_counts[i] = below(room + 1);
        for (uint32_t i = 0; i < EOS_MAX_WRITE_SEGMENTS - room; i++)
            h.writes[i] = (struct eos_segment){(uint32_t)any(), (uint32_t)any(), any()};
        h.reply_present = below(2);
        h.reply_count = h.reply_present ? below(EOS_MAX_REPLY_SEGMENTS + 1) : 0;
        for (uint32_t i = 0; i < h.reply_count; i++)
            h.reply[i] = (struct eos_segment){(uint32_t)any(), (uint32_t)any(), any()};
    }
    return h;
}

static inline uint32_t edge(void)
{
    static const uint32_t edges[] = {0, 1, 2, 3, 4, 5, 8, 16, 17, 1048576, 1048580, 0x7fffffff, 0x80000000, 0xffffffff};
    return below(4) ? edges[below(sizeof edges / sizeof *edges)] : (uint32_t)any();
}

static inline uint32_t word_at(struct lent frame, size_t place)
{
    const uint8_t *b = frame.bytes + place;
    return (uint32_t)b[0] << 24 | (uint32_t)b[1] << 16 | (uint32_t)b[2] << 8 | b[3];
}

static inline void put_word(struct lent frame, size_t place, uint32_t word)
{
    for (size_t i = 0; i < 4 && place + i < frame.length; i++)
        frame.bytes[place + i] = (uint8_t)(word >> (24 - 8 * i));
}

/* A frame: of random bytes, or a header that was written with bytes behind it; half of them damaged. */
static inline struct lent some_frame(void)
{
    uint32_t base = 4 * below(12);
    struct eos_header h = some_header(base);
    uint8_t written[EOS_MAX_HEADER];
    size_t header_length;
    CHECK(eos_write_header(&h, written, sizeof written, &header_length) == EOS_DONE && header_length <= sizeof written);
    size_t behind = h.kind == EOS_MSG ? base : 0;
    size_t length = below(8) ? header_length + behind : below(100);
    struct lent frame = lend(length);
    if (below(8))
        memcpy(frame.bytes, written, smaller(length, header_length));
    if (below(2) && length > 0) {
        struct lent whole = frame;
        switch (below(4)) {
        case 0: frame.bytes[below((uint32_t)length)] = (uint8_t)any(); break;
        case 1: put_word(frame, 4 * below((uint32_t)length / 4 + 1), edge()); break;
        case 2: put_word(frame, 12, below(6)); break;
        default:
            frame = copy_of(whole.bytes, below((uint32_t)length));
            give_back(whole);
        }
    }
    return frame;
}

/* ---- The rounds ---- */

/* As many rounds as the command line says, from its seed. In enough of them each number of the subject comes. */
static inline int make_rounds(int argc, char **argv, const char *subject, void (*round)(void), uint32_t numbers)
{
    uint64_t rounds = argc > 1 ? strtoull(argv[1], NULL, 10) : 10000;
    seed = argc > 2 ? strtoull(argv[2], NULL, 10) : 1;
    random_state = seed;
    for (round_at = 0; round_at < rounds; round_at++)
        round();
    if (rounds >= 10000)
        CHECK((seen & numbers) == numbers);
    printf("random %s: %" PRIu64 " rounds, seed %" PRIu64 ": as they must be\n", subject, rounds, seed);
    return 0;
}

#endif
