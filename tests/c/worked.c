/* Every call on worked examples C1 to C13, and on goes, orders and replies worked by hand, as C sees them. */
#include <eoswynnor.h>
#include <stdio.h>
#include <string.h>

static int failures;

#define EXPECT(claim) EXPECT_OF(#claim, claim)
#define EXPECT_OF(name, claim)                                               \
    do {                                                                     \
        if (!(claim)) {                                                      \
            failures++;                                                      \
            fprintf(stderr, "%s:%d: not so: %s\n", __FILE__, __LINE__, name); \
        }                                                                    \
    } while (0)

/* Words 2a, 1, 20, 0, 0, 0, 0. */
static const uint8_t c2[28] = {[3] = 0x2a, [7] = 1, [11] = 0x20};
static const uint8_t pulled[5] = {0xa1, 0xa2, 0xa3, 0xa4, 0xa5};
static const uint8_t message[20] = {1, 2, 3, 4, 5, 6, 7, 8, 0xa1, 0xa2, 0xa3, 0xa4, 0xa5, 0, 0, 0, 9, 10, 11, 12};
/* C6's frame: one read entry of position 8, handle 3, length 5, offset 0102030405060708; inline 01 to 0c. */
static const uint8_t c6[64] = {[3] = 0x2a, [7] = 1,   [11] = 0x20,
                               [19] = 1,   [23] = 8,  [27] = 3,    [31] = 5, [32] = 1, 2, 3, 4, 5, 6, 7, 8,
                               [52] = 1,   2,         3,           4,        5,        6, 7, 8, 9, 10, 11, 12};

static void reading(void)
{
    uint8_t frame[28];
    struct eos_header h, was;
    memset(&h, 0xee, sizeof h);
    was = h;
    EXPECT(eos_read_header(c2, 0, &h) == EOS_SHORT_FRAME && memcmp(&h, &was, sizeof h) == 0);

    EXPECT(eos_read_header(c2, sizeof c2, &h) == EOS_DONE && h.kind == EOS_MSG);
    EXPECT(h.xid == 0x2a && h.credit == 0x20);
    EXPECT(h.read_count == 0 && h.write_chunks == 0 && h.reply_present == 0);
    EXPECT(h.reserved == 0 && h.reads[15].reserved == 0 && h.reply[15].offset == 0);
    EXPECT(eos_payload(c2, sizeof c2).length == 0);
    was = h;
    EXPECT(eos_read_header(c2, sizeof c2 - 1, &h) == EOS_ENDS_INSIDE_FIELD && memcmp(&h, &was, sizeof h) == 0);

    memcpy(frame, c2, sizeof c2);
    frame[19] = 2;
    EXPECT(eos_read_header(frame, sizeof frame, &h) == EOS_BAD_MARKER);

    EXPECT(eos_read_header(c6, sizeof c6, &h) == EOS_DONE && h.read_count == 1);
    EXPECT(h.reads[0].position == 8 && h.reads[0].reserved == 0 && h.reads[0].target.handle == 3);
    EXPECT(h.reads[0].target.length == 5 && h.reads[0].target.offset == 0x0102030405060708);
    struct eos_part part = eos_payload(c6, sizeof c6);
    EXPECT(part.offset == 52 && part.length == 12);
}

static void replying(void)
{
    static const uint8_t version_reply[28] = {[3] = 0x2a, [7] = 2, [11] = 0x20, [15] = 4, [19] = 1, [23] = 1, [27] = 1};
    static const uint8_t chunk_reply[20] = {[3] = 0x2a, [7] = 1, [11] = 7, [15] = 4, [19] = 2};
    uint8_t frame[28], out[30];
    size_t length = 99;
    struct eos_header h;
    memcpy(frame, c2, sizeof c2);
    frame[7] = 2;
    EXPECT(eos_read_header(frame, sizeof frame, &h) == EOS_OTHER_VERSION);

    memset(out, 0xee, sizeof out);
    EXPECT(eos_error_reply(frame, sizeof frame, EOS_OTHER_VERSION, 32, out, 27, &length) == EOS_BUFFER_SHORT);
    EXPECT(eos_error_reply(frame, sizeof frame, 22, 32, out, sizeof out, &length) == EOS_BAD_ARGUMENT);
    EXPECT(eos_error_reply(frame, sizeof frame, EOS_REPLY_MISMATCH, 32, out, sizeof out, &length) == EOS_BAD_ARGUMENT);
    EXPECT(length == 99 && out[0] == 0xee);
    EXPECT(eos_error_reply(frame, sizeof frame, EOS_OTHER_VERSION, 32, out, sizeof out, &length) == EOS_DONE);
    EXPECT(length == 28 && memcmp(out, version_reply, 28) == 0 && out[28] == 0xee && out[29] == 0xee);
    /* The version is that of the frame: a reader of version 1 refuses it, and stores nothing. */
    memset(&h, 0xee, sizeof h);
    EXPECT(eos_read_header(out, 28, &h) == EOS_OTHER_VERSION && h.kind == 0xeeeeeeee && h.xid == 0xeeeeeeee);
    EXPECT(eos_error_reply(out, 28, EOS_OTHER_VERSION, 32, frame, sizeof frame, &length) == EOS_DONE && length == 0);
    EXPECT(eos_error_reply(c2, sizeof c2, EOS_OTHER_VERSION, 32, out, sizeof out, &length) == EOS_DONE && out[7] == 1);
    EXPECT(eos_read_header(out, 28, &h) == EOS_DONE && h.kind == EOS_ERROR_VERSION && h.low == 1 && h.high == 1);

    EXPECT(eos_error_reply(frame, sizeof frame, EOS_BAD_MARKER, 7, out, sizeof out, &length) == EOS_DONE);
    EXPECT(length == 20 && memcmp(out, chunk_reply, 20) == 0);
    EXPECT(eos_read_header(out, 20, &h) == EOS_DONE && h.kind == EOS_ERROR_CHUNK);
    /* 8 is never given, and still has its reply. */
    EXPECT(eos_error_reply(frame, sizeof frame, EOS_POSITION_FALLS, 7, out, sizeof out, &length) == EOS_DONE);
    EXPECT(length == 20 && eos_read_header(out, 20, &h) == EOS_DONE && h.kind == EOS_ERROR_CHUNK);
    /* 21 is never given, and still taken: it gets none, with room or without. */
    memset(out, 0xee, sizeof out);
    EXPECT(eos_error_reply(frame, sizeof frame, EOS_HEADER_LONG, 7, out, sizeof out, &length) == EOS_DONE);
    EXPECT(length == 0 && out[0] == 0xee);
    length = 99;
    EXPECT(eos_error_reply(c2, sizeof c2, EOS_HEADER_LONG, 1, out, 0, &length) == EOS_DONE && length == 0);
    EXPECT(eos_error_reply(c2, sizeof c2, EOS_HEADER_LONG, 0, out, 0, &length) == EOS_BAD_ARGUMENT);
    EXPECT(eos_error_reply(frame, sizeof frame, EOS_DONE, 32, out, 0, &length) == EOS_DONE && length == 0);
}

/* C13, with a number of its own in each place, and an ERROR header. */
static void writing(void)
{
    static const uint32_t counts[EOS_MAX_WRITE_CHUNKS] = {3, 0, 8, 5};
    uint8_t out[EOS_MAX_HEADER];
    size_t length = 99;
    struct eos_header h = {0}, back;
    for (uint32_t i = 0; i < 16; i++) {
        h.reads[i] = (struct eos_read_segment){4 * i, 0, {100 + i, 200 + i, 0x300000000u + i}};
        h.writes[i] = (struct eos_segment){400 + i, 500 + i, 0x600000000u + i};
        h.reply[i] = (struct eos_segment){700 + i, 800 + i, 0x900000000u + i};
    }
    memcpy(h.write_counts, counts, sizeof counts);
    h.read_count = EOS_MAX_READ_SEGMENTS;
    h.write_chunks = EOS_MAX_WRITE_CHUNKS;
    h.reply_present = 1;
    h.reply_count = EOS_MAX_REPLY_SEGMENTS;
    h.kind = EOS_NOMSG;
    h.xid = 0x12345678;
    h.credit = 0x9abcdef0;

    EXPECT(eos_write_header(&h, out, 959, &length) == EOS_BUFFER_SHORT && length == 99);
    EXPECT(eos_write_header(&h, out, sizeof out, &length) == EOS_DONE && length == 960 && length == sizeof out);
    EXPECT(eos_read_header(out, length, &back) == EOS_DONE && memcmp(&back, &h, sizeof h) == 0);
    /* Reserved words are ignored, and zero in what is read. */
    h.reserved = 1;
    h.reads[3].reserved = 1;
    EXPECT(eos_write_header(&h, out, sizeof out, &length) == EOS_DONE && eos_read_header(out, length, &h) == EOS_DONE);
    EXPECT(memcmp(&back, &h, sizeof h) == 0);
    /* One more in any count is over its limit: no header is longer. */
    length = 99;
    h.read_count++;
    EXPECT(eos_write_header(&h, out, sizeof out, &length) == EOS_OVER_LIMIT);
    h.read_count--;
    h.write_counts[1]++;
    EXPECT(eos_write_header(&h, out, sizeof out, &length) == EOS_OVER_LIMIT);
    h.write_counts[1]--;
    h.write_chunks++;
    EXPECT(eos_write_header(&h, out, sizeof out, &length) == EOS_OVER_LIMIT);
    h.write_chunks--;
    h.reply_count++;
    EXPECT(eos_write_header(&h, out, sizeof out, &length) == EOS_OVER_LIMIT && length == 99);

    struct eos_header e = {.kind = EOS_ERROR_VERSION, .low = 5, .high = 6, .xid = 7, .credit = 8};
    EXPECT(eos_write_header(&e, out, sizeof out, &length) == EOS_DONE && length == 28);
    EXPECT(out[3] == 7 && out[11] == 8 && out[15] == 4 && out[19] == 1 && out[23] == 5 && out[27] == 6);
    e.kind = 4;
    EXPECT(eos_write_header(&e, out, sizeof out, &length) == EOS_BAD_ARGUMENT && length == 28);
}

static void connecting(void)
{
    static const uint8_t c10[8] = {0xf6, 0xab, 0x0e, 0x18, 1, 1, 3, 7};
    uint8_t out[9];
    size_t length = 99;
    uint32_t present, credit = 99;
    struct eos_setup s, ours = {1, 16384, 2048};
    struct eos_agreement a, was;
    EXPECT(eos_read_setup(c10, sizeof c10, &s, &present) == EOS_DONE && present == 1 && s.remote_invalidation == 1);
    EXPECT(s.send == 4096 && s.receive == 8192);

    memset(out, 0xee, sizeof out);
    EXPECT(eos_write_setup(&s, out, 7, &length) == EOS_BUFFER_SHORT && length == 99 && out[0] == 0xee);
    EXPECT(eos_write_setup(&s, out, sizeof out, &length) == EOS_DONE && length == EOS_SETUP_BYTES);
    EXPECT(memcmp(out, c10, sizeof c10) == 0 && out[8] == 0xee);

    EXPECT(eos_agree(&s, &ours, &a) == EOS_DONE && a.client_to_server == 2048 && a.server_to_client == 8192);
    EXPECT(a.remote_invalidation == 1);
    /* What is only read may be the same. */
    EXPECT(eos_agree(&s, &s, &a) == EOS_DONE && a.client_to_server == 4096 && a.server_to_client == 4096);
    was = a;
    ours.send = EOS_MAX_SIZE + EOS_MIN_SIZE;
    EXPECT(eos_agree(&s, &ours, &a) == EOS_BAD_ARGUMENT && memcmp(&a, &was, sizeof a) == 0);

    EXPECT(eos_read_setup(c10, 7, &s, &present) == EOS_DONE && present == 0 && s.remote_invalidation == 0);
    EXPECT(s.send == EOS_MIN_SIZE && s.receive == EOS_MIN_SIZE);

    EXPECT(eos_grant(1, 0, &credit) == EOS_BAD_ARGUMENT && credit == 99);
    EXPECT(eos_grant(0, 32, &credit) == EOS_DONE && credit == 1);
    EXPECT(eos_grant(100, 32, &credit) == EOS_DONE && credit == 32);
}

static int answers(struct eos_piece_answer answer, uint32_t number, uint32_t goes)
{
    return answer.number == number && answer.goes == goes;
}

/* C6, a byte of it at a time, with a byte behind the message. */
static void reassembling(void)
{
    uint8_t out[21];
    size_t length = 99;
    struct eos_state s, was;
    memset(out, 0xee, sizeof out);
    memset(&s, 0xee, sizeof s);
    was = s;
    EXPECT(eos_start(c6, sizeof c6, out, 19, &s) == EOS_BUFFER_SHORT);
    EXPECT(eos_start(c6, sizeof c6 - 1, out, sizeof out, &s) == EOS_BASE_UNALIGNED);
    EXPECT(memcmp(&s, &was, sizeof s) == 0 && out[0] == 0xee);
    EXPECT(eos_start(c6, sizeof c6, out, sizeof out, &s) == EOS_DONE && s.kind == EOS_MSG && s.base == 12);
    EXPECT(s.buffer == sizeof out && s.taken == 0 && s.read_count == 1);
    EXPECT(s.reads[0].position == 8 && s.reads[0].reserved == 0 && s.reads[0].target.length == 5);

    /* A reserved word is kept, and ignored. */
    s.reads[0].reserved = 7;
    for (size_t i = 0; i < sizeof pulled; i++) {
        EXPECT(eos_message(&s, out, sizeof out, &length) == EOS_BYTES_MISSING && length == 99);
        EXPECT(answers(eos_take_piece(&s, pulled + i, 1, out, sizeof out - 1), EOS_STATE_UNFIT, 0) && s.taken == i);
        EXPECT(answers(eos_take_piece(&s, pulled + i, 1, out, sizeof out), EOS_DONE, 1) && s.taken == i + 1);
    }
    EXPECT(answers(eos_take_piece(&s, pulled, 1, out, sizeof out), EOS_PIECE_LONG, 0) && s.taken == 5);
    EXPECT(answers(eos_take_piece(&s, pulled, 0, out, sizeof out), EOS_DONE, 0) && s.taken == 5);
    EXPECT(eos_message(&s, out, sizeof out - 1, &length) == EOS_STATE_UNFIT && length == 99);
    EXPECT(eos_message(&s, out, sizeof out, &length) == EOS_DONE && length == sizeof message);
    EXPECT(memcmp(out, message, sizeof message) == 0 && out[20] == 0xee && s.reads[0].reserved == 7);
}

/* A call with read segments by position and length, and pieces by length and goes. The segments lie one behind the other in
 * one memory, which joins no runs. MSG has C6's inline bytes. */
static const struct worked_goes {
    const char *name;
    const uint8_t *message; /* of 20 bytes; NULL where only the goes are looked at */
    uint32_t kind, read_count, reads[EOS_MAX_READ_SEGMENTS][2], piece_count, pieces[5][2];
} worked_goes[] = {
    {"C6", message, EOS_MSG, 1, {{8, 5}}, 1, {{5, 1}}},
    {"C8", message, EOS_NOMSG, 2, {{0, 12}, {8, 5}}, 1, {{17, 3}}},
    {"C9", message, EOS_MSG, 2, {{8, 2}, {8, 3}}, 1, {{5, 2}}},
    {"an empty segment in a chunk", message, EOS_MSG, 3, {{8, 2}, {8, 0}, {8, 3}}, 1, {{5, 2}}},
    {"chunks back to back", NULL, EOS_MSG, 2, {{8, 4}, {12, 4}}, 1, {{8, 2}}},
    {"chunks back to back, with padding", NULL, EOS_MSG, 2, {{8, 5}, {16, 4}}, 1, {{9, 2}}},
    {"a chunk where a base segment ends", message, EOS_NOMSG, 3, {{0, 8}, {0, 4}, {8, 5}}, 1, {{17, 3}}},
    {"a chunk in the second base segment", message, EOS_NOMSG, 3, {{0, 4}, {0, 8}, {8, 5}}, 1, {{17, 4}}},
    {"chunks back to back in the base", NULL, EOS_NOMSG, 3, {{0, 12}, {4, 4}, {8, 4}}, 2, {{12, 2}, {8, 2}}},
    {"the same in one piece", NULL, EOS_NOMSG, 3, {{0, 12}, {4, 4}, {8, 4}}, 1, {{20, 4}}},
    {"an empty chunk in the base", NULL, EOS_NOMSG, 2, {{0, 12}, {8, 0}}, 1, {{12, 1}}},
    {"a chunk of 0 and 0 in the base", NULL, EOS_NOMSG, 3, {{0, 12}, {8, 0}, {8, 0}}, 1, {{12, 1}}},
    {"a chunk of 0 and 5 in the base", message, EOS_NOMSG, 3, {{0, 12}, {8, 0}, {8, 5}}, 2, {{12, 2}, {5, 1}}},
    {"pieces that end inside segments", message, EOS_MSG, 2, {{8, 2}, {8, 3}}, 3, {{1, 1}, {2, 2}, {2, 1}}},
    {"pieces that end inside runs", message, EOS_NOMSG, 2, {{0, 12}, {8, 5}}, 3, {{3, 1}, {7, 2}, {7, 2}}},
    {"pieces that are runs", message, EOS_NOMSG, 2, {{0, 12}, {8, 5}}, 5, {{8, 1}, {0, 0}, {4, 1}, {0, 0}, {5, 1}}},
    {"nothing to pull", NULL, EOS_MSG, 0, {{0, 0}}, 1, {{0, 0}}},
    /* Base bytes before and behind each of as many chunks as there can be. */
    {"the most", NULL, EOS_NOMSG, 16, {{0, 64}, {4, 4}, {12, 4}, {20, 4}, {28, 4}, {36, 4}, {44, 4}, {52, 4}, {60, 4},
                                       {68, 4}, {76, 4}, {84, 4}, {92, 4}, {100, 4}, {108, 4}, {116, 4}},
     1, {{124, EOS_MAX_GOES}}},
};

/* Writes and starts such a call. */
static int starts(const struct worked_goes *w, uint8_t *out, size_t out_len, struct eos_state *s)
{
    struct eos_header h = {.kind = w->kind, .read_count = w->read_count};
    uint8_t frame[EOS_MAX_HEADER + 12];
    size_t length, inline_length = w->kind == EOS_MSG ? 12 : 0;
    uint64_t offset = 0;
    for (uint32_t i = 0; i < w->read_count; i++) {
        h.reads[i] = (struct eos_read_segment){w->reads[i][0], 0, {3, w->reads[i][1], offset}};
        offset += w->reads[i][1];
    }
    if (eos_write_header(&h, frame, sizeof frame, &length) != EOS_DONE)
        return 0;
    memcpy(frame + length, c6 + 52, inline_length);
    return eos_start(frame, length + inline_length, out, out_len, s) == EOS_DONE;
}

static void counting(void)
{
    /* C8's pulled bytes; from the 13th on those of C6 and C9. */
    static const uint8_t bytes[125] = {1, 2, 3, 4, 5, 6, 7, 8, 9, 10, 11, 12, 0xa1, 0xa2, 0xa3, 0xa4, 0xa5};
    uint8_t out[124];
    for (size_t i = 0; i < sizeof worked_goes / sizeof *worked_goes; i++) {
        const struct worked_goes *w = &worked_goes[i];
        const uint8_t *next = w->kind == EOS_MSG ? bytes + 12 : bytes;
        size_t rest = 0, length = 0;
        struct eos_state s = {0};
        EXPECT_OF(w->name, starts(w, out, sizeof out, &s));
        for (uint32_t j = 0; j < w->read_count; j++)
            rest += w->reads[j][1];
        for (uint32_t j = 0; j < w->piece_count; j++) {
            size_t piece = w->pieces[j][0];
            EXPECT_OF(w->name, answers(eos_take_piece(&s, bytes, rest + 1, out, sizeof out), EOS_PIECE_LONG, 0));
            EXPECT_OF(w->name, answers(eos_take_piece(&s, next, piece, out, sizeof out - 1), EOS_STATE_UNFIT, 0));
            EXPECT_OF(w->name, answers(eos_take_piece(&s, next, piece, out, sizeof out), EOS_DONE, w->pieces[j][1]));
            next += piece;
            rest -= piece;
        }
        EXPECT_OF(w->name, eos_message(&s, out, sizeof out, &length) == EOS_DONE);
        if (w->message != NULL)
            EXPECT_OF(w->name, length == 20 && memcmp(out, w->message, 20) == 0);
    }
}

/* Numbers of the read list of a frame: positions of its entries, the marker behind them, and how many bytes of the frame
 * come. C6's bytes are inline. */
enum { WHOLE = 999 };
static const struct worked_entries {
    const char *name;
    uint32_t count, positions[EOS_MAX_READ_SEGMENTS + 1], marker, length, number;
} worked_entries[] = {
    {"read: 8 then 4", 2, {8, 4}, 0, WHOLE, EOS_DONE},
    {"read: 8, 4, 8", 3, {8, 4, 8}, 0, WHOLE, EOS_DONE},
    {"read: unaligned and below the one before", 2, {8, 6}, 0, WHOLE, EOS_POSITION_UNALIGNED},
    {"read: below the one before, then unaligned", 3, {8, 4, 6}, 0, WHOLE, EOS_POSITION_UNALIGNED},
    {"read: below the one before, then a marker of 2", 2, {8, 4}, 2, WHOLE, EOS_BAD_MARKER},
    {"read: unaligned, then a marker of 2", 2, {8, 6}, 2, WHOLE, EOS_POSITION_UNALIGNED},
    {"read: unaligned, then an entry cut short", 2, {6, 4}, 0, 63, EOS_POSITION_UNALIGNED},
    {"read: an unaligned entry cut short", 2, {8, 6}, 0, 63, EOS_ENDS_INSIDE_FIELD},
    {"read: a seventeenth, unaligned", 17, {[16] = 6}, 0, WHOLE, EOS_OVER_LIMIT},
    {"read: the sixteenth unaligned, and one more", 17, {[15] = 6}, 0, WHOLE, EOS_POSITION_UNALIGNED},
    {"read: sixteen that fall, and one more", 17, {64, 60, 56, 52, 48, 44, 40, 36, 32, 28, 24, 20, 16, 12, 8, 4, 0},
     0, WHOLE, EOS_OVER_LIMIT},
};

static void entries(void)
{
    for (size_t i = 0; i < sizeof worked_entries / sizeof *worked_entries; i++) {
        const struct worked_entries *w = &worked_entries[i];
        uint8_t frame[16 + 24 * (EOS_MAX_READ_SEGMENTS + 1) + 12 + 12] = {0}, out[12], *next = frame + 16;
        struct eos_header h;
        struct eos_state s;
        memcpy(frame, c2, 16);
        for (uint32_t j = 0; j < w->count; j++, next += 24) {
            next[3] = 1;
            next[7] = (uint8_t)w->positions[j];
        }
        next[3] = (uint8_t)w->marker;
        memcpy(next + 12, c6 + 52, 12);
        size_t length = w->length == WHOLE ? (size_t)(next - frame) + 24 : w->length;
        EXPECT_OF(w->name, eos_read_header(frame, length, &h) == w->number);
        EXPECT_OF(w->name, eos_start(frame, length, out, sizeof out, &s) == w->number);
    }

    /* In writing: 12, 7, then 9 entry by entry, then 16. */
    struct eos_header h = {.read_count = 2, .reads = {{.position = 8}, {.position = 4}}};
    uint8_t out[76];
    size_t length = 99;
    EXPECT(eos_write_header(&h, out, 75, &length) == EOS_BUFFER_SHORT && length == 99);
    EXPECT(eos_write_header(&h, out, 76, &length) == EOS_DONE && length == 76);
    EXPECT(out[23] == 8 && out[47] == 4);
    h.reads[1].position = 6;
    EXPECT(eos_write_header(&h, out, 0, &length) == EOS_POSITION_UNALIGNED);
    h.read_count = EOS_MAX_READ_SEGMENTS + 1;
    EXPECT(eos_write_header(&h, out, 0, &length) == EOS_OVER_LIMIT);
    h.kind = EOS_ERROR_CHUNK;
    EXPECT(eos_write_header(&h, out, 0, &length) == EOS_KIND_AND_LISTS && length == 76);
}

/* Calls by their read list on the wire: position, handle and length of each segment. Handle 0 holds 01 to 0c, which are
 * inline in MSG; handle a holds a1, a2 and so on. */
static const struct worked_order {
    const char *name;
    uint32_t kind, read_count, reads[EOS_MAX_READ_SEGMENTS][3];
    uint32_t number;                         /* of the start */
    uint32_t handles[EOS_MAX_READ_SEGMENTS]; /* as they are pulled */
    uint32_t in_state;                       /* what a state gets with the list as on the wire: 0 if that is sorted */
    size_t length;
    uint8_t message[72];
} worked_orders[] = {
    {"8 then 4", EOS_MSG, 2, {{8, 0xa, 4}, {4, 0xb, 4}}, EOS_DONE, {0xb, 0xa}, EOS_STATE_UNFIT, 20,
     {1, 2, 3, 4, 0xb1, 0xb2, 0xb3, 0xb4, 0xa1, 0xa2, 0xa3, 0xa4, 5, 6, 7, 8, 9, 10, 11, 12}},
    {"8, 4, 8: one chunk at 8", EOS_MSG, 3, {{8, 0xa, 2}, {4, 0xb, 4}, {8, 0xc, 3}}, EOS_DONE, {0xb, 0xa, 0xc},
     EOS_STATE_UNFIT, 24,
     {1, 2, 3, 4, 0xb1, 0xb2, 0xb3, 0xb4, 0xa1, 0xa2, 0xc1, 0xc2, 0xc3, 0, 0, 0, 5, 6, 7, 8, 9, 10, 11, 12}},
    {"8, 4, 8, handles falling", EOS_MSG, 3, {{8, 0xc, 3}, {4, 0xb, 4}, {8, 0xa, 2}}, EOS_DONE, {0xb, 0xc, 0xa},
     EOS_STATE_UNFIT, 24,
     {1, 2, 3, 4, 0xb1, 0xb2, 0xb3, 0xb4, 0xc1, 0xc2, 0xc3, 0xa1, 0xa2, 0, 0, 0, 5, 6, 7, 8, 9, 10, 11, 12}},
    {"the base last", EOS_NOMSG, 2, {{8, 0xa, 5}, {0, 0, 12}}, EOS_DONE, {0, 0xa}, EOS_STATE_UNFIT, 20,
     {1, 2, 3, 4, 5, 6, 7, 8, 0xa1, 0xa2, 0xa3, 0xa4, 0xa5, 0, 0, 0, 9, 10, 11, 12}},
    {"a segment of the base last", EOS_NOMSG, 3, {{0, 0, 8}, {8, 0xa, 5}, {0, 0xd, 4}}, EOS_DONE, {0, 0xd, 0xa},
     EOS_STATE_UNFIT, 20, {1, 2, 3, 4, 5, 6, 7, 8, 0xa1, 0xa2, 0xa3, 0xa4, 0xa5, 0, 0, 0, 0xd1, 0xd2, 0xd3, 0xd4}},
    {"one position: as it came", EOS_MSG, 3, {{8, 0xc, 1}, {8, 0xa, 2}, {8, 0xb, 2}}, EOS_DONE, {0xc, 0xa, 0xb}, EOS_DONE,
     20, {1, 2, 3, 4, 5, 6, 7, 8, 0xc1, 0xa1, 0xa2, 0xb1, 0xb2, 0, 0, 0, 9, 10, 11, 12}},
    {"C6: unused places stay behind", EOS_MSG, 1, {{8, 0xa, 5}}, EOS_DONE, {0xa}, EOS_DONE, 20,
     {1, 2, 3, 4, 5, 6, 7, 8, 0xa1, 0xa2, 0xa3, 0xa4, 0xa5, 0, 0, 0, 9, 10, 11, 12}},
    {"C8: unused places stay behind", EOS_NOMSG, 2, {{0, 0, 12}, {8, 0xa, 5}}, EOS_DONE, {0, 0xa}, EOS_DONE, 20,
     {1, 2, 3, 4, 5, 6, 7, 8, 0xa1, 0xa2, 0xa3, 0xa4, 0xa5, 0, 0, 0, 9, 10, 11, 12}},
    {"an empty segment between", EOS_MSG, 3, {{8, 0xa, 0}, {4, 0xb, 0}, {8, 0xc, 4}}, EOS_DONE, {0xb, 0xa, 0xc},
     EOS_STATE_UNFIT, 16, {1, 2, 3, 4, 5, 6, 7, 8, 0xc1, 0xc2, 0xc3, 0xc4, 9, 10, 11, 12}},
    {"C7 at 12, exchanged", EOS_MSG, 2, {{12, 0xb, 4}, {8, 0xa, 5}}, EOS_CHUNK_OVERLAPS, {0}, 0, 0, {0}},
    {"C7 at 16, exchanged", EOS_MSG, 2, {{16, 0xb, 4}, {8, 0xa, 5}}, EOS_DONE, {0xa, 0xb}, EOS_STATE_UNFIT, 24,
     {1, 2, 3, 4, 5, 6, 7, 8, 0xa1, 0xa2, 0xa3, 0xa4, 0xa5, 0, 0, 0, 0xb1, 0xb2, 0xb3, 0xb4, 9, 10, 11, 12}},
    {"C7 at 20, exchanged", EOS_MSG, 2, {{20, 0xb, 4}, {8, 0xa, 5}}, EOS_DONE, {0xa, 0xb}, EOS_STATE_UNFIT, 24,
     {1, 2, 3, 4, 5, 6, 7, 8, 0xa1, 0xa2, 0xa3, 0xa4, 0xa5, 0, 0, 0, 9, 10, 11, 12, 0xb1, 0xb2, 0xb3, 0xb4}},
    {"C7 at 24, exchanged", EOS_MSG, 2, {{24, 0xb, 4}, {8, 0xa, 5}}, EOS_CHUNK_OVERLAPS, {0}, 0, 0, {0}},
    {"position 0 behind another, in MSG", EOS_MSG, 2, {{8, 0xa, 4}, {0, 0, 4}}, EOS_KIND_AND_LISTS, {0}, 0, 0, {0}},
    {"sixteen that fall", EOS_NOMSG, 16, {{60, 15, 4}, {56, 14, 4}, {52, 13, 4}, {48, 12, 4}, {44, 11, 4}, {40, 10, 4},
                                          {36, 9, 4}, {32, 8, 4}, {28, 7, 4}, {24, 6, 4}, {20, 5, 4}, {16, 4, 4},
                                          {12, 3, 4}, {8, 2, 4}, {4, 1, 4}, {0, 0, 12}},
     EOS_DONE, {0, 1, 2, 3, 4, 5, 6, 7, 8, 9, 10, 11, 12, 13, 14, 15}, EOS_STATE_UNFIT, 72,
     {1, 2, 3, 4, 0x11, 0x12, 0x13, 0x14, 0x21, 0x22, 0x23, 0x24, 0x31, 0x32, 0x33, 0x34, 0x41, 0x42, 0x43, 0x44,
      0x51, 0x52, 0x53, 0x54, 0x61, 0x62, 0x63, 0x64, 0x71, 0x72, 0x73, 0x74, 0x81, 0x82, 0x83, 0x84,
      0x91, 0x92, 0x93, 0x94, 0xa1, 0xa2, 0xa3, 0xa4, 0xb1, 0xb2, 0xb3, 0xb4, 0xc1, 0xc2, 0xc3, 0xc4,
      0xd1, 0xd2, 0xd3, 0xd4, 0xe1, 0xe2, 0xe3, 0xe4, 0xf1, 0xf2, 0xf3, 0xf4, 5, 6, 7, 8, 9, 10, 11, 12}},
};

/* Whether a piece of one byte, one of none, one that is too long and an asking all get 17, and nothing is changed. */
static int unfit(struct eos_state s, const uint8_t *buffer, size_t buffer_len)
{
    static const uint8_t piece[128] = {0};
    static const size_t lengths[] = {1, 0, sizeof piece};
    uint8_t out[sizeof piece];
    size_t length = 99;
    struct eos_state was = s;
    int all = 1;
    memcpy(out, buffer, buffer_len);
    for (size_t i = 0; i < 3; i++)
        all &= answers(eos_take_piece(&s, piece, lengths[i], out, buffer_len), EOS_STATE_UNFIT, 0);
    all &= eos_message(&s, out, buffer_len, &length) == EOS_STATE_UNFIT && length == 99;
    return all && memcmp(&s, &was, sizeof s) == 0 && memcmp(out, buffer, buffer_len) == 0;
}

/* Writes such a call: reader and writer keep wire order, and the writer does not look at unused places. Answers the frame's
 * length. */
static size_t on_the_wire(const struct worked_order *w, struct eos_header *h, uint8_t *frame, size_t room)
{
    uint8_t again[EOS_MAX_HEADER];
    size_t length = 0, again_length = 0;
    struct eos_header given, back;
    memset(h, 0, sizeof *h);
    h->kind = w->kind;
    h->read_count = w->read_count;
    for (uint32_t i = 0; i < w->read_count; i++)
        h->reads[i] = (struct eos_read_segment){w->reads[i][0], 0, {w->reads[i][1], w->reads[i][2], i}};
    given = *h;
    memset(given.reads + w->read_count, 1, (EOS_MAX_READ_SEGMENTS - w->read_count) * sizeof *given.reads);
    EXPECT_OF(w->name, eos_write_header(&given, frame, room - 12, &length) == EOS_DONE);
    EXPECT_OF(w->name, eos_read_header(frame, length, &back) == EOS_DONE && memcmp(&back, h, sizeof back) == 0);
    EXPECT_OF(w->name, eos_write_header(&back, again, sizeof again, &again_length) == EOS_DONE);
    EXPECT_OF(w->name, again_length == length && memcmp(again, frame, length) == 0);
    memcpy(frame + length, c6 + 52, 12);
    return length + (w->kind == EOS_MSG ? 12 : 0);
}

/* Pulls by the state's list. Its unused places may hold anything, and are kept. */
static void pull(const struct worked_order *w, const struct eos_header *h, struct eos_state *s, uint8_t *out,
                 size_t out_len)
{
    struct eos_state was;
    size_t sum = 0;
    memset(s->reads + w->read_count, 1, (EOS_MAX_READ_SEGMENTS - w->read_count) * sizeof *s->reads);
    was = *s;
    for (uint32_t i = 0; i < w->read_count; i++) {
        uint8_t piece[12];
        uint32_t sent = 0;
        while (sent + 1 < w->read_count && h->reads[sent].target.handle != w->handles[i])
            sent++;
        EXPECT_OF(w->name, memcmp(&s->reads[i], &h->reads[sent], sizeof *s->reads) == 0);
        for (uint32_t j = 0; j < sizeof piece; j++)
            piece[j] = (uint8_t)(16 * s->reads[i].target.handle + 1 + j);
        sum += h->reads[sent].target.length;
        EXPECT_OF(w->name, eos_take_piece(s, piece, h->reads[sent].target.length, out, out_len).number == EOS_DONE);
    }
    was.taken = sum;
    EXPECT_OF(w->name, memcmp(s, &was, sizeof was) == 0);
}

static void order(const struct worked_order *w)
{
    static const struct eos_read_segment none[EOS_MAX_READ_SEGMENTS];
    uint8_t frame[EOS_MAX_HEADER + 12], out[76];
    struct eos_header h;
    struct eos_state s, wire, was;
    size_t length = on_the_wire(w, &h, frame, sizeof frame);
    memset(out, 0xee, sizeof out);
    memset(&s, 0xee, sizeof s);
    was = s;
    EXPECT_OF(w->name, eos_start(frame, length, out, sizeof out, &s) == w->number);
    if (w->number != EOS_DONE) {
        EXPECT_OF(w->name, memcmp(&s, &was, sizeof s) == 0 && out[0] == 0xee);
        return;
    }
    EXPECT_OF(w->name, s.read_count == w->read_count);
    EXPECT_OF(w->name, memcmp(s.reads + w->read_count, none, (16 - w->read_count) * sizeof *none) == 0);

    wire = s;
    memcpy(wire.reads, h.reads, sizeof wire.reads);
    EXPECT_OF(w->name, w->in_state == EOS_DONE || unfit(wire, out, sizeof out));
    pull(w, &h, &s, out, sizeof out);
    EXPECT_OF(w->name, eos_message(&s, out, sizeof out, &length) == EOS_DONE && length == w->length);
    EXPECT_OF(w->name, memcmp(out, w->message, w->length) == 0 && out[w->length] == 0xee);
    /* With all bytes in, too. */
    wire.taken = s.taken;
    EXPECT_OF(w->name, w->in_state == EOS_DONE || unfit(wire, out, sizeof out));
}

static void ordering(void)
{
    for (size_t i = 0; i < sizeof worked_orders / sizeof *worked_orders; i++)
        order(&worked_orders[i]);

    /* Segments of one position are sorted in either order: a state with C9's exchanged can arise. */
    static const struct worked_goes c9 = {"C9, exchanged in a state", message, EOS_MSG, 2, {{8, 2}, {8, 3}}, 0, {{0, 0}}};
    uint8_t out[20];
    size_t length = 0;
    struct eos_state s = {0};
    EXPECT_OF(c9.name, starts(&c9, out, sizeof out, &s));
    struct eos_read_segment first = s.reads[0];
    s.reads[0] = s.reads[1];
    s.reads[1] = first;
    EXPECT_OF(c9.name, answers(eos_take_piece(&s, pulled, sizeof pulled, out, sizeof out), EOS_DONE, 2));
    EXPECT_OF(c9.name, eos_message(&s, out, sizeof out, &length) == EOS_DONE && length == sizeof message);
    EXPECT_OF(c9.name, memcmp(out, message, sizeof message) == 0);
}

/* Lengths of up to three segments of the write chunks, one behind the other, and what landed in each of two chunks. */
static const struct worked_writes {
    const char *name;
    uint32_t counts[2], sent[3], back[3], number;
    uint64_t landed[2];
} worked_writes[] = {
    {"an empty segment is full", {3, 0}, {4, 0, 4}, {4, 0, 2}, EOS_DONE, {6, 0}},
    {"a gap", {3, 0}, {4, 4, 4}, {4, 0, 1}, EOS_REPLY_MISMATCH, {0, 0}},
    {"nothing landed", {2, 0}, {4, 4}, {0, 0}, EOS_DONE, {0, 0}},
    {"each chunk for itself", {2, 1}, {4, 4, 4}, {2, 0, 3}, EOS_DONE, {2, 3}},
    {"a gap before an empty segment", {3, 0}, {4, 0, 4}, {2, 0, 1}, EOS_REPLY_MISMATCH, {0, 0}},
    {"one byte too many", {1, 0}, {4}, {5}, EOS_REPLY_MISMATCH, {0, 0}},
};

/* Lengths of the one segment of the reply chunk; NONE where there is no reply chunk. */
enum { NONE = 99 };
static const struct worked_reply {
    const char *name;
    uint32_t kind, sent, back, number;
    uint64_t landed;
} worked_replies[] = {
    {"missing in MSG", EOS_MSG, 4, NONE, EOS_DONE, 0},
    {"empty in MSG", EOS_MSG, 4, 0, EOS_DONE, 0},
    {"filled in MSG", EOS_MSG, 4, 1, EOS_REPLY_MISMATCH, 0},
    {"not sent, in MSG", EOS_MSG, NONE, 0, EOS_REPLY_MISMATCH, 0},
    {"none in MSG", EOS_MSG, NONE, NONE, EOS_DONE, 0},
    {"missing in NOMSG", EOS_NOMSG, 4, NONE, EOS_REPLY_MISMATCH, 0},
    {"filled in NOMSG", EOS_NOMSG, 4, 3, EOS_DONE, 3},
    {"not sent, in NOMSG", EOS_NOMSG, NONE, 0, EOS_REPLY_MISMATCH, 0},
    {"none in NOMSG", EOS_NOMSG, NONE, NONE, EOS_REPLY_MISMATCH, 0},
};

static struct eos_header with_reply_chunk(uint32_t kind, uint32_t length)
{
    struct eos_header h = {.kind = kind, .xid = 0x2a, .credit = 9};
    if (length != NONE) {
        h.reply_present = 1;
        h.reply_count = 1;
        h.reply[0] = (struct eos_segment){3, length, 1};
    }
    return h;
}

/* Whether the call answers this number and stores these bytes; with a refusal, whether it stores nothing. */
static int returns(const struct eos_header *sent, const struct eos_header *reply, uint32_t number,
                   const struct eos_landed *bytes)
{
    struct eos_landed landed, was;
    memset(&landed, 0xee, sizeof landed);
    was = landed;
    return eos_returned(sent, reply, &landed) == number &&
           memcmp(&landed, number == EOS_DONE ? bytes : &was, sizeof was) == 0;
}

static void returning(void)
{
    struct eos_landed none = {{0, 0, 0, 0}, 0};
    for (size_t i = 0; i < sizeof worked_writes / sizeof *worked_writes; i++) {
        const struct worked_writes *w = &worked_writes[i];
        struct eos_header sent = {.xid = 0x2a, .write_chunks = 2, .write_counts = {w->counts[0], w->counts[1]}};
        struct eos_header reply = sent;
        struct eos_landed landed = {{w->landed[0], w->landed[1], 0, 0}, 0};
        for (uint32_t j = 0; j < 3; j++) {
            sent.writes[j] = (struct eos_segment){j, w->sent[j], j};
            reply.writes[j] = (struct eos_segment){j, w->back[j], j};
        }
        EXPECT_OF(w->name, returns(&sent, &reply, w->number, &landed));
    }
    for (size_t i = 0; i < sizeof worked_replies / sizeof *worked_replies; i++) {
        const struct worked_reply *w = &worked_replies[i];
        struct eos_header sent = with_reply_chunk(EOS_MSG, w->sent), reply = with_reply_chunk(w->kind, w->back);
        struct eos_landed landed = {{0, 0, 0, 0}, w->landed};
        EXPECT_OF(w->name, returns(&sent, &reply, w->number, &landed));
    }

    /* Sixteen of the longest segments: their sum has more than 32 bits. What is only read may be the same. */
    struct eos_header h = {.kind = EOS_NOMSG, .write_chunks = 1, .write_counts = {16}, .reply_present = 1};
    struct eos_landed most = {{0xffffffff0, 0, 0, 0}, 0xffffffff0};
    h.reply_count = 16;
    for (uint32_t i = 0; i < 16; i++)
        h.writes[i].length = h.reply[i].length = UINT32_MAX;
    EXPECT(returns(&h, &h, EOS_DONE, &most));

    /* 20 comes before 7, and 7 before 26, whichever header it is and ERROR or not. */
    struct eos_header sent = with_reply_chunk(EOS_MSG, 0), other = sent, wrong;
    EXPECT(returns(&sent, &other, EOS_DONE, &none));
    other.xid++;
    EXPECT(returns(&sent, &other, EOS_REPLY_MISMATCH, &none));
    wrong = other;
    wrong.reply_present = 0;
    EXPECT(returns(&sent, &wrong, EOS_OVER_LIMIT, &none) && returns(&wrong, &sent, EOS_OVER_LIMIT, &none));
    wrong.kind = EOS_ERROR_CHUNK;
    EXPECT(returns(&sent, &wrong, EOS_OVER_LIMIT, &none) && returns(&wrong, &sent, EOS_OVER_LIMIT, &none));
    wrong.kind = 4;
    EXPECT(returns(&sent, &wrong, EOS_BAD_ARGUMENT, &none) && returns(&wrong, &sent, EOS_BAD_ARGUMENT, &none));
    wrong.kind = EOS_MSG;
    wrong.reply_present = 2;
    wrong.reply_count = EOS_MAX_REPLY_SEGMENTS + 1;
    EXPECT(returns(&sent, &wrong, EOS_BAD_ARGUMENT, &none) && returns(&wrong, &sent, EOS_BAD_ARGUMENT, &none));
}

int main(void)
{
    reading();
    replying();
    writing();
    connecting();
    reassembling();
    counting();
    entries();
    ordering();
    returning();
    if (failures == 0)
        printf("worked examples: as they must be\n");
    return failures != 0;
}
