/*
 * stack [ROUNDS [SEED]]: how many bytes of stack each call takes, the most of all calls made here: one line for each.
 *
 * A call is made on a stack of its own, which is filled before and looked through after. What it takes goes from where its
 * caller stood right before the call down to the deepest byte that was changed: the return address is in it, what memcpy,
 * memmove and memset take too, and an argument that the caller puts onto the stack is not. An empty function takes 8.
 * Bytes that are reserved and never written are not seen: tests/c/stack-frames reads them off the machine code. To be built
 * plain: a sanitizer has its own memcpy, and its own frames.
 */
#include "random.h"
#include <sys/mman.h>

enum { STACK = 2 * PAGE, WORDS = 7, PLENTY = 1000 };

/* ---- One call, measured ---- */

/* All arguments and answers of the library's calls are whole words. */
struct call {
    void (*function)(void);
    uint64_t arguments[WORDS];
    uint64_t answer[2];
};

/* The lowest byte, and where a caller stands; the seventh argument lies right above. */
static uint8_t *stack, *top;

/* The stack is exchanged for the call and nothing else, so that nothing else is found on it. */
static void on_stack(struct call *c)
{
    uint8_t *to = top;
    __asm__ volatile("mov %%rsp, %%r12\n\t"
                     "mov %%rax, %%rsp\n\t"
                     "mov 56(%%rbx), %%rax\n\t"
                     "mov %%rax, (%%rsp)\n\t"
                     "mov 8(%%rbx), %%rdi\n\t"
                     "mov 16(%%rbx), %%rsi\n\t"
                     "mov 24(%%rbx), %%rdx\n\t"
                     "mov 32(%%rbx), %%rcx\n\t"
                     "mov 40(%%rbx), %%r8\n\t"
                     "mov 48(%%rbx), %%r9\n\t"
                     "call *(%%rbx)\n\t"
                     "mov %%rax, 64(%%rbx)\n\t"
                     "mov %%rdx, 72(%%rbx)\n\t"
                     "mov %%r12, %%rsp"
                     : "+a"(to)
                     : "b"(c)
                     : "rcx", "rdx", "rsi", "rdi", "r8", "r9", "r10", "r11", "r12", "cc", "memory", "xmm0", "xmm1", "xmm2",
                       "xmm3", "xmm4", "xmm5", "xmm6", "xmm7", "xmm8", "xmm9", "xmm10", "xmm11", "xmm12", "xmm13", "xmm14",
                       "xmm15");
}

/* How many bytes the call takes. Twice, as a byte that is written may be what was there: it is not, once. What the call
 * changes and looks at is put back in between. */
static size_t taken_by(struct call *c, void *changed, size_t length)
{
    uint8_t was[sizeof(struct eos_state)], line[256];
    size_t most = 0;
    CHECK(length <= sizeof was);
    for (int time = 0; time < 2; time++) {
        uint8_t fill = time == 0 ? 0x5a : 0xa5;
        size_t place = 0;
        if (length > 0)
            memcpy(time == 0 ? was : changed, time == 0 ? changed : was, length);
        memset(line, fill, sizeof line);
        memset(stack, fill, STACK);
        on_stack(c);
        while (place < STACK && memcmp(stack + place, line, sizeof line) == 0)
            place += sizeof line;
        while (place < STACK && stack[place] == fill)
            place++;
        if (most < STACK - place)
            most = STACK - place;
    }
    return most;
}

static void empty(void)
{
}

/* Takes PLENTY bytes and little more. */
static void plenty(void)
{
    volatile uint8_t bytes[PLENTY];
    for (size_t i = 0; i < PLENTY; i++)
        bytes[i] = 0;
    (void)bytes[0];
}

/* The first call of a function in a shared library may be one of the loader, on our stack. */
static void load(void)
{
    static uint8_t bytes[PLENTY];
    volatile size_t length = PLENTY / 2;
    memset(bytes, 1, length);
    memcpy(bytes, bytes + length, length);
    memmove(bytes + 1, bytes, length);
}

static void open_stack(void)
{
    uint8_t *all = mmap(NULL, PAGE + STACK + PAGE, PROT_READ | PROT_WRITE, MAP_PRIVATE | MAP_ANONYMOUS, -1, 0);
    CHECK(all != MAP_FAILED && mprotect(all, PAGE, PROT_NONE) == 0);
    stack = all + PAGE;
    top = stack + STACK;
    load();

    struct call nothing = {empty, {0}, {0}}, more = {plenty, {0}, {0}};
    size_t most = taken_by(&more, NULL, 0);
    /* 16 with a frame pointer. */
    CHECK(taken_by(&nothing, NULL, 0) == 8 || taken_by(&nothing, NULL, 0) == 16);
    CHECK(most >= 8 + PLENTY && most <= 8 + PLENTY + 64);
}

/* ---- Each call of the header, in its order ---- */

enum {
    READ_HEADER,
    PAYLOAD,
    WRITE_HEADER,
    READ_SETUP,
    WRITE_SETUP,
    AGREE,
    GRANT,
    ERROR_REPLY,
    START,
    TAKE_PIECE,
    MESSAGE,
    RETURNED,
    LEDGER_OPEN,
    LEDGER_SEND,
    LEDGER_REPLY,
    CALLS
};

#define CALL(name) {#name, (void (*)(void))name, 0}
static struct {
    const char *name;
    void (*function)(void);
    size_t most;
} calls[CALLS] = {CALL(eos_read_header), CALL(eos_payload),     CALL(eos_write_header), CALL(eos_read_setup),
                  CALL(eos_write_setup), CALL(eos_agree),       CALL(eos_grant),        CALL(eos_error_reply),
                  CALL(eos_start),       CALL(eos_take_piece),  CALL(eos_message),      CALL(eos_returned),
                  CALL(eos_ledger_open), CALL(eos_ledger_send), CALL(eos_ledger_reply)};

/* Answers the number, which is the first half of the first word; of eos_payload there is none. */
static uint32_t make(int which, struct call c, void *changed, size_t length)
{
    c.function = calls[which].function;
    size_t bytes = taken_by(&c, changed, length);
    if (calls[which].most < bytes)
        calls[which].most = bytes;
    return (uint32_t)c.answer[0];
}

#define AT(pointer) ((uint64_t)(uintptr_t)(pointer))
#define LENT(buffer) AT((buffer).bytes), (buffer).length
#define MAKE(which, ...) make(which, (struct call){NULL, {__VA_ARGS__}, {0}}, NULL, 0)
#define MAKE_CHANGING(which, changed, ...) \
    make(which, (struct call){NULL, {AT(changed), __VA_ARGS__}, {0}}, changed, sizeof *(changed))

/* ---- Frames ---- */

static uint8_t written[EOS_MAX_MESSAGE + 2 * EOS_MAX_HEADER];
static size_t written_length;

static void word(uint32_t w)
{
    struct lent all = {written, sizeof written};
    put_word(all, written_length, w);
    written_length += 4;
}

static void words(uint32_t n)
{
    for (uint32_t i = 0; i < n; i++)
        word((uint32_t)any());
}

/* As they stand: over the limits too. */
struct lists {
    struct eos_read_segment reads[EOS_MAX_READ_SEGMENTS + 1];
    uint32_t read_count, chunks, segments, reply; /* segments of each write chunk */
};

static struct lent frame_of(uint32_t procedure, const struct lists *l, size_t payload)
{
    written_length = 0;
    word((uint32_t)any());
    word(1);
    word((uint32_t)any());
    word(procedure);
    for (uint32_t i = 0; i < l->read_count; i++) {
        word(1);
        word(l->reads[i].position);
        words(1);
        word(l->reads[i].target.length);
        words(2);
    }
    word(0);
    for (uint32_t i = 0; i < l->chunks; i++) {
        word(1);
        word(l->segments);
        words(4 * l->segments);
    }
    word(0);
    word(1);
    word(l->reply);
    words(4 * l->reply);
    return copy_of(written, written_length + payload);
}

/* So many segments of this length: the first ones at position 0, each of the others a chunk for itself with a gap of 4 bytes
 * before it. */
static struct lists lists_of(uint32_t zeros, uint32_t others, uint32_t length)
{
    struct lists l = {.read_count = zeros + others, .chunks = 4, .segments = 4, .reply = 16};
    for (uint32_t i = 0; i < others; i++)
        l.reads[zeros + i].position = 4 + i * ((length + 3) / 4 * 4 + 4);
    for (uint32_t i = 0; i < l.read_count; i++)
        l.reads[i].target.length = length;
    return l;
}

/* ---- Reading, starting, taking, asking ---- */

static struct lent room;

static size_t to_pull(const struct eos_state *s)
{
    uint64_t sum = 0;
    for (uint32_t i = 0; i < s->read_count && i < EOS_MAX_READ_SEGMENTS; i++)
        sum += s->reads[i].target.length;
    return sum < EOS_MAX_MESSAGE + 4 ? (size_t)sum : EOS_MAX_MESSAGE + 4;
}

static void ask(struct eos_state *s, size_t buffer)
{
    size_t length;
    MAKE(MESSAGE, AT(s), AT(room.bytes), buffer, AT(&length));
}

/* Pieces of at most this length, until all is taken; then one that is too long. */
static void pull(struct eos_state s, size_t buffer, size_t piece)
{
    size_t sum = to_pull(&s), at = 0, next;
    MAKE_CHANGING(TAKE_PIECE, &s, AT(written), 0, AT(room.bytes), buffer);
    for (; at < sum; at += next) {
        next = smaller(sum - at, piece);
        if (MAKE_CHANGING(TAKE_PIECE, &s, AT(written), next, AT(room.bytes), buffer) != EOS_DONE)
            break;
        ask(&s, buffer);
    }
    MAKE_CHANGING(TAKE_PIECE, &s, AT(written), 1, AT(room.bytes), buffer);
    ask(&s, buffer);
}

/* A frame to all that takes one. */
static uint32_t hand_in(struct lent frame, size_t buffer, struct eos_state *s)
{
    struct eos_header h;
    size_t length;
    if (MAKE(READ_HEADER, LENT(frame), AT(&h)) == EOS_DONE)
        CHECK(MAKE(WRITE_HEADER, AT(&h), AT(written), EOS_MAX_HEADER, AT(&length)) == EOS_DONE);
    MAKE(PAYLOAD, LENT(frame));
    return MAKE(START, LENT(frame), AT(room.bytes), buffer, AT(s));
}

/* A frame, started and pulled in several cuts, over a buffer of another length, and from a damaged state. Answers the number
 * of the start. */
static uint32_t assemble(struct lent frame, size_t buffer)
{
    struct eos_state s = {0};
    uint32_t number = hand_in(frame, buffer, &s);
    ask(&s, buffer);
    pull(s, buffer, EOS_MAX_MESSAGE);
    if (number == EOS_DONE) {
        pull(s, buffer, to_pull(&s) / 7 + 1);
        pull(s, buffer + 1, 1);
        s.kind = below(3);
        s.taken = (size_t)any() >> below(64);
        s.reads[below(EOS_MAX_READ_SEGMENTS)].position = edge();
        pull(s, buffer, EOS_MAX_MESSAGE);
    }
    return number;
}

/* Full lists in any order, with pieces short, and longer than the block that is copied at a time. */
static void full_frames(void)
{
    static const uint32_t lengths[] = {0, 1, 5, 4096, 32768, 32772, 65532};
    for (size_t i = 0; i < sizeof lengths / sizeof *lengths; i++)
        for (uint32_t zeros = 0; zeros <= 16; zeros++)
            for (int order = 0; order < 8; order++) {
                struct lists l = lists_of(zeros, 16 - zeros, lengths[i]);
                uint32_t base = zeros > 0 ? zeros * lengths[i] : lengths[i] > 4096 ? 64 : 160000;
                if (order > 0)
                    rearrange(l.reads, l.read_count);
                struct lent frame = frame_of(zeros > 0, &l, zeros > 0 ? 0 : base);
                /* The base has to fill the gaps. */
                CHECK((assemble(frame, EOS_MAX_MESSAGE) == EOS_DONE) == (base % 4 == 0 && base >= 4 * (16 - zeros)));
                assemble(frame, below(EOS_MAX_MESSAGE));
                give_back(frame);
            }
}

/* Chunks at the front of a long inline payload, or with a block of it and more between them; and none. */
static void long_payloads(void)
{
    for (uint32_t reads = 0; reads <= 16; reads += 8)
        for (uint32_t at = 0; at <= 65536; at += 32768) {
            struct lists l = lists_of(0, reads, 8);
            for (uint32_t i = 0; i < reads; i++)
                l.reads[i].position += at * (1 + i / 4);
            struct lent frame = frame_of(EOS_MSG, &l, 600000);
            CHECK(assemble(frame, EOS_MAX_MESSAGE) == EOS_DONE);
            give_back(frame);
        }
}

/* Over each limit by one, and cut at each length. */
static void refused_frames(void)
{
    struct lists good = lists_of(4, 12, 4), l[5] = {good, good, good, good, good};
    struct eos_state s;
    l[0].read_count = 17;
    l[1].chunks = 5;
    l[1].segments = 0;
    l[2].segments = 5;
    l[3].reply = 17;
    l[4].reads[15].position = 6;
    for (uint32_t procedure = 0; procedure <= 5; procedure++) {
        struct lent frame = frame_of(procedure, &good, 0);
        for (size_t length = 0; length < frame.length; length++) {
            struct lent cut = copy_of(frame.bytes, length);
            CHECK(hand_in(cut, EOS_MAX_MESSAGE, &s) != EOS_DONE);
            give_back(cut);
        }
        give_back(frame);
        for (int i = 0; i < 5; i++) {
            frame = frame_of(procedure, &l[i], 0);
            uint32_t number = hand_in(frame, EOS_MAX_MESSAGE, &s);
            CHECK(procedure > 1 || number == (i < 4 ? EOS_OVER_LIMIT : EOS_POSITION_UNALIGNED));
            give_back(frame);
        }
    }
}

static void random_frames(void)
{
    struct lent frame = some_frame();
    uint32_t number = assemble(frame, below(4) ? 4096 : below(64));
    size_t length;
    MAKE(ERROR_REPLY, LENT(frame), number, edge(), AT(room.bytes), below(40), AT(&length));
    give_back(frame);
}

/* ---- The other calls ---- */

static void replies(void)
{
    static const uint32_t limits[] = {0, 1, 32, UINT32_MAX};
    struct lists none = {.read_count = 0};
    size_t length;
    for (uint32_t procedure = 0; procedure <= 5; procedure++) {
        struct lent frame = frame_of(procedure, &none, 0);
        for (uint32_t number = 0; number <= EOS_REPLY_MISMATCH + 1; number++)
            for (size_t i = 0; i < 4; i++)
                for (size_t space = 0; space <= EOS_MAX_REPLY; space += 4) {
                    MAKE(ERROR_REPLY, LENT(frame), number, limits[i], AT(room.bytes), space, AT(&length));
                    MAKE(ERROR_REPLY, AT(frame.bytes), 15, number, limits[i], AT(room.bytes), space, AT(&length));
                }
        give_back(frame);
    }
}

static void random_setups(void)
{
    static const uint8_t front[] = {0xf6, 0xab, 0x0e, 0x18, 1};
    struct eos_setup theirs, ours = {below(8) ? below(2) : edge(), 1024 * (1 + below(256)), 1024 * (1 + below(256))};
    struct eos_agreement agreement;
    uint32_t present, credit;
    size_t length;
    struct lent bytes = lend(below(12));
    if (below(4))
        memcpy(bytes.bytes, front, smaller(bytes.length, sizeof front));
    if (below(4) == 0)
        ours.receive = edge();
    MAKE(READ_SETUP, LENT(bytes), AT(&theirs), AT(&present));
    MAKE(AGREE, AT(&theirs), AT(&ours), AT(&agreement));
    MAKE(AGREE, AT(&ours), AT(&theirs), AT(&agreement));
    MAKE(WRITE_SETUP, AT(&ours), AT(room.bytes), below(12), AT(&length));
    MAKE(GRANT, edge(), edge(), AT(&credit));
    give_back(bytes);
}

/* A header, written into too little and enough; its reply with bytes landed in the chunks, and damaged. */
static void headers(struct eos_header sent)
{
    struct eos_header reply = sent;
    struct eos_landed landed;
    size_t length;
    uint32_t *place = (uint32_t *)&reply + below(sizeof reply / 4);
    MAKE(WRITE_HEADER, AT(&sent), AT(room.bytes), EOS_MAX_HEADER, AT(&length));
    MAKE(WRITE_HEADER, AT(&sent), AT(room.bytes), below(EOS_MAX_HEADER), AT(&length));
    reply.read_count = 0;
    MAKE(RETURNED, AT(&sent), AT(&sent), AT(&landed));
    MAKE(RETURNED, AT(&sent), AT(&reply), AT(&landed));
    reply.kind = EOS_NOMSG;
    reply.reply_present = 1;
    MAKE(RETURNED, AT(&sent), AT(&reply), AT(&landed));
    if (reply.write_counts[0] > 0 && reply.write_counts[0] <= EOS_MAX_WRITE_SEGMENTS)
        reply.writes[reply.write_counts[0] - 1].length /= 2;
    if (reply.reply_count > 0 && reply.reply_count <= EOS_MAX_REPLY_SEGMENTS)
        reply.reply[reply.reply_count - 1].length /= 2;
    MAKE(RETURNED, AT(&sent), AT(&reply), AT(&landed));
    *place = edge();
    MAKE(RETURNED, AT(&sent), AT(&reply), AT(&landed));
    MAKE(RETURNED, AT(&reply), AT(&sent), AT(&landed));
    MAKE(WRITE_HEADER, AT(&reply), AT(room.bytes), EOS_MAX_HEADER, AT(&length));
}

static void full_headers(void)
{
    for (uint32_t kind = 0; kind <= EOS_ERROR_CHUNK + 1; kind++)
        for (uint32_t chunks = 0; chunks <= EOS_MAX_WRITE_CHUNKS; chunks++) {
            struct eos_header h;
            noise(&h, sizeof h);
            h.kind = kind;
            h.read_count = kind < 2 ? 16 : 0;
            for (uint32_t i = 0; i < 16; i++)
                h.reads[i].position &= ~UINT32_C(3);
            h.write_chunks = kind < 2 ? chunks : 0;
            for (uint32_t i = 0; i < EOS_MAX_WRITE_CHUNKS; i++)
                h.write_counts[i] = chunks > 0 ? 16 / chunks : 0;
            h.reply_present = kind < 2;
            h.reply_count = kind < 2 ? 16 : 0;
            headers(h);
            h.read_count = 0;
            headers(h);
        }
}

static void random_headers(void)
{
    struct eos_header h = some_header(4 * below(12));
    headers(h);
    noise(&h, sizeof h);
    h.kind = below(4);
    h.reply_present = below(2);
    headers(h);
}

static uint32_t send_call(struct eos_ledger *l)
{
    return make(LEDGER_SEND, (struct call){NULL, {AT(l)}, {0}}, l, sizeof *l);
}

/* Fills a ledger and empties it from the front, the back or anywhere; xids rise, or wrap. */
static void fill(uint32_t last, int from)
{
    struct eos_ledger l;
    MAKE(LEDGER_OPEN, last, AT(&l));
    l.grant = EOS_MAX_IN_FLIGHT;
    for (uint32_t i = 0; i < EOS_MAX_IN_FLIGHT; i++)
        CHECK(send_call(&l) == EOS_DONE);
    CHECK(send_call(&l) == EOS_CREDIT_SPENT);
    /* As if the xids had gone around: the next ones are in flight and passed over. */
    for (uint32_t count = EOS_MAX_IN_FLIGHT; count > 0; count--) {
        struct eos_ledger around = l, twice = l;
        around.last = last;
        send_call(&around);
        twice.xids[count - 1] = twice.xids[below(count)];
        send_call(&twice);
        MAKE_CHANGING(LEDGER_REPLY, &twice, 0, 1);
        uint32_t place = from == 0 ? 0 : from == 1 ? count - 1 : below(count);
        MAKE_CHANGING(LEDGER_REPLY, &l, last - 1, 1);
        MAKE_CHANGING(LEDGER_REPLY, &l, l.xids[place], 0);
        CHECK(MAKE_CHANGING(LEDGER_REPLY, &l, l.xids[place], EOS_MAX_IN_FLIGHT) == EOS_DONE);
    }
}

/* Some in flight, which rise or fall or neither, near the largest xid or not. */
static void random_ledgers(void)
{
    struct eos_ledger l;
    uint32_t at = (uint32_t)any(), step = below(4) ? below(3) - 1 : (uint32_t)any();
    noise(&l, sizeof l);
    l.count = below(8) ? below(EOS_MAX_IN_FLIGHT + 1) : edge();
    l.grant = below(8) ? EOS_MAX_IN_FLIGHT : edge();
    for (uint32_t i = 0; i < EOS_MAX_IN_FLIGHT; i++)
        l.xids[i] = at += step;
    l.last = below(2) ? l.xids[0] - 1 : edge();
    struct eos_ledger same = l;
    send_call(&l);
    send_call(&l);
    MAKE_CHANGING(LEDGER_REPLY, &same, same.xids[below(EOS_MAX_IN_FLIGHT)], below(4));
    fill(below(2) ? UINT32_MAX - below(40) : (uint32_t)any(), (int)below(3));
}

int main(int argc, char **argv)
{
    uint64_t rounds = argc > 1 ? strtoull(argv[1], NULL, 10) : 10000;
    seed = argc > 2 ? strtoull(argv[2], NULL, 10) : 1;
    random_state = seed;
    open_stack();
    room = lend(EOS_MAX_MESSAGE + 8);
    full_frames();
    long_payloads();
    refused_frames();
    replies();
    full_headers();
    for (round_at = 0; round_at < rounds; round_at++) {
        random_frames();
        random_setups();
        random_headers();
        random_ledgers();
    }
    give_back(room);
    for (int i = 0; i < CALLS; i++) {
        CHECK(calls[i].most > 0);
        printf("%s %zu\n", calls[i].name, calls[i].most);
    }
    return 0;
}
