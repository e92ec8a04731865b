/*
 * Both sides of a connection, with several threads each. The client's threads make calls at once under one ledger: each
 * sends a message of random bytes, some of it inline and the rest in read chunks, and offers memory for what comes back.
 * The server's threads reassemble the messages and send them back, through that memory and inline, and the client compares
 * every byte with what it sent. Some calls are wrong on purpose and get an error reply.
 *
 * The two sides are two processes. A packet on a socket stands for a SEND, and memory that both have mapped for what an
 * adapter reads and writes by RDMA. Only sums are printed, which are the same however the threads are scheduled.
 */
#define _DEFAULT_SOURCE
#include <eoswynnor.h>
#include <inttypes.h>
#include <pthread.h>
#include <signal.h>
#include <stdio.h>
#include <stdlib.h>
#include <string.h>
#include <sys/mman.h>
#include <sys/socket.h>
#include <sys/wait.h>
#include <unistd.h>

enum {
    CALLERS = 8,        /* threads of the client that make calls */
    CALLS = 256,        /* of each caller */
    WORKERS = 4,        /* threads of the server */
    CREDIT_LIMIT = 4,   /* below CALLERS, so that credit is spent and callers wait */
    MAX_CHUNKS = 4,     /* read chunks beside the base */
    MAX_CHUNK = 65536,  /* bytes of a read chunk with its padding, of a base and of a piece */
    MAX_CUTS = 3,       /* segments of a read chunk: with that of a wrong call 16 in all */
    MAX_GAP = 64,       /* bytes between segments in memory */
    AREA = 1536 * 1024, /* bytes of a caller's memory */
    PLACES = 10,        /* registrations of a caller, one for each chunk: base, reads, writes and reply */
    CLIENT_RECEIVE = 4096,
    SERVER_RECEIVE = 6144
};

static const struct eos_setup client_setup = {1, 8192, CLIENT_RECEIVE};
static const struct eos_setup server_setup = {0, 16384, SERVER_RECEIVE};
static const uint32_t last_xid = UINT32_MAX - 100; /* so that the xids go on behind the largest */

/* What both sides count, each for itself. */
enum { FRAMES, MESSAGES, BYTES, SEGMENTS, IN_WRITES, IN_REPLY, INLINE, OTHER_VERSION, PAST_BASE, SUMS };

/* Ends this process where a claim does not hold. The other one then meets the end of the connection and ends too. */
static void need(int holds, const char *what)
{
    if (!holds) {
        fprintf(stderr, "both_sides: %s\n", what);
        _exit(1);
    }
}

static void need_done(uint32_t number, const char *call)
{
    if (number != EOS_DONE) {
        fprintf(stderr, "both_sides: %s answers %" PRIu32 "\n", call, number);
        _exit(1);
    }
}

static uint64_t any(uint64_t *random)
{
    uint64_t z = *random += UINT64_C(0x9e3779b97f4a7c15);
    z = (z ^ (z >> 30)) * UINT64_C(0xbf58476d1ce4e5b9);
    z = (z ^ (z >> 27)) * UINT64_C(0x94d049bb133111eb);
    return z ^ (z >> 31);
}

static uint32_t below(uint64_t *random, size_t n)
{
    return (uint32_t)(any(random) % n);
}

static size_t smaller(size_t a, size_t b)
{
    return a < b ? a : b;
}

static pthread_t start_thread(void *(*run)(void *), void *argument)
{
    pthread_t thread;
    need(pthread_create(&thread, NULL, run, argument) == 0, "pthread_create");
    return thread;
}

static void end_thread(pthread_t thread, uint64_t *all, const uint64_t *sums)
{
    need(pthread_join(thread, NULL) == 0, "pthread_join");
    for (uint32_t i = 0; i < SUMS; i++)
        all[i] += sums[i];
}

/* ---- The adapter ---- */

enum { MAY_READ = 1, MAY_WRITE = 2 };

/* Memory that the server may read or write. The handle is how often the place was used and which one it is, so an old
 * handle is refused. */
struct registration {
    uint32_t uses;
    uint32_t right; /* 0 while nothing is registered here */
    uint64_t start;
    uint64_t length;
};

/* What both processes have mapped; the pointer is set before the fork. It needs no lock, since the socket keeps the order:
 * each caller has places and memory of its own and changes them before it sends a call and after it has the reply, and the
 * server uses them in between. */
static struct shared {
    struct registration registrations[CALLERS * PLACES];
    uint8_t memory[CALLERS * AREA];
    /* Stored before the client ends, and read after it has ended. */
    struct eos_agreement agreement;
    uint32_t in_flight;
    uint64_t sums[SUMS];
} *shared;

static uint32_t register_memory(uint32_t place, uint64_t start, uint64_t length, uint32_t right)
{
    struct registration *r = &shared->registrations[place];
    *r = (struct registration){r->uses + 1, right, start, length};
    return r->uses * CALLERS * PLACES + place;
}

/* A part of a segment, if all of it is registered with this right. */
static uint8_t *reach(struct eos_segment segment, uint64_t done, uint64_t length, uint32_t right)
{
    const struct registration *r = &shared->registrations[segment.handle % (CALLERS * PLACES)];
    uint64_t before = segment.offset + done - r->start;
    need(r->uses == segment.handle / (CALLERS * PLACES) && r->right == right, "the adapter refuses the handle");
    need(before <= r->length && length <= r->length - before, "the adapter refuses the place");
    return shared->memory + r->start + before;
}

static void rdma_read(struct eos_segment from, size_t done, uint8_t *into, size_t length)
{
    memcpy(into, reach(from, done, length, MAY_READ), length);
}

static void rdma_write(struct eos_segment into, const uint8_t *bytes, size_t length)
{
    memcpy(reach(into, 0, length, MAY_WRITE), bytes, length);
}

static void send_frame(int socket, const uint8_t *frame, size_t length)
{
    need(send(socket, frame, length, MSG_NOSIGNAL) == (ssize_t)length, "send: the other side is gone");
}

/* Answers the length of the next frame, or 0 when the other side has closed. Frames come whole, so several threads may
 * wait for them. */
static size_t receive_frame(int socket, uint8_t *frame, size_t room)
{
    ssize_t length = recv(socket, frame, room, MSG_TRUNC);
    need(length >= 0, "recv: the other side is gone");
    need((size_t)length <= room, "recv: a frame is longer than this side receives");
    return (size_t)length;
}

/* Sends our setup data and receives that of the other side, as the connection is made. */
static struct eos_setup exchange_setup(int socket, const struct eos_setup *ours)
{
    struct eos_setup theirs;
    uint8_t bytes[EOS_SETUP_BYTES];
    uint32_t present;
    size_t length;
    need_done(eos_write_setup(ours, bytes, sizeof bytes, &length), "eos_write_setup");
    send_frame(socket, bytes, length);
    length = receive_frame(socket, bytes, sizeof bytes);
    need_done(eos_read_setup(bytes, length, &theirs, &present), "eos_read_setup");
    need(present == 1, "the other side sends no setup data");
    return theirs;
}

/* ---- The server ---- */

/* A thread of the server. It shares nothing but the socket: the library keeps nothing between calls. */
struct worker {
    pthread_t thread;
    int socket;
    uint32_t threshold; /* bytes of a frame to the client */
    uint64_t random;
    uint64_t sums[SUMS];
    uint8_t piece[MAX_CHUNK];
    uint8_t message[EOS_MAX_MESSAGE];
};

/* Pulls the next bytes of the state's segments, at most room of them, and of several segments where one has too few. How
 * many are taken already is in the state. Answers how many it pulled: none when all are in. */
static size_t pull(const struct eos_state *state, uint8_t *piece, size_t room)
{
    size_t length = 0, taken = state->taken;
    for (uint32_t i = 0; i < state->read_count && length < room; i++) {
        struct eos_segment from = state->reads[i].target;
        size_t before = smaller(from.length, taken);
        size_t part = smaller(from.length - before, room - length);
        if (part > 0)
            rdma_read(from, before, piece + length, part);
        taken -= before;
        length += part;
    }
    return length;
}

/* Reassembles a call in the worker's message. Answers 0 and how long it is, or the number of the refusal. */
static uint32_t reassemble(struct worker *w, const uint8_t *frame, size_t frame_len, size_t *message_len)
{
    struct eos_state state;
    size_t length;
    uint32_t number = eos_start(frame, frame_len, w->message, sizeof w->message, &state);
    if (number != EOS_DONE)
        return number;
    while ((length = pull(&state, w->piece, 1 + below(&w->random, (size_t)1 << below(&w->random, 17)))) > 0)
        need_done(eos_take_piece(&state, w->piece, length, w->message, sizeof w->message).number, "eos_take_piece");
    need_done(eos_message(&state, w->message, sizeof w->message, message_len), "eos_message");
    w->sums[MESSAGES]++;
    w->sums[BYTES] += *message_len;
    w->sums[SEGMENTS] += state.read_count;
    return EOS_DONE;
}

/* Writes bytes into segments from the front and sets the length of each to what is in it. Answers for how many there was
 * room. */
static size_t fill(struct eos_segment *segments, uint32_t count, const uint8_t *bytes, size_t length)
{
    size_t done = 0;
    for (uint32_t i = 0; i < count; i++) {
        size_t part = smaller(segments[i].length, length - done);
        if (part > 0)
            rdma_write(segments[i], bytes + done, part);
        segments[i].length = (uint32_t)part;
        done += part;
    }
    return done;
}

/* Sends the message back: what there is room for in the write chunks, and the rest inline if the threshold allows it, else
 * in the reply chunk. The reply names the segments of the call, each with the bytes that are in it. */
static void answer(struct worker *w, const uint8_t *frame, size_t frame_len, size_t message_len)
{
    struct eos_header reply;
    uint8_t out[CLIENT_RECEIVE];
    uint32_t write_segments = 0;
    size_t length;
    need_done(eos_read_header(frame, frame_len, &reply), "eos_read_header of a call");
    for (uint32_t i = 0; i < reply.write_chunks; i++)
        write_segments += reply.write_counts[i];
    size_t in_writes = fill(reply.writes, write_segments, w->message, message_len);
    const uint8_t *rest = w->message + in_writes;
    size_t rest_len = message_len - in_writes;
    size_t in_reply = rest_len <= w->threshold - EOS_MAX_HEADER ? 0 : rest_len;
    /* Beside an inline answer the reply chunk comes back empty. */
    need(fill(reply.reply, reply.reply_count, rest, in_reply) == in_reply, "too little memory for the answer");

    reply.kind = in_reply > 0 ? EOS_NOMSG : EOS_MSG;
    reply.read_count = 0;
    need_done(eos_grant(reply.credit, CREDIT_LIMIT, &reply.credit), "eos_grant");
    need_done(eos_write_header(&reply, out, sizeof out, &length), "eos_write_header of a reply");
    memcpy(out + length, rest, rest_len - in_reply);
    send_frame(w->socket, out, length + rest_len - in_reply);
    w->sums[IN_WRITES] += in_writes;
    w->sums[IN_REPLY] += in_reply;
    w->sums[INLINE] += rest_len - in_reply;
}

/* Sends the error reply. For some numbers there is none. */
static void refuse(struct worker *w, const uint8_t *frame, size_t frame_len, uint32_t number)
{
    uint8_t reply[EOS_MAX_REPLY];
    size_t length;
    need_done(eos_error_reply(frame, frame_len, number, CREDIT_LIMIT, reply, sizeof reply, &length), "eos_error_reply");
    if (length > 0)
        send_frame(w->socket, reply, length);
    need(number == EOS_OTHER_VERSION || number == EOS_CHUNK_OVERLAPS, "a call is refused that was not made wrong");
    w->sums[number == EOS_OTHER_VERSION ? OTHER_VERSION : PAST_BASE]++;
}

/* Serves one frame after the other, as they come, until the client has closed. */
static void *serve(void *argument)
{
    struct worker *w = argument;
    uint8_t frame[SERVER_RECEIVE];
    size_t frame_len, message_len;
    while ((frame_len = receive_frame(w->socket, frame, sizeof frame)) > 0) {
        uint32_t number = reassemble(w, frame, frame_len, &message_len);
        if (number == EOS_DONE)
            answer(w, frame, frame_len, message_len);
        else
            refuse(w, frame, frame_len, number);
        w->sums[FRAMES]++;
    }
    return NULL;
}

/* Stores what was agreed, and what the threads counted. */
static void run_server(int socket, struct eos_agreement *agreement, uint64_t *sums)
{
    struct worker *workers = calloc(WORKERS, sizeof *workers);
    struct eos_setup client = exchange_setup(socket, &server_setup);
    need(workers != NULL, "calloc");
    need_done(eos_agree(&client, &server_setup, agreement), "eos_agree of the server");
    for (uint32_t i = 0; i < WORKERS; i++) {
        workers[i].socket = socket;
        workers[i].threshold = agreement->server_to_client;
        workers[i].random = CALLERS + i;
        workers[i].thread = start_thread(serve, &workers[i]);
    }
    for (uint32_t i = 0; i < WORKERS; i++)
        end_thread(workers[i].thread, sums, workers[i].sums);
    free(workers);
    close(socket);
}

/* ---- The client ---- */

/* A thread that makes one call after the other. */
struct caller {
    pthread_t thread;
    struct client *client;
    uint64_t random;
    uint64_t sums[SUMS];
    uint32_t index;
    uint32_t registered;    /* places of the adapter's table in use */
    uint64_t used;          /* bytes of its memory in use */
    struct eos_header sent; /* kept as it is until the reply is there */
    size_t base_len;
    size_t message_len;
    uint8_t base[MAX_CHUNK];
    uint8_t message[(1 + MAX_CHUNKS) * MAX_CHUNK];
    /* Under the client's lock; but reply and payload are the caller's own when it does not wait. */
    pthread_cond_t answered;
    int waits;
    struct eos_header reply;
    size_t payload_len;
    uint8_t payload[CLIENT_RECEIVE];
};

struct client {
    int socket;
    struct eos_agreement agreement;
    pthread_mutex_t lock;  /* of the ledger, and of what the callers wait for */
    pthread_cond_t credit; /* a reply has come, and there may be credit again */
    struct eos_ledger ledger;
    struct caller callers[CALLERS];
};

/* Registers memory for a chunk and cuts it into segments, the first one last in memory and with gaps between them. */
static void register_chunk(struct caller *c, uint32_t right, size_t length, struct eos_segment *segments, uint32_t count)
{
    uint64_t size = length + count * MAX_GAP, start = (uint64_t)c->index * AREA + c->used, place = start + size;
    need(c->registered < PLACES && c->used + size <= AREA, "too little memory for a call");
    uint32_t handle = register_memory(c->index * PLACES + c->registered++, start, size, right);
    c->used += size;
    for (uint32_t i = 0; i < count; i++) {
        uint32_t part = i + 1 < count ? below(&c->random, 2 * length / (count - i) + 1) : (uint32_t)length;
        length -= part;
        place -= part + below(&c->random, MAX_GAP);
        segments[i] = (struct eos_segment){handle, part, place};
    }
}

static void add_read_chunk(struct caller *c, size_t position, const uint8_t *bytes, size_t length)
{
    struct eos_segment segments[MAX_CUTS];
    uint32_t count = 1 + below(&c->random, MAX_CUTS);
    register_chunk(c, MAY_READ, length, segments, count);
    for (uint32_t i = 0; i < count; i++) {
        memcpy(shared->memory + segments[i].offset, bytes, segments[i].length);
        bytes += segments[i].length;
        c->sent.reads[c->sent.read_count++] = (struct eos_read_segment){(uint32_t)position, 0, segments[i]};
    }
}

/* Puts random bytes behind the message, and answers where they are. */
static const uint8_t *append(struct caller *c, size_t length)
{
    uint8_t *bytes = c->message + c->message_len;
    for (size_t i = 0; i < length; i += 8) {
        uint64_t eight = any(&c->random);
        memcpy(bytes + i, &eight, smaller(8, length - i));
    }
    c->message_len += length;
    return bytes;
}

static void append_to_base(struct caller *c, size_t length)
{
    memcpy(c->base + c->base_len, append(c, length), length);
    c->base_len += length;
}

/* A read list may have any order; but segments of one position keep theirs. */
static void mix_reads(struct eos_read_segment *reads, uint32_t count, uint64_t *random)
{
    for (uint32_t i = 0; count > 1 && i < 8 * count; i++) {
        struct eos_read_segment *two = reads + below(random, count - 1), first = two[0];
        if (two[0].position != two[1].position) {
            two[0] = two[1];
            two[1] = first;
        }
    }
}

/* Makes a message from front to end: bytes of the base, a chunk and its padding, bytes of the base and so on. A position is
 * how long the message is before the chunk. */
static void make_message(struct caller *c, int past_base)
{
    struct eos_header *h = &c->sent;
    memset(h, 0, sizeof *h);
    c->message_len = c->base_len = 0;
    h->kind = below(&c->random, 2) ? EOS_NOMSG : EOS_MSG;
    h->credit = CALLERS;
    size_t most = h->kind == EOS_NOMSG ? MAX_CHUNK : c->client->agreement.client_to_server - EOS_MAX_HEADER;
    /* In words of 4 bytes, as the base and the positions must be. */
    uint32_t words = below(&c->random, most / 4 + 1);
    /* Position 0 is that of the base, so some of it comes before the first chunk. */
    uint32_t chunks = words > 0 ? below(&c->random, MAX_CHUNKS + 1) : 0;
    for (uint32_t i = 0; i < chunks; i++) {
        uint32_t before = i == 0 ? 1 + below(&c->random, words) : below(&c->random, words + 1);
        append_to_base(c, 4 * before);
        words -= before;
        size_t position = c->message_len, length = below(&c->random, below(&c->random, 2) ? MAX_CHUNK : 256);
        add_read_chunk(c, position, append(c, length), length);
        while (c->message_len % 4 != 0)
            c->message[c->message_len++] = 0;
    }
    append_to_base(c, 4 * words);
    if (h->kind == EOS_NOMSG)
        add_read_chunk(c, 0, c->base, c->base_len);
    /* A wrong call: all of the base stands before this chunk, and a word is still missing. */
    if (past_base)
        h->reads[h->read_count++] = (struct eos_read_segment){(uint32_t)c->message_len + 4, 0, {0, 4, 0}};
    mix_reads(h->reads, h->read_count, &c->random);
}

/* Offers write chunks, and a reply chunk for what they have no room for, unless that surely comes inline. */
static void offer_memory(struct caller *c)
{
    struct eos_header *h = &c->sent;
    size_t rest = c->message_len;
    uint32_t at = 0;
    h->write_chunks = below(&c->random, EOS_MAX_WRITE_CHUNKS + 1);
    for (uint32_t i = 0; i < h->write_chunks; i++) {
        size_t room = below(&c->random, c->message_len / 2 + 64);
        h->write_counts[i] = 1 + below(&c->random, EOS_MAX_WRITE_SEGMENTS / EOS_MAX_WRITE_CHUNKS);
        register_chunk(c, MAY_WRITE, room, &h->writes[at], h->write_counts[i]);
        at += h->write_counts[i];
        rest -= smaller(rest, room);
    }
    if (rest > c->client->agreement.server_to_client - EOS_MAX_HEADER || below(&c->random, 2)) {
        h->reply_present = 1;
        h->reply_count = 1 + below(&c->random, EOS_MAX_REPLY_SEGMENTS);
        register_chunk(c, MAY_WRITE, rest + below(&c->random, 64), h->reply, h->reply_count);
    }
}

/* Waits until there is credit for a call, and gives it its xid. */
static void take_xid(struct caller *c)
{
    struct client *client = c->client;
    struct eos_send_answer call;
    pthread_mutex_lock(&client->lock);
    while ((call = eos_ledger_send(&client->ledger)).number == EOS_CREDIT_SPENT)
        pthread_cond_wait(&client->credit, &client->lock);
    need_done(call.number, "eos_ledger_send");
    need(client->ledger.count <= CREDIT_LIMIT, "more calls are in flight than the server ever granted");
    c->sent.xid = call.xid;
    c->waits = 1;
    pthread_mutex_unlock(&client->lock);
}

static void send_call(struct caller *c, uint8_t version)
{
    uint8_t frame[SERVER_RECEIVE];
    size_t length, payload_len = c->sent.kind == EOS_MSG ? c->base_len : 0;
    need_done(eos_write_header(&c->sent, frame, sizeof frame, &length), "eos_write_header of a call");
    need(length + payload_len <= c->client->agreement.client_to_server, "a call is above the inline threshold");
    memcpy(frame + length, c->base, payload_len);
    frame[7] = version;
    send_frame(c->client->socket, frame, length + payload_len);
}

/* Waits for the reply, and then takes the memory back before anything in it is used. */
static void wait_for_reply(struct caller *c)
{
    pthread_mutex_lock(&c->client->lock);
    while (c->waits)
        pthread_cond_wait(&c->answered, &c->client->lock);
    pthread_mutex_unlock(&c->client->lock);
    while (c->registered > 0)
        shared->registrations[c->index * PLACES + --c->registered].right = 0;
    c->used = 0;
}

/* Compares what landed in a chunk with the message from at on, and answers where in the message it ends. The segments are
 * those of the call: in the reply they have other lengths. */
static size_t compare_chunk(const struct caller *c, size_t at, const struct eos_segment *segments, uint32_t count,
                            uint64_t landed)
{
    need(landed <= c->message_len - at, "more bytes came back than were sent");
    for (uint32_t i = 0; i < count; i++) {
        size_t part = smaller(segments[i].length, landed);
        need(memcmp(shared->memory + segments[i].offset, c->message + at, part) == 0, "other bytes landed in a chunk");
        at += part;
        landed -= part;
    }
    return at;
}

/* Compares all that came back with the message that was sent: the write chunks, the reply chunk, the inline bytes. */
static void compare(struct caller *c)
{
    const struct eos_header *sent = &c->sent;
    struct eos_landed landed;
    size_t at = 0;
    uint32_t segment = 0;
    need(c->reply.kind == EOS_MSG || c->reply.kind == EOS_NOMSG, "a call is refused that was not made wrong");
    need_done(eos_returned(sent, &c->reply, &landed), "eos_returned");
    for (uint32_t i = 0; i < sent->write_chunks; i++) {
        at = compare_chunk(c, at, &sent->writes[segment], sent->write_counts[i], landed.writes[i]);
        segment += sent->write_counts[i];
    }
    c->sums[IN_WRITES] += at;
    at = compare_chunk(c, at, sent->reply, sent->reply_count, landed.reply);
    need(c->payload_len == c->message_len - at, "another number of bytes came back than was sent");
    need(memcmp(c->payload, c->message + at, c->payload_len) == 0, "other bytes came back inline");
    c->sums[IN_REPLY] += landed.reply;
    c->sums[INLINE] += c->payload_len;
    c->sums[BYTES] += c->message_len;
    c->sums[SEGMENTS] += sent->read_count;
}

/* Of 16 calls one is of another version, and one has a chunk past the base. */
static void *make_calls(void *argument)
{
    struct caller *c = argument;
    for (uint32_t i = 0; i < CALLS; i++) {
        uint32_t what = i % 16 == 5 ? OTHER_VERSION : i % 16 == 11 ? PAST_BASE : MESSAGES;
        make_message(c, what == PAST_BASE);
        offer_memory(c);
        take_xid(c);
        send_call(c, what == OTHER_VERSION ? 2 : 1);
        wait_for_reply(c);
        if (what == MESSAGES)
            compare(c);
        else
            need(c->reply.kind == (what == PAST_BASE ? EOS_ERROR_CHUNK : EOS_ERROR_VERSION), "no such error reply");
        c->sums[what]++;
        c->sums[FRAMES]++;
    }
    return NULL;
}

/* Reads the header of a reply. A version error has the version word of its call, so eos_read_header refuses the one for a
 * call of version 2. Its layout is the same in each version: read as one of version 1 it gives its xid and its grant. */
static void read_reply(uint8_t *frame, size_t frame_len, struct eos_header *reply)
{
    uint32_t number = eos_read_header(frame, frame_len, reply);
    if (number == EOS_OTHER_VERSION && frame[7] == 2) {
        frame[7] = 1;
        number = eos_read_header(frame, frame_len, reply);
        need(number != EOS_DONE || reply->kind == EOS_ERROR_VERSION, "a reply of version 2 that is no version error");
    }
    need_done(number, "eos_read_header of a reply");
}

/* Hands a reply to the ledger, and to the caller that waits for one with this xid. */
static void take_reply(struct client *client, const struct eos_header *reply, const uint8_t *payload, size_t payload_len)
{
    struct caller *c = client->callers;
    pthread_mutex_lock(&client->lock);
    /* The credit word of an error reply is a grant too. */
    need_done(eos_ledger_reply(&client->ledger, reply->xid, reply->credit), "eos_ledger_reply");
    while (!c->waits || c->sent.xid != reply->xid)
        need(++c < client->callers + CALLERS, "nobody waits for a reply to a call in flight");
    c->reply = *reply;
    c->payload_len = payload_len;
    memcpy(c->payload, payload, payload_len);
    c->waits = 0;
    pthread_cond_signal(&c->answered);
    /* All of them: a higher grant is credit for more than one call. */
    pthread_cond_broadcast(&client->credit);
    pthread_mutex_unlock(&client->lock);
}

/* The thread that receives, until the server has closed. */
static void *receive_replies(void *argument)
{
    struct client *client = argument;
    struct eos_header reply;
    uint8_t frame[CLIENT_RECEIVE];
    size_t length;
    while ((length = receive_frame(client->socket, frame, sizeof frame)) > 0) {
        read_reply(frame, length, &reply);
        struct eos_part payload = eos_payload(frame, length);
        take_reply(client, &reply, frame + payload.offset, payload.length);
    }
    pthread_mutex_lock(&client->lock);
    need(client->ledger.count == 0, "the server closed with calls in flight");
    pthread_mutex_unlock(&client->lock);
    return NULL;
}

static void run_client(int socket)
{
    struct client *client = calloc(1, sizeof *client);
    struct eos_setup server = exchange_setup(socket, &client_setup);
    need(client != NULL, "calloc");
    client->socket = socket;
    need_done(eos_agree(&client_setup, &server, &client->agreement), "eos_agree of the client");
    need_done(eos_ledger_open(last_xid, &client->ledger), "eos_ledger_open");
    need(pthread_mutex_init(&client->lock, NULL) == 0, "pthread_mutex_init");
    need(pthread_cond_init(&client->credit, NULL) == 0, "pthread_cond_init");
    pthread_t receiver = start_thread(receive_replies, client);
    for (uint32_t i = 0; i < CALLERS; i++) {
        struct caller *c = &client->callers[i];
        c->client = client;
        c->index = i;
        c->random = i;
        need(pthread_cond_init(&c->answered, NULL) == 0, "pthread_cond_init");
        c->thread = start_thread(make_calls, c);
    }
    for (uint32_t i = 0; i < CALLERS; i++) {
        end_thread(client->callers[i].thread, shared->sums, client->callers[i].sums);
        pthread_cond_destroy(&client->callers[i].answered);
    }
    /* No more calls: the server's threads end, it closes, and the thread that receives ends. */
    shutdown(socket, SHUT_WR);
    pthread_join(receiver, NULL);
    shared->agreement = client->agreement;
    shared->in_flight = client->ledger.count;
    pthread_cond_destroy(&client->credit);
    pthread_mutex_destroy(&client->lock);
    free(client);
    close(socket);
}

/* ---- Both ---- */

static void too_long(int signal_number)
{
    static const char text[] = "both_sides: no end after 60 seconds\n";
    (void)signal_number;
    _exit(write(STDERR_FILENO, text, sizeof text - 1) < 0 ? 2 : 1);
}

static void print_sums(const struct eos_agreement *agreement, const uint64_t *sums)
{
    printf("agreed to server %" PRIu32 " to client %" PRIu32 "\n", agreement->client_to_server,
           agreement->server_to_client);
    printf("calls %" PRIu64 " refused with %d %" PRIu64 " with %d %" PRIu64 " in flight %" PRIu32 "\n", sums[FRAMES],
           EOS_OTHER_VERSION, sums[OTHER_VERSION], EOS_CHUNK_OVERLAPS, sums[PAST_BASE], shared->in_flight);
    printf("messages %" PRIu64 " segments pulled %" PRIu64 " bytes compared %" PRIu64 "\n", sums[MESSAGES],
           sums[SEGMENTS], sums[BYTES]);
    printf("returned in write chunks %" PRIu64 " in reply chunks %" PRIu64 " inline %" PRIu64 "\n", sums[IN_WRITES],
           sums[IN_REPLY], sums[INLINE]);
}

int main(void)
{
    struct eos_agreement agreement;
    uint64_t sums[SUMS] = {0};
    int sockets[2], status;
    shared = mmap(NULL, sizeof *shared, PROT_READ | PROT_WRITE, MAP_SHARED | MAP_ANONYMOUS, -1, 0);
    need(shared != MAP_FAILED, "mmap");
    need(socketpair(AF_UNIX, SOCK_SEQPACKET, 0, sockets) == 0, "socketpair");
    /* Before there are threads: a child has none of them but the one that forks. */
    pid_t child = fork();
    need(child >= 0, "fork");
    signal(SIGALRM, too_long);
    alarm(60);
    if (child == 0) {
        close(sockets[0]);
        run_client(sockets[1]);
        return 0;
    }
    close(sockets[1]);
    run_server(sockets[0], &agreement, sums);
    need(waitpid(child, &status, 0) == child && status == 0, "the client did not end well");
    need(memcmp(&agreement, &shared->agreement, sizeof agreement) == 0, "the sides work with different agreements");
    need(memcmp(sums, shared->sums, sizeof sums) == 0, "the sides have different sums");
    print_sums(&agreement, sums);
    return 0;
}
