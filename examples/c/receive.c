/*
 * The whole way of a call through the library, as a server goes it: setup data at connect time, then for each frame the
 * header, the pulled bytes in pieces, the message, or the error reply. The frames are worked examples C3 and C6 to C9, and
 * two calls whose read list is not sorted on the wire.
 */
#include <eoswynnor.h>
#include <inttypes.h>
#include <stdio.h>
#include <string.h>

enum { CREDIT_LIMIT = 32, PIECE = 6 };

/* The client's memory by handle, as its segments name it. */
static const uint8_t client_memory[][12] = {
    {1, 2, 3, 4, 5, 6, 7, 8, 9, 10, 11, 12}, {0xa1, 0xa2, 0xa3, 0xa4, 0xa5}, {0xb1, 0xb2, 0xb3, 0xb4}};

static void print_bytes(const char *what, const uint8_t *bytes, size_t length)
{
    printf(" %s %zu ", what, length);
    for (size_t i = 0; i < length; i++)
        printf("%02x", bytes[i]);
    printf("\n");
}

/* ---- The server ---- */

/* Stands for an RDMA Read of a part of a segment that the client registered. */
static void rdma_read(struct eos_segment from, size_t done, uint8_t *into, size_t length)
{
    memcpy(into, client_memory[from.handle] + from.offset + done, length);
}

/* Reassembles a call in out. Answers 0 and how long the message is, or the number of the refusal. Prints of each piece its
 * length, where it was pulled from and how many goes it took. */
static uint32_t receive(const char *name, const uint8_t *frame, size_t frame_len, uint8_t *out, size_t out_len,
                        size_t *message_len)
{
    struct eos_state s;
    uint32_t number = eos_start(frame, frame_len, out, out_len, &s);
    if (number != EOS_DONE)
        return number;
    /* In the order of the state's list, which is sorted; the list in the header may not be. */
    for (uint32_t i = 0; i < s.read_count; i++) {
        struct eos_segment from = s.reads[i].target;
        for (size_t done = 0; done < from.length;) {
            uint8_t piece[PIECE];
            size_t length = from.length - done < PIECE ? from.length - done : PIECE;
            rdma_read(from, done, piece, length);
            struct eos_piece_answer answer = eos_take_piece(&s, piece, length, out, out_len);
            if (answer.number != EOS_DONE)
                return answer.number;
            printf("%s piece %zu of handle %" PRIu32 " goes %" PRIu32 "\n", name, length, from.handle, answer.goes);
            done += length;
        }
    }
    return eos_message(&s, out, out_len, message_len);
}

/* Serves one frame: hands the message to the RPC layer, or sends the error reply. Here both are printed. */
static void serve(const char *name, const uint8_t *frame, size_t frame_len)
{
    static uint8_t out[EOS_MAX_MESSAGE];
    size_t length;
    uint32_t number = receive(name, frame, frame_len, out, sizeof out, &length);

    printf("%s %" PRIu32, name, number);
    if (number == EOS_DONE) {
        print_bytes("message", out, length);
    } else {
        uint8_t reply[EOS_MAX_REPLY];
        if (eos_error_reply(frame, frame_len, number, CREDIT_LIMIT, reply, sizeof reply, &length) == EOS_DONE)
            print_bytes("reply", reply, length);
    }
}

static void print_header(const char *name, const uint8_t *frame, size_t frame_len)
{
    struct eos_header h = {0};
    uint32_t number = eos_read_header(frame, frame_len, &h);
    struct eos_part payload = eos_payload(frame, frame_len);

    printf("%s header %" PRIu32 " kind %" PRIu32 " xid %" PRIx32 " credit %" PRIu32, name, number, h.kind, h.xid,
           h.credit);
    for (uint32_t i = 0; i < h.read_count; i++)
        printf(" read %" PRIu32 " of handle %" PRIu32 " at %" PRIu32, h.reads[i].target.length,
               h.reads[i].target.handle, h.reads[i].position);
    print_bytes("payload", frame + payload.offset, payload.length);
}

/* At connect time: the client's setup data as it came, and ours. */
static void connect_with(const uint8_t *private_data, size_t length)
{
    struct eos_setup ours = {1, 4096, 2048}, theirs;
    struct eos_agreement a = {0, 0, 0};
    uint32_t present;
    eos_read_setup(private_data, length, &theirs, &present);
    uint32_t number = eos_agree(&theirs, &ours, &a);

    printf("setup %" PRIu32 " R %" PRIu32 " send %" PRIu32 " receive %" PRIu32 "\n", present, theirs.remote_invalidation,
           theirs.send, theirs.receive);
    printf("agreed %" PRIu32 " to server %" PRIu32 " to client %" PRIu32 " R %" PRIu32 "\n", number, a.client_to_server,
           a.server_to_client, a.remote_invalidation);
}

/* ---- The client's frames ---- */

static struct eos_read_segment at(uint32_t position, uint32_t handle, uint32_t length, uint64_t offset)
{
    struct eos_read_segment r = {position, 0, {handle, length, offset}};
    return r;
}

/* Writes a call with these read segments and this much inline; answers the frame's length. */
static size_t call(uint32_t kind, const struct eos_read_segment *reads, uint32_t count, size_t inline_len,
                   uint8_t *frame, size_t room)
{
    struct eos_header h = {0};
    h.kind = kind;
    h.xid = 0x2a;
    h.credit = 0x20;
    h.read_count = count;
    memcpy(h.reads, reads, count * sizeof *reads);

    size_t length;
    if (eos_write_header(&h, frame, room, &length) != EOS_DONE || inline_len > room - length)
        return 0;
    memcpy(frame + length, client_memory[0], inline_len);
    return length + inline_len;
}

int main(void)
{
    static const uint8_t c10[] = {0xf6, 0xab, 0x0e, 0x18, 1, 1, 3, 7};
    static const char *const c7[] = {"C7 at 12", "C7 at 16", "C7 at 20", "C7 at 24"};
    const struct eos_read_segment c6[] = {at(8, 1, 5, 0)};
    const struct eos_read_segment c8[] = {at(0, 0, 12, 0), at(8, 1, 5, 0)};
    const struct eos_read_segment c9[] = {at(8, 1, 2, 0), at(8, 1, 3, 2)};
    /* C9's chunk with another chunk between its segments; C8 with its base last. */
    const struct eos_read_segment unsorted[] = {at(8, 1, 2, 0), at(16, 2, 4, 0), at(8, 1, 3, 2)};
    const struct eos_read_segment base_last[] = {at(8, 1, 5, 0), at(0, 0, 12, 0)};
    uint8_t frame[EOS_MAX_HEADER + 12];
    size_t length;

    connect_with(c10, sizeof c10);
    connect_with(c10, sizeof c10 - 1);

    length = call(EOS_MSG, c6, 1, 12, frame, sizeof frame);
    print_header("C6", frame, length);
    serve("C6", frame, length);
    for (uint32_t i = 0; i < 4; i++) {
        const struct eos_read_segment two[] = {at(8, 1, 5, 0), at(12 + 4 * i, 2, 4, 0)};
        serve(c7[i], frame, call(EOS_MSG, two, 2, 12, frame, sizeof frame));
    }
    serve("C8", frame, call(EOS_NOMSG, c8, 2, 0, frame, sizeof frame));
    serve("C9", frame, call(EOS_MSG, c9, 2, 12, frame, sizeof frame));
    length = call(EOS_MSG, unsorted, 3, 12, frame, sizeof frame);
    print_header("unsorted", frame, length);
    serve("unsorted", frame, length);
    serve("base last", frame, call(EOS_NOMSG, base_last, 2, 0, frame, sizeof frame));

    length = call(EOS_MSG, c6, 0, 0, frame, sizeof frame);
    frame[7] = 2;
    serve("C3", frame, length);

    uint32_t few, many;
    if (eos_grant(0, CREDIT_LIMIT, &few) != EOS_DONE || eos_grant(100, CREDIT_LIMIT, &many) != EOS_DONE)
        return 1;
    printf("grant %" PRIu32 " %" PRIu32 "\n", few, many);
    return 0;
}
