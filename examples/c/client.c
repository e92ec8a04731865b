/*
 * A client's call and the replies to it. The ledger gives the call its xid, and says when there is credit for another. The
 * header that is sent offers memory: write chunks for data, and a reply chunk in case the RPC reply is too long to come
 * inline. The reply's header says how much of each the server filled.
 */
#include <eoswynnor.h>
#include <inttypes.h>
#include <stdio.h>

/* A write chunk of two segments, one of a single segment, and a reply chunk. */
static struct eos_header offer(uint32_t xid)
{
    struct eos_header h = {0};
    h.kind = EOS_MSG;
    h.xid = xid;
    h.credit = 32;
    h.write_chunks = 2;
    h.write_counts[0] = 2;
    h.write_counts[1] = 1;
    h.writes[0] = (struct eos_segment){7, 4096, 0x10000};
    h.writes[1] = (struct eos_segment){7, 4096, 0x20000};
    h.writes[2] = (struct eos_segment){8, 512, 0x30000};
    h.reply_present = 1;
    h.reply_count = 1;
    h.reply[0] = (struct eos_segment){9, 1024, 0x40000};
    return h;
}

/* Stands for the server: a real reply comes from the network. The server names the segments as it got them, each with the
 * bytes that it put there. It is NOMSG, because the RPC reply lies in the reply chunk. Answers the frame's length, or 0. */
static size_t serve(const uint8_t *call, size_t call_len, uint32_t first, uint32_t second, uint8_t *frame, size_t room)
{
    struct eos_header h;
    size_t length;
    if (eos_read_header(call, call_len, &h) != EOS_DONE)
        return 0;
    h.kind = EOS_NOMSG;
    h.writes[0].length = first;
    h.writes[1].length = second;
    h.writes[2].length = 12;
    h.reply[0].length = 200;
    return eos_write_header(&h, frame, room, &length) == EOS_DONE ? length : 0;
}

/* What the client does with a reply. With any number but 0 it must not use what lies in the chunks. The call is answered
 * all the same, and the reply's credit word is the new grant: the ledger says whether such a call is in flight. */
static void receive(const char *name, struct eos_ledger *ledger, const struct eos_header *sent, const uint8_t *frame,
                    size_t frame_len)
{
    struct eos_header reply;
    struct eos_landed landed;
    uint32_t number = eos_read_header(frame, frame_len, &reply);
    if (number != EOS_DONE) {
        printf("%s %" PRIu32 "\n", name, number);
        return;
    }
    number = eos_returned(sent, &reply, &landed);
    printf("%s %" PRIu32, name, number);
    if (number == EOS_DONE) {
        for (uint32_t i = 0; i < sent->write_chunks; i++)
            printf(" write %" PRIu64, landed.writes[i]);
        printf(" reply %" PRIu64, landed.reply);
    }
    printf(" ledger %" PRIu32 "\n", eos_ledger_reply(ledger, reply.xid, reply.credit));
}

int main(void)
{
    struct eos_ledger ledger;
    if (eos_ledger_open(0x29, &ledger) != EOS_DONE)
        return 1;
    struct eos_send_answer first = eos_ledger_send(&ledger);
    if (first.number != EOS_DONE)
        return 1;
    /* Kept until the reply is there: the reply is compared with it. */
    const struct eos_header sent = offer(first.xid);
    uint8_t call[EOS_MAX_HEADER], frame[EOS_MAX_HEADER];
    size_t length;
    if (eos_write_header(&sent, call, sizeof call, &length) != EOS_DONE)
        return 1;
    /* The RPC call goes right behind the header; here it is left out. */
    printf("call %" PRIu32 " of %zu bytes\n", first.xid, length);
    /* One credit until a reply grants more. */
    printf("another %" PRIu32 "\n", eos_ledger_send(&ledger).number);

    receive("filled", &ledger, &sent, frame, serve(call, length, 4096, 100, frame, sizeof frame));
    /* Bytes in the second segment though the first is not full: no server that fills from the front says so. And the call
     * has its reply: it is not in flight any more. */
    receive("gap", &ledger, &sent, frame, serve(call, length, 4095, 100, frame, sizeof frame));

    struct eos_send_answer next = eos_ledger_send(&ledger);
    /* How many xids were passed over tells how long the search took: none, since no call is in flight. */
    printf("another %" PRIu32 " call %" PRIu32 " passed %" PRIu32 "\n", next.number, next.xid, next.passed);
    return 0;
}
