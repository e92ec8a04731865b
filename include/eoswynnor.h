/* SPDX-License-Identifier: Apache-2.0 */
/*
 * Eoswynnor: proved calls for RPC over RDMA version 1 (RFC 8166) with the connection setup data of RFC 8797. For a server:
 * the receiver of calls. For a client: a ledger of the calls in flight, and what a reply says was put into the chunks that
 * were sent.
 *
 * C99 and C++, x86-64 System V alone. Link with -leoswynnor; the library needs memcpy, memmove and memset, keeps
 * nothing between calls, takes no memory and may be called from any thread, and from a signal handler. No call waits, takes
 * a lock or unwinds. INTEGRATING.md has the stack that each call uses, and what else an integrator asks.
 *
 * What a caller has to keep to:
 * - A buffer is lent for the call alone, as pointer and length. The pointer is valid for that many bytes, aligned or not. For
 *   length 0 it may be null, or any other: nothing is read or written through it. A length is at most PTRDIFF_MAX.
 * - A struct or number is lent by pointer: never null, and aligned as C has it.
 * - What a call may change (out, a struct or number to be stored) overlaps nothing else that is lent to the same call, and
 *   nobody else writes what is lent meanwhile. Things that are only read may be the same.
 * - The state of a reassembly is handed on: each call gets it as the last one left it, and the same buffer, with nothing
 *   in it changed. Another length of the buffer is refused; other contents cannot be noticed.
 * - So is a ledger: each call gets it as the last one left it. What holds of a ledger since it was opened holds of such a one.
 *
 * For the rest any bytes, header, state, ledger and number may be handed in. A call answers a number, 0 when done, and stores
 * what it makes where the caller says. Three hand back a struct in place of the number: eos_take_piece and eos_ledger_send
 * with the number in it, eos_payload, which never refuses, with none. A refused call changes nothing that was lent: no byte,
 * no struct, no number.
 * No struct has holes. A reserved word is zero in what a call makes and ignored in what it is given.
 *
 * The way of a call, for a server:
 *
 *     struct eos_state state;
 *     size_t length;
 *     uint32_t number = eos_start(frame, frame_len, out, out_len, &state);
 *     if (number != EOS_DONE) refuse: eos_error_reply(frame, frame_len, number, limit, reply, EOS_MAX_REPLY, &length);
 *     for each piece pulled, in the order of state.reads, which need not be the order on the wire:
 *         if (eos_take_piece(&state, piece, piece_len, out, out_len).number != EOS_DONE) it was more than is still to be
 *             pulled (EOS_PIECE_LONG), or the state or the buffer's length was changed; nothing is, so another may come
 *     if (eos_message(&state, out, out_len, &length) == EOS_DONE)
 *         the message is the first length bytes of out
 *
 * What the reply needs of the call, its xid, its credit word and the chunks that it offers, is in the header that
 * eos_read_header() stores for the same frame.
 *
 * A read list may come in any order of position. Read segments with the same position are one chunk, wherever they stand in
 * the list: their bytes joined in wire order, then zeros up to a multiple of 4. The base is the inline payload of MSG, or
 * the chunk at position 0 of NOMSG. A position counts in the finished message, with the chunks before it and their padding;
 * the base fills the places that the chunks leave.
 *
 * The way of a reply, for a client:
 *
 *     struct eos_ledger ledger;
 *     struct eos_header reply;
 *     struct eos_landed landed;
 *     eos_ledger_open(last, &ledger), once: last is the xid before the first one to be given
 *     struct eos_send_answer call = eos_ledger_send(&ledger): with EOS_CREDIT_SPENT wait for a reply; else sent.xid = call.xid
 *     number = eos_write_header(&sent, frame, frame_len, &length): send the frame, and keep sent as it is
 *     number = eos_read_header(reply_frame, reply_frame_len, &reply): with an ERROR kind the server refused the call; with
 *         EOS_OTHER_VERSION it may be a version error to a call of that version: its first word is the xid, its third the grant
 *     if (eos_ledger_reply(&ledger, reply.xid, reply.credit) != EOS_DONE) it answers no call in flight, or grants nothing
 *     if (eos_returned(&sent, &reply, &landed) == EOS_DONE)
 *         landed tells how many bytes the reply says are in each write chunk and in the reply chunk
 *
 * A client with several calls under way finds the header that it kept by the xid of the reply. Chunks are filled from the
 * front: the bytes landed are the first ones of a chunk, its segments joined.
 */
#ifndef EOSWYNNOR_H
#define EOSWYNNOR_H

#include <stddef.h>
#include <stdint.h>

#if !defined(__x86_64__) || defined(__ILP32__) || defined(_WIN32)
#error "libeoswynnor.a is built for x86-64 System V"
#endif

#ifdef __cplusplus
extern "C" {
#endif

/* The version of this header and of the library that was built with it. While it begins with 0, a call or a struct may
 * change with the second number, and the shared library's name with it; never with the third. */
#define EOS_VERSION_MAJOR 0
#define EOS_VERSION_MINOR 2
#define EOS_VERSION_PATCH 0
#define EOS_VERSION "0.2.0"

/* Limits. */
#define EOS_MAX_READ_SEGMENTS 16  /* in the read list */
#define EOS_MAX_WRITE_CHUNKS 4    /* in the write list */
#define EOS_MAX_WRITE_SEGMENTS 16 /* in all write chunks together */
#define EOS_MAX_REPLY_SEGMENTS 16 /* in the reply chunk */
#define EOS_MAX_MESSAGE 1048576   /* bytes of a reassembled message: room that always suffices */
#define EOS_MAX_GOES 31           /* of one piece */
#define EOS_MAX_HEADER 960        /* bytes of the longest header: room that always suffices */
#define EOS_MAX_REPLY 28          /* bytes of an error reply: room that always suffices */
#define EOS_MAX_IN_FLIGHT 32      /* calls of a ledger */
#define EOS_MAX_PASSED 31         /* xids that one send passes over */
#define EOS_SETUP_BYTES 8         /* bytes of setup data */
#define EOS_MIN_SIZE 1024         /* of a send or receive size, which is a multiple of 1,024 */
#define EOS_MAX_SIZE 262144

/* The answer numbers. Where more than one text holds, the first check that fails gives its number: each call makes the
 * checks that are named with it in the order in which they are named. eos_text() has the words of each, up to the
 * semicolon where there is one. 22 is not in use. */
enum eos_number {
    EOS_DONE = 0,                /* done */
    EOS_SHORT_FRAME = 1,         /* frame under 16 bytes */
    EOS_OTHER_VERSION = 2,       /* version is not 1 */
    EOS_OTHER_PROCEDURE = 3,     /* procedure is 2 or above 4 */
    EOS_DONE_RECEIVED = 4,       /* procedure is 3 */
    EOS_ENDS_INSIDE_FIELD = 5,   /* frame ends inside a field that must be there */
    EOS_BAD_MARKER = 6,          /* a marker word above 1 */
    EOS_OVER_LIMIT = 7,          /* an entry or count that goes over a limit; in writing and in eos_returned also
                                    segments in a reply chunk that is not present */
    EOS_POSITION_FALLS = 8,      /* reserved: never given */
    EOS_POSITION_UNALIGNED = 9,  /* a read position that is no multiple of 4 */
    EOS_OTHER_ERROR_CODE = 10,   /* error code neither 1 nor 2 */
    EOS_BYTES_BEHIND = 11,       /* bytes behind a NOMSG or ERROR header */
    EOS_KIND_AND_LISTS = 12,     /* kind and lists do not fit; at a start an ERROR header, MSG with a segment at position 0
                                    or NOMSG with none there, in writing an ERROR header with an entry or reply chunk */
    EOS_BASE_UNALIGNED = 13,     /* base length no multiple of 4; with chunks or without */
    EOS_CHUNK_OVERLAPS = 14,     /* a chunk's position overlaps or lies past the base; inside the padded chunk before it, or
                                    behind the base and all padded chunks before it together, where before is by position */
    EOS_MESSAGE_LONG = 15,       /* message above 1,048,576 bytes */
    EOS_BUFFER_SHORT = 16,       /* output buffer too short */
    EOS_STATE_UNFIT = 17,        /* state or ledger not one that can arise, or another buffer length than at the start;
                                    of a ledger: more than 32 calls in flight, one xid twice among them, or grant 0 */
    EOS_PIECE_LONG = 18,         /* piece longer than what is still to be pulled */
    EOS_BYTES_MISSING = 19,      /* message asked for before all bytes are in */
    EOS_BAD_ARGUMENT = 20,       /* bad argument: credit limit 0, a size out of rule, an answer number above 21; a kind or
                                    flag that does not exist, in a header or in setup data */
    EOS_HEADER_LONG = 21,        /* reserved: never given */
    EOS_CREDIT_SPENT = 23,       /* the calls in flight reach or pass the grant or 32 */
    EOS_XID_UNKNOWN = 24,        /* a reply's xid is not in flight */
    EOS_GRANT_ZERO = 25,         /* a reply's grant is 0 */
    EOS_REPLY_MISMATCH = 26      /* a reply that cannot answer the header that was sent; the conditions are listed with
                                    eos_returned */
};

/* The words of an answer number, for a log; "no answer number" for one that is none. Never null, and never to be freed. */
static inline const char *eos_text(uint32_t number)
{
    switch (number) {
    case EOS_DONE: return "done";
    case EOS_SHORT_FRAME: return "frame under 16 bytes";
    case EOS_OTHER_VERSION: return "version is not 1";
    case EOS_OTHER_PROCEDURE: return "procedure is 2 or above 4";
    case EOS_DONE_RECEIVED: return "procedure is 3";
    case EOS_ENDS_INSIDE_FIELD: return "frame ends inside a field that must be there";
    case EOS_BAD_MARKER: return "a marker word above 1";
    case EOS_OVER_LIMIT: return "an entry or count that goes over a limit";
    case EOS_POSITION_FALLS: return "reserved: never given";
    case EOS_POSITION_UNALIGNED: return "a read position that is no multiple of 4";
    case EOS_OTHER_ERROR_CODE: return "error code neither 1 nor 2";
    case EOS_BYTES_BEHIND: return "bytes behind a NOMSG or ERROR header";
    case EOS_KIND_AND_LISTS: return "kind and lists do not fit";
    case EOS_BASE_UNALIGNED: return "base length no multiple of 4";
    case EOS_CHUNK_OVERLAPS: return "a chunk's position overlaps or lies past the base";
    case EOS_MESSAGE_LONG: return "message above 1,048,576 bytes";
    case EOS_BUFFER_SHORT: return "output buffer too short";
    case EOS_STATE_UNFIT: return "state or ledger not one that can arise, or another buffer length than at the start";
    case EOS_PIECE_LONG: return "piece longer than what is still to be pulled";
    case EOS_BYTES_MISSING: return "message asked for before all bytes are in";
    case EOS_BAD_ARGUMENT: return "bad argument: credit limit 0, a size out of rule, an answer number above 21";
    case EOS_HEADER_LONG: return "reserved: never given";
    case EOS_CREDIT_SPENT: return "the calls in flight reach or pass the grant or 32";
    case EOS_XID_UNKNOWN: return "a reply's xid is not in flight";
    case EOS_GRANT_ZERO: return "a reply's grant is 0";
    case EOS_REPLY_MISMATCH: return "a reply that cannot answer the header that was sent";
    default: return "no answer number";
    }
}

/* Kinds of a header; a state has one of the first two. */
enum eos_kind {
    EOS_MSG = 0,
    EOS_NOMSG = 1,
    EOS_ERROR_VERSION = 2,       /* with low and high */
    EOS_ERROR_CHUNK = 3
};

/* Memory that one side registered for the other. */
struct eos_segment {
    uint32_t handle;
    uint32_t length;
    uint64_t offset;
};

/* A segment to be pulled, and where in the message its bytes go. */
struct eos_read_segment {
    uint32_t position;
    uint32_t reserved;
    struct eos_segment target;
};

/* A transport header. Its lists are in wire order, the read list in any order of position. Places behind a count are
 * unused: zero in a header that was read, ignored in one to be written or compared. */
struct eos_header {
    struct eos_read_segment reads[EOS_MAX_READ_SEGMENTS];
    struct eos_segment writes[EOS_MAX_WRITE_SEGMENTS]; /* of all write chunks, one behind the other */
    struct eos_segment reply[EOS_MAX_REPLY_SEGMENTS];
    uint32_t write_counts[EOS_MAX_WRITE_CHUNKS];       /* segments of each write chunk */
    uint32_t read_count;
    uint32_t write_chunks;
    uint32_t reply_present;                        /* 0 or 1 */
    uint32_t reply_count;
    uint32_t kind;                                 /* enum eos_kind */
    uint32_t low;                                  /* low and high of EOS_ERROR_VERSION; else 0 in a header that was
                                                      read, ignored in one to be written or compared */
    uint32_t high;
    uint32_t xid;
    uint32_t credit;
    uint32_t reserved;
};

/* A part of a lent buffer; an empty one is 0, 0. */
struct eos_part {
    size_t offset;
    size_t length;
};

/* The setup data of one side. Sizes are numbers of bytes. */
struct eos_setup {
    uint32_t remote_invalidation; /* 0 or 1 */
    uint32_t send;
    uint32_t receive;
};

struct eos_agreement {
    uint32_t client_to_server;    /* inline threshold of this direction, in bytes */
    uint32_t server_to_client;
    uint32_t remote_invalidation; /* 0 or 1 */
};

/* The state of a reassembly. Pull reads[0] to reads[read_count - 1], in this order and not in that of a header that was
 * read: target.length bytes of each and no padding. What is still to be pulled is the sum of these lengths less taken.
 * Leave the fields alone: a list that is not sorted gets 17. */
struct eos_state {
    struct eos_read_segment reads[EOS_MAX_READ_SEGMENTS]; /* sorted by position, segments of one position in wire order */
    size_t base;                  /* bytes of the inline payload, or of the segments at position 0 */
    size_t buffer;                /* length of the buffer at the start */
    size_t taken;                 /* bytes taken so far */
    uint32_t read_count;
    uint32_t kind;                /* EOS_MSG or EOS_NOMSG */
};

/* What a piece is answered with. Bytes of a piece that are of one segment and have no gap between their places in the
 * message are a run, which is placed in one go. A chunk makes a gap in the base unless it is empty; bytes of two segments
 * are two runs even where they stand side by side. */
struct eos_piece_answer {
    uint32_t number;
    uint32_t goes;                /* the fewest runs that make the piece up, at most EOS_MAX_GOES; 0 for an empty or a
                                     refused piece */
};

/* How many bytes a reply says were put into each chunk that was sent. */
struct eos_landed {
    uint64_t writes[EOS_MAX_WRITE_CHUNKS]; /* 0 behind the last write chunk */
    uint64_t reply;                        /* 0 where no reply chunk came back */
};

/* The calls in flight of one connection. Leave the fields alone. */
struct eos_ledger {
    uint32_t xids[EOS_MAX_IN_FLIGHT]; /* of the calls in flight, in sending order; places behind them are ignored, and zero
                                         after an accepted call */
    uint32_t count;                   /* how many calls are in flight */
    uint32_t grant;                   /* how many there may be */
    uint32_t last;                    /* the last xid given */
};

/* What a send is answered with. */
struct eos_send_answer {
    uint32_t number;
    uint32_t xid;                 /* of the call; 0 if it is refused, and an xid like any other if it is not */
    uint32_t passed;              /* how many xids were passed over: the length of the unbroken run of xids in flight right
                                     behind the last one given before this send; at most as many as were in flight, so at
                                     most EOS_MAX_PASSED; 0 if it is refused */
};

/* Reads the header of a frame, its lists as they stand. Numbers 1 to 4, then 5, 6, 7, 9, 10 from left to right, then 11. */
uint32_t eos_read_header(const uint8_t *frame, size_t frame_len, struct eos_header *header);

/* Where the inline payload of a frame lies; empty where eos_read_header refuses. */
struct eos_part eos_payload(const uint8_t *frame, size_t frame_len);

/* Writes a header, its lists as they stand, to the front of a buffer and stores how many bytes it has; an inline payload is
 * the caller's to put right behind it. As with every writer, the bytes behind are kept. A header of zeros is MSG with empty
 * lists. Numbers 20, 12, 7, then entry by entry 9, then 16. */
uint32_t eos_write_header(const struct eos_header *header, uint8_t *out, size_t out_len, size_t *length);

/* Reads setup data from the first 8 bytes, and whether there is any (present is 1). Where there is none, with under 8 bytes,
 * another identifier or another version, present is 0, the flag 0 and both sizes are 1,024. Always number 0. */
uint32_t eos_read_setup(const uint8_t *bytes, size_t bytes_len, struct eos_setup *setup, uint32_t *present);

/* Writes the 8 bytes of setup data to the front of a buffer. Numbers 20, 16. */
uint32_t eos_write_setup(const struct eos_setup *setup, uint8_t *out, size_t out_len, size_t *length);

/* The inline threshold of each direction, the smaller of the sender's send size and the receiver's receive size, and whether
 * remote invalidation may be used, which needs the flag of both. Number 20. */
uint32_t eos_agree(const struct eos_setup *client, const struct eos_setup *server, struct eos_agreement *agreement);

/* The credits to grant to one who asks for so many in the credit word of its header: the smaller of asked and limit, but at
 * least 1. Number 20. */
uint32_t eos_grant(uint32_t asked, uint32_t limit, uint32_t *credit);

/* Writes the reply to a frame that was answered with a number, which is the caller's to hand in as it was given: 2 gets
 * a version error (28 bytes), 3, 5 to 9 and 11 to 15 a chunk error (20 bytes), the others up to 21 none, those of
 * eos_take_piece and eos_message among them. A frame under 16 bytes or with procedure 4 (ERROR), of whatever version,
 * gets none. Where there is none the number is 0 and the length 0: send nothing. The reply carries the frame's xid and
 * the grant for its credit word under limit, our credit limit. A version error has the frame's own version word,
 * whatever it is, by which its sender matches it, and low and high 1; eos_read_header() gives 2 for it unless that word
 * is 1. A chunk error has version 1. Numbers 20 (limit 0, or a number above 21, 23 to 26 too), then 16. */
uint32_t eos_error_reply(const uint8_t *frame, size_t frame_len, uint32_t number, uint32_t limit, uint8_t *out,
                         size_t out_len, size_t *length);

/* Starts the reassembly of a call: reads the frame, sorts its read list, writes its inline bytes and all padding to
 * their places in the buffer, and stores the state. The message has as many bytes as the inline payload and the
 * segments at position 0 together, and for each other position the bytes of its segments, rounded up together to a
 * multiple of 4; the buffer may be longer, and EOS_MAX_MESSAGE bytes always suffice. Places of bytes still to be pulled
 * and bytes behind the message keep what they held. The reassembly does not need the frame again. Numbers as for
 * eos_read_header, then 12 to 16. */
uint32_t eos_start(const uint8_t *frame, size_t frame_len, uint8_t *out, size_t out_len, struct eos_state *state);

/* Takes the next pulled bytes, cut as they come: the bytes of the state's reads[0], then those of reads[1] and so on; an
 * empty piece at any time. Of the state, which is changed where it lies, only taken changes. Answers the number, and how
 * many goes the piece took. Numbers 17, 18. */
struct eos_piece_answer eos_take_piece(struct eos_state *state, const uint8_t *piece, size_t piece_len, uint8_t *out,
                                       size_t out_len);

/* Asks for the message, once all bytes are in: it is the first length bytes of the buffer. Numbers 17, 19. */
uint32_t eos_message(const struct eos_state *state, const uint8_t *out, size_t out_len, size_t *length);

/* Compares the header that was sent with the reply's header, and stores how many bytes landed in each chunk. Both headers
 * are only read and may be the same. Credits, unused places, reserved words and what the sent read segments say are
 * ignored. Number 20 for a kind or flag of either header that does not exist; then 7 for either header, ERROR or not; then
 * 26, which is given where
 * - the xids differ;
 * - the reply has read segments;
 * - either header is an ERROR;
 * - the numbers of write chunks differ, or the numbers of segments in one, or in a reply chunk that both have;
 * - a handle or an offset differs;
 * - a length is above the one that was sent;
 * - a segment is not empty though one before it in its chunk is not full;
 * - a NOMSG reply lacks the reply chunk;
 * - a reply chunk comes back that was not sent, or, in MSG, with any length other than 0.
 * In MSG the reply chunk may be missing. An ERROR reply gets 26 too: look at its kind first. After a refusal nothing that
 * lies in the chunks may be used. */
uint32_t eos_returned(const struct eos_header *sent, const struct eos_header *reply, struct eos_landed *landed);

/* Opens a ledger: no call in flight, grant 1, and last as the last xid given. What it held is not looked at. Always number
 * 0. */
uint32_t eos_ledger_open(uint32_t last, struct eos_ledger *ledger);

/* Sends a call: gives it the next xid, which joins those in flight at their end and is the last one given from then on. It
 * is one more than the last one, 0 behind the largest, and xids in flight are passed over. Answers the number, the xid, and
 * how many were passed over: the search for it stepped on that many times. Numbers 17, 23. */
struct eos_send_answer eos_ledger_send(struct eos_ledger *ledger);

/* Takes a reply, which names an xid and a grant: the call is in flight no longer, those behind it close the gap in order,
 * and the grant is set, above 32 too. A lower grant takes no call back: sends are refused until enough replies have come.
 * Numbers 17, 25, 24. */
uint32_t eos_ledger_reply(struct eos_ledger *ledger, uint32_t xid, uint32_t grant);

#ifdef __cplusplus
}
#endif

#endif
