/*
 * The size of each struct and the place of each field as C sees them, which is as rust/src/ffi.rs and the library have
 * them, and which structs are handed back by value. To compile it is the test.
 */
#include <eoswynnor.h>

#define SIZE(type, size) _Static_assert(sizeof(struct type) == (size), "size of " #type)
#define AT(type, field, place) _Static_assert(offsetof(struct type, field) == (place), #type "." #field)
#define BY_VALUE(type, call) _Static_assert(_Generic((call), struct type: 1, default: 0), #type " from " #call)

SIZE(eos_segment, 16);
AT(eos_segment, handle, 0);
AT(eos_segment, length, 4);
AT(eos_segment, offset, 8);

SIZE(eos_read_segment, 24);
AT(eos_read_segment, position, 0);
AT(eos_read_segment, reserved, 4);
AT(eos_read_segment, target, 8);

SIZE(eos_header, 952);
AT(eos_header, reads, 0);
AT(eos_header, writes, 384);
AT(eos_header, reply, 640);
AT(eos_header, write_counts, 896);
AT(eos_header, read_count, 912);
AT(eos_header, write_chunks, 916);
AT(eos_header, reply_present, 920);
AT(eos_header, reply_count, 924);
AT(eos_header, kind, 928);
AT(eos_header, low, 932);
AT(eos_header, high, 936);
AT(eos_header, xid, 940);
AT(eos_header, credit, 944);
AT(eos_header, reserved, 948);

SIZE(eos_part, 16);
AT(eos_part, offset, 0);
AT(eos_part, length, 8);
BY_VALUE(eos_part, eos_payload(0, 0));

SIZE(eos_setup, 12);
AT(eos_setup, remote_invalidation, 0);
AT(eos_setup, send, 4);
AT(eos_setup, receive, 8);

SIZE(eos_agreement, 12);
AT(eos_agreement, client_to_server, 0);
AT(eos_agreement, server_to_client, 4);
AT(eos_agreement, remote_invalidation, 8);

SIZE(eos_state, 416);
AT(eos_state, reads, 0);
AT(eos_state, base, 384);
AT(eos_state, buffer, 392);
AT(eos_state, taken, 400);
AT(eos_state, read_count, 408);
AT(eos_state, kind, 412);

SIZE(eos_piece_answer, 8);
AT(eos_piece_answer, number, 0);
AT(eos_piece_answer, goes, 4);
BY_VALUE(eos_piece_answer, eos_take_piece(0, 0, 0, 0, 0));

SIZE(eos_landed, 40);
AT(eos_landed, writes, 0);
AT(eos_landed, reply, 32);

SIZE(eos_ledger, 140);
AT(eos_ledger, xids, 0);
AT(eos_ledger, count, 128);
AT(eos_ledger, grant, 132);
AT(eos_ledger, last, 136);

SIZE(eos_send_answer, 12);
AT(eos_send_answer, number, 0);
AT(eos_send_answer, xid, 4);
AT(eos_send_answer, passed, 8);
BY_VALUE(eos_send_answer, eos_ledger_send(0));
