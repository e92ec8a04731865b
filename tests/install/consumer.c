/* A program of a user of the installed library. Each consumer of this folder prints the same. */
#include <eoswynnor.h>
#include <inttypes.h>
#include <stdio.h>

static void print_text(uint32_t number)
{
    printf("%" PRIu32 " %s\n", number, eos_text(number));
}

int main(void)
{
    static const uint8_t inline_bytes[12] = {1, 2, 3, 4, 5, 6, 7, 8, 9, 10, 11, 12};
    static const uint8_t pulled[5] = {0xa1, 0xa2, 0xa3, 0xa4, 0xa5};
    struct eos_header h = {0};
    struct eos_state state;
    uint8_t frame[EOS_MAX_HEADER + sizeof inline_bytes], out[64];
    size_t length;

    printf("version %s\n", EOS_VERSION);
    /* Worked example C6. */
    h.kind = EOS_MSG;
    h.xid = 42;
    h.credit = 32;
    h.read_count = 1;
    h.reads[0].position = 8;
    h.reads[0].target.length = sizeof pulled;
    uint32_t number = eos_write_header(&h, frame, EOS_MAX_HEADER, &length);
    for (size_t i = 0; i < sizeof inline_bytes; i++)
        frame[length + i] = inline_bytes[i];
    if (number == EOS_DONE)
        number = eos_start(frame, length + sizeof inline_bytes, out, sizeof out, &state);
    if (number == EOS_DONE)
        number = eos_take_piece(&state, pulled, sizeof pulled, out, sizeof out).number;
    if (number == EOS_DONE)
        number = eos_message(&state, out, sizeof out, &length);
    if (number != EOS_DONE)
        return 1;
    printf("message ");
    for (size_t i = 0; i < length; i++)
        printf("%02x", out[i]);
    printf("\n");
    /* Every number, some that are none, and the largest. */
    for (uint32_t n = 0; n < 40; n++)
        print_text(n);
    print_text(UINT32_MAX);
    return 0;
}
