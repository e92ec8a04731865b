/* random_setup [ROUNDS [SEED]]: setup data and agreements, on random bytes, flags and sizes. */
#include "random.h"

static uint32_t some_size(void)
{
    return below(8) ? 1024 * (1 + below(256)) : edge();
}

static void one_round(void)
{
    static const uint8_t front[] = {0xf6, 0xab, 0x0e, 0x18, 1};
    struct lent bytes = lend(below(12)), out = lend(below(12));
    struct lent was = copy_of(out.bytes, out.length);
    if (below(4))
        memcpy(bytes.bytes, front, smaller(bytes.length, sizeof front));
    struct eos_setup theirs, back, ours = {below(8) ? below(2) : edge(), some_size(), some_size()};
    uint32_t present;
    uint8_t *data = remember(bytes.bytes, bytes.length);
    answered(eos_read_setup(bytes.bytes, bytes.length, &theirs, &present), BIT(EOS_DONE));
    unchanged(bytes.bytes, bytes.length, data);
    CHECK(present <= (bytes.length >= EOS_SETUP_BYTES));

    struct eos_agreement a, before;
    noise(&a, sizeof a);
    before = a;
    uint8_t *client = remember(&theirs, sizeof theirs), *server = remember(&ours, sizeof ours);
    uint32_t agreed = eos_agree(&theirs, &ours, &a);
    unchanged(&theirs, sizeof theirs, client);
    unchanged(&ours, sizeof ours, server);
    answered(agreed, ARGUMENT_NUMBERS);
    if (agreed == EOS_DONE)
        CHECK(a.client_to_server <= theirs.send && a.server_to_client <= theirs.receive);
    else
        CHECK(memcmp(&a, &before, sizeof a) == 0);
    size_t lent_length = (size_t)any(), length = lent_length;
    uint8_t *setup = remember(&ours, sizeof ours);
    uint32_t written = eos_write_setup(&ours, out.bytes, out.length, &length);
    unchanged(&ours, sizeof ours, setup);
    length = stored(written, ROOM_NUMBERS, lent_length, length);
    CHECK((agreed == EOS_BAD_ARGUMENT) == (written == EOS_BAD_ARGUMENT));
    CHECK(length == (written == EOS_DONE ? EOS_SETUP_BYTES : 0) && same_behind(out, was, length));
    if (written == EOS_DONE) {
        CHECK(eos_read_setup(out.bytes, out.length, &back, &present) == EOS_DONE && present == 1);
        CHECK(memcmp(&back, &ours, sizeof ours) == 0);
    }
    give_back(was);
    give_back(out);
    give_back(bytes);
}

int main(int argc, char **argv)
{
    return make_rounds(argc, argv, "setup", one_round, ROOM_NUMBERS);
}
