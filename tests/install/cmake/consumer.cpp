// A program of a user of the installed library. Each consumer of this folder prints the same.
#include <eoswynnor.h>

#include <array>
#include <cstdint>
#include <iomanip>
#include <iostream>
#include <limits>
#include <vector>

static void print_text(std::uint32_t number)
{
    std::cout << number << ' ' << eos_text(number) << '\n';
}

int main()
{
    const std::array<std::uint8_t, 12> inline_bytes{1, 2, 3, 4, 5, 6, 7, 8, 9, 10, 11, 12};
    const std::array<std::uint8_t, 5> pulled{0xa1, 0xa2, 0xa3, 0xa4, 0xa5};

    std::cout << "version " << EOS_VERSION_MAJOR << '.' << EOS_VERSION_MINOR << '.' << EOS_VERSION_PATCH << '\n';
    // Worked example C6.
    eos_header h{};
    h.kind = EOS_MSG;
    h.xid = 42;
    h.credit = 32;
    h.read_count = 1;
    h.reads[0].position = 8;
    h.reads[0].target.length = pulled.size();
    std::vector<std::uint8_t> frame(EOS_MAX_HEADER), out(64);
    std::size_t length = 0;
    if (eos_write_header(&h, frame.data(), frame.size(), &length) != EOS_DONE)
        return 1;
    frame.resize(length);
    frame.insert(frame.end(), inline_bytes.begin(), inline_bytes.end());

    eos_state state;
    if (eos_start(frame.data(), frame.size(), out.data(), out.size(), &state) != EOS_DONE ||
        eos_take_piece(&state, pulled.data(), pulled.size(), out.data(), out.size()).number != EOS_DONE ||
        eos_message(&state, out.data(), out.size(), &length) != EOS_DONE)
        return 1;
    out.resize(length);
    std::cout << "message " << std::hex << std::setfill('0');
    for (unsigned byte : out)
        std::cout << std::setw(2) << byte;
    std::cout << std::dec << '\n';
    // Every number, some that are none, and the largest.
    for (std::uint32_t n = 0; n < 40; n++)
        print_text(n);
    print_text(std::numeric_limits<std::uint32_t>::max());
}
