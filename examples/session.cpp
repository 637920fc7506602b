// The session of session.c in C++17: two ends that own what they lend, and packets that are vectors.
//
//     tests/archive
//     c++ -std=c++17 -Iinclude examples/session.cpp target/staticlib/libtaqwelim.a -o target/session_cpp
#include "taqwelim.h"

#include <array>
#include <cstdint>
#include <iostream>
#include <stdexcept>
#include <vector>

using packet = std::vector<std::uint8_t>;
template <std::size_t size> using bytes = std::array<std::uint8_t, size>;
using frame = bytes<TAQWELIM_FRAME_SIZE>;

template <typename answer> answer accepted(answer given)
{
    return given.refusal == TAQWELIM_NOT_REFUSED ? given : throw std::runtime_error("a call was refused");
}

class near_end {
    bytes<TAQWELIM_QUEUE_SIZE> queue{};
    taqwelim_sender state = taqwelim_fresh_sender();
public:
    void put(const packet &given)
    {
        state = accepted(taqwelim_put(queue.data(), queue.size(), state, given.data(), given.size())).sender;
    }
    frame next_frame()
    {
        frame built;
        state = accepted(taqwelim_next_frame(TAQWELIM_TAPS_0_AND_3, TAQWELIM_FIELDS_WITHOUT_MESSAGE, state,
                                             queue.data(), queue.size(), built.data(), built.size())).sender;
        return built;
    }
    auto waiting() const { return accepted(taqwelim_waiting(queue.data(), queue.size(), state)); }
};

struct arrival {
    int refusal, repaired, missed;
    std::vector<packet> packets;
};

class far_end {
    bytes<TAQWELIM_AREA_SIZE> area{};
    bytes<TAQWELIM_HOLD_SIZE> hold{};
    bytes<TAQWELIM_LIST_MIN> list{};
    taqwelim_receiver state = taqwelim_fresh_receiver();
public:
    arrival receive(const frame &given)
    {
        const auto opened = taqwelim_open(TAQWELIM_TAPS_0_AND_3, given.data(), given.size(), area.data(), area.size());
        if (opened.refusal != TAQWELIM_NOT_REFUSED)
            return {opened.refusal, 0, 0, {}}; // the state stays as it was
        const auto applied = taqwelim_apply(opened.header, area.data(), area.size(), state, hold.data(), hold.size(),
                                            list.data(), list.size());
        const auto entry_at = [&](auto position) { return taqwelim_entry(list.data(), applied.listed, position); };
        arrival arrived{applied.refusal, opened.repaired, applied.missed, {}};
        for (auto entry = entry_at(0); entry.found; entry = entry_at(entry.next))
            arrived.packets.emplace_back(&list[entry.start], &list[entry.start] + entry.length);
        state = applied.receiver; // as it was, where what was opened is refused
        return arrived;
    }
};

int main()
{
    constexpr std::size_t lost = 2;
    constexpr std::array wrong{0, 8, 0, 0, 9, 0}; // bytes of one word that the beam damages: 8 are repaired
    const std::array given{packet(700, 'A'), packet(1500, 'B'), packet(2400, 'C'),
                           packet(900, 'D'), packet(300, 'E'), packet(4000, 'F')};
    near_end near;
    far_end far;
    for (std::size_t tick = 0; tick < given.size(); ++tick) {
        near.put(given[tick]);
        auto sent = near.next_frame();
        for (int i = 0; i < wrong[tick]; ++i)
            sent[sent.size() - 1 - 8 * i] ^= 1; // a word's bytes stand eight apart
        if (tick == lost) {
            std::cout << "frame " << tick << ": lost\n";
            continue;
        }
        const auto [refusal, repaired, missed, packets] = far.receive(sent);
        std::cout << "frame " << tick << ": refusal " << refusal << ", " << repaired << " bytes repaired, " << missed
                  << " missed before it\n";
        for (const auto &whole : packets)
            std::cout << "  packet " << whole.front() << " of " << whole.size() << " bytes\n";
    }
    const auto waiting = near.waiting();
    std::cout << "packets that wait: " << waiting.packets << ", with " << waiting.bytes << " bytes to send\n";
}
