// Eight members of a board, each on a thread of its own, and a thread that looks at what is shown.
//
//     library/build /tmp/callauction
//     export PKG_CONFIG_PATH=/tmp/callauction LD_LIBRARY_PATH=/tmp/callauction
//     c++ -std=c++17 examples/board.cpp $(pkg-config --cflags --libs callauction) -pthread -o /tmp/board && /tmp/board
//
// prints examples/board.txt, in whatever order the threads ran.
#include <callauction.hpp>

#include <atomic>
#include <cstdio>
#include <cstdlib>
#include <cstring>
#include <thread>
#include <vector>

namespace ca = callauction;

namespace {

constexpr std::size_t members = 8;
constexpr int calls_of_a_member = 5000;
const ca::Config config{1, 1000, 500, 65536, 65536, {}};

// Ends the program where a call has an error: this one makes none.
template <typename T> T want(ca::Result<T> result, const char *call) {
    if (result) return *std::move(result);
    std::fprintf(stderr, "%s: %s\n", call, ca::text(result.error()));
    std::exit(1);
}

// A trader of its own dice, who enters orders near 500 and changes or deletes the last one.
class Trader {
public:
    explicit Trader(std::uint64_t seed) : state_(seed) {}

    ca::Command next() {
        const auto roll = drawn(10);
        const std::int64_t quantity = 10 * (1 + drawn(50)), limit = 490 + drawn(21);
        if (last_ != 0 && roll >= 8) return ca::Delete{last_};
        if (last_ != 0 && roll >= 6) return ca::Change{last_, quantity, limit};
        return ca::Enter{drawn(2) == 0 ? ca::Side::bid : ca::Side::ask, quantity, limit};
    }

    void read(const ca::Reply &reply) {
        if (const auto *entered = std::get_if<ca::Entered>(&reply)) last_ = entered->id;
        if (std::holds_alternative<ca::Deleted>(reply)) last_ = 0;
    }

private:
    std::uint32_t drawn(std::uint32_t below) {
        state_ = state_ * 6364136223846793005u + 1442695040888963407u;
        return static_cast<std::uint32_t>(state_ >> 33) % below;
    }

    std::uint64_t state_;
    std::uint32_t last_ = 0; // the id of its last order, 0 where it has none
};

void trade(ca::Member member, std::uint64_t seed) {
    Trader trader(seed);
    for (int i = 0; i < calls_of_a_member; i++) trader.read(want(member.call_waiting(trader.next()), "call").reply);
}

// Looks until `is_over`: whether the calls that it saw never became fewer.
bool watch(ca::Member member, const std::atomic<bool> &is_over) {
    std::uint32_t seen = 0;
    while (!is_over) {
        const auto shown = want(member.look(), "look");
        if (shown.calls < seen) return false;
        seen = shown.calls;
        std::this_thread::yield();
    }
    return want(member.look(), "look").calls == members * calls_of_a_member;
}

// How many entries of a history have the reply of one auction of one thread to which its commands are applied.
std::size_t lawful(const std::vector<callauction_entry> &entries) {
    auto auction = want(ca::Auction::open(config), "open");
    std::size_t same = 0;
    for (const auto &entry : entries) {
        callauction_reply reply;
        const auto [applied, error] = auction.apply_many({&entry.command, 1}, {&reply, 1});
        if (applied == 1 && !error && std::memcmp(&reply, &entry.reply, sizeof reply) == 0) same++;
    }
    return same;
}

} // namespace

int main() {
    auto board = want(ca::Board::open(members + 1, config), "open");
    std::atomic<bool> is_over{false};
    bool never_back = false;
    std::thread watcher([&] { never_back = watch(board.member(members), is_over); });
    std::vector<std::thread> threads;
    for (std::size_t number = 0; number < members; number++)
        threads.emplace_back(trade, board.member(number), 2026 + number);
    for (auto &thread : threads) thread.join();
    is_over = true;
    watcher.join();

    const auto closing = want(board.close(), "close");
    std::printf("%zu members made %zu calls\n", members, closing.entries.size());
    for (std::size_t number = 0; number < members; number++)
        if (closing.counts[number] != calls_of_a_member)
            std::printf("member %zu: %u\n", number, closing.counts[number]);
    std::printf("%zu replies are those of one auction\n", lawful(closing.entries));
    std::printf("what was shown %s\n", never_back ? "never went back, and has all calls at the end" : "went back");
    return 0;
}
