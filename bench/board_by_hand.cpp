// Prints what a call on a board takes, in nanoseconds of the wall, beside one on a board written by hand: a mutex, an
// auction of the library, a vector for its history and a sequence lock for what is shown. Both do the same commands on
// a book of 1,000 orders, by 1, 2, 4 and 8 threads at once, by calls that wait at a mutex and by calls that try and
// come again. Both take turns, so that what else runs on the machine meets both. `bench/bench board_by_hand` runs it.
#include <callauction.hpp>

#include <array>
#include <atomic>
#include <chrono>
#include <cstdio>
#include <cstdlib>
#include <cstring>

namespace {

constexpr int standing = 1000, calls = 40000, rounds = 5;
constexpr std::array<int, 4> thread_counts{1, 2, 4, 8};
constexpr callauction_config config{1, 1000, 500, 4096, 65536, 0, 0, 0, 0};

void want(bool holds) {
    if (!holds) std::exit(1);
}

callauction_command order(bool is_bid, std::uint32_t tick) {
    callauction_command made{};
    made.tag = CALLAUCTION_COMMAND_ENTER;
    made.side = is_bid ? CALLAUCTION_SIDE_BID : CALLAUCTION_SIDE_ASK;
    made.quantity = 100;
    made.has_limit = 1;
    made.limit = tick;
    return made;
}

// In turn an order somewhere on the ladder, a question, a change of that order, and its deletion.
callauction_command command_of(std::uint32_t k, std::uint32_t id) {
    auto made = order(k % 8 < 4, 1 + k * 7919 % 1000);
    if (k % 4 == 1) made.tag = CALLAUCTION_COMMAND_INDICATE;
    if (k % 4 == 2) made.tag = CALLAUCTION_COMMAND_CHANGE, made.quantity = 50;
    if (k % 4 == 3) made.tag = CALLAUCTION_COMMAND_DELETE;
    made.id = id;
    return made;
}

// What readers see without a lock: they read again where the count was odd, or changed meanwhile.
class SequenceLock {
public:
    void write(const callauction_shown &shown) {
        std::array<std::uint64_t, words> parts{};
        std::memcpy(parts.data(), &shown, sizeof shown);
        const auto count = count_.load(std::memory_order_relaxed);
        count_.store(count + 1, std::memory_order_relaxed);
        std::atomic_thread_fence(std::memory_order_release);
        for (std::size_t i = 0; i < words; i++) parts_[i].store(parts[i], std::memory_order_relaxed);
        count_.store(count + 2, std::memory_order_release);
    }

    callauction_shown read() const {
        std::array<std::uint64_t, words> parts{};
        for (;;) {
            const auto count = count_.load(std::memory_order_acquire);
            for (std::size_t i = 0; i < words; i++) parts[i] = parts_[i].load(std::memory_order_relaxed);
            std::atomic_thread_fence(std::memory_order_acquire);
            if (count % 2 == 0 && count == count_.load(std::memory_order_relaxed)) break;
        }
        callauction_shown shown;
        std::memcpy(&shown, parts.data(), sizeof shown);
        return shown;
    }

private:
    static constexpr std::size_t words = sizeof(callauction_shown) / sizeof(std::uint64_t);
    std::atomic<std::uint64_t> count_{0};
    std::array<std::atomic<std::uint64_t>, words> parts_{};
};

class HandWritten {
public:
    explicit HandWritten(int) {
        want(callauction_open(&auction_, &config) == CALLAUCTION_DONE);
        history_.reserve(config.max_calls);
    }
    HandWritten(const HandWritten &) = delete;
    HandWritten &operator=(const HandWritten &) = delete;
    ~HandWritten() { callauction_close(&auction_); }

    callauction_receipt call(int member, callauction_command command, bool waits) {
        command.member = static_cast<std::uint8_t>(member);
        std::unique_lock<std::mutex> held(mutex_, std::defer_lock);
        if (waits) held.lock();
        while (!held.owns_lock() && !tries(held)) std::this_thread::yield();
        callauction_receipt receipt{};
        want(callauction_apply(&auction_, &command, &receipt.reply) == CALLAUCTION_DONE);
        history_.push_back({command, receipt.reply});
        receipt.number = static_cast<std::uint32_t>(history_.size());
        callauction_shown shown{};
        want(callauction_display(&auction_, &shown.display) == CALLAUCTION_DONE);
        shown.calls = receipt.number;
        shown_.write(shown);
        return receipt;
    }

    std::uint32_t calls_shown() const { return shown_.read().calls; }

private:
    static bool tries(std::unique_lock<std::mutex> &held) {
        for (int i = 0; i < 1000; i++)
            if (held.try_lock()) return true;
        return false;
    }

    callauction_handle auction_{};
    std::vector<callauction_entry> history_;
    SequenceLock shown_;
    std::mutex mutex_;
};

class Ours {
public:
    explicit Ours(int members) : handles_(static_cast<std::size_t>(members)) {
        callauction_shown shown;
        want(callauction_board_open(handles_.data(), handles_.size(), &config) == CALLAUCTION_DONE);
        want(callauction_board_look(&handles_[0], &shown) == CALLAUCTION_DONE); // so that calls show what is so
    }
    Ours(const Ours &) = delete;
    Ours &operator=(const Ours &) = delete;
    ~Ours() {
        for (auto &each : handles_) callauction_board_leave(&each);
    }

    callauction_receipt call(int member, const callauction_command &command, bool waits) {
        auto &own = handles_[static_cast<std::size_t>(member)];
        callauction_receipt receipt{};
        for (;;) {
            std::unique_lock<std::mutex> held(mutex_, std::defer_lock);
            if (waits) held.lock();
            const auto answer = callauction_board_call(&own, &command, &receipt);
            if (answer == CALLAUCTION_DONE) return receipt;
            want(answer == CALLAUCTION_ERROR_BUSY);
            std::this_thread::yield();
        }
    }

    std::uint32_t calls_shown() {
        callauction_shown shown;
        want(callauction_board_look(&handles_[0], &shown) == CALLAUCTION_DONE);
        return shown.calls;
    }

private:
    std::vector<callauction_member> handles_;
    std::mutex mutex_;
};

template <typename Board> void call_all(Board &board, int member, int count, bool waits) {
    std::uint32_t id = 0;
    for (int k = 0; k < count; k++) {
        const auto reply = board.call(member, command_of(static_cast<std::uint32_t>(k), id), waits).reply;
        want(reply.tag != CALLAUCTION_REPLY_REFUSED);
        if (reply.tag == CALLAUCTION_REPLY_ENTERED) id = reply.id;
    }
}

// Nanoseconds a call of so many threads at once.
template <typename Board> double measured(int threads, bool waits) {
    Board board(threads);
    for (std::uint32_t tick = 1; tick <= standing; tick++) board.call(0, order(tick < 500, tick), waits);
    std::vector<std::thread> running;
    const auto begin = std::chrono::steady_clock::now();
    for (int member = 0; member < threads; member++)
        running.emplace_back([&board, member, threads, waits] { call_all(board, member, calls / threads, waits); });
    for (auto &each : running) each.join();
    const std::chrono::duration<double, std::nano> taken = std::chrono::steady_clock::now() - begin;
    want(board.calls_shown() == standing + calls);
    return taken.count() / calls;
}

} // namespace

int main() {
    for (int round = 0; round < rounds; round++)
        for (const bool waits : {true, false})
            for (const int threads : thread_counts) {
                const char *way = waits ? "waiting" : "trying";
                std::printf("%s-%d-by-hand %.1f\n", way, threads, measured<HandWritten>(threads, waits));
                std::printf("%s-%d %.1f\n", way, threads, measured<Ours>(threads, waits));
            }
}
