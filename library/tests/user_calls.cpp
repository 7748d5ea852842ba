// Calls of a user whose commands and replies are there or not, which is compiled alone: of this code g++ 12 says that
// what isn't there is read, where callauction.hpp doesn't see to it.
#include <callauction.hpp>

#include <deque>
#include <functional>
#include <future>

namespace ca = callauction;

std::optional<ca::Command> next(int n);
std::deque<ca::Command> queue(int n);
ca::Command pick(bool which, ca::Whole shares, std::optional<ca::Whole> limit);
ca::Result<ca::Reply> sent(ca::Auction &auction, int n);
std::optional<ca::Reply> maybe(ca::Auction &auction, int n);
std::vector<std::optional<ca::Reply>> many(ca::Auction &auction);
std::future<ca::Result<ca::Receipt>> later(ca::Member member, int n);
ca::Result<ca::Receipt> both(ca::Board &board);
std::optional<ca::NoPrice> none(ca::Member &member);
std::pair<std::optional<std::uint32_t>, std::optional<std::uint32_t>> best(ca::Member &member);
ca::Uncrossed last(ca::Member &member);
double turnover(ca::Member &member);
ca::Config day(std::optional<ca::Whole> range);
ca::Result<ca::Board> opened(int members, int range);
std::optional<ca::Board> owned(int members);

std::optional<ca::Command> next(int n) {
    if (n % 3 == 0) return ca::Enter{ca::Side::bid, n};
    if (n % 3 == 1) return ca::Change{n, 4};
    return std::nullopt;
}

std::deque<ca::Command> queue(int n) {
    std::deque<ca::Command> found;
    for (int i = 0; i < n; i++)
        if (auto command = next(i)) found.push_back(*command);
    return found;
}

ca::Command pick(bool which, ca::Whole shares, std::optional<ca::Whole> limit) {
    return which ? ca::Command(ca::Enter{ca::Side::ask, shares, limit}) : ca::Command(ca::Change{1, shares, limit});
}

ca::Result<ca::Reply> sent(ca::Auction &auction, int n) {
    auto command = next(n);
    if (!command) return ca::Error::no_command;
    return auction.apply(1, *command);
}

std::optional<ca::Reply> maybe(ca::Auction &auction, int n) {
    auto reply = sent(auction, n);
    if (reply) return *reply;
    return std::nullopt;
}

std::vector<std::optional<ca::Reply>> many(ca::Auction &auction) {
    std::vector<std::optional<ca::Reply>> found;
    for (int i = 0; i < 9; i++) found.push_back(maybe(auction, i));
    return found;
}

std::future<ca::Result<ca::Receipt>> later(ca::Member member, int n) {
    return std::async(std::launch::async, [member, n]() mutable {
        return member.call_waiting(pick(n > 1, n, n > 2 ? std::optional<ca::Whole>(n) : std::nullopt));
    });
}

ca::Result<ca::Receipt> both(ca::Board &board) {
    auto one = later(board.member(1), 2), other = later(board.member(2), 3);
    auto receipt = one.get();
    if (!receipt) return receipt;
    return other.get();
}

std::optional<ca::NoPrice> none(ca::Member &member) {
    auto shown = member.look();
    if (!shown) return {};
    if (auto *found = std::get_if<ca::NoPrice>(&shown->display)) return *found;
    return {};
}

std::pair<std::optional<std::uint32_t>, std::optional<std::uint32_t>> best(ca::Member &member) {
    if (auto found = none(member)) return {found->best_bid, found->best_ask};
    return {};
}

ca::Uncrossed last(ca::Member &member) {
    ca::Uncrossed found{};
    if (auto receipt = member.call(ca::Uncross{}))
        if (auto *uncrossed = std::get_if<ca::Uncrossed>(&receipt->reply)) found = *uncrossed;
    return found;
}

double turnover(ca::Member &member) {
    auto found = last(member);
    return found.price ? double(found.price->tick) * double(found.price->volume) : 0.0;
}

ca::Config day(std::optional<ca::Whole> range) {
    ca::Config config{1, 1000, 200};
    config.range = range;
    return config;
}

ca::Result<ca::Board> opened(int members, int range) {
    return ca::Board::open(members, day(range > 0 ? std::optional<ca::Whole>(range) : std::nullopt));
}

std::optional<ca::Board> owned(int members) {
    auto board = opened(members, 4);
    if (!board) return std::nullopt;
    return *std::move(board);
}
