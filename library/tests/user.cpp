// A program of a user, which is compiled with the warnings that users have: callauction.hpp has none in it.
#include <callauction.hpp>

#include <cstdio>
#include <map>

namespace ca = callauction;

namespace {

struct Quote {
    bool buys;
    std::int64_t shares;
    std::optional<std::int64_t> limit, peak;
};

ca::Command command_of(const Quote &quote, std::uint32_t last) {
    if (quote.shares == 0) return ca::Delete{last};
    if (quote.shares < 0) return ca::Change{last, -quote.shares, 200};
    ca::Enter order{quote.buys ? ca::Side::bid : ca::Side::ask, quote.shares};
    if (quote.limit) order.limit = *quote.limit;
    if (quote.peak) order.peak = *quote.peak;
    return order;
}

std::optional<ca::Price> price_of(const ca::Result<ca::Reply> &result) {
    if (!result) return std::nullopt;
    if (const auto *price = std::get_if<ca::Price>(&*result)) return *price;
    return std::nullopt;
}

struct Agent {
    ca::Member member;
    std::map<std::uint32_t, ca::Reply> said;
    std::optional<ca::OpenOrder> open;

    std::uint32_t trade(const std::vector<Quote> &quotes) {
        std::uint32_t last = 0;
        for (const auto &quote : quotes) {
            auto receipt = member.call_waiting(command_of(quote, last));
            if (!receipt) continue;
            if (const auto *entered = std::get_if<ca::Entered>(&receipt->reply)) last = entered->id;
            said.emplace(receipt->number, std::move(receipt->reply));
        }
        if (const auto status = member.call(ca::OrderStatus{last}))
            if (const auto *order = std::get_if<ca::OpenOrder>(&status->reply)) open = *order;
        return open && open->limit ? *open->limit : 0;
    }
};

std::optional<std::uint32_t> middle(ca::Member member) {
    const auto shown = member.waiting([&] { return member.look(); });
    if (!shown) return std::nullopt;
    if (const auto *price = std::get_if<ca::Price>(&shown->display)) return price->tick;
    const auto none = std::get<ca::NoPrice>(shown->display);
    if (none.best_bid && none.best_ask) return (*none.best_bid + *none.best_ask) / 2;
    return std::nullopt;
}

int next_day(const ca::CarriedOver &left, const ca::Config &config) {
    auto auction = ca::Auction::open(config).value();
    const auto entered = auction.enter(left);
    for (const auto &lost : ca::not_entered(left, entered.first)) std::puts(ca::text(lost.refusal));
    const auto price = price_of(auction.apply(1, ca::Indicate{}));
    const auto done = auction.uncross_orders();
    if (!done) return 1;
    const auto *uncrossed = std::get_if<ca::Uncrossed>(&done->reply);
    return price && uncrossed && uncrossed->price && uncrossed->price->tick == price->tick ? 0 : 1;
}

} // namespace

int main(int count, char **words) {
    ca::Config config;
    if (count > 1) config.range = count;
    auto board = ca::Board::open(3, config).value();
    const auto cents = ca::Ticks::by("0.01").value();
    const auto tick = cents.of(count > 2 ? words[2] : "2.00");
    Agent agent{board.member(1), {}, {}};
    agent.trade({{true, 30, tick ? std::optional<std::int64_t>(*tick) : std::nullopt, {}}, {false, 20, {}, {}}});
    std::printf("%u %s\n", middle(agent.member).value_or(0), cents.price(200).value().c_str());
    const auto state = agent.member.state();
    if (!state || state->auction != ca::AuctionKind::opening) return 1;
    const auto left = board.member(0).auction().value().carried_over().value();
    const auto closing = board.close();
    if (!closing) return 1;
    auto resumed = ca::Auction::resumed(ca::journal(config, *closing).value());
    if (!resumed || resumed->first_unlawful) return 1;
    config.reference = left.reference;
    return next_day(left, config);
}
