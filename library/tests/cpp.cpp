// callauction.hpp: each reply by value, numbers that don't fit a field, owners that are moved, and a board.
#include <callauction.hpp>

#include <csignal>
#include <cstdio>
#include <cstdlib>
#include <limits>
#include <type_traits>

#include <sys/wait.h>
#include <unistd.h>

namespace ca = callauction;

#define WANT(holds)                                                              \
    do {                                                                         \
        if (!(holds)) {                                                          \
            std::fprintf(stderr, "%s:%d: not so: %s\n", __FILE__, __LINE__, #holds); \
            std::exit(1);                                                        \
        }                                                                        \
    } while (0)

static_assert(!std::is_copy_constructible_v<ca::Auction> && std::is_nothrow_move_constructible_v<ca::Auction>);
static_assert(!std::is_copy_constructible_v<ca::Board> && std::is_nothrow_move_constructible_v<ca::Board>);

namespace {

template <typename T> T reply(const ca::Result<ca::Reply> &result) {
    WANT(result.has_value());
    const auto *found = std::get_if<T>(&*result);
    WANT(found != nullptr);
    return *found;
}

ca::Auction opened(const ca::Config &config) {
    auto result = ca::Auction::open(config);
    WANT(result.has_value());
    return *std::move(result);
}

const ca::Config day{1, 1000, 500, 10, 100, 50};

void replies_are_values() {
    auto auction = opened(day);
    WANT(reply<ca::Entered>(auction.apply(1, ca::Enter{ca::Side::bid, 30, 510, 10})).id == 1);
    WANT(reply<ca::Entered>(auction.apply(2, ca::Enter{ca::Side::ask, 20, 505})).id == 2);
    WANT(reply<ca::Entered>(auction.apply(2, ca::Enter{ca::Side::ask, 5})).id == 3);
    WANT(reply<ca::Changed>(auction.apply(2, ca::Change{2, 15, 505})).kept);
    reply<ca::Deleted>(auction.apply(2, ca::Delete{3}));
    const auto order = reply<ca::OpenOrder>(auction.apply(1, ca::OrderStatus{1}));
    WANT(order.side == ca::Side::bid && order.quantity == 30 && order.visible == 10 && order.limit == 510u);
    const auto price = reply<ca::Price>(auction.apply(1, ca::Indicate{}));
    WANT(price.tick == 510 && price.volume == 15 && price.surplus == 15 && price.side == ca::Side::bid);
    WANT(reply<ca::Refusal>(auction.apply(1, ca::Uncross{})) == ca::Refusal::not_operator);
    const auto ended = reply<ca::Uncrossed>(auction.apply(0, ca::Uncross{}));
    WANT(ended.auction == ca::AuctionKind::opening && ended.price && ended.price->tick == 510 && ended.trades == 1);
    const auto traded = reply<ca::Traded>(auction.apply(1, ca::ReadTrade{1}));
    WANT(traded.bid == 1 && traded.ask == 2 && traded.quantity == 15 && traded.tick == 510);
    const auto none = reply<ca::NoPrice>(auction.apply(1, ca::Indicate{}));
    WANT(none.best_bid == 510u && !none.best_ask);
    WANT(reply<ca::Entered>(auction.apply(2, ca::Enter{ca::Side::ask, 15, 600})).id == 4);
    WANT(reply<ca::Entered>(auction.apply(1, ca::Enter{ca::Side::bid, 15, 600})).id == 5);
    WANT(reply<ca::Interrupted>(auction.apply(0, ca::Uncross{})).price.tick == 600);
    WANT(auction.trades()->size() == 1 && auction.trades(1)->empty());
    WANT(auction.ladder()->asks[599] == 15 && *auction.calls() == 14);
    WANT(auction.config()->range == 50);
    const auto state = auction.state();
    WANT(state && state->auction == ca::AuctionKind::intraday && state->extended && state->reference == 510);
    WANT(state->calls == 14 && state->calls_left == 86 && state->calls_left_to_members == 86);
    WANT(auction.config()->reserve == 0);
    const auto open = auction.orders();
    WANT(open && open->size() == 3 && (*open)[0].id == 5 && (*open)[1].id == 1 && (*open)[1].filled == 15);
    WANT(auction.orders(2)->at(0).id == 4 && auction.orders(7)->empty() && auction.expiring()->empty());
    WANT(auction.orders(256).error() == ca::Error::bad_member);
    WANT(auction.orders(-1).error() == ca::Error::bad_member);
}

void numbers_are_looked_at() {
    auto auction = opened(day);
    const auto over = static_cast<std::int64_t>(std::numeric_limits<std::uint32_t>::max()) + 1;
    for (const std::int64_t member : {std::int64_t{-1}, std::int64_t{256}})
        WANT(auction.apply(member, ca::Indicate{}).error() == ca::Error::bad_member);
    const auto fault = [&](const ca::Command &command) { return auction.apply(1, command).error(); };
    WANT(fault(ca::Enter{ca::Side::bid, -1, 500}) == ca::Error::bad_quantity);
    WANT(fault(ca::Change{1, -1, 500}) == ca::Error::bad_quantity);
    WANT(fault(ca::Enter{ca::Side::bid, 1, over}) == ca::Error::bad_limit);
    WANT(fault(ca::Change{1, 1, -1}) == ca::Error::bad_limit);
    WANT(fault(ca::Enter{ca::Side::bid, 1, 500, -1}) == ca::Error::bad_peak);
    WANT(fault(ca::Enter{ca::Side::none, 1, 500}) == ca::Error::no_command);
    for (const ca::Command &command : {ca::Command(ca::Delete{over}), ca::Command(ca::OrderStatus{-1}),
             ca::Command(ca::Change{over, 1}), ca::Command(ca::Delete{std::numeric_limits<std::uint64_t>::max()})})
        WANT(fault(command) == ca::Error::bad_id);
    WANT(fault(ca::ReadTrade{-1}) == ca::Error::bad_number && auction.trades(-1).error() == ca::Error::bad_number);
    WANT(std::string_view(ca::text(ca::Error::bad_limit)) == "the limit is below 0, or above 4,294,967,295");
    WANT(*auction.calls() == 0);
    const auto none = [](const ca::Config &config) {
        const auto error = ca::Auction::open(config).error();
        WANT(ca::Board::open(2, config).error() == error && ca::journal(config, 2, {nullptr, 0}).error() == error);
        return error;
    };
    WANT(none({-1, 10, 5, 1, 1}) == ca::Error::bad_bounds && none({1, over, 5, 1, 1}) == ca::Error::bad_bounds);
    WANT(none({1, 10, -5, 1, 1}) == ca::Error::bad_reference && none({1, 10, over, 1, 1}) == ca::Error::bad_reference);
    WANT(none({1, 10, 5, -1, 1}) == ca::Error::bad_capacity && none({1, 10, 5, 1, over}) == ca::Error::bad_capacity);
    WANT(none({1, 10, 5, 1, 1, -1}) == ca::Error::bad_range && none({1, 10, 5, 1, 1, over}) == ca::Error::bad_range);
    WANT(none({1, 10, 5, 1, 1, {}, -1}) == ca::Error::bad_reserve);
    WANT(none({1, 10, 5, 1, 1, {}, over}) == ca::Error::bad_reserve);
    WANT(ca::Auction::open({1, 10, 5, 1, 1, over - 1, over - 1}));
    WANT(ca::Auction::open({1, 10, 11, 1, 1, {}}).error() == ca::Error::bad_reference);
    WANT(ca::Auction::open({1, 10, 5, 1, 0, {}}).error() == ca::Error::bad_capacity);
}

void prices_in_money_are_ticks() {
    const auto cents = ca::Ticks::by("0.01").value();
    WANT(cents.of("42949672.95").value() == 4'294'967'295);
    WANT(cents.of("199.75").value() == 19975 && cents.of("7").value() == 700 && cents.of("1.150000").value() == 115);
    for (const char *price : {"199.755", "", ".", "1.", ".5", "-1", "1e2", "1,5", "1234567890", "0.0000000001",
             " 1", "1 ", "+1", "-0", "42949672.96"})
        WANT(cents.of(price).error() == ca::Error::no_price);
    WANT(cents.of("00000000019.95").value() == 1995 && cents.of("0").value() == 0 && cents.of("00").value() == 0);
    const auto eighths = ca::Ticks::by("0.125").value();
    WANT(eighths.of("100.375").value() == 803 && !eighths.of("100.3").has_value());
    for (const char *size : {"0", "0.0", "x", "", "-0.01", "0.0000000001", "1000000000", " 1", "+1"})
        WANT(ca::Ticks::by(size).error() == ca::Error::no_tick_size);
    WANT(ca::Ticks::by("0.000000001").value().of("4.294967295").value() == 4'294'967'295);
    WANT(ca::Ticks::by("999999999").value().of("999999999").value() == 1);
    auto auction = opened({1, 65000, 20000, 10, 100, {}});
    reply<ca::Entered>(auction.apply(1, ca::Enter{ca::Side::bid, 5, cents.of("199.75").value()}));
    WANT(auction.orders()->at(0).limit == 19975);
}

void ticks_are_prices_in_money() {
    const auto cents = ca::Ticks::by("0.01").value();
    WANT(cents.price(19975).value() == "199.75" && cents.price(200).value() == "2.00");
    WANT(cents.price(7).value() == "0.07" && cents.price(0).value() == "0.00");
    WANT(ca::Ticks::by("5").value().price(40).value() == "200");
    WANT(ca::Ticks::by("0.125").value().price(803).value() == "100.375");
    WANT(ca::Ticks::by("00.0500").value().price(3).value() == "0.15"); // as many decimals as the tick size needs
    const auto least = ca::Ticks::by("0.000000001").value();
    WANT(least.price(4'294'967'295).value() == "4.294967295");
    WANT(ca::Ticks::by("0.3").value().price(3'333'333'333).value() == "999999999.9");
    WANT(ca::Ticks::by("0.3").value().price(3'333'333'334).error() == ca::Error::no_tick);
    for (const auto &none : {least.price(4'294'967'296), cents.price(-1), cents.price(INT64_MAX)})
        WANT(none.error() == ca::Error::no_tick);
    WANT(ca::Ticks::by("999999999").value().price(2).error() == ca::Error::no_tick);
    for (const std::int64_t tick : {1, 99, 100, 123'456'789}) WANT(cents.of(cents.price(tick).value()).value() == tick);
}

void a_missing_value_throws() {
    try {
        static_cast<void>(ca::Ticks::by("0").value());
    } catch (const ca::BadResult &fault) {
        WANT(fault.error() == ca::Error::no_tick_size);
        WANT(std::string_view(fault.what()) == "a tick size is a decimal number above 0, with at most nine decimals");
        return;
    }
    WANT(false);
}

// What a call that ends the program by std::abort says on standard error; nothing where it ends none.
template <typename Call> std::string last_words(Call call) {
    int ends[2];
    WANT(pipe(ends) == 0);
    const pid_t child = fork();
    if (child == 0) {
        dup2(ends[1], 2);
        call();
        _exit(0);
    }
    close(ends[1]);
    char text[200];
    const auto count = read(ends[0], text, sizeof text);
    close(ends[0]);
    int status = 0;
    WANT(waitpid(child, &status, 0) == child && count >= 0);
    if (!WIFSIGNALED(status)) return {};
    WANT(WTERMSIG(status) == SIGABRT);
    return std::string(text, static_cast<std::size_t>(count));
}

void what_is_not_there_is_not_read() {
    const auto none = ca::Ticks::by("0");
    const auto cents = ca::Ticks::by("0.01");
    const std::string why = "callauction: a tick size is a decimal number above 0, with at most nine decimals\n";
    WANT(last_words([&] { static_cast<void>(*none); }) == why);
    WANT(last_words([&] { static_cast<void>(none->of("1")); }) == why);
    WANT(last_words([&] { static_cast<void>(*ca::Ticks::by("0")); }) == why);
    const std::string none_wrong = "callauction: the result has a value, and no error\n";
    WANT(last_words([&] { static_cast<void>(cents.error()); }) == none_wrong);
    WANT(last_words([&] { static_cast<void>(*cents); }).empty());
    static_assert(noexcept(none.has_value()) && noexcept(*none) && noexcept(none.error()) && !noexcept(none.value()));
}

// value() of a result that is kept is what it holds, which may be an owner; of one that isn't kept it is moved out.
void a_value_is_used_in_its_place() {
    auto result = ca::Auction::open(day);
    reply<ca::Entered>(result.value().apply(1, ca::Enter{ca::Side::bid, 1, 500}));
    WANT(*std::as_const(result).value().calls() == 1);
    static_assert(std::is_same_v<decltype(result.value()), ca::Auction &>);
    static_assert(std::is_same_v<decltype(std::as_const(result).value()), const ca::Auction &>);
    static_assert(std::is_same_v<decltype(std::move(result).value()), ca::Auction>);
    for (const auto &order : result.value().orders().value()) WANT(order.quantity == 1);
}

void owners_are_moved() {
    auto first = opened(day);
    reply<ca::Entered>(first.apply(1, ca::Enter{ca::Side::bid, 1, 500}));
    auto copy = first.clone();
    WANT(copy.has_value() && *copy->calls() == 1);
    auto second = std::move(first);
    WANT(first.calls().error() == ca::Error::no_auction); // NOLINT: a moved-from auction holds none
    WANT(second.reset().has_value() && *second.calls() == 0 && *copy->calls() == 1);
    second = *std::move(copy);
    WANT(*second.calls() == 1);
    auto third = opened(day);
    reply<ca::Entered>(third.apply(2, ca::Enter{ca::Side::ask, 1, 500}));
    WANT(second.copy_into(third).has_value() && third.orders()->at(0).side == CALLAUCTION_SIDE_BID);
    auto small = opened({1, 10, 5, 1, 1, {}});
    WANT(second.copy_into(small).error() == ca::Error::other_limits && *small.calls() == 0);
    WANT(second.copy_into(second).has_value() && *second.calls() == 1);
    WANT(first.copy_into(first).error() == ca::Error::no_auction);
}

bool is_outcome(const callauction_outcome &outcome, std::uint32_t id, std::uint64_t filled, std::uint64_t left) {
    return outcome.id == id && outcome.filled == filled && outcome.left == left;
}

void an_uncross_says_what_it_did() {
    auto auction = opened(day);
    reply<ca::Entered>(auction.apply(1, ca::Enter{ca::Side::bid, 30, 510}));
    reply<ca::Entered>(auction.apply(2, ca::Enter{ca::Side::ask, 20, 505}));
    reply<ca::Entered>(auction.apply(3, ca::Enter{ca::Side::ask, 9, 520, {}, ca::Restriction::opening_only}));
    const auto done = auction.uncross_orders();
    WANT(done && std::get<ca::Uncrossed>(done->reply).price->tick == 510 && done->orders.size() == 3);
    WANT(is_outcome(done->orders[0], 1, 20, 10) && is_outcome(done->orders[1], 2, 20, 0));
    WANT(is_outcome(done->orders[2], 3, 0, 9) && done->orders[2].expired == 1 && done->orders[0].expired == 0);
    WANT(auction.uncross_orders()->orders.empty() && *auction.calls() == 5);
}

// What is left of a day is entered into the next one in time order, and has the same priority there.
void a_day_is_carried_over() {
    auto auction = opened(day);
    for (int count = 0; count < 2; count++) // the orders 1 to 4
        for (const ca::Whole limit : {490, 480})
            reply<ca::Entered>(auction.apply(1, ca::Enter{ca::Side::bid, 50, limit, 20}));
    reply<ca::Entered>(auction.apply(2, ca::Enter{ca::Side::ask, 90, 490}));
    reply<ca::Entered>(auction.apply(2, ca::Enter{ca::Side::bid, 7}));
    reply<ca::Entered>(auction.apply(2, ca::Enter{ca::Side::bid, 7, 470, {}, ca::Restriction::closing_only}));
    WANT(!reply<ca::Changed>(auction.apply(1, ca::Change{2, 60, 480})).kept); // behind the order 4
    WANT(auction.uncross_orders()->orders.size() == 4);
    const auto left = auction.carried_over();
    WANT(left && left->reference == 490 && left->ids == (std::vector<std::uint32_t>{3, 4, 2}));
    WANT(left->commands[0].quantity == 17 && left->commands[0].peak == 17 && left->commands[0].has_peak == 1);
    auto next = opened({1, 1000, left->reference, 10, 100, 50});
    std::vector<callauction_reply> replies(left->commands.size());
    WANT(next.apply_many(left->commands, replies) == std::make_pair(std::size_t{3}, std::optional<ca::Error>{}));
    WANT(replies[2].id == 3 && next.orders()->at(0).quantity == 17 && next.orders()->at(1).quantity == 50);
    WANT(next.orders()->at(2).quantity == 60 && next.orders()->at(2).peak == 20 && next.state()->reference == 490);
}

// What several members left is entered into a board's day by the same members, in time order.
void a_board_takes_what_is_carried_over() {
    auto auction = opened(day);
    for (const int member : {1, 2, 2, 1, 0})
        reply<ca::Entered>(auction.apply(member, ca::Enter{ca::Side::bid, 10 + member, 490}));
    const auto left = auction.carried_over().value();
    auto board = ca::Board::open(3, {1, 1000, left.reference, 10, 100, 50});
    const auto entered = board->enter(left);
    WANT(!entered.second && entered.first.size() == 5);
    WANT(entered.first[4].number == 5 && entered.first[4].reply.id == 5);
    const auto orders = board->member(0).orders().value();
    for (std::size_t place = 0; place < 5; place++) {
        const std::uint8_t member = std::vector<std::uint8_t>{1, 2, 2, 1, 0}[place];
        WANT(orders[place].member == member && orders[place].quantity == 10u + member && orders[place].id == place + 1);
    }
    auto small = ca::Board::open(2, day);
    const auto refused = small->enter(left);
    WANT(refused.first.empty() && refused.second == ca::Error::bad_member && *small->member(1).calls() == 0);
    auto full = ca::Board::open(3, {1, 1000, 490, 10, 4, {}, 1});
    const auto begun = full->enter(left);
    WANT(begun.first.size() == 3 && begun.second == ca::Error::full && begun.first[2].reply.id == 3);
    auto moved = *std::move(board);
    WANT(board->enter(left).second == ca::Error::no_member); // NOLINT: a moved-from board holds none
    const auto closing = moved.close();
    WANT(closing->counts == (std::vector<std::uint32_t>{1, 2, 2}) && moved.enter(left).second == ca::Error::closed);
}

// What is left of a board that was closed, by its history: whose orders they were, their clients and their peaks.
void a_closed_day_is_carried_over() {
    const ca::Config wide{1, 1000, 500, 10, 100};
    auto board = ca::Board::open(3, wide).value();
    auto operating = board.member(0), one = board.member(1), two = board.member(2);
    WANT(one.call(ca::Enter{ca::Side::bid, 50, 490, 20, ca::Restriction::none, 77}));
    WANT(two.call(ca::Enter{ca::Side::bid, 40, 490, {}, ca::Restriction::none, 78}));
    WANT(two.call(ca::Enter{ca::Side::bid, 30, 490, 8, ca::Restriction::none, 79}));
    WANT(two.call(ca::Enter{ca::Side::bid, 7, 490, {}, ca::Restriction::closing_only}));
    WANT(one.call(ca::Change{1, 60, 490}) && operating.call(ca::Enter{ca::Side::ask, 75, 490}));
    for (int count = 0; count < 3; count++) WANT(operating.call(ca::Uncross{}));
    const auto closing = board.close().value();
    const auto left = ca::carried_over(wide, closing);
    WANT(left && left->reference == 490 && left->ids == (std::vector<std::uint32_t>{1}));
    const auto &order = left->commands.at(0);
    WANT(order.member == 1 && order.client == 77 && order.quantity == 55 && order.peak == 20 && order.limit == 490);
    const ca::Span<const callauction_entry> begun(closing.entries.data(), 3);
    const auto before = ca::carried_over(wide, begun);
    WANT(before && before->reference == 500 && before->ids == (std::vector<std::uint32_t>{1, 2, 3}));
    WANT(before->commands.at(2).client == 79 && before->commands.at(2).peak == 8 && before->commands[2].quantity == 30);
    auto next = ca::Board::open(2, {1, 1000, left->reference, 10, 100}).value();
    WANT(!next.enter(*left).second && next.member(0).orders()->at(0).client == 77);
    WANT(ca::carried_over({1, 1000, 1001}, closing).error() == ca::Error::bad_reference);
    WANT(ca::carried_over({1, 1000, 500, 10, 3}, closing).error() == ca::Error::full);
}

// What a new day refuses of what is carried over is an error, and named by its id of the day before.
void a_day_that_refuses_what_is_carried_over_says_so() {
    auto auction = opened(day);
    for (const ca::Whole limit : {490, 491, 600, 492})
        reply<ca::Entered>(auction.apply(1, ca::Enter{ca::Side::bid, 10, limit}));
    reply<ca::Deleted>(auction.apply(1, ca::Delete{2}));
    const auto left = auction.carried_over().value();
    auto next = opened({1, 599, 500, 1, 5});
    const auto entered = next.enter(left);
    WANT(entered.first.size() == 3 && entered.second == ca::Error::not_entered && next.orders()->size() == 1);
    const auto refused = ca::not_entered(left, entered.first);
    WANT(refused.size() == 2 && refused[0].place == 1 && refused[0].id == 3 && refused[1].id == 4);
    WANT(refused[0].refusal == ca::Refusal::bad_limit && refused[1].refusal == ca::Refusal::book_full);
    WANT(next.enter(left).first.size() == 2 && next.enter(left).second == ca::Error::full);
    auto wide = opened(day);
    const auto all = wide.enter(left);
    WANT(all.first.size() == 3 && !all.second && ca::not_entered(left, all.first).empty());
    WANT(wide.enter(left).first[0].id == 4 && wide.carried_over()->ids.size() == 6);
    auto board = ca::Board::open(2, {1, 1000, 500, 2, 100});
    const auto receipts = board->enter(left);
    WANT(receipts.first.size() == 3 && receipts.second == ca::Error::not_entered);
    const auto lost = ca::not_entered(left, receipts.first);
    WANT(lost.size() == 1 && lost[0].place == 2 && lost[0].id == 4 && lost[0].refusal == ca::Refusal::book_full);
    WANT(std::string_view(ca::text(ca::Error::not_entered)) == "the day refused an order that was carried over");
}

// A client is kept with its order and given back; a negative one fits no order.
void clients_are_given_back() {
    auto auction = opened(day);
    const auto most = std::numeric_limits<std::uint64_t>::max();
    reply<ca::Entered>(auction.apply(1, ca::Enter{ca::Side::bid, 30, 510, {}, ca::Restriction::none, most}));
    reply<ca::Entered>(auction.apply(2, ca::Enter{ca::Side::ask, 20, 505, {}, ca::Restriction::none, 7}));
    WANT(auction.apply(1, ca::Enter{ca::Side::bid, 30, 510, {}, ca::Restriction::none, -1}).error()
        == ca::Error::bad_client);
    WANT(auction.orders()->at(0).client == most && auction.orders()->at(1).client == 7);
    auto copy = auction.clone();
    WANT(copy && copy->orders()->at(0).client == most);
    const auto done = auction.uncross_orders();
    WANT(done && done->orders[0].client == most && done->orders[1].client == 7);
    WANT(auction.carried_over()->commands.at(0).client == most);
    auto board = ca::Board::open(2, day);
    auto trading = board->member(1);
    WANT(trading.call(ca::Enter{ca::Side::bid, 30, 510, {}, ca::Restriction::none, 41}));
    WANT(trading.orders()->at(0).client == 41 && trading.auction()->orders()->at(0).client == 41);
    WANT(board->member(0).call(ca::Enter{ca::Side::ask, 30, 510}) && board->member(0).call(ca::Uncross{}));
    WANT(trading.uncrossed_orders(ca::AuctionKind::opening)->at(0).client == 41);
    WANT(board->close()->entries.at(0).command.client == 41);
}

// The last calls are the operator's: none of an auction, 16 of a board, or as many as the config says.
void a_reserve_is_the_operators() {
    auto auction = opened({1, 1000, 500, 10, 3, {}, 2});
    WANT(auction.state()->calls_left == 3 && auction.state()->calls_left_to_members == 1);
    reply<ca::NoPrice>(auction.apply(1, ca::Indicate{}));
    WANT(auction.apply(1, ca::Indicate{}).error() == ca::Error::full);
    WANT(auction.clone()->apply(2, ca::Indicate{}).error() == ca::Error::full && auction.config()->reserve == 2);
    WANT(reply<ca::Uncrossed>(auction.apply(0, ca::Uncross{})).auction == ca::AuctionKind::opening);
    WANT(ca::Auction::open({1, 1000, 500, 10, 3, {}, -1}).error() == ca::Error::bad_reserve);
    auto usual = ca::Board::open(2, {1, 1000, 500, 10, 17});
    WANT(usual && usual->member(0).state()->calls_left_to_members == 1);
    WANT(usual->member(1).call(ca::Indicate{}) && usual->member(1).call(ca::Indicate{}).error() == ca::Error::full);
    WANT(usual->member(1).auction()->config()->reserve == 16);
    for (int count = 0; count < 16; count++) WANT(usual->member(0).call(ca::Indicate{}));
    WANT(usual->member(0).call(ca::Indicate{}).error() == ca::Error::full);
    WANT(ca::Board::open(2, {1, 1000, 500, 10, 16}).error() == ca::Error::bad_reserve);
    WANT(ca::Board::open(2, {1, 1000, 500, 10, 5, {}, 5}).error() == ca::Error::bad_reserve);
    WANT(ca::Board::open(2, {1, 1000, 500, 10, 64, 1'000'001}).error() == ca::Error::bad_range);
    WANT(ca::Board::open(2, {1, 1000, 500, 10, 64, 1'000'000}));
    WANT(ca::Board::open(1, {1, 1000, 500, 10, 16})->member(0).call(ca::Indicate{})); // the operator alone
    auto without = ca::Board::open(2, {1, 1000, 500, 10, 1, {}, 0});
    WANT(without && without->member(1).call(ca::Indicate{}));
}

void a_board_says_what_an_uncross_did() {
    auto board = ca::Board::open(3, day);
    WANT(board.has_value());
    auto operating = board->member(0), one = board->member(1), two = board->member(2);
    WANT(one.call(ca::Enter{ca::Side::bid, 30, 510}) && two.call(ca::Enter{ca::Side::ask, 20, 505}));
    WANT(one.uncrossed_orders(ca::AuctionKind::opening)->empty());
    WANT(operating.call(ca::Uncross{}) && two.call(ca::Enter{ca::Side::ask, 10, 505}) && operating.call(ca::Uncross{}));
    const auto opening = two.uncrossed_orders(ca::AuctionKind::opening);
    WANT(opening && opening->size() == 2);
    WANT(is_outcome((*opening)[0], 1, 20, 10) && is_outcome((*opening)[1], 2, 20, 0));
    const auto intraday = one.uncrossed_orders(ca::AuctionKind::intraday);
    WANT(intraday && intraday->size() == 2 && (*intraday)[0].left == 0 && (*intraday)[1].id == 3);
    WANT(one.uncrossed_orders(ca::AuctionKind::closing)->empty());
    WANT(one.waiting([&] { return one.ladder(); })->calls == 5);
    WANT(one.waiting([&] { return one.waiting([&] { return one.state(); }); })->calls == 5);
    const auto closing = board->close();
    WANT(closing && ca::uncrossed_orders(day, closing->entries, ca::AuctionKind::opening)->size() == 2);
    WANT(one.uncrossed_orders(ca::AuctionKind::opening).error() == ca::Error::closed);
    WANT(one.waiting([&] { return one.state(); }).error() == ca::Error::closed);
    WANT(board->member(3).uncrossed_orders(ca::AuctionKind::opening).error() == ca::Error::no_member);
    WANT(board->member(3).waiting([&] { return one.state(); }).error() == ca::Error::no_member);
}

void a_board_is_closed() {
    auto result = ca::Board::open(2, {1, 1000, 500, 10, 4, {}, 0});
    WANT(result.has_value());
    auto board = *std::move(result);
    auto operating = board.member(0), trading = board.member(1);
    const auto receipt = trading.call(ca::Enter{ca::Side::bid, 5, 500});
    WANT(receipt && receipt->number == 1 && std::get<ca::Entered>(receipt->reply).id == 1);
    WANT(operating.call_waiting(ca::Enter{ca::Side::ask, 5, 500})->number == 2);
    const auto shown = trading.look();
    WANT(shown && shown->calls == 2 && std::get<ca::Price>(shown->display).tick == 500);
    WANT(trading.ladder()->bids[499] == 5 && *trading.calls() == 1);
    WANT(trading.orders()->size() == 2 && operating.orders(1)->at(0).id == 1 && trading.orders(7)->empty());
    WANT(trading.orders(256).error() == ca::Error::bad_member && trading.expiring()->empty());
    auto copy = trading.auction();
    WANT(copy && *copy->calls() == 2);
    reply<ca::Deleted>(copy->apply(1, ca::Delete{1}));
    WANT(copy->orders()->size() == 1 && trading.orders()->size() == 2);
    WANT(trading.copy_into(*copy).has_value() && copy->orders()->size() == 2);
    auto other = opened(day);
    WANT(trading.copy_into(other).error() == ca::Error::other_limits && *other.calls() == 0);
    WANT(trading.call(ca::Delete{-1}).error() == ca::Error::bad_id);
    const std::vector<callauction_command> uncross{ca::struct_of(9, ca::Uncross{}).value()};
    std::vector<callauction_receipt> receipts(1);
    WANT(operating.apply_many(uncross, receipts) == std::make_pair(std::size_t{1}, std::optional<ca::Error>{}));
    WANT(receipts[0].number == 3 && receipts[0].reply.tag == CALLAUCTION_REPLY_UNCROSSED);
    const auto state = trading.state();
    WANT(state && state->auction == ca::AuctionKind::intraday && !state->extended && state->reference == 500);
    WANT(state->calls == 3 && state->calls_left == 1);
    std::vector<callauction_trade> trades(4);
    WANT(*trading.trades(0, trades) == 1 && trades[0].quantity == 5);
    std::uint32_t calls = 0; // after how many each list is as it is
    WANT(*trading.trades(0, trades, &calls) == 1 && calls == 3);
    WANT(trading.orders({}, &(calls = 0))->empty() && calls == 3);
    WANT(trading.expiring(&(calls = 0))->empty() && calls == 3);
    std::vector<callauction_entry> entries(4);
    WANT(*trading.history(1, entries) == 2 && entries[0].reply.id == 2);
    auto moved = std::move(board);
    const auto closing = moved.close();
    WANT(closing && closing->entries.size() == 3 && closing->counts == (std::vector<std::uint32_t>{2, 1}));
    WANT(trading.apply_many_waiting(uncross, receipts).second == ca::Error::closed);
    WANT(trading.call(ca::Indicate{}).error() == ca::Error::closed && moved.close().error() == ca::Error::closed);
    WANT(board.close().error() == ca::Error::no_member); // NOLINT: a moved-from board holds none
    for (const ca::Whole members : {-1, 0, 65, 1'000'000'000})
        WANT(ca::Board::open(members, day).error() == ca::Error::bad_members);
    WANT(std::string_view(ca::text(ca::Error::bad_members)) == "a board has 1 to 64 members, and so has a journal");
    WANT(ca::Board::open(65, {1, 10, 11, 1, 1, {}}).error() == ca::Error::bad_reference);
    for (auto none : {moved.member(2), moved.member(-1), board.member(0)}) { // NOLINT: a moved-from board
        WANT(none.call(ca::Indicate{}).error() == ca::Error::no_member);
        WANT(none.call_waiting(ca::Indicate{}).error() == ca::Error::no_member);
        WANT(none.apply_many(uncross, receipts).second == ca::Error::no_member);
        WANT(none.apply_many_waiting(uncross, receipts).second == ca::Error::no_member);
        WANT(none.look().error() == ca::Error::no_member && none.ladder().error() == ca::Error::no_member);
        WANT(none.trades(0, trades).error() == ca::Error::no_member && none.calls().error() == ca::Error::no_member);
        WANT(none.history(0, entries).error() == ca::Error::no_member);
        WANT(none.state().error() == ca::Error::no_member);
        WANT(none.auction().error() == ca::Error::no_member && none.copy_into(other).error() == ca::Error::no_member);
        WANT(none.orders(256).error() == ca::Error::no_member && none.expiring().error() == ca::Error::no_member);
    }
}

// On a board an order whose numbers no journal can hold is refused before it is recorded, so that each day can be read.
void what_no_journal_holds_is_no_call_of_a_board() {
    auto board = ca::Board::open(2, day);
    auto trading = board->member(1);
    const std::int64_t over = 5'000'000'000;
    WANT(trading.call(ca::Enter{ca::Side::bid, over, 500}).error() == ca::Error::bad_quantity);
    WANT(trading.call_waiting(ca::Enter{ca::Side::bid, 5, 500, over}).error() == ca::Error::bad_peak);
    WANT(trading.call(ca::Change{1, over}).error() == ca::Error::bad_quantity);
    std::vector<callauction_command> commands{ca::struct_of(1, ca::Enter{ca::Side::bid, 5, 500}).value(),
        ca::struct_of(1, ca::Enter{ca::Side::bid, 5, 500, over}).value()};
    std::vector<callauction_receipt> receipts(2);
    using Applied = std::pair<std::size_t, std::optional<ca::Error>>;
    WANT(trading.apply_many(commands, receipts) == Applied(1, ca::Error::bad_peak) && receipts[0].number == 1);
    commands.erase(commands.begin());
    WANT(trading.apply_many(commands, receipts) == Applied(0, ca::Error::bad_length));
    receipts.pop_back();
    WANT(trading.apply_many_waiting(commands, receipts) == Applied(0, ca::Error::bad_peak));
    commands[0].tag = CALLAUCTION_COMMAND_DELETE; // which reads neither
    commands[0].quantity = static_cast<std::uint64_t>(over);
    WANT(trading.apply_many(commands, receipts) == Applied(1, std::nullopt));
    const auto closing = board->close();
    WANT(closing->entries.size() == 2 && ca::Auction::resumed(ca::journal(day, *closing).value())->unlawful == 0);
    auto auction = opened(day);
    WANT(reply<ca::Refusal>(auction.apply(1, ca::Enter{ca::Side::bid, over, 500})) == ca::Refusal::bad_quantity);
}

// The lines of a journal may be written in pieces: the day's, and then those of entries as they come.
void lines_are_added_to_a_journal() {
    auto board = ca::Board::open(3, day);
    WANT(board->member(1).call(ca::Enter{ca::Side::bid, 30, 510}) && board->member(2).call(ca::Delete{1}));
    const auto closing = board->close();
    const ca::Span<const callauction_entry> entries(closing->entries);
    const ca::Span<const callauction_entry> first(entries.data(), 1), second(entries.data() + 1, 1);
    const auto added = ca::journal_lines(second);
    WANT(added && *added == "2,delete,1,refused 5 UnknownOrder\n");
    WANT(ca::journal(day, 3, first).value() + *added == ca::journal(day, *closing).value());
    WANT(ca::journal_lines(second, 2).error() == ca::Error::no_entry);
    for (const ca::Whole members : {0, 65}) WANT(ca::journal_lines(second, members).error() == ca::Error::bad_members);
}

// A journal of a board's day, which is gone on with; and what is none.
void a_day_is_kept_as_a_journal() {
    auto board = ca::Board::open(3, day);
    WANT(board->member(1).call(ca::Enter{ca::Side::bid, 30, 510, 10, ca::Restriction::none, 41}));
    WANT(board->member(2).call(ca::Enter{ca::Side::ask, 20}) && board->member(0).call(ca::Uncross{}));
    const auto closing = board->close();
    WANT(closing.has_value());
    const auto journal = ca::journal(day, *closing);
    WANT(journal && *journal == "day,1,1000,500,3,10,100,50\n1,enter,bid,30,510,10,entered 1\n"
                                "2,enter,ask,20,market,entered 2\n"
                                "0,uncross,opening price 510 volume 20 surplus 10 bid trades 1\n");
    auto resumed = ca::Auction::resumed(*journal);
    WANT(resumed && resumed->members == 3 && resumed->calls == 3 && resumed->compared == 3 && resumed->unlawful == 0);
    WANT(resumed->taken == journal->size());
    WANT(!resumed->first_unlawful && *resumed->auction.calls() == 3 && resumed->auction.config()->range == 50);
    WANT(resumed->auction.orders()->at(0).quantity == 10 && resumed->auction.orders()->at(0).client == 0);
    WANT(reply<ca::Entered>(resumed->auction.apply(2, ca::Enter{ca::Side::ask, 10, 510})).id == 3);
    WANT(resumed->auction.trades()->size() == 1 && resumed->auction.state()->calls_left_to_members == 96);
    const auto other = ca::Auction::resumed(
        "day,1,1000,500,3,10,100,\n1,ask,\n1,ask,entered 1\n1,ask,no price bid - ask -\n1,enter,bid,30,50");
    WANT(other && other->calls == 3 && other->compared == 2 && other->unlawful == 1 && other->first_unlawful == 2u);
    WANT(other->taken == 75); // 25, 7, 16 and 27: what follows lacks its end
    ca::BadRecord fault;
    WANT(ca::Auction::resumed("day,1,1000,500,3,10,100,\n1,delete,x,\n", &fault).error() == ca::Error::bad_journal);
    WANT(fault.fault == ca::JournalFault::bad_field && fault.record == 2 && fault.field == 3);
    WANT(std::string_view(ca::text(fault.fault)) == "bad field");
    WANT(ca::Auction::resumed("day,1,1000,5000,3,10,100,\n", &fault).error() == ca::Error::bad_reference);
    WANT(fault.fault == ca::JournalFault::none && fault.record == 0);
    WANT(ca::Auction::resumed({}).error() == ca::Error::bad_journal);
}

void what_no_journal_holds() {
    const std::vector<callauction_entry> none;
    WANT(*ca::journal(day, 64, none) == "day,1,1000,500,64,10,100,50\n");
    for (const ca::Whole members : {0, 65, -1}) WANT(ca::journal(day, members, none).error() == ca::Error::bad_members);
    WANT(ca::journal({1, 10, 11, 1, 1, {}}, 1, none).error() == ca::Error::bad_reference);
    const ca::Config far{1, 10, 5, 1, 1, 1'000'001};
    WANT(ca::Auction::open(far) && ca::journal(far, 1, none).error() == ca::Error::bad_range);
    WANT(*ca::journal({1, 10, 5, 1, 1, 1'000'000}, 1, none) == "day,1,10,5,1,1,1,1000000\n");
    WANT(ca::journal({1, 10, 11, 1, 1, 1'000'001}, 1, none).error() == ca::Error::bad_reference); // an opening's first
    WANT(ca::journal({1, 10, -5, 1, 1, {}}, 1, none).error() == ca::Error::bad_reference);
    std::vector<callauction_entry> entries(5000);
    auto auction = opened({1, 1000, 500, 10, 5000, {}});
    for (auto &entry : entries) { // more than a piece of text holds
        entry.command = ca::struct_of(1, ca::Enter{ca::Side::bid, 3, 1001}).value();
        std::vector<callauction_command> command{entry.command};
        std::vector<callauction_reply> answer(1);
        WANT(!auction.apply_many(command, answer).second);
        entry.reply = answer[0];
    }
    const ca::Config config{1, 1000, 500, 10, 5000, {}};
    const auto text = ca::journal(config, 2, entries);
    WANT(text && text->size() == 26 + 5000 * 38 && ca::Auction::resumed(*text)->unlawful == 0);
    ca::BadEntry fault;
    const auto faulty = [&](std::size_t place, std::string_view why) {
        const bool is_same = ca::journal(config, 2, entries, &fault).error() == ca::Error::no_entry
            && ca::journal_lines(entries, 2, &fault).error() == ca::Error::no_entry;
        return is_same && fault.place == place && fault.why == why;
    };
    entries[4000].command.quantity = std::uint64_t{1} << 32;
    WANT(faulty(4000, "the quantity is above 4,294,967,295") && !ca::journal(config, 2, entries));
    WANT(ca::journal(day, 2, entries, &fault).error() == ca::Error::no_entry); // a day of 100 calls
    WANT(fault.place == 100 && fault.why == std::string_view("the day has no more calls"));
    entries[3000].command.peak = std::uint64_t{1} << 32;
    entries[3000].command.has_peak = 1;
    WANT(faulty(3000, "the peak is above 4,294,967,295"));
    entries[2000].reply.tag = 99;
    WANT(faulty(2000, "the struct is no command, or has a reply that none gives"));
    entries[1000].command.member = 2;
    WANT(faulty(1000, "the member is none of the day"));
}

} // namespace

int main() {
    replies_are_values();
    numbers_are_looked_at();
    prices_in_money_are_ticks();
    ticks_are_prices_in_money();
    a_missing_value_throws();
    what_is_not_there_is_not_read();
    a_value_is_used_in_its_place();
    owners_are_moved();
    an_uncross_says_what_it_did();
    a_day_is_carried_over();
    a_board_takes_what_is_carried_over();
    a_closed_day_is_carried_over();
    a_day_that_refuses_what_is_carried_over_says_so();
    clients_are_given_back();
    a_reserve_is_the_operators();
    a_board_says_what_an_uncross_did();
    a_board_is_closed();
    what_no_journal_holds_is_no_call_of_a_board();
    a_day_is_kept_as_a_journal();
    what_no_journal_holds();
    lines_are_added_to_a_journal();
    return 0;
}
