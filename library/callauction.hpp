// callauction.h in C++17: owning classes, optional limits, results by value. Header only; link libcallauction.
//
// An Auction is for one thread at a time. A Board is one auction for many members, who call at once: each Member goes
// to a thread of its own, and the Board outlives them. docs/MODEL.md says what a command does, when it is refused and
// what it is answered, callauction.h what each call does. Limits and prices are ticks, quantities whole shares.
//
// A call answers a Result: a value, or an Error, as callauction.h names it or of this header's own, from 1001 on. It
// throws std::bad_alloc where memory is refused, and nothing else; Result::value throws BadResult for an error. Numbers
// are given as a Whole, which takes integers alone, so that a price in money, a truth value or a letter doesn't compile
// (Ticks has the tick of a price, and the price of a tick). They are checked: where one doesn't fit its field of a
// struct, the call answers an error that names it, as Error::bad_member for the member 256, and does nothing. Numbers
// are answered as callauction.h has them, unsigned: a difference below 0 wraps, so make a std::int64_t of what is
// subtracted, as `std::int64_t(order.quantity) - std::int64_t(outcome.filled)`.
//
// It wants C++17. Headers that have dynamic exception specifications, as QuickFIX's, go into one file with it under
// clang++ -Wno-dynamic-exception-spec; under g++ they go into another file, which has callauction.h from C++11 on.
#ifndef CALLAUCTION_HPP
#define CALLAUCTION_HPP

#include <callauction.h>

#include <algorithm>
#include <cstddef>
#include <cstdint>
#include <cstdio>
#include <cstdlib>
#include <exception>
#include <limits>
#include <memory>
#include <mutex>
#include <new>
#include <optional>
#include <string>
#include <string_view>
#include <thread>
#include <type_traits>
#include <utility>
#include <variant>
#include <vector>

#if defined(__GNUC__) && !defined(__clang__)
#pragma GCC diagnostic push
#pragma GCC diagnostic ignored "-Wmaybe-uninitialized" // which g++ 12 says of empty limits and other commands' fields
#endif

namespace callauction {

// ---- numbers

namespace detail {

// Whether a type is one of letters.
template <typename T>
inline constexpr bool is_letter = std::is_same_v<T, char> || std::is_same_v<T, wchar_t>
#ifdef __cpp_char8_t
    || std::is_same_v<T, char8_t>
#endif
    || std::is_same_v<T, char16_t> || std::is_same_v<T, char32_t>;

// Whether a type is one of numbers that aren't cut: no bool, no letter, and none of more bits than are looked at.
template <typename T>
inline constexpr bool is_integer = std::is_integral_v<T> && !std::is_same_v<T, bool> && !is_letter<T>
    && sizeof(T) <= sizeof(std::int64_t);

} // namespace detail

// A whole number. Of what isn't an integer none can be made. One above the greatest std::int64_t counts as -1, which
// no field takes.
class Whole {
public:
    template <typename T, std::enable_if_t<detail::is_integer<T>, int> = 0>
    constexpr Whole(T number) noexcept
        : number_(number > T{0} && static_cast<std::uint64_t>(number) > std::uint64_t{INT64_MAX}
                  ? -1 : static_cast<std::int64_t>(number)) {}
    template <typename T, std::enable_if_t<!detail::is_integer<T>, int> = 0> Whole(T) = delete;

    constexpr operator std::int64_t() const noexcept { return number_; }

private:
    std::int64_t number_;
};

// A number of the caller's own, as of an agent, which an order keeps: any std::uint64_t. One below 0 fits no order.
class Client {
public:
    template <typename T, std::enable_if_t<detail::is_integer<T>, int> = 0>
    constexpr Client(T number) noexcept
        : number_(static_cast<std::uint64_t>(number)), fits_(number == T{0} || number > T{0}) {}
    template <typename T, std::enable_if_t<!detail::is_integer<T>, int> = 0> Client(T) = delete;

    constexpr std::uint64_t number() const noexcept { return number_; }
    constexpr bool fits() const noexcept { return fits_; }

private:
    std::uint64_t number_;
    bool fits_;
};

enum class Error : std::uint32_t {
    bad_bounds = CALLAUCTION_ERROR_BAD_BOUNDS,
    bad_reference = CALLAUCTION_ERROR_BAD_REFERENCE,
    bad_capacity = CALLAUCTION_ERROR_BAD_CAPACITY,
    in_use = CALLAUCTION_ERROR_IN_USE,
    no_auction = CALLAUCTION_ERROR_NO_AUCTION,
    no_command = CALLAUCTION_ERROR_NO_COMMAND,
    full = CALLAUCTION_ERROR_FULL,
    bad_length = CALLAUCTION_ERROR_BAD_LENGTH,
    no_config = CALLAUCTION_ERROR_NO_CONFIG,
    busy = CALLAUCTION_ERROR_BUSY,
    behind = CALLAUCTION_ERROR_BEHIND,
    closed = CALLAUCTION_ERROR_CLOSED,
    no_member = CALLAUCTION_ERROR_NO_MEMBER,
    missing_member = CALLAUCTION_ERROR_MISSING_MEMBER,
    overtaken = CALLAUCTION_ERROR_OVERTAKEN,
    bad_member = CALLAUCTION_ERROR_BAD_MEMBER,
    misused = CALLAUCTION_ERROR_MISUSED,
    bad_journal = CALLAUCTION_ERROR_BAD_JOURNAL,
    no_entry = CALLAUCTION_ERROR_NO_ENTRY,
    no_tick_size = 1001, // of Ticks, as the next one
    no_price = 1002,
    bad_quantity = 1003, // these are of numbers that don't fit
    bad_limit = 1004,
    bad_peak = 1005,
    bad_id = 1006,
    bad_number = 1007,
    bad_client = 1008,
    bad_members = 1009, // of a board's opening and of a journal
    other_limits = 1010, // of copy_into
    no_tick = 1011, // of Ticks
    bad_reserve = 1012, // of openings, as the next one
    bad_range = 1013, // of a journal too
    not_entered = 1014 // of enter
};

enum class Side : std::uint8_t {
    none = CALLAUCTION_SIDE_NONE,
    bid = CALLAUCTION_SIDE_BID,
    ask = CALLAUCTION_SIDE_ASK
};

enum class Restriction : std::uint8_t {
    none = CALLAUCTION_RESTRICTION_NONE,
    opening_only = CALLAUCTION_RESTRICTION_OPENING_ONLY,
    closing_only = CALLAUCTION_RESTRICTION_CLOSING_ONLY
};

enum class AuctionKind : std::uint8_t {
    opening = CALLAUCTION_AUCTION_OPENING,
    intraday = CALLAUCTION_AUCTION_INTRADAY,
    closing = CALLAUCTION_AUCTION_CLOSING
};

enum class Refusal : std::uint8_t {
    bad_quantity = CALLAUCTION_REFUSAL_BAD_QUANTITY,
    bad_limit = CALLAUCTION_REFUSAL_BAD_LIMIT,
    bad_peak = CALLAUCTION_REFUSAL_BAD_PEAK,
    book_full = CALLAUCTION_REFUSAL_BOOK_FULL,
    unknown_order = CALLAUCTION_REFUSAL_UNKNOWN_ORDER,
    not_operator = CALLAUCTION_REFUSAL_NOT_OPERATOR,
    day_over = CALLAUCTION_REFUSAL_DAY_OVER,
    no_such_trade = CALLAUCTION_REFUSAL_NO_SUCH_TRADE,
    past_auction = CALLAUCTION_REFUSAL_PAST_AUCTION
};

enum class JournalFault : std::uint32_t {
    none = CALLAUCTION_JOURNAL_NO_FAULT,
    too_long = CALLAUCTION_JOURNAL_TOO_LONG,
    bad_member = CALLAUCTION_JOURNAL_BAD_MEMBER,
    bad_command = CALLAUCTION_JOURNAL_BAD_COMMAND,
    bad_count = CALLAUCTION_JOURNAL_BAD_COUNT,
    bad_field = CALLAUCTION_JOURNAL_BAD_FIELD,
    too_many_commands = CALLAUCTION_JOURNAL_TOO_MANY_COMMANDS,
    not_a_day = CALLAUCTION_JOURNAL_NOT_A_DAY
};

// One line of English, without a full stop.
inline const char *text(Error error) noexcept {
    switch (error) {
    case Error::no_tick_size: return "a tick size is a decimal number above 0, with at most nine decimals";
    case Error::no_price: return "the price is no decimal number, lies between two ticks, or above tick 4,294,967,295";
    case Error::no_tick: return "the tick isn't from 0 to 4,294,967,295, or its price isn't below 1,000,000,000";
    case Error::bad_quantity: return "the quantity is below 0, or above what the call takes";
    case Error::bad_limit: return "the limit is below 0, or above 4,294,967,295";
    case Error::bad_peak: return "the peak is below 0, or above what the call takes";
    case Error::bad_id: return "the id is below 0, or above 4,294,967,295";
    case Error::bad_number: return "the number of the trade or the call is below 0, or above what the call takes";
    case Error::bad_client: return "the client is below 0";
    case Error::bad_members: return "a board has 1 to 64 members, and so has a journal";
    case Error::bad_range: return "the range is below 0, or above what the call takes: a journal says up to 1,000,000";
    case Error::bad_reserve:
        return "the reserve is below 0, above 4,294,967,295, or leaves members no call: it is 16 where it isn't set";
    case Error::not_entered: return "the day refused an order that was carried over";
    case Error::other_limits: return "the other auction has other bounds, max_open or max_calls";
    default: return callauction_error_text(static_cast<std::uint32_t>(error));
    }
}
inline const char *text(Refusal refusal) noexcept {
    return callauction_refusal_text(static_cast<std::uint32_t>(refusal));
}
inline const char *text(JournalFault fault) noexcept {
    return callauction_journal_fault_text(static_cast<std::uint32_t>(fault));
}

// ---- results

// What Result::value throws where there is no value.
class BadResult : public std::exception {
public:
    explicit BadResult(Error error) noexcept : error_(error) {}

    Error error() const noexcept { return error_; }
    const char *what() const noexcept override { return text(error_); }

private:
    Error error_;
};

namespace detail {

// Ends the program, and says why on standard error.
[[noreturn]] inline void end(const char *why) noexcept {
    std::fprintf(stderr, "callauction: %s\n", why);
    std::abort();
}

// Throws, or ends the program where exceptions are off.
template <typename T, typename Exception> [[noreturn]] T fail(const Exception &exception) {
#ifdef __cpp_exceptions
    throw exception;
#else
    end(exception.what());
#endif
}

// What a result has, where it has that; where it hasn't, it ends the program.
template <typename T> T &value_or_end(T *found, const Error *error) noexcept {
    if (!found) end(error ? text(*error) : "the result has a value, and no error");
    return *found;
}

} // namespace detail

// A value, or why there is none.
template <typename T> class [[nodiscard]] Result {
public:
    Result(T value) : answer_(std::in_place_index<0>, std::move(value)) {}
    Result(Error error) : answer_(std::in_place_index<1>, error) {}

    bool has_value() const noexcept { return answer_.index() == 0; }
    explicit operator bool() const noexcept { return has_value(); }

    // The value. Where there is none these end the program, by std::abort, and the error's text is on standard error.
    T &operator*() & noexcept { return detail::value_or_end(std::get_if<0>(&answer_), std::get_if<1>(&answer_)); }
    const T &operator*() const & noexcept {
        return detail::value_or_end(std::get_if<0>(&answer_), std::get_if<1>(&answer_));
    }
    T &&operator*() && noexcept { return std::move(**this); }
    T *operator->() noexcept { return &**this; }
    const T *operator->() const noexcept { return &**this; }

    // The same, but where there is none it throws BadResult, or ends the program so where exceptions are off.
    T &value() & { return has_value() ? **this : detail::fail<T &>(BadResult(error())); }
    const T &value() const & { return has_value() ? **this : detail::fail<const T &>(BadResult(error())); }
    T value() && { return has_value() ? *std::move(*this) : detail::fail<T>(BadResult(error())); }

    // The error. Where there is a value it ends the program.
    Error error() const noexcept { return detail::value_or_end(std::get_if<1>(&answer_), std::get_if<1>(&answer_)); }

private:
    std::variant<T, Error> answer_;
};

struct Done {};

// ---- prices in money

// The prices of an instrument as ticks: tick t is t times the tick size. Nothing is rounded. Python's Ticks take the
// same texts and ticks.
//
//     const auto cents = callauction::Ticks::by("0.01").value();
//     auction.apply(1, callauction::Enter{callauction::Side::bid, 500, cents.of("199.75").value()});
class Ticks {
public:
    // By a tick size in money, as "0.01". Error::no_tick_size where that isn't a decimal number above 0 and below
    // 1,000,000,000 with at most nine decimals.
    static Result<Ticks> by(std::string_view size) {
        const auto found = units_of(size);
        if (!found || *found == 0) return Error::no_tick_size;
        return Ticks(*found);
    }

    // The tick of a price in money, as "199.75". Error::no_price where that is no such number, lies between two ticks,
    // or has a tick above 4,294,967,295.
    Result<Whole> of(std::string_view price) const {
        const auto found = units_of(price);
        if (!found || *found % size_ != 0 || *found / size_ > most_tick) return Error::no_price;
        return Whole(*found / size_);
    }

    // The price of a tick in money, exactly, with as many decimals as the tick size needs: "199.75", and "2.00" where
    // that is 0.01. Error::no_tick where the tick isn't from 0 to 4,294,967,295, or its price not below
    // 1,000,000,000.
    Result<std::string> price(Whole tick) const {
        if (tick < 0 || tick > most_tick || tick > (unit * unit - 1) / size_) return Error::no_tick;
        const std::int64_t money = tick * size_;
        std::size_t needed = decimals;
        for (std::int64_t rest = size_; needed > 0 && rest % 10 == 0; rest /= 10) needed--;
        const std::string whole = std::to_string(money / unit);
        return needed == 0 ? whole : whole + "." + std::to_string(unit + money % unit).substr(1, needed);
    }

private:
    static constexpr std::size_t decimals = 9;
    static constexpr std::int64_t unit = 1'000'000'000; // of money, in billionths
    static constexpr std::int64_t most_tick = std::numeric_limits<std::uint32_t>::max();

    explicit Ticks(std::int64_t size) : size_(size) {}

    // A decimal number in units of a billionth.
    static std::optional<std::int64_t> units_of(std::string_view text) {
        const auto point = text.find('.');
        auto whole = text.substr(0, point);
        while (whole.size() > 1 && whole.front() == '0') whole.remove_prefix(1);
        auto part = point == std::string_view::npos ? std::string_view("0") : text.substr(point + 1);
        while (part.size() > 1 && part.back() == '0') part.remove_suffix(1);
        if (whole.empty() || whole.size() > decimals || part.empty() || part.size() > decimals) return std::nullopt;
        const auto before = digits_of(whole, whole.size()), behind = digits_of(part, decimals);
        if (!before || !behind) return std::nullopt;
        return *before * unit + *behind;
    }

    // Digits, followed by as many zeros as are lacking.
    static std::optional<std::int64_t> digits_of(std::string_view text, std::size_t count) {
        std::int64_t found = 0;
        for (std::size_t place = 0; place < count; place++) {
            const char digit = place < text.size() ? text[place] : '0';
            if (digit < '0' || digit > '9') return std::nullopt;
            found = found * 10 + (digit - '0');
        }
        return found;
    }

    std::int64_t size_;
};

// Structs one after another, which somebody else owns.
template <typename T> class Span {
public:
    Span(T *data, std::size_t size) noexcept : data_(data), size_(size) {}
    template <typename Container> Span(Container &owner) : data_(owner.data()), size_(owner.size()) {}

    T *data() const noexcept { return data_; }
    std::size_t size() const noexcept { return size_; }
    T *begin() const noexcept { return data_; }
    T *end() const noexcept { return data_ + size_; }
    T &operator[](std::size_t place) const noexcept { return data_[place]; }

private:
    T *data_;
    std::size_t size_;
};

// ---- what an auction is opened with, commands, replies

struct Config {
    Whole low = 1, high = 1000;         // ticks
    Whole reference = 200;              // the first reference price, a tick
    Whole max_open = 4096;              // orders that may be open at a time
    Whole max_calls = 65536;            // commands that may be applied
    std::optional<Whole> range = {};    // a price further from the reference interrupts an uncross
    std::optional<Whole> reserve = {};  // last calls that are the operator's: else none of an auction, 16 of a board
};

// An order without a limit is a market order, one with a peak an iceberg order. Its client is given back where the
// order is listed, and read by nothing else.
struct Enter {
    Side side;
    Whole quantity;
    std::optional<Whole> limit = {};
    std::optional<Whole> peak = {};
    Restriction restriction = Restriction::none;
    Client client = 0;
};

struct Change {
    Whole id;
    Whole quantity;
    std::optional<Whole> limit = {};
};

struct Delete {
    Whole id;
};

struct OrderStatus {
    Whole id;
};

struct Indicate {};

struct ReadTrade {
    Whole number; // from 1 on
};

struct Uncross {};

using Command = std::variant<Enter, Change, Delete, OrderStatus, Indicate, ReadTrade, Uncross>;

struct Entered {
    std::uint32_t id;
};

struct Changed {
    bool kept; // its place in time
};

struct Deleted {};

struct OpenOrder {
    Side side;
    std::uint64_t quantity, visible; // open shares, and those that are shown
    std::optional<std::uint32_t> limit;
};

struct Price {
    std::uint32_t tick;
    std::uint64_t volume, surplus;
    Side side; // of the surplus
};

struct NoPrice {
    std::optional<std::uint32_t> best_bid, best_ask;
};

struct Traded {
    std::uint32_t bid, ask; // ids of the orders
    std::uint64_t quantity;
    std::uint32_t tick;
};

struct Uncrossed {
    AuctionKind auction;
    std::optional<Price> price;
    std::uint32_t trades;
};

struct Interrupted {
    Price price;
};

using Reply
    = std::variant<Entered, Changed, Deleted, OpenOrder, Price, NoPrice, Traded, Uncrossed, Interrupted, Refusal>;
using Display = std::variant<Price, NoPrice>;

// ---- between these and the structs of callauction.h

namespace detail {

// What a call answered: nothing where it was done. Throws std::bad_alloc where memory was refused, or ends the program
// where exceptions are off.
inline std::optional<Error> error_of(std::uint32_t answer) {
    if (answer == CALLAUCTION_DONE) return std::nullopt;
    if (answer == CALLAUCTION_ERROR_NO_MEMORY) fail<void>(std::bad_alloc());
    return static_cast<Error>(answer);
}

// What a call answered that copies over an auction.
inline Result<Done> copied_over(std::uint32_t answer) {
    const auto error = error_of(answer);
    if (!error) return Done{};
    return *error == Error::in_use ? Error::other_limits : *error;
}

// Puts a number into a field; whether it fits.
template <typename Field> bool fits(std::int64_t number, Field &field) {
    if (number < 0 || static_cast<std::uint64_t>(number) > std::numeric_limits<Field>::max()) return false;
    field = static_cast<Field>(number);
    return true;
}

template <typename Field> bool fits(const std::optional<Whole> &number, std::uint8_t &flag, Field &field) {
    flag = number ? 1 : 0;
    return !number || fits(*number, field);
}

// Fills a struct of zeros; the error of the first number that doesn't fit.
struct Filling {
    callauction_command &to;

    std::optional<Error> operator()(const Enter &from) const {
        to.tag = CALLAUCTION_COMMAND_ENTER;
        to.side = static_cast<std::uint8_t>(from.side);
        to.restriction = static_cast<std::uint8_t>(from.restriction);
        to.client = from.client.number();
        if (const auto error = terms(from.quantity, from.limit)) return error;
        if (!fits(from.peak, to.has_peak, to.peak)) return Error::bad_peak;
        return from.client.fits() ? std::nullopt : std::optional<Error>(Error::bad_client);
    }
    std::optional<Error> operator()(const Change &from) const {
        const auto error = tag_with_id(CALLAUCTION_COMMAND_CHANGE, from.id, Error::bad_id);
        return error ? error : terms(from.quantity, from.limit);
    }
    std::optional<Error> operator()(const Delete &from) const {
        return tag_with_id(CALLAUCTION_COMMAND_DELETE, from.id, Error::bad_id);
    }
    std::optional<Error> operator()(const OrderStatus &from) const {
        return tag_with_id(CALLAUCTION_COMMAND_ORDER_STATUS, from.id, Error::bad_id);
    }
    std::optional<Error> operator()(const Indicate &) const {
        return tag_with_id(CALLAUCTION_COMMAND_INDICATE, 0, Error::bad_id);
    }
    std::optional<Error> operator()(const ReadTrade &from) const {
        return tag_with_id(CALLAUCTION_COMMAND_READ_TRADE, from.number, Error::bad_number);
    }
    std::optional<Error> operator()(const Uncross &) const {
        return tag_with_id(CALLAUCTION_COMMAND_UNCROSS, 0, Error::bad_id);
    }

    std::optional<Error> terms(Whole quantity, const std::optional<Whole> &limit) const {
        if (!fits(quantity, to.quantity)) return Error::bad_quantity;
        return fits(limit, to.has_limit, to.limit) ? std::nullopt : std::optional<Error>(Error::bad_limit);
    }
    std::optional<Error> tag_with_id(std::uint8_t tag, Whole id, Error error) const {
        to.tag = tag;
        return fits(id, to.id) ? std::nullopt : std::optional<Error>(error);
    }
};

inline std::optional<std::uint32_t> tick_if(std::uint8_t flag, std::uint32_t tick) {
    return flag ? std::optional<std::uint32_t>(tick) : std::nullopt;
}

inline NoPrice no_price_of(const callauction_reply &from) {
    return NoPrice{tick_if(from.has_best_bid, from.best_bid), tick_if(from.has_best_ask, from.best_ask)};
}

inline Price price_of(const callauction_reply &from) {
    return Price{from.tick, from.volume, from.surplus, static_cast<Side>(from.side)};
}

inline Uncrossed uncrossed_of(const callauction_reply &from) {
    const auto price = from.has_tick ? std::optional<Price>(price_of(from)) : std::nullopt;
    return Uncrossed{static_cast<AuctionKind>(from.auction), price, from.trades};
}

// Fills a struct of zeros; the error of the first number that doesn't fit.
inline std::optional<Error> filled(const Config &from, callauction_config &to) {
    to.has_range = from.range ? 1 : 0;
    to.has_reserve = from.reserve ? 1 : 0;
    if (!fits(from.low, to.low) || !fits(from.high, to.high)) return Error::bad_bounds;
    if (!fits(from.reference, to.reference)) return Error::bad_reference;
    if (!fits(from.max_open, to.max_open) || !fits(from.max_calls, to.max_calls)) return Error::bad_capacity;
    if (from.range && !fits(*from.range, to.range)) return Error::bad_range;
    if (from.reserve && !fits(*from.reserve, to.reserve)) return Error::bad_reserve;
    return std::nullopt;
}

inline Config config_of(const callauction_config &from) {
    Config config{from.low, from.high, from.reference, from.max_open, from.max_calls, {}, {}};
    if (from.has_range) config.range = from.range;
    if (from.has_reserve) config.reserve = from.reserve;
    return config;
}

} // namespace detail

// A command of a member as a struct, for calls that take many. Error::bad_member, bad_quantity, .. as in apply.
inline Result<callauction_command> struct_of(Whole member, const Command &command) {
    callauction_command made{};
    if (!detail::fits(member, made.member)) return Error::bad_member;
    if (const auto error = std::visit(detail::Filling{made}, command)) return *error;
    return made;
}

// The reply of a struct that the library wrote.
inline Reply reply_of(const callauction_reply &from) {
    switch (from.tag) {
    case CALLAUCTION_REPLY_ENTERED: return Entered{from.id};
    case CALLAUCTION_REPLY_CHANGED: return Changed{from.kept != 0};
    case CALLAUCTION_REPLY_DELETED: return Deleted{};
    case CALLAUCTION_REPLY_OPEN_ORDER: {
        const auto limit = detail::tick_if(from.has_tick, from.tick);
        return OpenOrder{static_cast<Side>(from.side), from.quantity, from.visible, limit};
    }
    case CALLAUCTION_REPLY_PRICED: return detail::price_of(from);
    case CALLAUCTION_REPLY_UNPRICED: return detail::no_price_of(from);
    case CALLAUCTION_REPLY_TRADED: return Traded{from.id, from.ask, from.quantity, from.tick};
    case CALLAUCTION_REPLY_UNCROSSED: return detail::uncrossed_of(from);
    case CALLAUCTION_REPLY_INTERRUPTED: return Interrupted{detail::price_of(from)};
    default: return static_cast<Refusal>(from.refusal);
    }
}

inline Display display_of(const callauction_reply &from) {
    if (from.tag == CALLAUCTION_REPLY_PRICED) return detail::price_of(from);
    return detail::no_price_of(from);
}

// Where the day of an auction is.
struct State {
    std::optional<AuctionKind> auction; // whose call phase it is; none after the day
    bool extended;                      // whether an interruption extended it
    std::uint32_t reference;            // the reference price, a tick
    std::uint32_t calls, calls_left;    // commands that were applied, and that may still be
    std::uint32_t calls_left_to_members; // how many of these by another member than the operator
};

inline State state_of(const callauction_day_state &from) {
    State state{std::nullopt, from.extended != 0, from.reference, from.calls, from.calls_left,
        from.calls_left_to_members};
    if (from.in_call) state.auction = static_cast<AuctionKind>(from.auction);
    return state;
}

// What an uncross did: its reply, and the orders of which it executed shares or which it took out, in the priority that
// they had.
struct UncrossedOrders {
    Reply reply;
    std::vector<callauction_outcome> orders;
};

// What is left of a day: the open orders that are for every auction, as commands that enter them into the next day's
// auction, whose ids there are 1, 2 and so on; their ids of this day; and the next day's reference. The commands are in
// time order within each limit of a side and among its market orders, which is all that price-time priority asks. An
// order whose peak is above what is left of it has that for a peak, as a greater one is refused: a Change to more
// shares shows no more of it on the next day.
struct CarriedOver {
    std::vector<callauction_command> commands;
    std::vector<std::uint32_t> ids;
    std::uint32_t reference;
};

// An order of what is carried over that the new day refused.
struct NotEntered {
    std::size_t place; // of its command, from 0 on
    std::uint32_t id;  // of the day before
    Refusal refusal;
};

// The shares bid and offered by the orders that count, with a limit at each tick from low to high, and those of the
// market orders; after as many calls as `calls` says.
struct Ladder {
    std::vector<std::uint64_t> bids, asks;
    callauction_market_orders market;
    std::uint32_t calls;
};

namespace detail {

// Whose orders: the number of a member, or of all; none where it is no member's.
inline std::optional<std::uint32_t> member_number(const std::optional<Whole> &member) {
    std::uint8_t one = 0;
    if (member && !fits(*member, one)) return std::nullopt;
    return member ? std::uint32_t{one} : std::uint32_t{CALLAUCTION_ALL_MEMBERS};
}

// The structs that a call copies, at most as many as may be open. There is room for so many, of which no more is
// touched than is written.
template <typename T, typename Call> Result<std::vector<T>> listed(std::size_t most, Call call) {
    const std::unique_ptr<T[]> room(new T[most]);
    std::size_t copied = 0;
    if (const auto error = error_of(call(room.get(), most, &copied))) return *error;
    return std::vector<T>(room.get(), room.get() + copied);
}

// The error of the first number of a command that no journal can hold.
inline std::optional<Error> unrecordable(const callauction_command &command) {
    constexpr std::uint64_t most = std::numeric_limits<std::uint32_t>::max();
    const bool enters = command.tag == CALLAUCTION_COMMAND_ENTER;
    if ((enters || command.tag == CALLAUCTION_COMMAND_CHANGE) && command.quantity > most) return Error::bad_quantity;
    if (enters && command.has_peak && command.peak > most) return Error::bad_peak;
    return std::nullopt;
}

// The command that enters what is left of an order. A peak above that is cut to it, as it would be refused.
inline callauction_command entering(const callauction_order &order) {
    callauction_command made{};
    made.tag = CALLAUCTION_COMMAND_ENTER;
    made.member = order.member;
    made.side = order.side;
    made.quantity = order.quantity;
    made.limit = order.limit;
    made.has_limit = order.has_limit;
    made.peak = order.has_peak ? order.visible : 0;
    made.has_peak = order.has_peak;
    made.client = order.client;
    return made;
}

inline bool is_one_limit(const callauction_order &one, const callauction_order &other) {
    return one.side == other.side && one.has_limit == other.has_limit && one.limit == other.limit;
}

// Of open orders in priority. Those with one limit are in time order; the ids, which were given in time order, tell how
// these lists lie in one another, where no order lost its place in time.
inline CarriedOver carried_over(const std::vector<callauction_order> &orders, std::uint32_t reference) {
    std::vector<std::pair<std::uint32_t, const callauction_order *>> timed;
    std::uint32_t time = 0;
    for (std::size_t place = 0; place < orders.size(); place++) {
        const bool goes_on = place > 0 && is_one_limit(orders[place - 1], orders[place]);
        time = goes_on ? std::max(time, orders[place].id) : orders[place].id;
        if (orders[place].restriction == CALLAUCTION_RESTRICTION_NONE) timed.emplace_back(time, &orders[place]);
    }
    std::stable_sort(
        timed.begin(), timed.end(), [](const auto &one, const auto &other) { return one.first < other.first; });
    CarriedOver found{{}, {}, reference};
    for (const auto &each : timed) {
        found.commands.push_back(entering(*each.second));
        found.ids.push_back(each.second->id);
    }
    return found;
}

inline const callauction_reply &reply_in(const callauction_reply &reply) { return reply; }
inline const callauction_reply &reply_in(const callauction_receipt &receipt) { return receipt.reply; }

} // namespace detail

// The orders of what is carried over that the new day refused, by what `enter` of an auction or a board answered.
template <typename Answer>
std::vector<NotEntered> not_entered(const CarriedOver &left, const std::vector<Answer> &answers) {
    std::vector<NotEntered> found;
    for (std::size_t place = 0; place < answers.size() && place < left.ids.size(); place++) {
        const callauction_reply &reply = detail::reply_in(answers[place]);
        if (reply.tag == CALLAUCTION_REPLY_REFUSED)
            found.push_back({place, left.ids[place], static_cast<Refusal>(reply.refusal)});
    }
    return found;
}

// ---- an auction of one thread

class Member;
struct Resumed;

// The first fault of a journal: its record and its field, from 1 on, or 0 where there is none.
struct BadRecord {
    JournalFault fault = JournalFault::none;
    std::uint64_t record = 0;
    std::uint32_t field = 0;
};

class Auction {
public:
    // An auction at its opening. Where a number doesn't fit a struct, Error::bad_bounds, bad_reference, bad_capacity,
    // bad_range or bad_reserve, which names it; else the first fault of the config, one of the first three. A range
    // above 1,000,000 is taken, but no journal can say it: Error::bad_range of journal.
    static Result<Auction> open(const Config &config) {
        callauction_config given{};
        if (const auto error = detail::filled(config, given)) return *error;
        Auction made;
        if (const auto error = detail::error_of(callauction_open(&made.handle_, &given))) return *error;
        return made;
    }

    // By the text of a journal: the auction of its day after all its calls, to go on with, and what was found of its
    // replies. Where it is no journal, Error::bad_journal, and its first fault in `fault`, if that is given; else the
    // fault of its day, as of open. Its whole lines alone are read, the first `taken` bytes: what follows, as a line
    // that a crash has cut, isn't.
    static Result<Resumed> resumed(std::string_view journal, BadRecord *fault = nullptr);

    Auction(Auction &&other) noexcept : handle_(std::exchange(other.handle_, callauction_handle{})) {}
    Auction &operator=(Auction &&other) noexcept {
        if (this != &other) {
            callauction_close(&handle_);
            handle_ = std::exchange(other.handle_, callauction_handle{});
        }
        return *this;
    }
    Auction(const Auction &) = delete;
    Auction &operator=(const Auction &) = delete;
    ~Auction() { callauction_close(&handle_); }

    // Applies a command of a member; what the auction refuses is answered by a Refusal. Error::bad_member,
    // bad_quantity, bad_limit, bad_peak, bad_id, bad_number or bad_client where that doesn't fit a struct, no_command
    // of Side::none, and full where no call is left to the member.
    Result<Reply> apply(Whole member, const Command &command) {
        const auto given = struct_of(member, command);
        if (!given) return given.error();
        callauction_reply reply;
        if (const auto error = detail::error_of(callauction_apply(&handle_, &*given, &reply))) return *error;
        return reply_of(reply);
    }

    // Applies structs one after another, and writes their replies, as many of each: how many were applied, and the
    // error that the next one had.
    [[nodiscard]] std::pair<std::size_t, std::optional<Error>> apply_many(
        Span<const callauction_command> commands, Span<callauction_reply> replies) {
        std::size_t applied = 0;
        const auto answer = callauction_apply_many(
            &handle_, commands.data(), commands.size(), replies.data(), replies.size(), &applied);
        return {applied, detail::error_of(answer)};
    }

    // Enters what is left of another day, in its order: the replies to what was applied, and the error that the next
    // command had. Where all were applied and the day refused an order, Error::not_entered: callauction::not_entered
    // says which.
    [[nodiscard]] std::pair<std::vector<callauction_reply>, std::optional<Error>> enter(const CarriedOver &left) {
        std::vector<callauction_reply> replies(left.commands.size());
        auto [applied, error] = apply_many(left.commands, replies);
        replies.resize(applied);
        if (!error && !not_entered(left, replies).empty()) error = Error::not_entered;
        return {std::move(replies), error};
    }

    // Uncrosses, as apply(0, Uncross{}) does, and says what that did to the orders.
    Result<UncrossedOrders> uncross_orders() {
        const auto config = this->config();
        if (!config) return config.error();
        callauction_reply reply;
        auto orders = detail::listed<callauction_outcome>(static_cast<std::size_t>(config->max_open),
            [&](callauction_outcome *to, std::size_t room, std::size_t *copied) {
                return callauction_uncross(&handle_, &reply, to, room, copied);
            });
        if (!orders) return orders.error();
        return UncrossedOrders{reply_of(reply), *std::move(orders)};
    }

    // What is shown: no call of a member.
    Result<Display> display() const {
        callauction_reply shown;
        if (const auto error = detail::error_of(callauction_display(&handle_, &shown))) return *error;
        return display_of(shown);
    }

    // The shares at each tick.
    Result<Ladder> ladder() const {
        const auto config = this->config();
        if (!config) return config.error();
        const auto ticks = static_cast<std::size_t>(config->high - config->low + 1);
        Ladder found{std::vector<std::uint64_t>(ticks), std::vector<std::uint64_t>(ticks), {}, 0};
        const auto answer = callauction_ladder(
            &handle_, found.bids.data(), ticks, found.asks.data(), ticks, &found.market);
        if (const auto error = detail::error_of(answer)) return *error;
        const auto counted = calls();
        if (!counted) return counted.error();
        found.calls = *counted;
        return found;
    }

    // The open orders in priority, of a member or of all.
    Result<std::vector<callauction_order>> orders(std::optional<Whole> member = {}) const {
        const auto of = detail::member_number(member);
        if (!of) return Error::bad_member;
        return listed([&](callauction_order *to, std::size_t room, std::size_t *copied) {
            return callauction_orders(&handle_, *of, to, room, copied);
        });
    }

    // The orders that an uncross now would take out, as they are for its auction alone.
    Result<std::vector<callauction_order>> expiring() const {
        return listed([&](callauction_order *to, std::size_t room, std::size_t *copied) {
            return callauction_expiring(&handle_, to, room, copied);
        });
    }

    // What is left of the day for the next one.
    Result<CarriedOver> carried_over() const {
        const auto open = orders();
        if (!open) return open.error();
        const auto now = state();
        if (!now) return now.error();
        return detail::carried_over(*open, now->reference);
    }

    // The trades of the day after the first `seen`.
    Result<std::vector<callauction_trade>> trades(Whole seen = 0) const {
        if (seen < 0) return Error::bad_number;
        const auto before = static_cast<std::size_t>(std::int64_t{seen});
        std::vector<callauction_trade> found;
        for (std::size_t copied = at_once; copied == at_once;) {
            const std::size_t had = found.size();
            found.resize(had + at_once);
            const auto answer = callauction_trades(&handle_, before + had, found.data() + had, at_once, &copied);
            if (const auto error = detail::error_of(answer)) return *error;
            found.resize(had + copied);
        }
        return found;
    }

    // How many commands were applied, the refused ones among them.
    Result<std::uint32_t> calls() const {
        std::uint32_t found = 0;
        if (const auto error = detail::error_of(callauction_calls(&handle_, &found))) return *error;
        return found;
    }

    // What the auction was opened with; its reserve is set, also where that wasn't.
    Result<Config> config() const {
        callauction_config found;
        if (const auto error = detail::error_of(callauction_config_of(&handle_, &found))) return *error;
        return detail::config_of(found);
    }

    // Where the day is.
    Result<State> state() const {
        callauction_day_state found;
        if (const auto error = detail::error_of(callauction_state(&handle_, &found))) return *error;
        return state_of(found);
    }

    // An auction of its own, as this one is now.
    Result<Auction> clone() const {
        Auction made;
        if (const auto error = detail::error_of(callauction_clone(&handle_, &made.handle_))) return *error;
        return made;
    }

    // Makes another auction with the same bounds, max_open and max_calls a copy of this one, and takes no memory. Where
    // it has others, Error::other_limits. Of itself it is a copy. One that was moved from gets memory.
    Result<Done> copy_into(Auction &other) const {
        if (&other == this) return calls() ? Result<Done>(Done{}) : Error::no_auction;
        return detail::copied_over(callauction_clone(&handle_, &other.handle_));
    }

    // Goes back to the opening.
    Result<Done> reset() {
        if (const auto error = detail::error_of(callauction_reset(&handle_))) return *error;
        return Done{};
    }

private:
    friend class Member;

    static constexpr std::size_t at_once = 1024;

    Auction() = default;

    // What a call writes that copies orders.
    template <typename Call> Result<std::vector<callauction_order>> listed(Call call) const {
        const auto config = this->config();
        if (!config) return config.error();
        return detail::listed<callauction_order>(static_cast<std::size_t>(config->max_open), call);
    }

    callauction_handle handle_{};
};

// An auction by which a journal is gone on with: how many members its day is for, how many calls it has, how many of
// them have a recorded reply, of how many of these it isn't the lawful one, and the number of the first, from 1 on; and
// how many bytes of the text its whole lines have. The auction takes any member from 0 to 255: who goes on with it and
// adds to the journal (journal_lines) gives it calls of members below `members` alone, as the day has no others.
struct Resumed {
    Auction auction;
    std::uint32_t members, calls, compared, unlawful;
    std::optional<std::uint32_t> first_unlawful;
    std::size_t taken;
};

inline Result<Resumed> Auction::resumed(std::string_view journal, BadRecord *fault) {
    Auction made;
    callauction_journal found{};
    const auto answer = callauction_journal_open(&made.handle_, journal.data(), journal.size(), &found);
    if (fault) *fault = {static_cast<JournalFault>(found.fault), found.record_number, found.field_number};
    if (const auto error = detail::error_of(answer)) return *error;
    Resumed resumed{std::move(made), found.members, found.calls, found.compared, found.unlawful, {}, found.taken};
    if (found.first_unlawful) resumed.first_unlawful = found.first_unlawful;
    return resumed;
}

// The first entry that a journal can't hold: its place, from 0 on, and why, one line of English without a full stop.
struct BadEntry {
    std::size_t place = 0;
    std::string_view why = {};
};

namespace detail {

constexpr int max_members = 64; // of a board and of a journal
constexpr std::size_t bytes_at_once = 65536; // for many whole lines

// Why a journal of a day for so many members can't hold an entry; empty where it can.
inline std::string_view why_no_entry(const callauction_entry &entry, std::uint32_t members) {
    if (entry.command.member >= members) return "the member is none of the day";
    const auto error = unrecordable(entry.command);
    if (!error) return {};
    return error == Error::bad_peak ? "the peak is above 4,294,967,295" : "the quantity is above 4,294,967,295";
}

// Adds the lines of entries to a text, or says which is the first that a day of so many members and calls can't hold.
inline std::optional<Error> add_lines(
    std::string &text, Span<const callauction_entry> entries, std::uint32_t members, std::size_t calls,
    BadEntry *fault) {
    std::size_t fit = 0;
    while (fit < entries.size() && fit < calls && why_no_entry(entries[fit], members).empty()) fit++;
    BadEntry found{fit, fit == calls ? "the day has no more calls" : std::string_view{}};
    for (std::size_t done = 0, copied = 0, written = 0; done < fit; done += copied) {
        const std::size_t had = text.size();
        text.resize(had + bytes_at_once);
        const auto answer = callauction_journal_entries(
            entries.data() + done, fit - done, text.data() + had, bytes_at_once, &copied, &written);
        const auto error = error_of(answer);
        if (error == Error::no_entry && fault)
            *fault = {done + copied, "the struct is no command, or has a reply that none gives"};
        if (error) return error;
        text.resize(had + written);
    }
    if (fit == entries.size()) return std::nullopt;
    if (found.why.empty()) found.why = why_no_entry(entries[fit], members);
    if (fault) *fault = found;
    return Error::no_entry;
}

} // namespace detail

// The lines of entries, to be added to the journal of a day for so many members: those after the lines that it has, in
// their order. Error::no_entry where one can't be held, and which in `fault`, if that is given; Error::bad_members
// where they aren't 1 to 64.
inline Result<std::string> journal_lines(
    Span<const callauction_entry> entries, Whole members = detail::max_members, BadEntry *fault = nullptr) {
    if (members < 1 || members > detail::max_members) return Error::bad_members;
    std::string text;
    const auto count = static_cast<std::uint32_t>(std::int64_t{members});
    if (const auto error = detail::add_lines(text, entries, count, SIZE_MAX, fault)) return *error;
    return text;
}

// The text of a journal: the day of a config for so many members, and the lines of entries. A reserve and clients
// aren't in it. Errors of the config as of Auction::open, and Error::bad_range where the range is above 1,000,000: an
// auction takes that, and no journal can say it. Error::bad_members where they aren't 1 to 64. Error::no_entry where a
// struct is no entry that the journal can hold and be read again, as one of a member that the day hasn't, or whose
// quantity has more than 32 bits: which and why is in `fault`, if that is given.
inline Result<std::string> journal(
    const Config &config, Whole members, Span<const callauction_entry> entries, BadEntry *fault = nullptr) {
    callauction_config given{};
    std::uint32_t count = 0;
    if (const auto unfit = detail::filled(config, given)) return *unfit;
    if (!detail::fits(members, count)) return Error::bad_members;
    std::string text(detail::bytes_at_once, '\0');
    std::size_t written = 0;
    const auto answer = callauction_journal_day(&given, count, text.data(), text.size(), &written);
    const auto error = detail::error_of(answer);
    if (error == Error::no_config) return Error::bad_range; // all else of it is a config
    if (error == Error::bad_member) return Error::bad_members;
    if (error) return *error;
    text.resize(written);
    if (const auto bad = detail::add_lines(text, entries, count, given.max_calls, fault)) return *bad;
    return text;
}

namespace detail {

// An auction to which these commands were applied one by one.
inline Result<Auction> replayed(const Config &config, Span<const callauction_command> commands) {
    auto again = Auction::open(config);
    if (!again) return again.error();
    std::vector<callauction_reply> replies(commands.size());
    if (const auto error = again->apply_many(commands, replies).second) return *error;
    return again;
}

} // namespace detail

// What the uncross of this auction did to the orders, by a board's history: its entries are applied to an auction once
// more. There are none where the history hasn't come to it.
inline Result<std::vector<callauction_outcome>> uncrossed_orders(
    const Config &config, Span<const callauction_entry> history, AuctionKind kind) {
    std::vector<callauction_command> commands;
    for (const auto &entry : history) {
        if (entry.reply.tag == CALLAUCTION_REPLY_UNCROSSED && entry.reply.auction == static_cast<std::uint8_t>(kind)) {
            auto again = detail::replayed(config, commands);
            if (!again) return again.error();
            auto uncrossed = again->uncross_orders();
            if (!uncrossed) return uncrossed.error();
            return std::move(uncrossed->orders);
        }
        commands.push_back(entry.command);
    }
    return std::vector<callauction_outcome>{};
}

// What is left for the next day after a board's history, with the clients of its orders, also where the board was
// closed: its entries are applied to an auction once more.
inline Result<CarriedOver> carried_over(const Config &config, Span<const callauction_entry> history) {
    std::vector<callauction_command> commands;
    for (const auto &entry : history) commands.push_back(entry.command);
    const auto again = detail::replayed(config, commands);
    if (!again) return again.error();
    return again->carried_over();
}

// ---- a board

// The number of a call in the board's history, from 1 on, and its reply.
struct Receipt {
    std::uint32_t number;
    Reply reply;
};

// How many calls a board has had, and what is shown after them.
struct Shown {
    std::uint32_t calls;
    Display display;
};

// The history of a board that was closed, and how many calls each member has in it.
struct Closing {
    std::vector<callauction_entry> entries;
    std::vector<std::uint32_t> counts;
};

// The journal of a board that was closed.
inline Result<std::string> journal(const Config &config, const Closing &closing) {
    return journal(config, closing.counts.size(), closing.entries);
}

// What is left of a board that was closed, for the next day.
inline Result<CarriedOver> carried_over(const Config &config, const Closing &closing) {
    return carried_over(config, Span<const callauction_entry>(closing.entries));
}

class Board;

// A member of a board: one thread at a time has it, and its board outlives it. Where the board has no such member, each
// call answers Error::no_member.
class Member {
public:
    // Records a command in the board's history. Error::busy where another call had the board at each of 32 tries.
    // Error::bad_quantity or bad_peak, and nothing is recorded, for a number above 4,294,967,295: the day's journal
    // couldn't hold it. An Auction, which keeps no history, is asked and refuses it.
    Result<Receipt> call(const Command &command) {
        const auto given = struct_of(0, command);
        if (!given) return given.error();
        return call(*given);
    }

    // As call, but it waits while another call has the board: its thread sleeps at a mutex of the board. This waiting
    // isn't proved.
    Result<Receipt> call_waiting(const Command &command) {
        const auto given = struct_of(0, command);
        if (!given) return given.error();
        return waiting([&] { return call(*given); });
    }

    // Any other call of this member, made so: member.waiting([&] { return member.ladder(); }). What it calls may wait
    // too.
    template <typename Call> auto waiting(Call call) -> decltype(call()) {
        if (!handle_) return Error::no_member;
        return until_free(std::move(call), [](const auto &found) { return !found && found.error() == Error::busy; });
    }

    // Records structs one after another, with no other call between them, and writes their receipts, as many of each:
    // how many were recorded, and the error that the next one had. The `member` of a struct isn't read: each is this
    // member's call, whoever's it was; Board::enter has what is carried over entered by its own members. One with a
    // number that no journal can hold ends them, as in call.
    [[nodiscard]] std::pair<std::size_t, std::optional<Error>> apply_many(
        Span<const callauction_command> commands, Span<callauction_receipt> receipts) {
        if (!handle_) return {0, Error::no_member};
        if (commands.size() != receipts.size()) return {0, Error::bad_length};
        std::size_t count = 0, applied = 0;
        while (count < commands.size() && !detail::unrecordable(commands[count])) count++;
        const auto answer
            = callauction_board_apply_many(handle_, commands.data(), count, receipts.data(), count, &applied);
        if (const auto error = detail::error_of(answer)) return {applied, error};
        return {applied, count < commands.size() ? detail::unrecordable(commands[count]) : std::nullopt};
    }

    // As apply_many, but it waits as call_waiting does.
    [[nodiscard]] std::pair<std::size_t, std::optional<Error>> apply_many_waiting(
        Span<const callauction_command> commands, Span<callauction_receipt> receipts) {
        if (!handle_) return {0, Error::no_member};
        return until_free(
            [&] { return apply_many(commands, receipts); },
            [](const auto &found) { return found.second == Error::busy; });
    }

    // What is shown. It takes no lock, waits for nobody, and never goes back.
    Result<Shown> look() {
        if (!handle_) return Error::no_member;
        callauction_shown shown;
        if (const auto error = detail::error_of(callauction_board_look(handle_, &shown))) return *error;
        return Shown{shown.calls, display_of(shown.display)};
    }

    // The shares at each tick, after as many calls as it says.
    Result<Ladder> ladder() {
        if (!handle_) return Error::no_member;
        callauction_config config;
        if (const auto error = detail::error_of(callauction_board_config_of(handle_, &config))) return *error;
        const std::size_t ticks = config.high - config.low + 1;
        Ladder found{std::vector<std::uint64_t>(ticks), std::vector<std::uint64_t>(ticks), {}, 0};
        const auto answer = callauction_board_ladder(
            handle_, found.bids.data(), ticks, found.asks.data(), ticks, &found.market, &found.calls);
        if (const auto error = detail::error_of(answer)) return *error;
        return found;
    }

    // Copies the trades of the day after the first `seen`, as many as fit: how many. `calls`, if it is given, gets
    // the count of the board's calls after which they are all, as of orders and expiring.
    Result<std::size_t> trades(Whole seen, Span<callauction_trade> trades, std::uint32_t *calls = nullptr) {
        if (!handle_) return Error::no_member;
        if (seen < 0) return Error::bad_number;
        const auto before = static_cast<std::size_t>(std::int64_t{seen});
        std::size_t copied = 0;
        std::uint32_t counted = 0;
        const auto answer = callauction_board_trades(handle_, before, trades.data(), trades.size(), &copied, &counted);
        if (const auto error = detail::error_of(answer)) return *error;
        if (calls) *calls = counted;
        return copied;
    }

    // The open orders of the board in priority, of a member or of all.
    Result<std::vector<callauction_order>> orders(
        std::optional<Whole> member = {}, std::uint32_t *calls = nullptr) {
        if (!handle_) return Error::no_member;
        const auto of = detail::member_number(member);
        if (!of) return Error::bad_member;
        return listed(calls, [&](callauction_order *to, std::size_t room, std::size_t *copied, std::uint32_t *counted) {
            return callauction_board_orders(handle_, *of, to, room, copied, counted);
        });
    }

    // The orders of the board that an uncross now would take out, as they are for its auction alone.
    Result<std::vector<callauction_order>> expiring(std::uint32_t *calls = nullptr) {
        return listed(calls, [&](callauction_order *to, std::size_t room, std::size_t *copied, std::uint32_t *counted) {
            return callauction_board_expiring(handle_, to, room, copied, counted);
        });
    }

    // Where the day is, after as many calls as it says.
    Result<State> state() {
        if (!handle_) return Error::no_member;
        callauction_day_state found;
        if (const auto error = detail::error_of(callauction_board_state(handle_, &found))) return *error;
        return state_of(found);
    }

    // What the uncross of this auction did to the orders; none before it. It copies the board's history and applies it
    // once more, so it takes as long as all calls of the board.
    Result<std::vector<callauction_outcome>> uncrossed_orders(AuctionKind kind) {
        if (!handle_) return Error::no_member;
        callauction_config config;
        if (const auto error = detail::error_of(callauction_board_config_of(handle_, &config))) return *error;
        const auto now = state();
        if (!now) return now.error();
        std::vector<callauction_entry> entries(now->calls);
        const auto copied = history(0, entries);
        if (!copied) return copied.error();
        return callauction::uncrossed_orders(detail::config_of(config), {entries.data(), *copied}, kind);
    }

    // Copies the entries of the board's history after the first `seen`, as many as fit: how many.
    Result<std::size_t> history(Whole seen, Span<callauction_entry> entries) {
        if (!handle_) return Error::no_member;
        if (seen < 0) return Error::bad_number;
        const auto before = static_cast<std::size_t>(std::int64_t{seen});
        std::size_t copied = 0;
        const auto answer = callauction_board_history(handle_, before, entries.data(), entries.size(), &copied);
        if (const auto error = detail::error_of(answer)) return *error;
        return copied;
    }

    // An auction of its own, as the board's is now.
    Result<Auction> auction() {
        if (!handle_) return Error::no_member;
        Auction made;
        if (const auto error = detail::error_of(callauction_board_clone(handle_, &made.handle_))) return *error;
        return made;
    }

    // Makes an auction with the board's bounds, max_open and max_calls a copy of the board's, and takes no memory.
    // Where it has others, Error::other_limits. One that was moved from is filled, which takes memory.
    Result<Done> copy_into(Auction &other) {
        if (!handle_) return Error::no_member;
        return detail::copied_over(callauction_board_clone(handle_, &other.handle_));
    }

    // How many calls of this member were recorded.
    Result<std::uint32_t> calls() const {
        if (!handle_) return Error::no_member;
        std::uint32_t found = 0;
        if (const auto error = detail::error_of(callauction_board_calls(handle_, &found))) return *error;
        return found;
    }

private:
    friend class Board;

    Member(callauction_member *handle, std::recursive_mutex *mutex) : handle_(handle), mutex_(mutex) {}

    // What a call answers that isn't busy. Until then it is made again, each time with the mutex of the board.
    template <typename Call, typename IsBusy> auto until_free(Call call, IsBusy is_busy) -> decltype(call()) {
        for (;;) {
            {
                const std::lock_guard<std::recursive_mutex> waits(*mutex_);
                auto found = call();
                if (!is_busy(found)) return found;
            }
            std::this_thread::yield();
        }
    }

    Result<Receipt> call(const callauction_command &command) {
        if (!handle_) return Error::no_member;
        if (const auto error = detail::unrecordable(command)) return *error;
        callauction_receipt receipt;
        if (const auto error = detail::error_of(callauction_board_call(handle_, &command, &receipt))) return *error;
        return Receipt{receipt.number, reply_of(receipt.reply)};
    }

    // What a call writes that copies orders, and after how many calls.
    template <typename Call> Result<std::vector<callauction_order>> listed(std::uint32_t *calls, Call call) {
        if (!handle_) return Error::no_member;
        callauction_config config;
        if (const auto error = detail::error_of(callauction_board_config_of(handle_, &config))) return *error;
        std::uint32_t counted = 0;
        auto found = detail::listed<callauction_order>(
            config.max_open, [&](callauction_order *to, std::size_t room, std::size_t *copied) {
                return call(to, room, copied, &counted);
            });
        if (calls && found) *calls = counted;
        return found;
    }

    callauction_member *handle_;
    std::recursive_mutex *mutex_;
};

class Board {
public:
    static constexpr std::size_t max_members = detail::max_members;
    static constexpr std::uint32_t usual_reserve = 16; // calls, where the config has none
    static constexpr std::uint32_t most_range = 1'000'000; // ticks, in a journal

    // As callauction_board_open. Error::bad_members where they aren't 1 to 64, Error::bad_range where no journal could
    // say it, and Error::bad_reserve where there are more than the operator, to whom the reserve leaves no call.
    static Result<Board> open(Whole members, const Config &config) {
        callauction_config given{};
        if (const auto error = detail::filled(config, given)) return *error;
        const auto asked = static_cast<std::uint64_t>(std::int64_t{members});
        const std::size_t count = asked > max_members ? max_members + 1 : asked; // one too many, as any that is greater
        Board made(count);
        const auto error = detail::error_of(callauction_board_open(made.handles_.get(), count, &given));
        if (!error && given.has_range && given.range > most_range) return Error::bad_range;
        if (!error && count > 1 && (given.has_reserve ? given.reserve : usual_reserve) >= given.max_calls)
            return Error::bad_reserve;
        if (!error) return made;
        return *error == Error::bad_capacity && (count == 0 || count > max_members) ? Error::bad_members : *error;
    }

    Board(Board &&other) noexcept
        : count_(std::exchange(other.count_, 0)), handles_(std::move(other.handles_)),
          mutex_(std::move(other.mutex_)) {}
    Board &operator=(Board &&other) noexcept {
        if (this != &other) {
            leave();
            count_ = std::exchange(other.count_, 0);
            handles_ = std::move(other.handles_);
            mutex_ = std::move(other.mutex_);
        }
        return *this;
    }
    Board(const Board &) = delete;
    Board &operator=(const Board &) = delete;
    ~Board() { leave(); }

    std::size_t members() const noexcept { return count_; }

    // A member by its number, which is below members(). Member 0 is the operator. Moving the board leaves it as it is.
    Member member(Whole number) {
        const auto place = static_cast<std::uint64_t>(std::int64_t{number});
        return place < count_ ? Member(&handles_[place], mutex_.get()) : Member(nullptr, nullptr);
    }

    // Enters what is left of another day, each order by its own member and all in their order, waiting where others
    // call: the receipts of those that were recorded, and the error that the next one had. Where all were recorded and
    // the day refused one, Error::not_entered: callauction::not_entered says which. Error::bad_member, and none is
    // recorded, where the board hasn't the member of an order.
    [[nodiscard]] std::pair<std::vector<callauction_receipt>, std::optional<Error>> enter(const CarriedOver &left) {
        std::vector<callauction_receipt> receipts;
        if (count_ == 0) return {receipts, Error::no_member};
        for (const auto &command : left.commands)
            if (command.member >= count_) return {receipts, Error::bad_member};
        for (const auto &command : left.commands) {
            callauction_receipt receipt{};
            const auto error = member(command.member).apply_many_waiting({&command, 1}, {&receipt, 1}).second;
            if (error) return {std::move(receipts), error};
            receipts.push_back(receipt);
        }
        const bool is_done = not_entered(left, receipts).empty();
        return {std::move(receipts), is_done ? std::nullopt : std::optional<Error>(Error::not_entered)};
    }

    // Closes the board, when no member calls any more: Error::misused where one does. Calls answer Error::closed from
    // then on.
    Result<Closing> close() {
        callauction_config config;
        if (count_ == 0) return Error::no_member;
        if (const auto error = detail::error_of(callauction_board_config_of(&handles_[0], &config))) return *error;
        Closing found{std::vector<callauction_entry>(config.max_calls), std::vector<std::uint32_t>(count_)};
        std::size_t written = 0;
        const auto answer = callauction_board_close(handles_.get(), count_, found.entries.data(), found.entries.size(),
            found.counts.data(), count_, &written);
        if (const auto error = detail::error_of(answer)) return *error;
        found.entries.resize(written);
        return found;
    }

private:
    explicit Board(std::size_t members)
        : count_(members), handles_(new callauction_member[members]{}), mutex_(new std::recursive_mutex) {}

    void leave() noexcept {
        for (std::size_t number = 0; handles_ && number < count_; number++) callauction_board_leave(&handles_[number]);
    }

    std::size_t count_;
    std::unique_ptr<callauction_member[]> handles_;
    std::unique_ptr<std::recursive_mutex> mutex_;
};

} // namespace callauction

#if defined(__GNUC__) && !defined(__clang__)
#pragma GCC diagnostic pop
#endif

#endif
