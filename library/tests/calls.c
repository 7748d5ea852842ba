/* Each call and each number that it answers, by worked examples: `calls`. */
#include "callauction.h"
#include <stdio.h>
#include <stdlib.h>
#include <string.h>

#define WANT(holds) \
    do { \
        if (!(holds)) { \
            fprintf(stderr, "calls: line %d: not so: %s\n", __LINE__, #holds); \
            exit(1); \
        } \
    } while (0)

enum { LOW = 190, HIGH = 210, TICKS = HIGH - LOW + 1 };
static const callauction_config usual = {LOW, HIGH, 200, 8, 20, 0, 0, 1, 0};

static callauction_command order(uint8_t member, uint8_t side, uint32_t tick, uint64_t quantity) {
    callauction_command command = {.member = member, .tag = CALLAUCTION_COMMAND_ENTER, .side = side};
    command.quantity = quantity;
    command.has_limit = tick != 0;
    command.limit = tick;
    return command;
}

static callauction_command other(uint8_t member, uint8_t tag, uint32_t id) {
    callauction_command command = {.member = member, .tag = tag, .id = id};
    return command;
}

static callauction_reply applied(callauction_handle *auction, callauction_command command) {
    callauction_reply reply;
    memset(&reply, 0xAA, sizeof reply);
    WANT(callauction_apply(auction, &command, &reply) == CALLAUCTION_DONE);
    return reply;
}

static void opened(callauction_handle *auction) { WANT(callauction_open(auction, &usual) == CALLAUCTION_DONE); }

static uint32_t calls_of(callauction_handle *auction) {
    uint32_t calls = 77;
    WANT(callauction_calls(auction, &calls) == CALLAUCTION_DONE);
    return calls;
}

/* A handle of zeros answers NO_AUCTION at each call, and writes nothing but counts of 0. */
static void a_handle_of_zeros(void) {
    callauction_handle none = {0}, second = {0};
    callauction_command ask = other(1, CALLAUCTION_COMMAND_INDICATE, 0);
    callauction_reply reply = {.tag = 99}, shown = {.tag = 98};
    callauction_config config = {.low = 97};
    callauction_market_orders market = {96, 95};
    callauction_trade trade = {.bid = 94};
    uint64_t bids[TICKS] = {93}, asks[TICKS] = {92};
    callauction_day_state state = {.calls = 88};
    uint32_t calls = 91;
    size_t count = 90, copied = 89;
    WANT(callauction_apply(&none, &ask, &reply) == CALLAUCTION_ERROR_NO_AUCTION && reply.tag == 99);
    WANT(callauction_apply_many(&none, &ask, 1, &reply, 1, &count) == CALLAUCTION_ERROR_NO_AUCTION && count == 0);
    WANT(callauction_apply_many(&none, NULL, 0, NULL, 0, &count) == CALLAUCTION_ERROR_NO_AUCTION && reply.tag == 99);
    WANT(callauction_display(&none, &shown) == CALLAUCTION_ERROR_NO_AUCTION && shown.tag == 98);
    WANT(callauction_ladder(&none, bids, TICKS, asks, TICKS, &market) == CALLAUCTION_ERROR_NO_AUCTION);
    WANT(callauction_ladder(&none, NULL, 0, NULL, 0, &market) == CALLAUCTION_ERROR_NO_AUCTION);
    WANT(bids[0] == 93 && asks[0] == 92 && market.bids == 96 && market.asks == 95);
    WANT(callauction_trades(&none, 0, &trade, 1, &copied) == CALLAUCTION_ERROR_NO_AUCTION);
    WANT(copied == 0 && trade.bid == 94);
    WANT(callauction_calls(&none, &calls) == CALLAUCTION_ERROR_NO_AUCTION && calls == 91);
    WANT(callauction_state(&none, &state) == CALLAUCTION_ERROR_NO_AUCTION && state.calls == 88);
    WANT(callauction_config_of(&none, &config) == CALLAUCTION_ERROR_NO_AUCTION && config.low == 97);
    WANT(callauction_reset(&none) == CALLAUCTION_ERROR_NO_AUCTION);
    WANT(callauction_clone(&none, &second) == CALLAUCTION_ERROR_NO_AUCTION);
    WANT(callauction_calls(&second, &calls) == CALLAUCTION_ERROR_NO_AUCTION);
    WANT(callauction_close(&none) == CALLAUCTION_ERROR_NO_AUCTION &&
         callauction_close(&none) == CALLAUCTION_ERROR_NO_AUCTION);
}

/* Each fault of an opening, at its edges, in the order in which they are looked for. */
static void openings(void) {
    static const struct {
        callauction_config config;
        uint32_t answer;
    } table[] = {
        {{0, 210, 200, 8, 20, 0, 0, 0, 0}, CALLAUCTION_ERROR_BAD_BOUNDS},
        {{211, 210, 200, 8, 20, 0, 0, 0, 0}, CALLAUCTION_ERROR_BAD_BOUNDS},
        {{999990, 1000001, 999995, 8, 20, 0, 0, 0, 0}, CALLAUCTION_ERROR_BAD_BOUNDS},
        {{1, 65537, 200, 8, 20, 0, 0, 0, 0}, CALLAUCTION_ERROR_BAD_BOUNDS},
        {{1, 65536, 65536, 1, 1, 0, 0, 0, 0}, CALLAUCTION_DONE},
        {{1000000, 1000000, 1000000, 1, 1, 0, 0, 0, 0}, CALLAUCTION_DONE},
        {{LOW, HIGH, LOW - 1, 8, 20, 0, 0, 0, 0}, CALLAUCTION_ERROR_BAD_REFERENCE},
        {{LOW, HIGH, HIGH + 1, 8, 20, 0, 0, 0, 0}, CALLAUCTION_ERROR_BAD_REFERENCE},
        {{LOW, HIGH, 200, 0, 20, 0, 0, 0, 0}, CALLAUCTION_ERROR_BAD_CAPACITY},
        {{LOW, HIGH, 200, 65537, 20, 0, 0, 0, 0}, CALLAUCTION_ERROR_BAD_CAPACITY},
        {{LOW, HIGH, 200, 8, 0, 0, 0, 0, 0}, CALLAUCTION_ERROR_BAD_CAPACITY},
        {{LOW, HIGH, 200, 8, 1048577, 0, 0, 0, 0}, CALLAUCTION_ERROR_BAD_CAPACITY},
        {{LOW, HIGH, 200, 65536, 1048576, 1, 0, 0, 0}, CALLAUCTION_DONE},
        {{0, 210, 211, 0, 0, 0, 0, 0, 0}, CALLAUCTION_ERROR_BAD_BOUNDS},
        {{LOW, HIGH, 211, 0, 0, 0, 0, 0, 0}, CALLAUCTION_ERROR_BAD_REFERENCE},
    };
    for (size_t i = 0; i < sizeof table / sizeof *table; i++) {
        callauction_handle auction = {0};
        bool opens = table[i].answer == CALLAUCTION_DONE;
        WANT(callauction_open(&auction, &table[i].config) == table[i].answer);
        WANT(callauction_close(&auction) == (opens ? CALLAUCTION_DONE : CALLAUCTION_ERROR_NO_AUCTION));
    }
    callauction_handle auction = {0};
    callauction_config bad = {0}, config;
    opened(&auction);
    WANT(callauction_open(&auction, &usual) == CALLAUCTION_ERROR_IN_USE);
    WANT(callauction_open(&auction, &bad) == CALLAUCTION_ERROR_IN_USE);
    WANT(callauction_config_of(&auction, &config) == CALLAUCTION_DONE && memcmp(&config, &usual, sizeof usual) == 0);
    WANT(callauction_close(&auction) == CALLAUCTION_DONE &&
         callauction_close(&auction) == CALLAUCTION_ERROR_NO_AUCTION);
    opened(&auction);
    WANT(callauction_close(&auction) == CALLAUCTION_DONE);
}

/* A range and a reserve may be any number with a flag of 1; without it, or with another flag, the struct is no config.
 */
static void the_config(void) {
    callauction_handle auction = {0};
    callauction_config ranged = {LOW, HIGH, 200, 8, 20, 1, 3, 0, 0}, config;
    const callauction_config bad[] = {
        {LOW, HIGH, 200, 8, 20, 7, 3, 0, 0},
        {LOW, HIGH, 200, 8, 20, 0, 3, 0, 0},
        {LOW, HIGH, 200, 8, 20, 0, 0, 2, 3},
        {LOW, HIGH, 200, 8, 20, 1, 3, 0, 3},
        {0, 0, 0, 0, 0, 2, 0, 0, 0},
    };
    for (size_t i = 0; i < sizeof bad / sizeof *bad; i++)
        WANT(callauction_open(&auction, &bad[i]) == CALLAUCTION_ERROR_NO_CONFIG);
    WANT(callauction_open(&auction, &ranged) == CALLAUCTION_DONE);
    WANT(callauction_config_of(&auction, &config) == CALLAUCTION_DONE && config.has_range == 1 && config.range == 3);
    WANT(config.has_reserve == 1 && config.reserve == 0);
    WANT(callauction_close(&auction) == CALLAUCTION_DONE);
}

/* A number without a meaning makes the struct no command, and what the tag doesn't need isn't read. */
static void no_commands(void) {
    static const callauction_command bad[] = {
        {.tag = 0},
        {.tag = 8},
        {.tag = 255},
        {.tag = CALLAUCTION_COMMAND_ENTER, .quantity = 5},
        {.tag = CALLAUCTION_COMMAND_ENTER, .quantity = 5, .side = 3},
        {.tag = CALLAUCTION_COMMAND_ENTER, .quantity = 5, .side = 1, .restriction = 3},
        {.tag = CALLAUCTION_COMMAND_ENTER, .quantity = 5, .side = 1, .has_limit = 2, .limit = 200},
        {.tag = CALLAUCTION_COMMAND_ENTER, .quantity = 5, .side = 1, .has_peak = 2, .peak = 1},
        {.tag = CALLAUCTION_COMMAND_CHANGE, .quantity = 5, .id = 1, .has_limit = 255},
        {.tag = CALLAUCTION_COMMAND_ENTER, .quantity = 5, .side = 1, .limit = 200},
        {.tag = CALLAUCTION_COMMAND_ENTER, .quantity = 5, .side = 1, .has_limit = 1, .limit = 200, .peak = 1},
        {.tag = CALLAUCTION_COMMAND_CHANGE, .quantity = 5, .id = 1, .limit = 200},
    };
    callauction_handle auction = {0};
    callauction_reply reply = {.tag = 99, .id = 7};
    opened(&auction);
    applied(&auction, order(1, CALLAUCTION_SIDE_BID, 200, 5));
    for (size_t i = 0; i < sizeof bad / sizeof *bad; i++)
        WANT(callauction_apply(&auction, &bad[i], &reply) == CALLAUCTION_ERROR_NO_COMMAND);
    WANT(reply.tag == 99 && reply.id == 7 && calls_of(&auction) == 1);
    callauction_command ask = {.tag = CALLAUCTION_COMMAND_INDICATE, .side = 9, .restriction = 9};
    ask.has_limit = ask.has_peak = 9;
    reply = applied(&auction, ask);
    WANT(reply.tag == CALLAUCTION_REPLY_UNPRICED);
    WANT(reply.has_best_bid == 1 && reply.best_bid == 200 && reply.has_best_ask == 0);
    WANT(callauction_close(&auction) == CALLAUCTION_DONE);
}

/* After max_calls commands no more are taken, and nothing changes. */
static void a_full_auction(void) {
    callauction_handle auction = {0};
    callauction_command ask = other(1, CALLAUCTION_COMMAND_INDICATE, 0), none = {0};
    callauction_reply reply = {.tag = 99};
    opened(&auction);
    for (uint32_t i = 0; i < usual.max_calls; i++) applied(&auction, ask);
    WANT(callauction_apply(&auction, &ask, &reply) == CALLAUCTION_ERROR_FULL && reply.tag == 99);
    WANT(callauction_apply(&auction, &none, &reply) == CALLAUCTION_ERROR_NO_COMMAND &&
         calls_of(&auction) == usual.max_calls);
    WANT(callauction_display(&auction, &reply) == CALLAUCTION_DONE && reply.tag == CALLAUCTION_REPLY_UNPRICED);
    WANT(callauction_reset(&auction) == CALLAUCTION_DONE && calls_of(&auction) == 0);
    WANT(applied(&auction, ask).tag == CALLAUCTION_REPLY_UNPRICED && calls_of(&auction) == 1);
    WANT(callauction_close(&auction) == CALLAUCTION_DONE);
}

/* The last calls are the operator's: of 20, with a reserve of 3, another member makes 17 at the most. */
static void the_reserve(void) {
    callauction_handle auction = {0}, copy = {0}, over = {0};
    callauction_config config = usual;
    callauction_command ask = other(1, CALLAUCTION_COMMAND_INDICATE, 0), none = {.member = 1};
    callauction_command own = other(0, CALLAUCTION_COMMAND_INDICATE, 0);
    callauction_command both[3] = {own, ask, own};
    callauction_reply replies[3] = {{.tag = 99}, {.tag = 99}, {.tag = 99}};
    callauction_day_state state;
    size_t done = 77;
    config.reserve = 3;
    WANT(callauction_open(&auction, &config) == CALLAUCTION_DONE);
    WANT(callauction_state(&auction, &state) == CALLAUCTION_DONE && state.calls_left_to_members == 17);
    for (uint32_t i = 0; i < 16; i++) applied(&auction, ask);
    WANT(callauction_clone(&auction, &copy) == CALLAUCTION_DONE);
    applied(&auction, ask);
    WANT(callauction_state(&auction, &state) == CALLAUCTION_DONE);
    WANT(state.calls == 17 && state.calls_left == 3 && state.calls_left_to_members == 0);
    WANT(callauction_apply(&auction, &ask, replies) == CALLAUCTION_ERROR_FULL && replies[0].tag == 99);
    WANT(callauction_apply(&auction, &none, replies) == CALLAUCTION_ERROR_NO_COMMAND && calls_of(&auction) == 17);
    WANT(callauction_apply_many(&auction, both, 3, replies, 3, &done) == CALLAUCTION_ERROR_FULL && done == 1);
    WANT(replies[0].tag == CALLAUCTION_REPLY_UNPRICED && replies[1].tag == 99 && calls_of(&auction) == 18);
    applied(&auction, own);
    WANT(applied(&auction, other(0, CALLAUCTION_COMMAND_UNCROSS, 0)).tag == CALLAUCTION_REPLY_UNCROSSED);
    WANT(callauction_apply(&auction, &own, replies) == CALLAUCTION_ERROR_FULL && calls_of(&auction) == 20);
    /* copies have the reserve, and so has an auction that one is written over; a reset keeps it */
    WANT(callauction_open(&over, &usual) == CALLAUCTION_DONE && callauction_clone(&copy, &over) == CALLAUCTION_DONE);
    WANT(callauction_config_of(&over, &config) == CALLAUCTION_DONE && config.reserve == 3);
    WANT(callauction_clone(&over, &auction) == CALLAUCTION_DONE);
    applied(&auction, ask);
    WANT(callauction_apply(&auction, &ask, replies) == CALLAUCTION_ERROR_FULL);
    WANT(callauction_reset(&copy) == CALLAUCTION_DONE && callauction_state(&copy, &state) == CALLAUCTION_DONE);
    WANT(state.calls_left == 20 && state.calls_left_to_members == 17);
    WANT(callauction_close(&over) == CALLAUCTION_DONE && callauction_close(&copy) == CALLAUCTION_DONE);
    WANT(callauction_close(&auction) == CALLAUCTION_DONE);
    /* with as many as there are calls no other member makes any, and nothing overflows */
    config = usual;
    config.reserve = UINT32_MAX;
    WANT(callauction_open(&auction, &config) == CALLAUCTION_DONE);
    WANT(callauction_apply(&auction, &ask, replies) == CALLAUCTION_ERROR_FULL && calls_of(&auction) == 0);
    WANT(applied(&auction, own).tag == CALLAUCTION_REPLY_UNPRICED);
    WANT(callauction_state(&auction, &state) == CALLAUCTION_DONE && state.calls_left_to_members == 0);
    WANT(callauction_close(&auction) == CALLAUCTION_DONE);
}

/* A day with every kind of reply, worked out from the rules. */
static void every_reply(void) {
    callauction_handle auction = {0};
    callauction_config config = usual;
    callauction_command iceberg = order(2, CALLAUCTION_SIDE_ASK, 199, 30), shorter = order(1, 0, 201, 40);
    callauction_reply reply;
    callauction_trade trade = {0};
    size_t copied;
    config.has_range = 1;
    config.range = 5;
    WANT(callauction_open(&auction, &config) == CALLAUCTION_DONE);
    reply = applied(&auction, order(1, CALLAUCTION_SIDE_BID, 201, 50));
    WANT(reply.tag == CALLAUCTION_REPLY_ENTERED && reply.id == 1);
    iceberg.has_peak = 1;
    iceberg.peak = 10;
    WANT(applied(&auction, iceberg).id == 2);
    reply = applied(&auction, other(2, CALLAUCTION_COMMAND_ORDER_STATUS, 2));
    WANT(reply.tag == CALLAUCTION_REPLY_OPEN_ORDER && reply.side == CALLAUCTION_SIDE_ASK && reply.has_tick == 1);
    WANT(reply.tick == 199 && reply.quantity == 30 && reply.visible == 10);
    shorter.tag = CALLAUCTION_COMMAND_CHANGE;
    shorter.id = 1;
    reply = applied(&auction, shorter);
    WANT(reply.tag == CALLAUCTION_REPLY_CHANGED && reply.kept == 1);
    /* 30 shares at 199 or 201 with 10 more bid: the surplus is on the bid side, the highest limit is the price */
    reply = applied(&auction, other(3, CALLAUCTION_COMMAND_INDICATE, 0));
    WANT(reply.tag == CALLAUCTION_REPLY_PRICED && reply.has_tick == 1 && reply.tick == 201 && reply.volume == 30);
    WANT(reply.surplus == 10 && reply.side == CALLAUCTION_SIDE_BID);
    reply = applied(&auction, other(1, CALLAUCTION_COMMAND_UNCROSS, 0));
    WANT(reply.tag == CALLAUCTION_REPLY_REFUSED && reply.refusal == CALLAUCTION_REFUSAL_NOT_OPERATOR);
    reply = applied(&auction, other(0, CALLAUCTION_COMMAND_UNCROSS, 0));
    WANT(reply.tag == CALLAUCTION_REPLY_UNCROSSED && reply.auction == CALLAUCTION_AUCTION_OPENING && reply.trades == 1);
    WANT(reply.has_tick == 1 && reply.tick == 201 && reply.volume == 30 && reply.surplus == 10);
    reply = applied(&auction, other(9, CALLAUCTION_COMMAND_READ_TRADE, 1));
    WANT(reply.tag == CALLAUCTION_REPLY_TRADED && reply.id == 1 && reply.ask == 2);
    WANT(reply.tick == 201 && reply.quantity == 30);
    WANT(callauction_trades(&auction, 0, &trade, 1, &copied) == CALLAUCTION_DONE && copied == 1);
    WANT(trade.bid == 1 && trade.ask == 2 && trade.tick == 201 && trade.quantity == 30);
    /* what is left is a bid for 10 at 201; a price of 208 lies 7 ticks from the reference of 201 */
    WANT(applied(&auction, other(1, CALLAUCTION_COMMAND_DELETE, 1)).tag == CALLAUCTION_REPLY_DELETED);
    applied(&auction, order(1, CALLAUCTION_SIDE_BID, 208, 5));
    applied(&auction, order(2, CALLAUCTION_SIDE_ASK, 208, 5));
    reply = applied(&auction, other(0, CALLAUCTION_COMMAND_UNCROSS, 0));
    WANT(reply.tag == CALLAUCTION_REPLY_INTERRUPTED && reply.tick == 208);
    WANT(reply.volume == 5 && reply.surplus == 0 && reply.side == CALLAUCTION_SIDE_NONE);
    WANT(callauction_close(&auction) == CALLAUCTION_DONE);
}

/* Many commands: the replies of one by one, up to the first error, and those after stay. */
static void many(void) {
    callauction_handle auction = {0};
    callauction_command commands[6] = {
        order(1, CALLAUCTION_SIDE_BID, 200, 5),
        order(2, CALLAUCTION_SIDE_ASK, 200, 5),
        other(1, CALLAUCTION_COMMAND_INDICATE, 0),
        {.tag = 9},
        other(1, CALLAUCTION_COMMAND_DELETE, 1),
        other(1, CALLAUCTION_COMMAND_INDICATE, 0),
    };
    callauction_reply replies[6];
    size_t done = 77;
    memset(replies, 0xAA, sizeof replies);
    opened(&auction);
    WANT(callauction_apply_many(&auction, commands, 6, replies, 5, &done) == CALLAUCTION_ERROR_BAD_LENGTH && done == 0);
    WANT(callauction_apply_many(&auction, commands, 2, replies, 3, &done) == CALLAUCTION_ERROR_BAD_LENGTH && done == 0);
    WANT(calls_of(&auction) == 0 && replies[0].tag == 0xAA);
    WANT(callauction_apply_many(&auction, NULL, 0, NULL, 0, &done) == CALLAUCTION_DONE && done == 0);
    WANT(callauction_apply_many(&auction, commands, 6, replies, 6, &done) == CALLAUCTION_ERROR_NO_COMMAND && done == 3);
    WANT(replies[0].id == 1 && replies[1].id == 2 &&
         replies[2].tag == CALLAUCTION_REPLY_PRICED && replies[3].tag == 0xAA);
    WANT(calls_of(&auction) == 3);
    WANT(callauction_apply_many(&auction, commands + 4, 2, replies + 4, 2, &done) == CALLAUCTION_DONE && done == 2);
    WANT(replies[4].tag == CALLAUCTION_REPLY_DELETED &&
         replies[5].tag == CALLAUCTION_REPLY_UNPRICED && calls_of(&auction) == 5);
    WANT(callauction_close(&auction) == CALLAUCTION_DONE);
}

/* The ladder has the orders that count, bids as bids and asks as asks, and wants arrays of just its length. */
static void the_ladder(void) {
    callauction_handle auction = {0};
    callauction_command waiting = order(1, CALLAUCTION_SIDE_BID, 195, 1000);
    callauction_market_orders market = {77, 78};
    uint64_t bids[TICKS + 1] = {79}, asks[TICKS + 1] = {80};
    opened(&auction);
    waiting.restriction = CALLAUCTION_RESTRICTION_CLOSING_ONLY;
    applied(&auction, waiting);
    applied(&auction, order(1, CALLAUCTION_SIDE_BID, LOW, 5));
    applied(&auction, order(1, CALLAUCTION_SIDE_BID, 195, 6));
    applied(&auction, order(2, CALLAUCTION_SIDE_ASK, 195, 7));
    applied(&auction, order(2, CALLAUCTION_SIDE_ASK, HIGH, 8));
    applied(&auction, order(1, CALLAUCTION_SIDE_BID, 0, 9));
    applied(&auction, order(2, CALLAUCTION_SIDE_ASK, 0, 11));
    WANT(callauction_ladder(&auction, bids, TICKS + 1, asks, TICKS, &market) == CALLAUCTION_ERROR_BAD_LENGTH);
    WANT(callauction_ladder(&auction, bids, TICKS, asks, TICKS - 1, &market) == CALLAUCTION_ERROR_BAD_LENGTH);
    WANT(callauction_ladder(&auction, NULL, 0, NULL, 0, &market) == CALLAUCTION_ERROR_BAD_LENGTH);
    WANT(bids[0] == 79 && asks[0] == 80 && market.bids == 77 && market.asks == 78);
    WANT(callauction_ladder(&auction, bids, TICKS, asks, TICKS, &market) == CALLAUCTION_DONE);
    for (int tick = LOW; tick <= HIGH; tick++) {
        WANT(bids[tick - LOW] == (tick == LOW ? 5u : tick == 195 ? 6u : 0u));
        WANT(asks[tick - LOW] == (tick == 195 ? 7u : tick == HIGH ? 8u : 0u));
    }
    WANT(market.bids == 9 && market.asks == 11);
    WANT(callauction_close(&auction) == CALLAUCTION_DONE);
}

/* Trades from a number on: after none, some, all and more than all. */
static void the_trades(void) {
    callauction_handle auction = {0};
    callauction_trade trades[4] = {{.bid = 77}, {.bid = 77}, {.bid = 77}, {.bid = 77}};
    size_t copied = 76;
    opened(&auction);
    for (int i = 0; i < 3; i++) applied(&auction, order(1, CALLAUCTION_SIDE_BID, 200, 5));
    applied(&auction, order(2, CALLAUCTION_SIDE_ASK, 200, 12));
    WANT(callauction_trades(&auction, 0, trades, 4, &copied) == CALLAUCTION_DONE && copied == 0 && trades[0].bid == 77);
    WANT(applied(&auction, other(0, CALLAUCTION_COMMAND_UNCROSS, 0)).trades == 3);
    WANT(callauction_trades(&auction, 0, trades, 2, &copied) == CALLAUCTION_DONE && copied == 2);
    WANT(trades[0].bid == 1 && trades[1].bid == 2 && trades[1].quantity == 5 && trades[2].bid == 77);
    WANT(callauction_trades(&auction, 2, trades, 4, &copied) == CALLAUCTION_DONE && copied == 1);
    WANT(trades[0].bid == 3 && trades[0].ask == 4 && trades[0].quantity == 2 && trades[1].bid == 2);
    WANT(callauction_trades(&auction, 3, trades, 4, &copied) == CALLAUCTION_DONE && copied == 0);
    WANT(callauction_trades(&auction, SIZE_MAX, trades, 4, &copied) == CALLAUCTION_DONE && copied == 0);
    WANT(callauction_trades(&auction, 0, NULL, 0, &copied) == CALLAUCTION_DONE && copied == 0);
    WANT(callauction_close(&auction) == CALLAUCTION_DONE);
}

/* A copy is as its original, and each goes on by itself. */
static void copies(void) {
    callauction_handle auction = {0}, copy = {0}, third = {0};
    callauction_reply here, there;
    opened(&auction);
    applied(&auction, order(1, CALLAUCTION_SIDE_BID, 200, 5));
    applied(&auction, order(2, CALLAUCTION_SIDE_ASK, 200, 5));
    WANT(callauction_clone(&auction, &copy) == CALLAUCTION_DONE && calls_of(&copy) == 2);
    WANT(callauction_clone(&auction, &auction) == CALLAUCTION_ERROR_MISUSED);
    WANT(applied(&copy, other(0, CALLAUCTION_COMMAND_UNCROSS, 0)).trades == 1);
    WANT(callauction_display(&auction, &here) == CALLAUCTION_DONE);
    WANT(here.tag == CALLAUCTION_REPLY_PRICED && here.volume == 5);
    WANT(callauction_display(&copy, &there) == CALLAUCTION_DONE && there.tag == CALLAUCTION_REPLY_UNPRICED);
    WANT(calls_of(&auction) == 2 && calls_of(&copy) == 3);
    WANT(callauction_clone(&third, &copy) == CALLAUCTION_ERROR_NO_AUCTION &&
         callauction_reset(&auction) == CALLAUCTION_DONE);
    WANT(applied(&copy, other(1, CALLAUCTION_COMMAND_READ_TRADE, 1)).quantity == 5);
    WANT(callauction_close(&auction) == CALLAUCTION_DONE);
    WANT(applied(&copy, order(3, CALLAUCTION_SIDE_BID, 0, 1)).id == 3);
    WANT(callauction_close(&copy) == CALLAUCTION_DONE);
}

/* A copy over an auction of the same limits forgets what that was, and goes on by itself. */
static void copies_over_another(void) {
    callauction_handle auction = {0}, second = {0};
    callauction_config config = usual, changed[4] = {usual, usual, usual, usual};
    callauction_reply here, there;
    size_t copied;
    config.reference = 205;
    config.has_range = 1;
    config.range = 1;
    changed[0].low++;
    changed[1].high++;
    changed[2].max_open++;
    changed[3].max_calls++;
    opened(&auction);
    applied(&auction, order(1, CALLAUCTION_SIDE_BID, 200, 5));
    for (size_t i = 0; i < 4; i++) {
        WANT(callauction_open(&second, &changed[i]) == CALLAUCTION_DONE);
        applied(&second, order(2, CALLAUCTION_SIDE_ASK, 201, 5));
        WANT(callauction_clone(&auction, &second) == CALLAUCTION_ERROR_IN_USE && calls_of(&second) == 1);
        WANT(callauction_display(&second, &there) == CALLAUCTION_DONE && there.best_ask == 201 && !there.has_best_bid);
        WANT(callauction_close(&second) == CALLAUCTION_DONE);
    }
    WANT(callauction_open(&second, &config) == CALLAUCTION_DONE);
    for (int i = 0; i < 6; i++) applied(&second, order(2, CALLAUCTION_SIDE_ASK, 206, 5));
    applied(&second, order(3, CALLAUCTION_SIDE_BID, 206, 12));
    WANT(applied(&second, other(0, CALLAUCTION_COMMAND_UNCROSS, 0)).trades == 3);
    WANT(callauction_clone(&auction, &second) == CALLAUCTION_DONE && calls_of(&second) == 1);
    WANT(callauction_config_of(&second, &config) == CALLAUCTION_DONE && memcmp(&config, &usual, sizeof usual) == 0);
    WANT(callauction_display(&auction, &here) == CALLAUCTION_DONE);
    WANT(callauction_display(&second, &there) == CALLAUCTION_DONE && memcmp(&here, &there, sizeof here) == 0);
    WANT(callauction_trades(&second, 0, NULL, 0, &copied) == CALLAUCTION_DONE);
    WANT(applied(&second, order(2, CALLAUCTION_SIDE_ASK, 200, 2)).id == 2);
    WANT(applied(&second, other(0, CALLAUCTION_COMMAND_UNCROSS, 0)).trades == 1 && calls_of(&auction) == 1);
    WANT(callauction_clone(&second, &auction) == CALLAUCTION_DONE && calls_of(&auction) == 3);
    WANT(applied(&auction, other(1, CALLAUCTION_COMMAND_READ_TRADE, 1)).quantity == 2);
    WANT(callauction_close(&auction) == CALLAUCTION_DONE && callauction_close(&second) == CALLAUCTION_DONE);
}

/* Bids before asks, market orders first, then by limit and by time, with what was executed of each. */
static void the_orders(void) {
    static const uint32_t all[] = {4, 3, 5, 1, 6, 2}, of_2[] = {6, 2}, left[] = {3, 5, 1};
    callauction_handle auction = {0};
    callauction_command waiting = order(2, CALLAUCTION_SIDE_ASK, 195, 9);
    callauction_command iceberg = order(1, CALLAUCTION_SIDE_BID, 200, 50);
    callauction_order orders[8], before[8];
    size_t copied = 77;
    waiting.restriction = CALLAUCTION_RESTRICTION_OPENING_ONLY;
    iceberg.has_peak = 1;
    iceberg.peak = 8;
    opened(&auction);
    applied(&auction, order(1, CALLAUCTION_SIDE_BID, 199, 5));
    applied(&auction, order(2, CALLAUCTION_SIDE_ASK, 210, 6));
    applied(&auction, iceberg);
    applied(&auction, order(3, CALLAUCTION_SIDE_BID, 0, 4));
    applied(&auction, order(3, CALLAUCTION_SIDE_BID, 200, 7));
    applied(&auction, waiting);
    WANT(callauction_orders(&auction, CALLAUCTION_ALL_MEMBERS, orders, 8, &copied) == CALLAUCTION_DONE && copied == 6);
    for (size_t i = 0; i < 6; i++) WANT(orders[i].id == all[i] && orders[i].filled == 0);
    WANT(orders[0].has_limit == 0 && orders[0].limit == 0 && orders[0].side == CALLAUCTION_SIDE_BID);
    WANT(orders[1].quantity == 50 && orders[1].visible == 8 && orders[1].has_limit == 1 && orders[1].limit == 200);
    WANT(orders[1].has_peak == 1 && orders[1].peak == 8 && orders[0].has_peak == 0 && orders[0].peak == 0);
    WANT(orders[4].restriction == CALLAUCTION_RESTRICTION_OPENING_ONLY && orders[4].side == CALLAUCTION_SIDE_ASK);
    WANT(orders[4].member == 2 && orders[4].visible == 9);
    memset(orders, 0xAA, sizeof orders);
    memset(before, 0xAA, sizeof before);
    WANT(callauction_orders(&auction, 2, orders, 1, &copied) == CALLAUCTION_DONE && copied == 1);
    WANT(orders[0].id == of_2[0] && memcmp(&orders[1], &before[1], sizeof *orders) == 0);
    WANT(callauction_orders(&auction, 2, orders, 8, &copied) == CALLAUCTION_DONE &&
         copied == 2 && orders[1].id == of_2[1]);
    WANT(callauction_orders(&auction, 255, NULL, 0, &copied) == CALLAUCTION_DONE && copied == 0);
    WANT(callauction_orders(&auction, 257, orders, 8, &copied) == CALLAUCTION_ERROR_BAD_MEMBER && copied == 0);
    WANT(callauction_orders(&auction, UINT32_MAX, orders, 8, &copied) == CALLAUCTION_ERROR_BAD_MEMBER);
    /* 61 shares bid at 200, 9 offered: order 4 gets 4 of them, order 3 the other 5, and order 6 has nothing left */
    WANT(callauction_expiring(&auction, orders, 8, &copied) == CALLAUCTION_DONE && copied == 0);
    iceberg = order(2, CALLAUCTION_SIDE_ASK, 210, 3);
    iceberg.restriction = CALLAUCTION_RESTRICTION_OPENING_ONLY;
    applied(&auction, iceberg);
    WANT(callauction_expiring(&auction, orders, 8, &copied) == CALLAUCTION_DONE && copied == 1);
    WANT(orders[0].id == 7 && orders[0].quantity == 3 && orders[0].filled == 0);
    WANT(applied(&auction, other(0, CALLAUCTION_COMMAND_UNCROSS, 0)).trades == 2);
    WANT(callauction_orders(&auction, CALLAUCTION_ALL_MEMBERS, orders, 8, &copied) == CALLAUCTION_DONE && copied == 4);
    WANT(orders[0].id == left[0] && orders[0].quantity == 45 && orders[0].filled == 5 && orders[0].visible == 8);
    WANT(orders[1].id == left[1] && orders[1].filled == 0 && orders[2].id == left[2] && orders[3].id == 2);
    WANT(callauction_expiring(&auction, NULL, 0, &copied) == CALLAUCTION_DONE && copied == 0);
    WANT(callauction_close(&auction) == CALLAUCTION_DONE);
    WANT(callauction_orders(&auction, 257, orders, 8, &copied) == CALLAUCTION_ERROR_NO_AUCTION && copied == 0);
    WANT(callauction_expiring(&auction, orders, 8, &copied) == CALLAUCTION_ERROR_NO_AUCTION && copied == 0);
}

static bool is_state(const callauction_handle *auction, callauction_day_state wanted) {
    callauction_day_state state = {0};
    WANT(callauction_state(auction, &state) == CALLAUCTION_DONE);
    return state.reference == wanted.reference && state.calls == wanted.calls &&
           state.calls_left == wanted.calls_left && state.calls_left_to_members == wanted.calls_left_to_members &&
           state.auction == wanted.auction &&
           state.in_call == wanted.in_call && state.extended == wanted.extended;
}

/* Orders of 5 shares at one tick, and the uncross of them. */
static uint8_t uncrossed_at(callauction_handle *auction, uint32_t tick) {
    applied(auction, order(1, CALLAUCTION_SIDE_BID, tick, 5));
    applied(auction, order(2, CALLAUCTION_SIDE_ASK, tick, 5));
    return applied(auction, other(0, CALLAUCTION_COMMAND_UNCROSS, 0)).tag;
}

/* The reference is the config's and then the last price; an interruption extends one call phase; copies know it too. */
static void the_state(void) {
    callauction_config config = usual;
    callauction_handle auction = {0}, copy = {0}, over = {0};
    config.has_range = 1;
    config.range = 3;
    WANT(callauction_open(&auction, &config) == CALLAUCTION_DONE);
    WANT(callauction_open(&over, &config) == CALLAUCTION_DONE);
    WANT(is_state(&auction, (callauction_day_state){200, 0, 20, 20, CALLAUCTION_AUCTION_OPENING, 1, 0}));
    WANT(applied(&auction, other(1, CALLAUCTION_COMMAND_UNCROSS, 0)).refusal == CALLAUCTION_REFUSAL_NOT_OPERATOR);
    WANT(uncrossed_at(&auction, 204) == CALLAUCTION_REPLY_INTERRUPTED);
    WANT(is_state(&auction, (callauction_day_state){200, 4, 16, 16, CALLAUCTION_AUCTION_OPENING, 1, 1}));
    applied(&auction, other(1, CALLAUCTION_COMMAND_INDICATE, 0));
    WANT(callauction_clone(&auction, &copy) == CALLAUCTION_DONE);
    WANT(callauction_clone(&auction, &over) == CALLAUCTION_DONE);
    WANT(is_state(&copy, (callauction_day_state){200, 5, 15, 15, CALLAUCTION_AUCTION_OPENING, 1, 1}));
    WANT(applied(&over, other(0, CALLAUCTION_COMMAND_UNCROSS, 0)).tag == CALLAUCTION_REPLY_UNCROSSED);
    WANT(is_state(&over, (callauction_day_state){204, 6, 14, 14, CALLAUCTION_AUCTION_INTRADAY, 1, 0}));
    WANT(uncrossed_at(&over, 208) == CALLAUCTION_REPLY_INTERRUPTED);
    WANT(is_state(&over, (callauction_day_state){204, 9, 11, 11, CALLAUCTION_AUCTION_INTRADAY, 1, 1}));
    WANT(callauction_clone(&over, &copy) == CALLAUCTION_DONE && callauction_reset(&copy) == CALLAUCTION_DONE);
    WANT(is_state(&copy, (callauction_day_state){200, 0, 20, 20, CALLAUCTION_AUCTION_OPENING, 1, 0}));
    WANT(applied(&over, other(0, CALLAUCTION_COMMAND_UNCROSS, 0)).tick == 208);
    WANT(applied(&over, other(0, CALLAUCTION_COMMAND_UNCROSS, 0)).auction == CALLAUCTION_AUCTION_CLOSING);
    WANT(is_state(&over, (callauction_day_state){208, 11, 9, 9, 0, 0, 0}));
    WANT(callauction_close(&auction) == CALLAUCTION_DONE && callauction_close(&copy) == CALLAUCTION_DONE);
    WANT(callauction_close(&over) == CALLAUCTION_DONE);
}

static bool is_outcome(const callauction_outcome *outcome, uint32_t id, uint64_t filled, uint64_t left, bool expired) {
    return outcome->id == id && outcome->filled == filled && outcome->left == left && outcome->expired == expired;
}

/* An uncross says of each order what it executed, what it left and what it took out, in the priority that they had. */
static void the_outcomes(void) {
    callauction_handle auction = {0};
    callauction_command leaving = order(3, CALLAUCTION_SIDE_ASK, 201, 9), high = order(4, CALLAUCTION_SIDE_ASK, 210, 3);
    callauction_outcome outcomes[8], untouched;
    callauction_reply reply;
    size_t copied = 77;
    leaving.restriction = high.restriction = CALLAUCTION_RESTRICTION_OPENING_ONLY;
    opened(&auction);
    applied(&auction, order(1, CALLAUCTION_SIDE_BID, 201, 5));
    applied(&auction, order(2, CALLAUCTION_SIDE_BID, 0, 6));
    applied(&auction, order(1, CALLAUCTION_SIDE_BID, 195, 7));
    applied(&auction, order(2, CALLAUCTION_SIDE_ASK, 200, 4));
    applied(&auction, leaving);
    applied(&auction, high);
    memset(outcomes, 0xAA, sizeof outcomes);
    memset(&untouched, 0xAA, sizeof untouched);
    /* 11 shares are bid at 201 or above, and 13 are asked at 201 or below: two of the second ask's are left */
    WANT(callauction_uncross(&auction, &reply, outcomes, 8, &copied) == CALLAUCTION_DONE && copied == 5);
    WANT(reply.tag == CALLAUCTION_REPLY_UNCROSSED && reply.tick == 201 && reply.volume == 11 && reply.trades == 3);
    WANT(is_outcome(&outcomes[0], 2, 6, 0, false) && is_outcome(&outcomes[1], 1, 5, 0, false));
    WANT(is_outcome(&outcomes[2], 4, 4, 0, false) && is_outcome(&outcomes[3], 5, 7, 2, true));
    WANT(is_outcome(&outcomes[4], 6, 0, 3, true) && memcmp(&outcomes[5], &untouched, sizeof untouched) == 0);
    for (size_t i = 0; i < 5; i++) WANT(outcomes[i].tick == 201);
    WANT(outcomes[0].member == 2 && outcomes[0].side == CALLAUCTION_SIDE_BID);
    WANT(outcomes[3].member == 3 && outcomes[3].side == CALLAUCTION_SIDE_ASK && calls_of(&auction) == 7);
    /* as many as fit; without a price, what is taken out alone */
    high.restriction = CALLAUCTION_RESTRICTION_CLOSING_ONLY;
    applied(&auction, high);
    applied(&auction, high);
    memset(outcomes, 0xAA, sizeof outcomes);
    WANT(callauction_uncross(&auction, &reply, NULL, 0, &copied) == CALLAUCTION_DONE && copied == 0);
    WANT(callauction_uncross(&auction, &reply, outcomes, 1, &copied) == CALLAUCTION_DONE && copied == 1);
    WANT(reply.auction == CALLAUCTION_AUCTION_CLOSING && reply.has_tick == 0 && outcomes[0].tick == 0);
    WANT(is_outcome(&outcomes[0], 7, 0, 3, true) && memcmp(&outcomes[1], &untouched, sizeof untouched) == 0);
    WANT(callauction_uncross(&auction, &reply, outcomes, 8, &copied) == CALLAUCTION_DONE && copied == 0);
    WANT(reply.refusal == CALLAUCTION_REFUSAL_DAY_OVER && calls_of(&auction) == 12);
    for (int i = 12; i < 20; i++) applied(&auction, other(1, CALLAUCTION_COMMAND_INDICATE, 0));
    reply.tag = 99;
    copied = 77;
    WANT(callauction_uncross(&auction, &reply, outcomes, 8, &copied) == CALLAUCTION_ERROR_FULL && copied == 0);
    WANT(reply.tag == 99 && is_outcome(&outcomes[0], 7, 0, 3, true) && calls_of(&auction) == 20);
    WANT(callauction_close(&auction) == CALLAUCTION_DONE);
    WANT(callauction_uncross(&auction, &reply, outcomes, 8, &copied) == CALLAUCTION_ERROR_NO_AUCTION && copied == 0);
}

/* After a reset ids, trades, reference and auction are those of an opening. */
static void a_reset(void) {
    callauction_handle auction = {0};
    callauction_reply shown;
    opened(&auction);
    applied(&auction, order(1, CALLAUCTION_SIDE_BID, 205, 5));
    applied(&auction, order(2, CALLAUCTION_SIDE_ASK, 205, 5));
    WANT(applied(&auction, other(0, CALLAUCTION_COMMAND_UNCROSS, 0)).tick == 205);
    applied(&auction, order(1, CALLAUCTION_SIDE_BID, 201, 5));
    WANT(callauction_reset(&auction) == CALLAUCTION_DONE && callauction_reset(&auction) == CALLAUCTION_DONE);
    WANT(callauction_display(&auction, &shown) == CALLAUCTION_DONE && shown.tag == CALLAUCTION_REPLY_UNPRICED);
    WANT(shown.has_best_bid == 0 && shown.has_best_ask == 0 && calls_of(&auction) == 0);
    WANT(applied(&auction, other(1, CALLAUCTION_COMMAND_READ_TRADE, 1)).refusal == CALLAUCTION_REFUSAL_NO_SUCH_TRADE);
    WANT(applied(&auction, order(1, CALLAUCTION_SIDE_BID, 0, 5)).id == 1);
    WANT(applied(&auction, order(2, CALLAUCTION_SIDE_ASK, 0, 5)).id == 2);
    /* market orders alone are executed at the reference, which is the config's again */
    shown = applied(&auction, other(0, CALLAUCTION_COMMAND_UNCROSS, 0));
    WANT(shown.tick == 200 && shown.auction == CALLAUCTION_AUCTION_OPENING && shown.trades == 1);
    WANT(callauction_close(&auction) == CALLAUCTION_DONE);
}

static callauction_command order_of(uint64_t client, uint8_t side, uint32_t tick, uint64_t quantity) {
    callauction_command command = order(1, side, tick, quantity);
    command.client = client;
    return command;
}

static bool has_clients(const callauction_handle *auction, const uint64_t *wanted, size_t count) {
    callauction_order orders[8];
    size_t copied = 77;
    WANT(callauction_orders(auction, CALLAUCTION_ALL_MEMBERS, orders, 8, &copied) == CALLAUCTION_DONE);
    for (size_t i = 0; i < copied && i < count; i++)
        if (orders[i].client != wanted[i]) return false;
    return copied == count;
}

/* An order keeps the client that it was entered with, also where it is changed; no other command gives it another. */
static void the_clients(void) {
    static const uint64_t both[] = {UINT64_MAX, 0, 7}, left[] = {0, 7}, again[] = {0, 4};
    callauction_handle auction = {0}, copy = {0}, over = {0};
    callauction_command many[3] = {order_of(5, CALLAUCTION_SIDE_BID, 211, 5), order_of(7, CALLAUCTION_SIDE_ASK, 200, 9),
                                   other(1, CALLAUCTION_COMMAND_ORDER_STATUS, 1)};
    callauction_command change = order_of(9, 0, 205, 3);
    callauction_outcome outcomes[8];
    callauction_order leaving;
    callauction_reply replies[3];
    size_t copied = 77;
    many[1].restriction = CALLAUCTION_RESTRICTION_OPENING_ONLY;
    many[2].client = 8;
    change.tag = CALLAUCTION_COMMAND_CHANGE;
    change.id = 1;
    opened(&auction), opened(&over);
    applied(&auction, order_of(UINT64_MAX, CALLAUCTION_SIDE_BID, 201, 3));
    applied(&auction, order(1, CALLAUCTION_SIDE_BID, 199, 5));
    WANT(callauction_apply_many(&auction, many, 3, replies, 3, &copied) == CALLAUCTION_DONE && copied == 3);
    WANT(replies[0].refusal == CALLAUCTION_REFUSAL_BAD_LIMIT && replies[1].id == 3);
    WANT(applied(&auction, change).tag == CALLAUCTION_REPLY_CHANGED && has_clients(&auction, both, 3));
    WANT(callauction_expiring(&auction, &leaving, 1, &copied) == CALLAUCTION_DONE && copied == 1);
    WANT(leaving.id == 3 && leaving.client == 7 && leaving.quantity == 6);
    applied(&over, order_of(77, CALLAUCTION_SIDE_BID, 201, 3));
    WANT(callauction_clone(&auction, &copy) == CALLAUCTION_DONE && has_clients(&copy, both, 3));
    WANT(callauction_uncross(&auction, &replies[0], outcomes, 8, &copied) == CALLAUCTION_DONE && copied == 2);
    WANT(outcomes[0].id == 1 && outcomes[0].client == UINT64_MAX && outcomes[1].id == 3 && outcomes[1].client == 7);
    applied(&auction, order_of(7, CALLAUCTION_SIDE_ASK, 208, 5));
    WANT(has_clients(&auction, left, 2) && has_clients(&copy, both, 3));
    WANT(callauction_clone(&auction, &over) == CALLAUCTION_DONE && has_clients(&over, left, 2));
    WANT(callauction_clone(&copy, &over) == CALLAUCTION_DONE && has_clients(&over, both, 3));
    for (int i = 0; i < 2; i++) applied(&copy, order_of(6, CALLAUCTION_SIDE_ASK, 210, 5));
    WANT(has_clients(&over, both, 3));
    WANT(callauction_reset(&copy) == CALLAUCTION_DONE && has_clients(&copy, NULL, 0));
    applied(&copy, order(1, CALLAUCTION_SIDE_BID, 199, 5));
    WANT(has_clients(&copy, again, 1));
    WANT(callauction_close(&auction) == CALLAUCTION_DONE && callauction_close(&copy) == CALLAUCTION_DONE);
    WANT(callauction_close(&over) == CALLAUCTION_DONE);
    opened(&auction); // where a table was before
    applied(&auction, order(1, CALLAUCTION_SIDE_BID, 199, 5));
    WANT(has_clients(&auction, again, 1));
    applied(&auction, order_of(4, CALLAUCTION_SIDE_BID, 199, 5));
    WANT(has_clients(&auction, again, 2) && callauction_close(&auction) == CALLAUCTION_DONE);
}

/* A count is 0 after each error, also where another call has the handle, and where the handle holds nothing. */
static void counts_at_errors(void) {
    callauction_handle busy = {.busy_ = 1}, none = {0};
    callauction_member busy_member = {.busy_ = 1}, no_member = {0};
    callauction_handle *auctions[] = {&busy, &none};
    callauction_member *members[] = {&busy_member, &no_member};
    for (int i = 0; i < 2; i++) {
        size_t many = 7, trades = 7, orders = 7, expiring = 7, traded = 7, entries = 7, written = 7;
        size_t listed = 7, leaving = 7, called = 7, outcomes = 7;
        callauction_reply reply;
        uint32_t calls = 0, all = CALLAUCTION_ALL_MEMBERS;
        WANT(callauction_apply_many(auctions[i], NULL, 0, NULL, 0, &many) != CALLAUCTION_DONE);
        WANT(callauction_uncross(auctions[i], &reply, NULL, 0, &outcomes) != CALLAUCTION_DONE && outcomes == 0);
        WANT(callauction_trades(auctions[i], 0, NULL, 0, &trades) != CALLAUCTION_DONE);
        WANT(callauction_orders(auctions[i], CALLAUCTION_ALL_MEMBERS, NULL, 0, &orders) != CALLAUCTION_DONE);
        WANT(callauction_expiring(auctions[i], NULL, 0, &expiring) != CALLAUCTION_DONE);
        WANT(callauction_board_trades(members[i], 0, NULL, 0, &traded, &calls) != CALLAUCTION_DONE);
        WANT(callauction_board_apply_many(members[i], NULL, 0, NULL, 0, &called) != CALLAUCTION_DONE && called == 0);
        WANT(callauction_board_orders(members[i], all, NULL, 0, &listed, &calls) != CALLAUCTION_DONE);
        WANT(callauction_board_expiring(members[i], NULL, 0, &leaving, &calls) != CALLAUCTION_DONE);
        WANT(callauction_board_history(members[i], 0, NULL, 0, &entries) != CALLAUCTION_DONE);
        WANT(callauction_board_close(members[i], 1, NULL, 0, NULL, 0, &written) != CALLAUCTION_DONE);
        WANT(many + trades + orders + expiring + traded + entries + written + listed + leaving == 0);
    }
}

int main(void) {
    a_handle_of_zeros();
    counts_at_errors();
    openings();
    the_config();
    no_commands();
    a_full_auction();
    the_reserve();
    every_reply();
    many();
    the_ladder();
    the_trades();
    copies();
    copies_over_another();
    the_orders();
    the_outcomes();
    the_state();
    a_reset();
    the_clients();
    puts("calls: as worked out");
    return 0;
}
