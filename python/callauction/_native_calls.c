/* The calls of _native_calls.h: each takes the auction, calls libcallauction, and gives the auction back. */
#include <callauction.h>

#pragma GCC visibility push(hidden)
#include "_native_calls.h"
#pragma GCC visibility pop

static _Bool takes(python_auction *own) { return !__atomic_test_and_set(&own->is_busy_, __ATOMIC_SEQ_CST); }

static void gives_back(python_auction *own) { __atomic_clear(&own->is_busy_, __ATOMIC_SEQ_CST); }

/* Answers what a call of the library answers, made while this call has the auction. */
#define ANSWER_TAKEN(own, call)              \
    do {                                     \
        if (!takes(own)) return PYTHON_BUSY; \
        uint32_t answer = (call);            \
        gives_back(own);                     \
        return answer;                       \
    } while (0)

/* ---- one command ---- */

static uint32_t answer_to(python_auction *own, const callauction_command *command, callauction_reply *reply) {
    ANSWER_TAKEN(own, callauction_apply(&own->handle_, command, reply));
}

static callauction_reply reply_to(python_auction *own, callauction_command command) {
    callauction_reply reply = {0};
    uint32_t error = answer_to(own, &command, &reply);
    if (error != CALLAUCTION_DONE) reply = (callauction_reply){.tag = PYTHON_NO_REPLY, .id = error};
    return reply;
}

int64_t python_enter(python_auction *own, uint8_t member, uint64_t quantity, uint32_t limit, uint64_t peak,
                     uint64_t client, uint8_t side, uint8_t restriction, uint8_t has) {
    callauction_command command = {.tag = CALLAUCTION_COMMAND_ENTER, .member = member, .quantity = quantity};
    command.limit = limit;
    command.peak = peak;
    command.client = client;
    command.side = side;
    command.restriction = restriction;
    command.has_limit = (has & PYTHON_HAS_LIMIT) != 0;
    command.has_peak = (has & PYTHON_HAS_PEAK) != 0;
    callauction_reply reply;
    uint32_t error = answer_to(own, &command, &reply);
    if (error != CALLAUCTION_DONE) return -(int64_t)(PYTHON_ERROR + error);
    return reply.tag == CALLAUCTION_REPLY_ENTERED ? (int64_t)reply.id : -(int64_t)reply.refusal;
}

callauction_reply python_change(python_auction *own, uint8_t member, uint32_t id, uint64_t quantity, uint32_t limit,
                                uint8_t has) {
    callauction_command command = {.tag = CALLAUCTION_COMMAND_CHANGE, .member = member, .id = id, .quantity = quantity};
    command.limit = limit;
    command.has_limit = (has & PYTHON_HAS_LIMIT) != 0;
    return reply_to(own, command);
}

callauction_reply python_delete(python_auction *own, uint8_t member, uint32_t id) {
    return reply_to(own, (callauction_command){.tag = CALLAUCTION_COMMAND_DELETE, .member = member, .id = id});
}

callauction_reply python_order_status(python_auction *own, uint8_t member, uint32_t id) {
    return reply_to(own, (callauction_command){.tag = CALLAUCTION_COMMAND_ORDER_STATUS, .member = member, .id = id});
}

callauction_reply python_indicate(python_auction *own, uint8_t member) {
    return reply_to(own, (callauction_command){.tag = CALLAUCTION_COMMAND_INDICATE, .member = member});
}

callauction_reply python_read_trade(python_auction *own, uint8_t member, uint32_t number) {
    return reply_to(own, (callauction_command){.tag = CALLAUCTION_COMMAND_READ_TRADE, .member = member, .id = number});
}

callauction_reply python_uncross(python_auction *own, uint8_t member) {
    return reply_to(own, (callauction_command){.tag = CALLAUCTION_COMMAND_UNCROSS, .member = member});
}

/* ---- the others ---- */

uint32_t python_open(python_auction *own, const callauction_config *config) {
    ANSWER_TAKEN(own, callauction_open(&own->handle_, config));
}

static _Bool overlap(const callauction_command *commands, const callauction_reply *replies, size_t count) {
    uintptr_t read = (uintptr_t)commands, written = (uintptr_t)replies;
    return read < written + count * sizeof *replies && written < read + count * sizeof *commands;
}

uint32_t python_apply_many(python_auction *own, const callauction_command *commands, callauction_reply *replies,
                           size_t count, size_t *applied) {
    if (overlap(commands, replies, count)) return PYTHON_OVERLAP;
    ANSWER_TAKEN(own, callauction_apply_many(&own->handle_, commands, count, replies, count, applied));
}

uint32_t python_uncross_orders(python_auction *own, callauction_reply *reply, callauction_outcome *outcomes,
                               size_t count, size_t *copied) {
    ANSWER_TAKEN(own, callauction_uncross(&own->handle_, reply, outcomes, count, copied));
}

uint32_t python_display(python_auction *own, callauction_reply *shown) {
    ANSWER_TAKEN(own, callauction_display(&own->handle_, shown));
}

uint32_t python_ladder(python_auction *own, uint64_t *bids, uint64_t *asks, size_t ticks,
                       callauction_market_orders *market) {
    ANSWER_TAKEN(own, callauction_ladder(&own->handle_, bids, ticks, asks, ticks, market));
}

uint32_t python_trades(python_auction *own, size_t seen, callauction_trade *trades, size_t count, size_t *copied) {
    ANSWER_TAKEN(own, callauction_trades(&own->handle_, seen, trades, count, copied));
}

uint32_t python_orders(python_auction *own, uint32_t member, callauction_order *orders, size_t count, size_t *copied) {
    ANSWER_TAKEN(own, callauction_orders(&own->handle_, member, orders, count, copied));
}

uint32_t python_expiring(python_auction *own, callauction_order *orders, size_t count, size_t *copied) {
    ANSWER_TAKEN(own, callauction_expiring(&own->handle_, orders, count, copied));
}

uint32_t python_calls(python_auction *own, uint32_t *calls) {
    ANSWER_TAKEN(own, callauction_calls(&own->handle_, calls));
}

uint32_t python_state(python_auction *own, callauction_day_state *state) {
    ANSWER_TAKEN(own, callauction_state(&own->handle_, state));
}

uint32_t python_config_of(python_auction *own, callauction_config *config) {
    ANSWER_TAKEN(own, callauction_config_of(&own->handle_, config));
}

uint32_t python_reset(python_auction *own) { ANSWER_TAKEN(own, callauction_reset(&own->handle_)); }

static uint32_t answer_to_clone(python_auction *own, python_auction *other) {
    ANSWER_TAKEN(other, callauction_clone(&own->handle_, &other->handle_));
}

uint32_t python_clone(python_auction *own, python_auction *other) { ANSWER_TAKEN(own, answer_to_clone(own, other)); }

uint32_t python_close(python_auction *own) { ANSWER_TAKEN(own, callauction_close(&own->handle_)); }
