/* The calls of _native_board.h. */
#include <sched.h>
#include <time.h>

#pragma GCC visibility push(hidden)
#include "_native_board.h"
#pragma GCC visibility pop

enum { TRIES_BEFORE_SLEEP = 64 };

static _Bool takes_member(python_board *own, size_t number) {
    return !__atomic_test_and_set(&own->is_busy_[number], __ATOMIC_SEQ_CST);
}

static void gives_member_back(python_board *own, size_t number) {
    __atomic_clear(&own->is_busy_[number], __ATOMIC_SEQ_CST);
}

/* Lets other threads run before the next try. */
static void rest(unsigned tries) {
    const struct timespec some = {0, 50000};
    if (tries < TRIES_BEFORE_SLEEP)
        sched_yield();
    else
        nanosleep(&some, NULL);
}

/* Answers what a call of the library answers, made while this call has the member, as often as another one has the
 * board. */
#define ANSWER_OF_MEMBER(own, number, call)                      \
    do {                                                         \
        if (!takes_member(own, number)) return PYTHON_BUSY;      \
        uint32_t answer = (call);                                \
        for (unsigned tries = 0; answer == CALLAUCTION_ERROR_BUSY; tries++) { \
            rest(tries);                                         \
            answer = (call);                                     \
        }                                                        \
        gives_member_back(own, number);                          \
        return answer;                                           \
    } while (0)

uint32_t python_board_open(python_board *own, size_t count, const callauction_config *config) {
    uint32_t answer = callauction_board_open(own->members_, count, config);
    if (answer == CALLAUCTION_DONE) own->count_ = count;
    return answer;
}

static uint32_t answer_of_member(python_board *own, size_t number, const callauction_command *command,
                                 callauction_receipt *receipt) {
    ANSWER_OF_MEMBER(own, number, callauction_board_call(&own->members_[number], command, receipt));
}

static callauction_receipt receipt_of_member(python_board *own, size_t number, callauction_command command) {
    callauction_receipt receipt = {0};
    uint32_t error = answer_of_member(own, number, &command, &receipt);
    if (error != CALLAUCTION_DONE) receipt = (callauction_receipt){.reply = {.id = error}};
    return receipt;
}

int64_t python_board_enter(python_board *own, size_t number, uint32_t quantity, uint32_t limit, uint32_t peak,
                           uint64_t client, uint8_t side, uint8_t restriction, uint8_t has) {
    callauction_command command = {.tag = CALLAUCTION_COMMAND_ENTER, .quantity = quantity, .limit = limit};
    command.peak = peak;
    command.client = client;
    command.side = side;
    command.restriction = restriction;
    command.has_limit = (has & PYTHON_HAS_LIMIT) != 0;
    command.has_peak = (has & PYTHON_HAS_PEAK) != 0;
    callauction_receipt receipt;
    uint32_t error = answer_of_member(own, number, &command, &receipt);
    if (error != CALLAUCTION_DONE) return -(int64_t)error;
    const callauction_reply *reply = &receipt.reply;
    uint32_t said = reply->tag == CALLAUCTION_REPLY_ENTERED ? reply->id : PYTHON_REFUSED + (uint32_t)reply->refusal;
    return ((int64_t)receipt.number << 32) + said;
}

callauction_receipt python_board_change(python_board *own, size_t number, uint32_t id, uint32_t quantity,
                                        uint32_t limit, uint8_t has) {
    callauction_command command = {.tag = CALLAUCTION_COMMAND_CHANGE, .id = id, .quantity = quantity, .limit = limit};
    command.has_limit = (has & PYTHON_HAS_LIMIT) != 0;
    return receipt_of_member(own, number, command);
}

callauction_receipt python_board_call(python_board *own, size_t number, uint8_t tag, uint32_t id) {
    return receipt_of_member(own, number, (callauction_command){.tag = tag, .id = id});
}

uint32_t python_board_apply_many(python_board *own, size_t number, const callauction_command *commands,
                                 callauction_receipt *receipts, size_t count, size_t *applied) {
    callauction_member *member = &own->members_[number];
    ANSWER_OF_MEMBER(own, number, callauction_board_apply_many(member, commands, count, receipts, count, applied));
}

uint32_t python_board_look(python_board *own, size_t number, callauction_shown *shown) {
    ANSWER_OF_MEMBER(own, number, callauction_board_look(&own->members_[number], shown));
}

uint32_t python_board_ladder(python_board *own, size_t number, uint64_t *bids, uint64_t *asks, size_t ticks,
                             callauction_market_orders *market, uint32_t *calls) {
    ANSWER_OF_MEMBER(own, number,
                     callauction_board_ladder(&own->members_[number], bids, ticks, asks, ticks, market, calls));
}

uint32_t python_board_trades(python_board *own, size_t number, size_t seen, callauction_trade *trades, size_t count,
                             size_t *copied, uint32_t *calls) {
    ANSWER_OF_MEMBER(own, number,
                     callauction_board_trades(&own->members_[number], seen, trades, count, copied, calls));
}

uint32_t python_board_orders(python_board *own, size_t number, uint32_t of, callauction_order *orders, size_t count,
                             size_t *copied) {
    uint32_t calls = 0;
    ANSWER_OF_MEMBER(own, number,
                     callauction_board_orders(&own->members_[number], of, orders, count, copied, &calls));
}

uint32_t python_board_expiring(python_board *own, size_t number, callauction_order *orders, size_t count,
                               size_t *copied) {
    uint32_t calls = 0;
    ANSWER_OF_MEMBER(own, number, callauction_board_expiring(&own->members_[number], orders, count, copied, &calls));
}

static uint32_t clone_of_member(python_board *own, size_t number, python_auction *other) {
    ANSWER_OF_MEMBER(own, number, callauction_board_clone(&own->members_[number], &other->handle_));
}

uint32_t python_board_clone(python_board *own, size_t number, python_auction *other) {
    ANSWER_TAKEN(other, clone_of_member(own, number, other));
}

uint32_t python_board_state(python_board *own, size_t number, callauction_day_state *state) {
    ANSWER_OF_MEMBER(own, number, callauction_board_state(&own->members_[number], state));
}

uint32_t python_board_history(python_board *own, size_t number, size_t seen, callauction_entry *entries, size_t count,
                              size_t *copied) {
    ANSWER_OF_MEMBER(own, number, callauction_board_history(&own->members_[number], seen, entries, count, copied));
}

uint32_t python_board_calls(python_board *own, size_t number, uint32_t *calls) {
    ANSWER_OF_MEMBER(own, number, callauction_board_calls(&own->members_[number], calls));
}

uint32_t python_board_config_of(python_board *own, callauction_config *config) {
    return callauction_board_config_of(&own->members_[0], config);
}

/* Takes all members, or none. */
static _Bool takes_all_members(python_board *own) {
    for (size_t number = 0; number < own->count_; number++) {
        if (takes_member(own, number)) continue;
        while (number > 0) gives_member_back(own, --number);
        return 0;
    }
    return 1;
}

uint32_t python_board_close(python_board *own, callauction_entry *entries, size_t entry_count, uint32_t *counts,
                            size_t *written) {
    if (!takes_all_members(own)) return PYTHON_BUSY;
    uint32_t answer = callauction_board_close(own->members_, own->count_, entries, entry_count, counts, own->count_,
                                              written);
    for (size_t number = 0; number < own->count_; number++) gives_member_back(own, number);
    return answer;
}

void python_board_leave(python_board *own) {
    for (size_t number = 0; number < own->count_; number++) callauction_board_leave(&own->members_[number]);
    own->count_ = 0;
}
