/* A board that threads call at once: `boards [THREADS CALLS LOOKS SEED]`. The history, the receipts, the looks and the
 * counts are held against one another and against a replay by an auction of one thread. */
#include "callauction.h"
#include <pthread.h>
#include <stdatomic.h>
#include <stdio.h>
#include <stdlib.h>
#include <string.h>
#include <sched.h>

#define WANT(holds)                                                           \
    do {                                                                      \
        if (!(holds)) {                                                       \
            fprintf(stderr, "%s:%d: not so: %s\n", __FILE__, __LINE__, #holds); \
            exit(1);                                                          \
        }                                                                     \
    } while (0)

typedef struct work {
    callauction_member *member;
    uint32_t calls, looks;
    uint64_t seed;
    callauction_command *commands;
    callauction_receipt *receipts;
    callauction_shown *shown; /* `looks` after each call */
    uint32_t *own;            /* the ids of its open orders, as far as it knows */
    uint32_t open;
} work;

/* Built with UNDER_MUTEX, no two calls are made at once: so helgrind, which doesn't know the library's own lock, can
 * find whether a call touches what another thread's does beside that lock. */
#ifdef UNDER_MUTEX
static pthread_mutex_t mutex = PTHREAD_MUTEX_INITIALIZER;
static void begin_call(void) { pthread_mutex_lock(&mutex); }
static void end_call(void) { pthread_mutex_unlock(&mutex); }
static void wait_for_all(void) {}
#else
static atomic_bool go;
static void begin_call(void) {}
static void end_call(void) {}
static void wait_for_all(void) {
    while (!atomic_load(&go)) sched_yield();
}
#endif

static uint32_t drawn(uint64_t *seed, uint32_t below) {
    *seed = *seed * 6364136223846793005u + 1442695040888963407u;
    return (uint32_t)(*seed >> 33) % below;
}

/* An entry, a change or a deletion of an own order, or a question; the struct's member isn't read by a board. */
static callauction_command drawn_command(work *of) {
    callauction_command command = {.member = 77, .quantity = 1 + drawn(&of->seed, 900)};
    uint32_t roll = drawn(&of->seed, 100);
    if (roll < 55 || of->open == 0) {
        command.tag = CALLAUCTION_COMMAND_ENTER;
        command.side = (uint8_t)(1 + drawn(&of->seed, 2));
        command.has_limit = drawn(&of->seed, 8) != 0;
        if (command.has_limit) command.limit = 150 + drawn(&of->seed, 100);
        if (drawn(&of->seed, 3) != 0) command.client = of->seed;
        return command;
    }
    uint32_t at = drawn(&of->seed, of->open);
    command.id = of->own[at];
    if (roll < 70) {
        command.tag = CALLAUCTION_COMMAND_CHANGE;
        command.has_limit = 1;
        command.limit = 150 + drawn(&of->seed, 100);
    } else if (roll < 92) {
        command.tag = CALLAUCTION_COMMAND_DELETE;
        of->own[at] = of->own[--of->open];
    } else {
        command.tag = roll < 96 ? CALLAUCTION_COMMAND_INDICATE : CALLAUCTION_COMMAND_ORDER_STATUS;
    }
    return command;
}

/* A call, made again while another has the board. */
static uint32_t called(callauction_member *member, const callauction_command *command, callauction_receipt *receipt) {
    uint32_t answer = CALLAUCTION_ERROR_BUSY;
    while (answer == CALLAUCTION_ERROR_BUSY) {
        begin_call();
        answer = callauction_board_call(member, command, receipt);
        end_call();
        if (answer == CALLAUCTION_ERROR_BUSY) sched_yield();
    }
    return answer;
}

static void *play(void *argument) {
    work *of = argument;
    wait_for_all();
    for (uint32_t i = 0; i < of->calls; i++) {
        of->commands[i] = drawn_command(of);
        WANT(called(of->member, &of->commands[i], &of->receipts[i]) == CALLAUCTION_DONE);
        if (of->receipts[i].reply.tag == CALLAUCTION_REPLY_ENTERED) of->own[of->open++] = of->receipts[i].reply.id;
        for (uint32_t k = 0; k < of->looks; k++) {
            begin_call();
            WANT(callauction_board_look(of->member, &of->shown[i * of->looks + k]) == CALLAUCTION_DONE);
            end_call();
        }
    }
    return NULL;
}

/* The entries from number 1 on, read in pieces by one member while the others call. */
static size_t read_while_called(callauction_member *member, callauction_entry *entries, size_t room) {
    size_t read = 0, copied = 0;
    for (int i = 0; i < 200 && read < room; i++) {
        begin_call();
        uint32_t answer = callauction_board_history(member, read, entries + read, room - read, &copied);
        end_call();
        if (answer == CALLAUCTION_ERROR_BUSY) continue;
        WANT(answer == CALLAUCTION_DONE);
        read += copied;
        sched_yield();
    }
    return read;
}

/* What a handle of zeros answers, and which boards can't be opened. */
static void edges(const callauction_config *config) {
    callauction_member none = {0}, three[3] = {{0}}, many[65] = {{0}};
    callauction_command indicate = {.tag = CALLAUCTION_COMMAND_INDICATE};
    callauction_config bad = *config;
    callauction_receipt receipt = {.number = 7};
    callauction_shown shown = {.calls = 7};
    callauction_day_state state = {.calls = 7};
    uint32_t calls = 7;
    size_t copied = 7, expiring = 7;
    WANT(callauction_board_orders(&none, 257, NULL, 0, &copied, &calls) == CALLAUCTION_ERROR_NO_MEMBER);
    WANT(callauction_board_expiring(&none, NULL, 0, &expiring, &calls) == CALLAUCTION_ERROR_NO_MEMBER);
    WANT(copied == 0 && expiring == 0 && calls == 7);
    callauction_handle auction = {0};
    WANT(callauction_board_clone(&none, &auction) == CALLAUCTION_ERROR_NO_MEMBER);
    WANT(callauction_close(&auction) == CALLAUCTION_ERROR_NO_AUCTION);
    WANT(callauction_board_state(&none, &state) == CALLAUCTION_ERROR_NO_MEMBER && state.calls == 7);
    WANT(callauction_board_call(&none, &indicate, &receipt) == CALLAUCTION_ERROR_NO_MEMBER && receipt.number == 7);
    WANT(callauction_board_look(&none, &shown) == CALLAUCTION_ERROR_NO_MEMBER && shown.calls == 7);
    WANT(callauction_board_calls(&none, &calls) == CALLAUCTION_ERROR_NO_MEMBER && calls == 7);
    WANT(callauction_board_leave(&none) == CALLAUCTION_ERROR_NO_MEMBER);
    WANT(callauction_board_open(three, 0, config) == CALLAUCTION_ERROR_BAD_CAPACITY);
    WANT(callauction_board_open(many, 65, config) == CALLAUCTION_ERROR_BAD_CAPACITY);
    bad.low = 0;
    WANT(callauction_board_open(many, 65, &bad) == CALLAUCTION_ERROR_BAD_BOUNDS);
    bad.range = 3;
    WANT(callauction_board_open(three, 3, &bad) == CALLAUCTION_ERROR_NO_CONFIG);
    WANT(callauction_board_open(three, 3, config) == CALLAUCTION_DONE);
    WANT(callauction_board_open(three, 3, &bad) == CALLAUCTION_ERROR_IN_USE);
    callauction_command unflagged = {.tag = CALLAUCTION_COMMAND_ENTER, .side = 1, .quantity = 5, .limit = 200};
    WANT(callauction_board_call(&three[1], &unflagged, &receipt) == CALLAUCTION_ERROR_NO_COMMAND);
    three[1].busy_ = 1;
    WANT(callauction_board_call(&three[1], &indicate, &receipt) == CALLAUCTION_ERROR_MISUSED);
    three[1].busy_ = 0;
    WANT(callauction_board_config_of(&three[2], &bad) == CALLAUCTION_DONE && memcmp(&bad, config, sizeof bad) == 0);
    for (int i = 0; i < 3; i++) WANT(callauction_board_leave(&three[i]) == CALLAUCTION_DONE);
}

/* A board of two calls is full after them, and its member has seen both. */
static void full(void) {
    callauction_config config = {1, 1000, 200, 4, 2, 0, 0, 1, 0};
    callauction_member two[2] = {{0}};
    callauction_command indicate = {.tag = CALLAUCTION_COMMAND_INDICATE};
    callauction_receipt receipt;
    callauction_shown shown;
    WANT(callauction_board_open(two, 2, &config) == CALLAUCTION_DONE);
    WANT(callauction_board_call(&two[1], &indicate, &receipt) == CALLAUCTION_DONE && receipt.number == 1);
    WANT(callauction_board_call(&two[0], &indicate, &receipt) == CALLAUCTION_DONE && receipt.number == 2);
    WANT(callauction_board_call(&two[1], &indicate, &receipt) == CALLAUCTION_ERROR_FULL && receipt.number == 2);
    WANT(callauction_board_look(&two[1], &shown) == CALLAUCTION_DONE && shown.calls == 2);
    for (int i = 0; i < 2; i++) WANT(callauction_board_leave(&two[i]) == CALLAUCTION_DONE);
}

/* The last calls of a board are the operator's, 16 where the config says nothing: another member finds it full before,
 * and has seen all calls then.
 */
static void reserved(bool is_usual) {
    const uint32_t reserve = is_usual ? 16 : 2;
    callauction_config config = {1, 1000, 200, 8, reserve + 3, 0, 0, 0, 0}, found;
    callauction_member two[2] = {{0}};
    callauction_handle copy = {0}, over = {0};
    callauction_command indicate = {.tag = CALLAUCTION_COMMAND_INDICATE};
    const callauction_command uncross = {.tag = CALLAUCTION_COMMAND_UNCROSS};
    const callauction_command three[] = {indicate, indicate, indicate};
    callauction_entry entries[19];
    callauction_receipt receipt, receipts[3];
    callauction_reply reply;
    callauction_day_state state;
    uint32_t counts[2];
    size_t applied = 7, written = 7;
    if (!is_usual) config.has_reserve = 1, config.reserve = reserve;
    WANT(callauction_board_open(two, 2, &config) == CALLAUCTION_DONE);
    for (int i = 0; i < 2; i++) {
        WANT(callauction_board_config_of(&two[i], &found) == CALLAUCTION_DONE);
        WANT(found.has_reserve == 1 && found.reserve == reserve);
    }
    WANT(callauction_board_call(&two[1], &indicate, &receipt) == CALLAUCTION_DONE && receipt.number == 1);
    WANT(callauction_open(&over, &config) == CALLAUCTION_DONE);
    WANT(callauction_board_clone(&two[1], &copy) == CALLAUCTION_DONE);
    WANT(callauction_board_clone(&two[1], &over) == CALLAUCTION_DONE);
    WANT(callauction_board_apply_many(&two[1], three, 3, receipts, 3, &applied) == CALLAUCTION_ERROR_FULL);
    WANT(applied == 2 && receipts[1].number == 3);
    WANT(callauction_board_call(&two[1], &indicate, &receipt) == CALLAUCTION_ERROR_FULL && receipt.number == 1);
    WANT(callauction_board_state(&two[1], &state) == CALLAUCTION_DONE);
    WANT(state.calls == 3 && state.calls_left == reserve && state.calls_left_to_members == 0);
    for (uint32_t i = 0; i < reserve; i++) {
        WANT(callauction_board_call(&two[0], &uncross, &receipt) == CALLAUCTION_DONE && receipt.number == 4 + i);
        WANT(callauction_board_call(&two[1], &indicate, &receipt) == CALLAUCTION_ERROR_FULL);
    }
    WANT(callauction_board_call(&two[0], &uncross, &receipt) == CALLAUCTION_ERROR_FULL);
    WANT(callauction_board_close(two, 2, entries, 19, counts, 2, &written) == CALLAUCTION_DONE);
    WANT(written == reserve + 3 && counts[0] == reserve && counts[1] == 3);
    for (int i = 0; i < 2; i++) WANT(callauction_board_leave(&two[i]) == CALLAUCTION_DONE);
    /* copies of its auction have its reserve */
    callauction_handle *const copies[] = {&copy, &over};
    indicate.member = 1;
    for (int i = 0; i < 2; i++) {
        WANT(callauction_config_of(copies[i], &found) == CALLAUCTION_DONE && found.reserve == reserve);
        for (int k = 0; k < 2; k++) WANT(callauction_apply(copies[i], &indicate, &reply) == CALLAUCTION_DONE);
        WANT(callauction_apply(copies[i], &indicate, &reply) == CALLAUCTION_ERROR_FULL);
        WANT(callauction_close(copies[i]) == CALLAUCTION_DONE);
    }
}

/* Many calls are each as one, with numbers that follow one another, up to the first error; the receipts after stay. */
static void many(void) {
    callauction_config config = {1, 1000, 200, 8, 6, 0, 0, 1, 0};
    callauction_member two[2] = {{0}}, none = {0};
    callauction_command enter = {.tag = CALLAUCTION_COMMAND_ENTER, .side = CALLAUCTION_SIDE_BID, .quantity = 5};
    callauction_command indicate = {.tag = CALLAUCTION_COMMAND_INDICATE, .member = 77}, bad = {.tag = 9};
    const callauction_command commands[] = {enter, indicate, bad, enter};
    callauction_receipt receipts[4];
    callauction_shown shown;
    size_t applied = 7;
    for (int i = 0; i < 4; i++) receipts[i].number = 77;
    WANT(callauction_board_apply_many(&none, commands, 4, receipts, 3, &applied) == CALLAUCTION_ERROR_NO_MEMBER);
    WANT(applied == 0 && callauction_board_open(two, 2, &config) == CALLAUCTION_DONE);
    applied = 7;
    WANT(callauction_board_apply_many(&two[1], commands, 4, receipts, 3, &applied) == CALLAUCTION_ERROR_BAD_LENGTH);
    WANT(applied == 0 && receipts[0].number == 77);
    WANT(callauction_board_apply_many(&two[1], NULL, 0, NULL, 0, &applied) == CALLAUCTION_DONE && applied == 0);
    WANT(callauction_board_look(&two[0], &shown) == CALLAUCTION_DONE && shown.calls == 0);
    WANT(callauction_board_apply_many(&two[1], commands, 4, receipts, 4, &applied) == CALLAUCTION_ERROR_NO_COMMAND);
    WANT(applied == 2 && receipts[0].number == 1 && receipts[1].number == 2 && receipts[2].number == 77);
    WANT(receipts[0].reply.tag == CALLAUCTION_REPLY_ENTERED && receipts[1].reply.tag == CALLAUCTION_REPLY_UNPRICED);
    WANT(callauction_board_look(&two[0], &shown) == CALLAUCTION_DONE && shown.calls == 2);
    WANT(callauction_board_apply_many(&two[0], commands, 2, receipts, 2, &applied) == CALLAUCTION_DONE);
    WANT(applied == 2 && receipts[0].number == 3 && receipts[0].reply.id == 2 && receipts[1].number == 4);
    const callauction_command three[] = {indicate, indicate, indicate};
    WANT(callauction_board_apply_many(&two[1], three, 3, receipts, 3, &applied) == CALLAUCTION_ERROR_FULL);
    WANT(applied == 2 && receipts[0].number == 5 && receipts[1].number == 6 && receipts[2].number == 77);
    WANT(callauction_board_apply_many(&two[0], three, 3, receipts, 3, &applied) == CALLAUCTION_ERROR_FULL);
    WANT(applied == 0 && callauction_board_look(&two[0], &shown) == CALLAUCTION_DONE && shown.calls == 6);
    for (int i = 0; i < 2; i++) WANT(callauction_board_leave(&two[i]) == CALLAUCTION_DONE);
}

/* Two boards with one member exchanged are closed by no call, whatever was called on them; put back, both are. */
static void mixed(uint32_t calls) {
    callauction_config config = {1, 1000, 200, 8, 8, 0, 0, 1, 0};
    callauction_member one[3] = {{0}}, two[3] = {{0}}, moved;
    callauction_command enter = {.tag = CALLAUCTION_COMMAND_ENTER, .quantity = 5, .has_limit = 1, .limit = 200};
    callauction_entry entries[8];
    callauction_receipt receipt;
    uint32_t counts[3] = {7, 7, 7};
    size_t written = 7;
    WANT(callauction_board_open(one, 3, &config) == CALLAUCTION_DONE);
    WANT(callauction_board_open(two, 3, &config) == CALLAUCTION_DONE);
    for (uint32_t i = 0; i < calls; i++) {
        enter.side = CALLAUCTION_SIDE_BID;
        WANT(callauction_board_call(&one[2], &enter, &receipt) == CALLAUCTION_DONE);
        enter.side = CALLAUCTION_SIDE_ASK;
        WANT(callauction_board_call(&two[2], &enter, &receipt) == CALLAUCTION_DONE);
    }
    moved = one[2], one[2] = two[2], two[2] = moved;
    WANT(callauction_board_close(one, 3, entries, 8, counts, 3, &written) == CALLAUCTION_ERROR_MISSING_MEMBER);
    WANT(callauction_board_close(two, 3, entries, 8, counts, 3, &written) == CALLAUCTION_ERROR_MISSING_MEMBER);
    WANT(written == 0 && counts[2] == 7);
    moved = one[2], one[2] = two[2], two[2] = moved;
    WANT(callauction_board_close(one, 3, entries, 8, counts, 3, &written) == CALLAUCTION_DONE);
    WANT(written == calls && counts[2] == calls);
    WANT(callauction_board_close(two, 3, entries, 8, counts, 3, &written) == CALLAUCTION_DONE && written == calls);
    for (int i = 0; i < 3; i++) {
        WANT(callauction_board_leave(&one[i]) == CALLAUCTION_DONE);
        WANT(callauction_board_leave(&two[i]) == CALLAUCTION_DONE);
    }
}

/* A look shows all that was called, whether somebody looked while it was or not. */
static void looks_show_all(bool is_watched) {
    callauction_config config = {1, 1000, 200, 8, 8, 0, 0, 1, 0};
    callauction_member members[3] = {{0}};
    callauction_command enter = {.tag = CALLAUCTION_COMMAND_ENTER, .side = CALLAUCTION_SIDE_BID, .quantity = 5};
    enter.has_limit = 1;
    callauction_entry entries[8];
    callauction_receipt receipt;
    callauction_shown shown;
    uint32_t counts[3], called = 0;
    size_t written;
    WANT(callauction_board_open(members, 3, &config) == CALLAUCTION_DONE);
    for (enter.limit = 100; enter.limit < 104; enter.limit++) {
        WANT(callauction_board_call(&members[1], &enter, &receipt) == CALLAUCTION_DONE && receipt.number == ++called);
        if (!is_watched) continue;
        WANT(callauction_board_look(&members[2], &shown) == CALLAUCTION_DONE && shown.calls == called);
        WANT(shown.display.best_bid == enter.limit);
    }
    if (is_watched) WANT(callauction_board_look(&members[0], &shown) == CALLAUCTION_DONE && shown.calls == called);
    WANT(callauction_board_close(members, 3, entries, 8, counts, 3, &written) == CALLAUCTION_DONE && written == called);
    for (int i = 0; i < 3; i++) {
        WANT(callauction_board_look(&members[i], &shown) == CALLAUCTION_DONE && shown.calls == called);
        WANT(shown.display.tag == CALLAUCTION_REPLY_UNPRICED && shown.display.best_bid == 103);
        WANT(callauction_board_leave(&members[i]) == CALLAUCTION_DONE);
    }
}

/* The orders that a member is shown, of one and of all, and those that would be taken out, are those of the replay. */
static void lists_alike(callauction_member *member, const callauction_handle *plain, size_t length) {
    enum { ROOM = 3000 };
    static callauction_order orders[ROOM], orders_too[ROOM];
    const uint32_t whose[] = {CALLAUCTION_ALL_MEMBERS, 1, 200};
    size_t copied = 7, copied_too;
    uint32_t calls = 7;
    WANT(callauction_board_orders(member, 257, orders, ROOM, &copied, &calls) == CALLAUCTION_ERROR_BAD_MEMBER);
    WANT(copied == 0 && calls == 7);
    for (size_t i = 0; i < sizeof whose / sizeof *whose; i++) {
        WANT(callauction_board_orders(member, whose[i], orders, ROOM, &copied, &calls) == CALLAUCTION_DONE);
        WANT(callauction_orders(plain, whose[i], orders_too, ROOM, &copied_too) == CALLAUCTION_DONE);
        WANT(calls == length && copied == copied_too && (copied > 0) == (whose[i] != 200));
        for (size_t k = 0; k < copied; k++)
            WANT(orders[k].id == orders_too[k].id && orders[k].quantity == orders_too[k].quantity &&
                 orders[k].filled == orders_too[k].filled && orders[k].member == orders_too[k].member &&
                 orders[k].client == orders_too[k].client);
    }
    WANT(callauction_board_expiring(member, orders, ROOM, &copied, &calls) == CALLAUCTION_DONE && calls == length);
    WANT(callauction_expiring(plain, orders_too, ROOM, &copied_too) == CALLAUCTION_DONE && copied == copied_too);
}

/* A copy of the board's auction goes on by itself, into an empty handle and over one of the same limits. */
static void clones_alike(callauction_member *member, const callauction_handle *plain, size_t length) {
    callauction_config config, other = {1, 999, 200, 65536, 10, 0, 0, 1, 0};
    callauction_handle copy = {0}, small = {0};
    callauction_command enter = {.tag = CALLAUCTION_COMMAND_ENTER, .side = CALLAUCTION_SIDE_BID, .quantity = 5};
    callauction_reply here, there;
    uint32_t calls = 0;
    WANT(callauction_config_of(plain, &config) == CALLAUCTION_DONE);
    for (int i = 0; i < 2; i++) {
        WANT(callauction_board_clone(member, &copy) == CALLAUCTION_DONE);
        WANT(callauction_calls(&copy, &calls) == CALLAUCTION_DONE && calls == length);
        WANT(callauction_display(plain, &here) == CALLAUCTION_DONE);
        WANT(callauction_display(&copy, &there) == CALLAUCTION_DONE && memcmp(&here, &there, sizeof here) == 0);
        WANT(callauction_apply(&copy, &enter, &there) == CALLAUCTION_DONE && there.tag == CALLAUCTION_REPLY_ENTERED);
    }
    WANT(callauction_open(&small, &other) == CALLAUCTION_DONE);
    WANT(callauction_board_clone(member, &small) == CALLAUCTION_ERROR_IN_USE);
    WANT(callauction_calls(&small, &calls) == CALLAUCTION_DONE && calls == 0);
    copy.busy_ = 1;
    WANT(callauction_board_clone(member, &copy) == CALLAUCTION_ERROR_MISUSED);
    copy.busy_ = 0;
    WANT(callauction_close(&copy) == CALLAUCTION_DONE && callauction_close(&small) == CALLAUCTION_DONE);
}

/* The ladder, the trades and the state that a member is shown are those of the replay. */
static void shows_alike(callauction_member *member, const callauction_handle *plain, size_t length) {
    uint64_t bids[1000], asks[1000], bids_too[1000], asks_too[1000];
    callauction_market_orders market, market_too;
    callauction_trade trades[8], trades_too[8];
    callauction_day_state state = {0}, state_too = {0};
    size_t copied, copied_too;
    uint32_t calls;
    WANT(callauction_board_state(member, &state) == CALLAUCTION_DONE && state.calls == length);
    WANT(callauction_state(plain, &state_too) == CALLAUCTION_DONE);
    WANT(state.in_call == 1 && state.auction == CALLAUCTION_AUCTION_INTRADAY && state.extended == 0);
    WANT(state.reference == state_too.reference && state.calls_left == state_too.calls_left);
    WANT(callauction_board_ladder(member, bids, 999, asks, 1000, &market, &calls) == CALLAUCTION_ERROR_BAD_LENGTH);
    WANT(callauction_board_ladder(member, bids, 1000, asks, 1000, &market, &calls) == CALLAUCTION_DONE);
    WANT(callauction_ladder(plain, bids_too, 1000, asks_too, 1000, &market_too) == CALLAUCTION_DONE);
    WANT(calls == length && memcmp(bids, bids_too, sizeof bids) == 0 && memcmp(asks, asks_too, sizeof asks) == 0);
    WANT(memcmp(&market, &market_too, sizeof market) == 0);
    WANT(callauction_board_trades(member, 3, trades, 8, &copied, &calls) == CALLAUCTION_DONE && calls == length);
    WANT(callauction_trades(plain, 3, trades_too, 8, &copied_too) == CALLAUCTION_DONE && copied == copied_too);
    for (size_t i = 0; i < copied; i++)
        WANT(trades[i].bid == trades_too[i].bid && trades[i].ask == trades_too[i].ask &&
             trades[i].tick == trades_too[i].tick && trades[i].quantity == trades_too[i].quantity);
}

/* An order's client is what it was entered with, wherever a member is told of it, and in the history and copies; of
 * what entered no order it is 0. */
static void clients_are_kept(void) {
    callauction_config config = {1, 1000, 200, 8, 12, 0, 0, 1, 0};
    callauction_member two[2] = {{0}};
    callauction_handle copy = {0}, over = {0};
    callauction_command enter = {.tag = CALLAUCTION_COMMAND_ENTER, .side = CALLAUCTION_SIDE_BID, .quantity = 5};
    callauction_command plain = enter, refused = enter, status = {.tag = CALLAUCTION_COMMAND_ORDER_STATUS, .id = 1};
    callauction_receipt receipt, receipts[3];
    callauction_order orders[8];
    callauction_entry entries[12];
    uint32_t calls = 0, counts[2];
    size_t count = 7;
    enter.client = UINT64_MAX;
    refused.client = status.client = 9;
    refused.quantity = 0;
    const callauction_command three[] = {refused, status, enter};
    WANT(callauction_board_open(two, 2, &config) == CALLAUCTION_DONE && callauction_open(&over, &config) == 0);
    WANT(callauction_board_call(&two[1], &plain, &receipt) == CALLAUCTION_DONE);
    WANT(callauction_board_call(&two[1], &enter, &receipt) == CALLAUCTION_DONE && receipt.reply.id == 2);
    WANT(callauction_board_apply_many(&two[0], three, 3, receipts, 3, &count) == CALLAUCTION_DONE && count == 3);
    WANT(callauction_board_orders(&two[0], CALLAUCTION_ALL_MEMBERS, orders, 8, &count, &calls) == CALLAUCTION_DONE);
    WANT(count == 3 && orders[0].client == 0 && orders[1].client == UINT64_MAX && orders[2].client == UINT64_MAX);
    WANT(callauction_board_clone(&two[0], &copy) == CALLAUCTION_DONE);
    WANT(callauction_board_clone(&two[0], &over) == CALLAUCTION_DONE);
    for (int i = 0; i < 2; i++) {
        WANT(callauction_orders(i ? &over : &copy, 1, orders, 8, &count) == CALLAUCTION_DONE && count == 2);
        WANT(orders[0].client == 0 && orders[1].client == UINT64_MAX);
        WANT(callauction_close(i ? &over : &copy) == CALLAUCTION_DONE);
    }
    WANT(callauction_board_history(&two[1], 1, entries, 12, &count) == CALLAUCTION_DONE && count == 4);
    WANT(entries[0].command.client == UINT64_MAX && entries[1].command.client == 0);
    WANT(entries[2].command.client == 0 && entries[3].command.client == UINT64_MAX);
    WANT(callauction_board_close(two, 2, entries, 12, counts, 2, &count) == CALLAUCTION_DONE && count == 5);
    WANT(entries[0].command.client == 0 && entries[1].command.client == UINT64_MAX);
    WANT(callauction_board_call(&two[1], &enter, &receipt) == CALLAUCTION_ERROR_CLOSED);
    for (int i = 0; i < 2; i++) WANT(callauction_board_leave(&two[i]) == CALLAUCTION_DONE);
    WANT(callauction_board_call(&two[1], &enter, &receipt) == CALLAUCTION_ERROR_NO_MEMBER);
}

static void day(uint32_t threads, uint32_t calls, uint32_t looks, uint64_t seed) {
    callauction_config config = {1, 1000, 200, 65536, threads * calls + 1, 0, 0, 1, 0};
    callauction_member *members = calloc(threads, sizeof *members);
    work *works = calloc(threads, sizeof *works);
    pthread_t *ids = calloc(threads, sizeof *ids);
    callauction_entry *entries = calloc(config.max_calls, sizeof *entries);
    callauction_entry *early = calloc(config.max_calls, sizeof *early);
    callauction_reply *displays = calloc(config.max_calls + 1, sizeof *displays), reply;
    uint32_t *counts = calloc(threads, sizeof *counts);
    size_t length = 0, sum = 0;
    edges(&config);
    WANT(callauction_board_open(members, threads, &config) == CALLAUCTION_DONE);
    for (uint32_t t = 1; t < threads; t++) {
        works[t] = (work){.member = &members[t], .calls = calls, .looks = looks, .seed = seed * 1000003 + t};
        works[t].commands = calloc(calls, sizeof *works[t].commands);
        works[t].receipts = calloc(calls, sizeof *works[t].receipts);
        works[t].shown = calloc((size_t)calls * looks + 1, sizeof *works[t].shown);
        works[t].own = calloc(calls, sizeof *works[t].own);
        WANT(pthread_create(&ids[t], NULL, play, &works[t]) == 0);
    }
#ifndef UNDER_MUTEX
    atomic_store(&go, true);
#endif
    size_t read = read_while_called(&members[0], early, config.max_calls);
    for (uint32_t t = 1; t < threads; t++) pthread_join(ids[t], NULL);
    callauction_command uncross = {.tag = CALLAUCTION_COMMAND_UNCROSS};
    callauction_receipt last;
    WANT(callauction_board_call(&members[0], &uncross, &last) == CALLAUCTION_DONE);
    WANT(last.reply.tag == CALLAUCTION_REPLY_UNCROSSED && last.number == (threads - 1) * calls + 1);

    callauction_handle plain = {0};
    callauction_entry *all = calloc(config.max_calls, sizeof *all);
    size_t copied = 0;
    WANT(callauction_board_history(&members[0], 0, all, config.max_calls, &copied) == CALLAUCTION_DONE);
    WANT(callauction_open(&plain, &config) == CALLAUCTION_DONE);
    WANT(callauction_display(&plain, &displays[0]) == CALLAUCTION_DONE);
    for (size_t i = 0; i < copied; i++) {
        WANT(callauction_apply(&plain, &all[i].command, &reply) == CALLAUCTION_DONE);
        WANT(memcmp(&reply, &all[i].reply, sizeof reply) == 0);
        WANT(callauction_display(&plain, &displays[i + 1]) == CALLAUCTION_DONE);
    }
    shows_alike(&members[threads - 1], &plain, copied);
    lists_alike(&members[0], &plain, copied);
    clones_alike(&members[1], &plain, copied);

    WANT(callauction_board_close(members, threads, entries, config.max_calls - 1, counts, threads, &length) ==
         CALLAUCTION_ERROR_BAD_LENGTH);
    callauction_member other = members[0]; /* out of order: refused, and the board goes on */
    members[0] = members[1], members[1] = other;
    WANT(callauction_board_close(members, threads, entries, config.max_calls, counts, threads, &length) ==
         CALLAUCTION_ERROR_MISSING_MEMBER);
    members[1] = members[0], members[0] = other;
    WANT(callauction_board_close(members, threads, entries, config.max_calls, counts, threads, &length) ==
         CALLAUCTION_DONE);
    size_t none = 7;
    WANT(callauction_board_close(members, threads, entries, config.max_calls, counts, threads, &none) ==
         CALLAUCTION_ERROR_CLOSED && none == 0);
    WANT(callauction_board_call(&members[0], &uncross, &last) == CALLAUCTION_ERROR_CLOSED);
    callauction_handle late = {0};
    size_t none_applied = 7;
    WANT(callauction_board_apply_many(&members[0], &uncross, 1, &last, 1, &none_applied) == CALLAUCTION_ERROR_CLOSED);
    WANT(none_applied == 0);
    WANT(callauction_board_clone(&members[0], &late) == CALLAUCTION_ERROR_CLOSED);
    WANT(callauction_close(&late) == CALLAUCTION_ERROR_NO_AUCTION);
    callauction_day_state state = {.calls = 7};
    WANT(callauction_board_state(&members[0], &state) == CALLAUCTION_ERROR_CLOSED && state.calls == 7);
    WANT(length == copied && memcmp(entries, all, length * sizeof *all) == 0);
    WANT(read <= length && memcmp(entries, early, read * sizeof *early) == 0);
    for (uint32_t t = 0; t < threads; t++) {
        uint32_t own = 0;
        WANT(callauction_board_calls(&members[t], &own) == CALLAUCTION_DONE && own == counts[t]);
        WANT(own == (t == 0 ? 1 : calls));
        sum += own;
    }
    WANT(length == sum);
    for (uint32_t t = 1; t < threads; t++) {
        uint32_t number = 0, seen = 0;
        for (uint32_t i = 0; i < calls; i++) {
            const callauction_receipt *receipt = &works[t].receipts[i];
            WANT(receipt->number > number && receipt->number <= length);
            number = receipt->number;
            WANT(entries[number - 1].command.member == t);
            WANT(memcmp(&entries[number - 1].reply, &receipt->reply, sizeof receipt->reply) == 0);
            const bool is_entered = receipt->reply.tag == CALLAUCTION_REPLY_ENTERED;
            WANT(entries[number - 1].command.client == (is_entered ? works[t].commands[i].client : 0));
            for (uint32_t k = 0; k < looks; k++) {
                const callauction_shown *shown = &works[t].shown[i * looks + k];
                WANT(shown->calls >= seen && shown->calls >= number && shown->calls <= length);
                seen = shown->calls;
                WANT(memcmp(&shown->display, &displays[seen], sizeof shown->display) == 0);
            }
        }
        free(works[t].commands), free(works[t].receipts), free(works[t].shown), free(works[t].own);
    }
    WANT(callauction_close(&plain) == CALLAUCTION_DONE);
    for (uint32_t t = 0; t < threads; t++) WANT(callauction_board_leave(&members[t]) == CALLAUCTION_DONE);
    WANT(callauction_board_leave(&members[0]) == CALLAUCTION_ERROR_NO_MEMBER);
    free(members), free(works), free(ids), free(entries), free(early), free(displays), free(counts), free(all);
}

int main(int count, char **words) {
    uint32_t threads = count > 1 ? (uint32_t)atoi(words[1]) : 8, calls = count > 2 ? (uint32_t)atoi(words[2]) : 12500;
    uint32_t looks = count > 3 ? (uint32_t)atoi(words[3]) : 2;
    full();
    reserved(true);
    reserved(false);
    many();
    for (uint32_t calls = 0; calls < 3; calls++) mixed(calls);
    looks_show_all(false);
    looks_show_all(true);
    clients_are_kept();
    day(threads, calls, looks, count > 4 ? strtoull(words[4], NULL, 10) : 1);
    return 0;
}
