/* The handles of libcallauction: each call of callauction.h finds here whether another call has its handle, and goes on
 * to the proved call of the same name. Nothing here is proved.
 * The proved calls want one call at a time on a handle, and an identity of its own for each board; this file sees to
 * both. They don't read the callers' own numbers of orders, and write 0 for them: clients.c keeps them.
 *
 * library/build renames the proved calls to proved_*, and links this file before them.
 */
#include "callauction.h"
#include "clients.h"

/* ---- the proved calls ---- */

callauction_error proved_callauction_open(callauction_handle *, const callauction_config *);
callauction_error proved_callauction_apply(callauction_handle *, const callauction_command *, callauction_reply *);
callauction_error proved_callauction_apply_many(callauction_handle *, const callauction_command *, size_t,
                                                callauction_reply *, size_t, size_t *);
callauction_error proved_callauction_uncross(callauction_handle *, callauction_reply *, callauction_outcome *, size_t,
                                             size_t *);
callauction_error proved_callauction_display(callauction_handle *, callauction_reply *);
callauction_error proved_callauction_ladder(callauction_handle *, uint64_t *, size_t, uint64_t *, size_t,
                                            callauction_market_orders *);
callauction_error proved_callauction_trades(callauction_handle *, size_t, callauction_trade *, size_t, size_t *);
callauction_error proved_callauction_orders(callauction_handle *, uint32_t, callauction_order *, size_t, size_t *);
callauction_error proved_callauction_expiring(callauction_handle *, callauction_order *, size_t, size_t *);
callauction_error proved_callauction_calls(callauction_handle *, uint32_t *);
callauction_error proved_callauction_state(callauction_handle *, callauction_day_state *);
callauction_error proved_callauction_config_of(callauction_handle *, callauction_config *);
callauction_error proved_callauction_reset(callauction_handle *);
callauction_error proved_callauction_clone(callauction_handle *, callauction_handle *);
callauction_error proved_callauction_close(callauction_handle *);
callauction_error proved_callauction_board_open(callauction_member *, size_t, const callauction_config *, uint64_t);
callauction_error proved_callauction_board_call(callauction_member *, const callauction_command *,
                                                callauction_receipt *);
callauction_error proved_callauction_board_apply_many(callauction_member *, const callauction_command *, size_t,
                                                      callauction_receipt *, size_t, size_t *);
callauction_error proved_callauction_board_look(callauction_member *, callauction_shown *);
callauction_error proved_callauction_board_ladder(callauction_member *, uint64_t *, size_t, uint64_t *, size_t,
                                                  callauction_market_orders *, uint32_t *);
callauction_error proved_callauction_board_trades(callauction_member *, size_t, callauction_trade *, size_t, size_t *,
                                                  uint32_t *);
callauction_error proved_callauction_board_orders(callauction_member *, uint32_t, callauction_order *, size_t,
                                                  size_t *, uint32_t *);
callauction_error proved_callauction_board_expiring(callauction_member *, callauction_order *, size_t, size_t *,
                                                    uint32_t *);
callauction_error proved_callauction_board_state(callauction_member *, callauction_day_state *);
callauction_error proved_callauction_board_history(callauction_member *, size_t, callauction_entry *, size_t,
                                                   size_t *);
callauction_error proved_callauction_board_clone(callauction_member *, callauction_handle *);
callauction_error proved_callauction_board_calls(callauction_member *, uint32_t *);
callauction_error proved_callauction_board_config_of(callauction_member *, callauction_config *);
callauction_error proved_callauction_board_close(callauction_member *, size_t, callauction_entry *, size_t,
                                                 uint32_t *, size_t, size_t *);
callauction_error proved_callauction_board_leave(callauction_member *);
callauction_error proved_callauction_journal_day(const callauction_config *, uint32_t, char *, size_t, size_t *);
callauction_error proved_callauction_journal_entries(const callauction_entry *, size_t, char *, size_t, size_t *,
                                                     size_t *);
callauction_error proved_callauction_journal_open(callauction_handle *, const char *, size_t, callauction_journal *);

/* ---- the flag of a handle ---- */

static bool takes(uint8_t *busy) { return __atomic_exchange_n(busy, 1, __ATOMIC_ACQUIRE) == 0; }

static void gives_back(uint8_t *busy) { __atomic_store_n(busy, 0, __ATOMIC_RELEASE); }

/* Answers what the proved call answers, made while this call has the handle. A call that counts has written its count
 * as 0 before, so that it is 0 after each error. */
#define THROUGH(handle, call)                                           \
    do {                                                                \
        if (!takes(&(handle)->busy_)) return CALLAUCTION_ERROR_MISUSED; \
        const callauction_error answer = (call);                        \
        gives_back(&(handle)->busy_);                                   \
        return answer;                                                  \
    } while (0)

/* Takes all handles, or none. */
static bool takes_all(callauction_member *members, size_t count) {
    for (size_t i = 0; i < count; i++) {
        if (takes(&members[i].busy_)) continue;
        while (i > 0) gives_back(&members[--i].busy_);
        return false;
    }
    return true;
}

static void gives_all_back(callauction_member *members, size_t count) {
    for (size_t i = 0; i < count; i++) gives_back(&members[i].busy_);
}

/* ---- an auction of one thread ---- */

/* The handle, which has just been opened, gets a table of clients, or is closed again where memory is refused. */
static callauction_error gets_clients(callauction_handle *handle, uint32_t max_calls) {
    handle->clients_ = clients_new(max_calls, 1);
    if (handle->clients_) return CALLAUCTION_DONE;
    const callauction_error closed = proved_callauction_close(handle);
    handle->reserve_ = 0;
    return closed == CALLAUCTION_DONE ? CALLAUCTION_ERROR_NO_MEMORY : closed;
}

static callauction_error opens(callauction_handle *handle, const callauction_config *config) {
    const callauction_error answer = proved_callauction_open(handle, config);
    return answer == CALLAUCTION_DONE ? gets_clients(handle, config->max_calls) : answer;
}

callauction_error callauction_open(callauction_handle *handle, const callauction_config *config) {
    THROUGH(handle, opens(handle, config));
}

static callauction_error applies(callauction_handle *handle, const callauction_command *command,
                                 callauction_reply *reply) {
    const callauction_error answer = proved_callauction_apply(handle, command, reply);
    if (answer == CALLAUCTION_DONE && clients_has(command)) clients_keep(handle->clients_, command, reply);
    return answer;
}

callauction_error callauction_apply(callauction_handle *handle, const callauction_command *command,
                                    callauction_reply *reply) {
    THROUGH(handle, applies(handle, command, reply));
}

static callauction_error applies_many(callauction_handle *handle, const callauction_command *commands,
                                      size_t command_count, callauction_reply *replies, size_t reply_count,
                                      size_t *applied) {
    const callauction_error answer =
        proved_callauction_apply_many(handle, commands, command_count, replies, reply_count, applied);
    for (size_t i = 0; i < *applied; i++)
        if (clients_has(&commands[i])) clients_keep(handle->clients_, &commands[i], &replies[i]);
    return answer;
}

callauction_error callauction_apply_many(callauction_handle *handle, const callauction_command *commands,
                                         size_t command_count, callauction_reply *replies, size_t reply_count,
                                         size_t *applied) {
    *applied = 0;
    THROUGH(handle, applies_many(handle, commands, command_count, replies, reply_count, applied));
}

static callauction_error uncrosses(callauction_handle *handle, callauction_reply *reply,
                                   callauction_outcome *outcomes, size_t outcome_count, size_t *copied) {
    const callauction_error answer = proved_callauction_uncross(handle, reply, outcomes, outcome_count, copied);
    if (answer == CALLAUCTION_DONE) clients_of_outcomes(handle->clients_, outcomes, *copied);
    return answer;
}

callauction_error callauction_uncross(callauction_handle *handle, callauction_reply *reply,
                                      callauction_outcome *outcomes, size_t outcome_count, size_t *copied) {
    *copied = 0;
    THROUGH(handle, uncrosses(handle, reply, outcomes, outcome_count, copied));
}

callauction_error callauction_display(const callauction_handle *handle, callauction_reply *shown) {
    callauction_handle *own = (callauction_handle *)handle;
    THROUGH(own, proved_callauction_display(own, shown));
}

callauction_error callauction_ladder(const callauction_handle *handle, uint64_t *bids, size_t bid_count,
                                     uint64_t *asks, size_t ask_count, callauction_market_orders *market) {
    callauction_handle *own = (callauction_handle *)handle;
    THROUGH(own, proved_callauction_ladder(own, bids, bid_count, asks, ask_count, market));
}

callauction_error callauction_trades(const callauction_handle *handle, size_t seen, callauction_trade *trades,
                                     size_t trade_count, size_t *copied) {
    *copied = 0;
    callauction_handle *own = (callauction_handle *)handle;
    THROUGH(own, proved_callauction_trades(own, seen, trades, trade_count, copied));
}

static callauction_error lists_orders(callauction_handle *handle, uint32_t member, callauction_order *orders,
                                      size_t order_count, size_t *copied) {
    const callauction_error answer = proved_callauction_orders(handle, member, orders, order_count, copied);
    if (answer == CALLAUCTION_DONE) clients_of_orders(handle->clients_, orders, *copied);
    return answer;
}

callauction_error callauction_orders(const callauction_handle *handle, uint32_t member, callauction_order *orders,
                                     size_t order_count, size_t *copied) {
    *copied = 0;
    callauction_handle *own = (callauction_handle *)handle;
    THROUGH(own, lists_orders(own, member, orders, order_count, copied));
}

static callauction_error lists_expiring(callauction_handle *handle, callauction_order *orders, size_t order_count,
                                        size_t *copied) {
    const callauction_error answer = proved_callauction_expiring(handle, orders, order_count, copied);
    if (answer == CALLAUCTION_DONE) clients_of_orders(handle->clients_, orders, *copied);
    return answer;
}

callauction_error callauction_expiring(const callauction_handle *handle, callauction_order *orders,
                                       size_t order_count, size_t *copied) {
    *copied = 0;
    callauction_handle *own = (callauction_handle *)handle;
    THROUGH(own, lists_expiring(own, orders, order_count, copied));
}

callauction_error callauction_calls(const callauction_handle *handle, uint32_t *calls) {
    callauction_handle *own = (callauction_handle *)handle;
    THROUGH(own, proved_callauction_calls(own, calls));
}

callauction_error callauction_state(const callauction_handle *handle, callauction_day_state *state) {
    callauction_handle *own = (callauction_handle *)handle;
    THROUGH(own, proved_callauction_state(own, state));
}

callauction_error callauction_config_of(const callauction_handle *handle, callauction_config *config) {
    callauction_handle *own = (callauction_handle *)handle;
    THROUGH(own, proved_callauction_config_of(own, config));
}

static callauction_error resets(callauction_handle *handle) {
    const callauction_error answer = proved_callauction_reset(handle);
    if (answer == CALLAUCTION_DONE) clients_clear(handle->clients_);
    return answer;
}

callauction_error callauction_reset(callauction_handle *handle) { THROUGH(handle, resets(handle)); }

/* The other handle, which has just become a copy, gets a copy of these clients of an auction with as many calls. */
static callauction_error copies_clients(const clients *from, callauction_handle *other) {
    callauction_config config;
    callauction_error answer = proved_callauction_config_of(other, &config);
    if (answer == CALLAUCTION_DONE && !other->clients_) answer = gets_clients(other, config.max_calls);
    if (answer == CALLAUCTION_DONE) clients_copy(from, other->clients_);
    return answer;
}

static callauction_error copies(callauction_handle *handle, callauction_handle *other) {
    const callauction_error answer = proved_callauction_clone(handle, other);
    return answer == CALLAUCTION_DONE ? copies_clients(handle->clients_, other) : answer;
}

static callauction_error clones(callauction_handle *handle, callauction_handle *other) {
    THROUGH(other, copies(handle, other));
}

callauction_error callauction_clone(const callauction_handle *handle, callauction_handle *other) {
    callauction_handle *own = (callauction_handle *)handle;
    THROUGH(own, clones(own, other));
}

static callauction_error closes(callauction_handle *handle) {
    const callauction_error answer = proved_callauction_close(handle);
    if (answer != CALLAUCTION_DONE) return answer;
    clients_leave(handle->clients_);
    handle->clients_ = NULL;
    return answer;
}

callauction_error callauction_close(callauction_handle *handle) { THROUGH(handle, closes(handle)); }

/* ---- a board ---- */

/* Each opening gets another number, which a closing knows the members of two boards by. */
static uint64_t next_identity(void) {
    static uint64_t last;
    return __atomic_add_fetch(&last, 1, __ATOMIC_RELAXED);
}

static callauction_error opens_board(callauction_member *members, size_t member_count,
                                     const callauction_config *config) {
    const callauction_error answer = proved_callauction_board_open(members, member_count, config, next_identity());
    if (answer != CALLAUCTION_DONE) return answer;
    clients *const table = clients_new(config->max_calls, (uint32_t)member_count);
    for (size_t i = 0; i < member_count; i++) {
        members[i].clients_ = table;
        if (table) continue;
        proved_callauction_board_leave(&members[i]);
        members[i].reserve_ = 0;
    }
    return table ? CALLAUCTION_DONE : CALLAUCTION_ERROR_NO_MEMORY;
}

callauction_error callauction_board_open(callauction_member *members, size_t member_count,
                                         const callauction_config *config) {
    if (!takes_all(members, member_count)) return CALLAUCTION_ERROR_MISUSED;
    const callauction_error answer = opens_board(members, member_count, config);
    gives_all_back(members, member_count);
    return answer;
}

/* A call without a client doesn't take the table. */
static callauction_error calls_board(callauction_member *member, const callauction_command *command,
                                     callauction_receipt *receipt) {
    clients *const table = clients_has(command) ? member->clients_ : NULL;
    if (!clients_take(table)) return CALLAUCTION_ERROR_BUSY;
    const callauction_error answer = proved_callauction_board_call(member, command, receipt);
    if (table && answer == CALLAUCTION_DONE) clients_keep(table, command, &receipt->reply);
    clients_give_back(table);
    return answer;
}

callauction_error callauction_board_call(callauction_member *member, const callauction_command *command,
                                         callauction_receipt *receipt) {
    THROUGH(member, calls_board(member, command, receipt));
}

static callauction_error calls_board_many(callauction_member *member, const callauction_command *commands,
                                          size_t command_count, callauction_receipt *receipts, size_t receipt_count,
                                          size_t *applied) {
    clients *table = NULL;
    for (size_t i = 0; i < command_count && !table; i++)
        if (clients_has(&commands[i])) table = member->clients_;
    if (!clients_take(table)) return CALLAUCTION_ERROR_BUSY;
    const callauction_error answer =
        proved_callauction_board_apply_many(member, commands, command_count, receipts, receipt_count, applied);
    for (size_t i = 0; table && i < *applied; i++)
        if (clients_has(&commands[i])) clients_keep(table, &commands[i], &receipts[i].reply);
    clients_give_back(table);
    return answer;
}

callauction_error callauction_board_apply_many(callauction_member *member, const callauction_command *commands,
                                               size_t command_count, callauction_receipt *receipts,
                                               size_t receipt_count, size_t *applied) {
    *applied = 0;
    THROUGH(member, calls_board_many(member, commands, command_count, receipts, receipt_count, applied));
}

callauction_error callauction_board_look(callauction_member *member, callauction_shown *shown) {
    THROUGH(member, proved_callauction_board_look(member, shown));
}

callauction_error callauction_board_ladder(callauction_member *member, uint64_t *bids, size_t bid_count,
                                           uint64_t *asks, size_t ask_count, callauction_market_orders *market,
                                           uint32_t *calls) {
    THROUGH(member, proved_callauction_board_ladder(member, bids, bid_count, asks, ask_count, market, calls));
}

callauction_error callauction_board_trades(callauction_member *member, size_t seen, callauction_trade *trades,
                                           size_t trade_count, size_t *copied, uint32_t *calls) {
    *copied = 0;
    THROUGH(member, proved_callauction_board_trades(member, seen, trades, trade_count, copied, calls));
}

static callauction_error lists_board_orders(callauction_member *member, uint32_t of, callauction_order *orders,
                                            size_t order_count, size_t *copied, uint32_t *calls) {
    clients *const table = member->clients_;
    if (!clients_take(table)) return CALLAUCTION_ERROR_BUSY;
    const callauction_error answer = proved_callauction_board_orders(member, of, orders, order_count, copied, calls);
    if (answer == CALLAUCTION_DONE) clients_of_orders(table, orders, *copied);
    clients_give_back(table);
    return answer;
}

callauction_error callauction_board_orders(callauction_member *member, uint32_t of, callauction_order *orders,
                                           size_t order_count, size_t *copied, uint32_t *calls) {
    *copied = 0;
    THROUGH(member, lists_board_orders(member, of, orders, order_count, copied, calls));
}

static callauction_error lists_board_expiring(callauction_member *member, callauction_order *orders,
                                              size_t order_count, size_t *copied, uint32_t *calls) {
    clients *const table = member->clients_;
    if (!clients_take(table)) return CALLAUCTION_ERROR_BUSY;
    const callauction_error answer = proved_callauction_board_expiring(member, orders, order_count, copied, calls);
    if (answer == CALLAUCTION_DONE) clients_of_orders(table, orders, *copied);
    clients_give_back(table);
    return answer;
}

callauction_error callauction_board_expiring(callauction_member *member, callauction_order *orders,
                                             size_t order_count, size_t *copied, uint32_t *calls) {
    *copied = 0;
    THROUGH(member, lists_board_expiring(member, orders, order_count, copied, calls));
}

callauction_error callauction_board_state(callauction_member *member, callauction_day_state *state) {
    THROUGH(member, proved_callauction_board_state(member, state));
}

static callauction_error copies_history(callauction_member *member, size_t seen, callauction_entry *entries,
                                        size_t entry_count, size_t *copied) {
    clients *const table = member->clients_;
    if (!clients_take(table)) return CALLAUCTION_ERROR_BUSY;
    const callauction_error answer = proved_callauction_board_history(member, seen, entries, entry_count, copied);
    if (answer == CALLAUCTION_DONE) clients_of_entries(table, entries, *copied);
    clients_give_back(table);
    return answer;
}

callauction_error callauction_board_history(callauction_member *member, size_t seen, callauction_entry *entries,
                                            size_t entry_count, size_t *copied) {
    *copied = 0;
    THROUGH(member, copies_history(member, seen, entries, entry_count, copied));
}

static callauction_error copies_board(callauction_member *member, callauction_handle *other) {
    clients *const table = member->clients_;
    if (!clients_take(table)) return CALLAUCTION_ERROR_BUSY;
    callauction_error answer = proved_callauction_board_clone(member, other);
    if (answer == CALLAUCTION_DONE) answer = copies_clients(table, other);
    clients_give_back(table);
    return answer;
}

static callauction_error clones_board(callauction_member *member, callauction_handle *other) {
    THROUGH(other, copies_board(member, other));
}

callauction_error callauction_board_clone(callauction_member *member, callauction_handle *other) {
    THROUGH(member, clones_board(member, other));
}

callauction_error callauction_board_calls(const callauction_member *member, uint32_t *calls) {
    callauction_member *own = (callauction_member *)member;
    THROUGH(own, proved_callauction_board_calls(own, calls));
}

callauction_error callauction_board_config_of(const callauction_member *member, callauction_config *config) {
    callauction_member *own = (callauction_member *)member;
    THROUGH(own, proved_callauction_board_config_of(own, config));
}

callauction_error callauction_board_close(callauction_member *members, size_t member_count,
                                          callauction_entry *entries, size_t entry_count, uint32_t *counts,
                                          size_t count_count, size_t *written) {
    *written = 0;
    if (!takes_all(members, member_count)) return CALLAUCTION_ERROR_MISUSED;
    const callauction_error answer =
        proved_callauction_board_close(members, member_count, entries, entry_count, counts, count_count, written);
    if (answer == CALLAUCTION_DONE) clients_of_entries(members[0].clients_, entries, *written);
    gives_all_back(members, member_count);
    return answer;
}

static callauction_error leaves(callauction_member *member) {
    const callauction_error answer = proved_callauction_board_leave(member);
    if (answer != CALLAUCTION_DONE) return answer;
    clients_leave(member->clients_);
    member->clients_ = NULL;
    return answer;
}

callauction_error callauction_board_leave(callauction_member *member) { THROUGH(member, leaves(member)); }

/* ---- journals ---- */

callauction_error callauction_journal_day(const callauction_config *config, uint32_t members, char *text,
                                          size_t text_count, size_t *written) {
    *written = 0;
    return proved_callauction_journal_day(config, members, text, text_count, written);
}

callauction_error callauction_journal_entries(const callauction_entry *entries, size_t entry_count, char *text,
                                              size_t text_count, size_t *copied, size_t *written) {
    *copied = 0;
    *written = 0;
    return proved_callauction_journal_entries(entries, entry_count, text, text_count, copied, written);
}

/* What was found is written once the handle has its table of clients. */
static callauction_error opens_journal(callauction_handle *handle, const char *text, size_t text_count,
                                       callauction_journal *found) {
    callauction_journal read = *found;
    callauction_config config;
    callauction_error answer = proved_callauction_journal_open(handle, text, text_count, &read);
    if (answer == CALLAUCTION_DONE) {
        answer = proved_callauction_config_of(handle, &config);
        if (answer == CALLAUCTION_DONE) answer = gets_clients(handle, config.max_calls);
    }
    if (answer == CALLAUCTION_DONE || answer == CALLAUCTION_ERROR_BAD_JOURNAL) *found = read;
    return answer;
}

callauction_error callauction_journal_open(callauction_handle *handle, const char *text, size_t text_count,
                                           callauction_journal *found) {
    THROUGH(handle, opens_journal(handle, text, text_count, found));
}
