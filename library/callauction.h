/* A proved call auction of one instrument over one day, for C11 and C++17: libcallauction.
 *
 * There are two ways to have one. An auction of one thread is held by one handle (callauction_open, callauction_apply
 * and so on). A board is one auction for many members, who call at once: each member has a handle of its own
 * (callauction_board_open, callauction_board_call and so on), which goes to a thread of its own.
 *
 * A handle of zeros holds nothing, and each call on it but an opening answers CALLAUCTION_ERROR_NO_AUCTION, or
 * CALLAUCTION_ERROR_NO_MEMBER, and does nothing else. Each call answers CALLAUCTION_DONE or the number of an error, and
 * an error changes nothing but the counts `copied`, `applied` and `written`, which it writes as 0; it leaves `calls`
 * and `counts` as they were (callauction_apply_many, callauction_board_apply_many and callauction_journal_entries write
 * how many commands or entries they had done before one, and callauction_journal_open the fault of a text; after
 * CALLAUCTION_ERROR_FULL on a board its member has seen at least max_calls calls, or reserve fewer).
 *
 * docs/MODEL.md says what a command does, when it is refused and what it is answered. Limits and prices are ticks,
 * quantities whole shares. Members are numbered from 0, and member 0 is the operator, who alone uncrosses.
 *
 * Limits: ticks from 1 to 1,000,000, at most 65,536 of them; orders of 1 to 1,000,000,000 shares; 1 to 65,536 open
 * orders; 1 to 1,048,576 calls a day; members 0 to 255 of an auction of one thread, 1 to 64 members of a board. C
 * converts an integer to a field's type silently: 256 as a member is member 0. callauction.hpp checks that.
 *
 * What each call does is proved, as long as its caller keeps to this:
 *
 * - A handle begins as zeros, its fields are neither read nor written, and it isn't copied. Between two calls it may be
 *   moved, if its old place is set to zeros, and given to another thread.
 * - One call at a time has a handle; callauction_board_open and callauction_board_close have all handles of their
 *   board. Two calls at once on one handle are found by a flag in it, and the later one answers
 *   CALLAUCTION_ERROR_MISUSED and does nothing. The flag is set in one atomic step, so calls at once are always found;
 *   it doesn't find a handle that was copied, moved or freed while a call has it.
 * - No pointer is NULL, but that of an array of length 0. Each points at as many structs as the call says, aligned as
 *   their type wants, and what one pointer of a call leads to doesn't overlap what another does.
 *
 * After a fork the child has handles of its own, copies of all. One that another thread was calling just then answers
 * CALLAUCTION_ERROR_MISUSED at each call in the child, its closing among them, and its board may stay
 * CALLAUCTION_ERROR_BUSY there; the board's other handles still look, and are given up.
 */
#ifndef CALLAUCTION_H
#define CALLAUCTION_H

#include <stdbool.h>
#include <stddef.h>
#include <stdint.h>

#define CALLAUCTION_VERSION "2026.11.26"

#if defined(__GNUC__) || defined(__clang__)
#define CALLAUCTION_RESULT __attribute__((warn_unused_result))
#else
#define CALLAUCTION_RESULT
#endif

#ifdef __cplusplus
extern "C" {
#endif

/* ---- what calls answer: each number has one meaning at every call ---- */

typedef enum callauction_error {
    CALLAUCTION_DONE = 0,
    CALLAUCTION_ERROR_BAD_BOUNDS = 1,    /* not 1 <= low <= high <= 1,000,000, or more than 65,536 ticks */
    CALLAUCTION_ERROR_BAD_REFERENCE = 2, /* the reference isn't a tick from low to high */
    CALLAUCTION_ERROR_BAD_CAPACITY = 3,  /* max_open isn't from 1 to 65,536, max_calls isn't from 1 to 1,048,576, or a
                                            board hasn't 1 to 64 members */
    CALLAUCTION_ERROR_NO_MEMORY = 4,     /* memory was refused */
    CALLAUCTION_ERROR_IN_USE = 5,        /* a handle that was to get an auction or a member holds one */
    CALLAUCTION_ERROR_NO_AUCTION = 6,    /* the handle holds no auction */
    CALLAUCTION_ERROR_NO_COMMAND = 7,    /* the struct is no command */
    CALLAUCTION_ERROR_FULL = 8,          /* no call is left to the member: max_calls were made, or those that are left
                                            are the operator's */
    CALLAUCTION_ERROR_BAD_LENGTH = 9,    /* an array has another length than the call wants */
    CALLAUCTION_ERROR_NO_CONFIG = 10,    /* the struct is no config */
    CALLAUCTION_ERROR_BUSY = 11,         /* another member's call has the board: try again. Calls that give orders a
                                            client, list orders or entries, or copy the auction also want the board's
                                            clients, and may answer this before another error */
    CALLAUCTION_ERROR_BEHIND = 12,       /* the member has seen or counted other calls than the board's history has */
    CALLAUCTION_ERROR_CLOSED = 13,       /* the board was closed */
    CALLAUCTION_ERROR_NO_MEMBER = 14,    /* the handle holds no member */
    CALLAUCTION_ERROR_MISSING_MEMBER = 15, /* the handles don't hold all members of a board in their order */
    CALLAUCTION_ERROR_OVERTAKEN = 16,    /* the board's story, the list of its calls, has one that its history
                                            hasn't; no run is known to meet it */
    CALLAUCTION_ERROR_BAD_MEMBER = 17,   /* the number is neither a member's nor CALLAUCTION_ALL_MEMBERS */
    CALLAUCTION_ERROR_MISUSED = 18,      /* another call has the handle: two threads use one, which the caller has to
                                            mend */
    CALLAUCTION_ERROR_BAD_JOURNAL = 19,  /* the text is no journal */
    CALLAUCTION_ERROR_NO_ENTRY = 20      /* the struct is no entry that a journal can hold */
} callauction_error;

/* ---- the structs: a flag is 0 or 1, and a value whose flag is 0 is 0 ---- */

/* Begin with one of zeros: callauction_handle handle = {0}; */
typedef struct callauction_handle {
    void *boxed_;
    void *clients_;
    uint32_t reserve_;
    bool is_open_;
    uint8_t busy_;
} callauction_handle;

/* A member of a board. Begin with zeros: callauction_member members[8] = {{0}}; */
typedef struct callauction_member {
    void *boxed_;
    void *clients_;
    uint32_t reserve_;
    bool is_open_;
    uint8_t busy_;
} callauction_member;

typedef struct callauction_config {
    uint32_t low, high; /* the lowest and the highest tick */
    uint32_t reference; /* the first reference price */
    uint32_t max_open;  /* how many orders may be open at a time */
    uint32_t max_calls; /* how many commands may be applied */
    uint32_t has_range; /* 0: no price interrupts an uncross; 1: one more than range ticks from the reference does */
    uint32_t range;
    uint32_t has_reserve; /* 1: the last reserve calls are the operator's; 0: none of an auction, 16 of a board */
    uint32_t reserve;     /* with as many as max_calls no other member makes any */
} callauction_config;

/* The tags of a command, with the fields that each needs; no other is read. Each needs member, but for a board's call,
 * whose member is the handle's. */
typedef enum callauction_command_tag {
    CALLAUCTION_COMMAND_ENTER = 1,        /* side, restriction, has_limit and limit, quantity, has_peak and peak;
                                             client too */
    CALLAUCTION_COMMAND_CHANGE = 2,       /* id, has_limit and limit, quantity */
    CALLAUCTION_COMMAND_DELETE = 3,       /* id */
    CALLAUCTION_COMMAND_ORDER_STATUS = 4, /* id */
    CALLAUCTION_COMMAND_INDICATE = 5,
    CALLAUCTION_COMMAND_READ_TRADE = 6, /* id: the number of the trade, from 1 on */
    CALLAUCTION_COMMAND_UNCROSS = 7
} callauction_command_tag;

typedef enum callauction_side {
    CALLAUCTION_SIDE_NONE = 0,
    CALLAUCTION_SIDE_BID = 1,
    CALLAUCTION_SIDE_ASK = 2
} callauction_side;

/* The auctions that an order is for: every one, the opening alone, the closing alone. */
typedef enum callauction_restriction {
    CALLAUCTION_RESTRICTION_NONE = 0,
    CALLAUCTION_RESTRICTION_OPENING_ONLY = 1,
    CALLAUCTION_RESTRICTION_CLOSING_ONLY = 2
} callauction_restriction;

typedef struct callauction_command {
    uint64_t quantity;   /* shares */
    uint64_t peak;       /* the most shares that an iceberg order shows; 0 where has_peak is 0 */
    uint64_t client;     /* any number of the caller's own, as of an agent: it is kept with the order, given back where
                            that is listed, and read by nothing else */
    uint32_t id;         /* of an order, or the number of a trade */
    uint32_t limit;      /* a tick; 0 where has_limit is 0, which makes a market order */
    uint8_t member;      /* 0 to 255 */
    uint8_t tag;         /* callauction_command_tag */
    uint8_t side;        /* CALLAUCTION_SIDE_BID or CALLAUCTION_SIDE_ASK */
    uint8_t restriction; /* callauction_restriction */
    uint8_t has_limit;
    uint8_t has_peak;
} callauction_command;

/* The tags of a reply, with the fields that each fills; all others are 0. A price is tick, volume, surplus and side. */
typedef enum callauction_reply_tag {
    CALLAUCTION_REPLY_ENTERED = 1,      /* id */
    CALLAUCTION_REPLY_CHANGED = 2,      /* kept */
    CALLAUCTION_REPLY_DELETED = 3,
    CALLAUCTION_REPLY_OPEN_ORDER = 4,   /* side, has_tick and tick (its limit), quantity, visible */
    CALLAUCTION_REPLY_PRICED = 5,       /* a price, has_tick 1 */
    CALLAUCTION_REPLY_UNPRICED = 6,     /* has_best_bid and best_bid, has_best_ask and best_ask */
    CALLAUCTION_REPLY_TRADED = 7,       /* id (its bid), ask, tick, quantity */
    CALLAUCTION_REPLY_UNCROSSED = 8,    /* auction, trades; has_tick and, where it is 1, a price */
    CALLAUCTION_REPLY_INTERRUPTED = 9,  /* a price, has_tick 1 */
    CALLAUCTION_REPLY_REFUSED = 10      /* refusal */
} callauction_reply_tag;

typedef enum callauction_auction_kind {
    CALLAUCTION_AUCTION_OPENING = 1,
    CALLAUCTION_AUCTION_INTRADAY = 2,
    CALLAUCTION_AUCTION_CLOSING = 3
} callauction_auction_kind;

/* Why a command was refused. A refused command counts as a call, and leaves all else as it was. */
typedef enum callauction_refusal {
    CALLAUCTION_REFUSAL_BAD_QUANTITY = 1,
    CALLAUCTION_REFUSAL_BAD_LIMIT = 2,
    CALLAUCTION_REFUSAL_BAD_PEAK = 3,
    CALLAUCTION_REFUSAL_BOOK_FULL = 4,
    CALLAUCTION_REFUSAL_UNKNOWN_ORDER = 5,
    CALLAUCTION_REFUSAL_NOT_OPERATOR = 6,
    CALLAUCTION_REFUSAL_DAY_OVER = 7,
    CALLAUCTION_REFUSAL_NO_SUCH_TRADE = 8,
    CALLAUCTION_REFUSAL_PAST_AUCTION = 9
} callauction_refusal;

typedef struct callauction_reply {
    uint64_t quantity, visible; /* shares of an order or a trade */
    uint64_t volume, surplus;   /* shares of a price */
    uint32_t id;                /* of the order that was entered, or of a trade's bid */
    uint32_t ask;               /* the id of a trade's ask */
    uint32_t tick;
    uint32_t trades; /* how many trades an uncross made */
    uint32_t best_bid, best_ask;
    uint8_t tag;     /* callauction_reply_tag */
    uint8_t side;    /* of an order or of a surplus: CALLAUCTION_SIDE_NONE where the surplus is 0 */
    uint8_t auction; /* callauction_auction_kind of the one that was uncrossed */
    uint8_t kept;    /* 1 where a changed order kept its place in time */
    uint8_t refusal; /* callauction_refusal */
    uint8_t has_tick, has_best_bid, has_best_ask;
} callauction_reply;

typedef struct callauction_trade {
    uint64_t quantity; /* shares */
    uint32_t bid, ask; /* the ids of the two orders */
    uint32_t tick;     /* the price */
} callauction_trade;

/* An open order, as it is listed. */
typedef struct callauction_order {
    uint64_t quantity;   /* the open shares */
    uint64_t visible;    /* those that are shown: the lesser of peak and open shares */
    uint64_t filled;     /* those that the day's trades executed of it */
    uint64_t peak;       /* the most shares that it shows; 0 where has_peak is 0 */
    uint64_t client;     /* of the command that entered it */
    uint32_t id;
    uint32_t limit;      /* a tick; 0 where has_limit is 0, of a market order */
    uint8_t member;
    uint8_t side;        /* CALLAUCTION_SIDE_BID or CALLAUCTION_SIDE_ASK */
    uint8_t restriction; /* callauction_restriction */
    uint8_t has_limit;
    uint8_t has_peak;
} callauction_order;

/* What an uncross did to an order of which it executed shares, or which it took out. */
typedef struct callauction_outcome {
    uint64_t filled; /* the shares that it executed of the order, as its trades say */
    uint64_t left;   /* those that it left: they are open, unless expired is 1 */
    uint64_t client; /* of the command that entered the order */
    uint32_t id;
    uint32_t tick;   /* the auction price; 0 where there was none */
    uint8_t member;
    uint8_t side;    /* CALLAUCTION_SIDE_BID or CALLAUCTION_SIDE_ASK */
    uint8_t expired; /* 1 where the order was for this auction alone, and what was left of it was taken out */
} callauction_outcome;

/* Whose orders: those of a member, 0 to 255, or of all. */
enum { CALLAUCTION_ALL_MEMBERS = 256 };

/* Where the day of an auction is. */
typedef struct callauction_day_state {
    uint32_t reference;  /* the reference price: the last auction price of the day, before it the config's */
    uint32_t calls;      /* how many commands were applied, the refused ones among them */
    uint32_t calls_left; /* how many more may be */
    uint32_t calls_left_to_members; /* how many of them by another member than the operator */
    uint8_t auction;     /* callauction_auction_kind of the current auction; 0 where in_call is 0 */
    uint8_t in_call;     /* 1 in its call phase; 0 after the day */
    uint8_t extended;    /* 1 where an interruption extended this call phase, which interrupts it no more */
} callauction_day_state;

/* The shares of the market orders that count. */
typedef struct callauction_market_orders {
    uint64_t bids, asks;
} callauction_market_orders;

/* What a recorded call is answered: its number in the board's history, from 1 on, and the auction's reply. */
typedef struct callauction_receipt {
    callauction_reply reply;
    uint32_t number;
} callauction_receipt;

/* How many calls a board has had, and what is shown after them, PRICED or UNPRICED. */
typedef struct callauction_shown {
    callauction_reply display;
    uint32_t calls;
} callauction_shown;

/* A call of a board's history, with its reply: a command has its client where it entered an order, else 0. */
typedef struct callauction_entry {
    callauction_command command;
    callauction_reply reply;
} callauction_entry;

/* What is wrong with a journal; docs/FORMATS.md says where each is found. */
typedef enum callauction_journal_fault {
    CALLAUCTION_JOURNAL_NO_FAULT = 0,
    CALLAUCTION_JOURNAL_TOO_LONG = 1,          /* it has more than 268,435,456 bytes */
    CALLAUCTION_JOURNAL_BAD_MEMBER = 2,        /* the first field is no number below the count of members */
    CALLAUCTION_JOURNAL_BAD_COMMAND = 3,       /* the second field is missing, or no known word */
    CALLAUCTION_JOURNAL_BAD_COUNT = 4,         /* too few or too many fields */
    CALLAUCTION_JOURNAL_BAD_FIELD = 5,         /* a field is malformed, or out of its range */
    CALLAUCTION_JOURNAL_TOO_MANY_COMMANDS = 6, /* a record more than the day may have calls */
    CALLAUCTION_JOURNAL_NOT_A_DAY = 7          /* the first record is missing, or isn't that of a day */
} callauction_journal_fault;

/* What a journal's text comes to: its fault, or what was counted. */
typedef struct callauction_journal {
    uint64_t record_number;  /* of the record that has the fault, from 1 on; 0 where none has */
    uint32_t field_number;   /* of a bad field in it, from 1 on; else 0 */
    uint32_t fault;          /* callauction_journal_fault; where it isn't 0, all below is 0 */
    uint32_t members;        /* for how many members the day is */
    uint32_t calls;          /* how many calls it has */
    uint32_t compared;       /* how many of them have a recorded reply, which was compared with the lawful one */
    uint32_t unlawful;       /* of how many of these it isn't the lawful one */
    uint32_t first_unlawful; /* the number of the first such call, from 1 on; 0 where there is none */
    uint32_t taken;          /* how many bytes its whole lines have, which were read; more may follow them */
} callauction_journal;

/* ---- the library ---- */

/* The version of the library that is linked, as CALLAUCTION_VERSION is that of the header. */
const char *callauction_version(void);

/* One line of English, without a full stop: of what a call answered, of why a command was refused, of what is wrong
 * with a journal. For any other number "unknown error", "unknown refusal" and "unknown fault". */
const char *callauction_error_text(uint32_t error);
const char *callauction_refusal_text(uint32_t refusal);
const char *callauction_journal_fault_text(uint32_t fault);

/* ---- an auction of one thread ---- */

/* The handle gets an auction at its opening: no orders, no trades, the reference of the config. All memory that the
 * day wants is taken here. IN_USE where the handle holds an auction; else NO_CONFIG where has_range isn't 0 or 1, or
 * range isn't 0 without it, and so of has_reserve; else the first fault of the config, BAD_BOUNDS, BAD_REFERENCE or
 * BAD_CAPACITY; else NO_MEMORY where memory is refused. */
CALLAUCTION_RESULT callauction_error callauction_open(callauction_handle *handle, const callauction_config *config);

/* Applies a command and writes its reply. NO_COMMAND where a number of the struct that its tag needs is none of its
 * enum, a flag isn't 0 or 1, or a value isn't 0 whose flag is; FULL where max_calls commands were applied, or no more
 * than the reserve are left and the member isn't 0. A command that the auction refuses is no error: its reply is
 * REFUSED. */
CALLAUCTION_RESULT callauction_error callauction_apply(callauction_handle *handle,
                                                       const callauction_command *command,
                                                       callauction_reply *reply);

/* Applies commands one after another, each as callauction_apply, up to the first error, which it answers, and writes
 * how many were applied, and their replies; those after stay as they were. BAD_LENGTH where the two counts differ. */
CALLAUCTION_RESULT callauction_error callauction_apply_many(callauction_handle *handle,
                                                            const callauction_command *commands,
                                                            size_t command_count, callauction_reply *replies,
                                                            size_t reply_count, size_t *applied);

/* Applies an uncross of member 0, as callauction_apply, writes its reply, and what it did to each order of which it
 * executed shares or which it took out, in the price-time priority that they had, bids before asks: as many as there
 * are and as fit, and how many it wrote. They are at most max_open. An uncross that was interrupted or refused did
 * nothing to any. FULL; else NO_MEMORY, as it takes memory while it runs. */
CALLAUCTION_RESULT callauction_error callauction_uncross(callauction_handle *handle, callauction_reply *reply,
                                                         callauction_outcome *outcomes, size_t outcome_count,
                                                         size_t *copied);

/* Writes what is shown, PRICED or UNPRICED. It isn't counted as a call of a member, and works after the day too. */
CALLAUCTION_RESULT callauction_error callauction_display(const callauction_handle *handle,
                                                         callauction_reply *shown);

/* Copies the shares bid and offered by the orders that count, with a limit at each tick from low to high, and writes
 * those of the market orders. BAD_LENGTH where a count isn't high - low + 1. */
CALLAUCTION_RESULT callauction_error callauction_ladder(const callauction_handle *handle, uint64_t *bids,
                                                        size_t bid_count, uint64_t *asks, size_t ask_count,
                                                        callauction_market_orders *market);

/* Copies the trades of the day after the first `seen`, as many as there are and as fit, and writes how many it
 * copied. */
CALLAUCTION_RESULT callauction_error callauction_trades(const callauction_handle *handle, size_t seen,
                                                        callauction_trade *trades, size_t trade_count,
                                                        size_t *copied);

/* Copies the open orders of a member, or of all, in price-time priority, as many as there are and as fit, and writes
 * how many it copied: bids before asks, also those that wait for another auction. BAD_MEMBER; NO_MEMORY, as it takes
 * memory while it runs. */
CALLAUCTION_RESULT callauction_error callauction_orders(const callauction_handle *handle, uint32_t member,
                                                        callauction_order *orders, size_t order_count,
                                                        size_t *copied);

/* As callauction_orders, the orders of all that an uncross now would take out because they are for its auction alone,
 * with what would be left of them then: none after the day, and where the uncross would be interrupted. Called before
 * an uncross, it says which orders that one takes out. */
CALLAUCTION_RESULT callauction_error callauction_expiring(const callauction_handle *handle,
                                                          callauction_order *orders, size_t order_count,
                                                          size_t *copied);

/* Writes how many commands were applied, the refused ones among them. */
CALLAUCTION_RESULT callauction_error callauction_calls(const callauction_handle *handle, uint32_t *calls);

/* Writes where the day is, which is no call of a member. */
CALLAUCTION_RESULT callauction_error callauction_state(const callauction_handle *handle,
                                                       callauction_day_state *state);

/* Writes what the auction was opened with: has_reserve is 1, and reserve what it has, also where that wasn't said. */
CALLAUCTION_RESULT callauction_error callauction_config_of(const callauction_handle *handle,
                                                           callauction_config *config);

/* Goes back to the opening, as if the auction had just been opened. It takes no memory. */
CALLAUCTION_RESULT callauction_error callauction_reset(callauction_handle *handle);

/* The other handle gets an auction of its own, a copy of this one as it is now, with its reserve; what is done to one
 * isn't seen in the other. Where it holds an auction with the same bounds, max_open and max_calls, that one is written
 * over, and no memory is taken. NO_AUCTION where `handle` holds none; else IN_USE where `other` holds any other
 * auction; else NO_MEMORY where memory is refused. MISUSED where both are one. */
CALLAUCTION_RESULT callauction_error callauction_clone(const callauction_handle *handle, callauction_handle *other);

/* Gives up the auction and its memory; the handle then holds none, and may be opened again. On a handle that holds
 * none, as at a second close, it answers NO_AUCTION and does nothing. */
callauction_error callauction_close(callauction_handle *handle);

/* ---- a board: members call at once, one thread each ---- */

/* Opens a board, and each handle gets the member whose number is its place in the array, from 0. All memory that the
 * day wants is taken here. IN_USE where a handle holds a member; else NO_CONFIG; else BAD_CAPACITY for more than 255
 * handles; else BAD_BOUNDS, BAD_REFERENCE or BAD_CAPACITY, the first of these, the last one too where there aren't 1 to
 * 64 handles; else NO_MEMORY. */
CALLAUCTION_RESULT callauction_error callauction_board_open(callauction_member *members, size_t member_count,
                                                            const callauction_config *config);

/* Calls a command of the handle's member on its board; the struct's `member` isn't read. The call is recorded in the
 * board's history after all that this member has seen, and its receipt has its number there and the reply of one
 * auction to which the history's calls were applied one by one. NO_COMMAND as callauction_apply; BUSY where another
 * call had the board at each of 32 tries (callauction_board_call_waiting waits), or CLOSED; else FULL where the
 * history has max_calls entries, or, but for member 0, no more than the reserve are left; else BEHIND where the member
 * has seen more calls than the history has, or counted others than it has of the member; else OVERTAKEN.
 *
 * A quantity or a peak above 4,294,967,295 is recorded as refused, and then no journal can hold the day (NO_ENTRY of
 * callauction_journal_entries): make no call with one, as callauction.hpp doesn't. */
CALLAUCTION_RESULT callauction_error callauction_board_call(callauction_member *member,
                                                            const callauction_command *command,
                                                            callauction_receipt *receipt);

/* Calls commands one after another, each as callauction_board_call, up to the first error, which it answers, with the
 * lock held all the while: no other call comes between them, so their numbers follow one another. It writes how many
 * were recorded, and their receipts; those after stay as they were. NO_MEMBER; else BAD_LENGTH where the two counts
 * differ; else BUSY or CLOSED, and none was called. */
CALLAUCTION_RESULT callauction_error callauction_board_apply_many(callauction_member *member,
                                                                  const callauction_command *commands,
                                                                  size_t command_count,
                                                                  callauction_receipt *receipts,
                                                                  size_t receipt_count, size_t *applied);

/* Writes how many calls the board has had and what is shown after them. It takes no lock and waits for nobody; only a
 * board's first look takes the lock as a call does, as calls before it spend no time on what nobody looks at; where the
 * lock is BUSY all the while it shows what the member has seen. It never goes back: all that the member has seen, its
 * own calls among it, comes before. After the board was closed it shows the last. */
CALLAUCTION_RESULT callauction_error callauction_board_look(callauction_member *member, callauction_shown *shown);

/* As callauction_ladder, callauction_trades and callauction_state, after as many calls as they write, none of which the
 * member hasn't seen then. They take the lock as a call does: BUSY or CLOSED; else BAD_LENGTH, of a ladder; else BEHIND
 * where the member has seen more calls than the history has. */
CALLAUCTION_RESULT callauction_error callauction_board_ladder(callauction_member *member, uint64_t *bids,
                                                              size_t bid_count, uint64_t *asks, size_t ask_count,
                                                              callauction_market_orders *market, uint32_t *calls);
CALLAUCTION_RESULT callauction_error callauction_board_trades(callauction_member *member, size_t seen,
                                                              callauction_trade *trades, size_t trade_count,
                                                              size_t *copied, uint32_t *calls);
CALLAUCTION_RESULT callauction_error callauction_board_state(callauction_member *member,
                                                             callauction_day_state *state);

/* As callauction_orders, of the member `of` or of all, and callauction_expiring, after as many calls as they write,
 * none of which the handle's member hasn't seen then. They have the lock, and take memory, while they run: BAD_MEMBER;
 * else BUSY or CLOSED; else NO_MEMORY; else BEHIND as above. */
CALLAUCTION_RESULT callauction_error callauction_board_orders(callauction_member *member, uint32_t of,
                                                              callauction_order *orders, size_t order_count,
                                                              size_t *copied, uint32_t *calls);
CALLAUCTION_RESULT callauction_error callauction_board_expiring(callauction_member *member,
                                                                callauction_order *orders, size_t order_count,
                                                                size_t *copied, uint32_t *calls);

/* Copies the entries of the board's history after the first `seen`, as many as there are and as fit, and writes how
 * many it copied, for a thread that writes them down while the day runs. Errors as callauction_board_trades. */
CALLAUCTION_RESULT callauction_error callauction_board_history(callauction_member *member, size_t seen,
                                                               callauction_entry *entries, size_t entry_count,
                                                               size_t *copied);

/* As callauction_clone, of the board's auction after all calls, none of which the member hasn't seen then: NO_MEMBER;
 * else IN_USE; else BUSY or CLOSED; else NO_MEMORY; else BEHIND as above. */
CALLAUCTION_RESULT callauction_error callauction_board_clone(callauction_member *member, callauction_handle *other);

/* Writes how many calls of this member were recorded. */
CALLAUCTION_RESULT callauction_error callauction_board_calls(const callauction_member *member, uint32_t *calls);

/* Writes what the board was opened with, its reserve as callauction_config_of. */
CALLAUCTION_RESULT callauction_error callauction_board_config_of(const callauction_member *member,
                                                                 callauction_config *config);

/* Closes the board: writes its history, how many entries that has, and each member's count of them, by number. The
 * handles are those of all members of one board, in their order. The history's entries are those of one auction of one
 * thread; they are as many as the counts add up to; and each member's account agrees: what it saw is a beginning of the
 * history's calls, and the history's calls of its number are its own. The handles hold their members still, whose calls
 * answer CLOSED; give each up by callauction_board_leave. BAD_LENGTH where there is no handle; else NO_MEMBER where the
 * first holds none; else BAD_LENGTH where the history has room for fewer than max_calls entries, or the counts aren't
 * as many as the members; else BUSY, or CLOSED at a second close; else MISSING_MEMBER where the handles aren't as many
 * as the members; else the error of the first handle that has one: NO_MEMBER, MISSING_MEMBER where its member is one of
 * another board than the first or has another number than its place, BEHIND where the account doesn't agree. */
CALLAUCTION_RESULT callauction_error callauction_board_close(callauction_member *members, size_t member_count,
                                                             callauction_entry *entries, size_t entry_count,
                                                             uint32_t *counts, size_t count_count, size_t *written);

/* Gives up the handle's member, and the board with the last of its members. On a handle that holds none it answers
 * NO_MEMBER and does nothing. */
callauction_error callauction_board_leave(callauction_member *member);

/* ---- journals: a recorded day as text, as docs/FORMATS.md has it, for `callboard --audit` too; files are yours ----
 *
 * A journal is the line of its day, and then one for each call with its reply. No line has more than 256 bytes. The
 * orders' clients aren't in it. These calls take no handle, but the last one. */

/* Writes the first line of a journal, the day of this config for `members` members, and how many bytes it has.
 * NO_CONFIG where the struct is none; else the first fault of the config, as of callauction_open; else NO_CONFIG where
 * its range is above 1,000,000, which no journal can say; else BAD_MEMBER where the members aren't 1 to 64; else
 * BAD_LENGTH where the line doesn't fit. NO_MEMORY, which no run is known to meet. */
CALLAUCTION_RESULT callauction_error callauction_journal_day(const callauction_config *config, uint32_t members,
                                                             char *text, size_t text_count, size_t *written);

/* Writes the lines of entries, one after the other, as many as fit whole, and how many entries they are, and how many
 * bytes. What follows is written by further calls. NO_ENTRY at the first struct that is no command or whose reply is
 * none that this library writes, whose member isn't 0 to 63, or whose quantity or peak is above 4,294,967,295: the
 * lines of those before it were written. NO_MEMORY likewise, which no run is known to meet. */
CALLAUCTION_RESULT callauction_error callauction_journal_entries(const callauction_entry *entries, size_t entry_count,
                                                                 char *text, size_t text_count, size_t *copied,
                                                                 size_t *written);

/* Opens an auction of the day of a journal, applies the calls of its whole lines, and compares each recorded reply,
 * byte for byte, with the lawful one, whatever was found before. The handle holds the auction after them, without a
 * reserve, to go on with, and its orders have the client 0. IN_USE where the handle holds an auction; else BAD_JOURNAL,
 * with the first fault; else the fault of the day's config; else NO_MEMORY. At any error but BAD_JOURNAL nothing is
 * written.
 *
 * The whole lines are those up to the last LF, or the last one before a NUL: `taken` says how many bytes they have.
 * Where that is less than text_count, what follows wasn't read: a line that a crash has cut, which may read as another
 * call, or the NULs behind the lines of a session that runs. Who goes on with the file cuts it there first. Without any
 * LF a text is NOT_A_DAY; of its length all bytes count. */
CALLAUCTION_RESULT callauction_error callauction_journal_open(callauction_handle *handle, const char *text,
                                                              size_t text_count, callauction_journal *found);

#ifdef __cplusplus
}
#endif

#ifdef CALLAUCTION_WITH_PTHREAD
#include <pthread.h>

/* As callauction_board_call, but waits while another call has the board: its thread sleeps at the mutex, one for a
 * board, which its callers share. Nothing of this function is proved, and nothing that is proved rests on it. BUSY is
 * answered where a call that doesn't wait at the mutex has the board. A thread that is ended within a call leaves the
 * board BUSY for good. A mutex that a thread had at a fork is never given back in the child. */
static inline callauction_error callauction_board_call_waiting(pthread_mutex_t *mutex, callauction_member *member,
                                                               const callauction_command *command,
                                                               callauction_receipt *receipt)
{
    pthread_mutex_lock(mutex);
    const callauction_error answer = callauction_board_call(member, command, receipt);
    pthread_mutex_unlock(mutex);
    return answer;
}

/* The same of callauction_board_apply_many. */
static inline callauction_error callauction_board_apply_many_waiting(pthread_mutex_t *mutex,
                                                                     callauction_member *member,
                                                                     const callauction_command *commands,
                                                                     size_t command_count,
                                                                     callauction_receipt *receipts,
                                                                     size_t receipt_count, size_t *applied)
{
    pthread_mutex_lock(mutex);
    const callauction_error answer =
        callauction_board_apply_many(member, commands, command_count, receipts, receipt_count, applied);
    pthread_mutex_unlock(mutex);
    return answer;
}
#endif

/* ---- the layout that the library was built with ---- */

#ifdef __cplusplus
#define CALLAUCTION_ASSERT(holds, text) static_assert(holds, text)
#else
#define CALLAUCTION_ASSERT(holds, text) _Static_assert(holds, text)
#endif
#define CALLAUCTION_SIZE(type, size) CALLAUCTION_ASSERT(sizeof(callauction_##type) == (size), #type)
#define CALLAUCTION_AT(type, field, offset) \
    CALLAUCTION_ASSERT(offsetof(callauction_##type, field) == (offset), #type "." #field)

CALLAUCTION_SIZE(handle, 24);
CALLAUCTION_AT(handle, boxed_, 0);
CALLAUCTION_AT(handle, clients_, 8);
CALLAUCTION_AT(handle, reserve_, 16);
CALLAUCTION_AT(handle, is_open_, 20);
CALLAUCTION_AT(handle, busy_, 21);
CALLAUCTION_SIZE(member, 24);
CALLAUCTION_AT(member, boxed_, 0);
CALLAUCTION_AT(member, clients_, 8);
CALLAUCTION_AT(member, reserve_, 16);
CALLAUCTION_AT(member, is_open_, 20);
CALLAUCTION_AT(member, busy_, 21);
CALLAUCTION_SIZE(config, 36);
CALLAUCTION_AT(config, low, 0);
CALLAUCTION_AT(config, high, 4);
CALLAUCTION_AT(config, reference, 8);
CALLAUCTION_AT(config, max_open, 12);
CALLAUCTION_AT(config, max_calls, 16);
CALLAUCTION_AT(config, has_range, 20);
CALLAUCTION_AT(config, range, 24);
CALLAUCTION_AT(config, has_reserve, 28);
CALLAUCTION_AT(config, reserve, 32);
CALLAUCTION_SIZE(command, 40);
CALLAUCTION_AT(command, quantity, 0);
CALLAUCTION_AT(command, peak, 8);
CALLAUCTION_AT(command, client, 16);
CALLAUCTION_AT(command, id, 24);
CALLAUCTION_AT(command, limit, 28);
CALLAUCTION_AT(command, member, 32);
CALLAUCTION_AT(command, tag, 33);
CALLAUCTION_AT(command, side, 34);
CALLAUCTION_AT(command, restriction, 35);
CALLAUCTION_AT(command, has_limit, 36);
CALLAUCTION_AT(command, has_peak, 37);
CALLAUCTION_SIZE(reply, 64);
CALLAUCTION_AT(reply, quantity, 0);
CALLAUCTION_AT(reply, visible, 8);
CALLAUCTION_AT(reply, volume, 16);
CALLAUCTION_AT(reply, surplus, 24);
CALLAUCTION_AT(reply, id, 32);
CALLAUCTION_AT(reply, ask, 36);
CALLAUCTION_AT(reply, tick, 40);
CALLAUCTION_AT(reply, trades, 44);
CALLAUCTION_AT(reply, best_bid, 48);
CALLAUCTION_AT(reply, best_ask, 52);
CALLAUCTION_AT(reply, tag, 56);
CALLAUCTION_AT(reply, side, 57);
CALLAUCTION_AT(reply, auction, 58);
CALLAUCTION_AT(reply, kept, 59);
CALLAUCTION_AT(reply, refusal, 60);
CALLAUCTION_AT(reply, has_tick, 61);
CALLAUCTION_AT(reply, has_best_bid, 62);
CALLAUCTION_AT(reply, has_best_ask, 63);
CALLAUCTION_SIZE(trade, 24);
CALLAUCTION_AT(trade, quantity, 0);
CALLAUCTION_AT(trade, bid, 8);
CALLAUCTION_AT(trade, ask, 12);
CALLAUCTION_AT(trade, tick, 16);
CALLAUCTION_SIZE(order, 56);
CALLAUCTION_AT(order, quantity, 0);
CALLAUCTION_AT(order, visible, 8);
CALLAUCTION_AT(order, filled, 16);
CALLAUCTION_AT(order, peak, 24);
CALLAUCTION_AT(order, client, 32);
CALLAUCTION_AT(order, id, 40);
CALLAUCTION_AT(order, limit, 44);
CALLAUCTION_AT(order, member, 48);
CALLAUCTION_AT(order, side, 49);
CALLAUCTION_AT(order, restriction, 50);
CALLAUCTION_AT(order, has_limit, 51);
CALLAUCTION_AT(order, has_peak, 52);
CALLAUCTION_SIZE(outcome, 40);
CALLAUCTION_AT(outcome, filled, 0);
CALLAUCTION_AT(outcome, left, 8);
CALLAUCTION_AT(outcome, client, 16);
CALLAUCTION_AT(outcome, id, 24);
CALLAUCTION_AT(outcome, tick, 28);
CALLAUCTION_AT(outcome, member, 32);
CALLAUCTION_AT(outcome, side, 33);
CALLAUCTION_AT(outcome, expired, 34);
CALLAUCTION_SIZE(day_state, 20);
CALLAUCTION_AT(day_state, reference, 0);
CALLAUCTION_AT(day_state, calls, 4);
CALLAUCTION_AT(day_state, calls_left, 8);
CALLAUCTION_AT(day_state, calls_left_to_members, 12);
CALLAUCTION_AT(day_state, auction, 16);
CALLAUCTION_AT(day_state, in_call, 17);
CALLAUCTION_AT(day_state, extended, 18);
CALLAUCTION_SIZE(market_orders, 16);
CALLAUCTION_AT(market_orders, bids, 0);
CALLAUCTION_AT(market_orders, asks, 8);
CALLAUCTION_SIZE(receipt, 72);
CALLAUCTION_AT(receipt, reply, 0);
CALLAUCTION_AT(receipt, number, 64);
CALLAUCTION_SIZE(shown, 72);
CALLAUCTION_AT(shown, display, 0);
CALLAUCTION_AT(shown, calls, 64);
CALLAUCTION_SIZE(entry, 104);
CALLAUCTION_AT(entry, command, 0);
CALLAUCTION_AT(entry, reply, 40);
CALLAUCTION_SIZE(journal, 40);
CALLAUCTION_AT(journal, record_number, 0);
CALLAUCTION_AT(journal, field_number, 8);
CALLAUCTION_AT(journal, fault, 12);
CALLAUCTION_AT(journal, members, 16);
CALLAUCTION_AT(journal, calls, 20);
CALLAUCTION_AT(journal, compared, 24);
CALLAUCTION_AT(journal, unlawful, 28);
CALLAUCTION_AT(journal, first_unlawful, 32);
CALLAUCTION_AT(journal, taken, 36);

#undef CALLAUCTION_AT
#undef CALLAUCTION_SIZE
#undef CALLAUCTION_ASSERT

#endif
