/* What the package for Python calls: the calls of callauction.h with plain numbers, on an auction that one call at a
 * time has. cffi gives up the lock of the interpreter for each call, so another thread may begin one meanwhile: that
 * one is answered PYTHON_BUSY, and does nothing. python/build hands this text to cffi: it has declarations alone.
 *
 * What the package sees to is what callauction.h asks of a caller: an auction begins as zeros and stays at its place,
 * and arrays are as long as said, and aligned.
 */
typedef struct python_auction {
    callauction_handle handle_;
    _Bool is_busy_; /* whether a call has it; set and cleared by atomic steps */
} python_auction;

/* What calls answer beside the numbers of callauction.h. */
enum {
    PYTHON_BUSY = 40,   /* another call has the auction */
    PYTHON_OVERLAP = 41 /* two arrays share memory */
};

/* ---- one command: its reply, or one with the tag PYTHON_NO_REPLY and the number of the error for its id ---- */

enum { PYTHON_NO_REPLY = 0 };

/* Which of the two numbers an order has. */
enum { PYTHON_HAS_LIMIT = 1, PYTHON_HAS_PEAK = 2 };

/* The id of the order that was entered. Else a number below 0: -r for the refusal r, -(PYTHON_ERROR + e) for the error
 * e. */
enum { PYTHON_ERROR = 100 };
int64_t python_enter(python_auction *own, uint8_t member, uint64_t quantity, uint32_t limit, uint64_t peak,
                     uint64_t client, uint8_t side, uint8_t restriction, uint8_t has);

callauction_reply python_change(python_auction *own, uint8_t member, uint32_t id, uint64_t quantity, uint32_t limit,
                                uint8_t has);
callauction_reply python_delete(python_auction *own, uint8_t member, uint32_t id);
callauction_reply python_order_status(python_auction *own, uint8_t member, uint32_t id);
callauction_reply python_indicate(python_auction *own, uint8_t member);
callauction_reply python_read_trade(python_auction *own, uint8_t member, uint32_t number);
callauction_reply python_uncross(python_auction *own, uint8_t member);

/* ---- the others, as those of callauction.h, with PYTHON_BUSY ---- */

uint32_t python_uncross_orders(python_auction *own, callauction_reply *reply, callauction_outcome *outcomes,
                               size_t count, size_t *copied);

uint32_t python_open(python_auction *own, const callauction_config *config);

/* PYTHON_OVERLAP, and no command is applied, where the two arrays share memory. */
uint32_t python_apply_many(python_auction *own, const callauction_command *commands, callauction_reply *replies,
                           size_t count, size_t *applied);

uint32_t python_display(python_auction *own, callauction_reply *shown);
uint32_t python_ladder(python_auction *own, uint64_t *bids, uint64_t *asks, size_t ticks,
                       callauction_market_orders *market);
uint32_t python_trades(python_auction *own, size_t seen, callauction_trade *trades, size_t count, size_t *copied);

/* Orders of the member, or of all by CALLAUCTION_ALL_MEMBERS. */
uint32_t python_orders(python_auction *own, uint32_t member, callauction_order *orders, size_t count, size_t *copied);
uint32_t python_expiring(python_auction *own, callauction_order *orders, size_t count, size_t *copied);
uint32_t python_calls(python_auction *own, uint32_t *calls);
uint32_t python_state(python_auction *own, callauction_day_state *state);
uint32_t python_config_of(python_auction *own, callauction_config *config);
uint32_t python_reset(python_auction *own);

/* PYTHON_BUSY too where another call has the other auction, or both are one. */
uint32_t python_clone(python_auction *own, python_auction *other);
uint32_t python_close(python_auction *own);
