/* What the package for Python calls of a board: the calls of callauction.h by a member's number. One call at a time has
 * a member: another one meanwhile is answered PYTHON_BUSY, and does nothing. Where another member's call has the board,
 * a call waits: it tries again, and sleeps between its tries. cffi gives up the lock of the interpreter for each call.
 */
enum { PYTHON_MEMBERS = 64 };

typedef struct python_board {
    callauction_member members_[64];
    _Bool is_busy_[64]; /* whether a call has this member; set and cleared by atomic steps */
    size_t count_;
} python_board;

uint32_t python_board_open(python_board *own, size_t count, const callauction_config *config);

/* Commands with plain numbers. The first answers, where an order was entered, its id with the call's number times 2^32;
 * where it was refused PYTHON_REFUSED plus the refusal in place of the id; at an error e -e. The others answer a
 * receipt; its number is 0 at an error, which is then the id of its reply. `has` is as of python_enter. */
enum { PYTHON_REFUSED = 1 << 30 };
int64_t python_board_enter(python_board *own, size_t number, uint32_t quantity, uint32_t limit, uint32_t peak,
                           uint64_t client, uint8_t side, uint8_t restriction, uint8_t has);
callauction_receipt python_board_change(python_board *own, size_t number, uint32_t id, uint32_t quantity,
                                        uint32_t limit, uint8_t has);
callauction_receipt python_board_call(python_board *own, size_t number, uint8_t tag, uint32_t id);

uint32_t python_board_apply_many(python_board *own, size_t number, const callauction_command *commands,
                                 callauction_receipt *receipts, size_t count, size_t *applied);

uint32_t python_board_look(python_board *own, size_t number, callauction_shown *shown);
uint32_t python_board_ladder(python_board *own, size_t number, uint64_t *bids, uint64_t *asks, size_t ticks,
                             callauction_market_orders *market, uint32_t *calls);
uint32_t python_board_trades(python_board *own, size_t number, size_t seen, callauction_trade *trades, size_t count,
                             size_t *copied, uint32_t *calls);
uint32_t python_board_orders(python_board *own, size_t number, uint32_t of, callauction_order *orders, size_t count,
                             size_t *copied);
uint32_t python_board_expiring(python_board *own, size_t number, callauction_order *orders, size_t count,
                               size_t *copied);

/* PYTHON_BUSY too where another call has the other auction. */
uint32_t python_board_clone(python_board *own, size_t number, python_auction *other);

uint32_t python_board_state(python_board *own, size_t number, callauction_day_state *state);
uint32_t python_board_history(python_board *own, size_t number, size_t seen, callauction_entry *entries, size_t count,
                              size_t *copied);
uint32_t python_board_calls(python_board *own, size_t number, uint32_t *calls);
uint32_t python_board_config_of(python_board *own, callauction_config *config);

/* PYTHON_BUSY too where a call has one of the members. */
uint32_t python_board_close(python_board *own, callauction_entry *entries, size_t entry_count, uint32_t *counts,
                            size_t *written);

/* Gives up all members, when no call has one any more. */
void python_board_leave(python_board *own);
