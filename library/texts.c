/* The texts of libcallauction: its version, and what errors, refusals and faults of journals are called. */
#include "callauction.h"

const char *callauction_version(void) { return CALLAUCTION_VERSION; }

const char *callauction_error_text(uint32_t error) {
    switch (error) {
    case CALLAUCTION_DONE: return "done";
    case CALLAUCTION_ERROR_BAD_BOUNDS:
        return "the bounds aren't 1 <= low <= high <= 1,000,000, or have over 65,536 ticks";
    case CALLAUCTION_ERROR_BAD_REFERENCE: return "the reference isn't a tick from low to high";
    case CALLAUCTION_ERROR_BAD_CAPACITY: return "max_open, max_calls or the number of members is out of its limits";
    case CALLAUCTION_ERROR_NO_MEMORY: return "memory was refused";
    case CALLAUCTION_ERROR_IN_USE: return "the handle holds an auction or a member already";
    case CALLAUCTION_ERROR_NO_AUCTION: return "the handle holds no auction";
    case CALLAUCTION_ERROR_NO_COMMAND: return "the struct is no command";
    case CALLAUCTION_ERROR_FULL: return "no call is left to the member";
    case CALLAUCTION_ERROR_BAD_LENGTH: return "an array has another length than the call wants";
    case CALLAUCTION_ERROR_NO_CONFIG: return "the struct is no config";
    case CALLAUCTION_ERROR_BUSY: return "another member's call has the board";
    case CALLAUCTION_ERROR_MISUSED: return "another call has the handle";
    case CALLAUCTION_ERROR_BEHIND: return "the member has seen or counted other calls than the board's history has";
    case CALLAUCTION_ERROR_CLOSED: return "the board was closed";
    case CALLAUCTION_ERROR_NO_MEMBER: return "the handle holds no member";
    case CALLAUCTION_ERROR_MISSING_MEMBER: return "the handles don't hold all members of a board in their order";
    case CALLAUCTION_ERROR_BAD_MEMBER: return "the number is no member's";
    case CALLAUCTION_ERROR_OVERTAKEN: return "the board's story has a call that its history hasn't";
    case CALLAUCTION_ERROR_BAD_JOURNAL: return "the text is no journal";
    case CALLAUCTION_ERROR_NO_ENTRY: return "the struct is no entry that a journal can hold";
    default: return "unknown error";
    }
}

const char *callauction_refusal_text(uint32_t refusal) {
    switch (refusal) {
    case CALLAUCTION_REFUSAL_BAD_QUANTITY: return "the quantity isn't from 1 to 1,000,000,000";
    case CALLAUCTION_REFUSAL_BAD_LIMIT: return "the limit isn't a tick from low to high";
    case CALLAUCTION_REFUSAL_BAD_PEAK: return "the peak is 0, above the quantity, or of a market order";
    case CALLAUCTION_REFUSAL_BOOK_FULL: return "as many orders are open as may be";
    case CALLAUCTION_REFUSAL_UNKNOWN_ORDER: return "the member has no open order with this id";
    case CALLAUCTION_REFUSAL_NOT_OPERATOR: return "only member 0 may uncross";
    case CALLAUCTION_REFUSAL_DAY_OVER: return "the day is over";
    case CALLAUCTION_REFUSAL_NO_SUCH_TRADE: return "the day has no trade with this number";
    case CALLAUCTION_REFUSAL_PAST_AUCTION: return "the order is for an auction that is over";
    default: return "unknown refusal";
    }
}

const char *callauction_journal_fault_text(uint32_t fault) {
    switch (fault) {
    case CALLAUCTION_JOURNAL_NO_FAULT: return "no fault";
    case CALLAUCTION_JOURNAL_TOO_LONG: return "file too long";
    case CALLAUCTION_JOURNAL_BAD_MEMBER: return "bad member";
    case CALLAUCTION_JOURNAL_BAD_COMMAND: return "bad command";
    case CALLAUCTION_JOURNAL_BAD_COUNT: return "wrong number of fields";
    case CALLAUCTION_JOURNAL_BAD_FIELD: return "bad field";
    case CALLAUCTION_JOURNAL_TOO_MANY_COMMANDS: return "too many commands";
    case CALLAUCTION_JOURNAL_NOT_A_DAY: return "not a day record";
    default: return "unknown fault";
    }
}
