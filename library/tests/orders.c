#include "orders.h"
#include <inttypes.h>
#include <stdlib.h>
#include <string.h>

enum { MOST_FIELDS = 7 };

/* Parts a record at its commas; 0 for one with too many fields. */
static int split(char *record, char *fields[MOST_FIELDS]) {
    int count = 0;
    for (char *at = record; at; count++) {
        if (count == MOST_FIELDS) return 0;
        fields[count] = at;
        at = strchr(at, ',');
        if (at) *at++ = '\0';
    }
    return count;
}

static uint32_t number(const char *field) { return (uint32_t)strtoul(field, NULL, 10); }

static void read_limit(const char *field, callauction_command *command) {
    command->has_limit = strcmp(field, "market") != 0;
    if (command->has_limit) command->limit = number(field);
}

static bool read_enter(int count, char **fields, callauction_command *command) {
    if (count < 5) return false;
    command->tag = CALLAUCTION_COMMAND_ENTER;
    command->side = strcmp(fields[2], "bid") == 0 ? CALLAUCTION_SIDE_BID : CALLAUCTION_SIDE_ASK;
    command->quantity = number(fields[3]);
    read_limit(fields[4], command);
    if (count > 5 && *fields[5]) {
        command->has_peak = 1;
        command->peak = number(fields[5]);
    }
    if (count > 6 && strcmp(fields[6], "opening") == 0) command->restriction = CALLAUCTION_RESTRICTION_OPENING_ONLY;
    if (count > 6 && strcmp(fields[6], "closing") == 0) command->restriction = CALLAUCTION_RESTRICTION_CLOSING_ONLY;
    return true;
}

static bool read_change(int count, char **fields, callauction_command *command) {
    if (count != 5) return false;
    command->tag = CALLAUCTION_COMMAND_CHANGE;
    command->id = number(fields[2]);
    command->quantity = number(fields[3]);
    read_limit(fields[4], command);
    return true;
}

static bool read_numbered(int count, char **fields, uint8_t tag, callauction_command *command) {
    if (count != 3) return false;
    command->tag = tag;
    command->id = number(fields[2]);
    return true;
}

bool read_record(char *record, callauction_command *command) {
    char *fields[MOST_FIELDS];
    int count = split(record, fields);
    if (count < 2) return false;
    memset(command, 0, sizeof *command);
    command->member = (uint8_t)number(fields[0]);
    if (strcmp(fields[1], "enter") == 0) return read_enter(count, fields, command);
    if (strcmp(fields[1], "change") == 0) return read_change(count, fields, command);
    if (strcmp(fields[1], "delete") == 0) return read_numbered(count, fields, CALLAUCTION_COMMAND_DELETE, command);
    if (strcmp(fields[1], "status") == 0)
        return read_numbered(count, fields, CALLAUCTION_COMMAND_ORDER_STATUS, command);
    if (strcmp(fields[1], "trade") == 0) return read_numbered(count, fields, CALLAUCTION_COMMAND_READ_TRADE, command);
    command->tag = strcmp(fields[1], "ask") == 0 ? CALLAUCTION_COMMAND_INDICATE : CALLAUCTION_COMMAND_UNCROSS;
    return count == 2 && (command->tag == CALLAUCTION_COMMAND_INDICATE || strcmp(fields[1], "uncross") == 0);
}

static const char *const sides[] = {"none", "bid", "ask"};
static const char *const auctions[] = {"", "opening", "intraday", "closing"};
static const char *const refusals[] = {"",         "BadQuantity",  "BadLimit",    "BadPeak", "BookFull",
                                       "UnknownOrder", "NotOperator", "DayOver", "NoSuchTrade", "PastAuction"};

static void print_price(FILE *to, const callauction_reply *r) {
    fprintf(to, "price %" PRIu32 " volume %" PRIu64 " surplus %" PRIu64 " %s", r->tick, r->volume, r->surplus,
            sides[r->side]);
}

static void print_best(FILE *to, const char *side, bool is_there, uint32_t tick) {
    if (is_there) fprintf(to, " %s %" PRIu32, side, tick);
    else fprintf(to, " %s -", side);
}

static void print_standing(FILE *to, const callauction_reply *r) {
    fprintf(to, "order %s %" PRIu64, sides[r->side], r->quantity);
    if (r->has_tick) fprintf(to, " at %" PRIu32, r->tick);
    else fputs(" market", to);
    fprintf(to, " visible %" PRIu64, r->visible);
}

static void print_uncrossed(FILE *to, const callauction_reply *r) {
    fprintf(to, "%s ", auctions[r->auction]);
    if (!r->has_tick) {
        fputs("no price", to);
        return;
    }
    print_price(to, r);
    fprintf(to, " trades %" PRIu32, r->trades);
}

void print_reply(FILE *to, const callauction_reply *r) {
    switch (r->tag) {
    case CALLAUCTION_REPLY_ENTERED: fprintf(to, "entered %" PRIu32, r->id); break;
    case CALLAUCTION_REPLY_CHANGED: fprintf(to, "changed %s", r->kept ? "kept" : "moved"); break;
    case CALLAUCTION_REPLY_DELETED: fputs("deleted", to); break;
    case CALLAUCTION_REPLY_OPEN_ORDER: print_standing(to, r); break;
    case CALLAUCTION_REPLY_PRICED: print_price(to, r); break;
    case CALLAUCTION_REPLY_UNPRICED:
        fputs("no price", to);
        print_best(to, "bid", r->has_best_bid, r->best_bid);
        print_best(to, "ask", r->has_best_ask, r->best_ask);
        break;
    case CALLAUCTION_REPLY_TRADED:
        fprintf(to, "trade %" PRIu32 " %" PRIu32 " %" PRIu64 " at %" PRIu32, r->id, r->ask, r->quantity, r->tick);
        break;
    case CALLAUCTION_REPLY_UNCROSSED: print_uncrossed(to, r); break;
    case CALLAUCTION_REPLY_INTERRUPTED:
        fputs("interrupted ", to);
        print_price(to, r);
        break;
    case CALLAUCTION_REPLY_REFUSED: fprintf(to, "refused %d %s", r->refusal, refusals[r->refusal]); break;
    default: fprintf(to, "a reply with the tag %d", r->tag);
    }
}
