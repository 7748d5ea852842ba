/* Journals: each line and each fault by worked examples, and random days that are written, read and gone on with:
 * `journals [PROGRAM]`. With a program its `--audit` counts what callauction_journal_open counts. */
#include "orders.h"
#include <inttypes.h>
#include <stdlib.h>
#include <string.h>
#include <unistd.h>

#define WANT(holds) \
    do { \
        if (!(holds)) { \
            fprintf(stderr, "journals: line %d: not so: %s\n", __LINE__, #holds); \
            exit(1); \
        } \
    } while (0)

enum { ROOM = 8192, LONGEST = 256 };
static const callauction_config usual = {1, 1000, 200, 4096, 65536, 0, 0, 0, 0};
static const callauction_command asking = {.member = 1, .tag = CALLAUCTION_COMMAND_INDICATE};
static const callauction_reply deleted = {.tag = CALLAUCTION_REPLY_DELETED};

/* ---- the day ---- */

static bool is_untouched(const char *text, size_t from, size_t to) {
    for (size_t i = from; i < to; i++)
        if (text[i] != 0x55) return false;
    return true;
}

/* A day is written as this line, into a room that just holds it, and into one more byte; not into one byte less. */
static void day_is(const callauction_config *config, uint32_t members, const char *line) {
    char text[LONGEST];
    const size_t length = strlen(line);
    size_t written = 77;
    for (size_t room = length; room <= length + 1; room++) {
        memset(text, 0x55, sizeof text);
        WANT(callauction_journal_day(config, members, text, room, &written) == CALLAUCTION_DONE);
        WANT(written == length && memcmp(text, line, length) == 0 && is_untouched(text, length, sizeof text));
    }
    memset(text, 0x55, sizeof text);
    WANT(callauction_journal_day(config, members, text, length - 1, &written) == CALLAUCTION_ERROR_BAD_LENGTH);
    WANT(written == 0 && is_untouched(text, 0, sizeof text));
    WANT(callauction_journal_day(config, members, NULL, 0, &written) == CALLAUCTION_ERROR_BAD_LENGTH && written == 0);
}

static void no_day(callauction_config config, uint32_t members, uint32_t error) {
    char text[LONGEST];
    size_t written = 77;
    memset(text, 0x55, sizeof text);
    WANT(callauction_journal_day(&config, members, text, sizeof text, &written) == error);
    WANT(written == 0 && is_untouched(text, 0, sizeof text));
    written = 77;
    WANT(callauction_journal_day(&config, members, NULL, 0, &written) == error && written == 0);
}

static void days(void) {
    const callauction_config ranged = {10, 20, 15, 1, 2, 1, 0, 0, 0}, most = {934465, 1000000, 1000000, 65536, 1048576,
                                                                              1, 1000000, 1, 4294967295};
    day_is(&usual, 4, "day,1,1000,200,4,4096,65536,\n");
    day_is(&ranged, 1, "day,10,20,15,1,1,2,0\n");
    day_is(&most, 64, "day,934465,1000000,1000000,64,65536,1048576,1000000\n");
    no_day((callauction_config){1, 1000, 200, 1, 1, 0, 5, 0, 0}, 1, CALLAUCTION_ERROR_NO_CONFIG);
    no_day((callauction_config){1, 1000, 200, 1, 1, 2, 0, 0, 0}, 1, CALLAUCTION_ERROR_NO_CONFIG);
    no_day((callauction_config){1, 1000, 200, 1, 1, 0, 0, 0, 5}, 1, CALLAUCTION_ERROR_NO_CONFIG);
    no_day((callauction_config){0, 1000, 1001, 0, 1, 1, 2000000, 0, 0}, 0, CALLAUCTION_ERROR_BAD_BOUNDS);
    no_day((callauction_config){1, 65537, 200, 1, 1, 0, 0, 0, 0}, 1, CALLAUCTION_ERROR_BAD_BOUNDS);
    no_day((callauction_config){5, 4, 200, 1, 1, 0, 0, 0, 0}, 1, CALLAUCTION_ERROR_BAD_BOUNDS);
    no_day((callauction_config){1000000, 1000001, 1000000, 1, 1, 0, 0, 0, 0}, 1, CALLAUCTION_ERROR_BAD_BOUNDS);
    no_day((callauction_config){1, 1000, 1001, 0, 1, 1, 2000000, 0, 0}, 0, CALLAUCTION_ERROR_BAD_REFERENCE);
    no_day((callauction_config){2, 1000, 1, 1, 1, 0, 0, 0, 0}, 1, CALLAUCTION_ERROR_BAD_REFERENCE);
    no_day((callauction_config){1, 1000, 200, 0, 1, 1, 2000000, 0, 0}, 0, CALLAUCTION_ERROR_BAD_CAPACITY);
    no_day((callauction_config){1, 1000, 200, 65537, 1, 0, 0, 0, 0}, 1, CALLAUCTION_ERROR_BAD_CAPACITY);
    no_day((callauction_config){1, 1000, 200, 1, 0, 0, 0, 0, 0}, 1, CALLAUCTION_ERROR_BAD_CAPACITY);
    no_day((callauction_config){1, 1000, 200, 1, 1048577, 0, 0, 0, 0}, 1, CALLAUCTION_ERROR_BAD_CAPACITY);
    no_day((callauction_config){1, 1000, 200, 1, 1, 1, 1000001, 0, 0}, 0, CALLAUCTION_ERROR_NO_CONFIG);
    no_day(usual, 0, CALLAUCTION_ERROR_BAD_MEMBER);
    no_day(usual, 65, CALLAUCTION_ERROR_BAD_MEMBER);
    no_day(usual, 257, CALLAUCTION_ERROR_BAD_MEMBER);
}

/* ---- entries ---- */

/* A line of each form of a command and of a reply, as docs/FORMATS.md has them. A client is in none. */
static const struct {
    callauction_entry entry;
    const char *line;
} lines[] = {
    {{{.member = 1, .tag = 1, .side = 1, .quantity = 200, .has_limit = 1, .limit = 202, .client = 9},
      {.tag = 1, .id = 1}},
     "1,enter,bid,200,202,entered 1\n"},
    {{{.member = 1, .tag = 1, .side = 1, .quantity = 300, .has_limit = 1, .limit = 200, .has_peak = 1, .peak = 100},
      {.tag = 1, .id = 4294967295}},
     "1,enter,bid,300,200,100,entered 4294967295\n"},
    {{{.member = 63, .tag = 1, .side = 2, .quantity = 4294967295, .restriction = 2}, {.tag = 10, .refusal = 1}},
     "63,enter,ask,4294967295,market,,closing,refused 1 BadQuantity\n"},
    {{{.tag = 1, .side = 2, .restriction = 1, .has_limit = 1, .has_peak = 1, .peak = 4294967295},
      {.tag = 10, .refusal = 2}},
     "0,enter,ask,0,0,4294967295,opening,refused 2 BadLimit\n"},
    {{{.member = 2, .tag = 2, .id = 7, .quantity = 5, .has_limit = 1, .limit = 4294967295, .side = 9, .restriction = 9},
      {.tag = 2, .kept = 1}},
     "2,change,7,5,4294967295,changed kept\n"},
    {{{.member = 2, .tag = 2, .id = 7, .quantity = 5, .has_peak = 9, .peak = 9}, {.tag = 2}},
     "2,change,7,5,market,changed moved\n"},
    {{{.member = 2, .tag = 3, .id = 4294967295, .quantity = UINT64_MAX}, {.tag = 3}}, "2,delete,4294967295,deleted\n"},
    {{{.member = 2, .tag = 4, .id = 0}, {.tag = 4, .side = 2, .has_tick = 1, .tick = 7, .quantity = 90, .visible = 20}},
     "2,status,0,order ask 90 at 7 visible 20\n"},
    {{{.member = 2, .tag = 4, .id = 10}, {.tag = 4, .side = 1, .quantity = UINT64_MAX, .visible = UINT64_MAX}},
     "2,status,10,order bid 18446744073709551615 market visible 18446744073709551615\n"},
    {{{.member = 2, .tag = 5}, {.tag = 5, .has_tick = 1, .tick = 202, .volume = 150, .surplus = 50, .side = 1}},
     "2,ask,price 202 volume 150 surplus 50 bid\n"},
    {{{.member = 2, .tag = 5}, {.tag = 5, .has_tick = 1, .tick = 202, .volume = 150}},
     "2,ask,price 202 volume 150 surplus 0 none\n"},
    {{{.member = 2, .tag = 5}, {.tag = 6}}, "2,ask,no price bid - ask -\n"},
    {{{.member = 2, .tag = 5}, {.tag = 6, .has_best_bid = 1, .best_bid = 3, .has_best_ask = 1, .best_ask = 0}},
     "2,ask,no price bid 3 ask 0\n"},
    {{{.member = 2, .tag = 6, .id = 3}, {.tag = 7, .id = 1, .ask = 2, .quantity = 40, .tick = 202}},
     "2,trade,3,trade 1 2 40 at 202\n"},
    {{{.tag = 7}, {.tag = 8, .auction = 1}}, "0,uncross,opening no price\n"},
    {{{.tag = 7},
      {.tag = 8, .auction = 2, .trades = 3, .has_tick = 1, .tick = 9, .volume = 8, .surplus = 7, .side = 2}},
     "0,uncross,intraday price 9 volume 8 surplus 7 ask trades 3\n"},
    {{{.tag = 7}, {.tag = 9, .has_tick = 1, .tick = 9, .volume = 8, .surplus = 7, .side = 2}},
     "0,uncross,interrupted price 9 volume 8 surplus 7 ask\n"},
    {{{.tag = 7}, {.tag = 8, .auction = 3}}, "0,uncross,closing no price\n"},
    {{{.member = 5, .tag = 5}, {.tag = 10, .refusal = 3}}, "5,ask,refused 3 BadPeak\n"},
    {{{.member = 5, .tag = 5}, {.tag = 10, .refusal = 4}}, "5,ask,refused 4 BookFull\n"},
    {{{.member = 5, .tag = 5}, {.tag = 10, .refusal = 5}}, "5,ask,refused 5 UnknownOrder\n"},
    {{{.member = 5, .tag = 5}, {.tag = 10, .refusal = 6}}, "5,ask,refused 6 NotOperator\n"},
    {{{.member = 5, .tag = 5}, {.tag = 10, .refusal = 7}}, "5,ask,refused 7 DayOver\n"},
    {{{.member = 5, .tag = 5}, {.tag = 10, .refusal = 8}}, "5,ask,refused 8 NoSuchTrade\n"},
    {{{.member = 5, .tag = 5}, {.tag = 10, .refusal = 9}}, "5,ask,refused 9 PastAuction\n"},
};
enum { LINES = sizeof lines / sizeof *lines };

/* What is none: of commands, of members, of numbers above those of a record, and of replies. */
static const callauction_entry none[] = {
    {{.tag = 0}, {.tag = 3}},
    {{.tag = 8}, {.tag = 3}},
    {{.tag = 1, .quantity = 1}, {.tag = 3}},
    {{.tag = 1, .side = 1, .restriction = 3, .quantity = 1}, {.tag = 3}},
    {{.tag = 1, .side = 1, .limit = 1, .quantity = 1}, {.tag = 3}},
    {{.tag = 1, .side = 1, .peak = 1, .quantity = 1}, {.tag = 3}},
    {{.tag = 1, .side = 1, .quantity = 4294967296}, {.tag = 3}},
    {{.tag = 1, .side = 1, .quantity = 1, .has_peak = 1, .peak = 4294967296}, {.tag = 3}},
    {{.tag = 2, .quantity = 4294967296}, {.tag = 3}},
    {{.tag = 2, .has_limit = 2, .limit = 1}, {.tag = 3}},
    {{.tag = 5, .member = 64}, {.tag = 3}},
    {{.tag = 5, .member = 255}, {.tag = 3}},
    {{.tag = 5}, {.tag = 0}},
    {{.tag = 5}, {.tag = 11}},
    {{.tag = 5}, {.tag = 1, .id = 1, .quantity = 1}},
    {{.tag = 5}, {.tag = 2, .kept = 2}},
    {{.tag = 5}, {.tag = 3, .id = 1}},
    {{.tag = 5}, {.tag = 4}},
    {{.tag = 5}, {.tag = 4, .side = 3}},
    {{.tag = 5}, {.tag = 4, .side = 1, .tick = 5}},
    {{.tag = 5}, {.tag = 4, .side = 1, .has_tick = 2, .tick = 5}},
    {{.tag = 5}, {.tag = 5, .tick = 5}},
    {{.tag = 5}, {.tag = 5, .has_tick = 1, .side = 3}},
    {{.tag = 5}, {.tag = 6, .best_bid = 1}},
    {{.tag = 5}, {.tag = 6, .has_best_ask = 255, .best_ask = 1}},
    {{.tag = 5}, {.tag = 7, .has_tick = 1}},
    {{.tag = 5}, {.tag = 8}},
    {{.tag = 5}, {.tag = 8, .auction = 4}},
    {{.tag = 5}, {.tag = 8, .auction = 1, .volume = 1}},
    {{.tag = 7}, {.tag = 8, .auction = 1, .trades = 1}}, /* the text of no price says of no trades */
    {{.tag = 7}, {.tag = 8, .auction = 3, .trades = UINT32_MAX}},
    {{.tag = 5}, {.tag = 9, .has_tick = 1, .trades = 1}},
    {{.tag = 5}, {.tag = 10}},
    {{.tag = 5}, {.tag = 10, .refusal = 10}},
    {{.tag = 5}, {.tag = 10, .refusal = 1, .visible = 1}},
};

/* So many entries are written as these bytes, with this answer, and nothing behind them. */
static void entries_are(const callauction_entry *entries, size_t count, size_t room, uint32_t answer, size_t wanted,
                        const char *bytes) {
    char text[ROOM];
    const size_t length = strlen(bytes);
    size_t copied = 77, written = 77;
    memset(text, 0x55, sizeof text);
    WANT(room <= sizeof text);
    WANT(callauction_journal_entries(entries, count, text, room, &copied, &written) == answer);
    WANT(copied == wanted && written == length && memcmp(text, bytes, length) == 0);
    WANT(is_untouched(text, length, sizeof text));
}

static void entries_are_lines(void) {
    callauction_entry all[LINES];
    char whole[ROOM] = "";
    for (size_t i = 0; i < LINES; i++) {
        const size_t length = strlen(lines[i].line);
        all[i] = lines[i].entry;
        entries_are(&all[i], 1, length, CALLAUCTION_DONE, 1, lines[i].line);
        entries_are(&all[i], 1, length - 1, CALLAUCTION_DONE, 0, "");
        const size_t before = strlen(whole);
        entries_are(all, i + 1, before + length - 1, CALLAUCTION_DONE, i, whole);
        strcat(whole, lines[i].line);
        entries_are(all, i + 1, before + length, CALLAUCTION_DONE, i + 1, whole);
        entries_are(all, i + 1, ROOM, CALLAUCTION_DONE, i + 1, whole);
    }
    entries_are(all, LINES, 0, CALLAUCTION_DONE, 0, "");
    entries_are(NULL, 0, ROOM, CALLAUCTION_DONE, 0, "");
    size_t copied = 77, written = 77;
    WANT(callauction_journal_entries(all, 1, NULL, 0, &copied, &written) == CALLAUCTION_DONE);
    WANT(copied == 0 && written == 0);
}

static void what_is_no_entry(void) {
    for (size_t i = 0; i < sizeof none / sizeof *none; i++) {
        const callauction_entry three[] = {lines[0].entry, none[i], lines[0].entry};
        entries_are(three, 3, ROOM, CALLAUCTION_ERROR_NO_ENTRY, 1, lines[0].line);
        entries_are(three + 1, 2, ROOM, CALLAUCTION_ERROR_NO_ENTRY, 0, "");
        entries_are(three + 1, 1, 0, CALLAUCTION_ERROR_NO_ENTRY, 0, "");
        entries_are(three, 1, ROOM, CALLAUCTION_DONE, 1, lines[0].line);
        entries_are(three, 2, 5, CALLAUCTION_DONE, 0, ""); /* what doesn't fit comes before it */
    }
}

/* ---- a journal's text ---- */

static bool is_found(const callauction_journal *one, const callauction_journal *other) {
    return one->record_number == other->record_number && one->field_number == other->field_number &&
           one->fault == other->fault && one->members == other->members && one->calls == other->calls &&
           one->compared == other->compared && one->unlawful == other->unlawful &&
           one->first_unlawful == other->first_unlawful && one->taken == other->taken;
}

/* A text has this fault, of this record and field; the handle is as it was. */
static void fault_is(const char *text, size_t length, uint32_t fault, uint64_t record, uint32_t field) {
    callauction_handle auction = {0}, zeros = {0};
    const callauction_journal wanted = {.record_number = record, .field_number = field, .fault = fault};
    callauction_journal found = {77, 77, 77, 77, 77, 77, 77, 77, 77};
    WANT(callauction_journal_open(&auction, text, length, &found) == CALLAUCTION_ERROR_BAD_JOURNAL);
    WANT(is_found(&found, &wanted) && memcmp(&auction, &zeros, sizeof zeros) == 0);
}

/* The config of a text's day has this fault, and nothing is written. */
static void config_error_is(const char *text, uint32_t error) {
    callauction_handle auction = {0};
    callauction_journal found = {.calls = 77};
    WANT(callauction_journal_open(&auction, text, strlen(text), &found) == error && found.calls == 77);
    WANT(callauction_close(&auction) == CALLAUCTION_ERROR_NO_AUCTION);
}

static void faults_of_texts(void) {
    static const struct {
        const char *text;
        uint32_t fault, field;
        uint64_t record;
    } table[] = {
        {"", CALLAUCTION_JOURNAL_NOT_A_DAY, 0, 1},
        {"\n\n", CALLAUCTION_JOURNAL_NOT_A_DAY, 0, 1},
        {"1,ask\n", CALLAUCTION_JOURNAL_NOT_A_DAY, 0, 1},
        {"Day,1,1000,200,4,4096,65536,\n", CALLAUCTION_JOURNAL_NOT_A_DAY, 0, 1},
        {"day,1,1000,200,4,4096,65536\n", CALLAUCTION_JOURNAL_BAD_COUNT, 0, 1},
        {"day,1,1000,200,4,4096,65536,,\n", CALLAUCTION_JOURNAL_BAD_COUNT, 0, 1},
        {"day,0,1000,200,4,4096,65536,\n", CALLAUCTION_JOURNAL_BAD_FIELD, 2, 1},
        {"day,1,1000001,200,4,4096,65536,\n", CALLAUCTION_JOURNAL_BAD_FIELD, 3, 1},
        {"day,1,1000,x,4,4096,65536,\n", CALLAUCTION_JOURNAL_BAD_FIELD, 4, 1},
        {"day,1,1000,200,65,4096,65536,\n", CALLAUCTION_JOURNAL_BAD_FIELD, 5, 1},
        {"day,1,1000,200,0,4096,65536,\n", CALLAUCTION_JOURNAL_BAD_FIELD, 5, 1},
        {"day,1,1000,200,4,65537,65536,\n", CALLAUCTION_JOURNAL_BAD_FIELD, 6, 1},
        {"day,1,1000,200,4,4096,1048577,\n", CALLAUCTION_JOURNAL_BAD_FIELD, 7, 1},
        {"day,1,1000,200,4,4096,65536,1000001\n", CALLAUCTION_JOURNAL_BAD_FIELD, 8, 1},
        {"day,1,1000,200,4,4096,65536,\n4,ask,\n", CALLAUCTION_JOURNAL_BAD_MEMBER, 0, 2},
        {"day,1,1000,200,4,4096,65536,\n3,ask,\n3,asks,\n", CALLAUCTION_JOURNAL_BAD_COMMAND, 0, 3},
        {"day,1,1000,200,4,4096,65536,\n3,ask\n", CALLAUCTION_JOURNAL_BAD_COUNT, 0, 2},
        {"day,1,1000,200,4,4096,65536,\n3,delete,x,\n", CALLAUCTION_JOURNAL_BAD_FIELD, 3, 2},
        {"day,1,1000,200,4,4096,65536,\n3,ask,\x01\n", CALLAUCTION_JOURNAL_BAD_FIELD, 3, 2},
        {"day,1,1000,200,4,4096,1,\n3,ask,\n3,ask,\n", CALLAUCTION_JOURNAL_TOO_MANY_COMMANDS, 0, 3},
        {"day,1,1000,200,4,4096,1,\n3,ask,\nx\n", CALLAUCTION_JOURNAL_TOO_MANY_COMMANDS, 0, 3},
        {"day,1000,1,200,4,4096,65536,\n4,ask,\n", CALLAUCTION_JOURNAL_BAD_MEMBER, 0, 2},
    };
    for (size_t i = 0; i < sizeof table / sizeof *table; i++)
        fault_is(table[i].text, strlen(table[i].text), table[i].fault, table[i].record, table[i].field);
    fault_is(NULL, 0, CALLAUCTION_JOURNAL_NOT_A_DAY, 1, 0);
    const size_t most = 268435456;
    char *zeros = calloc(most + 1, 1);
    WANT(zeros);
    fault_is(zeros, most + 1, CALLAUCTION_JOURNAL_TOO_LONG, 0, 0);
    fault_is(zeros, 1000, CALLAUCTION_JOURNAL_NOT_A_DAY, 1, 0);
    free(zeros);
    config_error_is("day,1000,1,200,4,4096,65536,\n3,ask,\n", CALLAUCTION_ERROR_BAD_BOUNDS);
    config_error_is("day,1,65537,200,4,4096,65536,\n", CALLAUCTION_ERROR_BAD_BOUNDS);
    config_error_is("day,1,1000,1001,4,4096,65536,\n", CALLAUCTION_ERROR_BAD_REFERENCE);
    WANT(strcmp(callauction_journal_fault_text(CALLAUCTION_JOURNAL_BAD_COUNT), "wrong number of fields") == 0);
    WANT(strcmp(callauction_journal_fault_text(8), "unknown fault") == 0);
    WANT(strcmp(callauction_error_text(CALLAUCTION_ERROR_BAD_JOURNAL), "the text is no journal") == 0);
    WANT(strncmp(callauction_error_text(CALLAUCTION_ERROR_NO_ENTRY), "the struct is no entry", 22) == 0);
}

/* The example of docs/FORMATS.md, whose replies are lawful but for those that are changed here. */
static void a_day_is_opened(void) {
    static const char text[] = "day,1,1000,200,4,4096,65536,\n"
                               "1,enter,bid,200,202,entered 1\n"
                               "1,enter,bid,300,200,100,\n"
                               "2,enter,ask,100,market,,closing,entered 4\n"
                               "0,uncross,opening no price\n"
                               "3,ask,no price bid 202 ask 1\n";
    const callauction_journal wanted = {
        .members = 4, .calls = 5, .compared = 4, .unlawful = 2, .first_unlawful = 3, .taken = sizeof text - 1};
    callauction_handle auction = {0}, second = {0};
    callauction_journal found;
    callauction_config config;
    callauction_day_state state;
    callauction_order orders[4];
    callauction_reply reply;
    size_t copied = 0;
    WANT(callauction_journal_open(&auction, text, strlen(text), &found) == CALLAUCTION_DONE);
    WANT(is_found(&found, &wanted));
    WANT(callauction_config_of(&auction, &config) == CALLAUCTION_DONE && config.high == 1000);
    WANT(config.max_open == 4096 && config.has_range == 0 && config.has_reserve == 1 && config.reserve == 0);
    WANT(callauction_state(&auction, &state) == CALLAUCTION_DONE);
    WANT(state.calls == 5 && state.auction == CALLAUCTION_AUCTION_INTRADAY && state.calls_left_to_members == 65531);
    WANT(callauction_orders(&auction, CALLAUCTION_ALL_MEMBERS, orders, 4, &copied) == CALLAUCTION_DONE && copied == 3);
    WANT(orders[1].id == 2 && orders[1].peak == 100 && orders[2].id == 3 && orders[2].client == 0);
    callauction_command entering = {.tag = 1, .side = 2, .quantity = 50, .has_limit = 1, .limit = 202, .client = 12};
    WANT(callauction_apply(&auction, &entering, &reply) == CALLAUCTION_DONE && reply.id == 4);
    WANT(callauction_orders(&auction, 0, orders, 4, &copied) == CALLAUCTION_DONE && orders[0].client == 12);
    found.calls = 77;
    WANT(callauction_journal_open(&auction, text, strlen(text), &found) == CALLAUCTION_ERROR_IN_USE);
    WANT(callauction_journal_open(&auction, "", 0, &found) == CALLAUCTION_ERROR_IN_USE && found.calls == 77);
    WANT(callauction_clone(&auction, &second) == CALLAUCTION_DONE);
    WANT(callauction_close(&auction) == CALLAUCTION_DONE && callauction_close(&second) == CALLAUCTION_DONE);
    WANT(callauction_journal_open(&auction, text, 29, &found) == CALLAUCTION_DONE && found.calls == 0);
    WANT(found.members == 4 && found.compared == 0 && found.first_unlawful == 0 && found.taken == 29);
    WANT(callauction_close(&auction) == CALLAUCTION_DONE);
}

/* ---- texts that a crash has cut ---- */

#define DAY "day,1,1000,200,4,4096,65536,\n"
enum { DAY_LENGTH = sizeof DAY - 1 };

/* Of this text as many calls are taken, those of its first `taken` bytes; its open orders have so many shares. */
static void takes(const char *text, size_t length, uint32_t calls, size_t taken, uint64_t shares) {
    callauction_handle auction = {0};
    callauction_journal found;
    callauction_order orders[8];
    size_t listed = 0;
    WANT(callauction_journal_open(&auction, text, length, &found) == CALLAUCTION_DONE);
    WANT(found.calls == calls && found.taken == taken && found.fault == 0 && found.unlawful == 0);
    WANT(callauction_orders(&auction, CALLAUCTION_ALL_MEMBERS, orders, 8, &listed) == CALLAUCTION_DONE);
    for (size_t i = 0; i < listed; i++) shares -= orders[i].quantity;
    WANT(shares == 0);
    WANT(callauction_close(&auction) == CALLAUCTION_DONE);
}

/* A line that lacks its end is no call, though what is left of it reads as one; nor is what follows a NUL. */
static void whole_lines_are_taken(void) {
    static const char first[] = DAY "1,enter,bid,500,200,entered 1\n";
    static const char changed[] = DAY "1,enter,bid,500,200,entered 1\n1,change,1,50,200,changed kept";
    static const char silent[] = DAY "1,enter,bid,500,200,";
    static const char peak[] = DAY "1,enter,bid,500,200,entered 1\n1,enter,bid,300,200,10";
    static const char fault[] = DAY "1,enter,bid,500,200,entered 1\n9,x";
    static const char returns[] = "day,1,1000,200,4,4096,65536,\r\n1,enter,bid,500,200,entered 1\r\n";
    static const char room[] = DAY "1,enter,bid,500,200,entered 1\n\0\0\0";
    static const char behind[] = DAY "1,enter,bid,500,200,entered 1\n\0" "1,enter,bid,7,200,entered 2\n";
    const size_t whole = sizeof first - 1;
    takes(first, whole, 1, whole, 500);
    takes(first, whole - 1, 0, DAY_LENGTH, 0);
    takes(changed, sizeof changed - 1, 1, whole, 500);
    takes(silent, sizeof silent - 1, 0, DAY_LENGTH, 0);
    takes(peak, sizeof peak - 1, 1, whole, 500);
    takes(fault, sizeof fault - 1, 1, whole, 500);
    takes(returns, sizeof returns - 1, 1, sizeof returns - 1, 500);
    takes(returns, sizeof returns - 2, 0, DAY_LENGTH + 1, 0);
    takes(room, sizeof room - 1, 1, whole, 500);
    takes(behind, sizeof behind - 1, 1, whole, 500);
    fault_is(DAY, DAY_LENGTH - 1, CALLAUCTION_JOURNAL_NOT_A_DAY, 1, 0);
    fault_is(returns, DAY_LENGTH, CALLAUCTION_JOURNAL_NOT_A_DAY, 1, 0);
    fault_is("\0" DAY, DAY_LENGTH + 1, CALLAUCTION_JOURNAL_NOT_A_DAY, 1, 0);
}

/* Cut behind any byte, a text is its whole lines. */
static void any_cut_leaves_whole_lines(void) {
    static const char text[] = DAY "1,enter,bid,500,200,entered 1\n"
                                   "2,enter,ask,40,market,,closing,entered 2\n"
                                   "1,enter,bid,300,200,100,entered 3\n";
    static const uint64_t shares[] = {0, 500, 540, 840};
    size_t ends = 0, taken = 0;
    for (size_t length = 0; length < sizeof text; length++) {
        if (length > 0 && text[length - 1] == '\n') {
            ends++;
            taken = length;
        }
        if (ends == 0)
            fault_is(text, length, CALLAUCTION_JOURNAL_NOT_A_DAY, 1, 0);
        else
            takes(text, length, (uint32_t)ends - 1, taken, shares[ends - 1]);
    }
    WANT(ends == 4);
}

/* ---- random days ---- */

static uint64_t seed = 7;

static uint32_t random_below(uint32_t most) {
    seed = seed * 6364136223846793005u + 1442695040888963407u;
    return (uint32_t)(seed >> 33) % most;
}

static callauction_command random_command(void) {
    callauction_command made = {.member = (uint8_t)random_below(4), .quantity = random_below(50)};
    made.tag = (uint8_t)(random_below(40) == 0 ? 7 : random_below(2) ? 1 : 1 + random_below(6));
    made.side = (uint8_t)(1 + random_below(2));
    made.restriction = (uint8_t)(random_below(8) == 0 ? 1 + random_below(2) : 0);
    made.has_limit = random_below(8) != 0;
    if (made.has_limit) made.limit = 190 + random_below(21);
    if (made.tag == 1) made.has_peak = random_below(8) == 0;
    if (made.has_peak) made.peak = random_below(20);
    made.id = random_below(100);
    if (made.tag == 7 && random_below(4)) made.member = 0;
    return made;
}

/* Applies random commands, and keeps them with their replies. */
static void play(callauction_handle *auction, callauction_entry *entries, size_t count) {
    for (size_t i = 0; i < count; i++) {
        entries[i].command = random_command();
        WANT(callauction_apply(auction, &entries[i].command, &entries[i].reply) == CALLAUCTION_DONE);
    }
}

static bool is_same_order(const callauction_order *one, const callauction_order *other) {
    return one->id == other->id && one->quantity == other->quantity && one->visible == other->visible &&
           one->filled == other->filled && one->peak == other->peak && one->limit == other->limit &&
           one->member == other->member && one->side == other->side && one->restriction == other->restriction;
}

static bool is_same_trade(const callauction_trade *one, const callauction_trade *other) {
    return one->bid == other->bid && one->ask == other->ask && one->quantity == other->quantity &&
           one->tick == other->tick;
}

static void is_same_auction(callauction_handle *one, callauction_handle *other) {
    static callauction_order orders[2][4096];
    static callauction_trade trades[2][8192];
    callauction_day_state states[2];
    size_t listed[2], traded[2];
    callauction_handle *const both[] = {one, other};
    for (int i = 0; i < 2; i++) {
        WANT(callauction_orders(both[i], CALLAUCTION_ALL_MEMBERS, orders[i], 4096, &listed[i]) == CALLAUCTION_DONE);
        WANT(callauction_trades(both[i], 0, trades[i], 8192, &traded[i]) == CALLAUCTION_DONE);
        WANT(callauction_state(both[i], &states[i]) == CALLAUCTION_DONE);
    }
    WANT(listed[0] == listed[1] && traded[0] == traded[1]);
    for (size_t i = 0; i < listed[0]; i++) WANT(is_same_order(&orders[0][i], &orders[1][i]));
    for (size_t i = 0; i < traded[0]; i++) WANT(is_same_trade(&trades[0][i], &trades[1][i]));
    WANT(states[0].reference == states[1].reference && states[0].calls == states[1].calls);
    WANT(states[0].auction == states[1].auction && states[0].in_call == states[1].in_call);
    WANT(states[0].extended == states[1].extended && states[0].calls_left == states[1].calls_left);
}

/* The journal of a day, written in pieces of a room of any size. */
static char *written_journal(const callauction_config *config, const callauction_entry *entries, size_t count,
                             size_t *length) {
    char *text = malloc((count + 1) * LONGEST);
    size_t copied = 0, written = 0;
    WANT(text && callauction_journal_day(config, 4, text, LONGEST, length) == CALLAUCTION_DONE);
    for (size_t done = 0; done < count; done += copied) {
        const size_t room = LONGEST + random_below(2000);
        WANT(callauction_journal_entries(entries + done, count - done, text + *length, room, &copied, &written) == 0);
        WANT(copied > 0 && written <= room);
        *length += written;
    }
    return text;
}

/* The lines of entries as print_reply and these formats have them. */
static void is_printed(const char *text, size_t length, const callauction_entry *entries, size_t count) {
    static const char *const words[] = {"", "enter", "change", "delete", "status", "ask", "trade", "uncross"};
    static const char *const sides[] = {"", "bid", "ask"}, *const only[] = {"", "opening", "closing"};
    char *printed = NULL;
    size_t size = 0;
    FILE *to = open_memstream(&printed, &size);
    WANT(to);
    for (size_t i = 0; i < count; i++) {
        const callauction_command *c = &entries[i].command;
        fprintf(to, "%d,%s", c->member, words[c->tag]);
        if (c->tag == 1) fprintf(to, ",%s", sides[c->side]);
        if (c->tag != 1 && c->tag != 5 && c->tag != 7) fprintf(to, ",%" PRIu32, c->id);
        if (c->tag <= 2) fprintf(to, ",%" PRIu64, c->quantity);
        if (c->tag <= 2 && c->has_limit) fprintf(to, ",%" PRIu32, c->limit);
        if (c->tag <= 2 && !c->has_limit) fputs(",market", to);
        if (c->tag == 1 && (c->has_peak || c->restriction)) fputc(',', to);
        if (c->tag == 1 && c->has_peak) fprintf(to, "%" PRIu64, c->peak);
        if (c->tag == 1 && c->restriction) fprintf(to, ",%s", only[c->restriction]);
        fputc(',', to);
        print_reply(to, &entries[i].reply);
        fputc('\n', to);
    }
    fclose(to);
    WANT(size == length && memcmp(printed, text, length) == 0);
    free(printed);
}

/* The program's audit of the text counts the same, and as many bytes behind its whole lines. */
static void is_audited(const char *program, const char *text, size_t length, const callauction_journal *found) {
    char path[] = "/tmp/journal-XXXXXX", words[4096], wanted[5][64], line[512];
    const int lines_wanted = found->taken < length ? 5 : 4;
    int file = mkstemp(path), seen = 0;
    WANT(file >= 0 && write(file, text, length) == (ssize_t)length && close(file) == 0);
    snprintf(wanted[0], sizeof *wanted, "entries %" PRIu32 "\n", found->calls);
    snprintf(wanted[1], sizeof *wanted, "compared %" PRIu32 "\n", found->compared);
    snprintf(wanted[2], sizeof *wanted, "unlawful %" PRIu32 "\n", found->unlawful);
    snprintf(wanted[3], sizeof *wanted, "audit bad %" PRIu32 "\n", found->first_unlawful - 1);
    if (!found->first_unlawful) snprintf(wanted[3], sizeof *wanted, "audit legal\n");
    snprintf(wanted[4], sizeof *wanted, "incomplete: %zu bytes follow entry %" PRIu32 "\n", length - found->taken,
             found->calls);
    WANT(snprintf(words, sizeof words, "'%s' --audit < %s", program, path) < (int)sizeof words);
    FILE *printed = popen(words, "r");
    WANT(printed);
    while (fgets(line, sizeof line, printed))
        if (strstr(line, ": recorded ") == NULL) {
            WANT(seen < lines_wanted && strcmp(line, wanted[seen]) == 0);
            seen++;
        }
    pclose(printed);
    unlink(path);
    WANT(seen == lines_wanted);
}

/* Of a text that was cut anywhere behind its first line the program's audit says the same. */
static void is_audited_when_cut(const char *program, const char *text, size_t length) {
    callauction_handle auction = {0};
    callauction_journal found;
    const size_t first = (size_t)(strchr(text, '\n') + 1 - text);
    const size_t cut = first + random_below((uint32_t)(length - first));
    WANT(callauction_journal_open(&auction, text, cut, &found) == CALLAUCTION_DONE);
    WANT(found.taken <= cut && cut - found.taken < LONGEST && text[found.taken - 1] == '\n');
    WANT(callauction_close(&auction) == CALLAUCTION_DONE);
    if (program) is_audited(program, text, cut, &found);
}

static void random_day(const char *program, size_t count) {
    const callauction_config config = {190, 210, 200, 4096, 8192, random_below(2), 0, 0, 0};
    callauction_entry *entries = calloc(2 * count, sizeof *entries);
    callauction_handle auction = {0}, again = {0};
    callauction_journal found;
    size_t length = 0;
    WANT(entries && callauction_open(&auction, &config) == CALLAUCTION_DONE);
    play(&auction, entries, count);
    char *text = written_journal(&config, entries, count, &length);
    const char *day_end = strchr(text, '\n') + 1;
    is_printed(day_end, length - (size_t)(day_end - text), entries, count);
    WANT(callauction_journal_open(&again, text, length, &found) == CALLAUCTION_DONE);
    WANT(found.members == 4 && found.calls == count && found.compared == count);
    WANT(found.unlawful == 0 && found.first_unlawful == 0 && found.fault == 0 && found.taken == length);
    is_same_auction(&auction, &again);
    if (program) is_audited(program, text, length, &found);
    is_audited_when_cut(program, text, length);
    for (size_t i = count; i < 2 * count; i++) { /* the day goes on in both */
        callauction_reply reply;
        entries[i].command = random_command();
        WANT(callauction_apply(&auction, &entries[i].command, &entries[i].reply) == CALLAUCTION_DONE);
        WANT(callauction_apply(&again, &entries[i].command, &reply) == CALLAUCTION_DONE);
        WANT(memcmp(&reply, &entries[i].reply, sizeof reply) == 0);
    }
    is_same_auction(&auction, &again);
    free(text);
    WANT(callauction_close(&again) == CALLAUCTION_DONE);
    uint32_t first = 0, unlawful = 0; /* and some replies of the whole day are others */
    for (size_t i = 0; i < 2 * count; i++) {
        if (random_below(9) || entries[i].reply.tag == CALLAUCTION_REPLY_DELETED) continue;
        entries[i].reply = deleted;
        unlawful++;
        if (!first) first = (uint32_t)i + 1;
    }
    text = written_journal(&config, entries, 2 * count, &length);
    WANT(callauction_journal_open(&again, text, length, &found) == CALLAUCTION_DONE);
    WANT(found.calls == 2 * count && found.compared == 2 * count);
    WANT(found.unlawful == unlawful && found.first_unlawful == first);
    is_same_auction(&auction, &again);
    if (program) is_audited(program, text, length, &found);
    WANT(callauction_close(&again) == CALLAUCTION_DONE && callauction_close(&auction) == CALLAUCTION_DONE);
    free(text);
    free(entries);
}

/* Another call that has the handle is found, as of any. */
static void two_calls_at_once(void) {
    callauction_handle auction = {0};
    callauction_journal found = {.calls = 77};
    callauction_reply reply = {.tag = 99};
    auction.busy_ = 1;
    WANT(callauction_journal_open(&auction, "", 0, &found) == CALLAUCTION_ERROR_MISUSED && found.calls == 77);
    auction.busy_ = 0;
    WANT(callauction_apply(&auction, &asking, &reply) == CALLAUCTION_ERROR_NO_AUCTION);
}

int main(int count, char **words) {
    days();
    entries_are_lines();
    what_is_no_entry();
    faults_of_texts();
    a_day_is_opened();
    whole_lines_are_taken();
    any_cut_leaves_whole_lines();
    two_calls_at_once();
    for (int day = 0; day < 40; day++) random_day(count > 1 ? words[1] : NULL, 20 + random_below(1000));
    return 0;
}
