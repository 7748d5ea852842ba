/* Memory, with the heap of checks/parts/refusing_memory.c: `memory open`, `memory day`, `memory list`, `memory board`,
 * `memory journal`, `memory many COUNT`.
 *
 * open: opens an auction, clones it and closes both; where memory is refused the call answers so, and nothing is kept.
 * day: the same, and between them commands, displays, resets and a clone over the clone, which ask for no memory.
 * list: opens an auction, lists its orders and uncrosses; where memory is refused, the call answers so, and does
 * nothing.
 * board: the same on a board, of which an auction is a copy too, and the board goes on after each refusal.
 * journal: opens an auction by a journal, and looks for the fault of another; writing one asks for no memory.
 * many: opens and closes as often as asked, and prints by how many KiB the process has grown since a tenth of them. */
#include "callauction.h"
#include <stdio.h>
#include <stdlib.h>
#include <string.h>
#include <unistd.h>

static const callauction_config config = {1, 1000, 500, 64, 6000, 0, 0, 0, 0};

static int leave(const char *why) {
    fprintf(stderr, "memory: %s\n", why);
    return 1;
}

static bool plays(callauction_handle *auction) {
    callauction_reply reply;
    bool is_right = true;
    for (uint32_t i = 0; i < 5000; i++) {
        callauction_command command = {.member = (uint8_t)(i % 3), .side = (uint8_t)(1 + i % 2), .quantity = 1 + i % 9};
        command.tag = (uint8_t)(i % 900 == 899 ? CALLAUCTION_COMMAND_UNCROSS : 1 + i % 6);
        command.has_limit = i % 5 != 0;
        if (command.has_limit) command.limit = 490 + i % 21;
        command.id = i / 12;
        if (command.tag == CALLAUCTION_COMMAND_UNCROSS) command.member = 0;
        is_right &= callauction_apply(auction, &command, &reply) == CALLAUCTION_DONE;
        is_right &= callauction_display(auction, &reply) == CALLAUCTION_DONE;
    }
    return is_right && callauction_reset(auction) == CALLAUCTION_DONE;
}

/* What is done where nothing is refused; a refusal is answered, and leaves a handle that holds none. */
static int opens(bool has_day) {
    callauction_handle auction = {0}, copy = {0}, none = {0};
    uint32_t answer = callauction_open(&auction, &config);
    if (answer == CALLAUCTION_ERROR_NO_MEMORY)
        return memcmp(&auction, &none, sizeof none) ? leave("a handle changed") : 3;
    if (answer != CALLAUCTION_DONE) return leave("another answer of an opening");
    if (has_day && !plays(&auction)) return leave("the day went otherwise");
    answer = callauction_clone(&auction, &copy);
    if (answer == CALLAUCTION_ERROR_NO_MEMORY) {
        if (memcmp(&copy, &none, sizeof none)) return leave("a handle changed");
        return callauction_close(&auction) == CALLAUCTION_DONE ? 3 : leave("not closed");
    }
    if (answer != CALLAUCTION_DONE) return leave("another answer of a clone");
    if (has_day && !plays(&copy)) return leave("the copy's day went otherwise");
    if (has_day && callauction_clone(&auction, &copy) != CALLAUCTION_DONE) return leave("not written over");
    bool are_closed = callauction_close(&auction) == CALLAUCTION_DONE && callauction_close(&copy) == CALLAUCTION_DONE;
    return are_closed ? 0 : leave("not closed");
}

/* Whether a list was written with exactly `wanted` orders, or none was, as memory was refused. */
static bool is_list(uint32_t answer, const callauction_order *orders, size_t copied, size_t wanted) {
    callauction_order untouched;
    memset(&untouched, 0xAA, sizeof untouched);
    if (answer == CALLAUCTION_DONE) return copied == wanted;
    bool is_same = copied == 0 && memcmp(orders, &untouched, sizeof untouched) == 0;
    return answer == CALLAUCTION_ERROR_NO_MEMORY && is_same;
}

/* An uncross that says what it did to all six orders, or did nothing. */
static bool uncrosses(callauction_handle *auction, bool *is_done) {
    callauction_outcome outcomes[8], untouched;
    callauction_reply reply = {.tag = 99};
    size_t copied = 77;
    uint32_t calls = 0;
    memset(outcomes, 0xAA, sizeof outcomes);
    memset(&untouched, 0xAA, sizeof untouched);
    uint32_t answer = callauction_uncross(auction, &reply, outcomes, 8, &copied);
    if (callauction_calls(auction, &calls) != CALLAUCTION_DONE) return false;
    *is_done = answer == CALLAUCTION_DONE;
    if (*is_done) return calls == 7 && copied == 6 && reply.tag == CALLAUCTION_REPLY_UNCROSSED;
    bool is_same = calls == 6 && copied == 0 && reply.tag == 99 && memcmp(outcomes, &untouched, sizeof untouched) == 0;
    return answer == CALLAUCTION_ERROR_NO_MEMORY && is_same;
}

static int lists(void) {
    callauction_handle auction = {0};
    callauction_order all[8], some[8];
    callauction_reply reply;
    size_t copied = 77, expiring = 77;
    memset(all, 0xAA, sizeof all);
    memset(some, 0xAA, sizeof some);
    uint32_t answer = callauction_open(&auction, &config);
    if (answer != CALLAUCTION_DONE) return answer == CALLAUCTION_ERROR_NO_MEMORY ? 3 : leave("another answer");
    for (uint32_t i = 0; i < 6; i++) {
        callauction_command command = {.tag = CALLAUCTION_COMMAND_ENTER, .quantity = 1 + i};
        command.side = (uint8_t)(1 + i % 2);
        command.restriction = i > 3 ? CALLAUCTION_RESTRICTION_OPENING_ONLY : CALLAUCTION_RESTRICTION_NONE;
        if (callauction_apply(&auction, &command, &reply) != CALLAUCTION_DONE) return leave("not entered");
    }
    uint32_t listed = callauction_orders(&auction, CALLAUCTION_ALL_MEMBERS, all, 8, &copied);
    if (!is_list(listed, all, copied, 6)) return leave("another list");
    /* 9 shares are bid and 12 offered at market: of the orders for the opening the ask, entered last, has 3 left */
    uint32_t told = callauction_expiring(&auction, some, 8, &expiring);
    if (!is_list(told, some, expiring, 1)) return leave("another list of what expires");
    bool is_done = false;
    if (!uncrosses(&auction, &is_done)) return leave("another uncross");
    if (callauction_close(&auction) != CALLAUCTION_DONE) return leave("not closed");
    return listed == CALLAUCTION_DONE && told == CALLAUCTION_DONE && is_done ? 0 : 3;
}

/* Six market orders of the two members, the last two for the opening alone; calls take no memory. */
static bool enters(callauction_member *members) {
    callauction_receipt receipt;
    bool is_right = true;
    for (uint32_t i = 0; i < 6; i++) {
        callauction_command command = {.tag = CALLAUCTION_COMMAND_ENTER, .quantity = 1 + i};
        command.side = (uint8_t)(1 + i % 2);
        command.restriction = i > 3 ? CALLAUCTION_RESTRICTION_OPENING_ONLY : CALLAUCTION_RESTRICTION_NONE;
        is_right &= callauction_board_call(&members[i % 2], &command, &receipt) == CALLAUCTION_DONE;
    }
    return is_right;
}

static int lists_of_board(void) {
    callauction_member members[2] = {{0}};
    callauction_handle copy = {0}, none = {0};
    callauction_order all[8], some[8];
    size_t copied = 77, expiring = 77;
    uint32_t calls = 0, answer = callauction_board_open(members, 2, &config);
    if (answer != CALLAUCTION_DONE) return answer == CALLAUCTION_ERROR_NO_MEMORY ? 3 : leave("another answer");
    memset(all, 0xAA, sizeof all);
    memset(some, 0xAA, sizeof some);
    if (!enters(members)) return leave("not entered");
    uint32_t listed = callauction_board_orders(&members[0], CALLAUCTION_ALL_MEMBERS, all, 8, &copied, &calls);
    if (!is_list(listed, all, copied, 6)) return leave("another list");
    uint32_t told = callauction_board_expiring(&members[1], some, 8, &expiring, &calls);
    if (!is_list(told, some, expiring, 1)) return leave("another list of what expires");
    uint32_t cloned = callauction_board_clone(&members[1], &copy);
    if (cloned == CALLAUCTION_ERROR_NO_MEMORY && memcmp(&copy, &none, sizeof none)) return leave("a handle changed");
    if (!enters(members)) return leave("the board doesn't go on");
    bool is_copy = cloned == CALLAUCTION_DONE && callauction_close(&copy) == CALLAUCTION_DONE;
    for (int i = 0; i < 2; i++)
        if (callauction_board_leave(&members[i]) != CALLAUCTION_DONE) return leave("not left");
    return listed == CALLAUCTION_DONE && told == CALLAUCTION_DONE && is_copy ? 0 : 3;
}

/* A journal is written without memory. Its auction is opened, or memory was refused, and nothing is written. */
static int opens_journal(void) {
    static const char bad[] = "day,1,1000,500,3,64,6000,\n0,ask,\n0,\"enter\",\n";
    callauction_handle auction = {0}, none = {0};
    callauction_journal found = {.calls = 77}, fault = {.calls = 77};
    callauction_entry entries[20];
    char text[4096];
    size_t begun = 0, copied = 0, written = 0;
    memset(entries, 0, sizeof entries);
    for (int i = 0; i < 20; i++) {
        entries[i].command = (callauction_command){.tag = CALLAUCTION_COMMAND_ENTER, .side = 1, .quantity = 5};
        entries[i].reply = (callauction_reply){.tag = CALLAUCTION_REPLY_ENTERED, .id = (uint32_t)i + 1};
    }
    if (callauction_journal_day(&config, 3, text, sizeof text, &begun) != CALLAUCTION_DONE) return leave("no day");
    uint32_t answer = callauction_journal_entries(entries, 20, text + begun, sizeof text - begun, &copied, &written);
    if (answer != CALLAUCTION_DONE || copied != 20) return leave("no entries");
    uint32_t faulty = callauction_journal_open(&auction, bad, sizeof bad - 1, &fault);
    if (memcmp(&auction, &none, sizeof none)) return leave("a handle changed");
    bool is_fault = faulty == CALLAUCTION_ERROR_BAD_JOURNAL && fault.record_number == 3 && fault.calls == 0;
    if (!is_fault && (faulty != CALLAUCTION_ERROR_NO_MEMORY || fault.calls != 77)) return leave("another fault");
    answer = callauction_journal_open(&auction, text, begun + written, &found);
    if (answer == CALLAUCTION_ERROR_NO_MEMORY)
        return memcmp(&auction, &none, sizeof none) || found.calls != 77 ? leave("a handle changed") : 3;
    if (answer != CALLAUCTION_DONE) return leave("another answer of a journal");
    if (found.calls != 20 || found.compared != 20 || found.unlawful != 0) return leave("another count");
    if (callauction_close(&auction) != CALLAUCTION_DONE) return leave("not closed");
    return is_fault ? 0 : 3;
}

static long kibibytes(void) {
    long pages = 0, resident = 0;
    FILE *from = fopen("/proc/self/statm", "r");
    if (!from || fscanf(from, "%ld %ld", &pages, &resident) != 2) resident = 0;
    if (from) fclose(from);
    return resident * (sysconf(_SC_PAGESIZE) / 1024);
}

static int many(long count) {
    long before = 0;
    for (long i = 0; i < count; i++) {
        callauction_handle auction = {0}, copy = {0};
        if (callauction_open(&auction, &config) != CALLAUCTION_DONE) return leave("not opened");
        if (i % 4 == 0 && callauction_clone(&auction, &copy) != CALLAUCTION_DONE) return leave("not cloned");
        callauction_close(&copy);
        if (callauction_close(&auction) != CALLAUCTION_DONE) return leave("not closed");
        if (i == count / 10) before = kibibytes();
    }
    printf("%ld\n", kibibytes() - before);
    return 0;
}

int main(int count, char **words) {
    if (count == 3 && strcmp(words[1], "many") == 0) return many(atol(words[2]));
    if (count == 2 && strcmp(words[1], "list") == 0) return lists();
    if (count == 2 && strcmp(words[1], "board") == 0) return lists_of_board();
    if (count == 2 && strcmp(words[1], "journal") == 0) return opens_journal();
    return opens(count == 2 && strcmp(words[1], "day") == 0);
}
