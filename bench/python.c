/* Prints what the calls of libcallauction take from C that bench/python_calls.py makes from Python, in nanoseconds: an
 * entry, a question, a command of a thousand at a time, and an entry on a board. A line is the mean of a thousand
 * calls, or commands. */
#include <callauction.h>
#include <stdio.h>
#include <stdlib.h>
#include <time.h>

enum { CALLS = 50000, STANDING = 1000, AT_ONCE = 1000 };

static callauction_command commands[CALLS];
static callauction_reply replies[AT_ONCE];
static double took[CALLS / AT_ONCE]; /* ns of each thousand */

static double now(void) {
    struct timespec time;
    clock_gettime(CLOCK_MONOTONIC, &time);
    return (double)time.tv_sec * 1e9 + (double)time.tv_nsec;
}

static void print(const char *name) {
    for (int k = 0; k < CALLS / AT_ONCE; k++) printf("%s %.1f\n", name, took[k] / AT_ONCE);
}

static void want(uint32_t answer) {
    if (answer != CALLAUCTION_DONE) exit(1);
}

static callauction_command order(uint8_t side, uint32_t tick) {
    callauction_command command = {.member = 1, .tag = CALLAUCTION_COMMAND_ENTER, .side = side, .quantity = 100};
    command.has_limit = 1;
    command.limit = tick;
    return command;
}

static void begin(callauction_handle *auction, uint32_t standing) {
    static const callauction_config config = {1, 1000, 500, 65536, 1048576, 0, 0, 0, 0};
    callauction_reply reply;
    want(callauction_open(auction, &config));
    for (uint32_t k = 0; k < standing; k++) {
        callauction_command command = order(k % 2 ? CALLAUCTION_SIDE_BID : CALLAUCTION_SIDE_ASK, 1 + k % 1000);
        want(callauction_apply(auction, &command, &reply));
    }
}

static void measure_enter(void) {
    callauction_handle auction = {0};
    callauction_reply reply;
    begin(&auction, 0);
    for (uint32_t first = 0; first < CALLS; first += AT_ONCE) {
        double start = now();
        for (uint32_t k = first; k < first + AT_ONCE; k++) {
            callauction_command command = order(CALLAUCTION_SIDE_BID, 1 + k * 7919 % 1000);
            want(callauction_apply(&auction, &command, &reply));
        }
        took[first / AT_ONCE] = now() - start;
    }
    print("enter");
    want(callauction_close(&auction));
}

static void measure_indicate(void) {
    callauction_handle auction = {0};
    callauction_reply reply;
    begin(&auction, STANDING);
    for (uint32_t first = 0; first < CALLS; first += AT_ONCE) {
        double start = now();
        for (uint32_t k = 0; k < AT_ONCE; k++) {
            callauction_command command = {.member = 1, .tag = CALLAUCTION_COMMAND_INDICATE};
            want(callauction_apply(&auction, &command, &reply));
        }
        took[first / AT_ONCE] = now() - start;
    }
    print("indicate");
    want(callauction_close(&auction));
}

static void measure_apply_many(void) {
    callauction_handle auction = {0};
    size_t applied;
    begin(&auction, STANDING);
    for (uint32_t k = 0; k < CALLS; k++) {
        commands[k] = order(k % 8 < 4 ? CALLAUCTION_SIDE_BID : CALLAUCTION_SIDE_ASK, 1 + k * 7919 % 1000);
        if (k % 4 == 1) commands[k].tag = CALLAUCTION_COMMAND_INDICATE;
        if (k % 4 == 2) commands[k].tag = CALLAUCTION_COMMAND_CHANGE, commands[k].quantity = 50;
        if (k % 4 == 3) commands[k].tag = CALLAUCTION_COMMAND_DELETE;
        commands[k].id = STANDING + 1 + k / 4;
    }
    for (int first = 0; first < CALLS; first += AT_ONCE) {
        double start = now();
        want(callauction_apply_many(&auction, commands + first, AT_ONCE, replies, AT_ONCE, &applied));
        took[first / AT_ONCE] = now() - start;
    }
    print("apply-many");
    want(callauction_close(&auction));
}

static void measure_board(void) {
    static const callauction_config config = {1, 1000, 500, 65536, 1048576, 0, 0, 0, 0};
    callauction_member members[2] = {0};
    callauction_receipt receipt;
    want(callauction_board_open(members, 2, &config));
    for (uint32_t first = 0; first < CALLS; first += AT_ONCE) {
        double start = now();
        for (uint32_t k = first; k < first + AT_ONCE; k++) {
            callauction_command command = order(CALLAUCTION_SIDE_BID, 1 + k * 7919 % 1000);
            command.member = 0;
            want(callauction_board_call(&members[1], &command, &receipt));
        }
        took[first / AT_ONCE] = now() - start;
    }
    print("board-enter");
    for (int number = 0; number < 2; number++) callauction_board_leave(&members[number]);
}

int main(void) {
    measure_enter();
    measure_indicate();
    measure_apply_many();
    measure_board();
    return 0;
}
