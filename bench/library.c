/* Prints what the calls of libcallauction take, in nanoseconds: the commands of crates/clock (`apply-alone`), one by
 * one and a thousand at a time, copies of a book with 1,000 open orders, and a board's calls, of one member and of four
 * at once, and looks where nothing is new. `bench/bench library` runs it. */
#include <callauction.h>
#include <pthread.h>
#include <sched.h>
#include <stdio.h>
#include <stdlib.h>
#include <time.h>

enum { STANDING = 1000, CALLS = 100000, AT_ONCE = 1000, COPIES = 2000, LOOKS = 10000000, MOST = 4 };

static callauction_command commands[CALLS];
static callauction_reply replies[AT_ONCE];

static double now(void) {
    struct timespec time;
    clock_gettime(CLOCK_MONOTONIC, &time);
    return (double)time.tv_sec * 1e9 + (double)time.tv_nsec;
}

static void want(uint32_t answer) {
    if (answer != CALLAUCTION_DONE) exit(1);
}

static callauction_command order(uint8_t side, uint32_t tick) {
    callauction_command command = {.member = 1, .tag = CALLAUCTION_COMMAND_ENTER, .side = side, .quantity = 100};
    command.has_limit = 1;
    command.limit = tick;
    return command;
}

/* In turn an order somewhere on the ladder, a question, a change of that order, and its deletion. */
static callauction_command command_of(uint32_t k, uint32_t id) {
    callauction_command command = order(k % 8 < 4 ? CALLAUCTION_SIDE_BID : CALLAUCTION_SIDE_ASK, 1 + k * 7919 % 1000);
    if (k % 4 == 1) command.tag = CALLAUCTION_COMMAND_INDICATE;
    if (k % 4 == 2) command.tag = CALLAUCTION_COMMAND_CHANGE, command.quantity = 50;
    if (k % 4 == 3) command.tag = CALLAUCTION_COMMAND_DELETE;
    command.id = id;
    return command;
}

static const callauction_config config = {1, 1000, 500, 4096, 1048576, 0, 0, 0, 0};

static void begin(callauction_handle *auction) {
    callauction_reply reply;
    want(callauction_open(auction, &config));
    for (uint32_t k = 0; k < STANDING; k++) {
        uint32_t tick = 1 + k % 1000;
        callauction_command command = order(tick < 500 ? CALLAUCTION_SIDE_BID : CALLAUCTION_SIDE_ASK, tick);
        want(callauction_apply(auction, &command, &reply));
    }
}

/* One by one, each written as it is wanted. */
static void measure_apply(void) {
    callauction_handle auction = {0};
    callauction_reply reply;
    uint32_t id = 0;
    begin(&auction);
    double start = now();
    for (uint32_t k = 0; k < CALLS; k++) {
        callauction_command command = command_of(k, id);
        want(callauction_apply(&auction, &command, &reply));
        if (reply.tag == CALLAUCTION_REPLY_ENTERED) id = reply.id;
    }
    printf("apply %.1f\n", (now() - start) / CALLS);
    want(callauction_close(&auction));
}

/* One by one, each with what is shown after it: what a call on a board does too. */
static void measure_apply_display(void) {
    callauction_handle auction = {0};
    callauction_reply reply, shown;
    uint32_t id = 0;
    begin(&auction);
    double start = now();
    for (uint32_t k = 0; k < CALLS; k++) {
        callauction_command command = command_of(k, id);
        want(callauction_apply(&auction, &command, &reply));
        want(callauction_display(&auction, &shown));
        if (reply.tag == CALLAUCTION_REPLY_ENTERED) id = reply.id;
    }
    printf("apply-display %.1f\n", (now() - start) / CALLS);
    want(callauction_close(&auction));
}

/* A member's call, made again while another has the board. */
static uint32_t called(callauction_member *member, callauction_command command, uint32_t id) {
    callauction_receipt receipt;
    uint32_t answer;
    while ((answer = callauction_board_call(member, &command, &receipt)) == CALLAUCTION_ERROR_BUSY) sched_yield();
    want(answer);
    return receipt.reply.tag == CALLAUCTION_REPLY_ENTERED ? receipt.reply.id : id;
}

typedef struct part {
    callauction_member *member;
    uint32_t calls;
} part;

static void *call_all(void *argument) {
    part *of = argument;
    uint32_t id = 0;
    for (uint32_t k = 0; k < of->calls; k++) id = called(of->member, command_of(k, id), id);
    return NULL;
}

/* The calls of `members` members at once, wall nanoseconds a call; then the looks of one. */
static void measure_board(uint32_t members, const char *name) {
    callauction_member handles[MOST] = {{0}};
    pthread_t threads[MOST];
    part parts[MOST];
    want(callauction_board_open(handles, members, &config));
    for (uint32_t k = 0; k < STANDING; k++) {
        uint32_t tick = 1 + k % 1000;
        called(&handles[0], order(tick < 500 ? CALLAUCTION_SIDE_BID : CALLAUCTION_SIDE_ASK, tick), 0);
    }
    double start = now();
    for (uint32_t m = 0; m < members; m++) {
        parts[m] = (part){&handles[m], CALLS / members};
        if (pthread_create(&threads[m], NULL, call_all, &parts[m]) != 0) exit(1);
    }
    for (uint32_t m = 0; m < members; m++) pthread_join(threads[m], NULL);
    printf("%s %.1f\n", name, (now() - start) / CALLS);
    if (members == 1) {
        callauction_shown shown;
        start = now();
        for (uint32_t k = 0; k < LOOKS; k++) want(callauction_board_look(&handles[0], &shown));
        printf("board-look %.1f\n", (now() - start) / LOOKS);
        start = now();
        call_all(&parts[0]);
        printf("board-call-watched %.1f\n", (now() - start) / CALLS);
    }
    for (uint32_t m = 0; m < members; m++) want(callauction_board_leave(&handles[m]));
}

/* A thousand at a time, all written before. */
static void measure_apply_many(void) {
    callauction_handle auction = {0};
    size_t applied;
    for (uint32_t k = 0; k < CALLS; k++) commands[k] = command_of(k, STANDING + 1 + k / 4);
    begin(&auction);
    double start = now();
    for (int k = 0; k < CALLS; k += AT_ONCE)
        want(callauction_apply_many(&auction, commands + k, AT_ONCE, replies, AT_ONCE, &applied));
    printf("apply-many %.1f\n", (now() - start) / CALLS);
    for (int k = 0; k < AT_ONCE; k++)
        if (replies[k].tag == CALLAUCTION_REPLY_REFUSED) exit(1);
    want(callauction_close(&auction));
}

static void measure_copies(void) {
    callauction_handle auction = {0}, copy = {0};
    double cloning = 0, closing = 0;
    begin(&auction);
    for (int k = 0; k < COPIES; k++) {
        double start = now();
        want(callauction_clone(&auction, &copy));
        double made = now();
        want(callauction_close(&copy));
        cloning += made - start;
        closing += now() - made;
    }
    printf("clone %.1f\nclose %.1f\n", cloning / COPIES, closing / COPIES);
    want(callauction_clone(&auction, &copy));
    double start = now();
    for (int k = 0; k < COPIES; k++) want(callauction_clone(&auction, &copy));
    printf("clone-over %.1f\n", (now() - start) / COPIES);
    want(callauction_close(&copy));
    start = now();
    for (int k = 0; k < COPIES; k++) want(callauction_reset(&auction));
    printf("reset %.1f\n", (now() - start) / COPIES);
    want(callauction_close(&auction));
}

int main(void) {
    measure_apply();
    measure_apply_display();
    measure_apply_many();
    measure_copies();
    measure_board(1, "board-call");
    measure_board(MOST, "board-call-of-4");
    return 0;
}
