/* A simulator's morning on libcallauction: random traders, the indicative price as they trade, what an order would do
 * to it, and the uncross.
 *
 *     library/build /tmp/callauction
 *     export PKG_CONFIG_PATH=/tmp/callauction LD_LIBRARY_PATH=/tmp/callauction
 *     cc examples/simulator.c $(pkg-config --cflags --libs callauction) -o /tmp/simulator && /tmp/simulator
 *
 * prints examples/simulator.txt. */
#include <callauction.h>
#include <inttypes.h>
#include <stdio.h>
#include <stdlib.h>

enum { TRADERS = 20, ROUNDS = 1000, COMMANDS_OF_A_ROUND = 4 };

/* The dice: the same ones in each run. */
static uint32_t drawn(uint32_t below) {
    static uint64_t state = 2026;
    state = state * 6364136223846793005u + 1442695040888963407u;
    return (uint32_t)(state >> 33) % below;
}

/* Ends the program where a call has an error: this one makes none. */
static void want(uint32_t answer, const char *call) {
    if (answer == CALLAUCTION_DONE) return;
    fprintf(stderr, "%s: error %u\n", call, answer);
    exit(1);
}

static callauction_reply apply(callauction_handle *auction, callauction_command command) {
    callauction_reply reply;
    want(callauction_apply(auction, &command, &reply), "apply");
    return reply;
}

static callauction_reply display(callauction_handle *auction) {
    callauction_reply shown;
    want(callauction_display(auction, &shown), "display");
    return shown;
}

/* A trader enters an order near the fair price, or changes or deletes its last one; 0 where it has none. */
static callauction_command command_of(uint8_t trader, uint32_t fair, uint32_t last) {
    callauction_command command = {.member = trader, .tag = CALLAUCTION_COMMAND_ENTER, .has_limit = 1};
    uint32_t roll = drawn(10);
    bool is_bid = drawn(2) == 0;
    command.side = is_bid ? CALLAUCTION_SIDE_BID : CALLAUCTION_SIDE_ASK;
    command.limit = is_bid ? fair + 3 - drawn(20) : fair - 3 + drawn(20);
    command.quantity = 10 * (1 + drawn(50));
    if (roll == 0) command.has_limit = 0, command.limit = 0;
    if (roll >= 7 && last != 0) {
        command.tag = roll == 9 ? CALLAUCTION_COMMAND_DELETE : CALLAUCTION_COMMAND_CHANGE;
        command.id = last;
    }
    return command;
}

/* The price with a market order more, found on a copy of the auction; 0 where there is none. */
static uint32_t price_with(callauction_handle *auction, uint8_t side, uint64_t quantity) {
    callauction_handle copy = {0};
    callauction_command order = {.member = 1, .tag = CALLAUCTION_COMMAND_ENTER, .side = side, .quantity = quantity};
    uint32_t tick = 0;
    want(callauction_clone(auction, &copy), "clone");
    if (apply(&copy, order).tag == CALLAUCTION_REPLY_ENTERED) tick = display(&copy).tick;
    want(callauction_close(&copy), "close");
    return tick;
}

static void play_morning(callauction_handle *auction) {
    uint32_t counts[CALLAUCTION_REPLY_REFUSED + 1] = {0}, last[TRADERS + 1] = {0}, fair = 500;
    uint32_t calls, least = 1000, most = 0, priced = 0;
    for (int i = 0; i < ROUNDS * COMMANDS_OF_A_ROUND; i++) {
        uint8_t trader = (uint8_t)(1 + drawn(TRADERS));
        callauction_reply reply = apply(auction, command_of(trader, fair, last[trader]));
        counts[reply.tag]++;
        if (reply.tag == CALLAUCTION_REPLY_ENTERED) last[trader] = reply.id;
        if (i % COMMANDS_OF_A_ROUND != COMMANDS_OF_A_ROUND - 1) continue;
        fair += drawn(3) - 1;
        callauction_reply shown = display(auction);
        if (shown.tag != CALLAUCTION_REPLY_PRICED) continue;
        priced++;
        if (shown.tick < least) least = shown.tick;
        if (shown.tick > most) most = shown.tick;
    }
    want(callauction_calls(auction, &calls), "calls");
    printf("%u calls: %u entered, %u changed, %u deleted, %u refused\n", calls, counts[CALLAUCTION_REPLY_ENTERED],
           counts[CALLAUCTION_REPLY_CHANGED], counts[CALLAUCTION_REPLY_DELETED], counts[CALLAUCTION_REPLY_REFUSED]);
    printf("%u of %d rounds with an indicative price, from %u to %u\n", priced, ROUNDS, least, most);
}

static void look_ahead(callauction_handle *auction) {
    callauction_reply shown = display(auction);
    printf("at the end %u, volume %" PRIu64 ", surplus %" PRIu64 "\n", shown.tick, shown.volume, shown.surplus);
    for (uint64_t quantity = 1000; quantity <= 1000000; quantity *= 10) {
        uint32_t higher = price_with(auction, CALLAUCTION_SIDE_BID, quantity);
        uint32_t lower = price_with(auction, CALLAUCTION_SIDE_ASK, quantity);
        printf("with %" PRIu64 " shares more bid %u, with as many more offered %u\n", quantity, higher, lower);
    }
}

static void uncross(callauction_handle *auction) {
    callauction_reply ended = apply(auction, (callauction_command){.member = 0, .tag = CALLAUCTION_COMMAND_UNCROSS});
    callauction_trade first[3];
    size_t copied;
    printf("uncrossed at %u, volume %" PRIu64 ", %u trades\n", ended.tick, ended.volume, ended.trades);
    want(callauction_trades(auction, 0, first, 3, &copied), "trades");
    for (size_t i = 0; i < copied; i++)
        printf("%" PRIu64 " shares from order %u to order %u\n", first[i].quantity, first[i].ask, first[i].bid);
}

int main(void) {
    callauction_handle auction = {0};
    callauction_config config = {1, 1000, 500, .max_open = 4096, .max_calls = 65536};
    want(callauction_open(&auction, &config), "open");
    play_morning(&auction);
    look_ahead(&auction);
    uncross(&auction);
    want(callauction_close(&auction), "close");
    return 0;
}
