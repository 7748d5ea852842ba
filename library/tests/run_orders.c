/* Runs an order file through the library and prints what the program prints: `run_orders [OPTIONS] < ORDERS`.
 *
 * The lines are those of callauction_apply_many. Beside it the same commands are applied one by one after a reset, and
 * go on in a copy from the middle of the day, and the trades are read in pieces: where any of this differs, the status
 * is 9. A file with more records than --calls is answered as by the program; other bad files are not looked for. */
#include "orders.h"
#include <inttypes.h>
#include <stdlib.h>
#include <string.h>

#define WANT(holds) \
    do { \
        if (!(holds)) { \
            fprintf(stderr, "run_orders: line %d: not so: %s\n", __LINE__, #holds); \
            exit(9); \
        } \
    } while (0)

static callauction_config config_of(int count, char **words) {
    callauction_config config = {.low = 1, .high = 1000, .reference = 200, .max_open = 4096, .max_calls = 65536};
    for (int i = 1; i + 1 < count; i += 2) {
        uint32_t value = (uint32_t)strtoul(words[i + 1], NULL, 10);
        if (strcmp(words[i], "--low") == 0) config.low = value;
        else if (strcmp(words[i], "--high") == 0) config.high = value;
        else if (strcmp(words[i], "--reference") == 0) config.reference = value;
        else if (strcmp(words[i], "--open") == 0) config.max_open = value;
        else if (strcmp(words[i], "--calls") == 0) config.max_calls = value;
        else if (strcmp(words[i], "--range") == 0) {
            config.has_range = 1;
            config.range = value;
        } else WANT(strcmp(words[i], "--members") == 0);
    }
    return config;
}

/* The commands of the records of a file, and how many they are. */
static callauction_command *read_all(FILE *from, size_t *count) {
    callauction_command *commands = NULL;
    size_t room = 0, length = 0;
    char *line = NULL;
    *count = 0;
    while (getline(&line, &length, from) >= 0) {
        line[strcspn(line, "\r\n")] = '\0';
        if (!*line) continue;
        if (*count == room) {
            room = room ? 2 * room : 64;
            commands = realloc(commands, room * sizeof *commands);
            WANT(commands);
        }
        WANT(read_record(line, &commands[(*count)++]));
    }
    free(line);
    return commands;
}

/* How many trades these replies count. */
static size_t trades_of(const callauction_reply *replies, size_t count) {
    size_t trades = 0;
    for (size_t i = 0; i < count; i++) trades += replies[i].trades;
    return trades;
}

/* Applied one by one after a reset, and from the middle on in a copy, the commands have the same replies. */
static void look_again(callauction_handle *auction, const callauction_command *commands, size_t count,
                       const callauction_reply *replies) {
    callauction_handle copy = {0};
    uint32_t calls;
    size_t applied, middle = count / 2;
    callauction_reply reply, *rest = calloc(count - middle + 1, sizeof *rest);
    WANT(rest && callauction_reset(auction) == CALLAUCTION_DONE);
    for (size_t i = 0; i <= count; i++) {
        if (i == middle) WANT(callauction_clone(auction, &copy) == CALLAUCTION_DONE);
        if (i == count) break;
        WANT(callauction_apply(auction, &commands[i], &reply) == CALLAUCTION_DONE);
        WANT(memcmp(&reply, &replies[i], sizeof reply) == 0);
    }
    WANT(callauction_calls(&copy, &calls) == CALLAUCTION_DONE && calls == middle);
    WANT(callauction_apply_many(&copy, commands + middle, count - middle, rest, count - middle, &applied) == 0);
    WANT(applied == count - middle && memcmp(rest, replies + middle, applied * sizeof *rest) == 0);
    WANT(callauction_close(&copy) == CALLAUCTION_DONE);
    free(rest);
}

/* The trades are read in pieces of three, and are those that the replies count, by their numbers too. */
static void look_at_trades(callauction_handle *auction, size_t wanted) {
    callauction_trade trades[3];
    size_t seen = 0, copied = 3;
    while (copied == 3) {
        WANT(callauction_trades(auction, seen, trades, 3, &copied) == CALLAUCTION_DONE);
        seen += copied;
    }
    WANT(seen == wanted);
}

int main(int count, char **words) {
    callauction_handle auction = {0};
    callauction_config config = config_of(count, words);
    size_t records, applied;
    callauction_command *commands = read_all(stdin, &records);
    if (records > config.max_calls) {
        fprintf(stderr, "record %" PRIu32 ": too many commands\n", config.max_calls + 1);
        return 1;
    }
    callauction_reply *replies = calloc(records + 1, sizeof *replies);
    WANT(replies && callauction_open(&auction, &config) == CALLAUCTION_DONE);
    WANT(callauction_apply_many(&auction, commands, records, replies, records, &applied) == 0 && applied == records);
    for (size_t i = 0; i < records; i++) {
        printf("%zu: ", i + 1);
        print_reply(stdout, &replies[i]);
        putchar('\n');
    }
    look_at_trades(&auction, trades_of(replies, records));
    look_again(&auction, commands, records, replies);
    WANT(callauction_close(&auction) == CALLAUCTION_DONE);
    free(commands);
    free(replies);
    return 0;
}
