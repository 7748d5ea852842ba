/* Two threads, each with a handle of its own, and two handles side by side in one: `threads [ROUNDS]`. */
#include "callauction.h"
#include <pthread.h>
#include <stdio.h>
#include <stdlib.h>
#include <string.h>

enum { COMMANDS = 60000 };
static int rounds = 8;
static const callauction_config config = {1, 1000, 500, 4096, 65536, 0, 0, 0, 0};

typedef struct day {
    uint64_t seed;
    callauction_command commands[COMMANDS];
    callauction_reply replies[COMMANDS], again[COMMANDS];
    bool is_right;
} day;

static uint32_t drawn(uint64_t *seed, uint32_t below) {
    *seed = *seed * 6364136223846793005u + 1442695040888963407u;
    return (uint32_t)(*seed >> 33) % below;
}

static void write_day(day *of) {
    uint64_t seed = of->seed;
    for (int i = 0; i < COMMANDS; i++) {
        callauction_command *command = &of->commands[i];
        memset(command, 0, sizeof *command);
        command->tag = (uint8_t)(1 + drawn(&seed, 6));
        command->side = (uint8_t)(1 + drawn(&seed, 2));
        command->has_limit = 1;
        command->limit = 450 + drawn(&seed, 100);
        command->quantity = 1 + drawn(&seed, 500);
        command->id = 1 + drawn(&seed, 20000);
        if (i % 20000 == 19999) command->tag = CALLAUCTION_COMMAND_UNCROSS;
    }
}

/* Plays the day in rounds: opened, applied, closed. */
static void *play(void *argument) {
    day *of = argument;
    of->is_right = true;
    for (int round = 0; round < rounds; round++) {
        callauction_handle auction = {0};
        size_t applied = 0;
        of->is_right &= callauction_open(&auction, &config) == CALLAUCTION_DONE;
        of->is_right &= callauction_apply_many(&auction, of->commands, COMMANDS, of->again, COMMANDS, &applied) == 0;
        of->is_right &= applied == COMMANDS && memcmp(of->again, of->replies, sizeof of->replies) == 0;
        of->is_right &= callauction_close(&auction) == CALLAUCTION_DONE;
    }
    return NULL;
}

/* The replies of two days whose commands are applied in turn, each to a handle of its own. */
static bool play_side_by_side(day *one, day *two) {
    callauction_handle first = {0}, second = {0};
    bool is_right = callauction_open(&first, &config) == 0 && callauction_open(&second, &config) == 0;
    for (int i = 0; i < COMMANDS; i++) {
        is_right &= callauction_apply(&first, &one->commands[i], &one->replies[i]) == CALLAUCTION_DONE;
        is_right &= callauction_apply(&second, &two->commands[i], &two->replies[i]) == CALLAUCTION_DONE;
    }
    return is_right && callauction_close(&first) == 0 && callauction_close(&second) == 0;
}

int main(int count, char **words) {
    if (count > 1) rounds = atoi(words[1]);
    static day one = {.seed = 1}, two = {.seed = 2};
    pthread_t first, second;
    write_day(&one);
    write_day(&two);
    if (!play_side_by_side(&one, &two)) return 1;
    if (pthread_create(&first, NULL, play, &one) || pthread_create(&second, NULL, play, &two)) return 2;
    if (pthread_join(first, NULL) || pthread_join(second, NULL)) return 2;
    if (!one.is_right || !two.is_right) {
        fputs("threads: other replies than side by side\n", stderr);
        return 1;
    }
    puts("threads: the replies of two handles side by side");
    return 0;
}
