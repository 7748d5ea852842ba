/* See clients.h. */
#include "clients.h"
#include <stdlib.h>
#include <string.h>

struct clients {
    uint32_t last;    /* the greatest id whose number was given */
    uint32_t handles; /* how many have it */
    uint8_t busy;     /* whether a call has it */
    uint64_t by_id[]; /* nothing is behind the last one: a table as long as a day costs nothing until it is used */
};

enum { TRIES = 32, LONGEST_REST = 6 };

clients *clients_new(uint32_t most, uint32_t handles) {
    clients *made = malloc(sizeof *made + (most + (size_t)1) * sizeof *made->by_id);
    if (!made) return NULL;
    *made = (clients){.handles = handles};
    made->by_id[0] = 0;
    return made;
}

static uint64_t client_of(const clients *table, uint32_t id) { return id <= table->last ? table->by_id[id] : 0; }

void clients_leave(clients *table) {
    if (__atomic_sub_fetch(&table->handles, 1, __ATOMIC_SEQ_CST) == 0) free(table);
}

void clients_clear(clients *table) { table->last = 0; }

void clients_copy(const clients *from, clients *to) {
    memcpy(to->by_id, from->by_id, (from->last + (size_t)1) * sizeof *to->by_id);
    to->last = from->last;
}

void clients_keep(clients *table, const callauction_command *command, const callauction_reply *reply) {
    if (reply->tag != CALLAUCTION_REPLY_ENTERED) return;
    for (; table->last < reply->id; table->last++) table->by_id[table->last + 1] = 0;
    table->by_id[reply->id] = command->client;
}

void clients_of_orders(const clients *table, callauction_order *orders, size_t count) {
    for (size_t i = 0; i < count; i++) orders[i].client = client_of(table, orders[i].id);
}

void clients_of_outcomes(const clients *table, callauction_outcome *outcomes, size_t count) {
    for (size_t i = 0; i < count; i++) outcomes[i].client = client_of(table, outcomes[i].id);
}

void clients_of_entries(const clients *table, callauction_entry *entries, size_t count) {
    for (size_t i = 0; i < count; i++)
        if (entries[i].reply.tag == CALLAUCTION_REPLY_ENTERED)
            entries[i].command.client = client_of(table, entries[i].reply.id);
}

/* Each time twice as long, up to 64 times: who has the table isn't slowed down by who asks for it. */
static void rest(int tries) {
    for (int i = 0; i < 1 << (tries < LONGEST_REST ? tries : LONGEST_REST); i++)
#if defined(__x86_64__)
        __builtin_ia32_pause();
#else
        __asm__ volatile("" ::: "memory");
#endif
}

bool clients_take(clients *table) {
    if (!table) return true;
    for (int tries = 0; tries < TRIES; tries++) {
        if (__atomic_exchange_n(&table->busy, 1, __ATOMIC_SEQ_CST) == 0) return true;
        rest(tries);
    }
    return false;
}

void clients_give_back(clients *table) {
    if (table) __atomic_store_n(&table->busy, 0, __ATOMIC_SEQ_CST);
}
