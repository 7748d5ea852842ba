/* The callers' own numbers of orders: a command's `client`, kept by the order's id while its auction or board lasts,
 * and written into what lists orders. Nothing else reads one, and nothing of this is proved.
 */
#ifndef CLIENTS_H
#define CLIENTS_H

#include "callauction.h"

typedef struct clients clients;

/* A table for the ids up to `most`, by which each order's number is 0, for as many handles; NULL where memory is
 * refused. */
clients *clients_new(uint32_t most, uint32_t handles);

/* Gives it up for one handle; the last one frees it. */
void clients_leave(clients *table);

/* Each order's number is 0 again. */
void clients_clear(clients *table);

/* `to`, which has as many ids, gets the numbers of `from`. */
void clients_copy(const clients *from, clients *to);

/* Whether a command gives an order a number other than 0. */
static inline bool clients_has(const callauction_command *command) {
    return command->client != 0 && command->tag == CALLAUCTION_COMMAND_ENTER;
}

/* Keeps the number of a command that has one and was replied to so, where it entered an order. */
void clients_keep(clients *table, const callauction_command *command, const callauction_reply *reply);

/* Writes the orders' numbers into structs; in the entries of a history into those that entered an order. */
void clients_of_orders(const clients *table, callauction_order *orders, size_t count);
void clients_of_outcomes(const clients *table, callauction_outcome *outcomes, size_t count);
void clients_of_entries(const clients *table, callauction_entry *entries, size_t count);

/* A board's table is had by one call at a time, from before an order with a number other than 0 is entered until it is
 * kept, and from before orders are listed until their numbers are written: whoever sees an order sees its number. Takes
 * it, unless another call has it at each of 32 tries; of none it takes nothing, and gives nothing back. */
bool clients_take(clients *table);
void clients_give_back(clients *table);

#endif
