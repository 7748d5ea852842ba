/* Order files as docs/FORMATS.md has them, without quotes, and the lines that their replies are printed as. */
#ifndef ORDERS_H
#define ORDERS_H
#include "callauction.h"
#include <stdio.h>

/* The command of a record; false for a record that is none. */
bool read_record(char *record, callauction_command *command);

/* Prints the text of a reply, without an end of line. */
void print_reply(FILE *to, const callauction_reply *reply);
#endif
