/* A message as the calls take it: its first CHZ_MESSAGE bytes and its data, a buffer each. */
#ifndef MESSAGES_H
#define MESSAGES_H

#include "chozukpima.h"
#include "lent.h"

/* What lent buffers hold before something is read or written into them. */
enum { FILLING = 0xEE };

extern struct lent payload, message, data, room;

/* How many bytes of data a message says; never more than the struct has. */
size_t data_said(const chz_message *m);

/* A message to hand in. No more of its data is lent than it says: a look behind that is a look at the page. */
void lend_message(const chz_message *m);

/* A payload, spelled, and filled buffers to read it into. */
void lend_payload(const char *spelled);
void expect_message(const chz_message *m);

/* The calls on what is lent. */
uint64_t read_lent(void);
uint64_t write_lent(void);

/* What a payload, spelled, is read as. */
chz_message message_of(const char *payload);

/* The same message: every byte that its command does not have is garbage, and so is the data behind what it says and, of a downlink,
 * what stands in the places that it does not use. */
chz_message with_garbage(const chz_message *m, uint8_t garbage);

#endif
