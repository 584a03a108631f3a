/* One call on a session, with everything it needs lent. */
#ifndef SESSIONS_H
#define SESSIONS_H

#include "chozukpima.h"
#include "lent.h"
#include "messages.h"

extern struct lent session, uuid, sign;

/* All buffers in their right lengths; the message is spelled, or given. */
void lend_session(const chz_session *before, const char *payload);
void lend_session_with(const chz_session *before, const chz_message *m);
uint64_t arrive(void);
uint64_t begin(void);
uint64_t lose(void);
chz_session session_now(void);

/* One of the three, where a table names it. */
enum what { ARRIVES, BEGINS, LOST };
uint64_t take(enum what what);

/* One of them, and what must come of it. A step that is taken may change the session: of that, these three are stated. */
struct step {
    const char *name;
    enum what what;
    const char *message;
    unsigned refused, happened;
    const char *sent; /* NULL: nothing */
    int state;
    int64_t highest, lowest;
};

/* A new session goes through all of them, one after the other. In every byte that a message's command does not have stands garbage. */
void live(const struct step *steps, size_t count, uint8_t garbage);

/* A session that is open and has nothing else; and sixteen places taken, under multiples of an ID. */
chz_session open_session(void);
void fill_places(int64_t *ids, uint8_t *kinds, int64_t step);

#define ALL_OF_SESSION &session, &message, &data, &uuid, &sign, &room

#endif
