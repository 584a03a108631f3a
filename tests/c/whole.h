/* A message of each command with all its fields, and what it is spelled as in the writer's form. */
#ifndef WHOLE_H
#define WHOLE_H

#include "chozukpima.h"

struct whole {
    uint8_t command;
    const char *payload;
    unsigned elements;
    void (*fill)(chz_message *);
};

/* Each of the 24 commands, the longest ulData, and two more dlDataQue: the longest message of all, and a plain one. */
enum { WHOLES = 27 };
extern const struct whole wholes[WHOLES];

chz_message whole_message(const struct whole *whole);
const struct whole *whole_of(uint8_t command);

#endif
