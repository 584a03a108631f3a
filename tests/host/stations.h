/* Simulated base stations that go by BSSCI's rules: after a resume they send again what has no Rsp, under the same IDs; where the
 * centre says snResume false they discard it. Every second reading opens a window. A downlink under an ID that they know is one that
 * they have. */
#ifndef STATIONS_H
#define STATIONS_H

#include "../../examples/host/host.h"

enum { STATIONS = 4, METERS = HOST_METERS, SHARED = 4, COUNTERS = 2500, DOWNLINKS = 8192, QUEUE = 8192, AT_ONCE = 24, WIRE = 1 << 16 };

struct wire { uint8_t bytes[WIRE]; size_t len; };
void wire_put(struct wire *w, const uint8_t *bytes, size_t len);
void wire_drop(struct wire *w, size_t len);

/* A station: its operations without a Rsp in the order of their IDs; so many of them were sent in this connection. */
struct sim {
    bool connected, open, known;
    int64_t next_id, answered, seen;
    struct { int64_t id; unsigned meter; uint32_t counter; } queue[QUEUE]; /* counter 0: a ping */
    size_t len, sent;
    struct wire up, down;
};
extern struct sim sims[STATIONS];

/* What became of each reading: in the store, and at the stations. */
extern struct fate { unsigned billed, late, answered; bool damaged; } fate[METERS][COUNTERS];
extern uint32_t counters[METERS];

/* And of each downlink, by its queue ID: in the store, and how often a station took it. */
extern struct downlink { bool added, cancelled; unsigned taken; } downlinks[DOWNLINKS];
extern unsigned long discarded;

void sim_connect(struct sim *s);
void sim_send(struct sim *s, bool damaged); /* the next operation; damaged: in a whole frame that can't be read */
void sim_listen(struct sim *s);             /* the next message of the centre */
void sim_break(struct sim *s);              /* what is on its way is lost */
void sims_hear(unsigned meter, unsigned by, bool ping);

#endif
