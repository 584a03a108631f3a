/* A host around the library: what player.c, or a program with real connections and a database, calls and what it provides. */
#ifndef HOST_H
#define HOST_H

#include <stdbool.h>

#include "chozukpima.h"

enum {
    HOST_STATIONS = 64,
    HOST_METERS = 8, /* a real host has 38,000; the calls are the same */
    HOST_ENROLMENT = 14 /* bytes of a meter in the file of enrolments that goes with a trace */
};

/* One base station. Its place in the array is its station number for good: the table's heard column has a bit for it. */
struct station {
    chz_session session; /* the store has the same, */
    chz_queue queue;     /* and of this: downlinks that wait until their meter opens a window here */
    /* Of this connection alone: */
    bool resumed;   /* it goes on with the stored session, so starts may come again */
    bool unsettled; /* and no new one has come yet */
    uint16_t again; /* places in the session whose start has come again, a bit each */
    uint8_t input[CHZ_INPUT]; /* the longest frame, so an incomplete one always leaves space for more bytes */
    size_t input_len;
};

extern struct station host_stations[HOST_STATIONS];
extern chz_table host_meters;

/* The loop, in host.c. */
void host_start(void); /* before all others: what is known stands in the store */
void host_enrol(uint64_t meter, uint16_t sh_addr, uint32_t last_billed);
void host_withdraw(uint64_t meter);
bool host_bytes(unsigned number, const uint8_t *bytes, size_t len);
void host_lost(unsigned number);
void host_begin(unsigned number, const chz_message *message);
void host_shut(unsigned number, uint64_t meter, uint64_t que_id); /* a valve; the ID is another for each downlink, for good */
void host_cancel(unsigned number, uint64_t que_id);

/* What one transaction stores: all of it, or nothing. */
enum host_list {
    HOST_NO_LIST,
    HOST_BILLS,     /* credited packets */
    HOST_LATE,      /* not credited: a later one was */
    HOST_STRANGERS, /* not credited: no such meter */
    HOST_ASKED,     /* operations of the centre, each until it is answered; a downlink that is started again stands there once */
    HOST_ANSWERED   /* no list: what this message answers is taken off HOST_ASKED, by its ID */
};
#define HOST_NO_ROW SIZE_MAX
#define HOST_NO_PLACE SIZE_MAX
struct change {
    unsigned number;            /* the station */
    const chz_session *session; /* its session; NULL: none */
    size_t row;                 /* a row of host_meters; HOST_NO_ROW: none */
    size_t place;               /* a place of its queue; HOST_NO_PLACE: none */
    enum host_list list;        /* the list that the message is appended to */
    const chz_message *message;
};

/* What the loop needs from around it. player.c has a written conversation for the connections and plain memory for the store. */
bool outside_store(const struct change *change); /* true: it is stored, and outlives a crash */
void outside_load_session(unsigned number, chz_session *session);
void outside_load_row(size_t row); /* into host_meters */
void outside_load_place(unsigned number, size_t place); /* into the station's queue */
bool outside_load_asked(unsigned number, size_t *at, chz_message *message); /* the next of HOST_ASKED, in the order issued */
void outside_uuid(uint8_t uuid[16]);                        /* 16 fresh random bytes */
void outside_sign(const chz_message *det, uint8_t sign[4]); /* from the key store */
void outside_send(unsigned number, const uint8_t *bytes, size_t len);
void outside_close(unsigned number);

/* The trace, for the program replay: two files, which are in no transaction. False: not written, or not whole. */
bool outside_begin_trace(const uint8_t *enrolments, size_t len); /* two new files: these enrolments, and a trace of no bytes yet */
bool outside_record(const uint8_t *bytes, size_t len);           /* at the end of the trace; it outlives the program's end */
uint64_t outside_clock(void);                                    /* nanoseconds, never backwards: CLOCK_MONOTONIC */

#endif
