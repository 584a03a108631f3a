/* A case is prepared once, checked once, and then run as many rounds as asked. */
#ifndef BENCH_H
#define BENCH_H

#include "messages.h"

typedef void bench_rounds(unsigned long rounds);

/* A case as it is, its room of CHZ_ROOM bytes; with a room just long enough; or with a call in place that has the same shape and
 * does nothing. */
enum way { WAY_FULL, WAY_SHORT, WAY_EMPTY };

/* Each prepares a case and answers the function that runs it; NULL if the name is another's. */
typedef bench_rounds *bench_case(const char *what, const char *name, unsigned size, enum way way);
bench_case reads_case, writes_case, tables_case, sessions_case, streams_case, queues_case, traces_case;

/* The calls by their shapes, so that an empty one can stand in for them. */
typedef uint64_t call_read(const uint8_t *payload, size_t payload_len, uint8_t *message, size_t message_len, uint8_t *data,
                           size_t data_len);
typedef uint64_t call_write(const uint8_t *message, size_t message_len, const uint8_t *data, size_t data_len, uint8_t *room,
                            size_t room_len);
typedef uint64_t call_frame(const uint8_t *bytes, size_t bytes_len);
#define UPLINK_COLUMNS                                                                                                     \
    const uint8_t *used, size_t used_len, const uint64_t *eui, size_t eui_len, const uint16_t *sh_addr, size_t sh_addr_len, \
        uint32_t *last, size_t last_len, uint64_t *heard, size_t heard_len
typedef uint64_t call_uplink(UPLINK_COLUMNS, uint64_t meter, uint32_t counter, uint64_t station);
typedef uint64_t call_arrive(uint8_t *session, size_t session_len, const uint8_t *message, size_t message_len, const uint8_t *data,
                             size_t data_len, uint64_t sc_eui, const uint8_t *uuid, size_t uuid_len, const uint8_t *sign,
                             size_t sign_len, uint8_t *room, size_t room_len);
typedef uint64_t call_begin(uint8_t *session, size_t session_len, const uint8_t *message, size_t message_len, const uint8_t *data,
                            size_t data_len, uint8_t *room, size_t room_len);
typedef uint64_t call_lost(uint8_t *session, size_t session_len);
typedef uint64_t call_add(uint8_t *queue, size_t queue_len, const uint8_t *message, size_t message_len, const uint8_t *data,
                          size_t data_len);
typedef uint64_t call_cancel(uint8_t *queue, size_t queue_len, uint64_t que_id);
typedef uint64_t call_choose(uint8_t *queue, size_t queue_len, uint64_t meter, uint32_t counter, uint8_t expected);
typedef uint64_t call_sound(const uint8_t *queue, size_t queue_len);
call_read empty_read;
call_write empty_write;
call_frame empty_frame;
call_uplink empty_uplink;
call_arrive empty_arrive;
call_begin empty_begin;
call_lost empty_lost;
call_add empty_add;
call_cancel empty_cancel;
call_choose empty_choose;
call_sound empty_sound;

/* The queue's calls once more, as a C programmer writes them: they take what they are handed for good. */
call_add plain_add;
call_cancel plain_cancel;
call_choose plain_choose;

/* A message as the calls take it: its bytes in front of the data, and the data. */
#define IMAGE_IN(m) (const uint8_t *)&(m), CHZ_MESSAGE, (m).data, CHZ_DATA
#define IMAGE_OUT(m) (uint8_t *)&(m), CHZ_MESSAGE, (m).data, CHZ_DATA

/* The meter table. */
#define ROWS_MOST 38000
extern uint8_t used[ROWS_MOST];
extern uint64_t eui[ROWS_MOST], heard[ROWS_MOST];
extern uint16_t sh_addr[ROWS_MOST];
extern uint32_t last[ROWS_MOST];
#define COLUMNS(rows) used, rows, eui, rows, sh_addr, rows, last, rows, heard, rows
void table_fill(size_t rows);
uint64_t table_meter(size_t row);

/* What the centre lends to chz_arrive, and a session brought to its opening: con and conCmp, as a station sends them. */
extern const uint64_t centre;
extern const uint8_t uuid[16], sign[4];
void session_open(chz_session *session);

/* How many bytes a round goes down the stack; and a check that this finds the depth of a call whose depth is known. */
size_t stack_depth(bench_rounds *run);
void stack_check(void);

#endif
