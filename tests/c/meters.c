/* A table's life: each call, its answer, and the one row that it may change. */
#include <string.h>

#include "cases.h"
#include "columns.h"

enum { NO_ROW = ROWS };
struct row { uint8_t used; uint64_t eui; uint16_t sh_addr; uint32_t last; uint64_t heard; };

/* One table goes through all of them, one after the other. Meters 7 and 8 share the short address 1. */
static const struct {
    const char *name;
    enum table_call call;
    struct handed handed;
    uint64_t answer;
    int changed; /* which row holds the following afterwards; every other row stays */
    struct row row;
} cases[] = {
    { "find in an empty table", FIND, { 7, 0, 0, 0 }, ANSWER(CHZ_NO_ROW, 0, 0), NO_ROW, { 0 } },
    { "enrol 7", ENROL, { 7, 1, 100, 0 }, ANSWER(0, 0, 0), 0, { 1, 7, 1, 100, 0 } },
    { "enrol 8 with the same short address", ENROL, { 8, 1, 100, 0 }, ANSWER(0, 0, 1), 1, { 1, 8, 1, 100, 0 } },
    { "enrol 7 again", ENROL, { 7, 2, 0, 0 }, ANSWER(CHZ_ALREADY_ENROLLED, 0, 0), NO_ROW, { 0 } },
    { "find 8", FIND, { 8, 0, 0, 0 }, ANSWER(0, 0, 1), NO_ROW, { 0 } },
    { "an equal counter after enrolment is stale", UPLINK, { 7, 0, 100, 0 }, ANSWER(CHZ_STALE, 0, 0), NO_ROW, { 0 } },
    { "a lower counter", UPLINK, { 7, 0, 99, 0 }, ANSWER(CHZ_STALE, 0, 0), NO_ROW, { 0 } },
    { "a new packet of 8 is credited to 8 alone", UPLINK, { 8, 0, 101, 3 }, CREDITED(CHZ_NEW, 1, 1), 1, { 1, 8, 1, 101, 8 } },
    { "the same counter of 7 is a packet of its own", UPLINK, { 7, 0, 101, 0 }, CREDITED(CHZ_NEW, 1, 0), 0, { 1, 7, 1, 101, 1 } },
    { "heard by one more station", UPLINK, { 7, 0, 101, 63 }, CREDITED(CHZ_COPY, 2, 0), 0, { 1, 7, 1, 101, 0x8000000000000001 } },
    { "heard by the same station again", UPLINK, { 7, 0, 101, 63 }, CREDITED(CHZ_COPY, 2, 0), 0, { 1, 7, 1, 101, 0x8000000000000001 } },
    { "a new packet forgets who heard the last", UPLINK, { 7, 0, UINT32_MAX, 5 }, CREDITED(CHZ_NEW, 1, 0), 0, { 1, 7, 1, UINT32_MAX, 32 } },
    { "the packet before it", UPLINK, { 7, 0, 101, 5 }, ANSWER(CHZ_STALE, 0, 0), NO_ROW, { 0 } },
    { "an unknown meter", UPLINK, { 9, 0, 1, 0 }, ANSWER(CHZ_NO_ROW, 0, 0), NO_ROW, { 0 } },
    { "a short address is no meter", UPLINK, { 1, 0, 200, 0 }, ANSWER(CHZ_NO_ROW, 0, 0), NO_ROW, { 0 } },
    { "station 64 before an unknown meter", UPLINK, { 9, 0, 1, 64 }, ANSWER(CHZ_STATION_NUMBER, 0, 0), NO_ROW, { 0 } },
    { "station 255", UPLINK, { 7, 0, 200, 255 }, ANSWER(CHZ_STATION_NUMBER, 0, 0), NO_ROW, { 0 } },
    { "station 256", UPLINK, { 7, 0, 200, 256 }, ANSWER(CHZ_STATION_NUMBER, 0, 0), NO_ROW, { 0 } },
    { "station 259 is not station 3", UPLINK, { 7, 0, 200, 259 }, ANSWER(CHZ_STATION_NUMBER, 0, 0), NO_ROW, { 0 } },
    { "station 2^32", UPLINK, { 7, 0, 200, UINT64_C(1) << 32 }, ANSWER(CHZ_STATION_NUMBER, 0, 0), NO_ROW, { 0 } },
    { "station 2^63", UPLINK, { 7, 0, 200, UINT64_C(1) << 63 }, ANSWER(CHZ_STATION_NUMBER, 0, 0), NO_ROW, { 0 } },
    { "station 2^64 - 1", UPLINK, { 7, 0, 200, UINT64_MAX }, ANSWER(CHZ_STATION_NUMBER, 0, 0), NO_ROW, { 0 } },
    { "enrol 9", ENROL, { 9, 65535, 0, 0 }, ANSWER(0, 0, 2), 2, { 1, 9, 65535, 0, 0 } },
    { "packet 0 is never credited", UPLINK, { 9, 0, 0, 1 }, ANSWER(CHZ_STALE, 0, 0), NO_ROW, { 0 } },
    { "packet 1 is, in the last row", UPLINK, { 9, 0, 1, 1 }, CREDITED(CHZ_NEW, 1, 2), 2, { 1, 9, 65535, 1, 2 } },
    { "enrol into a full table", ENROL, { 10, 0, 0, 0 }, ANSWER(CHZ_NO_FREE_ROW, 0, 0), NO_ROW, { 0 } },
    { "already enrolled before no free row", ENROL, { 9, 0, 0, 0 }, ANSWER(CHZ_ALREADY_ENROLLED, 0, 0), NO_ROW, { 0 } },
    { "withdraw 8 clears its mark and nothing else", WITHDRAW, { 8, 0, 0, 0 }, ANSWER(0, 0, 1), 1, { 0, 8, 1, 101, 8 } },
    { "withdraw 8 again", WITHDRAW, { 8, 0, 0, 0 }, ANSWER(CHZ_NO_ROW, 0, 0), NO_ROW, { 0 } },
    { "a packet of a withdrawn meter", UPLINK, { 8, 0, 102, 0 }, ANSWER(CHZ_NO_ROW, 0, 0), NO_ROW, { 0 } },
    { "enrol takes the lowest free row, heard by nobody", ENROL, { 10, 4, 5, 0 }, ANSWER(0, 0, 1), 1, { 1, 10, 4, 5, 0 } },
};

static void put(struct columns *table, size_t at, const struct row *row)
{
    table->used[at] = row->used;
    table->eui[at] = row->eui;
    table->sh_addr[at] = row->sh_addr;
    table->last[at] = row->last;
    table->heard[at] = row->heard;
}

void meters(void)
{
    static const size_t rows[COLUMNS] = { ROWS, ROWS, ROWS, ROWS, ROWS };
    struct columns table;
    memset(&table, 0, sizeof table);
    for (size_t i = 0; i < COUNT(cases); i++) {
        start(cases[i].name);
        lend_columns(&table, rows);
        if (cases[i].changed != NO_ROW) put(&table, (size_t)cases[i].changed, &cases[i].row);
        expect_columns(&table);
        JUDGE(call_table(cases[i].call, &cases[i].handed), cases[i].answer, ALL_COLUMNS);
    }
}
