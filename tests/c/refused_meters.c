/* Table calls on columns of unequal length (24 before all else), on no rows at all and on a used mark other than 1. */
#include <string.h>

#include "cases.h"
#include "columns.h"

static const struct columns table = { { 1, 0, 255 }, { 7, 8, 9 }, { 1, 1, 1 }, { 100, 100, 100 }, { 0, 1, 2 } };

/* Each column a row shorter than the others, in each call. The station is out of range too: 24 comes first. */
static void each_unequal(void)
{
    for (int i = 0; i < 4 * COLUMNS; i++) {
        size_t rows[COLUMNS] = { ROWS, ROWS, ROWS, ROWS, ROWS };
        rows[i / 4]--;
        start("columns of unequal length");
        lend_columns(&table, rows);
        JUDGE(call_table((enum table_call)(i % 4), &(struct handed){ 7, 1, 101, 64 }), ANSWER(CHZ_UNEQUAL_COLUMNS, 0, 0), ALL_COLUMNS);
    }
}

static void no_rows(void)
{
    static const size_t none[COLUMNS] = { 0 };
    static const unsigned refused[] = { [FIND] = CHZ_NO_ROW, [ENROL] = CHZ_NO_FREE_ROW, [WITHDRAW] = CHZ_NO_ROW, [UPLINK] = CHZ_NO_ROW };
    for (int call = FIND; call <= UPLINK; call++) {
        start("a table of no rows");
        lend_columns(&table, none);
        JUDGE(call_table((enum table_call)call, &(struct handed){ 7, 1, 101, 0 }), ANSWER(refused[call], 0, 0), ALL_COLUMNS);
    }
}

/* A row is used if its mark is not 0; a free row's EUI is nobody's. */
static void used_marks(void)
{
    static const size_t rows[COLUMNS] = { ROWS, ROWS, ROWS, ROWS, ROWS };
    start("a used mark of 255");
    lend_columns(&table, rows);
    JUDGE(call_table(FIND, &(struct handed){ .meter = 9 }), ANSWER(0, 0, 2), ALL_COLUMNS);
    start("the EUI in a free row");
    JUDGE(call_table(FIND, &(struct handed){ .meter = 8 }), ANSWER(CHZ_NO_ROW, 0, 0), ALL_COLUMNS);
    start("an equal counter with hearers is a copy");
    struct columns after = table;
    after.heard[2] = 3;
    expect_columns(&after);
    JUDGE(call_table(UPLINK, &(struct handed){ .meter = 9, .counter = 100 }), CREDITED(CHZ_COPY, 2, 2), ALL_COLUMNS);
}

void refused_meters(void)
{
    each_unequal();
    no_rows();
    used_marks();
}
