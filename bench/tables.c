/* The meter table: a new packet of the meter in the last row. */
#include "bench.h"

#include <string.h>

uint8_t used[ROWS_MOST];
uint64_t eui[ROWS_MOST], heard[ROWS_MOST];
uint16_t sh_addr[ROWS_MOST];
uint32_t last[ROWS_MOST];

static size_t rows;
static uint32_t counter;
static call_uplink *volatile call;

uint64_t table_meter(size_t row) { return 0x70B3D50000000001 + row; }

/* Every row is used. */
void table_fill(size_t count)
{
    need(count >= 1 && count <= ROWS_MOST, "no such table");
    for (size_t i = 0; i < count; i++) {
        used[i] = 1;
        eui[i] = table_meter(i);
        sh_addr[i] = (uint16_t)i;
        last[i] = 0;
        heard[i] = 0;
    }
}

static void rounds_uplink(unsigned long rounds)
{
    while (rounds--) call(COLUMNS(rows), table_meter(rows - 1), ++counter, 5);
}

bench_rounds *tables_case(const char *what, const char *name, unsigned size, enum way way)
{
    if (strcmp(what, "uplink")) return NULL;
    (void)name;
    rows = size;
    counter = 0;
    table_fill(rows);
    uint64_t answer = chz_uplink(COLUMNS(rows), table_meter(rows - 1), ++counter, 5);
    need(!chz_refused(answer) && chz_happened(answer) == CHZ_NEW && chz_uplink_hearers(answer) == 1, "chz_uplink doesn't credit");
    need(chz_uplink_row(answer) == rows - 1, "chz_uplink names another row");
    need(last[rows - 1] == 1 && heard[rows - 1] == 1 << 5, "chz_uplink changes another row");
    call = way == WAY_EMPTY ? empty_uplink : chz_uplink;
    return rounds_uplink;
}
