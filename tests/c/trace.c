#include "trace.h"

#include "spell.h"

struct lent time_sum, frame, bytes;

void lend_time(uint64_t sum)
{
    lend(&time_sum, &sum, sizeof sum);
}

void expect_time(uint64_t sum)
{
    expect(&time_sum, 0, &sum, sizeof sum);
}

static void lend_spelled(struct lent *l, const char *spelled)
{
    uint8_t into[LENT_MOST];
    lend(l, into, spell(spelled, into));
}

void lend_frame(const char *spelled)
{
    lend_spelled(&frame, spelled);
}

void lend_bytes(const char *spelled)
{
    lend_spelled(&bytes, spelled);
}

/* It ends at a page's end, so it stands where a number may stand. */
static uint64_t *lent_time(void)
{
    return (uint64_t *)(void *)time_sum.at;
}

void writes_record(uint64_t gap, uint64_t station, uint64_t answer)
{
    const uint64_t got = chz_record(lent_time(), gap, station, frame.at, frame.len, room.at, room.len);
    JUDGE(got, answer, &time_sum, &frame, &room);
}

void reads_record(uint64_t answer)
{
    JUDGE(chz_recorded(lent_time(), bytes.at, bytes.len), answer, &time_sum, &bytes);
}

void opens_trace(uint64_t answer)
{
    JUDGE(chz_trace_open(bytes.at, bytes.len), answer, &bytes);
}
