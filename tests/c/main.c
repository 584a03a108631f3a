/* The calls from outside, by hand: the documents' examples and each refusal of each call. All of it twice: as the program
 * starts, and with subnormal numbers taken for zero and numbers rounded downward, as a host may run; no answer may depend on that.
 * The last line is 'N passed, M failed'. */
#include "cases.h"
#include "lent.h"

static void all_groups(void)
{
    frames();
    reads();
    commands();
    writes();
    marks();
    data_lengths();
    chained();
    steps();
    refused_steps();
    changes();
    meters();
    refused_meters();
    reals();
    nothing();
    names();
    downlinks();
    downlink_limits();
    downlink_steps();
    places();
    choices();
    refused_queues();
    filling();
    traces();
    refused_traces();
}

int main(void)
{
    prepare_cases();
    all_groups();
    set_mode(DENORMALS_ARE_ZERO | FLUSH_TO_ZERO | ROUND_DOWN);
    all_groups();
    return end_cases();
}
