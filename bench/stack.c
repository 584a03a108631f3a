/* The stack that a round takes: a stretch of it is painted, the round run, and the lowest byte that lost its paint shows how deep
 * the round went. */
#include "bench.h"

#define STRETCH 65536
#define PAINT 0xA5
#define KNOWN 1000

/* Paints below its own frame, and looks there, in one function: a callee's frame would lie in the stretch. It is aligned, so that
 * a call that aligns its own frame goes equally deep in every run. */
static __attribute__((noinline)) size_t painted_depth(bench_rounds *run, uint8_t paint)
{
    _Alignas(64) volatile uint8_t anchor[64];
    volatile uint8_t *top;
    anchor[0] = paint;
    __asm__ volatile("mov %%rsp, %0" : "=r"(top));
    for (ptrdiff_t below = 1; below <= STRETCH; below++) top[-below] = anchor[0];
    run(1);
    ptrdiff_t depth = STRETCH;
    while (depth && top[-depth] == anchor[0]) depth--;
    need(depth < STRETCH, "the call goes deeper than the painted stretch");
    return (size_t)depth;
}

/* A byte may be given the very value of the paint, but not of both paints. */
size_t stack_depth(bench_rounds *run)
{
    size_t one = painted_depth(run, PAINT), other = painted_depth(run, (uint8_t)~PAINT);
    return one > other ? one : other;
}

#define TEXT(number) #number
#define TEXT_OF(number) TEXT(number)

/* Takes KNOWN bytes below its return address. It touches only the lowest one, and leaves the first paint's value there. */
static __attribute__((naked)) void known(void)
{
    __asm__("sub $" TEXT_OF(KNOWN) ", %rsp\n\t"
            "movb $" TEXT_OF(PAINT) ", (%rsp)\n\t"
            "add $" TEXT_OF(KNOWN) ", %rsp\n\t"
            "ret");
}

static void nothing(void) {}

static void (*volatile call)(void);

static void rounds_call(unsigned long rounds)
{
    while (rounds--) call();
}

void stack_check(void)
{
    call = known;
    size_t whole = stack_depth(rounds_call);
    call = nothing;
    need(whole == stack_depth(rounds_call) + KNOWN, "the depth of a known call isn't found");
}
