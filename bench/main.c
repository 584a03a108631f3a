/* bench WHAT NAME SIZE ROUNDS [short|empty]: prepares and checks one case, then runs it that many rounds.
 * bench WHAT NAME SIZE stack [short]: prints the bytes of stack that its call takes. */
#include "bench.h"

#include <stdlib.h>
#include <string.h>

/* memcpy goes by alignment: the calls find the stack aligned in the same way, whatever the arguments and the environment. */
static __attribute__((noinline)) void run_aligned(bench_rounds *run, unsigned long rounds)
{
    _Alignas(64) volatile char anchor[64];
    anchor[0] = 0;
    run(rounds);
    (void)anchor[0];
}

static enum way way_of(const char *word)
{
    if (!word) return WAY_FULL;
    if (!strcmp(word, "short")) return WAY_SHORT;
    need(!strcmp(word, "empty"), "a case is short or empty or neither");
    return WAY_EMPTY;
}

static bench_rounds *prepared(char **words, enum way way)
{
    static bench_case *const kinds[] = { reads_case, writes_case, tables_case, sessions_case, streams_case, queues_case, traces_case };
    bench_rounds *run = NULL;
    for (size_t i = 0; !run && i < sizeof kinds / sizeof *kinds; i++)
        run = kinds[i](words[1], words[2], (unsigned)strtoul(words[3], NULL, 10), way);
    need(run != NULL, "no such case");
    return run;
}

/* The round's own share is taken off with the empty call, which takes its return address and no more. */
static void print_stack(char **words, enum way way)
{
    stack_check();
    size_t whole = stack_depth(prepared(words, way));
    size_t share = stack_depth(prepared(words, WAY_EMPTY)) - sizeof(void *);
    printf("%zu\n", whole - share);
}

int main(int count, char **words)
{
    need(count == 5 || count == 6, "bench WHAT NAME SIZE ROUNDS|stack [short|empty]");
    enum way way = way_of(count == 6 ? words[5] : NULL);
    if (!strcmp(words[4], "stack")) print_stack(words, way);
    else run_aligned(prepared(words, way), strtoul(words[4], NULL, 10));
}
