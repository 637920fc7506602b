/* Runs every call through include/taqwelim.h beside the model: test [FRAMES], the frames through the ring, 100,000 where none are given. Prints what was tried
 * and how much differs; the exit status is 1 where anything does. */
#include "both.h"

#include <stdio.h>
#include <stdlib.h>

static void say(const char *name)
{
    static unsigned long before = 0;
    printf("%s: %lu calls\n", name, calls - before);
    before = calls;
}

/* What the header file lets each call end with; behind the last stand zeros. */
static const struct {
    const char *name;
    uint8_t numbers[10];
} may_give[NUMBER_OF_CALLS] = {
    [PUT] = {"put", {0, 2, 3, 4, 5}},
    [WAITING] = {"waiting", {0, 2, 3}},
    [NEXT_FRAME] = {"next_frame", {0, 1, 2, 3, 6}},
    [OPEN] = {"open", {0, 1, 2, 7, 8, 9, 11, 12, 13}},
    [REPAIR] = {"repair", {0, 1, 2, 8, 12}},
    [APPLY] = {"apply", {0, 2, 3, 11, 14, 15}},
    [ENTRY] = {"entry", {0, 16}},
    [CODE_HEADER] = {"code_header", {0, 2, 6}},
    [READ_HEADER] = {"read_header", {0, 2, 9, 11}},
};

static int may_end(int call, int number)
{
    for (size_t i = 0; i < sizeof may_give[call].numbers; i++)
        if (may_give[call].numbers[i] == number)
            return 1;
    return 0;
}

/* Each call gave each of its numbers at least once, and no other: 10, which is empty, was never given. */
static void compare_given(void)
{
    for (int call = 0; call < NUMBER_OF_CALLS; call++) {
        printf("%s, how often each number:", may_give[call].name);
        for (int number = 0; number < 256; number++)
            if (given[call][number])
                printf(" %d: %lu", number, given[call][number]);
        printf("\n");
        for (int number = 0; number < 256; number++)
            expect((given[call][number] > 0) == may_end(call, number), "each call gives its numbers, and no other");
    }
}

int main(int argc, char **argv)
{
    paint_stacks();
    try_numbers();
    say("numbers to try");
    try_refusals();
    say("refusals");
    try_repair();
    say("repair");
    try_session(5000);
    say("session");
    try_chance(4000);
    say("chance");
    try_ring(argc > 1 ? strtoul(argv[1], NULL, 10) : 100000);
    say("ring");
    try_stacks();
    compare_given();
    printf("headers that open gave and apply got: %lu, of which %lu were refused with 11\n", opened_applied,
           opened_refused_with_11);
    expect(opened_applied > 0 && opened_refused_with_11 == 0, "apply takes every header that open gives");
    printf("%lu calls, %lu comparisons, %lu differences\n", calls, comparisons, differences);
    return differences ? 1 : 0;
}
