/* Composed locks of one to five levels: each call at each standing, where one thread comes to it, refused texts, and threads that exclude
 * one another. */
#include <clof.h>
#include <inttypes.h>
#include <pthread.h>
#include <stdio.h>
#include <stdlib.h>

#define MACHINE "Package:2 Core:4 PU:2"
#define DEEP "Package:2 L3Cache:2 L2Cache:2 Core:1 PU:2"

static const clof_plan plans[] = {
    {MACHINE, "machine", "mcs", "9"},
    {MACHINE, "package,machine", "tkt-mcs", "9"},
    {MACHINE, "core,machine", "hem-clh", "3"},
    {MACHINE, "core,machine", "", "1"},
    {MACHINE, "core,package,machine", "tkt-hem-mcs", "3"},
    {MACHINE, "pu,core,package,machine", "mcs-tkt-hem-clh", "3"},
    {DEEP, "core,l2,l3,package,machine", "hem-tkt-mcs-clh-hem", "3"},
};

static const uint32_t pus[] = {0, 15, 1, 8, 2, 9, 3, 10, 4, 11, 5, 12, 6, 13, 7, 14};

#define IS(call, code) is((call), (code), #call, __LINE__)

static void is(uint32_t got, uint32_t wanted, const char *call, int line)
{
    if (got != wanted) {
        fprintf(stderr, "line %d: %s: %s, and not %s\n", line, call, clof_text(got), clof_text(wanted));
        exit(1);
    }
}

/* What no caller at this standing may do. */
static void misuse(clof_composed_caller *caller, int idle, int queued, int holding, uint32_t wrong)
{
    if (!idle) {
        IS(clof_composed_begin(caller), wrong);
        IS(clof_composed_enter(caller), wrong);
        IS(clof_composed_free(caller), wrong);
    }
    if (!queued) {
        IS(clof_composed_poll(caller), wrong);
    }
    if (!holding) {
        IS(clof_composed_begin_release(caller), wrong);
    }
    IS(clof_composed_poll_release(caller), wrong);
}

static void one_thread(const clof_plan *plan)
{
    clof_composed_caller callers[2] = {{NULL}, {NULL}};
    clof_numbers numbers = {7, 7};
    misuse(&callers[0], 0, 0, 0, CLOF_EMPTY);
    IS(clof_make_composed(plan, pus, callers, 0, &numbers), CLOF_REFUSED);
    IS(clof_make_composed(plan, pus, callers, 2, &numbers), CLOF_DONE);
    IS(clof_make_composed(plan, pus, callers, 2, &numbers), CLOF_IN_USE);
    misuse(&callers[0], 1, 0, 0, CLOF_ELSEWHERE);
    IS(clof_composed_acquire(&callers[0]), CLOF_DONE);
    misuse(&callers[0], 0, 0, 1, CLOF_ELSEWHERE);
    IS(clof_composed_enter(&callers[1]), CLOF_NOT_YET);
    misuse(&callers[1], 0, 1, 0, CLOF_ELSEWHERE);
    IS(clof_composed_poll(&callers[1]), CLOF_NOT_YET);
    uint32_t left = clof_composed_begin_release(&callers[0]);
    uint32_t polls = 0;
    uint32_t code = clof_composed_poll(&callers[1]);
    while ((code == CLOF_NOT_YET || left == CLOF_NOT_YET) && polls++ < 100) {
        if (left == CLOF_NOT_YET) {
            left = clof_composed_poll_release(&callers[0]);
        }
        if (code == CLOF_NOT_YET) {
            code = clof_composed_poll(&callers[1]);
        }
    }
    IS(left, CLOF_DONE);
    IS(code, CLOF_DONE);
    IS(clof_composed_release(&callers[1]), CLOF_DONE);
    for (int k = 0; k < 2; k++) {
        IS(clof_composed_free(&callers[k]), CLOF_DONE);
        IS(clof_composed_free(&callers[k]), CLOF_EMPTY);
    }
}

typedef struct refusal {
    clof_plan plan;
    uint32_t code;
    uint64_t first;
    uint64_t second;
} refusal;

static const refusal refusals[] = {
    {{"", "machine", "mcs", "9"}, CLOF_DESCRIPTION_EMPTY, 0, 0},
    {{"Package:2 Cores:2 PU:1", "machine", "mcs", "9"}, CLOF_BAD_TYPE, 10, 0},
    {{"PU:2(indexes=1,1)", "machine", "mcs", "9"}, CLOF_INDEX_TWICE, 1, 0},
    {{MACHINE, "core,die,machine", "", "9"}, CLOF_LEVEL_UNKNOWN, 1, 0},
    {{MACHINE, "package,machine", "mcs-tas", "9"}, CLOF_LOCK_UNKNOWN, 1, 0},
    {{MACHINE, "package,machine", "mcs", "9"}, CLOF_LENGTHS, 2, 1},
    {{"Package:1 Core:1 PU:1", "machine", "mcs", "9"}, CLOF_NO_PU, 1, 0},
    {{DEEP, "pu,core,l2,l3,package,machine", "", "9"}, CLOF_TOO_DEEP, 0, 0},
};

static void refused(const refusal *wanted)
{
    clof_composed_caller callers[2] = {{NULL}, {NULL}};
    clof_numbers numbers = {7, 7};
    IS(clof_make_composed(&wanted->plan, pus, callers, 2, &numbers), wanted->code);
    if (numbers.first != wanted->first || numbers.second != wanted->second) {
        fprintf(stderr, "%s: %" PRIu64 ", %" PRIu64 "\n", clof_text(wanted->code), numbers.first, numbers.second);
        exit(1);
    }
    IS(clof_composed_begin(&callers[0]), CLOF_EMPTY);
}

enum { MOST = 16 };

static uint64_t number;
static int inside;
static int holds;

static void *add(void *argument)
{
    clof_composed_caller *caller = (clof_composed_caller *)argument;
    for (int hold = 0; hold < holds; hold++) {
        IS(clof_composed_acquire(caller), CLOF_DONE);
        if (inside != 0) {
            abort();
        }
        inside = 1;
        number += 1;
        inside = 0;
        IS(clof_composed_release(caller), CLOF_DONE);
    }
    return NULL;
}

static void many_threads(const clof_plan *plan, int count)
{
    clof_composed_caller callers[MOST];
    clof_numbers numbers;
    pthread_t threads[MOST];
    memset(callers, 0, sizeof callers);
    number = 0;
    IS(clof_make_composed(plan, pus, callers, (size_t)count, &numbers), CLOF_DONE);
    for (int k = 0; k < count; k++) {
        if (pthread_create(&threads[k], NULL, add, &callers[k]) != 0) {
            exit(1);
        }
    }
    for (int k = 0; k < count; k++) {
        pthread_join(threads[k], NULL);
    }
    for (int k = 0; k < count; k++) {
        IS(clof_composed_free(&callers[k]), CLOF_DONE);
    }
    if (number != (uint64_t)count * (uint64_t)holds) {
        fprintf(stderr, "%" PRIu64 "\n", number);
        exit(1);
    }
}

int main(int count, char **words)
{
    holds = count > 1 ? atoi(words[1]) : 20000;
    for (size_t k = 0; k < sizeof plans / sizeof plans[0]; k++) {
        one_thread(&plans[k]);
        many_threads(&plans[k], 2);
        many_threads(&plans[k], 4);
        many_threads(&plans[k], MOST);
        printf("%s, %s: ok\n", plans[k].levels, plans[k].locks);
    }
    for (size_t k = 0; k < sizeof refusals / sizeof refusals[0]; k++) {
        refused(&refusals[k]);
    }
    printf("refused texts: ok\n");
    return 0;
}
