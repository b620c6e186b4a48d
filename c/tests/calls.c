/* Each call at each standing, the order of a forced queue, and threads that exclude one another. */
#include <clof.h>
#include <inttypes.h>
#include <pthread.h>
#include <stdio.h>
#include <stdlib.h>

typedef uint32_t make_lock(clof_caller *, size_t);

static make_lock *const makes[] = {clof_make_ticket, clof_make_mcs, clof_make_clh, clof_make_hemlock};
static const char *const names[] = {"ticket", "mcs", "clh", "hemlock"};

#define IS(call, code) is((call), (code), #call, __LINE__)

static void is(uint32_t got, uint32_t wanted, const char *call, int line)
{
    if (got != wanted) {
        fprintf(stderr, "line %d: %s: %s, and not %s\n", line, call, clof_text(got), clof_text(wanted));
        exit(1);
    }
}

/* What no caller at this standing may do. */
static void misuse(clof_caller *caller, int idle, int queued, int holding, uint32_t wrong)
{
    if (!idle) {
        IS(clof_begin(caller), wrong);
        IS(clof_enter(caller), wrong);
        IS(clof_free(caller), wrong);
    }
    if (!queued) {
        IS(clof_poll(caller), wrong);
    }
    if (!holding) {
        IS(clof_begin_release(caller), wrong);
        IS(clof_waiters(caller), wrong);
    }
    IS(clof_poll_release(caller), wrong);
}

static void one_thread(make_lock *make)
{
    clof_caller callers[3] = {CLOF_CALLER_INIT};
    misuse(&callers[0], 0, 0, 0, CLOF_EMPTY);
    IS(make(callers, 0), CLOF_REFUSED);
    IS(make(callers, 3), CLOF_DONE);
    IS(make(callers, 3), CLOF_IN_USE);
    misuse(&callers[0], 1, 0, 0, CLOF_ELSEWHERE);
    IS(clof_enter(&callers[0]), CLOF_DONE);
    misuse(&callers[0], 0, 0, 1, CLOF_ELSEWHERE);
    IS(clof_waiters(&callers[0]), CLOF_DONE);
    IS(clof_begin(&callers[1]), CLOF_NOT_YET);
    IS(clof_enter(&callers[2]), CLOF_NOT_YET);
    misuse(&callers[1], 0, 1, 0, CLOF_ELSEWHERE);
    IS(clof_waiters(&callers[0]), CLOF_NOT_YET);
    IS(clof_poll(&callers[1]), CLOF_NOT_YET);
    uint32_t left = clof_begin_release(&callers[0]);
    IS(clof_poll(&callers[2]), CLOF_NOT_YET);
    IS(clof_poll(&callers[1]), CLOF_DONE);
    if (left == CLOF_NOT_YET) {
        left = clof_poll_release(&callers[0]);
    }
    IS(left, CLOF_DONE);
    IS(clof_poll(&callers[2]), CLOF_NOT_YET);
    left = clof_begin_release(&callers[1]);
    IS(clof_poll(&callers[2]), CLOF_DONE);
    if (left == CLOF_NOT_YET) {
        left = clof_poll_release(&callers[1]);
    }
    IS(left, CLOF_DONE);
    IS(clof_release(&callers[2]), CLOF_DONE);
    for (int k = 0; k < 3; k++) {
        IS(clof_free(&callers[k]), CLOF_DONE);
        IS(clof_free(&callers[k]), CLOF_EMPTY);
    }
}

enum { MOST = 16 };

static uint64_t number;
static int inside;
static int holds;

static void *add(void *argument)
{
    clof_caller *caller = (clof_caller *)argument;
    for (int hold = 0; hold < holds; hold++) {
        IS(clof_acquire(caller), CLOF_DONE);
        if (inside != 0) {
            abort();
        }
        inside = 1;
        number += 1;
        inside = 0;
        IS(clof_release(caller), CLOF_DONE);
    }
    return NULL;
}

static void many_threads(make_lock *make, int count)
{
    clof_caller callers[MOST] = {CLOF_CALLER_INIT};
    pthread_t threads[MOST];
    number = 0;
    IS(make(callers, (size_t)count), CLOF_DONE);
    for (int k = 0; k < count; k++) {
        if (pthread_create(&threads[k], NULL, add, &callers[k]) != 0) {
            exit(1);
        }
    }
    for (int k = 0; k < count; k++) {
        pthread_join(threads[k], NULL);
    }
    for (int k = 0; k < count; k++) {
        IS(clof_free(&callers[k]), CLOF_DONE);
    }
    if (number != (uint64_t)count * (uint64_t)holds) {
        fprintf(stderr, "%" PRIu64 "\n", number);
        exit(1);
    }
}

int main(int count, char **words)
{
    holds = count > 1 ? atoi(words[1]) : 20000;
    for (size_t k = 0; k < sizeof makes / sizeof makes[0]; k++) {
        one_thread(makes[k]);
        many_threads(makes[k], 2);
        many_threads(makes[k], 4);
        many_threads(makes[k], MOST);
        printf("%s: ok\n", names[k]);
    }
    return 0;
}
