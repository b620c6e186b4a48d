/* Four threads add to one number, each by a caller of its own. */
#include <clof.h>
#include <inttypes.h>
#include <pthread.h>
#include <stdio.h>

enum { THREADS = 4, HOLDS = 100000 };

static uint64_t number;

static void *add(void *argument)
{
    clof_caller *caller = (clof_caller *)argument;
    for (int hold = 0; hold < HOLDS; hold++) {
        clof_acquire(caller);
        number += 1;
        clof_release(caller);
    }
    return NULL;
}

int main(void)
{
    clof_caller callers[THREADS] = {CLOF_CALLER_INIT};
    pthread_t threads[THREADS];
    uint32_t code = clof_make_mcs(callers, THREADS);
    if (code != CLOF_DONE) {
        fprintf(stderr, "%s\n", clof_text(code));
        return 1;
    }
    for (int k = 0; k < THREADS; k++) {
        if (pthread_create(&threads[k], NULL, add, &callers[k]) != 0) {
            return 1;
        }
    }
    for (int k = 0; k < THREADS; k++) {
        pthread_join(threads[k], NULL);
    }
    for (int k = 0; k < THREADS; k++) {
        clof_free(&callers[k]);
    }
    printf("%" PRIu64 "\n", number);
    return number == (uint64_t)THREADS * HOLDS ? 0 : 1;
}
