/* Threads that are pinned to the machine's PUs add to one number, under a lock of two levels: one lock in each package below one for the
 * machine. The description of the machine is the program's word, as `lstopo --of synthetic` prints it, or is made of what the system tells. */
#define _GNU_SOURCE
#include <clof.h>
#include <inttypes.h>
#include <pthread.h>
#include <stdio.h>
#include <stdlib.h>
#include <unistd.h>

enum { MOST = 64, HOLDS = 100000 };

typedef struct job {
    clof_composed_caller caller;
    uint32_t pu;
} job;

static uint64_t number;

static void *add(void *argument)
{
    job *mine = (job *)argument;
    cpu_set_t set;
    CPU_ZERO(&set);
    CPU_SET(mine->pu, &set);
    /* The system's numbers are taken to be the logical ones. Where they aren't, or the system has no such processor, the lock is as right,
     * and only hands over in a worse order. */
    pthread_setaffinity_np(pthread_self(), sizeof set, &set);
    for (int hold = 0; hold < HOLDS; hold++) {
        clof_composed_acquire(&mine->caller);
        number += 1;
        clof_composed_release(&mine->caller);
    }
    return NULL;
}

/* Two packages of half the processors each, or one where their number is odd. */
static const char *this_machine(long processors)
{
    static char text[64];
    long packages = processors % 2 == 0 ? 2 : 1;
    snprintf(text, sizeof text, "Package:%ld PU:%ld", packages, processors / packages);
    return text;
}

int main(int count, char **words)
{
    static job jobs[MOST];
    clof_composed_caller callers[MOST] = {{NULL}};
    uint32_t pus[MOST];
    pthread_t threads[MOST];
    long processors = sysconf(_SC_NPROCESSORS_ONLN);
    if (processors < 1) {
        processors = 1;
    }
    size_t callers_wanted = processors < MOST ? (size_t)processors : MOST;
    clof_plan plan = {count > 1 ? words[1] : this_machine(processors), "package,machine", "tkt-mcs", "16"};
    clof_numbers numbers = {0, 0};
    for (size_t k = 0; k < callers_wanted; k++) {
        pus[k] = (uint32_t)k;
    }
    uint32_t code = clof_make_composed(&plan, pus, callers, callers_wanted, &numbers);
    if (code != CLOF_DONE) {
        fprintf(stderr, "%s: %s (%" PRIu64 ", %" PRIu64 ")\n", plan.description, clof_text(code), numbers.first, numbers.second);
        return 1;
    }
    for (size_t k = 0; k < callers_wanted; k++) {
        jobs[k].caller = callers[k];
        jobs[k].pu = pus[k];
        if (pthread_create(&threads[k], NULL, add, &jobs[k]) != 0) {
            return 1;
        }
    }
    for (size_t k = 0; k < callers_wanted; k++) {
        pthread_join(threads[k], NULL);
        clof_composed_free(&jobs[k].caller);
    }
    printf("%s: %" PRIu64 "\n", plan.description, number);
    return number == (uint64_t)callers_wanted * HOLDS ? 0 : 1;
}
