/*
 * The work of crates/lock_bench by the same atomic steps in C: each thread takes the lock as often as asked and adds one to a number. Each
 * step is a sequentially consistent operation on one word, each pass has a line of its own, and a wait pauses as the locks' waits do. What
 * is left of the difference to lock_bench is what the proof costs, and of the difference to Concurrency Kit what the order costs. It
 * prints the lock, the number of threads and the number at the end.
 *
 *   cc -O2 -pthread -o sc_locks sc_locks.c && ./sc_locks mcs 4 1000000
 *
 * The locks are ticket, mcs, clh and hemlock, each with a c behind its name where callers count themselves while they wait.
 */
#include <pthread.h>
#include <sched.h>
#include <stdatomic.h>
#include <stdbool.h>
#include <stdint.h>
#include <stdio.h>
#include <stdlib.h>
#include <string.h>

#define LINE 128
#define MOST 64
#define EARLY_POLLS 100
#define MOST_SPINS_LOG 6
#define MOST_YIELDS_LOG 10

typedef _Atomic uint64_t Word;

/* The words of a pass, or of a node; the first and the second one where a lock needs two. Names count from 1, and 0 names none. */
typedef struct { _Alignas(LINE) Word first; Word second; } Line;

static Line waiting, tail, serving, lines[MOST + 1];
static struct { _Alignas(LINE) volatile uint64_t value; } number;
static uint64_t holds;
static bool counts;

typedef struct { unsigned early, step; } Pauses;

static const Pauses NO_PAUSE = { EARLY_POLLS, 0 };

/* Behind the early polls, with a single pause each, the pauses grow, and then yield the processor. */
static void pause_once(Pauses *pauses)
{
    if (pauses->early > 0) {
        pauses->early--;
        pauses->step = 0;
    }
    if (pauses->step <= MOST_SPINS_LOG) {
        for (unsigned i = 0; i < 1u << pauses->step; i++) __builtin_ia32_pause();
    } else {
        sched_yield();
    }
    if (pauses->step <= MOST_YIELDS_LOG) pauses->step++;
}

static void wait_for(Word *word, uint64_t wanted)
{
    for (Pauses pauses = NO_PAUSE; atomic_load(word) != wanted;) pause_once(&pauses);
}

static void announce(void)
{
    if (counts) atomic_fetch_add(&waiting.first, 1);
}

static void withdraw(void)
{
    if (counts) atomic_fetch_sub(&waiting.first, 1);
}

static void *by_ticket(void *unused)
{
    (void)unused;
    for (uint64_t i = 0; i < holds; i++) {
        announce();
        uint64_t ticket = atomic_fetch_add(&tail.first, 1);
        wait_for(&serving.first, ticket);
        withdraw();
        number.value++;
        atomic_store(&serving.first, ticket + 1);
    }
    return NULL;
}

/* The first word is the link, the second tells whether the pass is locked out. */
static void *by_mcs(void *own)
{
    Line *line = own;
    uint64_t name = (uint64_t)(line - lines) + 1, successor;
    for (uint64_t i = 0; i < holds; i++) {
        announce();
        atomic_store(&line->first, 0);
        atomic_store(&line->second, 1);
        uint64_t predecessor = atomic_exchange(&tail.first, name);
        if (predecessor != 0) {
            atomic_store(&lines[predecessor - 1].first, name);
            wait_for(&line->second, 0);
        }
        withdraw();
        number.value++;
        if ((successor = atomic_load(&line->first)) == 0) {
            uint64_t found = name;
            if (atomic_compare_exchange_strong(&tail.first, &found, 0)) continue;
            for (Pauses pauses = NO_PAUSE; (successor = atomic_load(&line->first)) == 0;) pause_once(&pauses);
        }
        atomic_store(&lines[successor - 1].second, 0);
    }
    return NULL;
}

/* The first word is a node's flag: 1 is pending, 0 granted. The tail names a node by its index. */
static void *by_clh(void *own)
{
    uint64_t node = (uint64_t)((Line *)own - lines);
    for (uint64_t i = 0; i < holds; i++) {
        announce();
        atomic_store(&lines[node].first, 1);
        uint64_t watched = atomic_exchange(&tail.first, node);
        wait_for(&lines[watched].first, 0);
        withdraw();
        number.value++;
        atomic_store(&lines[node].first, 0);
        node = watched;
    }
    return NULL;
}

/* The first word is the grant. */
static void *by_hemlock(void *own)
{
    Line *line = own;
    uint64_t name = (uint64_t)(line - lines) + 1;
    for (uint64_t i = 0; i < holds; i++) {
        announce();
        uint64_t predecessor = atomic_exchange(&tail.first, name), found = name;
        if (predecessor != 0) {
            wait_for(&lines[predecessor - 1].first, 1);
            atomic_store(&lines[predecessor - 1].first, 0);
        }
        withdraw();
        number.value++;
        if (!atomic_compare_exchange_strong(&tail.first, &found, 0)) {
            atomic_store(&line->first, 1);
            wait_for(&line->first, 0);
        }
    }
    return NULL;
}

int main(int argc, char **argv)
{
    pthread_t thread[MOST];
    void *(*work)(void *);
    int threads = argc == 4 ? atoi(argv[2]) : 0;
    if (threads < 1 || threads > MOST) {
        fprintf(stderr, "usage: sc_locks ticket[c]|mcs[c]|clh[c]|hemlock[c] THREADS HOLDS\n");
        return 2;
    }
    size_t length = strlen(argv[1]);
    counts = length > 0 && argv[1][length - 1] == 'c';
    length -= counts;
    if (length == 6 && strncmp(argv[1], "ticket", length) == 0) work = by_ticket;
    else if (length == 3 && strncmp(argv[1], "mcs", length) == 0) work = by_mcs;
    else if (length == 3 && strncmp(argv[1], "clh", length) == 0) work = by_clh;
    else if (length == 7 && strncmp(argv[1], "hemlock", length) == 0) work = by_hemlock;
    else { fprintf(stderr, "there is no %s\n", argv[1]); return 2; }
    if (work == by_clh) atomic_store(&tail.first, threads);
    holds = strtoull(argv[3], NULL, 10);
    for (int t = 1; t < threads; t++) pthread_create(&thread[t], NULL, work, &lines[t]);
    work(&lines[0]);
    for (int t = 1; t < threads; t++) pthread_join(thread[t], NULL);
    printf("%s %d %llu\n", argv[1], threads, (unsigned long long)number.value);
    return 0;
}
