/*
 * Holds of the cohort lock of Concurrency Kit (Debian's libck-dev), a ticket lock a cohort under a ticket lock: each thread takes it as
 * often as asked and, as the holders of plan_bench do where their trail keeps its turns, notes its number behind those of the holds before.
 * With the word `count` it adds one to a number in place of that, as they do where their trail keeps none. Threads fall into cohorts of the
 * same size, in order. It prints the number of cohorts, of threads, and of what was noted. With 0 cohorts the lock is one ticket lock.
 *
 *   cc -O2 -pthread -o ck_cohorts ck_cohorts.c && ./ck_cohorts 2 4 1000000 10
 */
#include <ck_cohort.h>
#include <ck_spinlock.h>
#include <pthread.h>
#include <stdint.h>
#include <stdio.h>
#include <stdlib.h>
#include <string.h>

#define LINE 128
#define MOST 64

static void take(ck_spinlock_ticket_t *lock, void *unused) { (void)unused; ck_spinlock_ticket_lock(lock); }
static void leave(ck_spinlock_ticket_t *lock, void *unused) { (void)unused; ck_spinlock_ticket_unlock(lock); }
static bool taken(ck_spinlock_ticket_t *lock, void *unused) { (void)unused; return ck_spinlock_ticket_locked(lock); }

CK_COHORT_PROTOTYPE(tickets, take, leave, taken, take, leave, taken)

typedef CK_COHORT_INSTANCE(tickets) cohort_lock;

static struct { ck_spinlock_ticket_t lock; } __attribute__((aligned(LINE))) global = { CK_SPINLOCK_TICKET_INITIALIZER }, local[MOST];
static struct { cohort_lock lock; } __attribute__((aligned(LINE))) cohort[MOST];
static struct { uint32_t *callers; uint64_t count; } __attribute__((aligned(LINE))) roll;
static struct caller { cohort_lock *cohort; uint32_t number; } __attribute__((aligned(LINE))) callers[MOST];

static uint64_t holds;

static void note(uint32_t number)
{
    if (roll.callers != NULL) roll.callers[roll.count] = number;
    roll.count++;
}

static void *by_cohort(void *argument)
{
    struct caller *own = argument;
    for (uint64_t i = 0; i < holds; i++) {
        CK_COHORT_LOCK(tickets, own->cohort, NULL, NULL);
        note(own->number);
        CK_COHORT_UNLOCK(tickets, own->cohort, NULL, NULL);
    }
    return NULL;
}

static void *by_ticket(void *argument)
{
    struct caller *own = argument;
    for (uint64_t i = 0; i < holds; i++) {
        ck_spinlock_ticket_lock(&global.lock);
        note(own->number);
        ck_spinlock_ticket_unlock(&global.lock);
    }
    return NULL;
}

int main(int argc, char **argv)
{
    pthread_t thread[MOST];
    bool counts = argc == 6 && strcmp(argv[5], "count") == 0;
    int cohorts = argc == 5 || counts ? atoi(argv[1]) : -1, threads = argc == 5 || counts ? atoi(argv[2]) : 0;
    if (cohorts < 0 || cohorts > MOST || threads < 1 || threads > MOST || (cohorts > 0 && threads % cohorts != 0)) {
        fprintf(stderr, "usage: ck_cohorts COHORTS THREADS HOLDS KEEP [count]\n");
        return 2;
    }
    holds = strtoull(argv[3], NULL, 10);
    if (!counts) roll.callers = calloc(holds * threads, sizeof *roll.callers);
    if (!counts && roll.callers == NULL) {
        fprintf(stderr, "ck_cohorts: there is no memory for the callers\n");
        return 1;
    }
    for (int c = 0; c < cohorts; c++) {
        ck_spinlock_ticket_init(&local[c].lock);
        CK_COHORT_INIT(tickets, &cohort[c].lock, &global.lock, &local[c].lock, atoi(argv[4]));
    }
    for (int t = 0; t < threads; t++) {
        callers[t].number = t;
        if (cohorts > 0) callers[t].cohort = &cohort[t / (threads / cohorts)].lock;
        pthread_create(&thread[t], NULL, cohorts == 0 ? by_ticket : by_cohort, &callers[t]);
    }
    for (int t = 0; t < threads; t++) pthread_join(thread[t], NULL);
    printf("%d %d %llu\n", cohorts, threads, (unsigned long long)roll.count);
    return 0;
}
