/*
 * The work of crates/lock_bench over the locks of Concurrency Kit (Debian's libck-dev): each thread takes the lock as often as asked and
 * adds one to a number. It prints the lock, the number of threads and the number at the end.
 *
 *   cc -O2 -pthread -o ck_locks ck_locks.c && ./ck_locks ticket 4 1000000
 */
#include <ck_spinlock.h>
#include <pthread.h>
#include <stdint.h>
#include <stdio.h>
#include <stdlib.h>
#include <string.h>

#define LINE 128

static struct { ck_spinlock_ticket_t lock; } __attribute__((aligned(LINE))) ticket = { CK_SPINLOCK_TICKET_INITIALIZER };
static struct { ck_spinlock_mcs_t lock; } __attribute__((aligned(LINE))) mcs = { CK_SPINLOCK_MCS_INITIALIZER };
static struct { ck_spinlock_clh_t *lock; } __attribute__((aligned(LINE))) clh = { NULL };
static struct { volatile uint64_t value; } __attribute__((aligned(LINE))) number;

static uint64_t holds;

static void *by_ticket(void *unused)
{
    (void)unused;
    for (uint64_t i = 0; i < holds; i++) {
        ck_spinlock_ticket_lock(&ticket.lock);
        number.value++;
        ck_spinlock_ticket_unlock(&ticket.lock);
    }
    return NULL;
}

static void *by_mcs(void *unused)
{
    ck_spinlock_mcs_context_t *node = aligned_alloc(LINE, LINE);
    (void)unused;
    for (uint64_t i = 0; i < holds; i++) {
        ck_spinlock_mcs_lock(&mcs.lock, node);
        number.value++;
        ck_spinlock_mcs_unlock(&mcs.lock, node);
    }
    return NULL;
}

static void *by_clh(void *unused)
{
    ck_spinlock_clh_t *node = aligned_alloc(LINE, LINE);
    (void)unused;
    for (uint64_t i = 0; i < holds; i++) {
        ck_spinlock_clh_lock(&clh.lock, node);
        number.value++;
        ck_spinlock_clh_unlock(&node);
    }
    return NULL;
}

int main(int argc, char **argv)
{
    pthread_t thread[64];
    void *(*work)(void *);
    if (argc != 4 || atoi(argv[2]) < 1 || atoi(argv[2]) > 64) {
        fprintf(stderr, "usage: ck_locks ticket|mcs|clh THREADS HOLDS\n");
        return 2;
    }
    if (strcmp(argv[1], "ticket") == 0) work = by_ticket;
    else if (strcmp(argv[1], "mcs") == 0) work = by_mcs;
    else if (strcmp(argv[1], "clh") == 0) work = by_clh;
    else { fprintf(stderr, "there is no %s\n", argv[1]); return 2; }
    ck_spinlock_clh_t *first = aligned_alloc(LINE, LINE);
    ck_spinlock_clh_init(&clh.lock, first);
    int threads = atoi(argv[2]);
    holds = strtoull(argv[3], NULL, 10);
    for (int t = 1; t < threads; t++) pthread_create(&thread[t], NULL, work, NULL);
    work(NULL);
    for (int t = 1; t < threads; t++) pthread_join(thread[t], NULL);
    printf("%s %d %llu\n", argv[1], threads, (unsigned long long)number.value);
    return 0;
}
