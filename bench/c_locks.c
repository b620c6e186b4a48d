/*
 * The work of bench/ck_locks.c through libclof.a, and by pthread's mutex: each thread takes the lock as often as asked and adds one to a
 * number, once in a hold or as often as the last word says. It prints the lock, the number of threads and the number at the end. `composed`
 * is a lock of two levels of tickets, whose threads stand two by two in a package, which keeps the lock above for nine turns more.
 *
 *   cc -O2 -pthread -Ic/include -o c_locks bench/c_locks.c c/build/libclof.a && ./c_locks mcs 4 1000000
 */
#include <clof.h>
#include <pthread.h>
#include <stdint.h>
#include <stdio.h>
#include <stdlib.h>
#include <string.h>

#define LINE 128

static struct { volatile uint64_t value; } __attribute__((aligned(LINE))) number;
static struct { pthread_mutex_t lock; } __attribute__((aligned(LINE))) mutex = { PTHREAD_MUTEX_INITIALIZER };
static struct { clof_caller caller; clof_composed_caller composed; } __attribute__((aligned(LINE))) lines[64];

static uint64_t holds, additions = 1;

static inline void hold(void)
{
    for (uint64_t i = 0; i < additions; i++) number.value++;
}

static void *by_mutex(void *argument)
{
    (void)argument;
    for (uint64_t i = 0; i < holds; i++) {
        pthread_mutex_lock(&mutex.lock);
        hold();
        pthread_mutex_unlock(&mutex.lock);
    }
    return NULL;
}

static void *by_caller(void *argument)
{
    clof_caller *caller = &lines[(size_t)argument].caller;
    for (uint64_t i = 0; i < holds; i++) {
        clof_acquire(caller);
        hold();
        clof_release(caller);
    }
    return NULL;
}

static void *by_composed(void *argument)
{
    clof_composed_caller *caller = &lines[(size_t)argument].composed;
    for (uint64_t i = 0; i < holds; i++) {
        clof_composed_acquire(caller);
        hold();
        clof_composed_release(caller);
    }
    return NULL;
}

/* the callers of a composed lock, each on lines of its own */
static int make_composed(int threads)
{
    const clof_plan plan = {"Package:32 PU:2", "package,machine", "tkt-tkt", "9"};
    clof_composed_caller callers[64] = {{NULL}};
    clof_numbers numbers;
    uint32_t pus[64];
    for (int k = 0; k < threads; k++) pus[k] = (uint32_t)k;
    uint32_t code = clof_make_composed(&plan, pus, callers, (size_t)threads, &numbers);
    for (int k = 0; k < threads; k++) lines[k].composed = callers[k];
    return code == CLOF_DONE;
}

/* the callers of a lock, each on lines of its own */
static int make(const char *name, int threads)
{
    clof_caller callers[64] = {CLOF_CALLER_INIT};
    uint32_t code = CLOF_REFUSED;
    if (strcmp(name, "ticket") == 0) code = clof_make_ticket(callers, (size_t)threads);
    else if (strcmp(name, "mcs") == 0) code = clof_make_mcs(callers, (size_t)threads);
    else if (strcmp(name, "clh") == 0) code = clof_make_clh(callers, (size_t)threads);
    else if (strcmp(name, "hemlock") == 0) code = clof_make_hemlock(callers, (size_t)threads);
    for (int k = 0; k < threads; k++) lines[k].caller = callers[k];
    return code == CLOF_DONE;
}

int main(int argc, char **argv)
{
    pthread_t thread[64];
    if (argc < 4 || argc > 5 || atoi(argv[2]) < 1 || atoi(argv[2]) > 64) {
        fprintf(stderr, "usage: c_locks ticket|mcs|clh|hemlock|composed|mutex THREADS HOLDS [ADDITIONS]\n");
        return 2;
    }
    size_t threads = (size_t)atoi(argv[2]);
    int is_mutex = strcmp(argv[1], "mutex") == 0, is_composed = strcmp(argv[1], "composed") == 0;
    void *(*work)(void *) = is_mutex ? by_mutex : is_composed ? by_composed : by_caller;
    holds = strtoull(argv[3], NULL, 10);
    if (argc == 5) additions = strtoull(argv[4], NULL, 10);
    if (!is_mutex && !(is_composed ? make_composed((int)threads) : make(argv[1], (int)threads))) {
        fprintf(stderr, "there is no %s\n", argv[1]);
        return 2;
    }
    for (size_t t = 1; t < threads; t++) pthread_create(&thread[t], NULL, work, (void *)t);
    work((void *)0);
    for (size_t t = 1; t < threads; t++) pthread_join(thread[t], NULL);
    for (size_t t = 0; t < threads && !is_mutex; t++) {
        if (is_composed) clof_composed_free(&lines[t].composed);
        else clof_free(&lines[t].caller);
    }
    printf("%s %zu %llu\n", argv[1], threads, (unsigned long long)number.value);
    return 0;
}
