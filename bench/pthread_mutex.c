/*
 * Holds of a mutex of the C library: each thread takes it as often as asked and, as the holders of plan_bench do, notes its number behind
 * those of the holds before. It prints the number of threads, and of what was noted.
 *
 *   cc -O2 -pthread -o pthread_mutex pthread_mutex.c && ./pthread_mutex 4 1000000
 */
#include <pthread.h>
#include <stdint.h>
#include <stdio.h>
#include <stdlib.h>

#define LINE 128
#define MOST 64

static struct { pthread_mutex_t lock; } __attribute__((aligned(LINE))) mutex = { PTHREAD_MUTEX_INITIALIZER };
static struct { uint32_t *callers; uint64_t count; } __attribute__((aligned(LINE))) roll;
static uint32_t numbers[MOST];

static uint64_t holds;

static void *by_mutex(void *argument)
{
    uint32_t number = *(uint32_t *)argument;
    for (uint64_t i = 0; i < holds; i++) {
        pthread_mutex_lock(&mutex.lock);
        roll.callers[roll.count++] = number;
        pthread_mutex_unlock(&mutex.lock);
    }
    return NULL;
}

int main(int argc, char **argv)
{
    pthread_t thread[MOST];
    int threads = argc == 3 ? atoi(argv[1]) : 0;
    if (threads < 1 || threads > MOST) {
        fprintf(stderr, "usage: pthread_mutex THREADS HOLDS\n");
        return 2;
    }
    holds = strtoull(argv[2], NULL, 10);
    roll.callers = calloc(holds * threads, sizeof *roll.callers);
    if (roll.callers == NULL) {
        fprintf(stderr, "pthread_mutex: there is no memory for the callers\n");
        return 1;
    }
    for (int t = 0; t < threads; t++) {
        numbers[t] = t;
        pthread_create(&thread[t], NULL, by_mutex, &numbers[t]);
    }
    for (int t = 0; t < threads; t++) pthread_join(thread[t], NULL);
    printf("%d %llu\n", threads, (unsigned long long)roll.count);
    return 0;
}
