/*
 * The memory of locks through libclof.a: what is held behind making a lock with 2 and with 64 callers, in bytes of malloc's blocks, and so
 * what each further caller takes; and how often holds ask for memory. malloc, realloc and free are those of the C library, counted.
 *
 *   bench/c_memory.sh
 */
#include <clof.h>
#include <malloc.h>
#include <stdint.h>
#include <stdio.h>
#include <string.h>

#define MANY 64
#define HOLDS 1000

void *__real_malloc(size_t size);
void *__real_realloc(void *block, size_t size);
void __real_free(void *block);

static size_t held, calls;

void *__wrap_malloc(size_t size)
{
    void *block = __real_malloc(size);
    held += malloc_usable_size(block);
    calls++;
    return block;
}

void *__wrap_realloc(void *block, size_t size)
{
    held -= malloc_usable_size(block);
    block = __real_realloc(block, size);
    held += malloc_usable_size(block);
    calls++;
    return block;
}

void __wrap_free(void *block)
{
    held -= malloc_usable_size(block);
    __real_free(block);
}

static uint32_t make(const char *name, clof_caller *callers, size_t count)
{
    if (strcmp(name, "ticket") == 0) return clof_make_ticket(callers, count);
    if (strcmp(name, "mcs") == 0) return clof_make_mcs(callers, count);
    if (strcmp(name, "clh") == 0) return clof_make_clh(callers, count);
    return clof_make_hemlock(callers, count);
}

static void print(const char *name, size_t few, size_t many, size_t asked)
{
    printf("%-28s %9zu %9zu %9zu %9zu\n", name, few, many, (many - few) / (MANY - 2), asked);
}

/* the bytes held behind making; the handles are let go, and the calls for memory of the first one's holds are added to those asked */
static size_t basic(const char *name, size_t count, size_t *asked)
{
    clof_caller callers[MANY] = {CLOF_CALLER_INIT};
    size_t before = held;
    if (make(name, callers, count) != CLOF_DONE) return 0;
    size_t took = held - before, first = calls;
    for (int i = 0; i < HOLDS; i++) {
        clof_acquire(&callers[0]);
        clof_release(&callers[0]);
    }
    *asked += calls - first;
    for (size_t k = 0; k < count; k++) clof_free(&callers[k]);
    return took;
}

static size_t composed(const char *levels, size_t count, size_t *asked)
{
    const clof_plan plan = {"Package:2 L3Cache:2 L2Cache:2 Core:2 PU:4", levels, "", "9"};
    clof_composed_caller callers[MANY] = {{NULL}};
    clof_numbers numbers;
    uint32_t pus[MANY];
    for (size_t k = 0; k < count; k++) pus[k] = (uint32_t)(k * (MANY / count));
    size_t before = held;
    if (clof_make_composed(&plan, pus, callers, count, &numbers) != CLOF_DONE) return 0;
    size_t took = held - before, first = calls;
    for (int i = 0; i < HOLDS; i++) {
        clof_composed_acquire(&callers[0]);
        clof_composed_release(&callers[0]);
    }
    *asked += calls - first;
    for (size_t k = 0; k < count; k++) clof_composed_free(&callers[k]);
    return took;
}

int main(void)
{
    static const char *const basics[] = {"ticket", "mcs", "clh", "hemlock"};
    static const char *const levels[] = {"machine", "package,machine", "l3,package,machine", "l2,l3,package,machine",
                                         "core,l2,l3,package,machine"};
    printf("%-28s %9s %9s %9s %9s\n", "bytes", "2 callers", "64", "a caller", "asked");
    for (size_t i = 0; i < sizeof basics / sizeof *basics; i++) {
        size_t asked = 0, few = basic(basics[i], 2, &asked), many = basic(basics[i], MANY, &asked);
        print(basics[i], few, many, asked);
    }
    for (size_t i = 0; i < sizeof levels / sizeof *levels; i++) {
        size_t asked = 0, few = composed(levels[i], 2, &asked), many = composed(levels[i], MANY, &asked);
        print(levels[i], few, many, asked);
    }
    return held == 0 ? 0 : 1;
}
