/* Queue locks: Ticket, MCS, CLH and Hemlock, and locks composed of them for machines with packages and shared caches.
 *
 * A lock has a fixed number of callers, made with it. A thread takes part by a caller, one thread a caller at a time. A caller is Idle,
 * Queued, Holding or Leaving; each call goes from one of these, and at any other it answers CLOF_ELSEWHERE and changes nothing.
 *
 * What the program promises: a caller begins as zero (CLOF_CALLER_INIT), may be moved and is not copied, and is in one call at a time; no
 * call is made in a signal handler or behind a fork; guarded data is touched only between clof_acquire and clof_release. docs/C.md says the
 * rest.
 *
 * There is no try that gives up: a caller that has entered a queue lock's queue can't leave it before it held.
 */
#ifndef CLOF_H
#define CLOF_H

#include <sched.h>
#include <stddef.h>
#include <stdint.h>
#include <string.h>

#ifdef __cplusplus
extern "C" {
#endif

typedef struct clof_caller {
    void *at;
} clof_caller;

#define CLOF_CALLER_INIT { NULL }

enum {
    CLOF_DONE = 0,      /* done; of clof_waiters: nobody waits */
    CLOF_NOT_YET = 1,   /* not yet: poll again; of clof_waiters: somebody waits */
    CLOF_ELSEWHERE = 2, /* the caller stands elsewhere than where the call goes from; nothing changed */
    CLOF_EMPTY = 3,     /* the handle has no caller */
    CLOF_NO_MEMORY = 4, /* there was no memory; nothing changed */
    CLOF_IN_USE = 5,    /* a handle that callers were to be made for has one; nothing changed */
    CLOF_REFUSED = 6,   /* no handles, or more than 2^32 - 1; nothing changed */

    /* Of callers of a composed lock, and of making them. Nothing changed. The numbers of a fault are those that `clof run` prints. */
    CLOF_NO_TURN = 7,   /* the caller has held as often as it may: its equal part of 2^64 - 1 times */
    CLOF_TOO_LONG = 9,  /* a text of 2^32 bytes or more */
    CLOF_NO_PU = 10,    /* the machine has no PU with the number at this place */

    /* what is wrong in the description, and at which byte */
    CLOF_DESCRIPTION_EMPTY = 21,
    CLOF_BAD_TYPE = 22,
    CLOF_BAD_ARITY = 23,
    CLOF_BAD_ATTR = 24,
    CLOF_BAD_INDEXES = 25,
    CLOF_LAST_NOT_PU = 26,
    CLOF_REPEATED_TYPE = 27,
    CLOF_TOO_MANY_LEVELS = 28,
    CLOF_TOO_MANY_OBJECTS = 29,

    /* what is wrong in the physical numbers of the description: so many for as many objects; this one; this one */
    CLOF_INDEX_COUNT = 31,
    CLOF_INDEX_RANGE = 32,
    CLOF_INDEX_TWICE = 33,

    /* what is wrong in the plan, and at which place of the list; of CLOF_LENGTHS: for how many levels, and how many were given */
    CLOF_LEVEL_UNKNOWN = 41,
    CLOF_TOO_DEEP = 42,
    CLOF_LEVEL_ORDER = 43,
    CLOF_LOCK_UNKNOWN = 44,
    CLOF_LENGTHS = 45,
    CLOF_KEEP_RANGE = 46
};

/* Make a lock, and a caller of it for each of the handles, all of which must be empty. Only these take memory. */
uint32_t clof_make_ticket(clof_caller *callers, size_t count);
uint32_t clof_make_mcs(clof_caller *callers, size_t count);
uint32_t clof_make_clh(clof_caller *callers, size_t count);
uint32_t clof_make_hemlock(clof_caller *callers, size_t count);

/*                                                      from      not yet   done    */
uint32_t clof_begin(clof_caller *caller);         /*    Idle      Queued    Holding */
uint32_t clof_enter(clof_caller *caller);         /*    Idle      Queued    Holding: begin and one poll */
uint32_t clof_poll(clof_caller *caller);          /*    Queued    Queued    Holding */
uint32_t clof_begin_release(clof_caller *caller); /*    Holding   Leaving   Idle    */
uint32_t clof_poll_release(clof_caller *caller);  /*    Leaving   Leaving   Idle    */

/* At Holding: whether another caller is queued behind this one. */
uint32_t clof_waiters(clof_caller *caller);

/* From Idle: lets the caller go, and leaves the handle empty. The last caller of a lock takes it with it. */
uint32_t clof_free(clof_caller *caller);

static inline const char *clof_text(uint32_t code)
{
    switch (code) {
    case CLOF_DONE: return "done";
    case CLOF_NOT_YET: return "not yet";
    case CLOF_ELSEWHERE: return "the caller stands elsewhere";
    case CLOF_EMPTY: return "the handle has no caller";
    case CLOF_NO_MEMORY: return "no memory";
    case CLOF_IN_USE: return "a handle has a caller";
    case CLOF_REFUSED: return "no handles, or too many";
    case CLOF_NO_TURN: return "the caller has held as often as it may";
    case CLOF_TOO_LONG: return "a text is too long";
    case CLOF_NO_PU: return "the machine has no such PU";
    case CLOF_DESCRIPTION_EMPTY: return "description: no level";
    case CLOF_BAD_TYPE: return "description: unknown type";
    case CLOF_BAD_ARITY: return "description: bad arity";
    case CLOF_BAD_ATTR: return "description: bad attribute";
    case CLOF_BAD_INDEXES: return "description: bad indexes";
    case CLOF_LAST_NOT_PU: return "description: the last level is not PU";
    case CLOF_REPEATED_TYPE: return "description: repeated type";
    case CLOF_TOO_MANY_LEVELS: return "description: too many levels";
    case CLOF_TOO_MANY_OBJECTS: return "description: too many objects";
    case CLOF_INDEX_COUNT: return "description: not as many physical numbers as objects";
    case CLOF_INDEX_RANGE: return "description: a physical number of 4096 or more";
    case CLOF_INDEX_TWICE: return "description: a physical number comes twice";
    case CLOF_LEVEL_UNKNOWN: return "plan: no depth has the name of this level";
    case CLOF_TOO_DEEP: return "plan: more than 5 levels";
    case CLOF_LEVEL_ORDER: return "plan: a level is not above the one before, or the last is not the machine";
    case CLOF_LOCK_UNKNOWN: return "plan: no lock has the name at this place";
    case CLOF_LENGTHS: return "plan: not as many locks or keeps as levels";
    case CLOF_KEEP_RANGE: return "plan: no keep at this place";
    default: return "no code of clof";
    }
}

/* One pause of a loop that waits: a hundred single pauses, and then the processor is given away. */
static inline void clof_pause(uint32_t *pauses)
{
    if (*pauses >= 100) {
        sched_yield();
        return;
    }
    *pauses += 1;
#if defined(__x86_64__) || defined(__i386__)
    __builtin_ia32_pause();
#endif
}

/* From Idle: waits until the caller holds. Any other answer than CLOF_DONE says that it was not idle, or that the handle is empty. */
static inline uint32_t clof_acquire(clof_caller *caller)
{
    uint32_t pauses = 0;
    uint32_t code = clof_enter(caller);
    while (code == CLOF_NOT_YET) {
        clof_pause(&pauses);
        code = clof_poll(caller);
    }
    return code;
}

/* From Holding: gives the lock to the next caller, and waits until this one is idle. */
static inline uint32_t clof_release(clof_caller *caller)
{
    uint32_t pauses = 0;
    uint32_t code = clof_begin_release(caller);
    while (code == CLOF_NOT_YET) {
        clof_pause(&pauses);
        code = clof_poll_release(caller);
    }
    return code;
}

/* ---- composed locks: a lock of each level of the machine, so that callers who stand near one another hand the lock over first ---- */

/* A caller of a composed lock. It begins as zero, too. */
typedef struct clof_composed_caller {
    void *at;
} clof_composed_caller;

/* Two numbers that tell the place of a fault; 0 where it has none. */
typedef struct clof_numbers {
    uint64_t first;
    uint64_t second;
} clof_numbers;

/* What a composed lock is made by. */
typedef struct clof_plan {
    const char *description; /* the machine, as `lstopo --of synthetic` prints it */
    const char *levels;      /* one to five of its layers, the lowest first, the last one machine: "package,machine" */
    const char *locks;       /* the kind of each level's locks, tkt, mcs, clh, hem or with a c: "tkt-mcs"; "": MCS at each level */
    const char *keeps;       /* how many times in a row each lower level hands over inside: "16" */
} clof_plan;

/* The texts with their lengths, and a PU for each of the handles, by its logical number. */
uint32_t clof_make_composed_of(const char *description, size_t description_length, const char *levels, size_t levels_length,
                               const char *locks, size_t locks_length, const char *keeps, size_t keeps_length, const uint32_t *pus,
                               size_t pus_count, clof_composed_caller *callers, size_t count, clof_numbers *numbers);

/* The calls of a clof_caller, but for clof_waiters: a release asks for waiters by itself at each level. */
uint32_t clof_composed_begin(clof_composed_caller *caller);
uint32_t clof_composed_enter(clof_composed_caller *caller);
uint32_t clof_composed_poll(clof_composed_caller *caller);
uint32_t clof_composed_begin_release(clof_composed_caller *caller);
uint32_t clof_composed_poll_release(clof_composed_caller *caller);
uint32_t clof_composed_free(clof_composed_caller *caller);

/* Make a composed lock, and a caller of it on each of these PUs, in order, for each of the handles, all of which must be empty. */
static inline uint32_t clof_make_composed(const clof_plan *plan, const uint32_t *pus, clof_composed_caller *callers, size_t count,
                                          clof_numbers *numbers)
{
    return clof_make_composed_of(plan->description, strlen(plan->description), plan->levels, strlen(plan->levels), plan->locks,
                                 strlen(plan->locks), plan->keeps, strlen(plan->keeps), pus, count, callers, count, numbers);
}

/* As clof_acquire, and CLOF_NO_TURN where the caller has held as often as it may. */
static inline uint32_t clof_composed_acquire(clof_composed_caller *caller)
{
    uint32_t pauses = 0;
    uint32_t code = clof_composed_enter(caller);
    while (code == CLOF_NOT_YET) {
        clof_pause(&pauses);
        code = clof_composed_poll(caller);
    }
    return code;
}

/* As clof_release. */
static inline uint32_t clof_composed_release(clof_composed_caller *caller)
{
    uint32_t pauses = 0;
    uint32_t code = clof_composed_begin_release(caller);
    while (code == CLOF_NOT_YET) {
        clof_pause(&pauses);
        code = clof_composed_poll_release(caller);
    }
    return code;
}

#ifdef __cplusplus
}
#endif

#endif
