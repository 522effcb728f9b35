/* The load of each program: transactions that read and write four of 4,096 items and commit, which is ten operations. */
#include <stdint.h>
#include <stdio.h>
#include <stdlib.h>
#include <time.h>

enum { ITEMS = 4096, PAIRS = 4, OPERATIONS = 2 + 2 * PAIRS };

/* The time so far, and the processor time that the program has had. */
typedef struct {
    double wall, processor;
} times;

static inline double seconds(clockid_t clock) {
    struct timespec now;
    clock_gettime(clock, &now);
    return (double)now.tv_sec + (double)now.tv_nsec * 1e-9;
}
static inline times now(void) {
    return (times){seconds(CLOCK_MONOTONIC), seconds(CLOCK_PROCESS_CPUTIME_ID)};
}

/* The next number of a fixed sequence. */
static inline uint64_t next(uint64_t *state) {
    *state ^= *state << 13;
    *state ^= *state >> 7;
    *state ^= *state << 17;
    return *state;
}

/* The next number of it below a span, without a division. */
static inline uint32_t next_below(uint64_t *state, uint32_t span) {
    return (uint32_t)((next(state) >> 32) * span >> 32);
}

#define MUST(e) \
    do { \
        if (!(e)) { \
            fprintf(stderr, "line %d: %s\n", __LINE__, #e); \
            exit(1); \
        } \
    } while (0)

/* Fails if the values of the items do not add up to the number of writes. */
static inline void report(long transactions, times from, times to, int64_t sum, long renewals) {
    MUST(sum == (int64_t)transactions * PAIRS);
    printf("%ld %.6f %.6f %ld\n", transactions * OPERATIONS, to.wall - from.wall, to.processor - from.processor, renewals);
}
