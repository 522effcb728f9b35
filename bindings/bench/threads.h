/* Threads that run the load of load.h over a shared store, and report latencies.
 *
 * PROGRAM apart|hot THREADS SECONDS REPORT_MS: each transaction reads and increments four of 4,096 items. With `apart` each
 * thread has its own items; with `hot` the last item of each transaction is item 0. If REPORT_MS is not 0, another thread
 * sums 1,000 items every REPORT_MS milliseconds. Prints transactions a second, the latency of a transaction at p50, p99,
 * p99.9 and maximum in microseconds, the number of reports and the longest report in microseconds.
 *
 * A program defines the four functions below. `transaction` returns whether it committed; else it is retried. */
#ifndef THREADS_H
#define THREADS_H

#include "load.h"
#include <pthread.h>
#include <stdbool.h>
#include <string.h>
#include <unistd.h>

static void open_store(void);
static void *open_session(void);
static bool transaction(void *session, const uint32_t *items);
static int64_t sum_of(void *session, uint32_t count, uint32_t stride);

enum { MAX_THREADS = 64, MAX_LATENCIES = 1 << 23 };
typedef struct {
    int id;
    uint64_t count;
    uint32_t *latencies; /* nanoseconds */
} worker;

static bool is_hot;
static int workers;
static volatile bool ended;
static double longest_report;
static long reports, report_ms;

static void *work(void *argument) {
    worker *me = argument;
    void *session = open_session();
    uint32_t span = ITEMS / (uint32_t)workers, from = span * (uint32_t)me->id, items[PAIRS];
    uint64_t state = 88172645463325252u + 7919u * (uint64_t)me->id;
    while (!ended) {
        for (int pair = 0; pair < PAIRS; pair++) {
            items[pair] = from + next_below(&state, span);
            if (is_hot) items[pair] = pair == PAIRS - 1 ? 0 : items[pair] == 0 ? 1 : items[pair];
        }
        double begun = seconds(CLOCK_MONOTONIC);
        while (!transaction(session, items)) {}
        double taken = (seconds(CLOCK_MONOTONIC) - begun) * 1e9;
        if (me->count < MAX_LATENCIES) me->latencies[me->count] = taken < 4e9 ? (uint32_t)taken : 4000000000u;
        me->count++;
    }
    return NULL;
}

static void *report_often(void *argument) {
    void *session = open_session();
    (void)argument;
    while (!ended) {
        double begun = seconds(CLOCK_MONOTONIC);
        sum_of(session, 1000, 4);
        double taken = seconds(CLOCK_MONOTONIC) - begun, rest = (double)report_ms / 1000 - taken;
        if (taken > longest_report) longest_report = taken;
        reports++;
        if (rest > 0) usleep((useconds_t)(rest * 1e6));
    }
    return NULL;
}

static int compare(const void *a, const void *b) {
    uint32_t left = *(const uint32_t *)a, right = *(const uint32_t *)b;
    return (left > right) - (left < right);
}

int main(int count, char **words) {
    static worker all[MAX_THREADS];
    pthread_t threads[MAX_THREADS], reporter;
    MUST(count == 5);
    is_hot = strcmp(words[1], "hot") == 0;
    workers = atoi(words[2]);
    report_ms = atol(words[4]);
    MUST(workers >= 1 && workers <= MAX_THREADS);
    open_store();
    double begun = seconds(CLOCK_MONOTONIC);
    for (int i = 0; i < workers; i++) {
        all[i].id = i;
        all[i].latencies = malloc(MAX_LATENCIES * sizeof(uint32_t));
        MUST(all[i].latencies && pthread_create(&threads[i], NULL, work, &all[i]) == 0);
    }
    if (report_ms) MUST(pthread_create(&reporter, NULL, report_often, NULL) == 0);
    usleep((useconds_t)(atof(words[3]) * 1e6));
    ended = true;
    uint64_t done = 0, kept = 0;
    for (int i = 0; i < workers; i++) {
        MUST(pthread_join(threads[i], NULL) == 0);
        done += all[i].count;
        kept += all[i].count < MAX_LATENCIES ? all[i].count : MAX_LATENCIES;
    }
    double taken = seconds(CLOCK_MONOTONIC) - begun;
    if (report_ms) MUST(pthread_join(reporter, NULL) == 0);
    MUST(sum_of(open_session(), ITEMS, 1) == (int64_t)done * PAIRS);
    uint32_t *joined = malloc(kept * sizeof(uint32_t) + 1);
    uint64_t at = 0;
    for (int i = 0; i < workers; i++) {
        uint64_t mine = all[i].count < MAX_LATENCIES ? all[i].count : MAX_LATENCIES;
        memcpy(joined + at, all[i].latencies, mine * sizeof(uint32_t));
        at += mine;
    }
    qsort(joined, kept, sizeof(uint32_t), compare);
    const double shares[4] = {0.5, 0.99, 0.999, 1};
    printf("%.0f", (double)done / taken);
    for (int i = 0; i < 4; i++) printf(" %.1f", joined[(uint64_t)((double)(kept - 1) * shares[i])] / 1000.0);
    printf(" %ld %.0f\n", reports, longest_report * 1e6);
    return 0;
}
#endif
