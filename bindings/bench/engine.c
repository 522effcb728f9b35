/* engine TRANSACTIONS [THREADS]: the load over an engine. With THREADS, that many threads share it under one lock, which
 * they take for each call, on separate items. A history is renewed shortly before it is full. malloc keeps freed memory, as the other
 * programs keep their caches. */
#include "esr.h"
#include "load.h"
#include <malloc.h>
#include <pthread.h>

enum { MOST = 65000 };

static esr_engine engine = ESR_CLOSED;
static pthread_mutex_t lock = PTHREAD_MUTEX_INITIALIZER;
static pthread_cond_t changed = PTHREAD_COND_INITIALIZER;
static long begun, active, renewals, share;
static int threads;

static void take(void) {
    if (threads) pthread_mutex_lock(&lock);
}
static void leave(void) {
    if (threads) pthread_mutex_unlock(&lock);
}

static uint32_t begin(void) {
    esr_reply reply;
    take();
    while (begun == MOST) {
        if (active == 0) {
            MUST(esr_renew(&engine) == ESR_DONE);
            begun = 0;
            renewals++;
            pthread_cond_broadcast(&changed);
        } else {
            pthread_cond_wait(&changed, &lock);
        }
    }
    MUST(esr_begin_update(&engine, 0, &reply) == ESR_DONE && reply.kind == ESR_BEGUN);
    begun++;
    active++;
    leave();
    return reply.txn;
}
static void commit(uint32_t txn) {
    esr_reply reply;
    take();
    MUST(esr_commit(&engine, txn, &reply) == ESR_DONE && reply.kind == ESR_COMMITTED);
    if (--active == 0 && begun == MOST) pthread_cond_broadcast(&changed);
    leave();
}
static void add_one(uint32_t txn, uint32_t item) {
    esr_reply reply;
    take();
    MUST(esr_read(&engine, txn, item, &reply) == ESR_DONE && reply.kind == ESR_VALUE);
    leave();
    int64_t value = reply.value + 1;
    take();
    MUST(esr_write(&engine, txn, item, value, &reply) == ESR_DONE && reply.kind == ESR_WROTE);
    leave();
}

static void *work(void *number) {
    uint32_t span = threads ? ITEMS / (uint32_t)threads : ITEMS, from = span * (uint32_t)(uintptr_t)number;
    uint64_t state = 88172645463325252u + 7919u * (uintptr_t)number;
    for (long n = 0; n < share; n++) {
        uint32_t txn = begin();
        for (int pair = 0; pair < PAIRS; pair++) add_one(txn, from + next_below(&state, span));
        commit(txn);
    }
    return NULL;
}

int main(int count, char **words) {
    static int64_t values[ITEMS];
    pthread_t ids[64];
    long transactions = count > 1 ? atol(words[1]) : 100000;
    threads = count > 2 ? atoi(words[2]) : 0;
    MUST(threads >= 0 && threads <= 64);
    MUST(mallopt(M_MMAP_MAX, 0) && mallopt(M_TRIM_THRESHOLD, 1 << 30) && mallopt(M_TOP_PAD, 64 << 20));
    share = threads ? transactions / threads : transactions;
    MUST(esr_open(&engine, values, ITEMS) == ESR_DONE);
    times from = now();
    if (!threads) work(NULL);
    for (int i = 0; i < threads; i++) MUST(pthread_create(&ids[i], NULL, work, (void *)(uintptr_t)i) == 0);
    for (int i = 0; i < threads; i++) MUST(pthread_join(ids[i], NULL) == 0);
    times to = now();
    int64_t sum = 0;
    size_t items;
    MUST(esr_values(&engine, values, ITEMS, &items) == ESR_DONE);
    for (size_t i = 0; i < items; i++) sum += values[i];
    esr_close(&engine);
    report(threads ? share * threads : transactions, from, to, sum, renewals);
    return 0;
}
