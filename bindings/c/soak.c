/* soak [SECONDS]: for this time eight threads move money among accounts, by read for update, while reports sum all of them; the
 * engine is renewed whenever its history is full. Each committed transfer is in the sums, no thread is stuck, and each report is
 * off by at most its charges. */
#include "esr.h"
#include <pthread.h>
#include <stdio.h>
#include <stdlib.h>
#include <time.h>

enum { THREADS = 8, ACCOUNTS = 64, EACH = 1000 };
#define MUST(fact) \
    do { \
        if (!(fact)) { \
            fprintf(stderr, "line %d: %s\n", __LINE__, #fact); \
            exit(1); \
        } \
    } while (0)

static esr_engine engine = ESR_CLOSED;
static pthread_mutex_t lock = PTHREAD_MUTEX_INITIALIZER;
static unsigned long generation, renewals, transfers, reports;
static int64_t moved[THREADS]; /* what each thread has moved to account 0 */
static time_t until;

/* Makes one call under the lock, for a transaction of this generation. Reports that the transaction ended if its history did. */
static bool call(unsigned long mine, esr_status status, esr_reply *reply, bool *full) {
    *full = status == ESR_HISTORY_FULL;
    MUST(status == ESR_DONE || *full);
    return mine == generation && status == ESR_DONE && reply->kind != ESR_REFUSED;
}

static void renew(void) {
    MUST(esr_renew_aborting(&engine) == ESR_DONE);
    generation++;
    renewals++;
}

/* Runs one transaction, and returns whether it committed. */
static bool transfer(unsigned number, uint32_t from) {
    esr_reply reply;
    bool full, ok = false;
    pthread_mutex_lock(&lock);
    unsigned long mine = generation;
    ok = call(mine, esr_begin_update(&engine, EACH, &reply), &reply, &full);
    if (full) renew();
    pthread_mutex_unlock(&lock);
    if (!ok) return false;
    uint32_t txn = reply.txn, items[2] = {0, from};
    for (int i = 0; ok && i < 2; i++) {
        pthread_mutex_lock(&lock);
        ok = mine == generation && call(mine, esr_read_for_update(&engine, txn, items[i], &reply), &reply, &full);
        ok = ok && call(mine, esr_write(&engine, txn, items[i], reply.value + (i ? -1 : 1), &reply), &reply, &full);
        pthread_mutex_unlock(&lock);
    }
    pthread_mutex_lock(&lock);
    if (mine == generation) {
        MUST((ok ? esr_commit(&engine, txn, &reply) : esr_abort(&engine, txn, &reply)) == ESR_DONE);
        MUST(reply.kind == (ok ? ESR_COMMITTED : ESR_ABORTED));
        if (ok) moved[number]++, transfers++;
    } else {
        ok = false;
    }
    pthread_mutex_unlock(&lock);
    return ok;
}

static void report(void) {
    esr_reply reply;
    esr_finding finding;
    esr_account account;
    uint32_t before[1];
    bool full, ok;
    int64_t sum = 0;
    pthread_mutex_lock(&lock);
    unsigned long mine = generation;
    ok = call(mine, esr_begin_query(&engine, 2 * EACH, false, &reply), &reply, &full);
    uint32_t txn = reply.txn;
    pthread_mutex_unlock(&lock);
    for (uint32_t item = 0; ok && item < ACCOUNTS; item++) {
        pthread_mutex_lock(&lock);
        ok = mine == generation && call(mine, esr_read(&engine, txn, item, &reply), &reply, &full);
        sum += reply.value;
        pthread_mutex_unlock(&lock);
    }
    pthread_mutex_lock(&lock);
    if (ok && mine == generation) {
        MUST(esr_account_of(&engine, txn, &account) == ESR_DONE && account.status == ESR_ACTIVE);
        MUST(llabs((long long)sum - (long long)ACCOUNTS * EACH) <= (long long)account.charged);
        MUST(esr_commit(&engine, txn, &reply) == ESR_DONE && reply.kind == ESR_COMMITTED);
        esr_status found = esr_audit(&engine, txn, before, 0, &finding);
        MUST((found == ESR_DONE || found == ESR_TOO_SMALL) && finding.distance <= finding.import);
        MUST(finding.import == account.charged);
        reports++;
    }
    pthread_mutex_unlock(&lock);
}

static void *work(void *given) {
    unsigned number = (unsigned)(uintptr_t)given;
    unsigned long long random = 88172645463325252ull + 7919u * number;
    for (unsigned n = 1; time(NULL) < until; n++) {
        random ^= random << 13, random ^= random >> 7, random ^= random << 17;
        if (number == 0 && n % 64 == 0) report();
        else transfer(number, 1 + (uint32_t)(random % (ACCOUNTS - 1)));
    }
    return NULL;
}

int main(int count, char **words) {
    int64_t values[ACCOUNTS];
    pthread_t threads[THREADS];
    size_t items;
    for (int i = 0; i < ACCOUNTS; i++) values[i] = EACH;
    until = time(NULL) + (count > 1 ? atol(words[1]) : 2);
    MUST(esr_open(&engine, values, ACCOUNTS) == ESR_DONE);
    for (unsigned i = 0; i < THREADS; i++) MUST(pthread_create(&threads[i], NULL, work, (void *)(uintptr_t)i) == 0);
    for (unsigned i = 0; i < THREADS; i++) MUST(pthread_join(threads[i], NULL) == 0);
    MUST(esr_renew(&engine) == ESR_DONE);
    MUST(esr_values(&engine, values, ACCOUNTS, &items) == ESR_DONE);
    int64_t sum = 0, all = 0;
    for (size_t i = 0; i < items; i++) sum += values[i];
    for (unsigned i = 0; i < THREADS; i++) all += moved[i];
    MUST(sum == (int64_t)ACCOUNTS * EACH && values[0] == EACH + all);
    printf("%lu transfers, %lu reports, %lu renewals\n", transfers, reports, renewals);
    esr_close(&engine);
    return 0;
}
