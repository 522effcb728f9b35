/* A bank: tellers move money between accounts, each on its own thread, while a report sums all accounts. No lock blocks the
 * report, which may be off by at most its limit; afterwards its audit computes the error. */
#define _POSIX_C_SOURCE 200809L
#include "esr.h"
#include <pthread.h>
#include <stdio.h>
#include <stdlib.h>
#include <time.h>

enum { ACCOUNTS = 8, OPENING = 1000, TELLERS = 3, TRANSFERS = 300, LIMIT = 100, TRIES = 10 };

static esr_engine engine = ESR_CLOSED;
static pthread_mutex_t lock = PTHREAD_MUTEX_INITIALIZER;
static uint32_t report;    /* the number of the report, once it has committed */
static int64_t total;      /* its sum */

static void must(esr_status status, esr_status wanted) {
    if (status != wanted) {
        fprintf(stderr, "bank: status %u, not %u\n", status, wanted);
        exit(1);
    }
}

/* The events, each under the lock. */
static esr_reply begin(bool is_query) {
    esr_reply reply;
    pthread_mutex_lock(&lock);
    must(is_query ? esr_begin_query(&engine, LIMIT, false, &reply) : esr_begin_update(&engine, LIMIT, &reply), ESR_DONE);
    pthread_mutex_unlock(&lock);
    return reply;
}
static esr_reply read_item(uint32_t txn, uint32_t item) {
    esr_reply reply;
    pthread_mutex_lock(&lock);
    must(esr_read(&engine, txn, item, &reply), ESR_DONE);
    pthread_mutex_unlock(&lock);
    return reply;
}
static esr_reply write_item(uint32_t txn, uint32_t item, int64_t value) {
    esr_reply reply;
    pthread_mutex_lock(&lock);
    must(esr_write(&engine, txn, item, value, &reply), ESR_DONE);
    pthread_mutex_unlock(&lock);
    return reply;
}
static void end(uint32_t txn, bool commits) {
    esr_reply reply;
    pthread_mutex_lock(&lock);
    must(commits ? esr_commit(&engine, txn, &reply) : esr_abort(&engine, txn, &reply), ESR_DONE);
    pthread_mutex_unlock(&lock);
}

/* Pauses, longer each time. */
static void pause_for(int round) {
    struct timespec time = {0, 20000L << (round < 6 ? round : 6)};
    nanosleep(&time, NULL);
}

/* Changes an account by an amount. Retries a blocked event, but not forever: two tellers may block each other. */
static bool change(uint32_t txn, uint32_t account, int64_t amount) {
    for (int i = 0; i < TRIES; i++) {
        esr_reply reply = read_item(txn, account);
        if (reply.kind == ESR_VALUE) reply = write_item(txn, account, reply.value + amount);
        if (reply.kind == ESR_WROTE) return true;
        pause_for(i);
    }
    return false;
}

static void *teller(void *seed) {
    unsigned random = (unsigned)(uintptr_t)seed;
    for (int done = 0; done < TRANSFERS;) {
        random = random * 1103515245u + 12345u;
        uint32_t from = random / 65536 % ACCOUNTS, to = (from + 1 + random / 1024 % (ACCOUNTS - 1)) % ACCOUNTS;
        uint32_t txn = begin(false).txn;
        bool moved = change(txn, from, -10);
        pause_for(0); /* while the money is in neither account */
        moved = moved && change(txn, to, 10);
        end(txn, moved);
        done += moved;
    }
    return NULL;
}

/* Sums all accounts; restarts if its limit is reached. */
static void *reporter(void *unused) {
    (void)unused;
    for (int round = 0;; round++) {
        uint32_t txn = begin(true).txn, account = 0;
        for (total = 0; account < ACCOUNTS; account++) {
            esr_reply reply = read_item(txn, account);
            if (reply.kind != ESR_VALUE) break;
            total += reply.value;
            pause_for(2);
        }
        end(txn, account == ACCOUNTS);
        if (account == ACCOUNTS) {
            report = txn;
            return NULL;
        }
        pause_for(round);
    }
}

static void audit(void) {
    uint32_t before[TELLERS * TRANSFERS];
    uint8_t none[1];
    size_t length;
    esr_finding finding;
    must(esr_audit(&engine, report, before, TELLERS * TRANSFERS, &finding), ESR_DONE);
    printf("the report added up to %lld, was charged %llu, and is %llu from the state after %zu transfers\n",
           (long long)total, (unsigned long long)finding.import, (unsigned long long)finding.distance, finding.count);
    if (finding.distance > finding.import || finding.import > LIMIT) exit(1);
    if (llabs(total - ACCOUNTS * OPENING) > (long long)finding.distance) exit(1);
    must(esr_bundle(&engine, report, none, 1, &length), ESR_TOO_SMALL);
    uint8_t *bytes = malloc(length);
    if (!bytes) exit(1);
    must(esr_bundle(&engine, report, bytes, length, &length), ESR_DONE);
    FILE *file = fopen("report.json", "wb");
    if (!file || fwrite(bytes, 1, length, file) != length || fputc('\n', file) == EOF || fclose(file)) exit(1);
    free(bytes);
}

/* The next day begins with the values that the last one left. */
static void next_day(void) {
    int64_t values[ACCOUNTS], sum = 0;
    size_t count;
    esr_totals totals;
    must(esr_renew(&engine), ESR_DONE);
    must(esr_values(&engine, values, ACCOUNTS, &count), ESR_DONE);
    must(esr_totals_of(&engine, &totals), ESR_DONE);
    for (size_t i = 0; i < count; i++) sum += values[i];
    printf("the accounts add up to %lld\n", (long long)sum);
    if (sum != ACCOUNTS * OPENING || totals.entries != 0) exit(1);
}

int main(void) {
    int64_t opening[ACCOUNTS];
    pthread_t threads[TELLERS + 1];
    for (int i = 0; i < ACCOUNTS; i++) opening[i] = OPENING;
    must(esr_open(&engine, opening, ACCOUNTS), ESR_DONE);
    for (uintptr_t i = 0; i < TELLERS; i++)
        if (pthread_create(&threads[i], NULL, teller, (void *)(i + 1))) return 1;
    if (pthread_create(&threads[TELLERS], NULL, reporter, NULL)) return 1;
    for (int i = 0; i <= TELLERS; i++) pthread_join(threads[i], NULL);
    audit();
    next_day();
    esr_close(&engine);
    return 0;
}
