/* Tests of esr_bank.h: each result of a transaction, a deadlock, a report concurrent with an update, and a renewal whose
 * preparation fails at first. */
#define _XOPEN_SOURCE 700
#include "esr_bank.h"
#include <stdio.h>
#include <string.h>

#define WANT(value, wanted) \
    do { \
        long long got = (long long)(value), want = (long long)(wanted); \
        if (got != want) { \
            fprintf(stderr, "line %d: %s is %lld, not %lld\n", __LINE__, #value, got, want); \
            exit(1); \
        } \
    } while (0)

static esr_bank bank;

static bool transfer(esr_bank_txn *t, void *amount) {
    return esr_bank_add(t, 0, -*(int64_t *)amount) && esr_bank_add(t, 1, *(int64_t *)amount);
}

static bool change_and_fail(esr_bank_txn *t, void *context) {
    (void)context;
    return esr_bank_add(t, 0, 7) && false;
}

static bool unknown_item(esr_bank_txn *t, void *refusal) {
    bool done = esr_bank_write(t, 99, 1);
    *(uint32_t *)refusal = t->refusal;
    return done;
}

static bool read_then_write(esr_bank_txn *t, void *met) {
    int64_t value;
    if (!esr_bank_read(t, 2, &value)) return false;
    pthread_barrier_t *barrier = *(pthread_barrier_t **)met;
    *(pthread_barrier_t **)met = NULL; /* only the first run waits for the other */
    if (barrier) pthread_barrier_wait(barrier);
    return esr_bank_write(t, 2, value + 1);
}

static bool total(esr_bank_txn *t, void *sum) {
    int64_t first, second;
    if (!esr_bank_read(t, 0, &first) || !esr_bank_read(t, 1, &second)) return false;
    *(int64_t *)sum = first + second;
    return true;
}

static bool first_of(esr_bank_txn *t, void *value) {
    return esr_bank_read(t, 0, value);
}

static void values_are(int64_t first, int64_t second, int64_t third) {
    int64_t values[3];
    size_t count;
    WANT(esr_bank_snapshot(&bank, values, 3, &count), ESR_DONE);
    WANT(values[0], first);
    WANT(values[1], second);
    WANT(values[2], third);
}

/* Two updates that both read an item and then write it: one of them is restarted. */
static void *in_a_cycle(void *barrier) {
    void *met = barrier;
    WANT(esr_bank_transact(&bank, 0, read_then_write, &met), ESR_BANK_DONE);
    return NULL;
}

static bool holds(esr_bank_txn *t, void *barrier) {
    if (!esr_bank_add(t, 0, 1)) return false;
    pthread_barrier_wait(barrier); /* the lock is held */
    pthread_barrier_wait(barrier); /* the other has given up */
    return false;
}

static void *holder(void *barrier) {
    WANT(esr_bank_transact(&bank, 3, holds, barrier), ESR_BANK_ABORTED);
    return NULL;
}

static bool prepare(esr_bank *full, void *ready) {
    esr_counts counts;
    WANT(full == &bank, true);
    WANT(esr_counts_of(&full->engine, &counts), ESR_DONE);
    WANT(counts.active, 0);
    return *(bool *)ready;
}

/* The length of a text is that of a call with a capacity of 0. */
static void texts_of(uint32_t report) {
    uint8_t none[1], text[1000];
    size_t length = 0, count = 0;
    pthread_mutex_lock(&bank.lock);
    WANT(esr_explain(&bank.engine, report, none, 0, none, 0, &length), ESR_TOO_SMALL);
    WANT(esr_explain(&bank.engine, report, none, 0, text, length, &count), ESR_DONE);
    pthread_mutex_unlock(&bank.lock);
    WANT(count, length);
    WANT(memcmp(text, "read i0 400 nearest 400 off 0\n", 30), 0);
}

/* With a weight of 3, the read of a change of 1 is charged 3: a limit of 2 is too small. */
static void weights(pthread_barrier_t *barrier) {
    const int64_t opening[1] = {500};
    const uint32_t weight[1] = {3}, bad[1] = {1001};
    int64_t value = 0;
    esr_bank_finding finding = {0, 0, 0, 0};
    pthread_t thread;
    WANT(esr_bank_open_weighted(&bank, opening, 1, bad, 1, 0.1), ESR_WEIGHT_OUT_OF_RANGE);
    WANT(esr_bank_open_weighted(&bank, opening, 1, weight, 1, 0.1), ESR_DONE);
    WANT(pthread_create(&thread, NULL, holder, barrier), 0);
    pthread_barrier_wait(barrier);
    WANT(esr_bank_report(&bank, 2, false, first_of, &value, &finding), ESR_BANK_TIMED_OUT);
    WANT(esr_bank_report(&bank, 3, false, first_of, &value, &finding), ESR_BANK_DONE);
    pthread_barrier_wait(barrier);
    WANT(pthread_join(thread, NULL), 0);
    WANT(value, 501);
    WANT(finding.import, 3);
    WANT(finding.distance, 3);
    esr_bank_close(&bank);
}

static void result_texts(void) {
    for (int i = ESR_BANK_DONE; i <= ESR_BANK_FAILED; i++) {
        WANT(strcmp(esr_bank_result_text((esr_bank_result)i), "no such result") != 0, true);
    }
    WANT(strcmp(esr_bank_result_text(ESR_BANK_REFUSED), "refused"), 0);
}

static bool nothing(esr_bank_txn *t, void *context) {
    (void)t, (void)context;
    return true;
}

int main(void) {
    const int64_t opening[3] = {500, 1500, 0}, bad[1] = {INT64_MAX};
    int64_t amount = 100, sum = 0;
    uint32_t refusal = 0;
    esr_bank_txn txn;
    esr_bank_finding finding = {9, 9, 9, 9};
    WANT(esr_bank_open(&bank, bad, 1, 1.0), ESR_VALUE_OUT_OF_RANGE);
    WANT(esr_bank_open(&bank, opening, 3, 10.0), ESR_DONE);

    WANT(esr_bank_transact(&bank, 200, transfer, &amount), ESR_BANK_DONE);
    values_are(400, 1600, 0);
    WANT(esr_bank_transact(&bank, 200, change_and_fail, NULL), ESR_BANK_ABORTED);
    WANT(esr_bank_transact(&bank, 200, unknown_item, &refusal), ESR_BANK_REFUSED);
    WANT(refusal, ESR_NO_SUCH_ITEM);
    WANT(esr_bank_run(&bank, false, false, 200, unknown_item, &refusal, NULL, &txn), ESR_BANK_REFUSED);
    WANT(txn.refusal, ESR_NO_SUCH_ITEM);
    WANT(esr_bank_transact(&bank, UINT64_MAX, transfer, &amount), ESR_BANK_REFUSED);
    values_are(400, 1600, 0);
    WANT(esr_bank_report(&bank, 200, true, total, &sum, &finding), ESR_BANK_DONE);
    WANT(sum, 2000);
    WANT(finding.distance, 0);
    WANT(finding.import, 0);
    WANT(finding.renewals, 0);
    WANT(esr_bank_run(&bank, true, false, 200, total, &sum, NULL, &txn), ESR_BANK_DONE);
    texts_of(txn.txn);

    pthread_t threads[2];
    pthread_barrier_t barrier;
    WANT(pthread_barrier_init(&barrier, NULL, 2), 0);
    for (int i = 0; i < 2; i++) WANT(pthread_create(&threads[i], NULL, in_a_cycle, &barrier), 0);
    for (int i = 0; i < 2; i++) WANT(pthread_join(threads[i], NULL), 0);
    values_are(400, 1600, 2);
    WANT(bank.restarts > 0, true);

    bank.patience = 0.1;
    WANT(pthread_create(&threads[0], NULL, holder, &barrier), 0);
    pthread_barrier_wait(&barrier);
    WANT(esr_bank_transact(&bank, 0, transfer, &amount), ESR_BANK_TIMED_OUT);
    pthread_barrier_wait(&barrier);
    WANT(pthread_join(threads[0], NULL), 0);
    values_are(400, 1600, 2);

    /* A full history: while its preparation fails, the history is kept and begins give up; then the engine is renewed. */
    bool ready = false;
    esr_bank_result result = ESR_BANK_DONE;
    bank.patience = 0.02;
    esr_bank_before_renewal(&bank, prepare, &ready);
    while (result == ESR_BANK_DONE) result = esr_bank_transact(&bank, 0, nothing, NULL);
    WANT(result, ESR_BANK_FULL);
    WANT(bank.renewals, 0);
    WANT(bank.commits > 65000, true);
    ready = true;
    WANT(esr_bank_transact(&bank, 0, nothing, NULL), ESR_BANK_DONE);
    WANT(bank.renewals, 1);
    bank.patience = 10.0;
    values_are(400, 1600, 2);
    WANT(esr_bank_transact(&bank, 200, transfer, &amount), ESR_BANK_DONE);
    values_are(300, 1700, 2);

    esr_bank_close(&bank);
    weights(&barrier);
    pthread_barrier_destroy(&barrier);
    result_texts();
    printf("esr_bank: all calls as wanted\n");
    return 0;
}
