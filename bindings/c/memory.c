/* Each allocation fails in turn (linked with -Wl,--wrap=malloc,--wrap=realloc): the call returns ESR_NO_MEMORY and changes
 * nothing, and a retry has the result of a first try. */
#include "esr.h"
#include <stdio.h>
#include <stdlib.h>

static long left = -1, failed, calls;
void *__real_malloc(size_t size);
void *__real_realloc(void *block, size_t size);
void *__wrap_malloc(size_t size);
void *__wrap_realloc(void *block, size_t size);

static int fails(void) { return left >= 0 && left-- == 0 ? (int)++failed : 0; }
void *__wrap_malloc(size_t size) { return fails() ? NULL : __real_malloc(size); }
void *__wrap_realloc(void *block, size_t size) { return fails() ? NULL : __real_realloc(block, size); }

#define WANT(call, wanted) \
    do { \
        esr_status status_ = (call); \
        if (status_ == ESR_NO_MEMORY) { \
            calls++; \
            status_ = (call); \
        } \
        if (status_ != (wanted)) { \
            fprintf(stderr, "line %d: status %u\n", __LINE__, status_); \
            return 1; \
        } \
    } while (0)

/* Read for update, and a renewal with an active update, after which numbers restart at 1. */
static int aborted_day(void) {
    esr_engine engine = ESR_CLOSED;
    esr_reply reply;
    int64_t opening[2] = {500, 1500}, values[2];
    uint32_t weights[1] = {2};
    size_t count;
    WANT(esr_open_weighted(&engine, opening, 2, weights, 1), ESR_DONE);
    WANT(esr_begin_update(&engine, 200, &reply), ESR_DONE);
    WANT(esr_read_for_update(&engine, 1, 0, &reply), ESR_DONE);
    WANT(esr_write(&engine, 1, 0, reply.value - 100, &reply), ESR_DONE);
    WANT(esr_commit(&engine, 1, &reply), ESR_DONE);
    WANT(esr_begin_update(&engine, 200, &reply), ESR_DONE);
    WANT(esr_write(&engine, 2, 1, 7, &reply), ESR_DONE);
    WANT(esr_renew_aborting(&engine), ESR_DONE);
    WANT(esr_values(&engine, values, 2, &count), ESR_DONE);
    WANT(esr_begin_update(&engine, 0, &reply), ESR_DONE);
    esr_close(&engine);
    return values[0] != 400 || values[1] != 1500 || reply.txn != 1;
}

/* A renewal that carries a report and an update over. Its list is the caller's, so no allocation follows the renewal. */
static int carried_day(void) {
    esr_engine engine = ESR_CLOSED;
    esr_reply reply;
    esr_account account;
    esr_carried list[2];
    int64_t opening[2] = {500, 1500}, values[2];
    uint32_t weights[1] = {2};
    size_t count;
    WANT(esr_open_weighted(&engine, opening, 2, weights, 1), ESR_DONE);
    WANT(esr_begin_update(&engine, 900, &reply), ESR_DONE);
    WANT(esr_begin_query(&engine, 900, false, &reply), ESR_DONE);
    WANT(esr_begin_update(&engine, 900, &reply), ESR_DONE);
    WANT(esr_read(&engine, 2, 1, &reply), ESR_DONE);
    WANT(esr_write(&engine, 1, 1, 1510, &reply), ESR_DONE);
    WANT(esr_commit(&engine, 1, &reply), ESR_DONE);
    WANT(esr_write(&engine, 3, 0, 400, &reply), ESR_DONE);
    WANT(esr_read(&engine, 2, 0, &reply), ESR_DONE);
    WANT(esr_renew_carrying(&engine, list, 2, &count), ESR_DONE);
    WANT(esr_account_of(&engine, 1, &account), ESR_DONE);
    WANT(esr_commit(&engine, 2, &reply), ESR_DONE);
    WANT(esr_values(&engine, values, 2, &count), ESR_DONE);
    esr_close(&engine);
    return list[0].old_txn != 2 || list[0].new_txn != 1 || list[0].settled != 10 || list[1].old_txn != 3 || list[1].new_txn != 2
        || list[1].settled != 0 || account.limit != 890 || account.charged != 200 || values[0] != 400 || values[1] != 1510;
}

/* Events in one call: if an allocation fails, the events before it have their replies, and the test retries the rest. */
static int listed_day(void) {
    static const esr_event events[5] = {
        {ESR_BEGIN_UPDATE, 0, 0, 200, 0},
        {ESR_READ, 1, 0, 0, 0},
        {ESR_WRITE, 1, 0, 0, 400},
        {ESR_BEGIN_STRICT_QUERY, 0, 0, 200, 0},
        {ESR_READ, 2, 0, 0, 0},
    };
    static const int64_t opening[1] = {500};
    esr_engine engine = ESR_CLOSED;
    esr_reply replies[5];
    esr_totals totals;
    size_t at = 0, count;
    WANT(esr_open(&engine, opening, 1), ESR_DONE);
    while (at < 5) {
        esr_status status = esr_do(&engine, events + at, 5 - at, replies + at, 5 - at, true, &count);
        if (status != ESR_DONE && status != ESR_NO_MEMORY) return 1;
        if (status == ESR_NO_MEMORY) calls++;
        at += count;
    }
    WANT(esr_totals_of(&engine, &totals), ESR_DONE);
    esr_close(&engine);
    return replies[1].value != 500 || replies[4].value != 400 || totals.entries != 5 || totals.low != 100;
}

/* The bank of the README, with its audit, its bundle and a renewal. */
static int day(void) {
    esr_engine engine = ESR_CLOSED;
    esr_reply reply;
    esr_totals totals;
    esr_finding finding;
    esr_verdict verdict;
    int64_t opening[2] = {500, 1500}, values[2];
    uint32_t before[2];
    uint8_t bytes[1000];
    static uint8_t text[20000];
    size_t count, length;
    WANT(esr_open(&engine, opening, 2), ESR_DONE);
    WANT(esr_begin_update(&engine, 200, &reply), ESR_DONE);
    WANT(esr_begin_query(&engine, 200, false, &reply), ESR_DONE);
    WANT(esr_write(&engine, 1, 0, 400, &reply), ESR_DONE);
    WANT(esr_read(&engine, 2, 0, &reply), ESR_DONE);
    WANT(esr_read(&engine, 2, 1, &reply), ESR_DONE);
    WANT(esr_write(&engine, 1, 1, 1600, &reply), ESR_DONE);
    WANT(esr_commit(&engine, 1, &reply), ESR_DONE);
    WANT(esr_commit(&engine, 2, &reply), ESR_DONE);
    WANT(esr_audit(&engine, 2, before, 2, &finding), ESR_DONE);
    WANT(esr_bundle(&engine, 2, bytes, sizeof bytes, &length), ESR_DONE);
    WANT(esr_check(bytes, length, &verdict), ESR_DONE);
    WANT(esr_history_script(&engine, bytes, 0, text, sizeof text, &length), ESR_DONE);
    WANT(esr_explain(&engine, 2, bytes, 0, text, sizeof text, &length), ESR_DONE);
    WANT(esr_picture(&engine, 2, bytes, 0, text, sizeof text, &length), ESR_DONE);
    WANT(esr_ledger(&engine, text, sizeof text, &length), ESR_DONE);
    WANT(esr_bundle(&engine, 2, bytes, sizeof bytes, &length), ESR_DONE);
    WANT(esr_totals_of(&engine, &totals), ESR_DONE);
    WANT(esr_renew(&engine), ESR_DONE);
    WANT(esr_values(&engine, values, 2, &count), ESR_DONE);
    esr_close(&engine);
    return totals.entries != 8 || totals.low != 200 || finding.distance != 100 || finding.import != 200
        || finding.count != 0 || verdict.kind != ESR_VALID || verdict.number != 100 || values[0] != 400 || values[1] != 1600 || bytes[length - 1] != '}';
}

static int each(const char *name, int (*program)(void)) {
    long n = 0;
    calls = 0;
    do {
        left = n++;
        failed = 0;
        if (program()) {
            fprintf(stderr, "%s: allocation %ld\n", name, n);
            return 1;
        }
    } while (failed);
    printf("%s: %ld allocations failed in turn, and %ld calls answered so\n", name, n - 1, calls);
    return calls == 0;
}

int main(void) {
    return each("a day", day) || each("a day that is aborted", aborted_day) || each("a day that is carried over", carried_day)
        || each("a day in one call", listed_day);
}
