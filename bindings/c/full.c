/* Fills a history while an update is active, in each possible way; then the update commits, and the engine is renewed and
 * continues. So it is never stuck. */
#include "esr.h"
#include <stdio.h>

static int wrong;
#define WANT(call, wanted) \
    do { \
        unsigned long long got_ = (unsigned long long)(call); \
        if (got_ != (unsigned long long)(wanted)) { \
            fprintf(stderr, "line %d: %s is %llu\n", __LINE__, #call, got_); \
            wrong = 1; \
        } \
    } while (0)

static esr_status refused_begin(esr_engine *engine, esr_reply *reply) {
    return esr_begin_query(engine, ESR_MAX_LIMIT + 1, false, reply);
}
static esr_status accepted_read(esr_engine *engine, esr_reply *reply) { return esr_read(engine, 1, 1, reply); }
static esr_status refused_write(esr_engine *engine, esr_reply *reply) { return esr_write(engine, 1, 9, 0, reply); }
static esr_status ended_commit(esr_engine *engine, esr_reply *reply) { return esr_commit(engine, 2, reply); }
static esr_status held_read(esr_engine *engine, esr_reply *reply) { return esr_read_for_update(engine, 1, 0, reply); }
static esr_status begun_query(esr_engine *engine, esr_reply *reply) { return esr_begin_query(engine, 0, false, reply); }

/* Repeats one event until no entry is left for it; `fills` if that leaves no entry for any other event. */
static void fill(esr_status (*event)(esr_engine *, esr_reply *), bool fills) {
    static const int64_t opening[2] = {500, 1500};
    esr_engine engine = ESR_CLOSED;
    esr_reply reply;
    esr_counts counts;
    esr_account account;
    int64_t values[2];
    size_t count;
    WANT(esr_open(&engine, opening, 2), ESR_DONE);
    WANT(esr_begin_update(&engine, 0, &reply), ESR_DONE);
    WANT(esr_write(&engine, 1, 0, 400, &reply), ESR_DONE);
    WANT(esr_begin_update(&engine, 0, &reply), ESR_DONE);
    WANT(esr_abort(&engine, 2, &reply), ESR_DONE);
    esr_status status;
    do status = event(&engine, &reply);
    while (status == ESR_DONE);
    WANT(status, ESR_HISTORY_FULL);
    WANT(esr_counts_of(&engine, &counts), ESR_DONE);
    WANT(counts.entries + counts.active + counts.entries_left, ESR_MAX_ENTRIES);
    WANT(counts.transactions + counts.transactions_left, ESR_MAX_TRANSACTIONS);
    if (fills) {
        WANT(counts.entries_left < 2, 1);
        WANT(esr_begin_query(&engine, 0, false, &reply), ESR_HISTORY_FULL);
    }
    WANT(esr_renew(&engine), ESR_TRANSACTION_ACTIVE);
    WANT(esr_commit(&engine, 1, &reply), ESR_DONE);
    WANT(reply.kind, ESR_COMMITTED);
    WANT(esr_account_of(&engine, 1, &account), ESR_DONE);
    WANT(account.status, ESR_COMMITTED);
    for (uint32_t txn = 3; txn <= counts.transactions; txn++) {
        WANT(esr_abort(&engine, txn, &reply), ESR_DONE);
        WANT(reply.kind, ESR_ABORTED);
    }
    WANT(esr_renew(&engine), ESR_DONE);
    WANT(esr_counts_of(&engine, &counts), ESR_DONE);
    WANT(counts.entries_left, ESR_MAX_ENTRIES);
    WANT(esr_values(&engine, values, 2, &count), ESR_DONE);
    WANT(values[0], 400);
    WANT(esr_begin_update(&engine, 0, &reply), ESR_DONE);
    WANT(reply.txn, 1);
    esr_close(&engine);
}

/* A renewal aborts the active update and restores the values that it wrote. */
static void abort_all(void) {
    static const int64_t opening[1] = {5};
    esr_engine engine = ESR_CLOSED;
    esr_reply reply;
    int64_t values[1];
    size_t count;
    WANT(esr_open(&engine, opening, 1), ESR_DONE);
    WANT(esr_begin_update(&engine, 0, &reply), ESR_DONE);
    WANT(esr_write(&engine, 1, 0, 7, &reply), ESR_DONE);
    while (esr_read(&engine, 1, 0, &reply) == ESR_DONE) {}
    WANT(esr_renew_aborting(&engine), ESR_DONE);
    WANT(esr_values(&engine, values, 1, &count), ESR_DONE);
    WANT(values[0], 5);
    WANT(esr_commit(&engine, 1, &reply), ESR_DONE);
    WANT(reply.refusal, ESR_NO_SUCH_TRANSACTION);
    WANT(esr_renew_aborting(&engine), ESR_DONE);
    esr_close(&engine);
}

/* A full history whose entries all belong to an active update stays full: no entry is left in the new one either. Refused events
 * are not carried over. */
static void carry(esr_status (*event)(esr_engine *, esr_reply *), uint64_t left) {
    static const int64_t opening[2] = {5, 6};
    esr_engine engine = ESR_CLOSED;
    esr_reply reply;
    esr_counts counts;
    esr_carried list[1];
    int64_t values[2];
    size_t count = 0;
    WANT(esr_open(&engine, opening, 2), ESR_DONE);
    WANT(esr_begin_update(&engine, 9, &reply), ESR_DONE);
    WANT(esr_write(&engine, 1, 0, 7, &reply), ESR_DONE);
    while (event(&engine, &reply) == ESR_DONE) {}
    WANT(esr_renew_carrying(&engine, list, 0, &count), ESR_TOO_SMALL);
    WANT(esr_counts_of(&engine, &counts), ESR_DONE);
    WANT(counts.entries_left, 0);
    WANT(esr_renew_carrying(&engine, list, 1, &count), ESR_DONE);
    WANT(count == 1 && list[0].old_txn == 1 && list[0].new_txn == 1 && list[0].settled == 0, 1);
    WANT(esr_counts_of(&engine, &counts), ESR_DONE);
    WANT(counts.entries_left, left);
    WANT(accepted_read(&engine, &reply), left == 0 ? ESR_HISTORY_FULL : ESR_DONE);
    WANT(esr_commit(&engine, 1, &reply), ESR_DONE);
    WANT(reply.kind, ESR_COMMITTED);
    WANT(esr_values(&engine, values, 2, &count), ESR_DONE);
    WANT(values[0] == 7 && values[1] == 6, 1);
    esr_close(&engine);
}

int main(void) {
    fill(refused_begin, true);
    fill(accepted_read, true);
    fill(refused_write, true);
    fill(ended_commit, true);
    fill(held_read, true);
    fill(begun_query, false);
    abort_all();
    carry(accepted_read, 0);
    carry(refused_write, ESR_MAX_ENTRIES - 3);
    return wrong;
}
