/* Misuses that are detected: none does harm. */
#include "esr.h"
#include <stdio.h>

static int wrong;
#define WANT(call, wanted) \
    do { \
        unsigned long long got_ = (unsigned long long)(call); \
        if (got_ != (unsigned long long)(wanted)) { \
            fprintf(stderr, "line %d: %s is %llu\n", __LINE__, #call, got_); \
            wrong = 1; \
        } \
    } while (0)

_Static_assert(sizeof(esr_engine) == 2 * sizeof(void *), "an engine is two words");
_Static_assert(sizeof(esr_event) == 32, "an event is four words");
_Static_assert(sizeof(esr_carried) == 16, "a carried transaction is two words");
_Static_assert(sizeof(esr_counts) == 40 && sizeof(esr_account) == 24, "counts are five words, an account three");
_Static_assert(sizeof(esr_reply) == 24 && sizeof(esr_totals) == 24 && sizeof(esr_finding) == 24, "results are three words");

static void closed(esr_engine *engine) {
    esr_reply reply = {9, 9, 9, 9};
    esr_totals totals;
    esr_counts counts;
    esr_account account;
    esr_finding finding;
    esr_event event = {ESR_BEGIN_UPDATE, 0, 0, 0, 0};
    uint32_t before[1];
    uint8_t bytes[1] = {0};
    int64_t values[1];
    esr_carried carried[1] = {{9, 9, 9}};
    size_t count;
    WANT(esr_begin_update(engine, 0, &reply), ESR_IS_CLOSED);
    WANT(esr_begin_query(engine, 0, true, &reply), ESR_IS_CLOSED);
    WANT(esr_read(engine, 1, 0, &reply), ESR_IS_CLOSED);
    WANT(esr_write(engine, 1, 0, 0, &reply), ESR_IS_CLOSED);
    WANT(esr_commit(engine, 1, &reply), ESR_IS_CLOSED);
    WANT(esr_abort(engine, 1, &reply), ESR_IS_CLOSED);
    WANT(reply.kind == 9 && reply.refusal == 9 && reply.txn == 9 && reply.value == 9, 1);
    WANT(esr_totals_of(engine, &totals), ESR_IS_CLOSED);
    WANT(esr_values(engine, values, 1, &count), ESR_IS_CLOSED);
    WANT(esr_audit(engine, 1, before, 1, &finding), ESR_IS_CLOSED);
    WANT(esr_bundle(engine, 1, bytes, 1, &count), ESR_IS_CLOSED);
    WANT(esr_history_script(engine, bytes, 0, bytes, 1, &count), ESR_IS_CLOSED);
    WANT(esr_explain(engine, 1, bytes, 0, bytes, 1, &count), ESR_IS_CLOSED);
    WANT(esr_picture(engine, 1, bytes, 0, bytes, 1, &count), ESR_IS_CLOSED);
    WANT(esr_ledger(engine, bytes, 1, &count), ESR_IS_CLOSED);
    WANT(esr_do(engine, &event, 1, &reply, 0, false, &count), ESR_IS_CLOSED);
    WANT(esr_renew(engine), ESR_IS_CLOSED);
    WANT(esr_renew_aborting(engine), ESR_IS_CLOSED);
    count = 9;
    WANT(esr_renew_carrying(engine, carried, 1, &count), ESR_IS_CLOSED);
    WANT(count == 9 && carried[0].old_txn == 9 && carried[0].new_txn == 9 && carried[0].settled == 9, 1);
    WANT(esr_read_for_update(engine, 1, 0, &reply), ESR_IS_CLOSED);
    WANT(esr_counts_of(engine, &counts), ESR_IS_CLOSED);
    WANT(esr_account_of(engine, 1, &account), ESR_IS_CLOSED);
    esr_close(engine);
}

static void refused(esr_status status, const esr_reply *reply, uint32_t refusal) {
    WANT(status, ESR_DONE);
    WANT(reply->kind, ESR_REFUSED);
    WANT(reply->refusal, refusal);
}

static void open_engine(esr_engine *engine) {
    static const int64_t many[4097], far[2] = {0, 1000000000001}, opening[2] = {500, 1500};
    static const uint32_t none[4097], heavy[2] = {1000, 1001};
    WANT(esr_open(engine, many, 4097), ESR_TOO_MANY_ITEMS);
    WANT(esr_open(engine, far, 2), ESR_VALUE_OUT_OF_RANGE);
    WANT(esr_open_weighted(engine, opening, 2, none, 1), ESR_WEIGHT_OUT_OF_RANGE);
    WANT(esr_open_weighted(engine, opening, 2, heavy, 2), ESR_WEIGHT_OUT_OF_RANGE);
    WANT(esr_open_weighted(engine, opening, 2, none, 4097), ESR_TOO_MANY_ITEMS);
    closed(engine);
    WANT(esr_open(engine, opening, 2), ESR_DONE);
    WANT(esr_open(engine, opening, 2), ESR_IS_OPEN);
}

static void events(esr_engine *engine) {
    esr_reply reply;
    refused(esr_begin_update(engine, 1000000000000000001, &reply), &reply, ESR_LIMIT_OUT_OF_RANGE);
    refused(esr_commit(engine, 1, &reply), &reply, ESR_NO_SUCH_TRANSACTION);
    WANT(esr_begin_query(engine, 0, false, &reply), ESR_DONE);
    WANT(reply.txn, 1);
    refused(esr_write(engine, 1, 0, 0, &reply), &reply, ESR_QUERY_MAY_NOT_WRITE);
    refused(esr_read(engine, 1, 2, &reply), &reply, ESR_NO_SUCH_ITEM);
    WANT(esr_renew(engine), ESR_TRANSACTION_ACTIVE);
    WANT(esr_commit(engine, 1, &reply), ESR_DONE);
    refused(esr_abort(engine, 1, &reply), &reply, ESR_ALREADY_ENDED);
    WANT(esr_begin_update(engine, 0, &reply), ESR_DONE);
    refused(esr_write(engine, 2, 0, -1000000000001, &reply), &reply, ESR_WRITTEN_VALUE_OUT_OF_RANGE);
    WANT(esr_write(engine, 2, 0, 7, &reply), ESR_DONE);
    WANT(esr_abort(engine, 2, &reply), ESR_DONE);
}

static void small_rooms(esr_engine *engine) {
    int64_t values[2] = {1, 2};
    uint32_t before[1];
    uint8_t bytes[4] = {1, 2, 3, 4};
    size_t count = 0;
    esr_finding finding;
    WANT(esr_values(engine, values, 1, &count), ESR_TOO_SMALL);
    WANT(count, 2);
    WANT(values[0], 1);
    WANT(esr_values(engine, values, 2, &count), ESR_DONE);
    WANT(values[0], 500);
    WANT(esr_audit(engine, 2, before, 1, &finding), ESR_NOT_A_COMMITTED_QUERY);
    WANT(esr_audit(engine, 1, before, 1, &finding), ESR_DONE);
    WANT(finding.count, 0);
    WANT(esr_bundle(engine, 1, bytes, 4, &count), ESR_TOO_SMALL);
    WANT(bytes[3], 4);
    WANT(esr_bundle(engine, 3, bytes, 4, &count), ESR_NOT_A_COMMITTED_QUERY);
}

int main(void) {
    esr_engine engine = ESR_CLOSED, other = ESR_CLOSED;
    int64_t opening[1] = {5};
    esr_reply reply;
    closed(&engine);
    open_engine(&engine);
    WANT(esr_open(&other, opening, 1), ESR_DONE);
    events(&engine);
    small_rooms(&engine);
    WANT(esr_renew(&engine), ESR_DONE);
    WANT(esr_begin_update(&other, 0, &reply), ESR_DONE);
    WANT(reply.txn, 1);
    esr_close(&other);
    esr_close(&engine);
    esr_close(&engine);
    closed(&engine);
    WANT(esr_open(&engine, opening, 1), ESR_DONE);
    esr_close(&engine);
    return wrong;
}
