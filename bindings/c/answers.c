/* The bank of the README, call by call: the result and the outputs of each call, and what it leaves unchanged. */
#include "esr.h"
#include <stdio.h>
#include <string.h>

static int wrong;
#define WANT(call, wanted) \
    do { \
        long long got_ = (long long)(call); \
        if (got_ != (long long)(wanted)) { \
            fprintf(stderr, "line %d: %s is %lld\n", __LINE__, #call, got_); \
            wrong = 1; \
        } \
    } while (0)

static void begun(esr_status status, const esr_reply *reply, uint32_t txn) {
    WANT(status, ESR_DONE);
    WANT(reply->kind, ESR_BEGUN);
    WANT(reply->txn, txn);
}

static void value(esr_status status, const esr_reply *reply, int64_t wanted) {
    WANT(status, ESR_DONE);
    WANT(reply->kind, ESR_VALUE);
    WANT(reply->value, wanted);
}

static void answered(esr_status status, const esr_reply *reply, uint32_t kind) {
    WANT(status, ESR_DONE);
    WANT(reply->kind, kind);
}

/* A report reads between the two writes of a transfer, each of which changes a value that it read by 100. */
static void day(esr_engine *engine) {
    static const int64_t opening[2] = {500, 1500};
    esr_reply reply;
    WANT(esr_open(engine, opening, 2), ESR_DONE);
    WANT(esr_open(engine, opening, 2), ESR_IS_OPEN);
    begun(esr_begin_update(engine, 200, &reply), &reply, 1);
    begun(esr_begin_query(engine, 200, false, &reply), &reply, 2);
    answered(esr_write(engine, 1, 0, 400, &reply), &reply, ESR_WROTE);
    value(esr_read(engine, 2, 0, &reply), &reply, 400);
    value(esr_read(engine, 2, 1, &reply), &reply, 1500);
    answered(esr_write(engine, 1, 1, 1600, &reply), &reply, ESR_WROTE);
    answered(esr_commit(engine, 1, &reply), &reply, ESR_COMMITTED);
    WANT(esr_renew(engine), ESR_TRANSACTION_ACTIVE);
    answered(esr_commit(engine, 2, &reply), &reply, ESR_COMMITTED);
}

/* The report is 100 from the state before the transfer, and was charged 200. A refusal leaves the finding unchanged. */
static void audit(esr_engine *engine) {
    uint32_t before[2] = {7, 7};
    esr_finding finding = {0, 0, 9};
    esr_totals totals = {9, 9, 9};
    WANT(esr_audit(engine, 2, before, 2, &finding), ESR_DONE);
    WANT(finding.distance, 100);
    WANT(finding.import, 200);
    WANT(finding.count, 0);
    WANT(before[0], 7);
    WANT(esr_audit(engine, 1, before, 2, &finding), ESR_NOT_A_COMMITTED_QUERY);
    WANT(finding.distance, 100);
    WANT(esr_totals_of(engine, &totals), ESR_DONE);
    WANT(totals.high, 0);
    WANT(totals.low, 200);
    WANT(totals.entries, 8);
}

/* The call returns the length of the bundle if the buffer is too small, and writes it if the buffer is just large enough. A
 * truncated bundle is bad, and one with another worth is invalid. */
static void bundle(esr_engine *engine) {
    static uint8_t bytes[1000];
    size_t length = 0, again = 0;
    esr_verdict verdict = {0, 0};
    WANT(esr_bundle(engine, 2, bytes, 1, &length), ESR_TOO_SMALL);
    WANT(bytes[0], 0);
    WANT(length > 100 && length < sizeof bytes, 1);
    WANT(esr_bundle(engine, 2, bytes, length - 1, &again), ESR_TOO_SMALL);
    WANT(esr_bundle(engine, 2, bytes, length, &again), ESR_DONE);
    WANT(again, length);
    WANT(bytes[0], '{');
    WANT(bytes[length - 1], '}');
    WANT(bytes[length], 0);
    WANT(esr_bundle(engine, 1, bytes, length, &again), ESR_NOT_A_COMMITTED_QUERY);
    WANT(esr_check(bytes, length, &verdict), ESR_DONE);
    WANT(verdict.kind, ESR_VALID);
    WANT(verdict.number, 100);
    WANT(esr_check(bytes, length - 1, &verdict), ESR_DONE);
    WANT(verdict.kind, ESR_BAD);
    WANT(verdict.number, 1);
    memcpy(strstr((char *)bytes, "\"worth\":100"), "\"worth\":200", 11);
    WANT(esr_check(bytes, length, &verdict), ESR_DONE);
    WANT(verdict.kind, ESR_INVALID);
    WANT(verdict.number, 6);
}

/* A renewal keeps only the committed values: numbers restart at 1, and an abort restores them. */
static void renewed(esr_engine *engine) {
    int64_t values[2] = {0, 0};
    size_t count = 0;
    esr_totals totals = {1, 1, 1};
    esr_reply reply;
    WANT(esr_renew(engine), ESR_DONE);
    WANT(esr_values(engine, values, 2, &count), ESR_DONE);
    WANT(count, 2);
    WANT(values[0], 400);
    WANT(values[1], 1600);
    WANT(esr_totals_of(engine, &totals), ESR_DONE);
    WANT(totals.high, 0);
    WANT(totals.low, 0);
    WANT(totals.entries, 0);
    begun(esr_begin_update(engine, 0, &reply), &reply, 1);
    answered(esr_write(engine, 1, 0, 1, &reply), &reply, ESR_WROTE);
    value(esr_read(engine, 1, 0, &reply), &reply, 1);
    answered(esr_abort(engine, 1, &reply), &reply, ESR_ABORTED);
    WANT(esr_values(engine, values, 2, &count), ESR_DONE);
    WANT(values[0], 400);
}

static void account(esr_engine *engine, uint32_t txn, uint64_t limit, uint64_t charged) {
    esr_account account = {false, 9, 0, 0};
    WANT(esr_account_of(engine, txn, &account), ESR_DONE);
    WANT(account.status, ESR_ACTIVE);
    WANT(account.limit, limit);
    WANT(account.charged, charged);
}

/* A report (1) has read item 1, which an update (2) then changed by 3 and committed, and item 0 after an active update (3) changed
 * it by 7. So the report is charged 10, of which 7 are open and are charged again in the new history. */
static void carried(void) {
    static const int64_t opening[2] = {100, 200};
    esr_engine engine = ESR_CLOSED;
    esr_reply reply;
    esr_carried list[3] = {{9, 9, 9}, {9, 9, 9}, {9, 9, 9}};
    esr_counts counts;
    esr_finding finding;
    uint32_t before[1];
    int64_t values[2];
    size_t count = 9;
    WANT(esr_open(&engine, opening, 2), ESR_DONE);
    begun(esr_begin_query(&engine, 20, true, &reply), &reply, 1);
    begun(esr_begin_update(&engine, 30, &reply), &reply, 2);
    begun(esr_begin_update(&engine, 30, &reply), &reply, 3);
    value(esr_read(&engine, 1, 1, &reply), &reply, 200);
    answered(esr_write(&engine, 2, 1, 203, &reply), &reply, ESR_WROTE);
    answered(esr_commit(&engine, 2, &reply), &reply, ESR_COMMITTED);
    answered(esr_write(&engine, 3, 0, 107, &reply), &reply, ESR_WROTE);
    value(esr_read(&engine, 1, 0, &reply), &reply, 107);
    account(&engine, 1, 20, 10);
    account(&engine, 3, 30, 7);
    WANT(esr_renew_carrying(&engine, list, 1, &count), ESR_TOO_SMALL);
    WANT(count, 2);
    WANT(list[0].old_txn == 9 && list[0].new_txn == 9 && list[0].settled == 9, 1);
    account(&engine, 3, 30, 7);
    WANT(esr_renew_carrying(&engine, list, 3, &count), ESR_DONE);
    WANT(count, 2);
    WANT(list[0].old_txn == 1 && list[0].new_txn == 1 && list[0].settled == 3, 1);
    WANT(list[1].old_txn == 3 && list[1].new_txn == 2 && list[1].settled == 0, 1);
    WANT(list[2].old_txn == 9 && list[2].new_txn == 9 && list[2].settled == 9, 1);
    WANT(esr_counts_of(&engine, &counts), ESR_DONE);
    WANT(counts.entries, 5);
    WANT(counts.transactions, 2);
    WANT(counts.active, 2);
    WANT(esr_values(&engine, values, 2, &count), ESR_DONE);
    WANT(values[0] == 100 && values[1] == 203, 1);
    account(&engine, 1, 17, 7);
    account(&engine, 2, 30, 7);
    begun(esr_begin_update(&engine, 30, &reply), &reply, 3);
    answered(esr_write(&engine, 3, 0, 1, &reply), &reply, ESR_REFUSED);
    WANT(reply.refusal, ESR_BLOCKED_BY_LOCK);
    WANT(reply.txn, 2);
    value(esr_read(&engine, 2, 0, &reply), &reply, 107);
    value(esr_read(&engine, 1, 1, &reply), &reply, 203);
    value(esr_read(&engine, 1, 0, &reply), &reply, 107);
    account(&engine, 1, 17, 14);
    answered(esr_read(&engine, 1, 0, &reply), &reply, ESR_REFUSED);
    WANT(reply.refusal, ESR_BLOCKED_BY_IMPORT);
    WANT(reply.txn, 1);
    answered(esr_commit(&engine, 2, &reply), &reply, ESR_COMMITTED);
    answered(esr_write(&engine, 3, 0, 108, &reply), &reply, ESR_WROTE);
    account(&engine, 1, 17, 16);
    answered(esr_abort(&engine, 3, &reply), &reply, ESR_ABORTED);
    answered(esr_commit(&engine, 1, &reply), &reply, ESR_COMMITTED);
    WANT(esr_audit(&engine, 1, before, 1, &finding), ESR_DONE);
    WANT(finding.distance == 0 && finding.import == 16 && finding.count == 1 && before[0] == 2, 1);
    WANT(esr_renew_carrying(&engine, list, 0, &count), ESR_DONE);
    WANT(count, 0);
    WANT(esr_values(&engine, values, 2, &count), ESR_DONE);
    WANT(values[0] == 107 && values[1] == 203, 1);
    begun(esr_begin_update(&engine, 0, &reply), &reply, 1);
    esr_close(&engine);
}

/* Weights: a difference of 10 on an item of weight 3 is charged 30, on the item past the list 10. They stay at a renewal. */
static void weights(void) {
    static const int64_t opening[2] = {100, 100};
    static const uint32_t three[1] = {3};
    esr_engine engine = ESR_CLOSED;
    esr_reply reply;
    esr_account account;
    WANT(esr_open_weighted(&engine, opening, 2, three, 1), ESR_DONE);
    for (int round = 0; round < 2; round++) {
        begun(esr_begin_update(&engine, 40, &reply), &reply, 1);
        begun(esr_begin_query(&engine, 100, true, &reply), &reply, 2);
        answered(esr_write(&engine, 1, 0, 90, &reply), &reply, ESR_WROTE);
        answered(esr_write(&engine, 1, 1, 110, &reply), &reply, ESR_WROTE);
        value(esr_read(&engine, 2, 0, &reply), &reply, 90);
        WANT(esr_account_of(&engine, 2, &account), ESR_DONE);
        WANT(account.query, true);
        WANT(account.status, ESR_ACTIVE);
        WANT(account.charged, 30);
        value(esr_read(&engine, 2, 1, &reply), &reply, 110);
        WANT(esr_account_of(&engine, 1, &account), ESR_DONE);
        WANT(account.query, false);
        WANT(account.limit, 40);
        WANT(account.charged, 40);
        answered(esr_abort(&engine, 1, &reply), &reply, ESR_ABORTED);
        answered(esr_commit(&engine, 2, &reply), &reply, ESR_COMMITTED);
        WANT(esr_account_of(&engine, 1, &account), ESR_DONE);
        WANT(account.status, ESR_ABORTED);
        WANT(esr_account_of(&engine, 2, &account), ESR_DONE);
        WANT(account.status, ESR_COMMITTED);
        WANT(esr_account_of(&engine, 3, &account), ESR_NOT_BEGUN);
        WANT(esr_renew(&engine), ESR_DONE);
    }
    esr_close(&engine);
}

/* Of two updates that change one item, the second is blocked at its read, not at its write. */
static void for_update(void) {
    static const int64_t opening[1] = {7};
    esr_engine engine = ESR_CLOSED;
    esr_reply reply;
    esr_counts counts;
    WANT(esr_open(&engine, opening, 1), ESR_DONE);
    begun(esr_begin_update(&engine, 0, &reply), &reply, 1);
    begun(esr_begin_update(&engine, 0, &reply), &reply, 2);
    value(esr_read_for_update(&engine, 1, 0, &reply), &reply, 7);
    answered(esr_read_for_update(&engine, 2, 0, &reply), &reply, ESR_REFUSED);
    WANT(reply.refusal, ESR_BLOCKED_BY_LOCK);
    WANT(reply.txn, 1);
    answered(esr_write(&engine, 1, 0, 8, &reply), &reply, ESR_WROTE);
    value(esr_read_for_update(&engine, 1, 0, &reply), &reply, 8);
    answered(esr_commit(&engine, 1, &reply), &reply, ESR_COMMITTED);
    value(esr_read_for_update(&engine, 2, 0, &reply), &reply, 8);
    answered(esr_read_for_update(&engine, 2, 1, &reply), &reply, ESR_REFUSED);
    WANT(reply.refusal, ESR_NO_SUCH_ITEM);
    WANT(esr_counts_of(&engine, &counts), ESR_DONE);
    WANT(counts.entries, 11);
    WANT(counts.transactions, 2);
    WANT(counts.active, 1);
    WANT(counts.entries_left, 1000000 - 12);
    WANT(counts.transactions_left, 65533);
    esr_close(&engine);
}

/* Many events in one call: it stops after the first refusal if asked to, and at the first event that is not valid. Events after
 * that write nothing. */
static void many(void) {
    static const int64_t opening[1] = {7};
    static const esr_event sale[5] = {
        {ESR_BEGIN_UPDATE, 0, 0, 10, 0},
        {ESR_READ, 1, 0, 0, 0},
        {ESR_WRITE, 1, 1, 0, 6},
        {ESR_WRITE, 1, 0, 0, 6},
        {ESR_COMMIT, 1, 0, 0, 0},
    };
    static const esr_event look[3] = {{ESR_BEGIN_STRICT_QUERY, 0, 0, 1, 0}, {ESR_READ, 2, 0, 0, 0}, {9, 2, 0, 0, 0}};
    esr_engine engine = ESR_CLOSED;
    esr_reply replies[5] = {{0, 0, 0, 0}}, reply;
    esr_counts counts;
    size_t answered_events = 99;
    WANT(esr_open(&engine, opening, 1), ESR_DONE);
    WANT(esr_do(&engine, sale, 5, replies, 4, true, &answered_events), ESR_TOO_SMALL);
    WANT(answered_events, 99);
    WANT(esr_do(&engine, sale, 5, replies, 5, true, &answered_events), ESR_DONE);
    WANT(answered_events, 3);
    WANT(replies[0].txn, 1);
    WANT(replies[1].value, 7);
    WANT(replies[2].refusal, ESR_NO_SUCH_ITEM);
    WANT(replies[3].kind, 0);
    WANT(esr_do(&engine, sale + 2, 3, replies, 5, false, &answered_events), ESR_DONE);
    WANT(answered_events, 3);
    WANT(replies[0].kind, ESR_REFUSED);
    WANT(replies[1].kind, ESR_WROTE);
    WANT(replies[2].kind, ESR_COMMITTED);
    WANT(esr_do(&engine, look, 3, replies, 5, true, &answered_events), ESR_NO_SUCH_EVENT);
    WANT(answered_events, 2);
    WANT(replies[1].value, 6);
    WANT(esr_counts_of(&engine, &counts), ESR_DONE);
    WANT(counts.entries, 8);
    answered(esr_abort(&engine, 2, &reply), &reply, ESR_ABORTED);
    esr_close(&engine);
}

/* The script has the accepted and the blocked events, and no other refusal. */
static void past(void) {
    static const int64_t opening[2] = {500, -1500};
    static const uint32_t weights[1] = {3};
    static const char wanted[] = "item checking 500 weight 3\nitem savings -1500\nbegin t1 update 200\nbegin t2 query 90 strict\n"
                                 "write t1 checking 450\nread t2 checking\nabort t1\ncommit t2\n";
    static const uint8_t names[] = "checking\nsavings", twice[] = "a\na", one[] = "checking", odd[] = "checking\nmy savings";
    static uint8_t bytes[20000];
    esr_engine engine = ESR_CLOSED;
    esr_reply reply;
    size_t length = 0;
    WANT(esr_open_weighted(&engine, opening, 2, weights, 1), ESR_DONE);
    begun(esr_begin_update(&engine, 200, &reply), &reply, 1);
    answered(esr_begin_update(&engine, UINT64_MAX, &reply), &reply, ESR_REFUSED);
    begun(esr_begin_query(&engine, 90, true, &reply), &reply, 2);
    answered(esr_write(&engine, 1, 0, 450, &reply), &reply, ESR_WROTE);
    answered(esr_write(&engine, 1, 7, 450, &reply), &reply, ESR_REFUSED);
    answered(esr_read(&engine, 2, 0, &reply), &reply, ESR_REFUSED);
    WANT(reply.refusal, ESR_BLOCKED_BY_IMPORT);
    answered(esr_abort(&engine, 1, &reply), &reply, ESR_ABORTED);
    answered(esr_commit(&engine, 2, &reply), &reply, ESR_COMMITTED);
    WANT(esr_history_script(&engine, names, sizeof names - 1, bytes, 10, &length), ESR_TOO_SMALL);
    WANT(length, sizeof wanted - 1);
    WANT(bytes[0], 0);
    WANT(esr_history_script(&engine, names, sizeof names - 1, bytes, sizeof bytes, &length), ESR_DONE);
    WANT(length, sizeof wanted - 1);
    WANT(memcmp(bytes, wanted, length), 0);
    WANT(esr_history_script(&engine, names, 0, bytes, sizeof bytes, &length), ESR_DONE);
    WANT(memcmp(bytes, "item i0 500 weight 3\n", 21), 0);
    WANT(esr_history_script(&engine, one, sizeof one - 1, bytes, sizeof bytes, &length), ESR_BAD_NAMES);
    WANT(esr_history_script(&engine, twice, sizeof twice - 1, bytes, sizeof bytes, &length), ESR_BAD_NAMES);
    WANT(esr_history_script(&engine, odd, sizeof odd - 1, bytes, sizeof bytes, &length), ESR_BAD_NAMES);
    esr_close(&engine);
}

/* Returns whether a text begins with a prefix and contains no 0. */
static bool begins(const uint8_t *bytes, size_t length, const char *head) {
    return length >= strlen(head) && memcmp(bytes, head, strlen(head)) == 0 && memchr(bytes, 0, length) == NULL;
}

/* A report between the halves of a transfer: its explanation to the byte, its picture as one element, and the ledger. */
static void told(void) {
    static const int64_t opening[2] = {500, 1500};
    static const char explained[] =
        "read checking 400 nearest 500 off 100\nread savings 1500 nearest 1500 off 0\n"
        "charge read t1 checking amount 100 step 4 import left 100 of 200 export left 100 of 200\n"
        "charge write t1 savings amount 100 step 6 import left 0 of 200 export left 0 of 200\n"
        "before -\nafter t1\ndistance 100 import 200\n";
    static const char rows[] = "number,name,kind,limit,charged,left,reads,writes,blocked_by_lock,blocked_by_import,blocked_by_export,end,"
                               "distance,first_line,last_line\n"
                               "1,t1,update,200,200,0,0,2,0,0,0,committed,,3,9\n2,t2,query,200,200,0,2,0,0,0,0,committed,100,4,10\n";
    static const uint8_t names[] = "checking\nsavings";
    static uint8_t bytes[20000];
    esr_engine engine = ESR_CLOSED;
    esr_reply reply;
    size_t length = 7;
    WANT(esr_explain(&engine, 2, names, 0, bytes, sizeof bytes, &length), ESR_IS_CLOSED);
    WANT(esr_open(&engine, opening, 2), ESR_DONE);
    begun(esr_begin_update(&engine, 200, &reply), &reply, 1);
    begun(esr_begin_query(&engine, 200, false, &reply), &reply, 2);
    answered(esr_write(&engine, 1, 0, 400, &reply), &reply, ESR_WROTE);
    value(esr_read(&engine, 2, 0, &reply), &reply, 400);
    value(esr_read(&engine, 2, 1, &reply), &reply, 1500);
    answered(esr_write(&engine, 1, 1, 1600, &reply), &reply, ESR_WROTE);
    answered(esr_commit(&engine, 1, &reply), &reply, ESR_COMMITTED);
    WANT(esr_explain(&engine, 2, names, 0, bytes, sizeof bytes, &length), ESR_NOT_A_COMMITTED_QUERY);
    WANT(esr_picture(&engine, 1, names, 0, bytes, sizeof bytes, &length), ESR_NOT_A_COMMITTED_QUERY);
    WANT(length, 7);
    answered(esr_commit(&engine, 2, &reply), &reply, ESR_COMMITTED);
    WANT(esr_explain(&engine, 2, names, 5, bytes, sizeof bytes, &length), ESR_BAD_NAMES);
    WANT(esr_explain(&engine, 2, names, sizeof names - 1, bytes, 10, &length), ESR_TOO_SMALL);
    WANT(length, sizeof explained - 1);
    WANT(bytes[0], 0);
    WANT(esr_explain(&engine, 2, names, sizeof names - 1, bytes, sizeof bytes, &length), ESR_DONE);
    WANT(length, sizeof explained - 1);
    WANT(memcmp(bytes, explained, length), 0);
    WANT(esr_picture(&engine, 2, names, sizeof names - 1, bytes, sizeof bytes, &length), ESR_DONE);
    WANT(begins(bytes, length, "<svg"), true);
    WANT(memcmp(bytes + length - 7, "</svg>\n", 7), 0);
    WANT(esr_ledger(&engine, bytes, 10, &length), ESR_TOO_SMALL);
    WANT(esr_ledger(&engine, bytes, sizeof bytes, &length), ESR_DONE);
    WANT(length, sizeof rows - 1);
    WANT(memcmp(bytes, rows, length), 0);
    esr_close(&engine);
}

/* Each status and each refusal has a text, and different meanings have different texts. */
static void texts(void) {
    WANT(strcmp(esr_status_text(ESR_HISTORY_FULL), "history full"), 0);
    WANT(strcmp(esr_status_text(99), "no such status"), 0);
    WANT(strcmp(esr_refusal_text(ESR_BLOCKED_BY_LOCK), "blocked by a lock"), 0);
    WANT(strcmp(esr_refusal_text(0), "no such refusal"), 0);
    for (uint32_t n = 1; n <= 11; n++) WANT(strcmp(esr_refusal_text(n), "no such refusal") == 0, 0);
}

int main(void) {
    esr_engine engine = ESR_CLOSED;
    esr_reply reply;
    weights();
    carried();
    for_update();
    many();
    past();
    told();
    texts();
    day(&engine);
    audit(&engine);
    bundle(&engine);
    renewed(&engine);
    esr_close(&engine);
    memset(&reply, 0, sizeof reply);
    WANT(esr_abort(&engine, 1, &reply), ESR_IS_CLOSED);
    WANT(reply.kind, 0);
    return wrong;
}
