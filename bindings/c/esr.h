/* esr: an embedded epsilon-serializable transaction engine. Version 0.3.0.
 *
 * An engine is a variable of the caller, initialized with ESR_CLOSED:
 *
 *     esr_engine engine = ESR_CLOSED;
 *     int64_t opening[2] = {500, 1500};
 *     if (esr_open(&engine, opening, 2) != ESR_DONE) ...
 *     ... esr_close(&engine);
 *
 * The caller must follow these rules, which the library cannot check:
 *
 * - Pass an engine to one call at a time. If several threads share it, take a lock around each call. An engine may move
 *   from thread to thread.
 * - The fields of an engine are private. Do not write them, and do not copy an engine: a copy would be a second owner of
 *   its memory. To move an engine, copy it and set the old variable to ESR_CLOSED.
 * - Every pointer points to a valid object, every list has the given length, and no two arguments overlap. The pointer of
 *   an empty list may be anything but NULL.
 * - `const esr_engine *` means that the call does not change the history. Such a call also needs exclusive access: it may
 *   cache results for the next call.
 * - Do not call the library from a signal handler, or in the child of a fork of a multithreaded process.
 * - malloc, realloc and free belong to one allocator.
 *
 * After a refusal, that is, a reply of kind ESR_REFUSED, no value, lock or charge has changed, and the history has one more
 * entry. The last three refusals are temporary: the same event may succeed after another transaction has ended, so retry
 * after a pause, or abort. Two updates that have both read an item block each other from writing it: read an item that you
 * will write with esr_read_for_update.
 *
 * An engine is never stuck. It reserves one entry for the end of each active transaction. An event for which no other
 * entry is left, and a begin for which no number is left, returns ESR_HISTORY_FULL and adds no entry. The caller then ends
 * the active transactions, or lets them end, audits the queries of interest, and calls esr_renew; or calls
 * esr_renew_carrying, which carries the active transactions over, or esr_renew_aborting, which aborts them. After a renewal,
 * transactions are numbered from 1 again: an old number may belong to another transaction.
 *
 * Calls before esr_open or after esr_close, and opening or closing twice, change nothing. Unknown numbers of transactions
 * and items, and values and limits out of range, cause a status or a refusal. Several engines may be open at once.
 *
 * Texts. Items and transactions have numbers, and texts have names: `t1` for transaction 1, and for the items the names
 * passed by the caller, one on each line ("checking\nsavings", without a line feed at the end), or `i0`, `i1` if the list
 * is empty. A name is a letter followed by up to 15 letters, digits or underscores. Texts are not terminated by a 0. To learn
 * the length of a text, call with a capacity of 0 and any buffer except NULL: the call stores the count and returns
 * ESR_TOO_SMALL.
 *
 *     uint8_t none[1], *ledger;
 *     size_t length;
 *     if (esr_ledger(&engine, none, 0, &length) == ESR_TOO_SMALL && (ledger = malloc(length)) != NULL)
 *         esr_ledger(&engine, ledger, length, &length);
 */
#ifndef ESR_H
#define ESR_H

#include <stdbool.h>
#include <stddef.h>
#include <stdint.h>

#ifdef __cplusplus
extern "C" {
#endif

#define ESR_VERSION "0.3.0"

/* The limits. */
#define ESR_MAX_ITEMS 4096u
#define ESR_MAX_ENTRIES 1000000u     /* in a history */
#define ESR_MAX_TRANSACTIONS 65535u  /* in a history */
#define ESR_MAX_READS 1000u          /* by a query */
#define ESR_MAX_VALUE INT64_C(1000000000000)
#define ESR_MAX_LIMIT UINT64_C(1000000000000000000)
#define ESR_MAX_WEIGHT 1000u

/* Deprecated names of the limits. */
#define ESR_MOST_ITEMS ESR_MAX_ITEMS
#define ESR_MOST_ENTRIES ESR_MAX_ENTRIES
#define ESR_MOST_TRANSACTIONS ESR_MAX_TRANSACTIONS
#define ESR_MOST_READS ESR_MAX_READS
#define ESR_LARGEST_VALUE ESR_MAX_VALUE
#define ESR_LARGEST_LIMIT ESR_MAX_LIMIT
#define ESR_LARGEST_WEIGHT ESR_MAX_WEIGHT

/* The status of a call. Unless it is ESR_DONE, nothing has changed, with four exceptions. With ESR_TOO_SMALL all but esr_do
 * have stored the count, and esr_audit the finding; the buffer is unchanged. esr_read_for_update may have taken the lock
 * before it returns ESR_NO_MEMORY. esr_do has executed the earlier events. esr_renew_carrying has stored the count also
 * with ESR_NO_MEMORY. */
typedef uint32_t esr_status;
enum {
    ESR_DONE = 0,
    ESR_TOO_MANY_ITEMS = 1,        /* opening: more than 4,096 items or weights */
    ESR_VALUE_OUT_OF_RANGE = 2,    /* opening: a value outside -10^12 to 10^12 */
    ESR_NOT_BEGUN = 3,             /* esr_account_of: no such transaction */
    ESR_WEIGHT_OUT_OF_RANGE = 4,   /* esr_open_weighted: a weight of 0, or above 1,000 */
    ESR_BAD_NAMES = 5,             /* a text: not one valid, distinct name for each item */
    ESR_NOT_A_COMMITTED_QUERY = 6, /* esr_audit, esr_bundle, esr_explain, esr_picture */
    ESR_TOO_SMALL = 7,             /* the buffer is too small; the count is stored, except by esr_do */
    ESR_NO_SUCH_EVENT = 8,         /* esr_do: an unknown kind of event */
    ESR_HISTORY_FULL = 12,         /* an event: no entry is left, besides those reserved for ends, or no transaction number */
    ESR_NO_MEMORY = 13,
    ESR_IS_CLOSED = 14,            /* the engine is not open */
    ESR_IS_OPEN = 15,              /* opening: the engine is already open */
    ESR_TRANSACTION_ACTIVE = 16    /* esr_renew */
};

typedef struct esr_engine {
    bool is_open;  /* private */
    void *machine; /* private */
} esr_engine;
#define ESR_CLOSED {false, NULL}

/* The reply to an event. A refusal is a reply too: it adds an entry to the history and changes nothing else. */
enum {
    ESR_BEGUN = 1,     /* txn: the number of the transaction, from 1 */
    ESR_VALUE = 2,     /* value: the value read */
    ESR_WROTE = 3,
    ESR_COMMITTED = 4,
    ESR_ABORTED = 5,
    ESR_REFUSED = 6    /* refusal: the reason; txn: the blocker, for the last three */
};
enum {
    ESR_NO_SUCH_TRANSACTION = 1,
    ESR_ALREADY_ENDED = 2,
    ESR_NO_SUCH_ITEM = 3,
    ESR_QUERY_MAY_NOT_WRITE = 4,
    ESR_WRITTEN_VALUE_OUT_OF_RANGE = 5,
    ESR_LIMIT_OUT_OF_RANGE = 6,    /* above 10^18 */
    ESR_TOO_MANY_TRANSACTIONS = 7, /* never returned here: see ESR_HISTORY_FULL */
    ESR_TOO_MANY_READS = 8,        /* by one query: more than 1,000 */
    ESR_BLOCKED_BY_LOCK = 9,       /* these three are temporary: retry, or abort */
    ESR_BLOCKED_BY_IMPORT = 10,
    ESR_BLOCKED_BY_EXPORT = 11
};
typedef struct esr_reply {
    uint32_t kind;
    uint32_t refusal;
    uint32_t txn;
    int64_t value;
} esr_reply;

typedef struct esr_totals {
    uint64_t high, low; /* total import of all queries = total export of all updates: high * 2^64 + low */
    uint64_t entries;
} esr_totals;

typedef struct esr_counts {
    uint64_t entries, transactions, active;
    uint64_t entries_left;      /* not reserved for the end of an active transaction */
    uint64_t transactions_left;
} esr_counts;

/* The account of a transaction. The reads of a query so far are off by at most its charges. */
typedef struct esr_account {
    bool query;      /* false for an update */
    uint32_t status; /* ESR_ACTIVE, ESR_COMMITTED or ESR_ABORTED */
    uint64_t limit;
    uint64_t charged; /* the import of a query, or the export of an update, so far */
} esr_account;
enum { ESR_ACTIVE = 0 };

typedef struct esr_finding {
    uint64_t distance; /* of the reads of the query from the nearest serial placement */
    uint64_t import;   /* the charges of the query: at least the distance */
    size_t count;      /* the number of updates before that placement */
} esr_finding;

typedef struct esr_verdict {
    uint32_t kind;
    uint64_t number;
} esr_verdict;
enum {
    ESR_VALID = 1,   /* number: the least cost, which the bundle proves */
    ESR_INVALID = 2, /* number: the first fault of the certificate */
    ESR_BAD = 3      /* number: the fault of the bundle, which is malformed */
};

esr_status esr_open(esr_engine *engine, const int64_t *opening, size_t items);
/* A difference of an item is multiplied by its weight, 1 to 1,000; an item without a weight has weight 1. */
esr_status esr_open_weighted(esr_engine *engine, const int64_t *opening, size_t items, const uint32_t *weights,
                             size_t weighted);
void esr_close(esr_engine *engine);

/* Events. Each call returns ESR_DONE and stores the reply, or changes neither the engine nor the reply. */
esr_status esr_begin_update(esr_engine *engine, uint64_t limit, esr_reply *reply);
esr_status esr_begin_query(esr_engine *engine, uint64_t limit, bool strict, esr_reply *reply);
esr_status esr_read(esr_engine *engine, uint32_t txn, uint32_t item, esr_reply *reply);
esr_status esr_write(esr_engine *engine, uint32_t txn, uint32_t item, int64_t value, esr_reply *reply);
esr_status esr_commit(esr_engine *engine, uint32_t txn, esr_reply *reply);
esr_status esr_abort(esr_engine *engine, uint32_t txn, esr_reply *reply);

/* Takes the write lock on an item by writing the item's current value, which is charged nothing, and then reads the item.
 * If the update already holds the lock, it only reads. The reply is the value, or the refusal of the write. No other update
 * can write the item between this read and the update's next write. The call needs two entries. */
esr_status esr_read_for_update(esr_engine *engine, uint32_t txn, uint32_t item, esr_reply *reply);

/* Executes several events in order, each as a separate call would, and stores their replies in order. Stops at the first
 * event that receives no reply, and, if `stop` is set, after the first refusal. Stores in `answered` the number of events
 * with a reply, including the refused one. `capacity` must be at least `count`. */
typedef struct esr_event {
    uint32_t kind;
    uint32_t txn;   /* of a read, write, commit or abort */
    uint32_t item;  /* of a read or write */
    uint64_t limit; /* of a begin */
    int64_t value;  /* of a write */
} esr_event;
enum {
    ESR_BEGIN_UPDATE = 1,
    ESR_READ = 2,
    ESR_WRITE = 3,
    ESR_COMMIT = 4,
    ESR_ABORT = 5,
    ESR_BEGIN_QUERY = 6,
    ESR_BEGIN_STRICT_QUERY = 7
};
esr_status esr_do(esr_engine *engine, const esr_event *events, size_t count, esr_reply *replies, size_t capacity, bool stop,
                  size_t *answered);

esr_status esr_totals_of(const esr_engine *engine, esr_totals *totals);
esr_status esr_counts_of(const esr_engine *engine, esr_counts *counts);
esr_status esr_account_of(const esr_engine *engine, uint32_t txn, esr_account *account);
/* Stores the committed values of the items, in their order. */
esr_status esr_values(const esr_engine *engine, int64_t *values, size_t capacity, size_t *count);
/* Audits a committed query. Stores the updates before the nearest placement in `before`, in commit order. If these exceed
 * `capacity`, the status is ESR_TOO_SMALL and the finding is stored nonetheless: for the distance alone, pass a capacity of 0. */
esr_status esr_audit(const esr_engine *engine, uint32_t query, uint32_t *before, size_t capacity, esr_finding *finding);
/* Stores the audit as one JSON object, without a terminating 0. `esr check` verifies it without this engine. */
esr_status esr_bundle(const esr_engine *engine, uint32_t query, uint8_t *bytes, size_t capacity, size_t *count);

/* Stores the history so far as a script for `esr run`, which reproduces each accepted and each blocked entry. Other
 * refusals have no line: they changed nothing, and their numbers may have no spelling in a script. */
esr_status esr_history_script(const esr_engine *engine, const uint8_t *names, size_t length, uint8_t *bytes, size_t capacity,
                              size_t *count);

/* Explains a committed query, as `esr explain` does for that script: each read with the value at the nearest serial
 * placement, each charge with its update, and the sums. esr_picture stores the drawing of `esr picture`, one SVG. A `step`
 * is the index of an entry of the history, from 1, including refusals. Each call computes the audit. */
esr_status esr_explain(const esr_engine *engine, uint32_t query, const uint8_t *names, size_t length, uint8_t *bytes,
                       size_t capacity, size_t *count);
esr_status esr_picture(const esr_engine *engine, uint32_t query, const uint8_t *names, size_t length, uint8_t *bytes,
                       size_t capacity, size_t *count);

/* Stores the ledger of the history so far, as `esr ledger --format csv` writes it for that script: a line with the names of
 * the fields, then one line for each transaction, with its limit, its charges and the rest of the limit, its counts of reads,
 * writes and blocked events, its end, and the distance of a committed query. It audits each committed query. */
esr_status esr_ledger(const esr_engine *engine, uint8_t *bytes, size_t capacity, size_t *count);

/* Stores the verdict on a bundle, as `esr check` does. It needs no engine. */
esr_status esr_check(const uint8_t *bytes, size_t length, esr_verdict *verdict);

/* Replaces the history by an empty one that starts at the committed values, with the same weights. Transactions are numbered
 * from 1 again, and the old history is discarded: audit the queries of interest first. Fails if a transaction is active. */
esr_status esr_renew(esr_engine *engine);
/* Like esr_renew, but succeeds in every state: it aborts the active transactions. */
esr_status esr_renew_aborting(esr_engine *engine);
/* Like esr_renew, but carries the active transactions over: in the new history each has its reads, its locks and the rest of
 * its limit. Stores them in `carried`, in ascending order, and their number in `count`; if that exceeds `capacity`, the status
 * is ESR_TOO_SMALL. The new numbers are 1, 2 and so on. Of the limit and the charges of a transaction, the part `settled` is
 * in the old history only: for its whole account, add the parts of all renewals to esr_account_of. The reads of a carried
 * query are repeated at the current values, so an audit of it in the new history is of the repeated reads; the values that it
 * has read are off by at most its whole charges. Only a lack of memory prevents this renewal. The new history has at least as
 * many entries left as the old one, and no more if each entry of the old one is needed for an active transaction. */
typedef struct esr_carried {
    uint32_t old_txn, new_txn;
    uint64_t settled;
} esr_carried;
esr_status esr_renew_carrying(esr_engine *engine, esr_carried *carried, size_t capacity, size_t *count);

/* Return the text of a status, and of a refusal. */
static inline const char *esr_status_text(esr_status status) {
    switch (status) {
    case ESR_DONE: return "done";
    case ESR_TOO_MANY_ITEMS: return "more than 4,096 items";
    case ESR_VALUE_OUT_OF_RANGE: return "value out of range";
    case ESR_NOT_BEGUN: return "no such transaction";
    case ESR_WEIGHT_OUT_OF_RANGE: return "weight out of range";
    case ESR_BAD_NAMES: return "not a name for each item";
    case ESR_NOT_A_COMMITTED_QUERY: return "not a committed query";
    case ESR_TOO_SMALL: return "buffer too small";
    case ESR_NO_SUCH_EVENT: return "no such event";
    case ESR_HISTORY_FULL: return "history full";
    case ESR_NO_MEMORY: return "out of memory";
    case ESR_IS_CLOSED: return "engine closed";
    case ESR_IS_OPEN: return "engine open";
    case ESR_TRANSACTION_ACTIVE: return "a transaction is active";
    default: return "no such status";
    }
}
static inline const char *esr_refusal_text(uint32_t refusal) {
    switch (refusal) {
    case ESR_NO_SUCH_TRANSACTION: return "no such transaction";
    case ESR_ALREADY_ENDED: return "already ended";
    case ESR_NO_SUCH_ITEM: return "no such item";
    case ESR_QUERY_MAY_NOT_WRITE: return "a query may not write";
    case ESR_WRITTEN_VALUE_OUT_OF_RANGE: return "value out of range";
    case ESR_LIMIT_OUT_OF_RANGE: return "limit out of range";
    case ESR_TOO_MANY_TRANSACTIONS: return "too many transactions";
    case ESR_TOO_MANY_READS: return "too many reads";
    case ESR_BLOCKED_BY_LOCK: return "blocked by a lock";
    case ESR_BLOCKED_BY_IMPORT: return "blocked by an import limit";
    case ESR_BLOCKED_BY_EXPORT: return "blocked by an export limit";
    default: return "no such refusal";
    }
}

#ifdef __cplusplus
}
#endif
#endif
