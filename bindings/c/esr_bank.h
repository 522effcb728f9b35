/* esr_bank: one engine shared by POSIX threads, with retries, deadlock resolution by a time limit, and renewal.
 *
 *     esr_bank bank;
 *     if (esr_bank_open(&bank, opening, items, 10.0) != ESR_DONE) ...
 *     esr_bank_result result = esr_bank_transact(&bank, 200, transfer, &amount);
 *     esr_bank_close(&bank);
 *
 * A transaction is a function, the body. It returns true to commit and false to abort:
 *
 *     static bool transfer(esr_bank_txn *t, void *context) {
 *         int64_t amount = *(int64_t *)context;
 *         return esr_bank_add(t, 0, -amount) && esr_bank_add(t, 1, amount);
 *     }
 *
 * A body may run several times, so it must have no effects other than reads and writes of items. If a call in it returns
 * false, it must return false at once: the bank then restarts the transaction or reports the reason. A body must not begin
 * another transaction of the same bank.
 *
 * How it works. Each event is one engine call under the bank's lock, and the lock is free while a body computes or waits. A
 * blocked event waits until some transaction ends and is then retried. If it was blocked for its turn (50 ms, doubled by each
 * restart), the transaction is aborted and restarted after a random pause; so transactions that block each other in a cycle
 * yield to one another. A transaction that has waited for longer than the bank's patience gives up. When the history is full,
 * the engine is renewed, and the active transactions are carried over: see esr_bank_before_renewal. No transaction waits for
 * another one's end because of that, unless nearly all entries of the history are needed for active transactions. A renewal
 * that carries searches the whole history under the lock, so a history with a carried transaction is short (ESR_BANK_SHORT),
 * which divides the same time among more renewals. A renewal without active transactions does not search, and the engine
 * keeps its memory.
 *
 * The calls of esr.h that are not events, such as esr_ledger and esr_explain, work on bank.engine under bank.lock. They need
 * the number of a transaction: esr_bank_run has it, and a body finds it in t->txn, which it reads under bank.lock. It is valid
 * until the next renewal; an active transaction then has another one.
 *
 * The header needs -pthread and POSIX.1-2008 (define _POSIX_C_SOURCE as 200809L before the first header). It is plain C over
 * the proved engine: nothing in it is proved. Rejected: one lock for a whole transaction, under which a report would block
 * every update; detecting cycles, which needs the waits-for graph, while a time limit also covers waits for limits.
 */
#ifndef ESR_BANK_H
#define ESR_BANK_H

#include "esr.h"
#include <pthread.h>
#include <stdlib.h>
#include <time.h>

#if defined(__STRICT_ANSI__) && !defined(_GNU_SOURCE) && !defined(_DEFAULT_SOURCE) && !defined(_XOPEN_SOURCE) \
    && (!defined(_POSIX_C_SOURCE) || _POSIX_C_SOURCE < 200809L)
#error "esr_bank.h needs POSIX.1-2008: define _POSIX_C_SOURCE as 200809L before the first #include"
#endif

#ifdef __cplusplus
extern "C" {
#endif

/* A history into which a transaction was carried is renewed at this number of entries plus twice those at its opening: a
 * renewal that carries takes a time for each entry, in which all threads wait. */
#define ESR_BANK_SHORT 100000u

typedef enum esr_bank_result {
    ESR_BANK_DONE = 0,     /* committed */
    ESR_BANK_ABORTED = 1,  /* the body returned false of its own accord */
    ESR_BANK_TIMED_OUT = 2, /* blocked for longer than the patience */
    ESR_BANK_REFUSED = 3,  /* a mistake of the caller: the refusal, ESR_NO_SUCH_ITEM for example, is in esr_bank_txn */
    ESR_BANK_FULL = 4,     /* the history is full, and could not be renewed within the patience */
    ESR_BANK_FAILED = 5    /* the engine returned another status, such as ESR_NO_MEMORY: it is in esr_bank_txn */
} esr_bank_result;

/* Returns the text of a result. */
static inline const char *esr_bank_result_text(esr_bank_result result) {
    switch (result) {
    case ESR_BANK_DONE: return "committed";
    case ESR_BANK_ABORTED: return "aborted by its body";
    case ESR_BANK_TIMED_OUT: return "blocked for longer than the patience";
    case ESR_BANK_REFUSED: return "refused";
    case ESR_BANK_FULL: return "the history is full";
    case ESR_BANK_FAILED: return "the engine failed";
    default: return "no such result";
    }
}

/* The audit of a report. If it was carried over renewals, its distance is an upper bound, and `count` is 0: its reads are
 * off by at most its charges over all histories. Otherwise the distance is exact, as in esr_finding. */
typedef struct esr_bank_finding {
    uint64_t distance, import;
    size_t count;
    uint64_t renewals; /* 0 if the distance is exact */
} esr_bank_finding;

typedef struct esr_bank {
    esr_engine engine;     /* use it only while holding the lock, for calls other than events and renewals */
    pthread_mutex_t lock;
    pthread_cond_t ended;  /* signalled when a transaction ends and after a renewal */
    double patience;       /* seconds that a transaction may wait in total */
    struct esr_bank_txn *active;
    esr_counts repeated;   /* the history when it was opened: the entries of the transactions carried into it */
    uint64_t carried;      /* the active transactions that were carried into the history */
    uint64_t commits, aborts, restarts, renewals;
    bool (*before_renewal)(struct esr_bank *bank, void *context);
    void *context;
} esr_bank;

/* A running transaction. */
typedef struct esr_bank_txn {
    esr_bank *bank;
    struct esr_bank_txn *next; /* among the active ones */
    uint32_t txn;          /* its number, for esr_explain, esr_picture and esr_bundle */
    uint64_t settled;      /* the part of its limit and of its charges that is in earlier histories only */
    uint64_t renewals;     /* that carried it over: after one, those calls show its reads as last repeated */
    uint32_t refusal;      /* the refusal that ended it, if the result is ESR_BANK_REFUSED */
    esr_status status;     /* the status that ended it, if the result is ESR_BANK_FAILED */
    double turn, waited;   /* seconds: the turn of an event, and the time waited so far */
    unsigned random;
    bool restarts;         /* it must be restarted */
    bool timed_out;
} esr_bank_txn;

typedef bool (*esr_bank_body)(esr_bank_txn *t, void *context);

/* Returns the seconds of a monotonic clock. */
static inline double esr_bank_now(void) {
    struct timespec now;
    clock_gettime(CLOCK_MONOTONIC, &now);
    return (double)now.tv_sec + (double)now.tv_nsec / 1e9;
}

/* Waits, holding the lock, until a transaction ends or some seconds have passed. Returns the seconds waited. */
static inline double esr_bank_wait(esr_bank *bank, double seconds) {
    double begun = esr_bank_now(), until = begun + seconds;
    struct timespec at = {(time_t)until, (long)((until - (double)(time_t)until) * 1e9)};
    pthread_cond_timedwait(&bank->ended, &bank->lock, &at);
    return esr_bank_now() - begun;
}

/* Opens a bank over opening values, with weights as in esr_open_weighted. `patience` is in seconds. Returns the status of
 * esr_open_weighted; the bank must be closed only after ESR_DONE. */
static inline esr_status esr_bank_open_weighted(esr_bank *bank, const int64_t *opening, size_t items, const uint32_t *weights,
                                                size_t weighted, double patience) {
    const esr_bank closed = {ESR_CLOSED, PTHREAD_MUTEX_INITIALIZER, PTHREAD_COND_INITIALIZER, 0, NULL, {0, 0, 0, 0, 0}, 0,
                             0, 0, 0, 0, NULL, NULL};
    *bank = closed;
    bank->patience = patience;
    esr_status status = esr_open_weighted(&bank->engine, opening, items, weights, weighted);
    if (status != ESR_DONE) return status;
    pthread_condattr_t monotonic;
    if (pthread_mutex_init(&bank->lock, NULL) || pthread_condattr_init(&monotonic)
        || pthread_condattr_setclock(&monotonic, CLOCK_MONOTONIC) || pthread_cond_init(&bank->ended, &monotonic)) {
        esr_close(&bank->engine);
        return ESR_NO_MEMORY;
    }
    pthread_condattr_destroy(&monotonic);
    return ESR_DONE;
}

/* Opens a bank without weights. */
static inline esr_status esr_bank_open(esr_bank *bank, const int64_t *opening, size_t items, double patience) {
    const uint32_t none[1] = {1};
    return esr_bank_open_weighted(bank, opening, items, none, 0, patience);
}

/* Sets a function that the bank calls, holding the lock, before it discards a full history, or one with a carried transaction
 * after ESR_BANK_SHORT entries: it may call esr_audit, esr_ledger and other calls that are not events on bank->engine. Active
 * transactions continue in the next history. If it returns false, the history is kept and the call is retried at the next
 * begin. */
static inline void esr_bank_before_renewal(esr_bank *bank, bool (*call)(esr_bank *bank, void *context), void *context) {
    pthread_mutex_lock(&bank->lock);
    bank->before_renewal = call;
    bank->context = context;
    pthread_mutex_unlock(&bank->lock);
}

/* Closes a bank that no thread uses any more. */
static inline void esr_bank_close(esr_bank *bank) {
    esr_close(&bank->engine);
    pthread_cond_destroy(&bank->ended);
    pthread_mutex_destroy(&bank->lock);
}

/* Assigns the active transactions their numbers after a renewal. The lock is held. */
static inline void esr_bank_renumber(esr_bank *bank, const esr_carried *carried, size_t count) {
    for (esr_bank_txn *t = bank->active; t; t = t->next) {
        size_t i = 0;
        while (i < count && carried[i].old_txn != t->txn) i++;
        if (i == count) continue; /* never: it is active */
        t->txn = carried[i].new_txn;
        t->settled += carried[i].settled;
        t->renewals++;
    }
}

/* Reports whether a renewal frees capacity: it repeats the entries of active transactions. The lock is held. */
static inline bool esr_bank_has_grown(esr_bank *bank) {
    esr_counts counts;
    if (esr_counts_of(&bank->engine, &counts) != ESR_DONE) return false;
    return counts.entries - bank->repeated.entries >= ESR_MAX_ENTRIES / 40
        || counts.transactions - bank->repeated.transactions >= ESR_MAX_TRANSACTIONS / 8;
}

/* Reports whether a history is to be renewed before it is full, because of a carried transaction. The lock is held. */
static inline bool esr_bank_is_long(esr_bank *bank) {
    esr_counts counts;
    return bank->carried && esr_counts_of(&bank->engine, &counts) == ESR_DONE
        && counts.entries >= 2 * bank->repeated.entries + ESR_BANK_SHORT;
}

/* Renews the engine, in place if no transaction is active, and otherwise carries the active ones over. Returns whether it did.
 * The lock is held. */
static inline bool esr_bank_renew(esr_bank *bank) {
    esr_counts counts;
    esr_carried *carried = NULL;
    size_t active, count = 0;
    bool renewed;
    if (!esr_bank_has_grown(bank)) return false;
    if (bank->before_renewal && !bank->before_renewal(bank, bank->context)) return false;
    if (esr_counts_of(&bank->engine, &counts) != ESR_DONE) return false;
    active = (size_t)counts.active;
    if (active == 0) {
        renewed = esr_renew(&bank->engine) == ESR_DONE;
    } else {
        carried = (esr_carried *)malloc(active * sizeof *carried);
        renewed = carried && esr_renew_carrying(&bank->engine, carried, active, &count) == ESR_DONE;
    }
    if (renewed) {
        esr_bank_renumber(bank, carried, count);
        esr_counts_of(&bank->engine, &bank->repeated);
        bank->carried = count;
        bank->renewals++;
        pthread_cond_broadcast(&bank->ended);
    }
    free(carried);
    return renewed;
}

/* Judges the status and the reply of one event. Returns true if it was executed, and sets `blocked` if it should be retried
 * after a wait. The lock is held. */
static inline bool esr_bank_judge(esr_bank_txn *t, esr_status status, const esr_reply *reply, bool *blocked) {
    *blocked = false;
    if (status == ESR_HISTORY_FULL) {
        t->restarts = true;
    } else if (status != ESR_DONE) {
        t->status = status;
    } else if (reply->kind != ESR_REFUSED) {
        return true;
    } else if (reply->refusal >= ESR_BLOCKED_BY_LOCK) {
        *blocked = true;
    } else {
        t->refusal = reply->refusal;
    }
    return false;
}

enum { ESR_BANK_READ, ESR_BANK_READ_FOR_UPDATE, ESR_BANK_WRITE, ESR_BANK_ADD };

/* Calls the engine for one event. The lock is held. */
static inline esr_status esr_bank_call(esr_bank_txn *t, int kind, uint32_t item, int64_t value, esr_reply *reply) {
    esr_engine *engine = &t->bank->engine;
    if (kind == ESR_BANK_READ) return esr_read(engine, t->txn, item, reply);
    if (kind == ESR_BANK_WRITE) return esr_write(engine, t->txn, item, value, reply);
    esr_status status = esr_read_for_update(engine, t->txn, item, reply);
    if (kind == ESR_BANK_READ_FOR_UPDATE || status != ESR_DONE || reply->kind == ESR_REFUSED) return status;
    return esr_write(engine, t->txn, item, reply->value + value, reply);
}

/* Executes one event of a transaction, with its waits. */
static inline bool esr_bank_event(esr_bank_txn *t, int kind, uint32_t item, int64_t value, int64_t *read) {
    esr_bank *bank = t->bank;
    esr_reply reply = {0, 0, 0, 0};
    bool blocked = false, done = false;
    double waited = 0;
    if (t->restarts || t->timed_out || t->refusal || t->status) return false;
    pthread_mutex_lock(&bank->lock);
    for (;;) {
        esr_status status = esr_bank_call(t, kind, item, value, &reply);
        if (status == ESR_HISTORY_FULL && esr_bank_renew(bank)) continue;
        done = esr_bank_judge(t, status, &reply, &blocked);
        if (!blocked) break;
        if (t->waited >= bank->patience) {
            t->timed_out = true;
            break;
        }
        if (waited >= t->turn) {
            t->restarts = true;
            break;
        }
        double slept = esr_bank_wait(bank, 0.005);
        waited += slept;
        t->waited += slept;
    }
    pthread_mutex_unlock(&bank->lock);
    if (done && read) *read = reply.value;
    return done;
}

/* Reads an item. */
static inline bool esr_bank_read(esr_bank_txn *t, uint32_t item, int64_t *value) {
    return esr_bank_event(t, ESR_BANK_READ, item, 0, value);
}

/* Takes the write lock on an item and reads it: for items that the update writes later. */
static inline bool esr_bank_read_for_update(esr_bank_txn *t, uint32_t item, int64_t *value) {
    return esr_bank_event(t, ESR_BANK_READ_FOR_UPDATE, item, 0, value);
}

/* Writes an item. */
static inline bool esr_bank_write(esr_bank_txn *t, uint32_t item, int64_t value) {
    return esr_bank_event(t, ESR_BANK_WRITE, item, value, NULL);
}

/* Adds to an item under its write lock. */
static inline bool esr_bank_add(esr_bank_txn *t, uint32_t item, int64_t change) {
    return esr_bank_event(t, ESR_BANK_ADD, item, change, NULL);
}

/* Begins a transaction. Renews a full history, and waits while that is not possible. Renews a long history if that is
 * possible. Returns whether it began. The lock is held. */
static inline bool esr_bank_begin(esr_bank_txn *t, bool query, bool strict, uint64_t limit) {
    esr_bank *bank = t->bank;
    esr_reply reply = {0, 0, 0, 0};
    bool blocked;
    for (;;) {
        if (esr_bank_is_long(bank)) esr_bank_renew(bank);
        esr_status status = query ? esr_begin_query(&bank->engine, limit, strict, &reply)
                                  : esr_begin_update(&bank->engine, limit, &reply);
        if (esr_bank_judge(t, status, &reply, &blocked)) {
            t->txn = reply.txn;
            t->settled = t->renewals = 0;
            t->restarts = false;
            t->next = bank->active;
            bank->active = t;
            return true;
        }
        if (!t->restarts) return false;
        if (esr_bank_renew(bank)) continue;
        if (t->waited >= bank->patience) {
            t->timed_out = true;
            return false;
        }
        t->waited += esr_bank_wait(bank, 0.005);
    }
}

/* Ends a transaction. Returns whether it committed. The lock is held. */
static inline bool esr_bank_end(esr_bank_txn *t, bool commits) {
    esr_bank *bank = t->bank;
    esr_reply reply;
    esr_status status = ESR_NO_MEMORY;
    if (commits) status = esr_commit(&bank->engine, t->txn, &reply);
    bool committed = status == ESR_DONE && reply.kind == ESR_COMMITTED;
    /* (a commit of an active transaction fails only without memory; an abort is retried, since its end is always possible) */
    if (commits && !committed) t->status = status;
    for (int tries = 0; !committed && tries < 1000; tries++) {
        if (esr_abort(&bank->engine, t->txn, &reply) == ESR_DONE) break;
    }
    if (committed) bank->commits++;
    else bank->aborts++;
    if (t->renewals) bank->carried--;
    esr_bank_txn **link = &bank->active;
    while (*link != t) link = &(*link)->next;
    *link = t->next;
    pthread_cond_broadcast(&bank->ended);
    return committed;
}

/* Stores the finding of a committed report: its audit, or its charges if it was carried over renewals. The lock is held. */
static inline esr_status esr_bank_audit(esr_bank_txn *t, esr_bank_finding *finding) {
    const esr_engine *engine = &t->bank->engine;
    esr_account account;
    esr_finding exact;
    uint32_t none[1];
    esr_status status;
    if (t->renewals) {
        status = esr_account_of(engine, t->txn, &account);
        if (status != ESR_DONE) return status;
        finding->distance = finding->import = t->settled + account.charged;
        finding->count = 0;
    } else {
        status = esr_audit(engine, t->txn, none, 0, &exact);
        if (status != ESR_DONE && status != ESR_TOO_SMALL) return status;
        finding->distance = exact.distance;
        finding->import = exact.import;
        finding->count = exact.count;
    }
    finding->renewals = t->renewals;
    return ESR_DONE;
}

/* Pauses for a random time up to some seconds, so that transactions that met once do not meet again. */
static inline void esr_bank_pause(esr_bank_txn *t, double seconds) {
    t->random = t->random * 1103515245u + 12345u;
    double pause = seconds * (double)(t->random >> 16) / 65536.0;
    struct timespec time = {(time_t)pause, (long)((pause - (double)(time_t)pause) * 1e9)};
    nanosleep(&time, NULL);
    t->waited += pause;
}

/* Runs a body as a transaction until it commits or fails. Stores the transaction in `t`, with its number, refusal and status.
 * A query is audited if `finding` is not NULL. esr_bank_transact and esr_bank_report are the usual calls. */
static inline esr_bank_result esr_bank_run(esr_bank *bank, bool query, bool strict, uint64_t limit, esr_bank_body body,
                                           void *context, esr_bank_finding *finding, esr_bank_txn *t) {
    const esr_bank_txn fresh = {bank, NULL, 0, 0, 0, 0, ESR_DONE, 0.05, 0, (unsigned)(uintptr_t)t ^ (unsigned)time(NULL),
                                false, false};
    *t = fresh;
    for (;;) {
        pthread_mutex_lock(&bank->lock);
        bool begun = esr_bank_begin(t, query, strict, limit);
        pthread_mutex_unlock(&bank->lock);
        if (!begun) return t->refusal ? ESR_BANK_REFUSED : t->status ? ESR_BANK_FAILED : ESR_BANK_FULL;
        bool wants = body(t, context);
        bool commits = wants && !t->restarts && !t->timed_out && !t->refusal && !t->status;
        pthread_mutex_lock(&bank->lock);
        bool committed = esr_bank_end(t, commits);
        if (committed && finding) {
            t->status = esr_bank_audit(t, finding);
        }
        if (t->restarts) bank->restarts++;
        pthread_mutex_unlock(&bank->lock);
        if (t->status) return ESR_BANK_FAILED;
        if (committed) return ESR_BANK_DONE;
        if (t->refusal) return ESR_BANK_REFUSED;
        if (t->timed_out) return ESR_BANK_TIMED_OUT;
        if (!t->restarts) return ESR_BANK_ABORTED;
        if (t->waited >= bank->patience) return ESR_BANK_TIMED_OUT;
        esr_bank_pause(t, t->turn / 10);
        t->turn *= 2;
    }
}

/* Runs an update. */
static inline esr_bank_result esr_bank_transact(esr_bank *bank, uint64_t limit, esr_bank_body body, void *context) {
    esr_bank_txn t;
    return esr_bank_run(bank, false, false, limit, body, context, NULL, &t);
}

/* Runs a report, and audits it if `finding` is not NULL. The audit holds the lock for about half a microsecond per
 * transaction of the history. */
static inline esr_bank_result esr_bank_report(esr_bank *bank, uint64_t limit, bool strict, esr_bank_body body, void *context,
                                              esr_bank_finding *finding) {
    esr_bank_txn t;
    return esr_bank_run(bank, true, strict, limit, body, context, finding, &t);
}

/* Stores the committed values of one moment, exact. Returns the status of esr_values. */
static inline esr_status esr_bank_snapshot(esr_bank *bank, int64_t *values, size_t capacity, size_t *count) {
    pthread_mutex_lock(&bank->lock);
    esr_status status = esr_values(&bank->engine, values, capacity, count);
    pthread_mutex_unlock(&bank->lock);
    return status;
}

#ifdef __cplusplus
}
#endif
#endif
