/* carried [SECONDS]: transactions of esr_bank.h that outlive their history. A report reads an item, outlives three histories of
 * updates, and reads another item: it is off by at most its finding from a state that the updates have left. An update holds
 * two locks over two renewals, and commits. The histories with these transactions are short, and only these renewals carry.
 * Then, for this time, threads move money next to long reports and updates. */
#define _XOPEN_SOURCE 700
#include "esr.h"
#include <stdio.h>
#include <string.h>

/* Counts the renewals that carry. */
static uint64_t carrying;
static inline esr_status counted_renew_carrying(esr_engine *engine, esr_carried *carried, size_t capacity, size_t *count) {
    carrying++;
    return esr_renew_carrying(engine, carried, capacity, count);
}
#define esr_renew_carrying counted_renew_carrying
#include "esr_bank.h"

enum { MOVERS = 3, ACCOUNTS = 8, EACH = 1000, X = ACCOUNTS, Y, HITS, ITEMS };
#define MUST(fact) \
    do { \
        if (!(fact)) { \
            fprintf(stderr, "line %d: %s\n", __LINE__, #fact); \
            exit(1); \
        } \
    } while (0)

static const uint64_t large = 1000000000;
static esr_bank bank;
static double until;
static int64_t state_of[1000000][2]; /* the states of items 0 and 1 that updates have left */
static size_t states;
static int64_t moved[MOVERS][ACCOUNTS];
static uint64_t longest_report; /* in renewals */
static int64_t slow_updates;

static bool hit(esr_bank_txn *t, void *context) {
    (void)context;
    return esr_bank_add(t, HITS, 1);
}

static uint64_t renewals(void) {
    pthread_mutex_lock(&bank.lock);
    uint64_t count = bank.renewals;
    pthread_mutex_unlock(&bank.lock);
    return count;
}

static bool step(esr_bank_txn *t, void *context) {
    const int64_t *state = context;
    return esr_bank_write(t, 0, state[0]) && esr_bank_write(t, 1, state[1]);
}

/* Reads item 0, waits for three renewals, and reads item 1. */
static bool outlive(esr_bank_txn *t, void *context) {
    int64_t *values = context;
    if (!esr_bank_read(t, 0, &values[0])) return false;
    while (renewals() < 3 && states < sizeof state_of / sizeof *state_of) {
        const int64_t *last = state_of[states - 1];
        int64_t next[2] = {last[0] - 1, last[1] + 2};
        MUST(esr_bank_transact(&bank, large, step, next) == ESR_BANK_DONE);
        memcpy(state_of[states++], next, sizeof next);
    }
    return esr_bank_read(t, 1, &values[1]);
}

static void report_outlives_three_histories(void) {
    int64_t values[2];
    uint64_t least = UINT64_MAX;
    esr_bank_finding finding;
    state_of[0][0] = state_of[0][1] = EACH;
    states = 1;
    MUST(esr_bank_report(&bank, large, false, outlive, values, &finding) == ESR_BANK_DONE);
    for (size_t i = 0; i < states; i++) {
        uint64_t off = (uint64_t)llabs(values[0] - state_of[i][0]) + (uint64_t)llabs(values[1] - state_of[i][1]);
        if (off < least) least = off;
    }
    MUST(0 < least && least <= finding.distance);
    MUST(finding.renewals == 3 && finding.import == states - 1 && finding.distance == finding.import);
    int64_t back[2] = {EACH, EACH};
    MUST(esr_bank_transact(&bank, 0, step, back) == ESR_BANK_DONE);
}

static bool take(esr_bank_txn *t, void *item) {
    return esr_bank_write(t, *(uint32_t *)item, 7);
}

/* Reads X and writes Y, outlives two histories, and writes X. Others cannot write either of them. */
static bool hold(esr_bank_txn *t, void *context) {
    uint64_t begun = renewals();
    int64_t x, y;
    (void)context;
    if (!esr_bank_read(t, X, &x) || !esr_bank_write(t, Y, 20)) return false;
    for (uint64_t round = 1; round <= 2; round++) {
        while (renewals() < begun + round) MUST(esr_bank_transact(&bank, 0, hit, NULL) == ESR_BANK_DONE);
        for (uint32_t item = X; item <= Y; item++) {
            bank.patience = 0.01;
            MUST(esr_bank_transact(&bank, 0, take, &item) == ESR_BANK_TIMED_OUT);
            bank.patience = 60;
        }
        MUST(esr_bank_read(t, X, &x) && esr_bank_read(t, Y, &y) && x == 0 && y == 20);
    }
    return esr_bank_write(t, X, 10);
}

static void update_holds_its_locks(void) {
    int64_t values[ITEMS], none[2] = {0, 0};
    size_t count;
    esr_bank_txn t;
    MUST(esr_bank_run(&bank, false, false, large, hold, none, NULL, &t) == ESR_BANK_DONE);
    MUST(t.renewals == 2);
    MUST(esr_bank_snapshot(&bank, values, ITEMS, &count) == ESR_DONE);
    MUST(values[X] == 10 && values[Y] == 20);
}

static uint64_t lengths[7]; /* the entries of the first histories, and those that were repeated */
static uint64_t repeated[7];

static bool note_length(esr_bank *full, void *unused) {
    esr_counts counts;
    (void)unused;
    MUST(esr_counts_of(&full->engine, &counts) == ESR_DONE);
    if (full->renewals < sizeof lengths / sizeof *lengths) {
        lengths[full->renewals] = counts.entries;
        repeated[full->renewals] = full->repeated.entries;
    }
    return true;
}

/* Writes Y, and outlives histories, the first of which is renewed when it is full. */
static bool outlive_five(esr_bank_txn *t, void *context) {
    (void)context;
    if (!esr_bank_write(t, Y, 20)) return false;
    while (renewals() < 5) MUST(esr_bank_transact(&bank, 0, hit, NULL) == ESR_BANK_DONE);
    return true;
}

/* While a carried transaction is active, a history is renewed after ESR_BANK_SHORT entries. Other renewals do not carry. */
static void histories_with_carried_transactions_are_short(void) {
    const int64_t opening[ITEMS] = {0};
    uint64_t carried = carrying;
    MUST(esr_bank_open(&bank, opening, ITEMS, 60.0) == ESR_DONE);
    esr_bank_before_renewal(&bank, note_length, NULL);
    while (renewals() < 1) MUST(esr_bank_transact(&bank, 0, hit, NULL) == ESR_BANK_DONE);
    MUST(carrying == carried);
    MUST(esr_bank_transact(&bank, large, outlive_five, NULL) == ESR_BANK_DONE);
    MUST(carrying == carried + 4 && bank.carried == 0);
    while (renewals() < 7) MUST(esr_bank_transact(&bank, 0, hit, NULL) == ESR_BANK_DONE);
    MUST(carrying == carried + 4);
    for (int i = 0; i < 7; i++) {
        bool is_short = 2 <= i && i < 5;
        MUST((repeated[i] == 0) == (i < 2 || i == 6));
        if (is_short) MUST(lengths[i] - 2 * repeated[i] - ESR_BANK_SHORT < 10);
        else MUST(lengths[i] > 3 * ESR_BANK_SHORT);
    }
    esr_bank_close(&bank);
}

typedef struct transfer {
    uint32_t from, to;
} transfer;

static bool move(esr_bank_txn *t, void *context) {
    const transfer *way = context;
    return esr_bank_add(t, way->from, -1) && esr_bank_add(t, way->to, 1);
}

static void *mover(void *number) {
    unsigned long id = (unsigned long)(uintptr_t)number, random = id + 1;
    while (esr_bank_now() < until) {
        transfer way;
        random = random * 6364136223846793005u + 1442695040888963407u;
        way.from = (uint32_t)(random >> 33) % ACCOUNTS;
        way.to = (uint32_t)(random >> 43) % ACCOUNTS;
        MUST(esr_bank_transact(&bank, large, move, &way) == ESR_BANK_DONE);
        moved[id][way.from]--;
        moved[id][way.to]++;
    }
    return NULL;
}

static void pause_for(double seconds) {
    struct timespec time = {(time_t)seconds, (long)((seconds - (double)(time_t)seconds) * 1e9)};
    if (seconds > 0) nanosleep(&time, NULL);
}

static bool sum_of_all(esr_bank_txn *t, void *context) {
    int64_t *sum = context, value;
    double pause = (until - esr_bank_now()) / (2 * ACCOUNTS);
    *sum = 0;
    for (uint32_t item = 0; item < ACCOUNTS; item++) {
        if (!esr_bank_read(t, item, &value)) return false;
        *sum += value;
        pause_for(pause);
    }
    return true;
}

static void *clerk(void *unused) {
    (void)unused;
    while (esr_bank_now() < until) {
        int64_t sum;
        esr_bank_finding finding;
        MUST(esr_bank_report(&bank, 10 * large, false, sum_of_all, &sum, &finding) == ESR_BANK_DONE);
        MUST((uint64_t)llabs(sum - ACCOUNTS * EACH) <= finding.distance && finding.distance <= finding.import);
        if (finding.renewals > longest_report) longest_report = finding.renewals;
    }
    return NULL;
}

static bool both(esr_bank_txn *t, void *unused) {
    (void)unused;
    if (!esr_bank_add(t, X, 1) || !esr_bank_add(t, Y, 1)) return false;
    pause_for(0.4);
    return true;
}

static void *slow(void *unused) {
    (void)unused;
    while (esr_bank_now() < until) {
        MUST(esr_bank_transact(&bank, 0, both, NULL) == ESR_BANK_DONE);
        slow_updates++;
    }
    return NULL;
}

static void soak(double seconds) {
    pthread_t threads[MOVERS + 2];
    int64_t values[ITEMS];
    size_t count;
    until = esr_bank_now() + seconds;
    for (unsigned long i = 0; i < MOVERS; i++) MUST(pthread_create(&threads[i], NULL, mover, (void *)(uintptr_t)i) == 0);
    MUST(pthread_create(&threads[MOVERS], NULL, clerk, NULL) == 0);
    MUST(pthread_create(&threads[MOVERS + 1], NULL, slow, NULL) == 0);
    for (int i = 0; i < MOVERS + 2; i++) MUST(pthread_join(threads[i], NULL) == 0);
    MUST(esr_bank_snapshot(&bank, values, ITEMS, &count) == ESR_DONE);
    for (int item = 0; item < ACCOUNTS; item++) {
        int64_t value = EACH;
        for (int i = 0; i < MOVERS; i++) value += moved[i][item];
        MUST(values[item] == value);
    }
    MUST(values[X] == 10 + slow_updates && values[Y] == 20 + slow_updates && bank.active == NULL);
    printf("%llu renewals of one report, %llu in all, %llu commits\n", (unsigned long long)longest_report,
           (unsigned long long)bank.renewals, (unsigned long long)bank.commits);
}

int main(int words, char **word) {
    int64_t opening[ITEMS];
    histories_with_carried_transactions_are_short();
    for (int item = 0; item < ITEMS; item++) opening[item] = item < ACCOUNTS ? EACH : 0;
    MUST(esr_bank_open(&bank, opening, ITEMS, 60.0) == ESR_DONE);
    report_outlives_three_histories();
    update_holds_its_locks();
    soak(words > 1 ? strtod(word[1], NULL) : 2);
    esr_bank_close(&bank);
    return 0;
}
