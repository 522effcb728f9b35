/* A shop over esr_bank.h: tills sell in threads while reports add up the stock. The bank retries blocked events, restarts
 * transactions that block each other, and renews its engine when the history is full. */
#define _POSIX_C_SOURCE 200809L
#include "esr_bank.h"
#include <stdio.h>

enum { TILLS = 4, GOODS = 16, STOCK = 1000000, SALES = 40000, SOLD = GOODS };
#define MUST(fact) \
    do { \
        if (!(fact)) { \
            fprintf(stderr, "line %d: %s\n", __LINE__, #fact); \
            exit(1); \
        } \
    } while (0)

static esr_bank bank;

/* Sells one piece of an article. */
static bool sale(esr_bank_txn *t, void *article) {
    return esr_bank_add(t, *(uint32_t *)article, -1) && esr_bank_add(t, SOLD, 1);
}

static void *till(void *number) {
    unsigned long first = (uintptr_t)number;
    for (unsigned long n = 0; n < SALES; n++) {
        uint32_t article = (uint32_t)((n * 7 + first * 5) % GOODS);
        MUST(esr_bank_transact(&bank, 10, sale, &article) == ESR_BANK_DONE);
    }
    return NULL;
}

/* Adds up the stock and the pieces sold, a sum that never changes. */
static bool count(esr_bank_txn *t, void *total) {
    int64_t sum = 0, value;
    for (uint32_t item = 0; item <= SOLD; item++) {
        if (!esr_bank_read(t, item, &value)) return false;
        sum += value;
    }
    *(int64_t *)total = sum;
    return true;
}

int main(void) {
    int64_t values[GOODS + 1], stock = 0, total;
    esr_bank_finding finding;
    pthread_t tills[TILLS];
    size_t items;
    int reports = 0;
    for (int i = 0; i < GOODS; i++) values[i] = STOCK;
    values[SOLD] = 0;
    MUST(esr_bank_open(&bank, values, GOODS + 1, 10.0) == ESR_DONE);
    for (unsigned long i = 0; i < TILLS; i++) MUST(pthread_create(&tills[i], NULL, till, (void *)(uintptr_t)i) == 0);
    for (int i = 0; i < 200; i++) {
        esr_bank_result result = esr_bank_report(&bank, 50, false, count, &total, &finding);
        if (result != ESR_BANK_DONE) continue;
        MUST(llabs((long long)total - (long long)GOODS * STOCK) <= (long long)finding.distance);
        MUST(finding.distance <= finding.import && finding.import <= 50);
        reports++;
    }
    for (int i = 0; i < TILLS; i++) MUST(pthread_join(tills[i], NULL) == 0);
    MUST(esr_bank_snapshot(&bank, values, GOODS + 1, &items) == ESR_DONE);
    for (int i = 0; i < GOODS; i++) stock += values[i];
    MUST(values[SOLD] == (int64_t)TILLS * SALES && stock == (int64_t)GOODS * STOCK - values[SOLD]);
    printf("%lld sold, %s reports, renewed %llu times\n", (long long)values[SOLD], reports > 0 ? "some" : "no",
           (unsigned long long)bank.renewals);
    esr_bank_close(&bank);
    return 0;
}
