/* bdb TRANSACTIONS [shared]: the load over Berkeley DB, with its records, its log and its locks in memory. With `shared` it
 * is opened so that several threads may use it. */
#include "load.h"
#include <db.h>
#include <string.h>

static DB_ENV *environment;
static DB *table;

static void open_table(uint32_t shared) {
    MUST(db_env_create(&environment, 0) == 0);
    MUST(environment->log_set_config(environment, DB_LOG_IN_MEMORY, 1) == 0);
    MUST(environment->set_lg_bsize(environment, 64 << 20) == 0);
    MUST(environment->set_cachesize(environment, 0, 64 << 20, 1) == 0);
    MUST(environment->open(environment, NULL,
        DB_CREATE | DB_PRIVATE | DB_INIT_MPOOL | DB_INIT_TXN | DB_INIT_LOG | DB_INIT_LOCK | shared, 0) == 0);
    MUST(db_create(&table, environment, 0) == 0);
    MUST(table->open(table, NULL, NULL, "items", DB_BTREE, DB_CREATE | DB_AUTO_COMMIT | shared, 0) == 0);
}

static int64_t value_of(DB_TXN *txn, uint32_t item, uint32_t flags) {
    int64_t value = 0;
    DBT key, data;
    memset(&key, 0, sizeof key);
    memset(&data, 0, sizeof data);
    key.data = &item;
    key.size = sizeof item;
    data.data = &value;
    data.ulen = sizeof value;
    data.flags = DB_DBT_USERMEM;
    MUST(table->get(table, txn, &key, &data, flags) == 0);
    return value;
}
static void set_value(DB_TXN *txn, uint32_t item, int64_t value) {
    DBT key, data;
    memset(&key, 0, sizeof key);
    memset(&data, 0, sizeof data);
    key.data = &item;
    key.size = sizeof item;
    data.data = &value;
    data.size = sizeof value;
    MUST(table->put(table, txn, &key, &data, 0) == 0);
}

int main(int count, char **words) {
    long transactions = count > 1 ? atol(words[1]) : 100000;
    uint64_t state = 88172645463325252u;
    DB_TXN *txn;
    open_table(count > 2 ? DB_THREAD : 0);
    for (uint32_t item = 0; item < ITEMS; item++) set_value(NULL, item, 0);
    times from = now();
    for (long n = 0; n < transactions; n++) {
        MUST(environment->txn_begin(environment, NULL, &txn, 0) == 0);
        for (int pair = 0; pair < PAIRS; pair++) {
            uint32_t item = next_below(&state, ITEMS);
            set_value(txn, item, value_of(txn, item, DB_RMW) + 1);
        }
        MUST(txn->commit(txn, DB_TXN_NOSYNC) == 0);
    }
    times to = now();
    int64_t sum = 0;
    for (uint32_t item = 0; item < ITEMS; item++) sum += value_of(NULL, item, 0);
    report(transactions, from, to, sum, 0);
    return 0;
}
