/* The load of threads.h over Berkeley DB, with its records, its log and its locks in memory. A report reads committed values
 * one by one. */
#include "threads.h"
#include <db.h>

static DB_ENV *environment;
static DB *table;

static void open_store(void) {
    MUST(db_env_create(&environment, 0) == 0);
    MUST(environment->log_set_config(environment, DB_LOG_IN_MEMORY, 1) == 0);
    MUST(environment->set_lg_bsize(environment, 64 << 20) == 0);
    MUST(environment->set_cachesize(environment, 0, 64 << 20, 1) == 0);
    MUST(environment->set_lk_detect(environment, DB_LOCK_DEFAULT) == 0);
    MUST(environment->open(environment, NULL,
        DB_CREATE | DB_PRIVATE | DB_INIT_MPOOL | DB_INIT_TXN | DB_INIT_LOG | DB_INIT_LOCK | DB_THREAD, 0) == 0);
    MUST(db_create(&table, environment, 0) == 0);
    MUST(table->open(table, NULL, NULL, "items", DB_BTREE, DB_CREATE | DB_AUTO_COMMIT | DB_THREAD, 0) == 0);
    for (uint32_t item = 0; item < ITEMS; item++) {
        int64_t value = 0;
        DBT key = {.data = &item, .size = sizeof item}, data = {.data = &value, .size = sizeof value};
        MUST(table->put(table, NULL, &key, &data, 0) == 0);
    }
}
static void *open_session(void) { return NULL; }
static bool transaction(void *session, const uint32_t *items) {
    DB_TXN *txn;
    int result = 0;
    (void)session;
    MUST(environment->txn_begin(environment, NULL, &txn, 0) == 0);
    for (int pair = 0; pair < PAIRS && result == 0; pair++) {
        uint32_t item = items[pair];
        int64_t value = 0;
        DBT key = {.data = &item, .size = sizeof item};
        DBT data = {.data = &value, .size = sizeof value, .ulen = sizeof value, .flags = DB_DBT_USERMEM};
        result = table->get(table, txn, &key, &data, DB_RMW);
        value++;
        if (result == 0) result = table->put(table, txn, &key, &data, 0);
    }
    MUST(result == 0 || result == DB_LOCK_DEADLOCK);
    if (result == 0) {
        MUST(txn->commit(txn, DB_TXN_NOSYNC) == 0);
        return true;
    }
    MUST(txn->abort(txn) == 0);
    return false;
}
static int64_t sum_of(void *session, uint32_t count, uint32_t stride) {
    int64_t sum = 0;
    (void)session;
    for (uint32_t n = 0; n < count; n++) {
        uint32_t item = n * stride;
        int64_t value = 0;
        DBT key = {.data = &item, .size = sizeof item}, data = {.data = &value, .ulen = sizeof value, .flags = DB_DBT_USERMEM};
        int result = table->get(table, NULL, &key, &data, 0);
        while (result == DB_LOCK_DEADLOCK) result = table->get(table, NULL, &key, &data, 0);
        MUST(result == 0);
        sum += value;
    }
    return sum;
}
