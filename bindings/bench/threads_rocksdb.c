/* The load of threads.h over RocksDB's TransactionDB, in a folder in memory, without a log. */
#include "threads.h"
#include <rocksdb/c.h>

static rocksdb_transactiondb_t *database;
static rocksdb_writeoptions_t *writing;
static rocksdb_readoptions_t *reading;
static rocksdb_transaction_options_t *options;

static void open_store(void) {
    static char folder[] = "/dev/shm/esr-rocksdb-XXXXXX";
    char *error = NULL;
    MUST(mkdtemp(folder));
    rocksdb_options_t *opening = rocksdb_options_create();
    rocksdb_options_set_create_if_missing(opening, 1);
    database = rocksdb_transactiondb_open(opening, rocksdb_transactiondb_options_create(), folder, &error);
    MUST(!error);
    writing = rocksdb_writeoptions_create();
    rocksdb_writeoptions_disable_WAL(writing, 1);
    reading = rocksdb_readoptions_create();
    options = rocksdb_transaction_options_create();
    rocksdb_transaction_options_set_deadlock_detect(options, 1);
    for (uint32_t item = 0; item < ITEMS; item++) {
        int64_t value = 0;
        rocksdb_transactiondb_put(database, writing, (char *)&item, sizeof item, (char *)&value, sizeof value, &error);
        MUST(!error);
    }
}
static void *open_session(void) { return NULL; }
static bool transaction(void *session, const uint32_t *items) {
    char *error = NULL;
    (void)session;
    rocksdb_transaction_t *txn = rocksdb_transaction_begin(database, writing, options, NULL);
    for (int pair = 0; pair < PAIRS && !error; pair++) {
        size_t length;
        int64_t value;
        const char *key = (const char *)&items[pair];
        char *found = rocksdb_transaction_get_for_update(txn, reading, key, sizeof items[pair], &length, 1, &error);
        if (error) break;
        MUST(found && length == sizeof value);
        memcpy(&value, found, sizeof value);
        free(found);
        value++;
        rocksdb_transaction_put(txn, key, sizeof items[pair], (char *)&value, sizeof value, &error);
    }
    if (!error) rocksdb_transaction_commit(txn, &error);
    bool committed = !error;
    if (error) {
        char *ignored = NULL;
        rocksdb_transaction_rollback(txn, &ignored);
        free(ignored);
        free(error);
    }
    rocksdb_transaction_destroy(txn);
    return committed;
}
static int64_t sum_of(void *session, uint32_t count, uint32_t stride) {
    const rocksdb_snapshot_t *snapshot = rocksdb_transactiondb_create_snapshot(database);
    rocksdb_readoptions_t *mine = rocksdb_readoptions_create();
    int64_t sum = 0;
    (void)session;
    rocksdb_readoptions_set_snapshot(mine, snapshot);
    for (uint32_t n = 0; n < count; n++) {
        uint32_t item = n * stride;
        size_t length;
        int64_t value;
        char *error = NULL, *found = rocksdb_transactiondb_get(database, mine, (char *)&item, sizeof item, &length, &error);
        MUST(!error && found && length == sizeof value);
        memcpy(&value, found, sizeof value);
        free(found);
        sum += value;
    }
    rocksdb_readoptions_destroy(mine);
    rocksdb_transactiondb_release_snapshot(database, snapshot);
    return sum;
}
