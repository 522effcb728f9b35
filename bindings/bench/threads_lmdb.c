/* The load of threads.h over LMDB, in a file in memory, without sync. */
#include "threads.h"
#include <lmdb.h>

static MDB_env *environment;
static MDB_dbi table;

static int64_t value_of(MDB_txn *txn, uint32_t item) {
    int64_t value;
    MDB_val key = {sizeof item, &item}, data;
    MUST(mdb_get(txn, table, &key, &data) == 0);
    memcpy(&value, data.mv_data, sizeof value);
    return value;
}
static void set_value(MDB_txn *txn, uint32_t item, int64_t value) {
    MDB_val key = {sizeof item, &item}, data = {sizeof value, &value};
    MUST(mdb_put(txn, table, &key, &data, 0) == 0);
}

static void open_store(void) {
    char folder[] = "/dev/shm/esr-lmdb-XXXXXX";
    MDB_txn *txn;
    MUST(mkdtemp(folder) && chdir(folder) == 0);
    MUST(mdb_env_create(&environment) == 0 && mdb_env_set_mapsize(environment, 64 << 20) == 0);
    MUST(mdb_env_open(environment, "data", MDB_NOSUBDIR | MDB_NOSYNC | MDB_WRITEMAP | MDB_NOTLS, 0600) == 0);
    MUST(mdb_txn_begin(environment, NULL, 0, &txn) == 0 && mdb_dbi_open(txn, NULL, MDB_INTEGERKEY, &table) == 0);
    for (uint32_t item = 0; item < ITEMS; item++) set_value(txn, item, 0);
    MUST(mdb_txn_commit(txn) == 0);
    MUST(unlink("data") == 0 && unlink("data-lock") == 0 && rmdir(folder) == 0);
}
static void *open_session(void) { return NULL; }
static bool transaction(void *session, const uint32_t *items) {
    MDB_txn *txn;
    (void)session;
    MUST(mdb_txn_begin(environment, NULL, 0, &txn) == 0);
    for (int pair = 0; pair < PAIRS; pair++) set_value(txn, items[pair], value_of(txn, items[pair]) + 1);
    MUST(mdb_txn_commit(txn) == 0);
    return true;
}
static int64_t sum_of(void *session, uint32_t count, uint32_t stride) {
    MDB_txn *txn;
    int64_t sum = 0;
    (void)session;
    MUST(mdb_txn_begin(environment, NULL, MDB_RDONLY, &txn) == 0);
    for (uint32_t n = 0; n < count; n++) sum += value_of(txn, n * stride);
    mdb_txn_abort(txn);
    return sum;
}
