/* The load of threads.h over SQLite, in memory, by one connection under a lock, which is its fastest way. */
#include "threads.h"
#include <sqlite3.h>

static sqlite3 *database;
static sqlite3_stmt *begins, *commits, *reads, *writes;
static pthread_mutex_t lock = PTHREAD_MUTEX_INITIALIZER;

static sqlite3_stmt *prepared(const char *text) {
    sqlite3_stmt *statement;
    MUST(sqlite3_prepare_v2(database, text, -1, &statement, NULL) == SQLITE_OK);
    return statement;
}
static void run(sqlite3_stmt *statement) {
    MUST(sqlite3_step(statement) == SQLITE_DONE);
    sqlite3_reset(statement);
}
static int64_t value_of(uint32_t item) {
    sqlite3_bind_int(reads, 1, (int)item);
    MUST(sqlite3_step(reads) == SQLITE_ROW);
    int64_t value = sqlite3_column_int64(reads, 0);
    sqlite3_reset(reads);
    return value;
}

static void open_store(void) {
    MUST(sqlite3_open_v2(":memory:", &database, SQLITE_OPEN_READWRITE | SQLITE_OPEN_CREATE | SQLITE_OPEN_NOMUTEX, NULL) == SQLITE_OK);
    run(prepared("create table items (item integer primary key, value integer)"));
    run(prepared("with recursive n(x) as (select 0 union all select x + 1 from n where x < 4095) "
        "insert into items select x, 0 from n"));
    begins = prepared("begin");
    commits = prepared("commit");
    reads = prepared("select value from items where item = ?");
    writes = prepared("update items set value = ?2 where item = ?1");
}
static void *open_session(void) { return NULL; }
static bool transaction(void *session, const uint32_t *items) {
    (void)session;
    pthread_mutex_lock(&lock);
    run(begins);
    for (int pair = 0; pair < PAIRS; pair++) {
        int64_t value = value_of(items[pair]);
        sqlite3_bind_int(writes, 1, (int)items[pair]);
        sqlite3_bind_int64(writes, 2, value + 1);
        run(writes);
    }
    run(commits);
    pthread_mutex_unlock(&lock);
    return true;
}
static int64_t sum_of(void *session, uint32_t count, uint32_t stride) {
    int64_t sum = 0;
    (void)session;
    pthread_mutex_lock(&lock);
    for (uint32_t n = 0; n < count; n++) sum += value_of(n * stride);
    pthread_mutex_unlock(&lock);
    return sum;
}
