/* sqlite TRANSACTIONS: the load over SQLite, in memory, by prepared statements. */
#include "load.h"
#include <sqlite3.h>

static sqlite3 *database;

static sqlite3_stmt *prepared(const char *text) {
    sqlite3_stmt *statement;
    MUST(sqlite3_prepare_v2(database, text, -1, &statement, NULL) == SQLITE_OK);
    return statement;
}
static void run(sqlite3_stmt *statement) {
    MUST(sqlite3_step(statement) == SQLITE_DONE);
    sqlite3_reset(statement);
}
static int64_t value_of(sqlite3_stmt *statement, int item) {
    sqlite3_bind_int(statement, 1, item);
    MUST(sqlite3_step(statement) == SQLITE_ROW);
    int64_t value = sqlite3_column_int64(statement, 0);
    sqlite3_reset(statement);
    return value;
}

int main(int count, char **words) {
    long transactions = count > 1 ? atol(words[1]) : 100000;
    uint64_t state = 88172645463325252u;
    MUST(sqlite3_open(":memory:", &database) == SQLITE_OK);
    run(prepared("create table items (item integer primary key, value integer)"));
    run(prepared("with recursive n(x) as (select 0 union all select x + 1 from n where x < 4095) "
        "insert into items select x, 0 from n"));
    sqlite3_stmt *begins = prepared("begin"), *commits = prepared("commit");
    sqlite3_stmt *reads = prepared("select value from items where item = ?");
    sqlite3_stmt *writes = prepared("update items set value = ?2 where item = ?1");
    times from = now();
    for (long n = 0; n < transactions; n++) {
        run(begins);
        for (int pair = 0; pair < PAIRS; pair++) {
            int item = (int)next_below(&state, ITEMS);
            int64_t value = value_of(reads, item);
            sqlite3_bind_int(writes, 1, item);
            sqlite3_bind_int64(writes, 2, value + 1);
            run(writes);
        }
        run(commits);
    }
    times to = now();
    int64_t sum = 0;
    for (int item = 0; item < ITEMS; item++) sum += value_of(reads, item);
    report(transactions, from, to, sum, 0);
    return 0;
}
