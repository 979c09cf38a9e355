// What SQLite writes for a durable update of the same keys: updates_sqlite DIRECTORY JOURNAL_MODE.
#include <sqlite3.h>
#include <stdio.h>
#include <stdlib.h>

#include "workload.h"
#include "written.h"

static sqlite3 *database;
static sqlite3_stmt *insert_statement, *delete_statement;

static void run(const char *sql)
{
    char *message;
    if (sqlite3_exec(database, sql, NULL, NULL, &message) != SQLITE_OK) {
        fprintf(stderr, "%s: %s\n", sql, message);
        exit(1);
    }
}

// One statement alone is one durable transaction.
static void run_with(sqlite3_stmt *statement, uint32_t key)
{
    sqlite3_bind_int64(statement, 1, key);
    if (sqlite3_step(statement) != SQLITE_DONE)
        exit(1);
    sqlite3_reset(statement);
}

static void insert(uint32_t key) { run_with(insert_statement, key); }
static void delete (uint32_t key) { run_with(delete_statement, key); }

int main(int count, char **arguments)
{
    if (count != 3)
        return 2;
    for (int i = 0; i < RANDOM_WORKLOADS; i++) {
        const workload *w = &workloads[i];
        char path[500], pragma[100];
        snprintf(path, sizeof path, "%s/%s-%u.sqlite", arguments[1], arguments[2], w->nodes);
        if (sqlite3_open(path, &database) != SQLITE_OK)
            return 1;
        snprintf(pragma, sizeof pragma, "PRAGMA journal_mode = %s", arguments[2]);
        run(pragma);
        run("PRAGMA synchronous = FULL");
        run("CREATE TABLE ration (number INTEGER PRIMARY KEY, record INTEGER)");
        sqlite3_prepare_v2(database, "INSERT OR IGNORE INTO ration VALUES (?, 1)", -1, &insert_statement, NULL);
        sqlite3_prepare_v2(database, "DELETE FROM ration WHERE number = ?", -1, &delete_statement, NULL);
        run("BEGIN");
        for (uint32_t pair = 0; pair < w->pairs; pair++)
            insert(w->key(pair));
        run("COMMIT");
        measure_updates(w, insert, absent_key, w->inserts, "an insert");
        measure_updates(w, delete, held_key, w->pairs, "a delete");
        sqlite3_finalize(insert_statement);
        sqlite3_finalize(delete_statement);
        sqlite3_close(database);
    }
    return 0;
}
