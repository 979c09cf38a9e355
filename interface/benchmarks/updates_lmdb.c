// What LMDB writes for a durable update of the same keys: updates_lmdb DIRECTORY.
#include <lmdb.h>
#include <stdio.h>
#include <stdlib.h>

#include "workload.h"
#include "written.h"

static MDB_env *environment;
static MDB_dbi database;

static void expect(int result)
{
    if (result != MDB_SUCCESS) {
        fprintf(stderr, "lmdb: %s\n", mdb_strerror(result));
        exit(1);
    }
}

static MDB_txn *begin(void)
{
    MDB_txn *transaction;
    expect(mdb_txn_begin(environment, NULL, 0, &transaction));
    return transaction;
}

static void put(MDB_txn *transaction, uint32_t number)
{
    uint32_t record = 1;
    MDB_val key = {sizeof number, &number}, value = {sizeof record, &record};
    expect(mdb_put(transaction, database, &key, &value, MDB_NOOVERWRITE));
}

static void insert(uint32_t number)
{
    MDB_txn *transaction = begin();
    put(transaction, number);
    expect(mdb_txn_commit(transaction));
}

static void delete (uint32_t number)
{
    MDB_txn *transaction = begin();
    MDB_val key = {sizeof number, &number};
    expect(mdb_del(transaction, database, &key, NULL));
    expect(mdb_txn_commit(transaction));
}

int main(int count, char **arguments)
{
    if (count != 2)
        return 2;
    for (int i = 0; i < RANDOM_WORKLOADS; i++) {
        const workload *w = &workloads[i];
        char path[500];
        snprintf(path, sizeof path, "%s/%u.lmdb", arguments[1], w->nodes);
        expect(mdb_env_create(&environment));
        expect(mdb_env_set_mapsize(environment, 1 << 24));
        expect(mdb_env_open(environment, path, MDB_NOSUBDIR, 0600));
        MDB_txn *transaction = begin();
        expect(mdb_dbi_open(transaction, NULL, MDB_INTEGERKEY, &database));
        for (uint32_t pair = 0; pair < w->pairs; pair++)
            put(transaction, w->key(pair));
        expect(mdb_txn_commit(transaction));
        measure_updates(w, insert, absent_key, w->inserts, "an insert");
        measure_updates(w, delete, held_key, w->pairs, "a delete");
        mdb_env_close(environment);
    }
    return 0;
}
