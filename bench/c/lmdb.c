// Blocks under numbers in LMDB: a save is one write transaction.
#include <lmdb.h>
#include <stdint.h>
#include <stdio.h>
#include <stdlib.h>
#include <string.h>
#include <unistd.h>

enum { MAP = 64 << 20 };

struct store {
    MDB_env *env;
    MDB_dbi table;
    size_t block;
};

static int table_of(struct store *store) {
    MDB_txn *txn;
    if (mdb_txn_begin(store->env, NULL, 0, &txn)) return 0;
    if (!mdb_dbi_open(txn, NULL, MDB_INTEGERKEY, &store->table)) return !mdb_txn_commit(txn);
    mdb_txn_abort(txn);
    return 0;
}

// The files lose their names at once: nothing is left behind.
static void unname(const char *path) {
    char lock[256];
    snprintf(lock, sizeof lock, "%s-lock", path);
    unlink(path);
    unlink(lock);
}

void bench_lmdb_close(struct store *store) {
    mdb_env_close(store->env);
    free(store);
}

struct store *bench_lmdb_open(const char *path, size_t block) {
    struct store *store = calloc(1, sizeof *store);
    if (!store || mdb_env_create(&store->env)) return NULL;
    store->block = block;
    int open = !mdb_env_set_mapsize(store->env, MAP) &&
               !mdb_env_open(store->env, path, MDB_NOSUBDIR | MDB_WRITEMAP | MDB_NOSYNC, 0600);
    unname(path);
    if (open && table_of(store)) return store;
    bench_lmdb_close(store);
    return NULL;
}

static int put(struct store *store, MDB_txn *txn, uint64_t number, const uint8_t *data) {
    MDB_val key = {sizeof number, &number};
    MDB_val value = {store->block, (void *)data};
    return mdb_put(txn, store->table, &key, &value, 0);
}

int bench_lmdb_save(struct store *store, const uint64_t *numbers, size_t n, const uint8_t *data) {
    MDB_txn *txn;
    if (mdb_txn_begin(store->env, NULL, 0, &txn)) return 0;
    for (size_t i = 0; i < n; i++) {
        if (put(store, txn, numbers[i], data + i * store->block)) {
            mdb_txn_abort(txn);
            return 0;
        }
    }
    return !mdb_txn_commit(txn);
}

static int same(struct store *store, MDB_txn *txn, uint64_t number, const uint8_t *data) {
    MDB_val key = {sizeof number, &number}, value;
    return !mdb_get(txn, store->table, &key, &value) && value.mv_size == store->block &&
           !memcmp(value.mv_data, data, store->block);
}

int bench_lmdb_holds(struct store *store, const uint64_t *numbers, size_t n, const uint8_t *data) {
    MDB_txn *txn;
    if (mdb_txn_begin(store->env, NULL, MDB_RDONLY, &txn)) return 0;
    int all = 1;
    for (size_t i = 0; i < n; i++) all &= same(store, txn, numbers[i], data + i * store->block);
    mdb_txn_abort(txn);
    return all;
}
