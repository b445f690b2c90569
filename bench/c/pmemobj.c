// Blocks under numbers in a libpmemobj pool: a save is one transaction, each block snapshot and then overwritten.
#include <libpmemobj.h>
#include <stdint.h>
#include <stdlib.h>
#include <string.h>
#include <unistd.h>

enum { POOL = 64 << 20, BLOCKS = 128 };

// A key is its number plus one; zero where the block is free.
struct root {
    uint64_t keys[BLOCKS];
    uint8_t blocks[];
};

struct store {
    PMEMobjpool *pool;
    struct root *root;
    size_t block;
};

void bench_pmemobj_close(struct store *store) {
    pmemobj_close(store->pool);
    free(store);
}

// The file loses its name at once: nothing is left behind.
struct store *bench_pmemobj_open(const char *path, size_t block) {
    struct store *store = calloc(1, sizeof *store);
    if (!store) return NULL;
    store->block = block;
    store->pool = pmemobj_create(path, "bench", POOL, 0600);
    unlink(path);
    if (!store->pool) {
        free(store);
        return NULL;
    }
    store->root = pmemobj_direct(pmemobj_root(store->pool, sizeof(struct root) + BLOCKS * block));
    if (store->root) return store;
    bench_pmemobj_close(store);
    return NULL;
}

// The place of a number, else the first free one, else BLOCKS.
static size_t place(const struct root *root, uint64_t number) {
    size_t at = 0;
    while (at < BLOCKS && root->keys[at] && root->keys[at] != number + 1) at++;
    return at;
}

static void put(struct store *store, uint64_t number, const uint8_t *data) {
    size_t at = place(store->root, number);
    if (at == BLOCKS) pmemobj_tx_abort(-1);
    if (!store->root->keys[at]) {
        pmemobj_tx_add_range_direct(&store->root->keys[at], sizeof number);
        store->root->keys[at] = number + 1;
    }
    uint8_t *block = store->root->blocks + at * store->block;
    pmemobj_tx_add_range_direct(block, store->block);
    memcpy(block, data, store->block);
}

int bench_pmemobj_save(struct store *store, const uint64_t *numbers, size_t n, const uint8_t *data) {
    volatile int saved = 0;
    TX_BEGIN(store->pool) {
        for (size_t i = 0; i < n; i++) put(store, numbers[i], data + i * store->block);
    } TX_ONCOMMIT {
        saved = 1;
    } TX_END
    return saved;
}

int bench_pmemobj_holds(struct store *store, const uint64_t *numbers, size_t n, const uint8_t *data) {
    int all = 1;
    for (size_t i = 0; i < n; i++) {
        size_t at = place(store->root, numbers[i]);
        all &= at < BLOCKS && store->root->keys[at] &&
               !memcmp(store->root->blocks + at * store->block, data + i * store->block, store->block);
    }
    return all;
}
