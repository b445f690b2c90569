/* Formats a card, saves two blocks, loses the power in the next save, recovers, reads, is warned of a save without room, makes room, drains
 * the card, and upgrades one of version 1. */
#include <inttypes.h>
#include <stdio.h>
#include <stdlib.h>
#include <string.h>

#include "tinca.h"

enum { K = 9, SLOTS = 8, DATA_BLOCKS = 4, DISK_BLOCKS = 16, BLOCK_BYTES = TINCA_BLOCK_LENGTH(K) };

static uint8_t card[TINCA_CARD_LENGTH(K, SLOTS, DATA_BLOCKS)];
static uint8_t disk[TINCA_DISK_LENGTH(K, DISK_BLOCKS)];
static uint64_t map[2];
static uint8_t table[128]; /* of the entries, the most recently used first */

/* Which stores of a block a power cut leaves, one byte for each of its words. It matters to cuts alone, in drills and tests: a station in
 * service passes zeros. */
static const uint8_t choice[BLOCK_BYTES / 8] = {0};

static void told(const char *call, tinca_answer answer)
{
    if (answer.kind == TINCA_DONE)
        printf("%s: done, %" PRIu64 " stores\n", call, answer.stores);
    else if (answer.kind == TINCA_CUT)
        printf("%s: cut\n", call);
    else
        printf("%s: refused with %" PRIu32 ": %s\n", call, answer.refusal, tinca_refusal_text(answer.refusal));
}

static void show(uint64_t block)
{
    uint8_t out[BLOCK_BYTES];
    tinca_place place = tinca_read(card, sizeof card, disk, sizeof disk, table, sizeof table, block, out, sizeof out);
    if (place.kind == TINCA_REFUSED)
        printf("block %" PRIu64 ": refused with %" PRIu32 ": %s\n", block, place.refusal, tinca_refusal_text(place.refusal));
    else
        printf("block %" PRIu64 ": %s, bytes %d\n", block, place.kind == TINCA_ON_CARD ? "on the card" : "on the disk", out[0]);
}

static void state(void)
{
    tinca_state state = tinca_state_of(card, sizeof card);
    if (state.kind == TINCA_SETTLED)
        printf("settled: %" PRIu64 " in use, %" PRIu64 " modified\n", state.in_use, state.modified);
    else if (state.kind == TINCA_UNSETTLED)
        printf("unsettled: %" PRIu64 " to undo, %" PRIu64 " slots in the window\n", state.undoable, state.window);
    else
        printf("refused with %" PRIu32 ": %s\n", state.refusal, tinca_refusal_text(state.refusal));
}

/* At start and after a cut. Done calls then keep the map in step with the card, and refused ones leave it. */
static void make_map(void)
{
    tinca_map made = tinca_make_map(card, sizeof card);
    if (made.kind == TINCA_REFUSED)
        printf("make map: refused with %" PRIu32 ": %s\n", made.refusal, tinca_refusal_text(made.refusal));
    map[0] = made.low;
    map[1] = made.high;
}

/* At start: it ascends. Reads from the card, loads and room-making saves then keep it in step with what is used. */
static void make_table(void)
{
    size_t place;
    for (place = 0; place < sizeof table; place++)
        table[place] = (uint8_t)place;
}

/* Saves blocks also where the card is full: the least recently used others go to the disk first. */
static void save_making_room(const char *save, const uint64_t *numbers, size_t count, const uint8_t *data)
{
    told(save, tinca_commit_making_room(card, sizeof card, disk, sizeof disk, map, 2, table, sizeof table, numbers, count, data,
                                        count * BLOCK_BYTES, choice, sizeof choice, UINT64_MAX));
}

/* Tells what a save of two blocks would do, without a store: a warning in time where it would be refused. */
static void preview(const char *save, const uint64_t *numbers, const uint8_t *data)
{
    uint32_t blocks[2];
    tinca_answer answer = tinca_preview(card, sizeof card, map, 2, numbers, 2, data, 2 * BLOCK_BYTES, blocks, 2);
    told(save, answer);
    if (answer.kind == TINCA_DONE)
        printf("  into data blocks %" PRIu32 " and %" PRIu32 "\n", blocks[0], blocks[1]);
}

/* Evicts all that is cached, so that the disk alone has every block. */
static void drain(void)
{
    uint64_t place;
    for (place = 0; place < DATA_BLOCKS; place++) {
        tinca_entry entry = tinca_cached(card, sizeof card, place);
        if (entry.kind == TINCA_IN_USE) {
            printf("place %" PRIu64 " caches block %" PRIu64 ", %s\n", place, entry.block, entry.modified ? "modified" : "clean");
            told("evict it", tinca_evict(card, sizeof card, disk, sizeof disk, map, 2, entry.block, choice, sizeof choice, UINT64_MAX));
        }
    }
}

/* What a station does with a card of version 1, which all other calls refuse: it recovers it and upgrades it, once. */
static void take_over(void)
{
    make_map();
    told("recover a card of version 1", tinca_recover(card, sizeof card, map, 2, UINT64_MAX));
    told("upgrade it", tinca_upgrade(card, sizeof card, UINT64_MAX));
    state();
}

int main(void)
{
    const uint64_t numbers[2] = {3, 5};
    const uint64_t twice[2] = {3, 3};
    const uint64_t more[3] = {1, 2, 4};
    uint8_t data[2 * BLOCK_BYTES];
    uint8_t more_data[3 * BLOCK_BYTES];

    told("format", tinca_format(K, SLOTS, DATA_BLOCKS, DISK_BLOCKS, card, sizeof card));
    make_map();
    make_table();
    memset(data, 7, sizeof data);
    preview("preview of the first save", numbers, data);
    told("first save of 3 and 5",
         tinca_commit(card, sizeof card, map, 2, numbers, 2, data, sizeof data, choice, sizeof choice, UINT64_MAX));
    printf("free data blocks: %" PRIu64 "\n", tinca_free_count(map[0], map[1]));
    told("evict 5", tinca_evict(card, sizeof card, disk, sizeof disk, map, 2, 5, choice, sizeof choice, UINT64_MAX));
    show(3);
    show(5);

    memset(data, 8, sizeof data);
    told("a save of 3 twice", tinca_commit(card, sizeof card, map, 2, twice, 2, data, sizeof data, choice, sizeof choice, UINT64_MAX));
    told("second save, power lost before its last store",
         tinca_commit(card, sizeof card, map, 2, numbers, 2, data, sizeof data, choice, sizeof choice, 136));
    state();
    show(3);
    make_map();
    told("recover, power lost again", tinca_recover(card, sizeof card, map, 2, 1));
    make_map();
    told("recover", tinca_recover(card, sizeof card, map, 2, UINT64_MAX));
    state();
    show(3);
    show(5);

    told("second save again", tinca_commit(card, sizeof card, map, 2, numbers, 2, data, sizeof data, choice, sizeof choice, UINT64_MAX));
    show(3);
    show(5);

    told("load 9",
         tinca_load(card, sizeof card, disk, sizeof disk, map, 2, table, sizeof table, 9, choice, sizeof choice, UINT64_MAX));
    memset(data, 9, sizeof data);
    preview("preview of a third save", numbers, data);
    save_making_room("third save of 3 and 5, block 9 goes", numbers, 2, data);
    show(3);
    memset(more_data, 6, sizeof more_data);
    save_making_room("save of 1, 2 and 4, block 5 goes", more, 3, more_data);
    drain();
    state();
    show(3);
    show(5);
    show(4);

    card[4] = 1; /* as an older library left it: a card that caches nothing differs in this byte alone */
    take_over();
    return EXIT_SUCCESS;
}
