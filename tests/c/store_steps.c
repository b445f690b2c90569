/* Both commits, put, finish, load, recover and upgrade, stopped after each machine instruction: every stop leaves whole units, in the order of
 * the call's stores.
 *
 *     store_steps           the library's calls; the first stop that leaves anything else ends it
 *     store_steps --count   the same to the end, with such stops counted
 *     store_steps --wrong   the same stores from a list: with each entry in two halves, the header without a version first, a sector behind its
 *                           entry, or a finish's Tail before its last role switch, they must be reported, with each whole and in order not
 *
 * What a stop may leave: up to the data blocks the card is what some allowance leaves, no smaller one than at the stop before; and each
 * word of the data blocks is one that an allowance with those bytes leaves, so a block's words come in any order but before its entry. Each
 * byte of the disk is one too: a sector may be in part, but not once the entry of its block is zeroed.
 *
 * From each stop of a put or a finish a copy of the card is recovered besides, with the map made again: every block reads as before the save was
 * opened or, once the finish has stored Tail, as the save has it.
 */
#include <signal.h>
#include <stdio.h>
#include <stdlib.h>
#include <string.h>
#include <sys/mman.h>
#include <sys/ptrace.h>
#include <sys/wait.h>
#include <unistd.h>

#include "tinca.h"

enum {
    K = 9,
    SLOTS = 8,
    DATA_BLOCKS = 8,
    DISK_BLOCKS = 16,
    BLOCK = 512,
    MOST = 3, /* blocks of a save */
    ENTRIES = 128 + 8 * SLOTS,
    FRONT = ENTRIES + 16 * DATA_BLOCKS, /* up to the data blocks */
    LENGTH = FRONT + DATA_BLOCKS * BLOCK,
    DISK = DISK_BLOCKS * BLOCK,
    SAVING = BLOCK / 8 + 4,                 /* stores of a commit for each block, and one */
    STORES = MOST * SAVING + 1 + MOST * 2 /* with evictions, of modified blocks */
};

typedef uint64_t word __attribute__((may_alias));
typedef uint64_t pair __attribute__((may_alias, vector_size(16)));

enum call { COMMIT, ROOM, PUT, FINISH, LOAD, RECOVER, RECOVER_OLD, UPGRADE };
enum stores { BY_LIBRARY, WHOLE, HALVES, LATE, EARLY };

typedef struct {
    const char *name;
    enum call call;
    size_t count;
    uint64_t numbers[MOST]; /* of either commit, of the puts, of the cut commit that is recovered; the first is loaded */
    uint64_t loaded;        /* up to this block, by the set-up */
} subject;

/* The set-up saves 1, 2 and 3 and leaves Head at the last slot; some load 4, which is clean then. Where room is to be made, it loads 4 to 8 and
 * reads 1 and 2, so that 3, which is modified, is the least recently used block, and then come 4 and 5, which are clean. Of a save block by block
 * each put is stepped, behind those before it, and the finish behind all of them. */
static const subject subjects[] = {
    {"commit of a fresh block", COMMIT, 1, {9}, 0},
    {"commit of a cached block", COMMIT, 1, {2}, 0},
    {"commit of two fresh blocks", COMMIT, 2, {9, 12}, 0},
    {"commit of two cached blocks", COMMIT, 2, {3, 1}, 0},
    {"commit of three, one cached", COMMIT, 3, {9, 2, 12}, 0},
    {"commit of a clean block and a modified one", COMMIT, 2, {4, 2}, .loaded = 4},
    {"room for one, a modified block goes", ROOM, 1, {9}, .loaded = DATA_BLOCKS},
    {"room for two, a clean one goes too", ROOM, 2, {12, 9}, .loaded = DATA_BLOCKS},
    {"room for three, one cached", ROOM, 3, {9, 2, 12}, .loaded = DATA_BLOCKS},
    {"puts of three, one cached", PUT, 3, {9, 2, 12}, 0},
    {"puts of a fresh block, a clean one and a modified one", PUT, 3, {9, 4, 2}, .loaded = 4},
    {"finish of three, one cached", FINISH, 3, {9, 2, 12}, 0},
    {"finish of a fresh block, a clean one and a modified one", FINISH, 3, {9, 4, 2}, .loaded = 4},
    {"load", LOAD, 1, {9}, 0},
    {"recover after fresh blocks", RECOVER, 2, {9, 12}, 0},
    {"recover after cached blocks", RECOVER, 2, {3, 1}, 0},
    {"recover after three, one cached", RECOVER, 3, {9, 2, 12}, 0},
    {"recover after a clean block and a modified one", RECOVER, 2, {4, 2}, .loaded = 4},
    {"recover of version 1 after three, two cached", RECOVER_OLD, 3, {9, 4, 2}, .loaded = 4},
    {"upgrade", UPGRADE, 0, {0}, .loaded = 4},
};

static uint8_t *card, *disk, table[128], data[MOST * BLOCK], choice[BLOCK / 8];
static uint64_t map[2], record[2];
static uint8_t contents[2][DISK_BLOCKS][BLOCK]; /* what every block reads as before a save block by block, and behind it */
static uint8_t left[STORES + 1][LENGTH] __attribute__((aligned(16))); /* the card that each allowance leaves */
static uint8_t left_disk[STORES + 1][DISK];                           /* and the disk */
static size_t last;           /* m: the allowance that leaves the whole call */
static size_t places[STORES]; /* of the stores: on the card, or LENGTH and more on the disk */
static uint64_t evicting;     /* how many of them come before those of the commit */
static int counting;

static void fail(const char *what)
{
    perror(what);
    exit(2);
}

static void demand(int holds, const char *what)
{
    if (!holds) {
        fprintf(stderr, "%s\n", what);
        exit(2);
    }
}

/* Bytes that differ from those of another seed at every place. */
static void fill(uint8_t *bytes, size_t length, unsigned seed)
{
    for (size_t i = 0; i < length; i++)
        bytes[i] = (uint8_t)(16 * seed + (i / 8 + i) % 16);
}

static void make_map(const uint8_t *of)
{
    const tinca_map made = tinca_make_map(of, LENGTH);
    demand(made.kind == TINCA_MADE, "a card has no map");
    map[0] = made.low;
    map[1] = made.high;
}

/* The choice that makes exactly the first stores, as many as the allowance: ones up to where it ends in a block's words, then zeros. Between
 * two blocks of a commit stand three single stores; a block that is evicted has one sector. */
static void choose(uint64_t allowance)
{
    const uint64_t saving = allowance < evicting ? 0 : allowance - evicting;
    for (size_t i = 0; i < sizeof choice; i++)
        choice[i] = i < saving % (sizeof choice + 3);
}

static tinca_answer commit(uint8_t *to, size_t count, const uint64_t *numbers, uint64_t allowance)
{
    return tinca_commit(to, LENGTH, map, 2, numbers, count, data, count * BLOCK, choice, sizeof choice, allowance);
}

/* The block of the save that is next by the record. */
static tinca_answer put(const subject *s, uint8_t *to, uint64_t allowance)
{
    return tinca_put(to, LENGTH, map, 2, record, 2, s->numbers[record[1]], data + record[1] * BLOCK, BLOCK, choice, sizeof choice, allowance);
}

/* The call, in full or up to an allowance; it alone is stepped, with what surrounds it in the child. */
static tinca_answer perform(const subject *s, uint8_t *to, uint64_t allowance)
{
    if (s->call == COMMIT)
        return commit(to, s->count, s->numbers, allowance);
    if (s->call == ROOM)
        return tinca_commit_making_room(to, LENGTH, disk, DISK, map, 2, table, sizeof table, s->numbers, s->count, data, s->count * BLOCK,
                                        choice, sizeof choice, allowance);
    if (s->call == PUT)
        return put(s, to, allowance);
    if (s->call == FINISH)
        return tinca_finish(to, LENGTH, map, 2, record, 2, allowance);
    if (s->call == LOAD)
        return tinca_load(to, LENGTH, disk, DISK, map, 2, table, sizeof table, s->numbers[0], choice, sizeof choice, allowance);
    if (s->call == UPGRADE)
        return tinca_upgrade(to, LENGTH, allowance);
    return tinca_recover(to, LENGTH, map, 2, allowance);
}

/* Loads blocks 4 up to this one, and reads 1 and 2. With all of them the card is full, and the next commit must make room. */
static void load_and_read(uint8_t *to, uint64_t up_to)
{
    uint8_t out[BLOCK];
    for (uint64_t number = 4; number <= up_to; number++)
        demand(tinca_load(to, LENGTH, disk, DISK, map, 2, table, sizeof table, number, choice, sizeof choice, UINT64_MAX).kind == TINCA_DONE,
               "a load of the set-up");
    for (uint64_t number = 1; number <= 2; number++)
        demand(tinca_read(to, LENGTH, disk, DISK, table, sizeof table, number, out, BLOCK).kind == TINCA_ON_CARD, "a read of the set-up");
}

/* The card as a station of before would have left it: its version is 1, and it has no flag P. */
static void make_old(uint8_t *to)
{
    to[4] = 1;
    for (size_t at = ENTRIES; at < FRONT; at += 16)
        to[at] &= 0xFB;
}

/* Whether every block of a settled card reads as it should. */
static int reads_as(uint8_t (*all)[BLOCK], const uint8_t *on)
{
    for (uint64_t number = 0; number < DISK_BLOCKS; number++) {
        const tinca_place place = tinca_look(on, LENGTH, disk, DISK, number);
        if (place.kind == TINCA_REFUSED || memcmp((place.kind == TINCA_ON_CARD ? on : disk) + place.offset, all[number], BLOCK))
            return 0;
    }
    return 1;
}

/* Opens a save on a settled card and puts its first blocks. */
static void begin(const subject *s, uint8_t *on, uint64_t blocks)
{
    const tinca_record opened = tinca_open(on, LENGTH);
    demand(opened.kind == TINCA_OPENED && opened.count == 0, "a save is not opened");
    record[0] = opened.tail;
    record[1] = opened.count;
    for (uint64_t number = 0; number < DISK_BLOCKS; number++) {
        const tinca_place place = tinca_look(on, LENGTH, disk, DISK, number);
        demand(place.kind != TINCA_REFUSED, "a block of the set-up");
        memcpy(contents[0][number], (place.kind == TINCA_ON_CARD ? on : disk) + place.offset, BLOCK);
    }
    memcpy(contents[1], contents[0], sizeof contents[0]);
    for (size_t i = 0; i < s->count; i++)
        memcpy(contents[1][s->numbers[i]], data + i * BLOCK, BLOCK);
    for (uint64_t i = 0; i < blocks; i++)
        demand(put(s, on, UINT64_MAX).kind == TINCA_DONE && record[1] == i + 1, "a put of the set-up");
}

/* The card before the call, into `left[0]`, its map and the table. Of a save block by block `cut` blocks are put already. */
static void prepare(const subject *s, uint64_t cut)
{
    uint8_t *const before = left[0];
    fill(disk, DISK, 14);
    fill(before, LENGTH, 15);
    for (size_t i = 0; i < sizeof table; i++)
        table[i] = (uint8_t)i;
    demand(tinca_format(K, SLOTS, DATA_BLOCKS, DISK_BLOCKS, before, LENGTH).kind == TINCA_DONE, "format");
    make_map(before);
    for (unsigned i = 0; i < SLOTS - 1; i++) {
        const uint64_t number = 1 + i % 3;
        fill(data, sizeof data, i);
        demand(commit(before, 1, &number, UINT64_MAX).kind == TINCA_DONE, "a commit of the set-up");
    }
    load_and_read(before, s->loaded);
    fill(data, sizeof data, SLOTS - 1);
    evicting = 0;
    choose(cut);
    if (s->call == RECOVER || s->call == RECOVER_OLD)
        demand(commit(before, s->count, s->numbers, cut).kind == TINCA_CUT, "the commit to recover from is not cut");
    if (s->call == PUT || s->call == FINISH)
        begin(s, before, cut);
    if (s->call == RECOVER_OLD || s->call == UPGRADE)
        make_old(before);
    make_map(before);
    memcpy(left_disk[0], disk, DISK);
}

/* The call from what was prepared, with an allowance: the map, the table and the record are left as they were. */
static tinca_answer attempt(const subject *s, uint8_t *to, uint64_t allowance)
{
    const uint64_t map_before[2] = {map[0], map[1]}, record_before[2] = {record[0], record[1]};
    uint8_t table_before[sizeof table];
    tinca_answer answer;
    memcpy(table_before, table, sizeof table);
    memcpy(to, left[0], LENGTH);
    memcpy(disk, left_disk[0], DISK);
    choose(allowance);
    answer = perform(s, to, allowance);
    demand(record[0] == record_before[0] && record[1] == record_before[1] + (s->call == PUT && answer.kind == TINCA_DONE),
           "a call leaves another record than it should");
    memcpy(map, map_before, sizeof map);
    memcpy(record, record_before, sizeof record);
    memcpy(table, table_before, sizeof table);
    return answer;
}

/* The first byte in which two parts differ, or their length. */
static size_t first_difference(const uint8_t *a, const uint8_t *b, size_t length)
{
    size_t at = 0;
    while (at < length && a[at] == b[at])
        at++;
    return at;
}

/* The flag byte of the entry for a block; 0 where there is none. */
static uint8_t flags_of(const uint8_t *of, uint64_t number)
{
    for (size_t at = ENTRIES; at < FRONT; at += 16)
        if (of[at] && of[at + 7] == number)
            return of[at];
    return 0;
}

/* A commit's log entries, behind the Head store of their block, and their flags at its end: 87 and then 86 over a modified entry, which was
 * 82 or 86, else 83 and then 82. */
static void look_at_flags(const subject *s)
{
    for (size_t i = 0; i < s->count; i++) {
        const uint8_t before = flags_of(left[0], s->numbers[i]), p = before & 2 ? 4 : 0;
        demand(flags_of(left[evicting + (i + 1) * (SAVING - 1)], s->numbers[i]) == (0x83 | p), "a log entry has other flags");
        demand(flags_of(left[last], s->numbers[i]) == (0x82 | p), "an entry has other flags after its role switch");
    }
}

/* A put's log entry in the same way; a finish clears R in each entry of the save and nothing else. */
static void look_at_save(const subject *s)
{
    if (s->call == PUT) {
        const uint64_t number = s->numbers[record[1]];
        demand(flags_of(left[last], number) == (0x83 | (flags_of(left[0], number) & 2 ? 4 : 0)), "a put's log entry has other flags");
    }
    for (size_t i = 0; s->call == FINISH && i < s->count; i++)
        demand(flags_of(left[last], s->numbers[i]) == (flags_of(left[0], s->numbers[i]) ^ 1), "an entry has other flags after a finish");
}

/* What the call leaves with every allowance up to m, and where each store changes what the one before left. */
static void list(const subject *s)
{
    tinca_answer answer = attempt(s, card, UINT64_MAX);
    demand(answer.kind == TINCA_DONE && answer.stores <= STORES, "a call is not done, or has more stores than there is room for");
    last = answer.stores;
    evicting = s->call == ROOM ? last - (s->count * SAVING + 1) : 0;
    for (size_t i = 1; i <= last; i++) {
        answer = attempt(s, left[i], i);
        demand(answer.kind == (i < last ? TINCA_CUT : TINCA_DONE), "a call of the list");
        memcpy(left_disk[i], disk, DISK);
    }
    for (size_t i = 0; i < last; i++) {
        const size_t at = first_difference(left[i], left[i + 1], LENGTH);
        const size_t on_disk = first_difference(left_disk[i], left_disk[i + 1], DISK);
        places[i] = at < LENGTH ? at - at % (at >= ENTRIES && at < FRONT ? 16 : 8) : LENGTH + on_disk - on_disk % BLOCK;
    }
    if (s->call == COMMIT || s->call == ROOM)
        look_at_flags(s);
    look_at_save(s);
    demand(s->call != PUT || last == SAVING - 1, "a put has other stores than a commit of its block up to Head");
    demand(s->call != FINISH || last == s->count + 1, "a finish has other stores than its role switches and Tail");
    demand(s->call != UPGRADE || (last == 1 && places[0] == 0), "an upgrade stores something else than the header's first word");
}

/* One of the listed stores, an entry by one instruction or by two. Of the header one byte changes, so a word in two is one without it first. */
static void store(size_t i, enum stores how)
{
    const size_t at = places[i];
    const uint8_t *const from = left[i + 1] + at;
    if (at >= LENGTH + DISK)
        return; /* of the bytes that were there */
    if (at >= LENGTH) {
        memcpy(disk + at - LENGTH, left_disk[i + 1] + at - LENGTH, BLOCK);
    } else if (at < ENTRIES || at >= FRONT) {
        if (at == 0 && how == HALVES)
            *(volatile uint8_t *)(card + 4) = 0;
        *(volatile word *)(card + at) = *(const word *)from;
    } else if (how != HALVES) {
        *(volatile pair *)(card + at) = *(const pair *)from;
    } else {
        *(volatile word *)(card + at) = *(const word *)from;
        *(volatile word *)(card + at + 8) = *(const word *)(from + 8);
    }
}

/* The listed stores, one after the other; where sectors are late, each behind the entry that it should come before; where Tail is early, it
 * comes before the store that it should come behind. */
static void replay(enum stores how)
{
    for (size_t i = 0; i < last; i++) {
        if ((how == LATE && places[i] >= LENGTH) || (how == EARLY && i + 2 == last)) {
            store(i + 1, how);
            store(i, how);
            i++;
        } else {
            store(i, how);
        }
    }
}

/* Whether card and disk are what a stop may leave; `made` is the least allowance that it can be, at least that of the stop before. */
static int is_whole(size_t *made)
{
    size_t low = *made, high;
    while (low <= last && memcmp(card, left[low], FRONT))
        low++;
    if (low > last)
        return 0;
    for (high = low; high < last && memcmp(card, left[high + 1], FRONT) == 0;)
        high++;
    for (size_t at = FRONT; at < LENGTH; at += 8)
        if (memcmp(card + at, left[low] + at, 8) && memcmp(card + at, left[high] + at, 8))
            return 0;
    for (size_t at = 0; at < DISK; at++)
        if (disk[at] != left_disk[low][at] && disk[at] != left_disk[high][at])
            return 0;
    *made = low;
    return 1;
}

/* Whether a recovery from here leaves what it must of a save block by block: all of it once the finish has stored Tail, else nothing. */
static int recovers(const subject *s, size_t made)
{
    static uint8_t copy[LENGTH] __attribute__((aligned(16)));
    uint64_t own[2];
    tinca_map given;
    if (s->call != PUT && s->call != FINISH)
        return 1;
    memcpy(copy, card, LENGTH);
    given = tinca_make_map(copy, LENGTH);
    own[0] = given.low;
    own[1] = given.high;
    return tinca_recover(copy, LENGTH, own, 2, UINT64_MAX).kind == TINCA_DONE && reads_as(contents[s->call == FINISH && made == last], copy);
}

/* Makes the stores in a child that stops after each instruction; answers how many stops left something else than they may. */
static long stepped(const subject *s, enum stores how, long *stops)
{
    size_t made = 0;
    long wrong = 0;
    int status;
    pid_t child;
    memcpy(card, left[0], LENGTH);
    memcpy(disk, left_disk[0], DISK);
    child = fork();
    if (child < 0)
        fail("fork");
    if (child == 0) {
        if (ptrace(PTRACE_TRACEME, 0, NULL, NULL))
            fail("a process cannot be stepped here");
        raise(SIGSTOP);
        if (how == BY_LIBRARY)
            _exit(perform(s, card, UINT64_MAX).kind != TINCA_DONE);
        replay(how);
        _exit(0);
    }
    waitpid(child, &status, 0);
    while (WIFSTOPPED(status)) {
        *stops += 1;
        wrong += !is_whole(&made) || !recovers(s, made);
        if (wrong && how == BY_LIBRARY && !counting) {
            kill(child, SIGKILL);
            waitpid(child, &status, 0);
            return wrong;
        }
        if (ptrace(PTRACE_SINGLESTEP, child, NULL, NULL))
            fail("step");
        waitpid(child, &status, 0);
    }
    demand(WIFEXITED(status) && WEXITSTATUS(status) == 0, "a call does not answer done");
    demand(memcmp(card, left[last], LENGTH) == 0, "a call leaves another card than its list");
    demand(memcmp(disk, left_disk[last], DISK) == 0, "a call leaves another disk than its list");
    return wrong;
}

/* Steps the call: a recovery from every cut of its commit that leaves another card up to the data blocks, each put of a save, and the finish
 * behind them. */
static long all_stepped(const subject *s, enum stores how, long *stops)
{
    const uint64_t recovered = s->call == RECOVER || s->call == RECOVER_OLD ? s->count * (BLOCK / 8 + 4) : 0;
    const uint64_t first = s->call == FINISH ? s->count : 0, cuts = s->call == PUT ? s->count - 1 : first + recovered;
    static uint8_t before[FRONT];
    long wrong = 0;
    for (uint64_t cut = first; cut <= cuts && (wrong == 0 || how != BY_LIBRARY || counting); cut++) {
        prepare(s, cut);
        if (cut > first && memcmp(before, left[0], FRONT) == 0)
            continue;
        memcpy(before, left[0], FRONT);
        list(s);
        wrong += stepped(s, how, stops);
    }
    return wrong;
}

int main(int count, char **words)
{
    const int wrong_too = count == 2 && strcmp(words[1], "--wrong") == 0;
    int good = 1;
    counting = count == 2 && strcmp(words[1], "--count") == 0;
    card = mmap(NULL, LENGTH, PROT_READ | PROT_WRITE, MAP_SHARED | MAP_ANONYMOUS, -1, 0);
    disk = mmap(NULL, DISK, PROT_READ | PROT_WRITE, MAP_SHARED | MAP_ANONYMOUS, -1, 0);
    if (card == MAP_FAILED || disk == MAP_FAILED)
        fail("memory");
    for (size_t i = 0; i < sizeof subjects / sizeof *subjects; i++) {
        const subject *const s = &subjects[i];
        long stops = 0, wrong;
        if (wrong_too) {
            const long whole = all_stepped(s, WHOLE, &stops);
            const long late = s->call == ROOM ? all_stepped(s, LATE, &stops) : 1;
            wrong = all_stepped(s, s->call == FINISH ? EARLY : HALVES, &stops);
            printf("%s: units whole, %ld wrong stops; %s, %ld", s->name, whole, s->call == FINISH ? "Tail early" : "in halves", wrong);
            if (s->call == ROOM)
                printf("; sectors late, %ld", late);
            puts("");
            good &= whole == 0 && wrong > 0 && late > 0;
            continue;
        }
        wrong = all_stepped(s, BY_LIBRARY, &stops);
        good &= wrong == 0;
        if (wrong && !counting) {
            printf("%s: stop %ld leaves a unit in part or out of order, or a save torn\n", s->name, stops);
            return 1;
        }
        printf("%s: %ld stops, %ld leave a unit in part or out of order, or a save torn\n", s->name, stops, wrong);
    }
    return !good;
}
