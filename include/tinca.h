/*
 * tinca: a write-back cache card in front of a disk, proved against power cuts at every store.
 *
 * Promised. Both commits, put, finish, load, evict, recover and upgrade each have a list of stores (docs/CARD.md): of an 8-byte
 * word, a 16-byte entry or a 512-byte disk sector each. The words of a data block are one run, and so are the sectors of a disk
 * block; every other store is a run by itself. Wherever that list stops between two runs, or inside one with any of its stores
 * made and the others not, a recovery that answers "done" leaves the card settled, and a settled card reads, byte for byte, as
 * the last commit or finish that answered "done" left it. This holds over every list of calls from a formatted card, recoveries
 * cut again and again among them. It is proved of the code: the bytes that a call leaves are those after its list so stopped. Each
 * call takes every input, always returns, and refuses by number before any store, so that a refusal changes nothing.
 *
 * Not promised. That runs become durable as they are stored: compiled for x86-64 no instruction leaves a unit of the card in
 * part, and they come in this order, but a processor's cache hands them to the card in an order of its own. A unit that
 * reaches the card in part, or one of a later run that reaches it before its turn, can leave a save torn, or a card that is
 * refused. docs/ORDER.md says what a station must do. The card has no checksum: some damage by other hands reads as another
 * lawful card.
 *
 * The names. k, S, N, D are given to tinca_format and stand in the card's header from then on; tinca_state_of tells them.
 *
 *     k            B = 2^k bytes in a block            9 to 12 (512 to 4,096 bytes)
 *     slots        S, the ring's slots                 8 to 256, a multiple of 8; a save takes at most S - 1 blocks
 *     data_blocks  N, the blocks that the card caches  4 to 128, a multiple of 4
 *     disk_blocks  D, the disk's blocks                1 to 65,536
 *     block        the number of a disk block, below D
 *     place        the place of an entry on the card, below N
 *
 * The allowance of a call is how many of its stores still happen. A station in service passes UINT64_MAX, which makes them
 * all. A smaller one says where the power fails, in tests and drills, and gives the runs one by one to a station that hands
 * them to its card itself (docs/ORDER.md).
 *
 * The choice of a commit, a put, a load or an evict says what a power failure inside a run leaves: one byte for each of the run's
 * stores, in order, 1 where the store is made and 0 where it is not. It has B/8 bytes or more, all of them 0 or 1, or the
 * call is refused with 17. A run that the allowance covers is made whole, whatever is chosen; of the first one that it does
 * not cover the chosen stores are made, however many, if it is the words of a data block or the sectors of a disk block, and
 * none if it is a single store; and nothing is made after it. A station in service passes zeros, which are never looked up.
 * Ones up to where the allowance ends in its run, then zeros, make just the first stores, as many as the allowance.
 *
 * The map. Two 64-bit words in the station's own memory that tell the free data blocks: bit d mod 64, from the lowest, of word
 * d / 64 is set unless d is below N and data block d is free: no entry in use has it as its current block, and none that a
 * recovery would undo as its previous one. The bits from N on are set. The storing calls search it for free blocks and hand it on:
 *
 *     at start     tinca_make_map gives it, tinca_recover takes it, and the station goes on with what the recovery left in it
 *     done         the call has written the map of the card that it leaves
 *     refused      the map is as it was, and still the card's; but after 15 it must be made again
 *     cut          the map is as it was; the card may have changed, so it must be made again
 *
 * Each storing call but the upgrade compares the map with the card and refuses a wrong one, with 15, before any store. So does
 * the preview, which leaves the map as it is.
 *
 * The table. 128 bytes in the station's own memory: the numbers 0 to 127, each once, for the entries of these places, the most
 * recently used first. At start it ascends: byte i is i. A room-making commit takes its victims from the table's end; a done one
 * moves the entry of each of its blocks to the front, in turn, a done load and a read from the card that of theirs. No other call
 * takes it, and one that is cut or refused leaves it as it was. Each call that takes it refuses any other row of bytes with 16,
 * before any store. Nothing of the table stands on the card: a station that starts anew begins with one that ascends.
 *
 * The record. Two 64-bit words in the station's own memory that stand for a pending save, one that is put block by block: the
 * position of Tail, and how many blocks are put. A save is opened on a settled card, put and finished. Up to the finish's last
 * store, Tail's, a recovery brings back what was read before; with that store all its blocks are read, at once.
 *
 *     open         tinca_open gives it: Tail and 0
 *     put, done    the call has written the next record: the same Tail, one block more
 *     put, else    the record is as it was; refused, it still stands for the same save, but not after 18
 *     finish       the call only reads it; done, the save is over, and the next begins with an open
 *     recover      a recovery that answers done abandons the save: what was put is undone
 *
 * Put and finish compare the record with the card and refuse with 18, before any store, where the window does not have the
 * record's Tail and count or its numbers are not, one to one, those of the entries with R. So it is after a put that was cut behind
 * the store of its entry and after a finish that was cut behind a role switch: the save must be recovered, and made anew. Cut
 * before, both can be made again with the same record. From the first put to the finish the card is not settled: both commits,
 * preview, load, evict, open, read, look and cached refuse it with 7. Nothing of the record stands on the card. A station that
 * starts anew has none, and its recovery abandons what was pending.
 *
 * Versions. tinca_format makes cards of version 2. A card of version 1, which an earlier library made, is taken by tinca_make_map,
 * tinca_recover and tinca_upgrade; every other call refuses it with 1. At start: make the map, recover, upgrade, and go on with the
 * map that the recovery left. The promise above holds from the day the version 1 card was formatted, across the upgrade too.
 *
 * Slices. A pointer and a length in bytes, but for `map`, `record` and `numbers`, whose lengths count words of 64 bits, and
 * `blocks`, whose length counts numbers of 32 bits. A pointer may be null where its length is 0; a null with another length is
 * used as an address wherever its bytes are looked at, and nothing is promised. `map`, `record` and `numbers` are aligned as a
 * uint64_t is, `blocks` as a uint32_t. All others may lie at any address; a card that units must reach whole lies at a multiple
 * of 16 (docs/ORDER.md). The outputs, `out` and `blocks`, are written where the call is not refused, and only then. Slices that a
 * call only reads may overlap. One that it writes (card, disk, map, table, record, out, blocks, where they are not const) may
 * overlap no other: the proofs then say nothing of the bytes that it leaves.
 *
 * Threads. Nothing here locks or keeps anything between calls: one thread a card at a time, with its disk, map, table and record.
 * Different cards are independent.
 *
 * docs/CARD.md has the bytes of the card, each call's stores in order, and the rule on cuts. An install has these pages in
 * share/doc/tinca.
 */
#ifndef TINCA_H
#define TINCA_H

#include <stddef.h>
#include <stdint.h>

/* Of this header and the library beside it. The middle number grows where a call changes. */
#define TINCA_VERSION "0.7.0"

/* Lengths in bytes, as constants where their arguments are: of a block, of a card, of a disk. */
#define TINCA_BLOCK_LENGTH(k) ((size_t)1 << (k))
#define TINCA_CARD_LENGTH(k, slots, data_blocks) \
    (128 + 8 * (size_t)(slots) + 16 * (size_t)(data_blocks) + ((size_t)(data_blocks) << (k)))
#define TINCA_DISK_LENGTH(k, disk_blocks) ((size_t)(disk_blocks) << (k))

#ifdef __cplusplus
extern "C" {
#endif

/* The field `kind` of an answer. 2 is refused in all of them; fields that a kind does not name are 0. */
enum {
    TINCA_DONE = 0, /* tinca_answer */
    TINCA_CUT = 1,
    TINCA_ON_CARD = 0, /* tinca_place */
    TINCA_ON_DISK = 1,
    TINCA_SETTLED = 0, /* tinca_state */
    TINCA_UNSETTLED = 1,
    TINCA_IN_USE = 0, /* tinca_entry */
    TINCA_UNUSED = 1,
    TINCA_MADE = 0, /* tinca_map */
    TINCA_OPENED = 0, /* tinca_record */
    TINCA_REFUSED = 2
};

/* The field `refusal` of a refused answer. The lowest number whose condition holds is given, with 18 in the place of 7, 15 and then
 * 16 in that between 7 and 8, and 17 in that between 9 and 10. */
enum {
    TINCA_BAD_HEADER = 1,
    TINCA_BAD_CARD_LENGTH = 2,
    TINCA_BAD_DISK_LENGTH = 3,
    TINCA_BAD_RING = 4,
    TINCA_BAD_ENTRY = 5,
    TINCA_EQUAL_ENTRIES = 6,
    TINCA_NOT_SETTLED = 7,
    TINCA_BAD_COUNT = 8,
    TINCA_BAD_LENGTH = 9,
    TINCA_BAD_NUMBER = 10,
    TINCA_NUMBER_TWICE = 11,
    TINCA_ALREADY_CACHED = 12,
    TINCA_NOT_CACHED = 13,
    TINCA_NO_ROOM = 14,
    TINCA_WRONG_MAP = 15,
    TINCA_BAD_TABLE = 16,
    TINCA_BAD_CHOICE = 17,
    TINCA_WRONG_RECORD = 18
};

/* What a refusal's number means, in words. */
static inline const char *tinca_refusal_text(uint32_t number)
{
    switch (number) {
    case 0:
        return "not refused";
    case TINCA_BAD_HEADER:
        return "the card is under 128 bytes or a header field is wrong, the version among them; for format, k, S, N or D is out of its limits";
    case TINCA_BAD_CARD_LENGTH:
        return "the card has the wrong length";
    case TINCA_BAD_DISK_LENGTH:
        return "the disk has the wrong length";
    case TINCA_BAD_RING:
        return "Head or Tail is not below S, or a number in the window is not below D";
    case TINCA_BAD_ENTRY:
        return "an entry is none that the cache writes";
    case TINCA_EQUAL_ENTRIES:
        return "two entries in use have equal numbers, current blocks or settled blocks";
    case TINCA_NOT_SETTLED:
        return "the card is not settled and must be recovered first";
    case TINCA_BAD_COUNT:
        return "a commit of no block or of more than S - 1 (put: the save has S - 1 blocks; finish: it has none)";
    case TINCA_BAD_LENGTH:
        return "the data is not B bytes for each number, or the output is not B bytes (preview: not one number for each)";
    case TINCA_BAD_NUMBER:
        return "a block number is not below D";
    case TINCA_NUMBER_TWICE:
        return "a commit has the same number twice (put: the save has the number already)";
    case TINCA_ALREADY_CACHED:
        return "the block to load is cached";
    case TINCA_NOT_CACHED:
        return "the block to evict is not cached";
    case TINCA_NO_ROOM:
        return "there are too few free data blocks (a room-making commit: too few blocks outside it to evict)";
    case TINCA_WRONG_MAP:
        return "the map is not the one that the card gives, or not of two words";
    case TINCA_BAD_TABLE:
        return "the table is not the numbers 0 to 127, each once, in 128 bytes";
    case TINCA_BAD_CHOICE:
        return "the choice has fewer than B/8 bytes, or a byte above 1";
    case TINCA_WRONG_RECORD:
        return "the window does not have the record's Tail and count, or not the numbers of the entries with R; or the record is not of two words";
    default:
        return "no such refusal";
    }
}

/* TINCA_DONE: stores is m, the count of the call's stores (format: 0; preview: the commit's). TINCA_CUT: the allowance was
 * below m; the runs that it covered were made, and of the next the chosen stores; `stores` is 0. TINCA_REFUSED: refusal is the
 * number. */
typedef struct {
    uint32_t kind;
    uint32_t refusal;
    uint64_t stores;
} tinca_answer;

/* TINCA_ON_CARD: the block lies in the card, at that offset, B bytes long. TINCA_ON_DISK: in the disk. */
typedef struct {
    uint32_t kind;
    uint32_t refusal;
    uint64_t offset;
    uint64_t length;
} tinca_place;

/* TINCA_SETTLED and TINCA_UNSETTLED: the geometry. TINCA_SETTLED: in_use and modified count entries. TINCA_UNSETTLED, after a
 * cut: undoable counts entries, window slots. */
typedef struct {
    uint32_t kind;
    uint32_t refusal;
    uint64_t k, slots, data_blocks, disk_blocks;
    union {
        uint64_t in_use;
        uint64_t undoable;
    };
    union {
        uint64_t modified;
        uint64_t window;
    };
} tinca_state;

/* TINCA_IN_USE: the entry caches that block; modified is 1 where an evict writes it (the disk may have an older version), 0
 * where the disk has the same bytes. TINCA_UNUSED: none. */
typedef struct {
    uint32_t kind;
    uint32_t refusal;
    uint64_t block;
    uint64_t modified;
} tinca_entry;

/* TINCA_MADE: low is the map's first word, of data blocks 0 to 63, high its second. */
typedef struct {
    uint32_t kind;
    uint32_t refusal;
    uint64_t low, high;
} tinca_map;

/* TINCA_OPENED: the record of a save with no block yet: tail is its first word, count its second. */
typedef struct {
    uint32_t kind;
    uint32_t refusal;
    uint64_t tail, count;
} tinca_record;

/* Makes a fresh card of version 2: nothing cached, settled. It leaves the bytes of the data blocks, and what the old card had cached and
 * not yet written to the disk is lost. The card's length is TINCA_CARD_LENGTH. Done, or refused with 1 (a limit of k, S, N or
 * D) or 2 (a card of another length, a short one too). */
tinca_answer tinca_format(uint64_t k, uint64_t slots, uint64_t data_blocks, uint64_t disk_blocks, uint8_t *card, size_t card_len);

/* Tells the map that the card gives, settled or not, of version 1 or 2. Made, or refused with 1, 2 or 4 to 6. */
tinca_map tinca_make_map(const uint8_t *card, size_t card_len);

/* Tells how many data blocks are free by a map: 128 less the bits that are set in its two words. */
uint64_t tinca_free_count(uint64_t low, uint64_t high);

/* Saves `count` blocks of `data`, in turn, under their numbers as one transaction: all of them or, after a cut and a recovery,
 * none. It needs as many free data blocks as it has blocks, those that are cached already too. m = count * (B/8 + 4) + 1.
 * Done, cut, or refused with 1, 2, 4 to 7, 15, 8, 9, 17, 10, 11 or 14. */
tinca_answer tinca_commit(uint8_t *card, size_t card_len, uint64_t *map, size_t map_words, const uint64_t *numbers, size_t count,
                          const uint8_t *data, size_t data_len, const uint8_t *choice, size_t choice_len, uint64_t allowance);

/* Tells what a commit of the same map, numbers and data, with any choice that fits, would answer if all its stores happened,
 * and makes none of them: a warning before a save. Done, with the commit's m: `blocks`, `count` numbers, then has the data
 * block that each number would go to, in turn (data block p begins at byte 128 + 8 * S + 16 * N + p * B of the card). Refused
 * with 1, 2, 4 to 7, 15, 8 to 11 or 14, as the commit would be, and with 9 also where `blocks_len` is not `count`; `blocks` is
 * then untouched. Never cut. */
tinca_answer tinca_preview(const uint8_t *card, size_t card_len, const uint64_t *map, size_t map_words, const uint64_t *numbers, size_t count,
                           const uint8_t *data, size_t data_len, uint32_t *blocks, size_t blocks_len);

/* A commit that makes room: where `count` is more than the free data blocks, it first evicts as many blocks as are missing, each as
 * tinca_evict does, the least recently used first and none of its own; then it is tinca_commit on the card so left. A cut in its
 * evictions leaves every block as it reads. m is the evictions' counts and the commit's together. With c of its blocks cached
 * already it is refused with 14 where `count` + c is above N, and only there. Done moves the entry of each block to the front of
 * the table, in turn. Done, cut, or refused with 1 to 7, 15, 16, 8, 9, 17, 10, 11 or 14. */
tinca_answer tinca_commit_making_room(uint8_t *card, size_t card_len, uint8_t *disk, size_t disk_len, uint64_t *map, size_t map_words,
                                      uint8_t *table, size_t table_len, const uint64_t *numbers, size_t count, const uint8_t *data, size_t data_len,
                                      const uint8_t *choice, size_t choice_len, uint64_t allowance);

/* Caches a disk block. m = B/8 + 1. Done moves its entry to the front of the table. Done, cut, or refused with 1 to 7, 15, 16, 17,
 * 10, 12 or 14. */
tinca_answer tinca_load(uint8_t *card, size_t card_len, const uint8_t *disk, size_t disk_len, uint64_t *map, size_t map_words,
                        uint8_t *table, size_t table_len, uint64_t block, const uint8_t *choice, size_t choice_len, uint64_t allowance);

/* Writes a cached block to the disk if it is modified, and then drops it from the card. m = B/512 + 1 if modified, else 1.
 * Done, cut, or refused with 1 to 7, 15, 17, 10 or 13. */
tinca_answer tinca_evict(uint8_t *card, size_t card_len, uint8_t *disk, size_t disk_len, uint64_t *map, size_t map_words, uint64_t block,
                         const uint8_t *choice, size_t choice_len, uint64_t allowance);

/* Undoes what a cut commit or a pending save left, of a card of version 1 or 2; on a settled card it makes no store. On a version 2
 * card a block that was clean before the save is clean again; on a version 1 card every block that is undone comes back modified. To
 * be called at start-up, with the map just made, before all else: a station cannot know whether its power failed in a save. After
 * a cut one the next, with the map made again, goes on where it stopped: its list is what was left. After a cut commit of n blocks, or
 * n puts that were begun, all recoveries together make n + 1 stores at most, so with an allowance of 1 at least each they end in n + 1
 * calls; after a cut load or evict they make none. Done abandons a pending save. Done, cut, or refused with 1, 2, 4 to 6 or 15. */
tinca_answer tinca_recover(uint8_t *card, size_t card_len, uint64_t *map, size_t map_words, uint64_t allowance);

/* Opens a save that is put block by block, on a settled card: its record has the position of Tail, and count 0. It makes no store and
 * takes no map. Opened, or refused with 1, 2 or 4 to 7. */
tinca_record tinca_open(const uint8_t *card, size_t card_len);

/* Puts one block, B bytes of `data`, into the pending save: the stores of a commit for that block, up to Head's. It goes to the first
 * free data block from Tail on, which is never one with an older version that a recovery needs. m = B/8 + 3. Done writes the map
 * of the card that it leaves and the next record; cut and refused write neither. 15 also where `map_words` is not 2, 18 where
 * `record_words` is not; 14 where no data block is free. Done, cut, or refused with 1, 2, 4 to 6, 18, 15, 8, 9, 17, 10, 11 or 14. */
tinca_answer tinca_put(uint8_t *card, size_t card_len, uint64_t *map, size_t map_words, uint64_t *record, size_t record_words, uint64_t block,
                       const uint8_t *data, size_t data_len, const uint8_t *choice, size_t choice_len, uint64_t allowance);

/* Finishes the pending save: the role switch of each of its entries, then Tail's store, with which all its blocks are read. Its stores
 * are single ones, so it takes no choice. m = count + 1, the record's. Done writes the map of the card that it leaves; cut and refused
 * do not, and no answer changes the record. 15 also where `map_words` is not 2, 18 where `record_words` is not. Open, puts of n blocks
 * and finish, all done, leave card and map as one tinca_commit of these blocks does, and their counts add up to its m. Done, cut, or
 * refused with 1, 2, 4 to 6, 18, 15 or 8. */
tinca_answer tinca_finish(uint8_t *card, size_t card_len, uint64_t *map, size_t map_words, const uint64_t *record, size_t record_words,
                          uint64_t allowance);

/* Makes a settled card of version 1 one of version 2: one store, of the header's first word. The map and the table stay as they
 * are. m = 1. Done, cut, or refused with 1 (any version but 1), 2 or 4 to 7. */
tinca_answer tinca_upgrade(uint8_t *card, size_t card_len, uint64_t allowance);

/* Copies a block to `out`, B bytes, and tells where it lies; where that is the card, its entry goes to the front of the table.
 * Refused with 1 to 7, 16, 9 or 10; `out` is then untouched. */
tinca_place tinca_read(const uint8_t *card, size_t card_len, const uint8_t *disk, size_t disk_len, uint8_t *table, size_t table_len,
                       uint64_t block, uint8_t *out, size_t out_len);

/* Tells where a block lies, without copying, and is no use of it: it takes no table. Refused with 1 to 7 or 10. */
tinca_place tinca_look(const uint8_t *card, size_t card_len, const uint8_t *disk, size_t disk_len, uint64_t block);

/* The card's geometry and condition. Refused with 1, 2 or 4 to 6. */
tinca_state tinca_state_of(const uint8_t *card, size_t card_len);

/* What the entry at a place caches: the places below N are all that the card holds, to be drained by evictions or chosen
 * from. A place from N on is unused. Refused with 1, 2 or 4 to 7. */
tinca_entry tinca_cached(const uint8_t *card, size_t card_len, uint64_t place);

#ifdef __cplusplus
}
#endif

#endif
