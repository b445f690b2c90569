/* What the header alone promises: constants, layouts as the library's, a sentence for each refusal, which it prints as rows of a table. */
#include <stdio.h>
#include <string.h>

#include "tinca.h"

#ifdef __cplusplus
#define SAME(a, b) static_assert((a) == (b), #a)
#else
#define SAME(a, b) _Static_assert((a) == (b), #a)
#endif

/* lengths are constants: the smallest and the largest card and disk */
SAME(TINCA_BLOCK_LENGTH(9), 512);
SAME(TINCA_CARD_LENGTH(9, 8, 4), 2304);
SAME(TINCA_CARD_LENGTH(12, 256, 128), 528512);
SAME(TINCA_DISK_LENGTH(9, 1), 512);
SAME(TINCA_DISK_LENGTH(12, 65536), 268435456);

/* the structs as the library lays them out: the numbers one after the other */
SAME(sizeof(tinca_answer), 16);
SAME(sizeof(tinca_place), 24);
SAME(sizeof(tinca_state), 56);
SAME(sizeof(tinca_entry), 24);
SAME(sizeof(tinca_map), 24);
SAME(sizeof(tinca_record), 24);
SAME(offsetof(tinca_answer, refusal), 4);
SAME(offsetof(tinca_place, refusal), 4);
SAME(offsetof(tinca_state, refusal), 4);
SAME(offsetof(tinca_entry, refusal), 4);
SAME(offsetof(tinca_map, refusal), 4);
SAME(offsetof(tinca_record, refusal), 4);
SAME(offsetof(tinca_state, k), 8);
SAME(offsetof(tinca_state, slots), 16);
SAME(offsetof(tinca_state, data_blocks), 24);
SAME(offsetof(tinca_state, disk_blocks), 32);
SAME(offsetof(tinca_answer, stores), 8);
SAME(offsetof(tinca_place, offset), 8);
SAME(offsetof(tinca_place, length), 16);
SAME(offsetof(tinca_state, in_use), 40);
SAME(offsetof(tinca_state, undoable), 40);
SAME(offsetof(tinca_state, modified), 48);
SAME(offsetof(tinca_state, window), 48);
SAME(offsetof(tinca_entry, block), 8);
SAME(offsetof(tinca_entry, modified), 16);
SAME(offsetof(tinca_map, low), 8);
SAME(offsetof(tinca_map, high), 16);
SAME(offsetof(tinca_record, tail), 8);
SAME(offsetof(tinca_record, count), 16);

/* declarations once more, as the library has them: one with another const, or in another order, would not compile */
#ifdef __cplusplus
extern "C" {
#endif
tinca_answer tinca_commit(uint8_t *card, size_t card_len, uint64_t *map, size_t map_words, const uint64_t *numbers, size_t count,
                          const uint8_t *data, size_t data_len, const uint8_t *choice, size_t choice_len, uint64_t allowance);
tinca_answer tinca_preview(const uint8_t *card, size_t card_len, const uint64_t *map, size_t map_words, const uint64_t *numbers, size_t count,
                           const uint8_t *data, size_t data_len, uint32_t *blocks, size_t blocks_len);
tinca_answer tinca_commit_making_room(uint8_t *card, size_t card_len, uint8_t *disk, size_t disk_len, uint64_t *map, size_t map_words,
                                      uint8_t *table, size_t table_len, const uint64_t *numbers, size_t count, const uint8_t *data,
                                      size_t data_len, const uint8_t *choice, size_t choice_len, uint64_t allowance);
tinca_answer tinca_load(uint8_t *card, size_t card_len, const uint8_t *disk, size_t disk_len, uint64_t *map, size_t map_words,
                        uint8_t *table, size_t table_len, uint64_t block, const uint8_t *choice, size_t choice_len, uint64_t allowance);
tinca_answer tinca_evict(uint8_t *card, size_t card_len, uint8_t *disk, size_t disk_len, uint64_t *map, size_t map_words, uint64_t block,
                         const uint8_t *choice, size_t choice_len, uint64_t allowance);
tinca_record tinca_open(const uint8_t *card, size_t card_len);
tinca_answer tinca_put(uint8_t *card, size_t card_len, uint64_t *map, size_t map_words, uint64_t *record, size_t record_words, uint64_t block,
                       const uint8_t *data, size_t data_len, const uint8_t *choice, size_t choice_len, uint64_t allowance);
tinca_answer tinca_finish(uint8_t *card, size_t card_len, uint64_t *map, size_t map_words, const uint64_t *record, size_t record_words,
                          uint64_t allowance);
tinca_answer tinca_upgrade(uint8_t *card, size_t card_len, uint64_t allowance);
tinca_place tinca_read(const uint8_t *card, size_t card_len, const uint8_t *disk, size_t disk_len, uint8_t *table, size_t table_len,
                       uint64_t block, uint8_t *out, size_t out_len);
#ifdef __cplusplus
}
#endif

SAME(TINCA_BAD_TABLE, 16);
SAME(TINCA_BAD_CHOICE, 17);
SAME(TINCA_WRONG_RECORD, 18);

int main(void)
{
    const char *none = tinca_refusal_text(TINCA_WRONG_RECORD + 1);
    uint32_t number;
    if (strcmp(tinca_refusal_text(0), none) == 0 || strcmp(tinca_refusal_text(UINT32_MAX), none) != 0)
        return 1;
    for (number = TINCA_BAD_HEADER; number <= TINCA_WRONG_RECORD; number++) {
        if (strcmp(tinca_refusal_text(number), none) == 0)
            return 1;
        printf("| %u | %s |\n", (unsigned)number, tinca_refusal_text(number));
    }
    return 0;
}
