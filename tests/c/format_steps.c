/* A format over a card in use, of either version, stopped after each machine instruction: until its last store the card is the old one or is
 * refused with 1, by every call: also by those that take version 1.
 *
 *     format_steps           the library's format
 *     format_steps --wrong   one that writes the header first, which must be reported
 */
#include <signal.h>
#include <stdio.h>
#include <stdlib.h>
#include <string.h>
#include <sys/mman.h>
#include <sys/ptrace.h>
#include <sys/wait.h>
#include <unistd.h>

#include "tinca.h"

enum { K = 9, DISK_BLOCKS = 16, BLOCK = 512 };

typedef struct {
    uint8_t version; /* of the card in use */
    uint64_t slots, data_blocks;
    size_t length, front; /* of the card; up to its data blocks */
    uint8_t *card, *old, *made;
} subject;

static void fail(const char *what)
{
    perror(what);
    exit(2);
}

/* The header first and then the zeros, as memory would have it if the order did not matter. */
static void wrong_format(const subject *s)
{
    memcpy(s->card, s->made, 64);
    memset(s->card + 64, 0, s->front - 64);
}

/* A card that caches two blocks, and what a format makes of it. Blocks saved once have the same entries on a card of version 1. */
static void prepare(subject *s)
{
    const uint64_t numbers[2] = {3, 5};
    const uint8_t choice[BLOCK / 8] = {0};
    uint8_t data[2 * BLOCK];
    tinca_map made;
    uint64_t map[2];
    s->length = TINCA_CARD_LENGTH(K, s->slots, s->data_blocks);
    s->front = s->length - s->data_blocks * BLOCK;
    s->card = mmap(NULL, s->length, PROT_READ | PROT_WRITE, MAP_SHARED | MAP_ANONYMOUS, -1, 0);
    s->old = malloc(s->length);
    s->made = malloc(s->length);
    if (s->card == MAP_FAILED || !s->old || !s->made)
        fail("memory");
    memset(data, 7, sizeof data);
    if (tinca_format(K, s->slots, s->data_blocks, DISK_BLOCKS, s->card, s->length).kind != TINCA_DONE)
        exit(2);
    made = tinca_make_map(s->card, s->length);
    map[0] = made.low;
    map[1] = made.high;
    if (tinca_commit(s->card, s->length, map, 2, numbers, 2, data, sizeof data, choice, sizeof choice, UINT64_MAX).kind != TINCA_DONE)
        exit(2);
    s->card[4] = s->version;
    if (tinca_make_map(s->card, s->length).kind != TINCA_MADE)
        exit(2);
    memcpy(s->old, s->card, s->length);
    memcpy(s->made, s->card, s->length);
    tinca_format(K, s->slots, s->data_blocks, DISK_BLOCKS, s->made, s->length);
}

/* Whether the card is neither the old nor the new nor one that is refused for its header. */
static int is_mixed(const subject *s)
{
    return tinca_make_map(s->card, s->length).refusal != TINCA_BAD_HEADER && memcmp(s->card, s->old, s->length) && memcmp(s->card, s->made, s->length);
}

/* Formats in a child that stops after each instruction; answers how many stops left a mixed card. */
static long stepped(const subject *s, int wrong, long *stops)
{
    long mixed = 0;
    int status;
    pid_t child = fork();
    if (child < 0)
        fail("fork");
    if (child == 0) {
        if (ptrace(PTRACE_TRACEME, 0, NULL, NULL))
            fail("a process cannot be stepped here");
        raise(SIGSTOP);
        if (wrong)
            wrong_format(s);
        else
            tinca_format(K, s->slots, s->data_blocks, DISK_BLOCKS, s->card, s->length);
        _exit(0);
    }
    waitpid(child, &status, 0);
    while (WIFSTOPPED(status)) {
        *stops += 1;
        mixed += is_mixed(s);
        if (ptrace(PTRACE_SINGLESTEP, child, NULL, NULL))
            fail("step");
        waitpid(child, &status, 0);
    }
    if (!WIFEXITED(status) || WEXITSTATUS(status) || memcmp(s->card, s->made, s->length))
        exit(2);
    return mixed;
}

int main(int count, char **words)
{
    subject subjects[] = {
        {.version = 2, .slots = 8, .data_blocks = 4},
        {.version = 2, .slots = 256, .data_blocks = 128},
        {.version = 1, .slots = 8, .data_blocks = 4},
    };
    const int wrong = count == 2 && strcmp(words[1], "--wrong") == 0;
    long stops = 0;
    int good = 1;
    for (size_t i = 0; i < sizeof subjects / sizeof *subjects; i++) {
        long mixed;
        prepare(&subjects[i]);
        stops = 0;
        mixed = stepped(&subjects[i], wrong, &stops);
        printf("%ld instructions of a format over a card of version %d, %ld leave one that is neither old nor new nor refused with 1\n", stops,
               subjects[i].version, mixed);
        good &= (mixed > 0) == wrong;
    }
    return !good;
}
