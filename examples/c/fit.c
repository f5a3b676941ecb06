/* A loom is brought in from a stopped line: its keeper asks before whether the stock will fit. Node 0 of two has 4 places in each table. It is
 * asked about narrow gossip of node 1, with one more block each time, and is then given it. Where it fits, Receive and a wide Write find what
 * was foretold. */
#include <stdio.h>
#include <stdlib.h>
#include "likvost.h"

enum { BLOCKS = 4, VOTES = 4, BUFFER = 4096 };
enum { BLOCK_WORDS = LIKVOST_BLOCK_WORDS * BLOCKS, VOTE_WORDS = LIKVOST_VOTE_WORDS * VOTES };

static const likvost_settings settings = {.profile = LIKVOST_LOOM, .nodes = 2, .own = 0, .expiry = 2, .depth = 1};
static likvost_clock now;
static uint64_t blocks[BLOCK_WORDS], votes[VOTE_WORDS];
static size_t blocks_used, votes_used;

#define TABLES blocks, BLOCK_WORDS, &blocks_used, votes, VOTE_WORDS, &votes_used
#define READ_TABLES blocks, BLOCK_WORDS, blocks_used, votes, VOTE_WORDS, votes_used

/* Keeps the clock; ends the program if the call was refused. */
static void keep(likvost_answer a)
{
    if (a.refusal != LIKVOST_OK) {
        fprintf(stderr, "refused: %s\n", likvost_refusal_message(a.refusal));
        exit(1);
    }
    now = a.clock;
}

static uint8_t *put(uint8_t *at, uint64_t number, int bytes)
{
    for (int i = 0; i < bytes; i++, number >>= 8)
        *at++ = (uint8_t)number;
    return at;
}

/* Narrow gossip: block 11 of slot 1, so many more on it of slot 2, and node 1's vote in slot 1 for block 11. */
static size_t gossip(uint8_t *packet, uint64_t more)
{
    uint8_t *p = put(put(packet, 0, 13), 1 + more, 2);
    p = put(put(put(p, 11, 8), 0, 8), 1, 4);
    for (uint64_t number = 20; number < 20 + more; number++)
        p = put(put(put(p, number, 8), 11, 8), 2, 4);
    return (size_t)(put(put(put(put(p, 1, 2), 1, 1), 1, 4), 11, 8) - packet);
}

int main(void)
{
    static uint8_t packet[BUFFER], buffer[BUFFER];
    const likvost_number number = {.lower = 11};
    keep(likvost_open(settings, now, TABLES));
    keep(likvost_merge(settings, now, TABLES, 5));
    keep(likvost_propose(settings, now, TABLES, 6, number));
    /* The own block 11 is of slot 2, so node 1's of slot 1 breaks a rule. */
    size_t length = gossip(packet, 0);
    likvost_fitted bad = likvost_fit(settings, now, READ_TABLES, 6, packet, length);
    printf("refused by %d at %d, %s\n", (int)bad.refusal, (int)bad.index, likvost_refusal_message(bad.refusal));

    /* A fresh node takes it, as long as there are places. */
    keep(likvost_open(settings, now, TABLES));
    for (uint64_t more = 0; more < 5; more++) {
        length = gossip(packet, more);
        likvost_fitted f = likvost_fit(settings, now, READ_TABLES, 8, packet, length);
        printf("%d new blocks, %d new votes, %d bytes: ", (int)f.new_blocks, (int)f.new_votes, (int)f.bytes);
        bool fits = blocks_used + f.new_blocks <= BLOCKS && votes_used + f.new_votes <= VOTES;
        likvost_answer a = likvost_receive(settings, now, TABLES, 8, packet, length);
        now = a.clock;
        likvost_written w = likvost_write(settings, now, READ_TABLES, false, true, buffer, BUFFER);
        if (fits != (a.refusal == LIKVOST_OK) || (fits && (a.new_blocks != f.new_blocks || a.new_votes != f.new_votes || w.bytes != f.bytes)))
            return 1;
        if (fits)
            printf("they fit, and were received\n");
        else
            printf("they do not fit, refused by %d\n", (int)a.refusal);
    }
    return 0;
}
