/* Two keepers saved a packet each, of the same shift. Held against each other they name the loom that voted twice: node 2, whose board was swapped
 * in slot 2. Node 1 voted for the same block in both, which is no second vote. */
#include <inttypes.h>
#include <stdio.h>
#include <stdlib.h>
#include "likvost.h"

enum { BLOCKS = 8, VOTES = 16, PACKET = 512 };
enum { BLOCK_WORDS = LIKVOST_BLOCK_WORDS * BLOCKS, VOTE_WORDS = LIKVOST_VOTE_WORDS * VOTES };

static const likvost_settings settings = {.profile = LIKVOST_LOOM, .nodes = 4, .own = 0, .expiry = 2, .depth = 1};
static likvost_clock now;
static uint64_t blocks[BLOCK_WORDS], votes[VOTE_WORDS];
static size_t blocks_used, votes_used;

typedef struct {
    uint64_t voter, slot, number;
} vote;

static uint8_t *put(uint8_t *at, uint64_t number, int bytes)
{
    for (int i = 0; i < bytes; i++, number >>= 8)
        *at++ = (uint8_t)number;
    return at;
}

/* Narrow gossip: blocks 11 and 12 of slot 1, and these votes. */
static size_t gossip(uint8_t *packet, const vote *v, size_t count)
{
    uint8_t *p = put(put(packet, 0, 13), 2, 2);
    for (uint64_t number = 11; number <= 12; number++)
        p = put(put(put(p, number, 8), 0, 8), 1, 4);
    p = put(p, count, 2);
    for (size_t i = 0; i < count; i++)
        p = put(put(put(p, v[i].voter, 1), v[i].slot, 4), v[i].number, 8);
    return (size_t)(p - packet);
}

static void compare(const char *what, const uint8_t *first, size_t first_len, const uint8_t *second, size_t second_len)
{
    likvost_compared c =
        likvost_compare(settings, now, blocks, BLOCK_WORDS, blocks_used, votes, VOTE_WORDS, votes_used, 8, first, first_len, second, second_len);
    printf("%s: ", what);
    if (c.refusal != LIKVOST_OK)
        printf("packet %d refused by %d, %s\n", (int)c.packet, (int)c.refusal, likvost_refusal_message(c.refusal));
    else if (c.found)
        printf("node %d voted in slot %d for %" PRIu64 " and then for %" PRIu64 "\n", (int)c.voter, (int)c.slot, c.block.lower, c.other.lower);
    else
        printf("nobody voted twice\n");
}

int main(void)
{
    static const vote heard_here[] = {{1, 1, 11}, {2, 1, 11}, {3, 1, 12}, {2, 2, 12}};
    static const vote heard_there[] = {{3, 2, 12}, {2, 2, 11}, {1, 1, 11}, {3, 2, 11}};
    static uint8_t first[PACKET], second[PACKET];
    likvost_answer a = likvost_open(settings, now, blocks, BLOCK_WORDS, &blocks_used, votes, VOTE_WORDS, &votes_used);
    if (a.refusal != LIKVOST_OK)
        return 1;
    now = a.clock;
    const size_t here = gossip(first, heard_here, 4), there = gossip(second, heard_there, 4);
    compare("both packets", first, here, second, there);
    compare("the other way round", second, there, first, here);
    compare("the first twice", first, here, first, here);
    compare("the second twice", second, there, second, there);
    compare("the second cut short", first, here, second, there - 1);
    return 0;
}
