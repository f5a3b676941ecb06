/* Five nodes, and a cable fault: node 0 knows which nodes it has not heard, and asks which block stands whatever they would say. It has received document
 * 01's shed: blocks 11 (on 0, slot 1), 21 (on 0, slot 2) and 31 (on 11, slot 3), with a vote of each node, and has merged slot 4. */
#include <stdio.h>
#include <stdlib.h>
#include "likvost.h"

enum { BLOCKS = 16, VOTES = 32, BLOCK_WORDS = LIKVOST_BLOCK_WORDS * BLOCKS, VOTE_WORDS = LIKVOST_VOTE_WORDS * VOTES };

static uint8_t *put(uint8_t *at, uint64_t number, int bytes)
{
    for (int i = 0; i < bytes; i++, number >>= 8)
        *at++ = (uint8_t)number;
    return at;
}

/* Ends the program if the call was refused; else answers the clock after it. */
static likvost_clock carried_out(likvost_answer a)
{
    if (a.refusal != LIKVOST_OK) {
        fprintf(stderr, "refused: %s\n", likvost_refusal_message(a.refusal));
        exit(1);
    }
    return a.clock;
}

int main(void)
{
    static const uint64_t shed_blocks[][3] = {{11, 0, 1}, {21, 0, 2}, {31, 11, 3}};                          /* number, parent, slot */
    static const uint64_t shed_votes[][3] = {{0, 1, 11}, {1, 2, 21}, {4, 2, 11}, {2, 3, 31}, {3, 3, 21}}; /* voter, slot, number */
    static uint64_t blocks[BLOCK_WORDS], votes[VOTE_WORDS];
    size_t blocks_used = 0, votes_used = 0;
    likvost_settings settings = {.profile = LIKVOST_LOOM, .nodes = 5, .own = 0, .expiry = 2, .depth = 3};
    likvost_clock clock = {0};

    /* A narrow gossip packet: kind, slot and number are 0. */
    uint8_t packet[256] = {0}, *end = put(packet + 13, 3, 2);
    for (int i = 0; i < 3; i++)
        end = put(put(put(end, shed_blocks[i][0], 8), shed_blocks[i][1], 8), shed_blocks[i][2], 4);
    end = put(end, 5, 2);
    for (int i = 0; i < 5; i++)
        end = put(put(put(end, shed_votes[i][0], 1), shed_votes[i][1], 4), shed_votes[i][2], 8);

    clock = carried_out(likvost_open(settings, clock, blocks, BLOCK_WORDS, &blocks_used, votes, VOTE_WORDS, &votes_used));
    clock = carried_out(likvost_receive(settings, clock, blocks, BLOCK_WORDS, &blocks_used, votes, VOTE_WORDS, &votes_used, 14, packet,
                                        (size_t)(end - packet)));
    clock = carried_out(likvost_merge(settings, clock, blocks, BLOCK_WORDS, &blocks_used, votes, VOTE_WORDS, &votes_used, 14));

    /* Two nodes stand behind 11 and 31, two behind 21, and the smaller number decides. */
    static const struct {
        const char *who;
        uint64_t silent; /* bit v is node v */
    } asked[] = {{"nobody", 0}, {"node 1", 1 << 1}, {"nodes 1 and 3", 1 << 1 | 1 << 3}, {"node 0", 1 << 0}, {"node 5 of 5", 1 << 5}};
    for (size_t i = 0; i < sizeof asked / sizeof asked[0]; i++) {
        likvost_found f = likvost_settled(settings, clock, blocks, BLOCK_WORDS, blocks_used, votes, VOTE_WORDS, votes_used, 4,
                                          asked[i].silent);
        printf("silent: %s: ", asked[i].who);
        if (f.refusal == LIKVOST_OK)
            printf("block %d\n", (int)f.value.lower);
        else
            printf("refused by %d, %s\n", (int)f.refusal, likvost_refusal_message(f.refusal));
    }
    return 0;
}
