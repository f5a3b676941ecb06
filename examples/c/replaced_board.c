/* A board that voted twice in a slot counts again once that slot is out of the window. Node 0 of three hears boards 1 and 2: board 1 votes
 * for blocks 11 and 12 in slot 1, and for 11 in slots 2 and 3, when it is replaced; board 2 votes for 12 in all of them. With E = 2 board 1
 * is dropped for slots 2 and 3, and head 12 has board 2's vote alone; for slot 4 both count, and the smaller number is the head. */
#include <stdio.h>
#include <stdlib.h>
#include "likvost.h"

enum { BLOCK_WORDS = LIKVOST_BLOCK_WORDS * 16, VOTE_WORDS = LIKVOST_VOTE_WORDS * 32, BUFFER = 1024 };

static const likvost_settings settings = {.profile = LIKVOST_LOOM, .nodes = 3, .own = 0, .expiry = 2, .depth = 1};
static likvost_clock now;
static uint64_t blocks[BLOCK_WORDS], votes[VOTE_WORDS];
static size_t blocks_used, votes_used;

#define TABLES blocks, BLOCK_WORDS, &blocks_used, votes, VOTE_WORDS, &votes_used
#define READ_TABLES blocks, BLOCK_WORDS, blocks_used, votes, VOTE_WORDS, votes_used

/* Keeps the clock; ends the program if the call was refused. */
static void keep(likvost_answer a)
{
    if (a.refusal != LIKVOST_OK) {
        fprintf(stderr, "refused: %s\n", likvost_refusal_message(a.refusal));
        exit(1);
    }
    now = a.clock;
}

static uint8_t *put(uint8_t *at, uint64_t number, int bytes)
{
    for (int i = 0; i < bytes; i++, number >>= 8)
        *at++ = (uint8_t)number;
    return at;
}

/* What the two boards say in a slot, wide: blocks 11 and 12 of slot 1, and their votes of this slot. No number has an upper half. */
static size_t gossip(uint8_t *packet, uint64_t slot)
{
    static const uint8_t cast[][3] = {{1, 1, 11}, {1, 1, 12}, {1, 2, 11}, {1, 3, 11}, {2, 1, 12}, {2, 2, 12}, {2, 3, 12}};
    enum { CAST = sizeof cast / sizeof cast[0] };
    uint8_t *p = put(put(put(packet, 2, 1), 0, 20), 2, 2);
    for (uint64_t number = 11; number <= 12; number++)
        p = put(put(put(p, number, 16), 0, 16), 1, 4);
    uint8_t *count = p;
    p = put(p, 0, 2);
    for (int i = 0; i < CAST; i++) {
        if (cast[i][1] == slot) {
            p = put(put(put(p, cast[i][0], 1), cast[i][1], 4), cast[i][2], 16);
            (*count)++;
        }
    }
    return (size_t)(p - packet);
}

int main(void)
{
    uint8_t packet[BUFFER];
    keep(likvost_open(settings, now, TABLES));
    for (uint64_t slot = 1; slot <= 4; slot++) {
        size_t length = gossip(packet, slot);
        keep(likvost_receive(settings, now, TABLES, 3 * slot + 1, packet, length));
        keep(likvost_merge(settings, now, TABLES, 3 * slot + 2));
        likvost_found head = likvost_head(settings, now, READ_TABLES, slot);
        if (head.refusal != LIKVOST_OK)
            return 1;
        if (slot > 1)
            printf("slot %d: head %d\n", (int)slot, (int)head.value.lower);
    }
    return 0;
}
