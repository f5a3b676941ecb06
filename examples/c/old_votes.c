/* A small vote table lasts, since old votes leave it: node 0 of three, with E = 2, holds the votes of four slots at most, so 12 places are
 * enough for 1,000 slots. Then it is asked for the slot before the one last merged, and hears votes that are old. */
#include <stdio.h>
#include <stdlib.h>
#include "likvost.h"

enum { BLOCKS = 4, VOTES = 12, SLOTS = 1000, BUFFER = 128 };
enum { BLOCK_WORDS = LIKVOST_BLOCK_WORDS * BLOCKS, VOTE_WORDS = LIKVOST_VOTE_WORDS * VOTES };

static const likvost_settings settings = {.profile = LIKVOST_LOOM, .nodes = 3, .own = 0, .expiry = 2, .depth = 1};
static likvost_clock now;
static uint64_t blocks[BLOCK_WORDS], votes[VOTE_WORDS];
static size_t blocks_used, votes_used;

#define TABLES blocks, BLOCK_WORDS, &blocks_used, votes, VOTE_WORDS, &votes_used
#define READ_TABLES blocks, BLOCK_WORDS, blocks_used, votes, VOTE_WORDS, votes_used

/* Keeps the clock; ends the program if the call was refused. */
static likvost_answer keep(likvost_answer a)
{
    if (a.refusal != LIKVOST_OK) {
        fprintf(stderr, "refused: %s\n", likvost_refusal_message(a.refusal));
        exit(1);
    }
    now = a.clock;
    return a;
}

static uint8_t *put(uint8_t *at, uint64_t number, int bytes)
{
    for (int i = 0; i < bytes; i++, number >>= 8)
        *at++ = (uint8_t)number;
    return at;
}

/* Wide gossip with the votes of nodes 1 and 2 in this slot. */
static size_t gossip(uint8_t *packet, uint64_t slot, likvost_number block)
{
    uint8_t *p = put(put(put(put(packet, 2, 1), 0, 20), 0, 2), 2, 2);
    for (uint64_t voter = 1; voter <= 2; voter++)
        p = put(put(put(put(p, voter, 1), slot, 4), block.lower, 8), block.upper, 8);
    return (size_t)(p - packet);
}

static void ask(uint64_t slot)
{
    likvost_found head = likvost_head(settings, now, READ_TABLES, slot);
    if (head.refusal == LIKVOST_OK) /* no number here has an upper half */
        printf("slot %d: head %d\n", (int)slot, (int)head.value.lower);
    else
        printf("slot %d: refused by %d, %s\n", (int)slot, (int)head.refusal, likvost_refusal_message(head.refusal));
}

int main(void)
{
    const likvost_number zero = {.lower = 0}, number = {.lower = 31};
    uint8_t packet[BUFFER];
    size_t most = 0;
    keep(likvost_open(settings, now, TABLES));
    for (uint64_t slot = 1; slot <= SLOTS; slot++) {
        if (slot == 3)
            keep(likvost_propose(settings, now, TABLES, 3 * slot, number));
        likvost_number head = keep(likvost_vote(settings, now, TABLES, 3 * slot + 1)).value;
        size_t length = gossip(packet, slot, head);
        keep(likvost_receive(settings, now, TABLES, 3 * slot + 1, packet, length));
        most = votes_used > most ? votes_used : most;
        keep(likvost_merge(settings, now, TABLES, 3 * slot + 2));
    }
    printf("%d slots: at most %d votes in %d places, %d after the last Merge\n", SLOTS, (int)most, VOTES, (int)votes_used);
    ask(SLOTS);
    ask(SLOTS - 1);
    for (uint64_t slot = SLOTS - 3; slot <= SLOTS - 2; slot++) {
        /* votes for block 0, which nobody has yet cast in these slots: they are old in slot 997, and new in slot 998 */
        size_t length = gossip(packet, slot, zero);
        likvost_answer a = keep(likvost_receive(settings, now, TABLES, 3 * SLOTS + 2, packet, length));
        printf("two votes of slot %d: %d new, %d in the table\n", (int)slot, (int)a.new_votes, (int)votes_used);
    }
    return 0;
}
