/* A rack and a loom in a network of three: node 1, the rack, proposes block 11 in slot 1, node 0, the loom, receives it, both vote,
 * exchange their votes and merge. Then node 2 sends both of them more than a rack reads. Last, settings are tried that name no profile. */
#include <stdio.h>
#include <stdlib.h>
#include "likvost.h"

/* The most places that a rack may have, and room for all that it may write. Here the loom has more places for blocks. */
enum { RACK_BLOCKS = 64, LOOM_BLOCKS = 256, VOTES = 256, LONG_BLOCKS = 114, BUFFER = 8192 };
enum { VOTE_WORDS = LIKVOST_VOTE_WORDS * VOTES };

typedef struct {
    const char *name;
    likvost_settings settings;
    likvost_clock clock;
    size_t block_words;
    uint64_t blocks[LIKVOST_BLOCK_WORDS * LOOM_BLOCKS], votes[VOTE_WORDS];
    size_t blocks_used, votes_used;
} node;

#define TABLES(n) (n)->blocks, (n)->block_words, &(n)->blocks_used, (n)->votes, VOTE_WORDS, &(n)->votes_used
#define READ_TABLES(n) (n)->blocks, (n)->block_words, (n)->blocks_used, (n)->votes, VOTE_WORDS, (n)->votes_used

/* Keeps the clock; ends the program if the call was refused. */
static void keep(node *n, likvost_answer a)
{
    if (a.refusal != LIKVOST_OK) {
        fprintf(stderr, "the %s refused: %s\n", n->name, likvost_refusal_message(a.refusal));
        exit(1);
    }
    n->clock = a.clock;
}

/* Hands a packet to a node, and prints what it answers. */
static void receive(node *n, uint64_t beat, const uint8_t *packet, size_t length)
{
    likvost_answer a = likvost_receive(n->settings, n->clock, TABLES(n), beat, packet, length);
    n->clock = a.clock;
    printf("%d bytes to the %s: ", (int)length, n->name);
    if (a.refusal == LIKVOST_OK)
        printf("%d new blocks, %d new votes%s\n", (int)a.new_blocks, (int)a.new_votes, a.viewed ? ", in view" : "");
    else
        printf("refused by %d, %s\n", (int)a.refusal, likvost_refusal_message(a.refusal));
}

/* Carries a packet from one node to the other. */
static void carry(const node *from, node *to, bool proposal, uint64_t beat)
{
    static uint8_t buffer[BUFFER];
    likvost_written w = likvost_write(from->settings, from->clock, READ_TABLES(from), proposal, true, buffer, BUFFER);
    if (w.refusal != LIKVOST_OK)
        exit(1);
    receive(to, beat, buffer, w.bytes);
}

static uint8_t *put(uint8_t *at, uint64_t number, int bytes)
{
    for (int i = 0; i < bytes; i++, number >>= 8)
        *at++ = (uint8_t)number;
    return at;
}

/* Wide gossip with so many blocks of slot 1 on block 0, and no votes. */
static size_t gossip(uint8_t *packet, uint64_t blocks)
{
    uint8_t *p = put(put(put(packet, 2, 1), 0, 20), blocks, 2);
    for (uint64_t number = 100; number < 100 + blocks; number++)
        p = put(put(put(p, number, 16), 0, 16), 1, 4);
    return (size_t)(put(p, 0, 2) - packet);
}

int main(void)
{
    static node loom = {.name = "loom", .block_words = LIKVOST_BLOCK_WORDS * LOOM_BLOCKS};
    static node rack = {.name = "rack", .block_words = LIKVOST_BLOCK_WORDS * RACK_BLOCKS};
    static uint8_t packet[BUFFER];
    const likvost_number number = {.lower = 11};
    loom.settings = (likvost_settings){.profile = LIKVOST_LOOM, .nodes = 3, .own = 0, .expiry = 2, .depth = 1};
    rack.settings = (likvost_settings){.profile = LIKVOST_RACK, .nodes = 3, .own = 1, .expiry = 2, .depth = 1};
    keep(&loom, likvost_open(loom.settings, loom.clock, TABLES(&loom)));
    keep(&rack, likvost_open(rack.settings, rack.clock, TABLES(&rack)));

    keep(&rack, likvost_propose(rack.settings, rack.clock, TABLES(&rack), 3, number));
    carry(&rack, &loom, true, 3);
    keep(&rack, likvost_vote(rack.settings, rack.clock, TABLES(&rack), 4));
    keep(&loom, likvost_vote(loom.settings, loom.clock, TABLES(&loom), 4));
    carry(&rack, &loom, false, 4);
    carry(&loom, &rack, false, 4);
    keep(&rack, likvost_merge(rack.settings, rack.clock, TABLES(&rack), 5));
    keep(&loom, likvost_merge(loom.settings, loom.clock, TABLES(&loom), 5));
    likvost_found rack_head = likvost_head(rack.settings, rack.clock, READ_TABLES(&rack), 1);
    likvost_found loom_head = likvost_head(loom.settings, loom.clock, READ_TABLES(&loom), 1);
    printf("head %d on the rack, %d on the loom\n", (int)rack_head.value.lower, (int)loom_head.value.lower);

    /* One block fewer, and the rack would read it, but has no places for so many. */
    for (uint64_t blocks = LONG_BLOCKS - 1; blocks <= LONG_BLOCKS; blocks++) {
        size_t length = gossip(packet, blocks);
        receive(&rack, 5, packet, length);
        receive(&loom, 5, packet, length);
    }

    static const uint64_t none[] = {0, 3};
    for (size_t i = 0; i < sizeof none / sizeof none[0]; i++) {
        likvost_settings settings = rack.settings;
        settings.profile = none[i];
        uint64_t open = likvost_open(settings, rack.clock, TABLES(&rack)).refusal;
        uint64_t merge = likvost_merge(settings, rack.clock, TABLES(&rack), 8).refusal;
        printf("profile %d: open refused by %d, merge by %d\n", (int)none[i], (int)open, (int)merge);
    }
    keep(&rack, likvost_merge(rack.settings, rack.clock, TABLES(&rack), 8));
    return 0;
}
