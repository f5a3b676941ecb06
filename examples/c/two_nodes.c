/* Two nodes of a network of two: node 1 proposes block 2^64 + 11 in slot 1, node 0 receives it, both vote, exchange their votes and
 * merge. Then node 0 prints head, deep block and fast block of slot 1, and tries to write for an old board. */
#include <inttypes.h>
#include <stdio.h>
#include <stdlib.h>
#include "likvost.h"

enum { BLOCK_WORDS = LIKVOST_BLOCK_WORDS * 16, VOTE_WORDS = LIKVOST_VOTE_WORDS * 32, BUFFER = 1024 };

typedef struct {
    likvost_settings settings;
    likvost_clock clock;
    uint64_t blocks[BLOCK_WORDS], votes[VOTE_WORDS];
    size_t blocks_used, votes_used;
} node;

#define TABLES(n) (n)->blocks, BLOCK_WORDS, &(n)->blocks_used, (n)->votes, VOTE_WORDS, &(n)->votes_used
#define READ_TABLES(n) (n)->blocks, BLOCK_WORDS, (n)->blocks_used, (n)->votes, VOTE_WORDS, (n)->votes_used

/* Keeps the clock; ends the program if the call was refused. */
static likvost_answer keep(node *n, likvost_answer a, const char *call)
{
    if (a.refusal != LIKVOST_OK) {
        fprintf(stderr, "node %d: %s refused: %s", (int)n->settings.own, call, likvost_refusal_message(a.refusal));
        if (a.refusal == LIKVOST_BAD_BLOCK || a.refusal == LIKVOST_BAD_VOTE)
            fprintf(stderr, ", entry %d", (int)a.index);
        fprintf(stderr, "\n");
        exit(1);
    }
    n->clock = a.clock;
    return a;
}

/* Carries a packet from one node to the other. */
static void carry(node *from, node *to, bool proposal, uint64_t beat)
{
    static uint8_t buffer[BUFFER];
    likvost_written w = likvost_write(from->settings, from->clock, READ_TABLES(from), proposal, true, buffer, BUFFER);
    if (w.refusal != LIKVOST_OK)
        exit(1);
    likvost_answer a = keep(to, likvost_receive(to->settings, to->clock, TABLES(to), beat, buffer, w.bytes), "receive");
    printf("%s of %d bytes: %d new blocks, %d new votes%s\n", proposal ? "proposal" : "gossip", (int)w.bytes, (int)a.new_blocks,
           (int)a.new_votes, a.viewed ? ", in view" : "");
}

static void print(const char *what, likvost_number n)
{
    if (n.upper != 0)
        printf("%s %" PRIu64 " * 2^64 + %" PRIu64 "\n", what, n.upper, n.lower);
    else
        printf("%s %" PRIu64 "\n", what, n.lower);
}

int main(void)
{
    static node nodes[2];
    const likvost_number number = {.lower = 11, .upper = 1};
    for (uint64_t i = 0; i < 2; i++) {
        nodes[i].settings = (likvost_settings){.profile = LIKVOST_LOOM, .nodes = 2, .own = i, .expiry = 4, .depth = 1};
        keep(&nodes[i], likvost_open(nodes[i].settings, nodes[i].clock, TABLES(&nodes[i])), "open");
    }
    keep(&nodes[1], likvost_propose(nodes[1].settings, nodes[1].clock, TABLES(&nodes[1]), 3, number), "propose");
    carry(&nodes[1], &nodes[0], true, 3);
    for (int i = 0; i < 2; i++)
        keep(&nodes[i], likvost_vote(nodes[i].settings, nodes[i].clock, TABLES(&nodes[i]), 4), "vote");
    carry(&nodes[1], &nodes[0], false, 4);
    carry(&nodes[0], &nodes[1], false, 4);
    for (int i = 0; i < 2; i++)
        keep(&nodes[i], likvost_merge(nodes[i].settings, nodes[i].clock, TABLES(&nodes[i]), 5), "merge");
    likvost_found head = likvost_head(nodes[0].settings, nodes[0].clock, READ_TABLES(&nodes[0]), 1);
    likvost_found deep = likvost_deep(nodes[0].settings, nodes[0].clock, READ_TABLES(&nodes[0]), 1);
    likvost_found fast = likvost_fast(nodes[0].settings, nodes[0].clock, READ_TABLES(&nodes[0]), 1);
    print("head", head.value);
    print("deep", deep.value);
    if (fast.found)
        print("fast", fast.value);
    else
        printf("fast none\n");
    /* A narrow packet has no room for this number. */
    uint8_t buffer[BUFFER];
    likvost_written w = likvost_write(nodes[0].settings, nodes[0].clock, READ_TABLES(&nodes[0]), false, false, buffer, BUFFER);
    printf("narrow gossip: refused by %d, %s\n", (int)w.refusal, likvost_refusal_message(w.refusal));
    return 0;
}
