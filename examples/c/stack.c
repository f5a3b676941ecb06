/* How much stack each call takes on the largest tables, of a loom and of a rack: it is made in a thread whose stack was painted before.
 * Fails above 256 KiB. */
#define _XOPEN_SOURCE 700
#include <pthread.h>
#include <stdio.h>
#include <stdlib.h>
#include <string.h>
#include "likvost.h"

enum { STACK = 1 << 20, PAINT = 0xA5 };

/* A profile and its limits. */
typedef struct {
    const char *name;
    uint64_t profile, nodes, blocks, votes;
    size_t packet;
} limits;

static const limits loom = {"loom", LIKVOST_LOOM, 64, 2048, 8192, LIKVOST_LARGEST_PACKET};
static const limits rack = {"rack", LIKVOST_RACK, 16, 64, 256, LIKVOST_RACK_PACKET};

static uint64_t last; /* the slot of the last block */
static likvost_settings settings;
static likvost_clock now;
static uint64_t blocks[LIKVOST_BLOCK_WORDS * 2048], votes[LIKVOST_VOTE_WORDS * 8192];
static size_t block_words, blocks_used, vote_words, votes_used;
static uint8_t proposal[LIKVOST_LARGEST_PACKET], gossip[LIKVOST_LARGEST_PACKET];
static size_t proposal_length, gossip_length;

#define TABLES blocks, block_words, &blocks_used, votes, vote_words, &votes_used
#define READ_TABLES blocks, block_words, blocks_used, votes, vote_words, votes_used

static void must(uint64_t refusal)
{
    if (refusal != LIKVOST_OK) {
        fprintf(stderr, "refused: %s\n", likvost_refusal_message(refusal));
        exit(1);
    }
}

static uint8_t *put(uint8_t *at, uint64_t number, int bytes)
{
    for (int i = 0; i < bytes; i++, number >>= 8)
        *at++ = (uint8_t)number;
    return at;
}

/* The number of the block of slot s: 2^64 * s + s. */
static uint8_t *put_number(uint8_t *at, uint64_t s) { return put(put(at, s, 8), s, 8); }

/* Votes of all nodes, for the block of the first slot that has votes. */
static uint8_t *put_votes(uint8_t *at, const limits *l, uint64_t from, uint64_t to)
{
    const uint64_t first = last - l->votes / l->nodes;
    at = put(at, to - from, 2);
    for (uint64_t i = from; i < to; i++)
        at = put_number(put(put(at, i % l->nodes, 1), first + i / l->nodes, 4), first);
    return at;
}

/* Packets that fill the tables but for one vote. The proposal of the last slot has all blocks, in a chain, one a slot, and as many of the
 * votes as it may; the gossip has the other votes, or, if there are none, all that the proposal has. */
static void make_packets(const limits *l)
{
    const uint64_t all = l->votes - 1, room = (l->packet - 25 - 36 * last) / 21, part = all < room ? all : room;
    uint8_t *p = put_number(put(put(proposal, 3, 1), last, 4), last);
    p = put(p, last, 2);
    for (uint64_t s = 1; s <= last; s++)
        p = put(put_number(put_number(p, s), s - 1), s, 4);
    proposal_length = (size_t)(put_votes(p, l, 0, part) - proposal);
    if (part < all) {
        gossip_length = (size_t)(put_votes(put(put(put(gossip, 2, 1), 0, 20), 0, 2), l, part, all) - gossip);
    } else {
        memcpy(gossip, proposal, proposal_length);
        put(put(gossip, 2, 1), 0, 20);
        gossip_length = proposal_length;
    }
}

/* Keeps the clock; ends the program if the call was refused. */
static void keep(likvost_answer a)
{
    must(a.refusal);
    now = a.clock;
}

static void nothing(void) {}
static void open(void) { keep(likvost_open(settings, now, TABLES)); }
static void receive_proposal(void) { keep(likvost_receive(settings, now, TABLES, 3 * last, proposal, proposal_length)); }
static void receive(void) { keep(likvost_receive(settings, now, TABLES, 3 * last, gossip, gossip_length)); }
static void fit(void) { must(likvost_fit(settings, now, READ_TABLES, 3 * last, gossip, gossip_length).refusal); }
static void compare(void) { must(likvost_compare(settings, now, READ_TABLES, 3 * last, proposal, proposal_length, proposal, proposal_length).refusal); }
static void merge(void) { keep(likvost_merge(settings, now, TABLES, 3 * last + 2)); }
static void head(void) { must(likvost_head(settings, now, READ_TABLES, last).refusal); }
static void deep(void) { must(likvost_deep(settings, now, READ_TABLES, last).refusal); }
static void fast(void) { must(likvost_fast(settings, now, READ_TABLES, last).refusal); }
static void settled(void) { must(likvost_settled(settings, now, READ_TABLES, last, 1).refusal); }
static void write_gossip(void) { must(likvost_write(settings, now, READ_TABLES, false, true, gossip, sizeof gossip).refusal); }
static void propose(void)
{
    const likvost_number number = {.lower = 1 << 20, .upper = 1 << 20};
    blocks_used--; /* a free place; no vote is for the last block */
    keep(likvost_propose(settings, now, TABLES, 3 * last + 3, number));
}
static void vote(void) { keep(likvost_vote(settings, now, TABLES, 3 * last + 4)); }

static void *run(void *call)
{
    (*(void (**)(void))call)();
    return NULL;
}

static size_t taken(void (*call)(void))
{
    static _Alignas(4096) uint8_t stack[STACK];
    pthread_attr_t attributes;
    pthread_t thread;
    memset(stack, PAINT, STACK);
    pthread_attr_init(&attributes);
    pthread_attr_setstack(&attributes, stack, STACK);
    if (pthread_create(&thread, &attributes, run, &call) != 0)
        exit(1);
    pthread_join(thread, NULL);
    size_t i = 0;
    while (i < STACK && stack[i] == PAINT)
        i++;
    return STACK - i;
}

/* Prints a line for each call, and answers the most. */
static size_t measure(const limits *l, size_t thread)
{
    static const struct {
        const char *name;
        void (*call)(void);
    } calls[] = {{"Open", open},         {"Receive, proposal", receive_proposal}, {"Receive, gossip", receive}, {"Fit, gossip", fit},
                 {"Compare", compare},   {"Merge", merge},                        {"Head", head},               {"Deep", deep},
                 {"Fast", fast},         {"Settled", settled},                    {"Write", write_gossip},      {"Propose", propose},
                 {"Vote", vote}};
    size_t largest = 0;
    last = l->blocks - 1;
    block_words = LIKVOST_BLOCK_WORDS * l->blocks;
    vote_words = LIKVOST_VOTE_WORDS * l->votes;
    /* so no vote of the packets is old */
    settings = (likvost_settings){.profile = l->profile, .nodes = l->nodes, .own = 0, .expiry = l->votes / l->nodes, .depth = 32};
    make_packets(l);
    for (size_t i = 0; i < sizeof calls / sizeof calls[0]; i++) {
        size_t bytes = taken(calls[i].call) - thread;
        printf("%s: %-20s %7zu bytes\n", l->name, calls[i].name, bytes);
        largest = bytes > largest ? bytes : largest;
        if (calls[i].call == merge && (blocks_used != l->blocks || votes_used != l->votes - 1))
            exit(1); /* the tables are not full */
    }
    printf("%s: %-20s %7zu bytes\n", l->name, "the largest", largest);
    return largest;
}

int main(void)
{
    size_t thread = taken(nothing), of_loom = measure(&loom, thread), of_rack = measure(&rack, thread);
    return of_loom <= 256 * 1024 && of_rack <= 256 * 1024 ? 0 : 1;
}
