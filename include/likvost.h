/* Likvost: a consensus node for a small network whose members sleep and wake (RLMD-GHOST), proved.
 *
 * The caller lends all memory. A node is its settings, its clock and two tables of 64-bit words:
 *   blocks: 6 words to a row: number lower, number upper, parent lower, parent upper, slot, mark
 *   votes:  5 words to a row: voter, slot, number lower, number upper, mark
 * A table of p places has LIKVOST_BLOCK_WORDS * p words, resp. LIKVOST_VOTE_WORDS * p. `*_used` counts the rows in use.
 * A number has two halves, lower and upper. A mark is 1 (in view) or 0 (waiting).
 *
 * The profile in the settings says whose limits the node keeps to. Looms and racks may be nodes of one network.
 *           nodes     block places, block 0 included   vote places   packets that likvost_receive reads
 *   loom    1 to 64   1 to 2,048                       1 to 8,192    of any length
 *   rack    1 to 16   1 to 64                          1 to 256      up to 4,096 bytes
 * Where a rack is in the network, the wide gossip of every honest node, looms too, must stay within 4,096 bytes: 36 * blocks (without
 * block 0) + 21 * votes at most 4,071. With nodes * (expiry + 2) votes (see below) that is an expiry of 3 at most for 16 nodes and 63 blocks,
 * though 256 places would do for 14. A full rack writes 7,669 bytes (narrow 4,605), and no rack reads them.
 *
 * Only likvost_* calls write this memory; keep it as the last call left it. The node keeps nothing else.
 *
 * A beat is 3 * slot + phase: phase 0 propose, 1 vote, 2 merge. The first beat of a fresh node is 3.
 * At each beat an awake node makes the call that is due (propose if slot % nodes == own, vote, merge), then sends its gossip
 * and, if it proposed, its proposal. Between beats it receives packets with the beat last begun.
 *
 * The cable may be out for fewer than `expiry` slots (docs/PROOF.md, "Asynchrony resilience"). A node that has heard nobody for longer
 * makes no call until it has received what the others sent. One that slept wakes for the merge of the slot before the one in which it
 * is to vote. When the whole network stops, stop its beats: while none begins no vote expires.
 *
 * Blocks stay in their table; votes leave when they are old. Once slot m was merged no slot that may be asked for looks at votes of
 * slots below m - expiry: likvost_merge removes them, and likvost_receive accepts those that still come but does not store them. So
 * the table holds votes of slots m - expiry to the slot seen. If no voter votes twice in a slot, then
 *   nodes * (expiry + 2)      places suffice for a node that merges every slot: no call lacks one for a vote;
 *   nodes * (expiry + 2 + s)  for one that left out the last s Merges. Its next Merge removes what is old by then.
 * Every further vote of a voter in a slot takes a place too, and a dishonest voter may cast one for each block.
 *
 * Every call may be refused. Then `refusal` is the number below, nothing in the lent memory has changed, and the clock that
 * is returned is the one that was passed. Otherwise `refusal` is 0. So always store the returned clock:
 *
 *     likvost_answer a = likvost_vote(settings, clock, blocks, blocks_len, &blocks_used, votes, votes_len, &votes_used, beat);
 *     clock = a.clock;
 *
 * The calls take any settings, clock, counts, words and bytes: what is not as it should be is refused. All that a caller must see to
 * are the pointers: none is NULL, also where a length is 0; each is aligned and valid for its length; none overlaps another.
 * No call allocates, keeps a pointer or waits.
 * Different nodes may be called from different threads; calls on one node are made one after another.
 *
 * Build the archive with `sh tools/staticlib.sh`, and link target/staticlib/libcapi.a (Linux on x86-64). It needs memset alone.
 */
#ifndef LIKVOST_H
#define LIKVOST_H

#include <stdbool.h>
#include <stddef.h>
#include <stdint.h>

#ifdef __cplusplus
extern "C" {
#endif

/* Words to a row of each table. */
#define LIKVOST_BLOCK_WORDS 6
#define LIKVOST_VOTE_WORDS 5

/* No honest node sends a packet of more bytes. A loom answers longer ones too, at no higher cost for each byte. */
#define LIKVOST_LARGEST_PACKET 245749

/* The longest packet that a rack reads: likvost_receive refuses longer ones by 24, whatever they hold. */
#define LIKVOST_RACK_PACKET 4096

/* The profiles. Any other number, 0 included, names none: likvost_open refuses it by 1, every other call by 6. */
enum {
    LIKVOST_LOOM = 1, /* a loom controller */
    LIKVOST_RACK = 2  /* a rack controller, whose limits are lower */
};

/* What a node is opened with. All nodes of a network have the same nodes, expiry and depth. */
typedef struct {
    uint64_t profile; /* LIKVOST_LOOM or LIKVOST_RACK: the limits of nodes, of both tables and of packets */
    uint64_t nodes;   /* 1 to 64, on a rack 1 to 16 */
    uint64_t own;     /* this node's index, below nodes */
    uint64_t expiry;  /* E: votes of the last E slots count, 1 to 4,096; votes of E + 2 slots should find places */
    uint64_t depth;   /* K: the deep block is at least K slots old, 1 to 4,096 */
} likvost_settings;

/* What a node knows of time. Pass zeros to likvost_open; afterwards pass what the last call returned. */
typedef struct {
    uint64_t seen;     /* the beat last seen */
    uint64_t done;     /* the last beat done */
    uint64_t merged;   /* the slot last merged: earlier ones can no longer be asked for */
    uint64_t proposed; /* the slot of the last proposal made or brought into view */
} likvost_clock;

/* A block's number, of 16 bytes: lower + 2^64 * upper. So numbers are compared by the upper half first, and block 0 has both halves 0.
 * In packets the lower half comes first, each half little-endian. */
typedef struct {
    uint64_t lower;
    uint64_t upper;
} likvost_number;

/* Why a call was refused: the first of these that applies, in the order that each call lists. */
enum {
    LIKVOST_OK = 0,
    LIKVOST_NODES_OUT_OF_RANGE = 1,  /* nodes out of range, or no such profile */
    LIKVOST_OWN_OUT_OF_RANGE = 2,    /* own index not below nodes */
    LIKVOST_EXPIRY_OUT_OF_RANGE = 3, /* expiry out of range */
    LIKVOST_DEPTH_OUT_OF_RANGE = 4,  /* depth out of range */
    LIKVOST_LENGTH_OUT_OF_RANGE = 5, /* a table's length out of range, or no multiple of the words to a row */
    LIKVOST_UNSOUND = 6,             /* the lent memory is not as a call left it */
    LIKVOST_WRONG_BEAT = 7,          /* beat below the one seen, or slot above 1,000,000,000 */
    LIKVOST_PACKET_MALFORMED = 8,    /* packet's length, kind or zero fields wrong */
    LIKVOST_BAD_BLOCK = 9,           /* a block of the packet breaks a rule: the one with this `index` */
    LIKVOST_TOO_FEW_PLACES = 10,     /* fewer free places than new entries */
    LIKVOST_WRONG_PHASE = 11,        /* not the phase of this call */
    LIKVOST_BEAT_DONE = 12,          /* beat already done */
    LIKVOST_NOT_JOINED = 13,         /* the slot before was not merged */
    LIKVOST_NOT_PROPOSER = 14,       /* another node's slot */
    LIKVOST_NUMBER_KNOWN = 15,       /* the number is known */
    LIKVOST_ALREADY_VOTED = 16,      /* an own vote of this slot is known */
    LIKVOST_SLOT_OUT_OF_RANGE = 17,  /* slot 0, before the slot last merged, or above the slot seen */
    LIKVOST_BUFFER_TOO_SHORT = 18,   /* buffer too short */
    LIKVOST_NO_OWN_PROPOSAL = 19,    /* no own proposal of the beat seen */
    LIKVOST_BAD_VOTE = 20,           /* a vote of the packet breaks a rule: the one with this `index` */
    LIKVOST_BAD_HEADER = 21,         /* a proposal's header names no block of the packet, or another slot */
    LIKVOST_NUMBER_TOO_WIDE = 23,    /* narrow writing meets a number whose upper half is not 0 */
    LIKVOST_PACKET_TOO_LONG = 24,    /* the packet is longer than this node's profile allows */
    LIKVOST_SILENT_OUT_OF_RANGE = 25 /* a set of silent nodes names one that is not below nodes */
};

/* A readable message for a refusal number, for logs. */
static inline const char *likvost_refusal_message(uint64_t refusal)
{
    static const char *const messages[] = {
        "carried out", "nodes out of range, or no such profile", "own index not below nodes", "expiry out of range", "depth out of range",
        "a table's length is out of range", "the lent memory is unsound", "beat below the one seen, or slot above the limit",
        "malformed packet", "a block of the packet breaks a rule", "not enough free places", "not the phase of this call",
        "beat already done", "not joined for this slot", "another node's slot", "block number already known",
        "already voted in this slot", "slot 0, before the one last merged, or above the slot seen", "buffer too short",
        "no own proposal of this beat", "a vote of the packet breaks a rule", "the proposal's header does not fit its blocks",
        "unknown refusal", /* no call is refused by 22 */
        "narrow writing meets a number of more than 8 bytes", "packet too long for this node",
        "a silent node's index is not below nodes"};
    return refusal < 26 ? messages[refusal] : "unknown refusal";
}

/* The answer of a call that changes the memory. */
typedef struct {
    uint64_t refusal;
    uint64_t index;       /* refused by LIKVOST_BAD_BLOCK or LIKVOST_BAD_VOTE: the entry's index in its section of the packet, from 0; else 0 */
    likvost_number value; /* likvost_propose: the base; likvost_vote: the head; else 0 */
    uint64_t new_blocks;  /* likvost_receive: how many blocks were new */
    uint64_t new_votes;   /* likvost_receive: how many votes were new; old ones are not */
    uint64_t viewed;      /* likvost_receive: 1 if the packet came into view at once */
    likvost_clock clock;  /* the clock after the call */
} likvost_answer;

/* The answer of a question. */
typedef struct {
    uint64_t refusal;
    uint64_t found;       /* 1 if there is a block; likvost_fast may answer 0 */
    likvost_number value; /* the block's number */
} likvost_found;

/* The answer of likvost_fit. */
typedef struct {
    uint64_t refusal;
    uint64_t index;      /* refused by LIKVOST_BAD_BLOCK or LIKVOST_BAD_VOTE: the entry's index in its section of the packet, from 0; else 0 */
    uint64_t new_blocks; /* how many blocks would be new */
    uint64_t new_votes;  /* how many votes would be new; old ones are not */
    uint64_t bytes;      /* how many bytes a wide gossip packet would have then */
} likvost_fitted;

/* The answer of likvost_compare. */
typedef struct {
    uint64_t refusal;
    uint64_t index;       /* refused by LIKVOST_BAD_BLOCK or LIKVOST_BAD_VOTE: the entry's index in its section of the packet, from 0; else 0 */
    uint64_t packet;      /* refused: 1 for the first packet, 2 for the second, 0 if neither was looked at */
    uint64_t found;       /* 1 if a voter has two different votes of one slot; what follows is 0 if not */
    uint64_t voter;       /* the lowest such voter */
    uint64_t slot;        /* its earliest such slot */
    likvost_number block; /* the block of its first vote there */
    likvost_number other; /* the block of its first vote there for another one */
} likvost_compared;

/* The answer of likvost_write. */
typedef struct {
    uint64_t refusal;
    uint64_t bytes; /* how many bytes of the buffer the packet takes */
} likvost_written;

/* Block 0 alone in view, every other place zero, a fresh clock. What stood in the memory does not matter. Every later call takes the same
 * settings, the profile with them. Refusals: 1 2 3 4 5. */
likvost_answer likvost_open(likvost_settings settings, likvost_clock clock, uint64_t *blocks, size_t blocks_len,
                            size_t *blocks_used, uint64_t *votes, size_t votes_len, size_t *votes_used);

/* Takes a packet, wide or narrow: its new entries wait at the tables' ends. The first proposal of the beat's slot, in phase 0, comes into
 * view at once. A number of a narrow packet has the upper half 0. An old vote, of a slot below clock.merged - expiry, must keep the rules
 * too, but is not stored, not new and needs no place; the block that it is for comes into view with a proposal all the same.
 * A rack refuses a packet of more than LIKVOST_RACK_PACKET bytes by 24, whatever it holds.
 * Refusals: 6 7 24 8 9 20 21 10. With 9 and 20 `index` tells which block or vote was the first to break a rule. */
likvost_answer likvost_receive(likvost_settings settings, likvost_clock clock, uint64_t *blocks, size_t blocks_len,
                               size_t *blocks_used, uint64_t *votes, size_t votes_len, size_t *votes_used, uint64_t beat,
                               const uint8_t *packet, size_t packet_len);

/* Builds a block with this number on the base, and brings the whole store into view. Refusals: 6 7 11 12 13 14 15 10. */
likvost_answer likvost_propose(likvost_settings settings, likvost_clock clock, uint64_t *blocks, size_t blocks_len,
                               size_t *blocks_used, uint64_t *votes, size_t votes_len, size_t *votes_used, uint64_t beat,
                               likvost_number number);

/* Votes for the head; the vote waits. Refusals: 6 7 11 12 13 16 10. */
likvost_answer likvost_vote(likvost_settings settings, likvost_clock clock, uint64_t *blocks, size_t blocks_len,
                            size_t *blocks_used, uint64_t *votes, size_t votes_len, size_t *votes_used, uint64_t beat);

/* Brings all waiting entries into view, and removes the votes of slots below t - expiry, t being the beat's slot: the others keep their
 * order and move up, the places that become free are set to zero, and *votes_used tells how many stay. Refusals: 6 7 11 12. */
likvost_answer likvost_merge(likvost_settings settings, likvost_clock clock, uint64_t *blocks, size_t blocks_len,
                             size_t *blocks_used, uint64_t *votes, size_t votes_len, size_t *votes_used, uint64_t beat);

/* The head for a slot, over the view. This and the next three questions are for slots from clock.merged to the slot seen.
 * Refusals: 6 17. */
likvost_found likvost_head(likvost_settings settings, likvost_clock clock, const uint64_t *blocks, size_t blocks_len,
                           size_t blocks_used, const uint64_t *votes, size_t votes_len, size_t votes_used, uint64_t slot);

/* The highest block of the head's chain that is at least `depth` slots older than the slot. Ask for a slot after the vote in it.
 * Under the conditions of docs/PROOF.md (packets in time, enough voters awake, an honest block in every `depth` slots) the deep
 * blocks that honest nodes have then stand on one chain. Refusals: 6 17. */
likvost_found likvost_deep(likvost_settings settings, likvost_clock clock, const uint64_t *blocks, size_t blocks_len,
                           size_t blocks_used, const uint64_t *votes, size_t votes_len, size_t votes_used, uint64_t slot);

/* The block farthest from block 0 with the votes of three quarters of the nodes in this slot, if any; block 0 where they agree
 * on nothing else. Ask for a slot after the Merge of it. Under the conditions of docs/PROOF.md (fewer than a quarter of the nodes
 * dishonest, packets in time, enough voters awake) what it answers stays under every later honest vote and block. Refusals: 6 17. */
likvost_found likvost_fast(likvost_settings settings, likvost_clock clock, const uint64_t *blocks, size_t blocks_len,
                           size_t blocks_used, const uint64_t *votes, size_t votes_len, size_t votes_used, uint64_t slot);

/* The block that stands whatever silent nodes would say: the farthest block from block 0 that is on the chain of the head for the slot, for everything that
 * the nodes of the set `silent` may count for. Bit v of the set is node v. Each of them may count for nothing or for any one block in view of a slot below
 * this one, its own vote does not matter, and the others count as they voted. With no silent node it is the head. It is on the head's chain, and one
 * more silent node leaves it or moves it down. It takes about as long as likvost_head. Refusals: 6 17 25. */
likvost_found likvost_settled(likvost_settings settings, likvost_clock clock, const uint64_t *blocks, size_t blocks_len,
                              size_t blocks_used, const uint64_t *votes, size_t votes_len, size_t votes_used, uint64_t slot,
                              uint64_t silent);

/* How many places a packet would take, wide or narrow: how many blocks and votes likvost_receive would store at this beat, and how many
 * bytes the node's wide gossip would have then. Nothing changes, the beat seen neither. It is refused as likvost_receive would be, with the
 * index, but never for want of places: the packet fits if blocks_used + new_blocks and votes_used + new_votes are at most the places of
 * each table. The sums are the same past the largest tables, where `bytes` is at most 3,981,244. It costs no more than that likvost_receive.
 * Refusals: 6 7 24 8 9 20 21. */
likvost_fitted likvost_fit(likvost_settings settings, likvost_clock clock, const uint64_t *blocks, size_t blocks_len,
                           size_t blocks_used, const uint64_t *votes, size_t votes_len, size_t votes_used, uint64_t beat,
                           const uint8_t *packet, size_t packet_len);

/* Holds two packets against each other, as two nodes of one network saved them, each wide or narrow, gossip or a proposal: the lowest
 * voter with two different votes of one slot within or between them, its earliest such slot, and the first two different blocks that it
 * voted for there, in the order of the first packet and then the second. No honest node votes so: this one is dishonest, its memory was
 * set back, or a vote of it is forged. `found` is 0 exactly if the two packets together hold none. Repeats of a vote are no second one.
 * Each packet is refused as likvost_receive would refuse it at this beat on fresh tables with this node's settings and places, the first
 * before the second; so the beat may be below the one that this node has seen, and its store counts for nothing. Nothing changes. It costs
 * 1.3 times as much as both likvost_receive calls for honest packets, and for the worst that are known three times.
 * Refusals: 6, then for the first packet 7 24 8 9 20 21 10, then for the second the same but 7; `packet` tells which. */
likvost_compared likvost_compare(likvost_settings settings, likvost_clock clock, const uint64_t *blocks, size_t blocks_len,
                                 size_t blocks_used, const uint64_t *votes, size_t votes_len, size_t votes_used, uint64_t beat,
                                 const uint8_t *first, size_t first_len, const uint8_t *second, size_t second_len);

/* Writes the node's gossip (its whole store) or its proposal (its view) into the buffer. Bytes beyond the packet stay.
 * Write wide: the packet (kind 2 gossip, 3 proposal) has numbers of 16 bytes, and takes 25 bytes, 36 for each block but block 0 and 21 for
 * each vote: at most LIKVOST_LARGEST_PACKET, and 7,669 on a rack. Narrow is for old boards, which read numbers of 8 bytes alone: the packet
 * (kind 0 or 1) takes 17 bytes, 20 and 13. Where one of the numbers that it would hold has an upper half that is not 0, the call is refused
 * by 23. likvost_receive reads all four kinds.
 * Refusals: 6 19 23 18. */
likvost_written likvost_write(likvost_settings settings, likvost_clock clock, const uint64_t *blocks, size_t blocks_len,
                              size_t blocks_used, const uint64_t *votes, size_t votes_len, size_t votes_used, bool proposal,
                              bool wide, uint8_t *buffer, size_t buffer_len);

#ifdef __cplusplus
}
#endif

#endif
