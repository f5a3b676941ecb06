//! Request 2: for which slots two different votes of one slot drop their voter.

use super::*;

/// Three nodes, this one has index 1. Blocks 11, 21 and 31 on block 0, K = 1, slot 9 seen.
fn fork(expiry: u64) -> Node {
    let mut node = fresh(3, 1, expiry, 1);
    node.clock.seen = 27;
    for number in [11, 21, 31] {
        add_block(&mut node, block(number, 0, 1));
    }
    node
}

/// Voter 0 votes twice in this slot, for 21 and 31. If it is not dropped, the head is one of them; else it is 11.
fn add_double(node: &mut Node, slot: u64) {
    add_vote(node, vote(0, slot, 21));
    add_vote(node, vote(0, slot, 31));
}

/// E = 3. Voter 0 votes for 21 in slot 5, and twice in another slot.
fn twice_in(slot: u64) -> Node {
    let mut node = fork(3);
    add_vote(&mut node, vote(0, 5, 21));
    add_double(&mut node, slot);
    node
}

/// The slot of the double vote, and what is answered for slot 7: with E = 3 it looks back on slots 4, 5 and 6.
const FOR_7: [(u64, u128); 5] = [(2, 21), (3, 21), (4, 11), (6, 11), (7, 21)];

/// Joined for slot 7, which is its own, with nothing done in it.
fn at_slot_7(mut node: Node) -> Node {
    node.clock = Clock { seen: 21, done: 20, merged: 6, proposed: 0 };
    node
}

#[test]
fn heads_and_deep_blocks() {
    for (slot, number) in FOR_7 {
        let node = twice_in(slot);
        assert_eq!((node.head(7), node.deep(7)), (Ok(number), Ok(number)), "twice in slot {slot}");
    }
    // Slots above the asked one may be known too.
    for slot in [8, 9] {
        let node = twice_in(slot);
        assert_eq!((node.head(7), node.deep(7)), (Ok(21), Ok(21)), "twice in slot {slot}");
    }
}

#[test]
fn own_votes() {
    for (slot, number) in FOR_7 {
        assert_eq!(at_slot_7(twice_in(slot)).vote(22), Ok(number), "twice in slot {slot}");
    }
}

#[test]
fn bases() {
    for (slot, number) in FOR_7 {
        assert_eq!(at_slot_7(twice_in(slot)).propose(21, 99), Ok(number), "twice in slot {slot}");
    }
}

#[test]
fn dropped_for_as_many_slots_as_expiry_says() {
    // Voter 0 votes twice in slot 3 and for 21 in all other slots from 1 to 8. Heads for slots 1 to 9.
    let cases = [
        (1, [11, 21, 21, 11, 21, 21, 21, 21, 21]),
        (2, [11, 21, 21, 11, 11, 21, 21, 21, 21]),
        (5, [11, 21, 21, 11, 11, 11, 11, 11, 21]),
        (6, [11, 21, 21, 11, 11, 11, 11, 11, 11]),
    ];
    for (expiry, expected) in cases {
        let mut node = fork(expiry);
        add_double(&mut node, 3);
        for slot in [1, 2, 4, 5, 6, 7, 8] {
            add_vote(&mut node, vote(0, slot, 21));
        }
        let heads: Vec<u128> = (1..=9).map(|slot| node.head(slot).unwrap()).collect();
        assert_eq!(heads, expected, "E = {expiry}");
    }
}

#[test]
fn lower_end_of_the_window() {
    // Voter 0 votes for 21 in slots 1 to 6. With E = 4, slots 2 to 5 look back on slot 1.
    let mut node = fork(4);
    for slot in 1..=6 {
        add_vote(&mut node, vote(0, slot, 21));
    }
    let heads = |node: &Node| (1..=7).map(|slot| node.head(slot).unwrap()).collect::<Vec<u128>>();
    assert_eq!(heads(&node), [11, 21, 21, 21, 21, 21, 21]);
    // Its second vote of slot 1 drops it for these, and not longer.
    add_vote(&mut node, vote(0, 1, 31));
    assert_eq!(heads(&node), [11, 11, 11, 11, 11, 21, 21]);
    // The same with the largest E: slots 2 to 4,097 look back on slot 1, slots 3 to 4,098 on slot 2.
    let mut node = fork(4096);
    node.clock.seen = 3 * 4099;
    add_vote(&mut node, vote(0, 2, 21));
    add_double(&mut node, 1);
    for (slot, head) in [(1, 11), (2, 11), (3, 11), (4096, 11), (4097, 11), (4098, 21), (4099, 11)] {
        assert_eq!(node.head(slot), Ok(head), "slot {slot}");
    }
}

#[test]
fn last_slot() {
    let last = 1_000_000_000;
    for (back, head, fast) in [(3, 21, Some(21)), (2, 11, Some(21)), (0, 21, None)] {
        let mut node = fork(2);
        node.clock.seen = 3 * last;
        add_vote(&mut node, vote(0, last - 1, 21));
        add_double(&mut node, last - back);
        for voter in [1, 2] {
            add_vote(&mut node, vote(voter, last, 21));
        }
        // The double vote of the last slot has this vote already.
        if back != 0 {
            add_vote(&mut node, vote(0, last, 21));
        }
        assert_eq!((node.head(last), node.fast(last)), (Ok(head), Ok(fast)), "{back} back");
    }
}

#[test]
fn every_vote_of_the_voter_and_of_no_other() {
    // Voter 0 votes for 11 in slots 4 and 6 and twice in slot 5; voter 1 votes for 21.
    let mut node = fork(3);
    for (voter, slot, number) in [(0, 4, 11), (0, 5, 11), (0, 5, 31), (0, 6, 11), (1, 5, 21)] {
        add_vote(&mut node, vote(voter, slot, number));
    }
    assert_eq!(node.head(7), Ok(21));
    // Without the second vote of slot 5 it is one against one.
    node.votes[2] = vote(2, 4, 0);
    assert_eq!(node.head(7), Ok(11));
}

#[test]
fn different_votes() {
    // Two votes of two slots are none.
    let mut node = fork(3);
    add_vote(&mut node, vote(0, 5, 21));
    add_vote(&mut node, vote(0, 6, 31));
    assert_eq!(node.head(7), Ok(31));
    // Nor are votes of two voters.
    add_vote(&mut node, vote(1, 6, 21));
    add_vote(&mut node, vote(2, 6, 21));
    assert_eq!(node.head(7), Ok(21));
    // Two votes of one slot for blocks of one chain are.
    let mut node = fork(3);
    add_block(&mut node, block(22, 21, 2));
    add_vote(&mut node, vote(0, 6, 21));
    assert_eq!(node.head(7), Ok(22));
    add_vote(&mut node, vote(0, 6, 22));
    assert_eq!(node.head(7), Ok(11));
}

#[test]
fn fast_blocks() {
    // All three are needed and vote for 21 in slot 6. With E = 3 the head for 6 looks back on slots 3, 4 and 5.
    let mut node = fork(3);
    for voter in 0..3 {
        add_vote(&mut node, vote(voter, 6, 21));
    }
    for slot in [1, 2, 3, 4, 5, 7, 8, 9] {
        let mut older_or_later = node.clone();
        add_double(&mut older_or_later, slot);
        assert_eq!(older_or_later.fast(6), Ok(Some(21)), "twice in slot {slot}");
    }
    add_vote(&mut node, vote(0, 6, 31));
    assert_eq!(node.fast(6), Ok(None));
}

#[test]
fn fast_blocks_of_other_slots() {
    // All vote for 21 in slots 1, 2 and 3, voter 0 twice in slot 2.
    let mut node = fork(3);
    for slot in 1..=3 {
        for voter in 0..3 {
            add_vote(&mut node, vote(voter, slot, 21));
        }
    }
    add_vote(&mut node, vote(0, 2, 31));
    let fast: Vec<Option<u128>> = (1..=4).map(|slot| node.fast(slot).unwrap()).collect();
    assert_eq!(fast, [Some(21), None, Some(21), None]);
}

#[test]
fn fast_blocks_without_the_dropped() {
    // Three of four are needed. Voter 0 votes twice for the chain of 21 and is not counted there.
    let mut node = fork(3);
    node.settings.nodes = 4;
    add_block(&mut node, block(22, 21, 2));
    for (voter, number) in [(0, 21), (0, 22), (1, 21), (2, 22)] {
        add_vote(&mut node, vote(voter, 6, number));
    }
    assert_eq!(node.fast(6), Ok(None));
    // The share is still of all four, and the three others have it.
    add_vote(&mut node, vote(3, 6, 22));
    assert_eq!(node.fast(6), Ok(Some(21)));
}

#[test]
fn waiting_votes() {
    // The second vote of slot 5 waits: head and own vote do not look at it, the base does.
    let mut node = at_slot_7(fork(3));
    add_double(&mut node, 5);
    node.votes[1].in_view = false;
    assert_eq!(node.head(7), Ok(21));
    assert_eq!(node.clone().vote(22), Ok(21));
    assert_eq!(node.clone().propose(21, 99), Ok(11));
    node.merge(23).unwrap();
    assert_eq!(node.head(7), Ok(11));
    // The fast block does not look at one of its slot either.
    let mut node = at_slot_7(fork(3));
    add_double(&mut node, 7);
    node.votes[1].in_view = false;
    for voter in [1, 2] {
        add_vote(&mut node, vote(voter, 7, 21));
    }
    assert_eq!(node.fast(7), Ok(Some(21)));
    node.merge(23).unwrap();
    assert_eq!(node.fast(7), Ok(None));
}
