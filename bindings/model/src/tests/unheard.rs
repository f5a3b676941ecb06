//! Request 13: the block that is sure while some looms are silent.

use super::*;
use std::collections::HashMap;

/// The set of these nodes.
fn set(nodes: &[u64]) -> u64 {
    nodes.iter().map(|node| 1 << node).sum()
}

fn sure(node: &Node, slot: u64, silent: &[u64]) -> u128 {
    node.unheard(slot, set(silent)).unwrap().unwrap()
}

/// A loom with three nodes, E = 2, at slot 9, and these blocks in view.
fn at_slot_9(blocks: &[(u128, u128, u64)]) -> Node {
    let mut node = fresh(3, 0, 2, 1);
    node.clock.seen = 27;
    for &(number, parent, slot) in blocks {
        add_block(&mut node, block(number, parent, slot));
    }
    node
}

#[test]
fn the_shed() {
    let node = shed();
    // For 4: nodes 2 and 4 for 11 or above, 1 and 3 for 21; the tie goes to 11 and so to 31.
    for (silent, number) in [
        (&[][..], 31),
        // One more for 21 and the head is 21; only block 0 is on both chains.
        (&[0], 0),
        (&[2], 0),
        (&[4], 0),
        // Those for 21 can do no more than they do.
        (&[1], 31),
        (&[3], 31),
        (&[1, 3], 31),
        (&[1, 2, 3], 0),
        (&[0, 1, 2, 3, 4], 0),
    ] {
        assert_eq!(sure(&node, 4, silent), number, "{silent:?}");
    }
}

#[test]
fn a_block_between() {
    let mut node = at_slot_9(&[(11, 0, 1), (31, 11, 3), (41, 11, 4)]);
    add_vote(&mut node, vote(1, 8, 31));
    add_vote(&mut node, vote(2, 8, 31));
    assert_eq!(node.head(9), Ok(31));
    // One loom cannot outweigh two, and one against one is a tie; but two outweigh one.
    assert_eq!(sure(&node, 9, &[0]), 31);
    assert_eq!(sure(&node, 9, &[1]), 31);
    assert_eq!(sure(&node, 9, &[0, 1]), 11);
    // 11 is the head of no filling, and on the chain of every one.
    assert_eq!(sure(&node, 9, &[0, 1, 2]), 11);
}

#[test]
fn which_blocks_may_be_counted_for() {
    // Blocks of slot 9: the head for 9 goes there by number, and no loom may count for 62.
    let mut node = at_slot_9(&[(51, 0, 8), (61, 51, 9), (62, 51, 9)]);
    assert_eq!(sure(&node, 9, &[0, 1, 2]), 61);
    node.clock.seen = 30;
    assert_eq!(sure(&node, 10, &[0]), 51);
    // Slot t-1 is below t, and no slot is too old: E plays no part.
    let node = at_slot_9(&[(51, 0, 8), (61, 0, 8)]);
    assert_eq!(sure(&node, 9, &[0]), 0);
    let mut node = at_slot_9(&[(51, 0, 1), (61, 0, 1)]);
    assert_eq!(sure(&node, 9, &[0]), 0);
    // A waiting block is not in view.
    node.blocks[2].in_view = false;
    assert_eq!(sure(&node, 9, &[0]), 51);
    // In slot 1 only block 0 can be counted for.
    let node = at_slot_9(&[(51, 0, 1), (61, 0, 1)]);
    assert_eq!(sure(&node, 1, &[0, 1, 2]), 51);
}

#[test]
fn what_a_silent_loom_sent_does_not_count() {
    // Node 0 voted twice in slot 8 and counts for nothing; silent it may count for 61.
    let mut node = at_slot_9(&[(51, 0, 1), (61, 0, 1)]);
    add_vote(&mut node, vote(0, 8, 51));
    add_vote(&mut node, vote(0, 8, 61));
    assert_eq!(sure(&node, 9, &[]), 51);
    assert_eq!(sure(&node, 9, &[0]), 0);
    // With nodes 1 and 2 for 51 it may not turn the head, whatever it sent.
    add_vote(&mut node, vote(1, 8, 51));
    add_vote(&mut node, vote(2, 7, 51));
    assert_eq!(sure(&node, 9, &[0]), 51);
}

#[test]
fn refusals() {
    let mut node = shed();
    assert_eq!(node.unheard(4, 1 << 4), Ok(Some(0)));
    for silent in [1 << 5, 1 << 63, u64::MAX] {
        assert_eq!(node.unheard(4, silent), Err(25));
        // 17 goes before 25: slot 0, earlier than the one merged, above the one seen.
        for slot in [0, 3, 5] {
            assert_eq!((node.unheard(slot, silent), node.unheard(slot, 0)), (Err(17), Err(17)));
        }
    }
    node.settings.own = 5;
    assert_eq!(node.unheard(5, 1 << 5), Err(6));
    // With 64 nodes every bit names one. Two choices for each of 64 looms are too many to try, and for 14 they are not.
    let mut node = fresh(64, 0, 1, 1);
    node.clock.seen = 3;
    assert_eq!(node.unheard(1, u64::MAX), Ok(None));
    assert_eq!(node.unheard(1, (1 << 15) - 1), Ok(None));
    assert_eq!(node.unheard(1, 0b11_1111_1111_1111 << 50), Ok(Some(0)));
}

/// The chain of a block, from block 0 on.
fn chain(node: &Node, number: u128) -> Vec<u128> {
    let parents: HashMap<u128, u128> = node.blocks[..node.blocks_used].iter().map(|b| (b.number, b.parent)).collect();
    let mut chain = vec![number];
    while chain[chain.len() - 1] != 0 {
        chain.push(parents[&chain[chain.len() - 1]]);
    }
    chain.reverse();
    chain
}

/// The heads for slot t, by the call Head, of the nodes that have for each silent loom no vote or one of slot t-1.
fn heads(node: &Node, t: u64, silent: &[u64]) -> Vec<u128> {
    let Some((&loom, others)) = silent.split_first() else { return vec![node.head(t).unwrap()] };
    let mut without = node.clone();
    without.votes_used = 0;
    for vote in node.votes[..node.votes_used].iter().filter(|vote| vote.voter != loom) {
        add_vote(&mut without, *vote);
    }
    let mut all = heads(&without, t, others);
    for block in node.blocks[..node.blocks_used].iter().filter(|block| block.in_view && block.slot < t) {
        let mut with = without.clone();
        add_vote(&mut with, vote(loom, t - 1, block.number));
        all.extend(heads(&with, t, others));
    }
    all
}

#[test]
fn against_the_head_of_every_filling() {
    let mut draw = Draw(13);
    let mut kinds = [0; 3];
    for _ in 0..1_500 {
        let nodes = 1 + draw.next() % 5;
        let mut node = fresh(nodes, 0, 1 + draw.next() % 3, 1);
        node.clock.seen = 3 * 6 + draw.next() % 3;
        let mut numbers: Vec<u128> = vec![1, 2, 3, 4, 5 + UP, 6];
        for _ in 0..draw.next() % 6 {
            let parent = draw.of(&node.blocks[..node.blocks_used]);
            let number = numbers.swap_remove(draw.next() as usize % numbers.len());
            let in_view = parent.in_view && draw.next() % 8 != 0;
            let slot = parent.slot + 1 + draw.next() % 2;
            if slot <= 6 {
                add_block(&mut node, Block { number, parent: parent.number, slot, in_view });
            }
        }
        for _ in 0..draw.next() % 8 {
            let block = draw.of(&node.blocks[..node.blocks_used]);
            let entry =
                Vote { in_view: block.in_view, ..vote(draw.next() % nodes, draw.of(&[3, 4, 5, 6]), block.number) };
            if block.slot <= entry.slot && !node.votes[..node.votes_used].contains(&entry) {
                add_vote(&mut node, entry);
            }
        }
        let t = draw.of(&[3, 5, 6, 6]);
        let mut silent: Vec<u64> = (0..nodes).filter(|_| draw.next() % 3 == 0).collect();
        silent.truncate(3);
        let answer = sure(&node, t, &silent);
        // The part that the chains of all heads begin with.
        let chains: Vec<Vec<u128>> = heads(&node, t, &silent).into_iter().map(|head| chain(&node, head)).collect();
        let shared = (0..chains[0].len()).take_while(|&i| chains.iter().all(|c| c.get(i) == chains[0].get(i)));
        assert_eq!(answer, chains[0][shared.last().unwrap()]);
        // "With no silent loom it is the head."
        let head = node.head(t).unwrap();
        assert_eq!(sure(&node, t, &[]), head);
        // "Adding a loom to the set never moves the answer farther up."
        for left_out in 0..silent.len() {
            let mut fewer = silent.clone();
            fewer.remove(left_out);
            assert!(chain(&node, sure(&node, t, &fewer)).contains(&answer));
        }
        kinds[if answer == head { 0 } else { 1 + usize::from(answer == 0) }] += 1;
    }
    // The head, a block between and block 0 were all answered.
    assert!(kinds.iter().all(|&count| count > 20), "{kinds:?}");
}
