//! The shed cases of document 01, and further cases of the filters and walks.

use super::*;

/// Base is not a call of its own: Propose answers it. Node 3 proposes slot 3 on the shed's stock.
fn base_for_3(mut node: Node) -> u128 {
    node.settings.own = 3;
    node.clock = Clock { seen: 9, done: 8, merged: 2, proposed: 0 };
    node.propose(9, 99).unwrap()
}

/// The shed before any merge, so that every slot up to 4 may be queried.
fn unmerged() -> Node {
    let mut node = shed();
    node.clock.merged = 0;
    node
}

#[test]
fn heads() {
    assert_eq!(shed().head(4), Ok(31));
    assert_eq!(unmerged().head(4), Ok(31));
    assert_eq!(unmerged().head(3), Ok(31));
    let mut added = shed();
    add_vote(&mut added, vote(4, 3, 21));
    assert_eq!(added.head(4), Ok(21));
    let mut instead = shed();
    add_vote(&mut instead, vote(3, 3, 31));
    assert_eq!(instead.head(4), Ok(31));
}

#[test]
fn base() {
    assert_eq!(base_for_3(shed()), 11);
}

#[test]
fn base_takes_the_whole_stock() {
    let mut node = shed();
    for place in 1..4 {
        node.blocks[place].in_view = false;
    }
    for place in 0..5 {
        node.votes[place].in_view = false;
    }
    assert_eq!(node.head(4), Ok(0));
    assert_eq!(base_for_3(node), 11);
}

#[test]
fn deep_blocks() {
    for (depth, number) in [(1, 31), (2, 11), (3, 11), (4, 0), (5, 0), (4096, 0)] {
        let mut node = shed();
        node.settings.depth = depth;
        assert_eq!(node.deep(4), Ok(number), "K = {depth}");
    }
}

#[test]
fn fast_blocks() {
    assert_eq!(unmerged().fast(3), Ok(None));
    let mut node = unmerged();
    node.votes_used = 0;
    for voter in [0, 1, 2] {
        add_vote(&mut node, vote(voter, 3, 31));
    }
    assert_eq!(node.fast(3), Ok(None));
    add_vote(&mut node, vote(4, 3, 11));
    assert_eq!(node.fast(3), Ok(Some(11)));
    // The fifth vote for 31 makes four for it.
    add_vote(&mut node, vote(3, 3, 31));
    assert_eq!(node.fast(3), Ok(Some(31)));
    // A double vote of an older slot does not drop voter 3.
    add_vote(&mut node, vote(3, 2, 11));
    add_vote(&mut node, vote(3, 2, 21));
    assert_eq!(node.fast(3), Ok(Some(31)));
    // A double vote of slot 3 does: three are left for 31, four for 11.
    add_vote(&mut node, vote(3, 3, 21));
    assert_eq!(node.fast(3), Ok(Some(11)));
    // Waiting votes do not count.
    node.votes[0].in_view = false;
    assert_eq!(node.fast(3), Ok(None));
}

#[test]
fn fast_block_0() {
    let mut node = fresh(1, 0, 1, 1);
    node.clock.seen = 3;
    assert_eq!(node.fast(1), Ok(None));
    add_vote(&mut node, vote(0, 1, 0));
    assert_eq!(node.fast(1), Ok(Some(0)));
}

#[test]
fn fast_shares() {
    for (nodes, needed) in [(64, 48), (3, 3), (4, 3), (1, 1), (2, 2), (63, 48)] {
        let mut node = places(nodes, 0, 1, 1, 2, 64);
        node.clock.seen = 4;
        add_block(&mut node, block(7, 0, 1));
        for voter in 0..needed - 1 {
            add_vote(&mut node, vote(nodes - 1 - voter, 1, 7));
        }
        assert_eq!(node.fast(1), Ok(None), "n = {nodes}");
        add_vote(&mut node, vote(0, 1, 7));
        assert_eq!(node.fast(1), Ok(Some(7)), "n = {nodes}");
    }
}

#[test]
fn merge_at_beat_2_on_a_fresh_node() {
    assert_eq!(fresh(5, 0, 2, 3).merge(2), Err(12));
}

#[test]
fn window_of_the_head() {
    // Two blocks; voter 0 for the larger number in slot 3, which counts from slot 4 to slot 3 + E.
    let mut node = fresh(2, 0, 2, 1);
    node.clock.seen = 30;
    add_block(&mut node, block(5, 0, 1));
    add_block(&mut node, block(6, 0, 1));
    add_vote(&mut node, vote(0, 3, 6));
    let heads: Vec<u128> = (1..=7).map(|slot| node.head(slot).unwrap()).collect();
    assert_eq!(heads, [5, 5, 5, 6, 6, 5, 5]);
}

#[test]
fn head_stops_below_later_blocks() {
    let node = unmerged();
    assert_eq!(node.head(1), Ok(11));
    assert_eq!(node.head(2), Ok(11));
    let mut waiting = shed();
    waiting.blocks[3].in_view = false;
    waiting.votes[3].in_view = false;
    // Now 21 has two voters and 11 one.
    assert_eq!(waiting.head(4), Ok(21));
}
