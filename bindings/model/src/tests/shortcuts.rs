//! "Shortcuts that split a shed": the tables are made as each shortcut would see them, and the answer differs.
//! For the first one it is the same: by request 2 it "is no longer one".

use super::*;

/// Blocks 11 and 21 on block 0, three nodes, E = 2, slot 6 seen.
fn fork() -> Node {
    let mut node = fresh(3, 0, 2, 1);
    node.clock.seen = 18;
    add_block(&mut node, block(11, 0, 1));
    add_block(&mut node, block(21, 0, 1));
    node
}

#[test]
fn expiring_before_1_is_no_longer_one() {
    // Voter 0 votes for 21 in slot 4, and twice in another slot. What stands in slots 3 and 4 is the first so many.
    for (double, head, in_3_and_4) in [(1, 21, 1), (2, 21, 1), (3, 11, 3), (5, 21, 1), (6, 21, 1)] {
        let mut node = fork();
        add_vote(&mut node, vote(0, 4, 21));
        add_vote(&mut node, vote(0, double, 11));
        add_vote(&mut node, vote(0, double, 21));
        // If voter 0 is dropped, nobody votes and 11 is smaller.
        assert_eq!(node.head(5), Ok(head), "twice in slot {double}");
        // What was the shortcut sees slots 3 and 4 only.
        node.votes_used = in_3_and_4;
        assert_eq!(node.head(5), Ok(head), "twice in slot {double}, expired first");
    }
}

#[test]
fn latest_before_expiry() {
    let mut node = fork();
    add_vote(&mut node, vote(0, 4, 21));
    add_vote(&mut node, vote(0, 5, 11));
    // The vote of slot 5 is no vote for a head of slot 5, the one of slot 4 stands.
    assert_eq!(node.head(5), Ok(21));
    // The shortcut keeps only the vote of slot 5 and then drops it: nobody votes, 11 is smaller.
    node.votes[0] = node.votes[1];
    node.votes_used = 1;
    assert_eq!(node.head(5), Ok(11));
}

#[test]
fn counting_slot_t_in_a_head() {
    let mut node = fork();
    add_vote(&mut node, vote(0, 5, 21));
    assert_eq!(node.head(5), Ok(11));
    // The shortcut counts the vote as if it were of the slot before.
    node.votes[0].slot = 4;
    assert_eq!(node.head(5), Ok(21));
}

#[test]
fn gossip_in_view_on_arrival() {
    let mut node = fork();
    let answer = node.receive(18, &gossip(&[(12, 11, 2)], &[(1, 4, 21), (2, 5, 21)])).unwrap();
    assert_eq!((answer.new_blocks, answer.new_votes, answer.brought), (1, 2, false));
    assert_eq!(blocks_in_view(&node), [0, 11, 21]);
    assert_eq!(votes_in_view(&node), []);
    assert_eq!(node.head(5), Ok(11));
    // The shortcut marks the entries on arrival.
    node.blocks[3].in_view = true;
    node.votes[0].in_view = true;
    node.votes[1].in_view = true;
    assert_eq!(node.head(5), Ok(21));
}

#[test]
fn ties_by_arrival() {
    // One against one: the rule answers 11 in both orders, the shortcut the block that came first.
    for (order, first) in [([(11, 0, 1), (21, 0, 1)], 11), ([(21, 0, 1), (11, 0, 1)], 21)] {
        let mut node = fresh(3, 0, 2, 1);
        node.receive(5, &gossip(&order, &[(0, 1, 21), (1, 1, 11)])).unwrap();
        node.merge(5).unwrap();
        node.receive(6, &gossip(&[], &[])).unwrap();
        assert_eq!(node.blocks[1].number, first);
        assert_eq!(node.head(2), Ok(11));
        // With one vote more the heavier block is the head in both orders.
        node.receive(8, &gossip(&[], &[(2, 1, 21)])).unwrap();
        node.merge(8).unwrap();
        assert_eq!(node.head(2), Ok(21));
    }
}
