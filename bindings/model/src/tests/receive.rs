//! Receive: the rules behind refusals 9, 20 and 21, what is new, what comes into view.

use super::*;

/// What the shed answers to a narrow packet at beat 14, of slot 4. Request 8: "Every rule of a section holds over the
/// entry's width"; the same packet with wide numbers does the same.
fn at_14(bytes: &[u8]) -> Result<Received, Refused> {
    let (mut narrow, mut wide) = (shed(), shed());
    let answer = narrow.receive(14, bytes);
    assert_eq!(wide.receive(14, &widened(bytes)), answer);
    assert_eq!(wide, narrow);
    answer
}

fn waits(new_blocks: u64, new_votes: u64) -> Result<Received, Refused> {
    Ok(Received { new_blocks, new_votes, brought: false })
}

fn brings(new_blocks: u64, new_votes: u64) -> Result<Received, Refused> {
    Ok(Received { new_blocks, new_votes, brought: true })
}

#[test]
fn block_rules() {
    // The blocks, and the index of the one that is refused.
    let wrong: [(&[(u128, u128, u32)], u64); 20] = [
        // Slot 0 or above the beat's slot.
        (&[(41, 0, 0)], 0),
        (&[(0, 0, 0)], 0),
        (&[(41, 31, 5)], 0),
        (&[(41, 31, u32::MAX)], 0),
        // Parent unknown, the block itself, or only later in the packet.
        (&[(41, 99, 4)], 0),
        (&[(41, 41, 4)], 0),
        (&[(42, 41, 4), (41, 0, 3)], 0),
        // Slot not above the parent's.
        (&[(41, 31, 3)], 0),
        (&[(41, 31, 2)], 0),
        (&[(41, 0, 3), (42, 41, 3)], 1),
        // Number known with another parent or slot.
        (&[(31, 0, 3)], 0),
        (&[(31, 11, 4)], 0),
        (&[(31, 11, 2)], 0),
        (&[(0, 0, 1)], 0),
        (&[(0, 11, 2)], 0),
        (&[(41, 0, 3), (41, 0, 4)], 1),
        (&[(41, 0, 4), (41, 11, 4)], 1),
        // Good blocks before a wrong one; known and repeated ones count for the index.
        (&[(41, 31, 4), (43, 31, 5)], 1),
        (&[(31, 11, 3), (41, 31, 4), (41, 31, 4), (42, 99, 4)], 3),
        // The first of two wrong ones.
        (&[(41, 31, 4), (42, 99, 4), (43, 0, 0)], 1),
    ];
    for (blocks, index) in wrong {
        assert_eq!(at_14(&gossip(blocks, &[])), entry(9, index), "{blocks:?}");
    }
    assert_eq!(at_14(&gossip(&[(41, 31, 4)], &[])), waits(1, 0));
    assert_eq!(at_14(&gossip(&[(41, 0, 3), (42, 41, 4)], &[])), waits(2, 0));
    assert_eq!(at_14(&gossip(&[(41, 0, 1), (42, 0, 1), (u64::MAX.into(), 21, 4)], &[])), waits(3, 0));
}

#[test]
fn vote_rules() {
    // The votes, and the index of the one that is refused.
    let wrong: [(&[(u8, u32, u128)], u64); 11] = [
        // Voter not below n.
        (&[(5, 4, 31)], 0),
        (&[(255, 4, 31)], 0),
        // Slot 0 or above the beat's slot.
        (&[(0, 0, 0)], 0),
        (&[(0, 5, 31)], 0),
        (&[(0, u32::MAX, 31)], 0),
        // Block unknown, or of a later slot.
        (&[(0, 4, 99)], 0),
        (&[(0, 2, 31)], 0),
        (&[(0, 3, 41)], 0),
        // Good votes before a wrong one; known and repeated ones count for the index.
        (&[(0, 4, 31), (0, 4, 99)], 1),
        (&[(0, 1, 11), (0, 4, 31), (0, 4, 31), (5, 4, 31)], 3),
        // The first of two wrong ones.
        (&[(0, 4, 31), (0, 5, 31), (5, 4, 31)], 1),
    ];
    for (votes, index) in wrong {
        assert_eq!(at_14(&gossip(&[(41, 31, 4)], votes)), entry(20, index), "{votes:?}");
    }
    assert_eq!(at_14(&gossip(&[(41, 31, 4)], &[(4, 4, 41), (0, 3, 31), (0, 2, 0)])), waits(1, 3));
    // A wrong block behind good ones goes before a wrong vote at the front.
    assert_eq!(at_14(&gossip(&[(41, 31, 4), (42, 31, 4), (43, 99, 4)], &[(5, 4, 31)])), entry(9, 2));
}

#[test]
fn proposal_rules() {
    // The block must be among the packet's blocks, known or not.
    assert_eq!(at_14(&packet(1, 3, 31, &[], &[])), whole(21));
    assert_eq!(at_14(&packet(1, 3, 31, &[(11, 0, 1)], &[])), whole(21));
    assert_eq!(at_14(&packet(1, 3, 31, &[(31, 11, 3)], &[])), waits(0, 0));
    assert_eq!(at_14(&packet(1, 0, 0, &[(31, 11, 3)], &[])), whole(21));
    // It must have the header's slot.
    assert_eq!(at_14(&packet(1, 4, 31, &[(31, 11, 3)], &[])), whole(21));
    assert_eq!(at_14(&packet(1, 5, 41, &[(41, 31, 4)], &[])), whole(21));
    assert_eq!(at_14(&packet(1, 4, 41, &[(41, 31, 4)], &[])), waits(1, 0));
    // It need not be the last of the blocks.
    assert_eq!(at_14(&packet(1, 3, 41, &[(41, 0, 3), (42, 41, 4)], &[])), waits(2, 0));
    // A wrong block or vote goes before a wrong header.
    assert_eq!(at_14(&packet(1, 5, 41, &[(41, 31, 5)], &[])), entry(9, 0));
    assert_eq!(at_14(&packet(1, 3, 41, &[(41, 31, 4)], &[(0, 4, 41), (0, 3, 41)])), entry(20, 1));
}

#[test]
fn new_entries_in_packet_order() {
    let mut node = shed();
    let before = node.clone();
    let blocks = [(42, 31, 4), (31, 11, 3), (42, 31, 4), (41, 0, 2)];
    let votes = [(4, 4, 42), (2, 3, 31), (0, 4, 41), (4, 4, 42), (4, 4, 41)];
    assert_eq!(node.receive(16, &gossip(&blocks, &votes)), waits(2, 3));
    let mut after = before;
    after.clock.seen = 16;
    add_block(&mut after, Block { number: 42, parent: 31, slot: 4, in_view: false });
    add_block(&mut after, Block { number: 41, parent: 0, slot: 2, in_view: false });
    add_vote(&mut after, Vote { voter: 4, slot: 4, number: 42, in_view: false });
    add_vote(&mut after, Vote { voter: 0, slot: 4, number: 41, in_view: false });
    add_vote(&mut after, Vote { voter: 4, slot: 4, number: 41, in_view: false });
    assert_eq!(node, after);
    // A second time nothing is new.
    assert_eq!(node.receive(16, &gossip(&blocks, &votes)), waits(0, 0));
    assert_eq!(node, after);
}

/// The shed with waiting entries of slot 4: 41 on 31, 42 on 21, 43 on 0; 1 votes for 42, 2 for 43.
fn with_waiting() -> Node {
    let mut node = shed();
    node.receive(14, &gossip(&[(41, 31, 4), (42, 21, 4), (43, 0, 4)], &[(1, 4, 42), (2, 4, 43)])).unwrap();
    node
}

/// A proposal of slot 5 that rests on 41 and carries a known and a new vote.
fn proposal_51() -> Vec<u8> {
    packet(1, 5, 51, &[(51, 41, 5)], &[(1, 4, 42), (3, 4, 41)])
}

#[test]
fn a_proposal_of_the_beat_comes_into_view() {
    let mut node = with_waiting();
    assert_eq!(blocks_in_view(&node), [0, 11, 21, 31]);
    assert_eq!(node.receive(15, &proposal_51()), brings(1, 1));
    // Ancestor 41, and 42 for the vote; 43 and the vote for it wait on.
    assert_eq!(blocks_in_view(&node), [0, 11, 21, 31, 41, 42, 51]);
    assert_eq!(votes_in_view(&node)[5..], [(1, 4, 42), (3, 4, 41)]);
    assert_eq!(node.votes[6], Vote { voter: 2, slot: 4, number: 43, in_view: false });
    assert_eq!(node.clock, Clock { seen: 15, done: 14, merged: 4, proposed: 5 });
    // The second proposal of the slot only waits, and so does the first again.
    assert_eq!(node.receive(15, &packet(1, 5, 52, &[(52, 43, 5)], &[])), waits(1, 0));
    assert_eq!(node.receive(15, &proposal_51()), waits(0, 0));
    assert_eq!(blocks_in_view(&node), [0, 11, 21, 31, 41, 42, 51]);
    assert_eq!(node.clock, Clock { seen: 15, done: 14, merged: 4, proposed: 5 });
    // Head for 5: 1 votes for 42, 2 for 31, 3 for 41. The weight of 11 is two, that of 21 one.
    assert_eq!(node.vote(16), Ok(51));
}

#[test]
fn all_ancestors_come_into_view() {
    // Two waiting chains, 1 2 3 and 5 6 7. The proposal stands on 3 and carries a vote for 6.
    let mut node = fresh(5, 0, 2, 3);
    node.receive(9, &gossip(&[(1, 0, 1), (2, 1, 2), (3, 2, 3), (5, 0, 1), (6, 5, 2), (7, 6, 3)], &[])).unwrap();
    assert_eq!(blocks_in_view(&node), [0]);
    assert_eq!(node.receive(12, &packet(1, 4, 4, &[(4, 3, 4)], &[(0, 2, 6)])), brings(1, 1));
    assert_eq!(blocks_in_view(&node), [0, 1, 2, 3, 5, 6, 4]);
    assert_eq!(votes_in_view(&node), [(0, 2, 6)]);
}

#[test]
fn other_packets_only_wait() {
    for beat in [16, 17, 18, 19] {
        let mut node = with_waiting();
        assert_eq!(node.receive(beat, &proposal_51()), waits(1, 1), "beat {beat}");
        assert_eq!(blocks_in_view(&node), [0, 11, 21, 31]);
        assert_eq!(node.clock, Clock { seen: beat, done: 14, merged: 4, proposed: 0 });
    }
    let mut node = with_waiting();
    assert_eq!(node.receive(15, &gossip(&[(51, 41, 5)], &[])), waits(1, 0));
    // A proposal of slot 4 comes too late, and does not stand in the way of one of slot 5.
    assert_eq!(node.receive(15, &packet(1, 4, 41, &[(41, 31, 4)], &[])), waits(0, 0));
    assert_eq!(node.receive(15, &proposal_51()), brings(0, 1));
    assert_eq!(blocks_in_view(&node), [0, 11, 21, 31, 41, 42, 51]);
}

#[test]
fn a_refused_proposal_is_not_the_first() {
    let mut node = with_waiting();
    assert_eq!(node.receive(15, &packet(1, 5, 52, &[(52, 99, 5)], &[])), entry(9, 0));
    assert_eq!(node.receive(15, &packet(1, 5, 53, &[(52, 41, 5)], &[])), whole(21));
    assert_eq!(node.receive(15, &proposal_51()), brings(1, 1));
}

#[test]
fn an_own_proposal_counts_as_the_first() {
    let mut node = with_waiting();
    // Over the stock 2 votes for 43, 1 for 42, 3 for 21: 21 has two.
    assert_eq!(node.propose(15, 50), Ok(42));
    assert_eq!(node.receive(15, &proposal_51()), waits(1, 1));
    assert_eq!(blocks_in_view(&node), [0, 11, 21, 31, 41, 42, 43, 50]);
    assert_eq!(Packet::decode(&written(&node, true)).unwrap().number, 50);
    // One that came first does not hinder Propose.
    let mut node = with_waiting();
    assert_eq!(node.receive(15, &proposal_51()), brings(1, 1));
    // Voter 3 is now for 41: one each for 11, 21 and 43.
    assert_eq!(node.propose(15, 50), Ok(41));
    assert_eq!(Packet::decode(&written(&node, true)).unwrap().number, 50);
}
