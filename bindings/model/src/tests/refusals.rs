//! The refusals of each call. All that can be wrong is wrong at first and is mended piece by piece, so that each
//! number also shows the order of the tests.

use super::*;

/// The call is refused by this number and changes nothing.
fn refused<T: std::fmt::Debug>(node: &Node, call: impl Fn(&mut Node) -> Result<T, u32>, number: u32) {
    let mut after = node.clone();
    assert_eq!(call(&mut after).unwrap_err(), number);
    assert_eq!(&after, node);
}

/// The shed with no free place: 4 blocks, 5 votes.
fn full_shed() -> Node {
    let mut node = shed();
    node.blocks.truncate(4);
    node.votes.truncate(5);
    node
}

#[test]
fn open() {
    // Request 9: "1, 5 and 6 go by" the set of limits; 2, 3 and 4 do not.
    for (profile, nodes, blocks, votes) in [(Profile::Loom, 64, 2048, 8192), (Profile::Rack, 16, 64, 256)] {
        let mut node = full_shed();
        node.settings = Settings { profile, nodes: 0, own: nodes, expiry: 0, depth: 0 };
        node.blocks.clear();
        for wrong in [0, nodes + 1, u64::MAX] {
            node.settings.nodes = wrong;
            refused(&node, Node::open, 1);
        }
        node.settings.nodes = nodes;
        for own in [nodes, u64::MAX] {
            node.settings.own = own;
            refused(&node, Node::open, 2);
        }
        node.settings.own = nodes - 1;
        for expiry in [0, 4097, u64::MAX] {
            node.settings.expiry = expiry;
            refused(&node, Node::open, 3);
        }
        node.settings.expiry = 4096;
        for depth in [0, 4097, u64::MAX] {
            node.settings.depth = depth;
            refused(&node, Node::open, 4);
        }
        node.settings.depth = 4096;
        for (wrong_blocks, wrong_votes) in [(0, 1), (blocks + 1, 1), (1, 0), (1, votes + 1)] {
            node.blocks = vec![block(7, 7, 7); wrong_blocks];
            node.votes = vec![vote(7, 7, 7); wrong_votes];
            refused(&node, Node::open, 5);
        }
        for (right_blocks, right_votes) in [(1, 1), (blocks, votes)] {
            node.blocks = vec![block(7, 7, 7); right_blocks];
            node.votes = vec![vote(7, 7, 7); right_votes];
            assert_eq!(node.open(), Ok(()));
            assert_eq!(node.head(1), Err(17));
        }
        node.settings = Settings { profile, nodes: 1, own: 0, expiry: 1, depth: 1 };
        assert_eq!(node.open(), Ok(()));
    }
}

#[test]
fn receive() {
    let refused = |node: &Node, beat: u64, bytes: &[u8], refusal: Result<Received, Refused>| {
        let mut after = node.clone();
        assert_eq!(after.receive(beat, bytes), refusal);
        assert_eq!(&after, node);
    };
    // The packet is too long for a rack, and wrong.
    let long = [2; 4097];
    let mut node = full_shed();
    node.settings.profile = Profile::Rack;
    node.blocks[0].in_view = false;
    refused(&node, 13, &long, whole(6));
    node.blocks[0].in_view = true;
    refused(&node, 13, &long, whole(7));
    refused(&node, 3_000_000_003, &long, whole(7));
    refused(&node, u64::MAX, &long, whole(7));
    // Request 9: 24 "before 8".
    refused(&node, 14, &long, whole(24));
    refused(&node, 14, &long[1..], whole(8));
    refused(&node, 14, &[2], whole(8));
    // Wrong are a block, a vote and the header, and there is no free place.
    let (good, bad) = ((41, 31, 4), (42, 31, 3));
    refused(&node, 14, &packet(1, 4, 43, &[good, bad], &[(5, 4, 41)]), entry(9, 1));
    refused(&node, 14, &packet(1, 4, 43, &[good], &[(5, 4, 41)]), entry(20, 0));
    refused(&node, 14, &packet(1, 4, 43, &[good], &[(4, 4, 41)]), whole(21));
    refused(&node, 14, &packet(1, 4, 41, &[good], &[(4, 4, 41)]), whole(10));
    refused(&node, 14, &gossip(&[good], &[]), whole(10));
    refused(&node, 14, &gossip(&[], &[(0, 4, 31)]), whole(10));
    let answer = node.receive(3_000_000_002, &gossip(&[(31, 11, 3)], &[(0, 1, 11)])).unwrap();
    assert_eq!((answer.new_blocks, answer.new_votes, answer.brought), (0, 0, false));
    assert_eq!(node.clock, Clock { seen: 3_000_000_002, done: 14, merged: 4, proposed: 0 });
}

#[test]
fn propose() {
    let mut node = full_shed();
    node.settings.own = 1;
    node.clock = Clock { seen: 15, done: 15, merged: 3, proposed: 0 };
    node.blocks[0].in_view = false;
    refused(&node, |n| n.propose(14, 11), 6);
    node.blocks[0].in_view = true;
    refused(&node, |n| n.propose(14, 11), 7);
    refused(&node, |n| n.propose(3_000_000_004, 11), 7);
    refused(&node, |n| n.propose(16, 11), 11);
    refused(&node, |n| n.propose(17, 11), 11);
    refused(&node, |n| n.propose(15, 11), 12);
    node.clock.done = 14;
    refused(&node, |n| n.propose(15, 11), 13);
    node.clock.merged = 4;
    refused(&node, |n| n.propose(15, 11), 14);
    refused(&node, |n| n.propose(18, 11), 13);
    node.settings.own = 0;
    refused(&node, |n| n.propose(15, 11), 15);
    refused(&node, |n| n.propose(15, 0), 15);
    refused(&node, |n| n.propose(15, 99), 10);
    node.blocks.push(NO_BLOCK);
    // Slots 3 and 4 count: one for 31, one for 21.
    assert_eq!(node.propose(15, 99), Ok(31));
    assert_eq!(node.clock, Clock { seen: 15, done: 15, merged: 4, proposed: 5 });
    assert_eq!(node.blocks[4], block(99, 31, 5));
    assert_eq!((node.blocks_used, node.votes_used), (5, 5));
}

#[test]
fn vote_call() {
    let mut node = full_shed();
    node.votes.push(Vote { voter: 0, slot: 5, number: 21, in_view: false });
    node.votes_used = 6;
    node.clock = Clock { seen: 16, done: 16, merged: 3, proposed: 0 };
    node.blocks[0].in_view = false;
    refused(&node, |n| n.vote(15), 6);
    node.blocks[0].in_view = true;
    refused(&node, |n| n.vote(15), 7);
    refused(&node, |n| n.vote(3_000_000_003), 7);
    refused(&node, |n| n.vote(17), 11);
    refused(&node, |n| n.vote(18), 11);
    refused(&node, |n| n.vote(16), 12);
    node.clock.done = 15;
    refused(&node, |n| n.vote(16), 13);
    refused(&node, |n| n.vote(19), 13);
    node.clock.merged = 4;
    refused(&node, |n| n.vote(16), 16);
    node.settings.own = 1;
    refused(&node, |n| n.vote(16), 10);
    node.votes.push(NO_VOTE);
    assert_eq!(node.vote(16), Ok(31));
    assert_eq!(node.clock, Clock { seen: 16, done: 16, merged: 4, proposed: 0 });
    assert_eq!(node.votes[6], Vote { voter: 1, slot: 5, number: 31, in_view: false });
    assert_eq!((node.blocks_used, node.votes_used), (4, 7));
}

#[test]
fn merge() {
    let mut node = full_shed();
    node.clock = Clock { seen: 17, done: 17, merged: 1, proposed: 5 };
    node.blocks[0].in_view = false;
    refused(&node, |n| n.merge(16), 6);
    node.blocks[0].in_view = true;
    refused(&node, |n| n.merge(16), 7);
    refused(&node, |n| n.merge(3_000_000_005), 7);
    refused(&node, |n| n.merge(18), 11);
    refused(&node, |n| n.merge(19), 11);
    refused(&node, |n| n.merge(17), 12);
    node.clock.done = 16;
    node.blocks[3].in_view = false;
    node.votes[3].in_view = false;
    node.votes[0].in_view = false;
    // It need not be joined.
    assert_eq!(node.merge(17), Ok(()));
    assert_eq!(node.clock, Clock { seen: 17, done: 17, merged: 5, proposed: 5 });
    assert_eq!(blocks_in_view(&node), [0, 11, 21, 31]);
    // With E = 2 the votes of slots 1 and 2 leave.
    assert_eq!(votes_in_view(&node), [(2, 3, 31), (3, 3, 21)]);
    assert_eq!((node.blocks_used, node.votes_used), (4, 2));
}

#[test]
fn head_deep_fast() {
    let mut node = full_shed();
    node.blocks[0].in_view = false;
    refused(&node, |n| n.head(0), 6);
    refused(&node, |n| n.deep(0), 6);
    refused(&node, |n| n.fast(0), 6);
    node.blocks[0].in_view = true;
    for slot in [0, 1, 3, 5, u64::MAX] {
        refused(&node, |n| n.head(slot), 17);
        refused(&node, |n| n.deep(slot), 17);
        refused(&node, |n| n.fast(slot), 17);
    }
    assert_eq!((node.head(4), node.deep(4), node.fast(4)), (Ok(31), Ok(11), Ok(None)));
    // Beat 15 is of slot 5.
    node.clock.seen = 15;
    assert_eq!((node.head(5), node.deep(5), node.fast(5)), (Ok(31), Ok(11), Ok(None)));
}

#[test]
fn write() {
    let mut node = shed();
    node.blocks[0].in_view = false;
    add_block(&mut node, block(UP + 41, 31, 4));
    for wide in [false, true] {
        refused(&node, |n| n.write(true, wide, &mut []), 6);
        refused(&node, |n| n.write(false, wide, &mut []), 6);
    }
    node.blocks[0].in_view = true;
    for wide in [false, true] {
        refused(&node, |n| n.write(true, wide, &mut []), 19);
        refused(&node, |n| n.write(true, wide, &mut [0; 400]), 19);
    }
    // Request 8: 23 "after 19 and before 18"; wide writing does not meet it.
    refused(&node, |n| n.write(false, false, &mut []), 23);
    refused(&node, |n| n.write(false, false, &mut [0; 400]), 23);
    refused(&node, |n| n.write(false, true, &mut []), 18);
    node.clock.seen = 15;
    refused(&node, |n| n.write(true, false, &mut [0; 400]), 19);
    node.propose(15, 99).unwrap();
    refused(&node, |n| n.write(true, false, &mut []), 23);
    refused(&node, |n| n.write(true, false, &mut [0; 400]), 23);
    // 25 bytes, five blocks of 36, five votes of 21.
    refused(&node, |n| n.write(true, true, &mut [0; 309]), 18);
    assert_eq!(node.write(true, true, &mut [0; 310]), Ok(310));
    // Without the upper half 17 bytes, five blocks of 20, five votes of 13. The proposed block stands on this one.
    assert_eq!(node.blocks[5].parent, UP + 41);
    (node.blocks[4].number, node.blocks[5].parent) = (41, 41);
    refused(&node, |n| n.write(true, false, &mut [0; 181]), 18);
    assert_eq!(node.write(true, false, &mut [0; 182]), Ok(182));
}

#[test]
fn write_of_a_proposal() {
    let mut node = shed();
    node.propose(15, 99).unwrap();
    let wrong = |change: fn(&mut Node)| {
        let mut node = node.clone();
        change(&mut node);
        for wide in [false, true] {
            assert_eq!(node.write(true, wide, &mut []), Err(19));
            assert!(node.write(false, wide, &mut [0; 400]).is_ok());
        }
    };
    wrong(|n| n.clock.seen = 16);
    wrong(|n| n.clock.seen = 17);
    wrong(|n| n.clock.seen = 18);
    wrong(|n| n.clock.done = 14);
    wrong(|n| n.settings.own = 1);
    wrong(|n| n.blocks[4].in_view = false);
    wrong(|n| add_block(n, block(77, 21, 4)));
    // A waiting block behind the proposed one does not matter, one in view of the same slot does.
    let mut waiting = node.clone();
    add_block(&mut waiting, Block { number: 77, parent: 21, slot: 5, in_view: false });
    assert_eq!(Packet::decode(&written(&waiting, true)).unwrap().number, 99);
    waiting.blocks[5].in_view = true;
    assert_eq!(Packet::decode(&written(&waiting, true)).unwrap().number, 77);
    assert_eq!(Packet::decode(&written_wide(&waiting, true)).unwrap().number, 77);
}
