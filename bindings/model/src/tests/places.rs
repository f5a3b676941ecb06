//! Open, full tables and the largest tables.

use super::*;

#[test]
fn open_sets_every_place() {
    for profile in [Profile::Loom, Profile::Rack] {
        let settings = Settings { profile, nodes: 5, own: 4, expiry: 2, depth: 3 };
        let node = opened(settings, 3, 2);
        assert_eq!(node.blocks, [block(0, 0, 0), NO_BLOCK, NO_BLOCK]);
        assert_eq!(node.votes, [NO_VOTE, NO_VOTE]);
        assert_eq!((node.blocks_used, node.votes_used), (1, 0));
        assert_eq!(node.clock, Clock { seen: 2, done: 2, merged: 0, proposed: 0 });
        assert_eq!(node.settings, settings);
    }
}

#[test]
fn later_calls_leave_unused_places() {
    let mut node = places(1, 0, 1, 1, 5, 5);
    let (odd_block, odd_vote) = (block(7, 8, 9), vote(7, 8, 9));
    node.blocks[1..].fill(odd_block);
    node.votes.fill(odd_vote);
    node.receive(3, &gossip(&[(5, 0, 1)], &[(0, 1, 0)])).unwrap();
    assert_eq!(node.propose(3, 6), Ok(0));
    assert_eq!(node.vote(4), Err(16));
    node.merge(5).unwrap();
    // The vote of slot 1 is for block 0; 5 is smaller than 6.
    node.propose(6, 4).unwrap();
    assert_eq!(node.vote(7), Ok(4));
    node.merge(8).unwrap();
    assert_eq!(node.blocks, [block(0, 0, 0), block(5, 0, 1), block(6, 0, 1), block(4, 5, 2), odd_block]);
    assert_eq!(node.votes, [vote(0, 1, 0), vote(0, 2, 4), odd_vote, odd_vote, odd_vote]);
    assert_eq!((node.blocks_used, node.votes_used), (4, 2));
}

#[test]
fn free_places_are_used_to_the_last() {
    let node = places(5, 1, 2, 3, 3, 2);
    let blocks = [(1, 0, 1), (2, 0, 1), (3, 0, 1)];
    let votes = [(0, 1, 0), (1, 1, 0), (2, 1, 0)];
    let counts = |b: usize, v: usize| {
        let answer = node.clone().receive(3, &gossip(&blocks[..b], &votes[..v]));
        answer.map(|received| (received.new_blocks, received.new_votes)).map_err(|refused| refused.number)
    };
    assert_eq!(counts(2, 2), Ok((2, 2)));
    assert_eq!(counts(3, 0), Err(10));
    assert_eq!(counts(0, 3), Err(10));
    assert_eq!(counts(3, 3), Err(10));
    // Repeated and known entries need no place.
    let mut full = node.clone();
    let twice = gossip(&[(1, 0, 1), (1, 0, 1), (2, 0, 1)], &[(0, 1, 0), (2, 1, 0), (0, 1, 0)]);
    full.receive(3, &twice).unwrap();
    assert_eq!((full.blocks_used, full.votes_used), (3, 2));
    let received = full.receive(3, &twice).unwrap();
    assert_eq!((received.new_blocks, received.new_votes), (0, 0));
    assert_eq!(full.propose(3, 9), Err(10));
    assert_eq!(full.vote(4), Err(10));
    assert_eq!(full.merge(5), Ok(()));
}

#[test]
fn one_place_each() {
    let mut node = places(1, 0, 1, 1, 1, 1);
    assert_eq!(node.propose(3, 9), Err(10));
    assert_eq!(node.vote(4), Ok(0));
    assert_eq!(node.merge(5), Ok(()));
    assert_eq!((node.head(1), node.deep(1), node.fast(1)), (Ok(0), Ok(0), Ok(Some(0))));
    assert_eq!(node.vote(7), Err(10));
    // With E = 1 the vote of slot 1 is kept at the merge of slot 2 and leaves at that of slot 3.
    assert_eq!(node.merge(8), Ok(()));
    assert_eq!(node.vote(10), Err(10));
    assert_eq!(node.merge(11), Ok(()));
    assert_eq!(node.vote(13), Ok(0));
    assert_eq!(node.votes, [Vote { in_view: false, ..vote(0, 4, 0) }]);
}

#[test]
fn the_largest_tables() {
    // A chain of 2,047 blocks, block i in slot i; 64 voters in each of slots 1920 to 2047, for the slot's block.
    let blocks: Vec<(u128, u128, u32)> = (1..=2047).map(|i| (i, i - 1, i as u32)).collect();
    let slots = 1920..2048;
    let votes: Vec<(u8, u32, u128)> =
        slots.flat_map(|slot| (0..64).map(move |voter| (voter, slot, u128::from(slot)))).collect();
    assert_eq!((blocks.len(), votes.len()), (2047, 8192));
    let mut node = places(64, 0, 4096, 100, 2048, 8192);
    let bytes = gossip(&blocks, &votes);
    // 17 + 2,047 × 20 + 8,192 × 13
    assert_eq!(bytes.len(), 147_453);
    let answer = node.receive(3 * 2047 + 2, &bytes).unwrap();
    assert_eq!((answer.new_blocks, answer.new_votes), (2047, 8192));
    assert_eq!((node.head(2047), node.deep(2047)), (Ok(0), Ok(0)));
    node.merge(3 * 2047 + 2).unwrap();
    assert_eq!((node.head(2047), node.deep(2047)), (Ok(2047), Ok(1947)));
    assert_eq!((node.fast(2046), node.fast(2047), node.fast(2048)), (Err(17), Ok(Some(2047)), Err(17)));
    let mut buffer = vec![0; 147_453];
    assert_eq!(node.write(false, false, &mut buffer), Ok(147_453));
    assert_eq!(buffer, bytes);
    // 25 + 2,047 × 36 + 8,192 × 21
    let mut buffer = vec![0; 245_749];
    assert_eq!(node.write(false, true, &mut buffer), Ok(245_749));
    assert_eq!(buffer, widened(&bytes));
    assert_eq!(node.receive(3 * 2047 + 2, &gossip(&[(9999, 0, 1)], &[])), whole(10));
    assert_eq!(node.receive(3 * 2047 + 2, &gossip(&[], &[(0, 1, 0)])), whole(10));
    // So far no slot is below a merged slot less E. At the merge of slot 6,080 those below 1984 are, half of the votes.
    node.merge(3 * 6080 + 2).unwrap();
    assert_eq!((node.blocks_used, node.votes_used), (2048, 4096));
    assert_eq!(node.fast(6080), Ok(None));
    let (kept, freed) = node.votes.split_at(4096);
    assert!((0..64).all(|voter| kept[voter] == vote(voter as u64, 1984, 1984)));
    assert!((0..64).all(|voter| kept[4032 + voter] == vote(voter as u64, 2047, 2047)));
    assert!(freed.iter().all(|place| *place == NO_VOTE));
}
