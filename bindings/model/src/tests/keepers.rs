//! Request 12: two packets held against each other.

use super::*;
use crate::{Double, PairRefused, Which};

type Answer = Result<Option<Double>, PairRefused>;

const NONE: Answer = Ok(None);

/// This voter voted in this slot for these two blocks, in this order.
fn named(voter: u64, slot: u64, one: u128, other: u128) -> Answer {
    Ok(Some(Double { voter, slot, blocks: [one, other] }))
}

fn refused(which: Which, number: u32, index: Option<u64>) -> Answer {
    Err(PairRefused { which, refused: Refused { number, index } })
}

/// What the node answers. Nothing is touched.
fn asked(node: &Node, beat: u64, first: &[u8], second: &[u8]) -> Answer {
    let (before, packets) = (node.clone(), (first.to_vec(), second.to_vec()));
    let answer = node.pair(beat, first, second);
    assert_eq!((node, first, second), (&before, &packets.0[..], &packets.1[..]));
    answer
}

/// Blocks 11, 12 and 13 of slot 1 on block 0, and 21 of slot 2 on 11.
const BLOCKS: [(u128, u128, u32); 4] = [(11, 0, 1), (12, 0, 1), (13, 0, 1), (21, 11, 2)];

/// Five nodes are asked at the last beat of slot 9, in all widths. The packets have these votes.
fn of_votes(first: &[(u8, u32, u128)], second: &[(u8, u32, u128)]) -> Answer {
    let node = fresh(5, 0, 2, 3);
    let (first, second) = (gossip(&BLOCKS, first), gossip(&BLOCKS, second));
    let answer = asked(&node, 29, &first, &second);
    assert_eq!(asked(&node, 29, &widened(&first), &second), answer);
    assert_eq!(asked(&node, 29, &first, &widened(&second)), answer);
    assert_eq!(asked(&node, 29, &widened(&first), &widened(&second)), answer);
    answer
}

#[test]
fn none() {
    assert_eq!(of_votes(&[], &[]), NONE);
    assert_eq!(of_votes(&[(0, 1, 11)], &[]), NONE);
    assert_eq!(of_votes(&[], &[(0, 1, 11)]), NONE);
    // Votes of two slots, and of two voters.
    assert_eq!(of_votes(&[(0, 1, 11)], &[(0, 2, 12)]), NONE);
    assert_eq!(of_votes(&[(0, 1, 11), (0, 2, 12)], &[]), NONE);
    assert_eq!(of_votes(&[(0, 1, 11)], &[(1, 1, 12)]), NONE);
    assert_eq!(of_votes(&[], &[(0, 1, 11), (1, 1, 12)]), NONE);
    // All five vote in slots 1 to 3, each once; the keepers have it in another order.
    let mut votes: Vec<(u8, u32, u128)> =
        (0..15).map(|at| (at % 5, 1 + u32::from(at) / 5, 11 + at as u128 % 3)).collect();
    let first = votes.clone();
    votes.reverse();
    assert_eq!(of_votes(&first, &votes), NONE);
    // Packets without blocks.
    let node = fresh(5, 0, 2, 3);
    assert_eq!(asked(&node, 29, &gossip(&[], &[(0, 1, 0)]), &gossip(&[], &[(0, 1, 0), (1, 1, 0)])), NONE);
}

#[test]
fn within_or_between() {
    let (one, other) = ((2, 3, 11), (2, 3, 12));
    assert_eq!(of_votes(&[one, other], &[]), named(2, 3, 11, 12));
    assert_eq!(of_votes(&[], &[one, other]), named(2, 3, 11, 12));
    assert_eq!(of_votes(&[one], &[other]), named(2, 3, 11, 12));
    // With single votes of others around them.
    let (before, after) = ((1, 3, 13), (3, 3, 13));
    assert_eq!(of_votes(&[before, one, after, other], &[before, after]), named(2, 3, 11, 12));
    assert_eq!(of_votes(&[before, after], &[after, one, before, other]), named(2, 3, 11, 12));
    assert_eq!(of_votes(&[after, one, before], &[before, other, after]), named(2, 3, 11, 12));
}

#[test]
fn different_votes() {
    // A vote for block 0 is a vote, and voter 0 a voter.
    assert_eq!(of_votes(&[(0, 1, 0)], &[(0, 1, 11)]), named(0, 1, 0, 11));
    assert_eq!(of_votes(&[(0, 1, 11)], &[(0, 1, 0)]), named(0, 1, 11, 0));
    // Blocks of one chain are different.
    assert_eq!(of_votes(&[(4, 2, 21)], &[(4, 2, 11)]), named(4, 2, 21, 11));
}

#[test]
fn repeats() {
    let vote = (2, 3, 11);
    assert_eq!(of_votes(&[vote, vote], &[]), NONE);
    assert_eq!(of_votes(&[], &[vote, vote]), NONE);
    assert_eq!(of_votes(&[vote], &[vote]), NONE);
    assert_eq!(of_votes(&[vote, vote, (2, 4, 12)], &[(2, 4, 12), vote, vote]), NONE);
    // One stands between the two different votes and changes nothing.
    assert_eq!(of_votes(&[vote, vote], &[vote, vote, (2, 3, 12), vote]), named(2, 3, 11, 12));
}

#[test]
fn the_lowest_voter_before_the_earliest_slot() {
    // Voter 1 twice in slot 9, voter 2 twice in slot 1, wherever it stands.
    let (late, early) = ([(1, 9, 11), (1, 9, 12)], [(2, 1, 12), (2, 1, 11)]);
    assert_eq!(of_votes(&late, &early), named(1, 9, 11, 12));
    assert_eq!(of_votes(&early, &late), named(1, 9, 11, 12));
    let mixed = [early[0], late[0], early[1], late[1]];
    assert_eq!(of_votes(&mixed, &[]), named(1, 9, 11, 12));
    assert_eq!(of_votes(&[], &mixed), named(1, 9, 11, 12));
    // The lowest voter with two different votes, not the lowest voter.
    assert_eq!(of_votes(&[(0, 1, 11), early[0]], &[(0, 2, 12), early[1]]), named(2, 1, 12, 11));
    // Between the packets goes before within one, if the voter is lower.
    assert_eq!(of_votes(&[(3, 1, 11), (3, 1, 12), (0, 5, 13)], &[(0, 5, 21)]), named(0, 5, 13, 21));
    // The largest index, beside one that is smaller.
    let node = fresh(64, 0, 2, 3);
    let first = gossip(&BLOCKS, &[(63, 1, 11), (63, 1, 12)]);
    assert_eq!(asked(&node, 29, &first, &gossip(&[], &[])), named(63, 1, 11, 12));
    let second = gossip(&BLOCKS, &[(9, 2, 11), (9, 2, 12)]);
    assert_eq!(asked(&node, 29, &first, &second), named(9, 2, 11, 12));
}

#[test]
fn the_earliest_slot() {
    let votes = [(1, 5, 11), (1, 5, 12), (1, 3, 13), (1, 3, 11), (1, 4, 12), (1, 4, 13)];
    assert_eq!(of_votes(&votes, &[]), named(1, 3, 13, 11));
    assert_eq!(of_votes(&[], &votes), named(1, 3, 13, 11));
    // In the second packet alone, and between them.
    assert_eq!(of_votes(&votes, &[(1, 2, 12), (1, 2, 11)]), named(1, 2, 12, 11));
    assert_eq!(of_votes(&[(1, 2, 21), (1, 5, 11), (1, 5, 12)], &[(1, 2, 12)]), named(1, 2, 21, 12));
    // The earliest with two different votes: it voted once in slots 1 and 2.
    assert_eq!(of_votes(&[(1, 1, 11), (1, 2, 12)], &votes), named(1, 3, 13, 11));
    // Slots count as numbers, not as their bytes.
    let node = fresh(5, 0, 2, 3);
    let first = gossip(&BLOCKS, &[(1, 256, 11), (1, 256, 12), (1, 255, 12), (1, 255, 13)]);
    assert_eq!(asked(&node, 900, &first, &gossip(&[], &[])), named(1, 255, 12, 13));
}

#[test]
fn blocks_in_the_order_met() {
    assert_eq!(of_votes(&[(1, 2, 13), (1, 2, 11), (1, 2, 12)], &[]), named(1, 2, 13, 11));
    assert_eq!(of_votes(&[], &[(1, 2, 12), (1, 2, 13), (1, 2, 11)]), named(1, 2, 12, 13));
    // The first packet goes before the second.
    assert_eq!(of_votes(&[(1, 2, 13)], &[(1, 2, 11)]), named(1, 2, 13, 11));
    assert_eq!(of_votes(&[(1, 2, 11)], &[(1, 2, 13)]), named(1, 2, 11, 13));
    // Two within the first go before what the second has.
    assert_eq!(of_votes(&[(1, 2, 13), (1, 2, 12)], &[(1, 2, 11), (1, 2, 13)]), named(1, 2, 13, 12));
    // The second begins with what the first has.
    assert_eq!(of_votes(&[(1, 2, 12)], &[(1, 2, 12), (1, 2, 11), (1, 2, 13)]), named(1, 2, 12, 11));
    assert_eq!(of_votes(&[(1, 2, 12)], &[(1, 2, 11), (1, 2, 13), (1, 2, 12)]), named(1, 2, 12, 11));
    // The order of the blocks in their section plays no part.
    let (first, second) = (gossip(&[(12, 0, 1), (11, 0, 1)], &[(1, 2, 11), (1, 2, 12)]), gossip(&[], &[]));
    assert_eq!(asked(&fresh(5, 0, 2, 3), 29, &first, &second), named(1, 2, 11, 12));
}

#[test]
fn narrow_and_wide() {
    let node = fresh(5, 0, 2, 3);
    let narrow = gossip(&[(11, 0, 1)], &[(1, 1, 11)]);
    // The same block in the other width is the same.
    assert_eq!(asked(&node, 29, &narrow, &widened(&narrow)), NONE);
    assert_eq!(asked(&node, 29, &widened(&narrow), &narrow), NONE);
    // Two blocks that differ in the upper half alone are different.
    let wide = wide_gossip(&[(UP + 11, 0, 1)], &[(1, 1, UP + 11)]);
    assert_eq!(asked(&node, 29, &narrow, &wide), named(1, 1, 11, UP + 11));
    assert_eq!(asked(&node, 29, &wide, &narrow), named(1, 1, UP + 11, 11));
    let other = wide_gossip(&[(3 * UP + 11, 0, 1)], &[(1, 1, 3 * UP + 11)]);
    assert_eq!(asked(&node, 29, &other, &wide), named(1, 1, 3 * UP + 11, UP + 11));
    // 2^64 beside block 0.
    let both = wide_gossip(&[(UP, 0, 1)], &[(1, 1, UP), (1, 1, 0)]);
    assert_eq!(asked(&node, 29, &both, &narrow), named(1, 1, UP, 0));
    let largest = wide_gossip(&[(u128::MAX, 0, 1)], &[(1, 1, u128::MAX)]);
    assert_eq!(asked(&node, 29, &largest, &narrow), named(1, 1, u128::MAX, 11));
}

#[test]
fn proposals() {
    let node = fresh(5, 0, 2, 3);
    let votes = |number: u128| [(1, 1, number)];
    // At each beat of slot 2, and later: whether it would come into view plays no part.
    for beat in [6, 7, 8, 9] {
        for (one, other) in [(1, 1), (1, 3), (3, 1), (3, 3), (0, 3), (1, 2)] {
            let of_kind = |kind: u8, votes: &[(u8, u32, u128)]| {
                let (slot, number) = if kind % 2 == 1 { (2, 21) } else { (0, 0) };
                packet(kind, slot, number, &BLOCKS, votes)
            };
            let (first, second) = (of_kind(one, &votes(12)), of_kind(other, &votes(11)));
            assert_eq!(asked(&node, beat, &first, &second), named(1, 1, 12, 11));
            assert_eq!(asked(&node, beat, &first, &first), NONE);
        }
    }
    // The proposed blocks of one slot are different and no votes.
    let (first, second) = (packet(1, 1, 11, &[(11, 0, 1)], &[]), packet(1, 1, 12, &[(12, 0, 1)], &[]));
    assert_eq!(asked(&node, 3, &first, &second), NONE);
    // Nor does the slot's proposal count as accepted.
    assert!(node.clone().receive(3, &second).unwrap().brought);
}

#[test]
fn each_refusal_in_its_order() {
    for kind in [1, 3] {
        // A rack with one free place for a block and one for a vote.
        let mut node = opened(Settings { profile: Profile::Rack, nodes: 5, own: 0, expiry: 2, depth: 3 }, 2, 1);
        let good = packet(kind, 1, 11, &[(11, 0, 1)], &[(0, 1, 11)]);
        let (two, of_two) = ([(11, 0, 1), (12, 0, 1)], [(0, 1, 11), (4, 1, 11)]);
        // All that can be wrong is wrong at first and is mended piece by piece.
        let wrong: [(Vec<u8>, u32, Option<u64>); 9] = [
            (vec![4; 4097], 24, None),
            (vec![4; 4096], 8, None),
            (vec![], 8, None),
            (packet(kind, 1, 13, &[(11, 0, 1), (12, 9, 1)], &[(0, 1, 11), (5, 1, 11)]), 9, Some(1)),
            (packet(kind, 1, 13, &two, &[(0, 1, 11), (5, 1, 11)]), 20, Some(1)),
            (packet(kind, 1, 13, &two, &of_two), 21, None),
            (packet(kind, 1, 12, &two, &of_two), 10, None),
            (packet(kind, 1, 12, &two, &of_two[..1]), 10, None),
            (packet(kind, 1, 11, &two[..1], &of_two), 10, None),
        ];
        let worst = &wrong[0].0;
        node.clock.done = 3;
        for beat in [0, 1, 3, 3_000_000_003, u64::MAX] {
            assert_eq!(asked(&node, beat, worst, worst), refused(Which::Neither, 6, None));
        }
        node.clock.done = 2;
        // A fresh node has seen beat 2.
        for beat in [0, 1, 3_000_000_003, u64::MAX] {
            assert_eq!(asked(&node, beat, worst, worst), refused(Which::First, 7, None));
            assert_eq!(asked(&node, beat, &good, worst), refused(Which::First, 7, None));
            assert_eq!(asked(&node, beat, worst, &good), refused(Which::First, 7, None));
            assert_eq!(asked(&node, beat, &good, &good), refused(Which::First, 7, None));
        }
        // All of the first packet is tested before anything of the second.
        for (bytes, number, index) in &wrong {
            for other in wrong.iter().map(|(bytes, ..)| bytes).chain([&good]) {
                assert_eq!(asked(&node, 3, bytes, other), refused(Which::First, *number, *index));
            }
            assert_eq!(asked(&node, 3, &good, bytes), refused(Which::Second, *number, *index));
            assert_eq!(node.clone().receive(3, bytes), Err(Refused { number: *number, index: *index }));
        }
        assert_eq!(asked(&node, 3, &good, &good), NONE);
        // A refusal comes also where two different votes are found before it.
        node.votes.push(NO_VOTE);
        let double = packet(kind, 1, 11, &[(11, 0, 1)], &[(0, 1, 11), (0, 1, 0)]);
        assert_eq!(asked(&node, 3, &double, worst), refused(Which::Second, 24, None));
        assert_eq!(asked(&node, 3, &double, &good), named(0, 1, 11, 0));
    }
}

#[test]
fn rules_of_entries() {
    // At beat 29 each wrong entry stands behind a good one. Slot 9 is the last that is allowed.
    let node = fresh(5, 0, 2, 3);
    let good = gossip(&[(11, 0, 9)], &[(4, 9, 11)]);
    let mut wrong = Vec::new();
    for block in [(0, 0, 0), (12, 0, 0), (12, 0, 10), (12, 13, 9), (12, 11, 9), (11, 0, 8), (11, 12, 9)] {
        wrong.push((gossip(&[(11, 0, 9), block], &[(4, 9, 11)]), 9));
    }
    for vote in [(5, 9, 11), (4, 0, 0), (4, 10, 11), (4, 9, 12), (4, 8, 11)] {
        wrong.push((gossip(&[(11, 0, 9)], &[(4, 9, 11), vote]), 20));
    }
    for (bytes, number) in wrong {
        for bytes in [widened(&bytes), bytes] {
            assert_eq!(asked(&node, 29, &bytes, &good), refused(Which::First, number, Some(1)));
            assert_eq!(asked(&node, 29, &good, &bytes), refused(Which::Second, number, Some(1)));
        }
    }
    assert_eq!(asked(&node, 29, &good, &widened(&good)), NONE);
}

#[test]
fn each_on_its_own_tables() {
    let node = places(5, 0, 2, 3, 2, 1);
    let empty = gossip(&[], &[]);
    // The second does not know the blocks of the first.
    let first = gossip(&[(11, 0, 1)], &[(0, 1, 11)]);
    assert_eq!(asked(&node, 29, &first, &gossip(&[], &[(0, 1, 11)])), refused(Which::Second, 20, Some(0)));
    assert_eq!(asked(&node, 29, &first, &gossip(&[(21, 11, 2)], &[])), refused(Which::Second, 9, Some(0)));
    // Nor does it share the places: each has one block and one vote.
    let second = gossip(&[(12, 0, 1)], &[(0, 1, 12)]);
    assert_eq!(asked(&node, 29, &first, &second), named(0, 1, 11, 12));
    assert_eq!(asked(&node, 29, &first, &gossip(&[(12, 0, 1)], &[(1, 1, 12)])), NONE);
    // A number may have another slot or parent in the second packet. A vote for it is the same vote.
    let node = places(5, 0, 2, 3, 3, 1);
    let for_11 = |blocks: &[(u128, u128, u32)]| gossip(blocks, &[(0, 3, 11)]);
    assert_eq!(asked(&node, 29, &for_11(&[(11, 0, 1)]), &for_11(&[(11, 0, 2)])), NONE);
    assert_eq!(asked(&node, 29, &for_11(&[(11, 0, 2)]), &for_11(&[(12, 0, 1), (11, 12, 2)])), NONE);
    // An empty stock beside any.
    assert_eq!(asked(&node, 29, &empty, &first), NONE);
    assert_eq!(asked(&node, 29, &first, &empty), NONE);
}

#[test]
fn fresh_tables_not_those_of_the_node() {
    // The shed has no free place. Its slot 4 is merged, its E is 2, and it has seen beat 14.
    let mut node = shed();
    node.blocks.truncate(4);
    node.votes.truncate(5);
    let three = [(11, 0, 1), (12, 0, 1), (13, 0, 1)];
    let five = |number: u128| -> Vec<(u8, u32, u128)> { (0..5).map(|voter| (voter, 1, number)).collect() };
    // All places count as free, the beat may be below the one seen, and no vote is old.
    for beat in [3, 13, 14, 3_000_000_002] {
        let answer = asked(&node, beat, &gossip(&three, &five(12)), &gossip(&three, &five(13)));
        assert_eq!(answer, named(0, 1, 12, 13));
    }
    // So many places and no more: three blocks beside block 0, five votes.
    let four = [three[0], three[1], three[2], (14, 0, 1)];
    let good = gossip(&three, &five(12));
    let mut six = five(12);
    six.push((0, 2, 12));
    for bytes in [gossip(&four, &[]), gossip(&three, &six)] {
        assert_eq!(asked(&node, 14, &bytes, &good), refused(Which::First, 10, None));
        assert_eq!(asked(&node, 14, &good, &bytes), refused(Which::Second, 10, None));
    }
    // Repeats need no place.
    let repeated = gossip(&[three, three].concat(), &[five(12), five(12)].concat());
    assert_eq!(asked(&node, 14, &repeated, &repeated), NONE);
    // The stock is not known: 11 may have another slot, and its vote for it is needed in no packet.
    assert_eq!(asked(&node, 14, &gossip(&[], &[(0, 4, 11)]), &good), refused(Which::First, 20, Some(0)));
    assert_eq!(asked(&node, 14, &good, &gossip(&[(41, 31, 4)], &[])), refused(Which::Second, 9, Some(0)));
    assert_eq!(asked(&node, 14, &gossip(&[(11, 0, 3)], &[]), &gossip(&[(31, 0, 1)], &[])), NONE);
    // Nor do its votes count: voter 0 voted for 11 in slot 1.
    assert_eq!(asked(&node, 14, &gossip(&three, &[(0, 1, 12)]), &gossip(&[], &[])), NONE);
    // At beat 2 nothing but block 0 is allowed.
    assert_eq!(asked(&node, 2, &gossip(&[], &[]), &wide_gossip(&[], &[])), NONE);
    assert_eq!(asked(&node, 2, &gossip(&[], &[]), &gossip(&[], &[(0, 1, 0)])), refused(Which::Second, 20, Some(0)));
    assert_eq!(asked(&node, 1, &gossip(&[], &[]), &gossip(&[], &[])), refused(Which::First, 7, None));
}

#[test]
fn expiry_and_last_slot() {
    // E is 1 and the votes are of the first slot; the beat is of the last.
    let node = fresh(5, 4, 1, 1);
    let last = 1_000_000_000;
    let stock = |voter: u8, number: u128| gossip(&BLOCKS, &[(voter, last, number), (2, 1, number)]);
    for beat in [3_000_000_000, 3_000_000_001, 3_000_000_002] {
        assert_eq!(asked(&node, beat, &stock(1, 11), &stock(1, 12)), named(1, last.into(), 11, 12));
        assert_eq!(asked(&node, beat, &stock(3, 11), &stock(3, 12)), named(2, 1, 11, 12));
    }
    let beat = 2_999_999_999;
    assert_eq!(asked(&node, beat, &stock(1, 11), &stock(1, 12)), refused(Which::First, 20, Some(0)));
}

#[test]
fn racks_and_looms() {
    // 17 + 7 × 20 + 303 × 13 bytes. Most of the votes are repeats.
    let blocks: Vec<(u128, u128, u32)> = (1..=7).map(|number| (number, 0, 1)).collect();
    let stock = |number: u128| gossip(&blocks, &[(3, 1, number); 303]);
    assert_eq!(stock(5).len(), 4096);
    let settings = Settings { profile: Profile::Rack, nodes: 5, own: 0, expiry: 2, depth: 3 };
    let rack = opened(settings, 64, 256);
    let loom = opened(Settings { profile: Profile::Loom, ..settings }, 64, 256);
    // Each packet keeps to the limit; both together need not.
    assert_eq!(asked(&rack, 29, &stock(5), &stock(4)), named(3, 1, 5, 4));
    assert_eq!(asked(&loom, 29, &stock(5), &stock(4)), named(3, 1, 5, 4));
    // 17 + 8 × 20 + 303 × 13 bytes.
    let long = gossip(&[&blocks[..], &blocks[..1]].concat(), &[(3, 1, 6); 303]);
    assert_eq!(asked(&rack, 29, &stock(5), &long), refused(Which::Second, 24, None));
    assert_eq!(asked(&rack, 29, &long, &stock(5)), refused(Which::First, 24, None));
    assert_eq!(asked(&loom, 29, &stock(5), &long), named(3, 1, 5, 6));
    assert_eq!(asked(&loom, 29, &long, &stock(5)), named(3, 1, 6, 5));
}

#[test]
fn a_damaged_node() {
    // Whatever is asked, good or wrong.
    let good = gossip(&BLOCKS, &[(1, 1, 11), (1, 1, 12)]);
    let six = |change: &dyn Fn(&mut Node)| {
        let mut node = shed();
        change(&mut node);
        for beat in [0, 14, 29, u64::MAX] {
            for (first, second) in [(&good[..], &good[..]), (&good, &[9; 5000]), (&[9; 5000], &good), (&[], &[])] {
                assert_eq!(asked(&node, beat, first, second), refused(Which::Neither, 6, None));
            }
        }
    };
    six(&|n| n.settings.nodes = 65);
    six(&|n| n.settings.own = 5);
    six(&|n| n.settings.expiry = 0);
    six(&|n| n.settings.depth = 4097);
    six(&|n| n.blocks.resize(2049, NO_BLOCK));
    six(&|n| n.votes.resize(8193, NO_VOTE));
    six(&|n| n.blocks_used = 17);
    six(&|n| n.votes_used = usize::MAX);
    six(&|n| n.clock.done = 15);
    six(&|n| n.blocks[0].in_view = false);
    six(&|n| n.blocks[3].parent = 12);
    six(&|n| n.votes[4] = n.votes[3]);
    // A rack may have less.
    six(&|n| {
        n.settings.profile = Profile::Rack;
        n.settings.nodes = 17;
    });
    assert_eq!(asked(&shed(), 29, &good, &good), named(1, 1, 11, 12));
}

#[test]
fn as_many_votes_as_a_count_can_say() {
    let node = places(64, 0, 2, 3, 2048, 8192);
    // 8,192 different votes, again and again; the last one stands in the first packet only.
    let all: Vec<(u8, u32, u128)> = (0..8192).map(|at| ((at % 64) as u8, 1 + at / 64, 0)).collect();
    let cycle = |votes: &[(u8, u32, u128)]| votes.iter().copied().cycle().take(65_535).collect::<Vec<_>>();
    let first = gossip(&[], &cycle(&all));
    let mut votes = cycle(&all[..8191]);
    assert_eq!(asked(&node, 400, &first, &gossip(&[], &votes)), NONE);
    // The very last vote is the second one of the last voter in its last slot.
    votes[65_534] = (63, 128, 11);
    let second = gossip(&[(11, 0, 1)], &votes);
    assert_eq!(asked(&node, 400, &first, &second), named(63, 128, 0, 11));
    assert_eq!(asked(&node, 400, &second, &first), named(63, 128, 11, 0));
    // All different, they need more places than there are.
    let different: Vec<(u8, u32, u128)> = (0..65_535).map(|at| ((at % 64) as u8, 1 + at / 64, 0)).collect();
    let many = wide_gossip(&[], &different);
    assert_eq!(asked(&node, 4000, &first, &many), refused(Which::Second, 10, None));
}

/// The words one by one, over the votes of both packets: voters from the lowest, for each the slots from the earliest,
/// and the blocks that it voted for there in the order met.
fn by_the_words(votes: &[(u8, u32, u128)]) -> Answer {
    for voter in 0..=u8::MAX {
        for slot in 0..=9 {
            let there: Vec<u128> = votes.iter().filter(|vote| (vote.0, vote.1) == (voter, slot)).map(|v| v.2).collect();
            if let Some(&other) = there.iter().find(|&&number| number != there[0]) {
                return named(voter.into(), slot.into(), there[0], other);
            }
        }
    }
    NONE
}

#[test]
fn as_the_words_say() {
    let mut draw = Draw(12);
    let mut answers = [0; 4];
    let known = [(11, 0, 1), (12, 0, 1), (UP + 11, 0, 1), (21, 11, 2), (31, 21, 3)];
    for _ in 0..6_000 {
        // Any sound node.
        let mut node = if draw.yes() { shed() } else { fresh(5, 4, 1, 1) };
        node.settings.profile = draw.of(&[Profile::Loom, Profile::Rack]);
        node.blocks.truncate(4 + draw.next() as usize % 9);
        node.votes.truncate(5 + draw.next() as usize % 9);
        let beat = 9 + draw.next() % 4;
        let mut both = Vec::new();
        let mut stocks = Vec::new();
        for _ in 0..2 {
            let kind = draw.of(&[0, 1, 2, 3, 2, 3]);
            let blocks: Vec<(u128, u128, u32)> = known.into_iter().filter(|b| kind > 1 || b.0 < UP).collect();
            let mut votes = Vec::new();
            for _ in 0..draw.next() % 8 {
                let (number, _, slot) = draw.of(&blocks);
                let number = if draw.next() % 4 == 0 { 0 } else { number };
                let wrong = u8::from(draw.next() % 64 == 0);
                votes.push((draw.next() as u8 % 5 + wrong, draw.of(&[slot, slot, 3]), number));
            }
            both.extend(votes.clone());
            let (slot, number) = if kind % 2 == 1 { (3, 31) } else { (0, 0) };
            stocks.push(packet(kind, slot, number, &blocks, &votes));
        }
        let answer = asked(&node, beat, &stocks[0], &stocks[1]);
        // "each on fresh tables with this node's settings and places"
        let refusal = |bytes: &[u8]| {
            let mut fresh = opened(node.settings, node.blocks.len(), node.votes.len());
            fresh.receive(beat, bytes).err()
        };
        let expected = match (refusal(&stocks[0]), refusal(&stocks[1])) {
            (Some(Refused { number, index }), _) => refused(Which::First, number, index),
            (None, Some(Refused { number, index })) => refused(Which::Second, number, index),
            (None, None) => by_the_words(&both),
        };
        assert_eq!(answer, expected);
        // With the packets exchanged the voter and the slot are the same.
        if let Ok(double) = answer {
            let exchanged = asked(&node, beat, &stocks[1], &stocks[0]).unwrap();
            assert_eq!(exchanged.map(|d| (d.voter, d.slot)), double.map(|d| (d.voter, d.slot)));
        }
        let case = match answer {
            Ok(None) => 0,
            Ok(Some(_)) => 1,
            Err(PairRefused { which, .. }) => 1 + which as usize,
        };
        answers[case] += 1;
    }
    assert!(answers.iter().all(|&count| count > 200), "{answers:?}");
}
