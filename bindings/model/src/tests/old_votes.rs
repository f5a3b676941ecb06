//! Request 4: which votes leave at Merge, which are not stored on arrival, and which slots may still be queried.

use super::*;

/// Five nodes, E = 2, K = 1. Slot 5 is merged and beat 18, of slot 6, is seen: votes below slot 3 are old.
/// Blocks 11 and 21 stand on block 0, and 31 on 21.
fn at_slot_6() -> Node {
    let mut node = fresh(5, 0, 2, 1);
    node.clock = Clock { seen: 18, done: 17, merged: 5, proposed: 0 };
    for (number, parent, slot) in [(11, 0, 1), (21, 0, 2), (31, 21, 3)] {
        add_block(&mut node, block(number, parent, slot));
    }
    node
}

/// The vote, waiting.
fn waiting(voter: u64, slot: u64, number: u128) -> Vote {
    Vote { in_view: false, ..vote(voter, slot, number) }
}

fn answer(new_blocks: u64, new_votes: u64, brought: bool) -> Result<Received, Refused> {
    Ok(Received { new_blocks, new_votes, brought })
}

#[test]
fn merge_removes_and_moves_up() {
    let mut node = at_slot_6();
    node.blocks[3].in_view = false;
    // What stands in unused places is not Merge's.
    let odd = vote(7, 8, 9);
    node.votes.truncate(10);
    node.votes.fill(odd);
    for entry in [
        vote(1, 3, 21),
        vote(0, 4, 11),
        waiting(2, 6, 31),
        waiting(3, 3, 31),
        vote(4, 5, 0),
        vote(0, 1, 11),
        waiting(0, 5, 21),
        waiting(1, 4, 31),
    ] {
        add_vote(&mut node, entry);
    }
    node.merge(20).unwrap();
    // Slot 6 less 2 is 4: slot 4 stays, slot 3 leaves, whether in view or waiting.
    let kept = [vote(0, 4, 11), vote(2, 6, 31), vote(4, 5, 0), vote(0, 5, 21), vote(1, 4, 31)];
    assert_eq!(node.votes[..5], kept);
    assert_eq!(node.votes[5..], [NO_VOTE, NO_VOTE, NO_VOTE, odd, odd]);
    assert_eq!(node.votes_used, 5);
    // No block leaves, and all are in view.
    assert_eq!(node.blocks[..4], [block(0, 0, 0), block(11, 0, 1), block(21, 0, 2), block(31, 21, 3)]);
    assert_eq!(node.blocks_used, 4);
    assert_eq!(node.clock, Clock { seen: 20, done: 20, merged: 6, proposed: 0 });
    // A second Merge of the slot is refused, and the next one goes on from there.
    assert_eq!(node.merge(20), Err(12));
    node.merge(23).unwrap();
    assert_eq!(node.votes[..5], [vote(2, 6, 31), vote(4, 5, 0), vote(0, 5, 21), NO_VOTE, NO_VOTE]);
    assert_eq!(node.votes_used, 3);
}

#[test]
fn the_last_slot_that_stays() {
    // E, the merged slot, and the lowest slot that is kept.
    let cases = [
        (1, 1, 1),
        (1, 2, 1),
        (1, 3, 2),
        (2, 2, 1),
        (2, 3, 1),
        (2, 4, 2),
        (3, 9, 6),
        (4096, 1, 1),
        (4096, 4096, 1),
        (4096, 4097, 1),
        (4096, 4098, 2),
        (4096, 1_000_000_000, 999_995_904),
    ];
    for (expiry, merged, lowest) in cases {
        let mut node = fresh(5, 0, expiry, 1);
        // The vote just below goes first, if there is a slot for it.
        let votes = [(4, lowest - 1, 0), (1, lowest, 0), (2, merged, 0)];
        let below = usize::from(lowest > 1);
        node.receive(u64::from(3 * merged), &gossip(&[], &votes[1 - below..])).unwrap();
        assert_eq!(node.votes_used, 2 + below);
        node.merge(u64::from(3 * merged + 2)).unwrap();
        let kept = [(1, u64::from(lowest), 0), (2, u64::from(merged), 0)];
        assert_eq!(votes_in_view(&node), kept, "E = {expiry}, merge of slot {merged}");
        // What leaves at Merge is what is not stored after it.
        let beat = u64::from(3 * merged + 2);
        let mut again = node.clone();
        assert_eq!(again.receive(beat, &gossip(&[], &votes[1 - below..])), answer(0, 0, false));
        assert_eq!(again, node);
        assert_eq!(node.receive(beat, &gossip(&[], &[(3, lowest, 0)])), answer(0, 1, false));
    }
}

#[test]
fn merge_over_many_slots() {
    // With E = 2 and all seven votes stored before the first Merge, that one counts alone.
    let votes: Vec<(u8, u32, u128)> = (1..=7).map(|slot| (0, slot, 0)).collect();
    let mut node = fresh(5, 1, 2, 1);
    assert_eq!(node.receive(21, &gossip(&[], &votes)), answer(0, 7, false));
    node.merge(23).unwrap();
    assert_eq!(votes_in_view(&node), [(0, 5, 0), (0, 6, 0), (0, 7, 0)]);
    // Far later none is left.
    node.merge(302).unwrap();
    assert_eq!((node.votes_used, &node.votes), (0, &vec![NO_VOTE; 16]));
    assert_eq!((node.head(100), node.fast(100)), (Ok(0), Ok(None)));
}

#[test]
fn freed_places_are_used_again() {
    let mut node = places(5, 0, 1, 1, 4, 4);
    node.receive(5, &gossip(&[], &[(1, 1, 0), (2, 1, 0)])).unwrap();
    node.merge(5).unwrap();
    node.receive(8, &gossip(&[], &[(1, 2, 0), (2, 2, 0)])).unwrap();
    node.merge(8).unwrap();
    // With E = 1 slots 1 and 2 are kept: no place is free.
    assert_eq!(node.receive(9, &gossip(&[], &[(3, 3, 0)])), whole(10));
    assert_eq!(node.vote(10), Err(10));
    node.merge(11).unwrap();
    assert_eq!(node.votes, [vote(1, 2, 0), vote(2, 2, 0), NO_VOTE, NO_VOTE]);
    // Later votes go behind the kept ones, from a packet and the own.
    assert_eq!(node.receive(12, &gossip(&[], &[(3, 3, 0)])), answer(0, 1, false));
    assert_eq!(node.vote(13), Ok(0));
    assert_eq!(node.votes, [vote(1, 2, 0), vote(2, 2, 0), waiting(3, 3, 0), waiting(0, 4, 0)]);
    assert_eq!(node.receive(13, &gossip(&[], &[(3, 4, 0)])), whole(10));
    node.merge(14).unwrap();
    assert_eq!(node.votes, [vote(3, 3, 0), vote(0, 4, 0), NO_VOTE, NO_VOTE]);
}

/// Three nodes with E = 2 and so many vote places vote and merge in every slot, and all packets arrive. The slot in
/// which one lacks places, if there is one.
fn lacks_places(vote_places: usize, slots: u64) -> Option<u64> {
    let mut nodes: Vec<Node> = (0..3).map(|own| places(3, own, 2, 1, 1, vote_places)).collect();
    for slot in 1..=slots {
        for sender in 0..3 {
            match nodes[sender].vote(3 * slot + 1) {
                Err(10) => return Some(slot),
                head => assert_eq!(head, Ok(0)),
            }
            let bytes = written(&nodes[sender], false);
            for node in &mut nodes {
                match node.receive(3 * slot + 1, &bytes) {
                    Err(Refused { number: 10, .. }) => return Some(slot),
                    received => assert!(received.is_ok()),
                }
            }
        }
        for node in &mut nodes {
            node.merge(3 * slot + 2).unwrap();
            assert_eq!(node.fast(slot), Ok(Some(0)));
        }
    }
    None
}

#[test]
fn a_week_of_votes() {
    // 9,000 votes; three slots are kept and the votes of one more come before the next Merge.
    assert_eq!(lacks_places(12, 3000), None);
    assert_eq!(lacks_places(11, 3000), Some(4));
}

#[test]
fn an_old_vote_is_accepted_and_not_stored() {
    let mut node = at_slot_6();
    add_vote(&mut node, vote(1, 4, 11));
    let mut after = node.clone();
    // Slots 1 and 2 are old, also when repeated; slot 3 is not.
    let votes = [(1, 2, 11), (2, 3, 21), (2, 1, 0), (1, 2, 11), (1, 4, 11), (4, 2, 21), (3, 6, 11), (2, 3, 21)];
    assert_eq!(node.receive(18, &gossip(&[], &votes)), answer(0, 2, false));
    add_vote(&mut after, waiting(2, 3, 21));
    add_vote(&mut after, waiting(3, 6, 11));
    assert_eq!(node, after);
    // With old votes alone only the beat seen moves.
    assert_eq!(node.receive(19, &gossip(&[], &[(4, 2, 11), (4, 1, 11), (4, 2, 21)])), answer(0, 0, false));
    after.clock.seen = 19;
    assert_eq!(node, after);
    // A late block is stored, the old vote for it is not.
    assert_eq!(node.receive(19, &gossip(&[(22, 11, 2)], &[(4, 2, 22)])), answer(1, 0, false));
    add_block(&mut after, Block { in_view: false, ..block(22, 11, 2) });
    assert_eq!(node, after);
}

#[test]
fn old_by_the_slot_last_merged() {
    // Not by the beat: at slot 20, with slot 5 merged, slot 3 is still stored.
    let mut node = at_slot_6();
    assert_eq!(node.receive(60, &gossip(&[], &[(1, 2, 11), (1, 3, 11)])), answer(0, 1, false));
    // Nor by the beats done.
    node.clock.done = 60;
    assert_eq!(node.receive(60, &gossip(&[], &[(2, 2, 11), (2, 3, 11)])), answer(0, 1, false));
    // Before any Merge nothing is old.
    let mut node = fresh(5, 0, 1, 1);
    assert_eq!(node.receive(60, &gossip(&[], &[(1, 1, 0), (2, 1, 0)])), answer(0, 2, false));
    // Nor while the merged slot is at most E + 1.
    for (merged, new) in [(1, 1), (2, 1), (3, 1), (4, 0)] {
        let mut node = fresh(5, 0, 2, 1);
        node.merge(3 * merged + 2).unwrap();
        assert_eq!(node.receive(60, &gossip(&[], &[(1, 1, 0)])), answer(0, new, false), "slot {merged} merged");
    }
}

#[test]
fn an_old_vote_needs_no_place() {
    let mut node = at_slot_6();
    node.votes.truncate(2);
    add_vote(&mut node, vote(1, 4, 11));
    let (old, late, new, other) = ((4, 1, 11), (4, 2, 11), (2, 3, 11), (3, 3, 11));
    // One place is free: two new votes are too many, with or without old ones.
    assert_eq!(node.clone().receive(18, &gossip(&[], &[new, other])), whole(10));
    assert_eq!(node.clone().receive(18, &gossip(&[], &[old, new, late, other])), whole(10));
    assert_eq!(node.receive(18, &gossip(&[], &[old, late, new, old])), answer(0, 1, false));
    // None is free.
    assert_eq!(node.receive(18, &gossip(&[], &[old, late])), answer(0, 0, false));
    assert_eq!(node.receive(18, &gossip(&[], &[old, other])), whole(10));
    assert_eq!(node.votes, [vote(1, 4, 11), waiting(2, 3, 11)]);
}

#[test]
fn an_old_vote_that_breaks_a_rule() {
    let node = at_slot_6();
    let good = (1, 2, 11);
    let wrong = [
        // Voter not below n; slot 0; block unknown; block of a later slot.
        (5, 2, 11),
        (0, 0, 0),
        (0, 2, 99),
        (0, 1, 21),
        (0, 2, 31),
    ];
    for vote in wrong {
        for (votes, index) in [(vec![vote, good], 0), (vec![good, good, vote], 2)] {
            let mut after = node.clone();
            assert_eq!(after.receive(18, &gossip(&[], &votes)), entry(20, index), "{votes:?}");
            assert_eq!(after, node);
        }
    }
    // An old vote does not shield a wrong header.
    assert_eq!(node.clone().receive(18, &packet(1, 6, 99, &[(61, 0, 6)], &[good])), whole(21));
}

/// A chain 5, 6, 7 of slots 1, 2, 3 has come late and waits. Its numbers are smaller than all others.
fn with_waiting_chain() -> Node {
    let mut node = at_slot_6();
    assert_eq!(node.receive(18, &gossip(&[(5, 0, 1), (6, 5, 2), (7, 6, 3)], &[])), answer(3, 0, false));
    assert_eq!(blocks_in_view(&node), [0, 11, 21, 31]);
    node
}

/// A proposal of slot 6 on 11 with an old vote for 6.
fn proposal_61() -> Vec<u8> {
    packet(1, 6, 61, &[(61, 11, 6)], &[(3, 2, 6)])
}

#[test]
fn an_old_vote_brings_its_block() {
    let mut node = with_waiting_chain();
    assert_eq!(node.head(6), Ok(11));
    assert_eq!(node.receive(18, &proposal_61()), answer(1, 0, true));
    // 6 and its ancestor 5, not the block above it. The vote itself is not there.
    assert_eq!(blocks_in_view(&node), [0, 11, 21, 31, 5, 6, 61]);
    assert_eq!((node.votes_used, &node.votes), (0, &vec![NO_VOTE; 16]));
    assert_eq!(node.clock, Clock { seen: 18, done: 17, merged: 5, proposed: 6 });
    // Nobody votes, and 5 is the smallest number: the head tells that the blocks came.
    assert_eq!(node.vote(19), Ok(6));
}

#[test]
fn an_old_vote_that_waits_brings_nothing() {
    // As gossip, in another phase, or as the second proposal.
    let mut node = with_waiting_chain();
    assert_eq!(node.receive(18, &gossip(&[], &[(3, 2, 6)])), answer(0, 0, false));
    assert_eq!(blocks_in_view(&node), [0, 11, 21, 31]);
    assert_eq!(node.clone().receive(19, &proposal_61()), answer(1, 0, false));
    assert_eq!(node.receive(18, &packet(1, 6, 62, &[(62, 0, 6)], &[])), answer(1, 0, true));
    assert_eq!(node.receive(18, &proposal_61()), answer(1, 0, false));
    assert_eq!(blocks_in_view(&node), [0, 11, 21, 31, 62]);
}

#[test]
fn slots_that_may_be_queried() {
    let mut node = fresh(5, 0, 2, 1);
    let see = |node: &mut Node, beat: u64| assert_eq!(node.receive(beat, &gossip(&[], &[])), answer(0, 0, false));
    // The slots that are answered after the call. Head, Deep and Fast refuse the same ones.
    let mut answered = |call: &dyn Fn(&mut Node)| {
        call(&mut node);
        let slots: Vec<u64> = (0..30).filter(|&slot| node.head(slot) != Err(17)).collect();
        for slot in (0..30).chain([1_000_000_000, u64::MAX]) {
            let refused = !slots.contains(&slot);
            assert_eq!(node.head(slot), if refused { Err(17) } else { Ok(0) });
            assert_eq!(node.deep(slot), if refused { Err(17) } else { Ok(0) });
            assert_eq!(node.fast(slot), if refused { Err(17) } else { Ok(None) });
        }
        slots
    };
    assert_eq!(answered(&|_| ()), []);
    assert_eq!(answered(&|n| see(n, 6)), [1, 2]);
    assert_eq!(answered(&|n| n.merge(8).unwrap()), [2]);
    assert_eq!(answered(&|n| see(n, 12)), [2, 3, 4]);
    // A refused Merge moves nothing, and Merge may leave out slots.
    assert_eq!(answered(&|n| assert_eq!(n.merge(13), Err(11))), [2, 3, 4]);
    assert_eq!(answered(&|n| n.merge(17).unwrap()), [5]);
    assert_eq!(answered(&|n| see(n, 23)), [5, 6, 7]);
}

#[test]
fn the_merged_slot_has_its_whole_window() {
    // E = 2. For slot 6 voter 1 counts by its vote of slot 4 and voter 2 is dropped for slot 4.
    let mut node = at_slot_6();
    for (voter, slot, number) in [(1, 4, 31), (2, 4, 11), (2, 4, 21), (2, 5, 11), (3, 3, 11), (4, 3, 11)] {
        add_vote(&mut node, vote(voter, slot, number));
    }
    assert_eq!(node.head(6), Ok(31));
    node.merge(20).unwrap();
    assert_eq!(node.votes_used, 4);
    assert_eq!((node.head(6), node.deep(6)), (Ok(31), Ok(31)));
    // For slot 5 the votes of slot 3 would be needed, and they are gone.
    assert_eq!((node.head(5), node.deep(5), node.fast(5)), (Err(17), Err(17), Err(17)));
}

#[test]
fn stock_is_what_is_kept() {
    // Node 2 of five proposes slot 7.
    let mut node = at_slot_6();
    node.settings.own = 2;
    for (voter, slot, number) in [(1, 3, 31), (0, 4, 11), (3, 3, 11), (4, 6, 21)] {
        add_vote(&mut node, vote(voter, slot, number));
    }
    node.merge(20).unwrap();
    let kept = [(0, 4, 11), (4, 6, 21)];
    assert_eq!(written(&node, false), gossip(&[(11, 0, 1), (21, 0, 2), (31, 21, 3)], &kept));
    // A fresh node gets exactly this, whatever its E.
    for expiry in [1, 2, 4096] {
        let mut other = fresh(5, 4, expiry, 1);
        assert_eq!(other.receive(20, &written(&node, false)), answer(3, 2, false));
        assert_eq!(other.votes[..2], [waiting(0, 4, 11), waiting(4, 6, 21)]);
        assert_eq!(written(&other, false), written(&node, false));
    }
    // A vote that left is known no more, and a second one of its slot is not stored either: nobody is dropped.
    assert_eq!(node.receive(20, &gossip(&[], &[(3, 3, 11), (4, 3, 11), (4, 3, 21)])), answer(0, 0, false));
    assert_eq!(node.propose(21, 71), Ok(31));
    let blocks = [(11, 0, 1), (21, 0, 2), (31, 21, 3), (71, 31, 7)];
    assert_eq!(written(&node, true), packet(1, 7, 71, &blocks, &kept));
}

#[test]
fn lent_tables_with_old_votes() {
    // The shed has a vote of slot 1 with slot 4 merged and E = 2. It is sound, known, and no call but Merge removes it.
    let mut node = shed();
    node.votes[0].in_view = false;
    let votes = node.votes.clone();
    assert_eq!(node.receive(14, &gossip(&[], &[(0, 1, 11), (1, 1, 11)])), answer(0, 0, false));
    assert_eq!((node.votes_used, &node.votes), (5, &votes));
    // A proposal that carries it brings it into view like any entry, and not the one that was not stored.
    let proposal = packet(1, 5, 51, &[(51, 31, 5)], &[(0, 1, 11), (1, 1, 11)]);
    assert_eq!(node.receive(15, &proposal), answer(1, 0, true));
    assert_eq!(votes_in_view(&node), [(0, 1, 11), (1, 2, 21), (4, 2, 11), (2, 3, 31), (3, 3, 21)]);
    assert_eq!(node.vote(16), Ok(51));
    assert_eq!(node.votes_used, 6);
    node.merge(17).unwrap();
    assert_eq!(votes_in_view(&node), [(2, 3, 31), (3, 3, 21), (0, 5, 51)]);
}
