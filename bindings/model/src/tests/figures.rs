//! Request 10: how many places a packet will take.

use super::*;

fn figures(new_blocks: u64, new_votes: u64, bytes: u64) -> Result<Figures, Refused> {
    Ok(Figures { new_blocks, new_votes, bytes })
}

/// The node with the largest tables; what stands in them stays.
fn enlarged(node: &Node) -> Node {
    let mut node = node.clone();
    node.blocks.resize(2048, NO_BLOCK);
    node.votes.resize(8192, NO_VOTE);
    node
}

/// What Receive and then a wide Write find.
fn found(node: &Node, beat: u64, bytes: &[u8]) -> Result<Figures, Refused> {
    let mut node = node.clone();
    let Received { new_blocks, new_votes, .. } = node.receive(beat, bytes)?;
    figures(new_blocks, new_votes, written_wide(&node, false).len() as u64)
}

#[test]
fn by_hand() {
    // An empty packet of either width on a fresh node: the empty wide gossip packet.
    let node = fresh(5, 0, 2, 3);
    assert_eq!(node.figures(2, &gossip(&[], &[])), figures(0, 0, 25));
    assert_eq!(node.figures(2, &wide_gossip(&[], &[])), figures(0, 0, 25));
    // Three blocks and five votes stand in the shed: 25 + 3 × 36 + 5 × 21.
    let node = shed();
    assert_eq!(node.figures(14, &gossip(&[], &[])), figures(0, 0, 238));
    // Known and repeated entries are not new: 238 + 36 + 21.
    let bytes = gossip(&[(31, 11, 3), (41, 31, 4), (41, 31, 4)], &[(2, 3, 31), (2, 4, 41), (2, 4, 41)]);
    assert_eq!(node.figures(14, &bytes), figures(1, 1, 295));
    assert_eq!(node.figures(14, &widened(&bytes)), figures(1, 1, 295));
    assert_eq!(found(&node, 14, &bytes), figures(1, 1, 295));
    // Slot 4 is merged and E is 2, so a vote of slot 1 is old and not stored; one of slot 2 is.
    assert_eq!(node.figures(14, &gossip(&[], &[(3, 1, 11), (3, 2, 11)])), figures(0, 1, 259));
    // A proposal counts as what it adds to the gossip.
    assert_eq!(node.figures(15, &packet(1, 5, 51, &[(51, 31, 5)], &[])), figures(1, 0, 274));
}

#[test]
fn in_place_of_10() {
    let node = places(5, 1, 2, 3, 2, 1);
    let bytes = gossip(&[(1, 0, 1), (2, 1, 2)], &[(0, 1, 1), (1, 1, 0)]);
    assert_eq!(node.clone().receive(6, &bytes), whole(10));
    assert_eq!(node.figures(6, &bytes), figures(2, 2, 139));
    assert_eq!(found(&enlarged(&node), 6, &bytes), figures(2, 2, 139));
    // The refusals before 10 come also where places lack.
    let bad = gossip(&[(1, 0, 1), (2, 1, 2)], &[(0, 1, 1), (1, 1, 9)]);
    assert_eq!(node.figures(6, &bad), Err(Refused { number: 20, index: Some(1) }));
}

#[test]
fn past_the_largest_tables() {
    // More entries than a count can say are in the stock afterwards; the sums go on.
    let mut node = fresh(64, 0, 4096, 1);
    node.receive(3, &gossip(&[(70_000, 0, 1)], &[(0, 1, 70_000)])).unwrap();
    let blocks: Vec<(u128, u128, u32)> = (1..=65_535).map(|number| (number, 0, 1)).collect();
    let votes: Vec<(u8, u32, u128)> = (1..=65_535).map(|number| (63, 1, number)).collect();
    let bytes = wide_gossip(&blocks, &votes);
    assert_eq!(node.figures(3, &bytes), figures(65_535, 65_535, 25 + 65_536 * 36 + 65_536 * 21));
    assert_eq!(enlarged(&node).receive(3, &bytes), whole(10));
}

#[test]
fn refused_as_receive() {
    let refused = |node: &Node, beat: u64, bytes: &[u8], number: u32, index: Option<u64>| {
        assert_eq!(node.figures(beat, bytes), Err(Refused { number, index }));
        assert_eq!(node.clone().receive(beat, bytes), Err(Refused { number, index }));
    };
    let mut node = shed();
    let good = gossip(&[(41, 31, 4)], &[(2, 4, 41)]);
    refused(&node, 13, &good, 7, None);
    refused(&node, 3_000_000_003, &good, 7, None);
    refused(&node, 14, &good[1..], 8, None);
    refused(&node, 14, &gossip(&[(41, 31, 4), (42, 31, 5)], &[(9, 4, 41)]), 9, Some(1));
    refused(&node, 14, &gossip(&[(41, 31, 4)], &[(2, 4, 41), (2, 4, 42)]), 20, Some(1));
    refused(&node, 14, &packet(1, 4, 42, &[(41, 31, 4)], &[]), 21, None);
    node.settings.profile = Profile::Rack;
    refused(&node, 14, &[0; 4097], 24, None);
    node.settings.own = 5;
    refused(&node, 14, &good, 6, None);
}

#[test]
fn as_receive_and_write_find() {
    let mut draw = Draw(10);
    let mut answers = [0; 2];
    for _ in 0..3_000 {
        let mut node = shed();
        node.settings.profile = draw.of(&[Profile::Loom, Profile::Rack]);
        node.votes_used = draw.next() as usize % 6;
        node.blocks.truncate(4 + draw.next() as usize % 3);
        node.votes.truncate(5 + draw.next() as usize % 3);
        let beat = 14 + draw.next() % 2;
        let mut blocks = Vec::new();
        for _ in 0..draw.next() % 4 {
            let block = draw.of(&[(11, 0, 1), (31, 11, 3), (41, 31, 4), (42, 11, 4), (43, 41, 5), (41 + UP, 31, 4)]);
            blocks.push(block);
        }
        let mut votes = Vec::new();
        for _ in 0..draw.next() % 4 {
            votes.push((draw.next() as u8 % 5, draw.of(&[1, 2, 3, 4]), draw.of(&[11, 31, 0, 41])));
        }
        let (kind, slot, number) = draw.of(&[(0, 0, 0), (2, 0, 0), (3, 5, 43)]);
        let bytes = packet(kind, slot, number, &blocks, &votes);
        let answer = node.figures(beat, &bytes);
        let mut large = enlarged(&node);
        large.settings.profile = Profile::Loom;
        assert_eq!(answer, found(&large, beat, &bytes));
        // Only 10 may come besides.
        match node.clone().receive(beat, &bytes) {
            Ok(_) => assert_eq!(answer, found(&node, beat, &bytes)),
            Err(Refused { number: 10, .. }) => assert!(answer.is_ok()),
            Err(refused) => assert_eq!(answer, Err(refused)),
        }
        answers[usize::from(answer.is_ok())] += 1;
    }
    assert!(answers.iter().all(|&count| count > 300), "{answers:?}");
}
