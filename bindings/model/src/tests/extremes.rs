//! Nonsense of all kinds is lent: no call may panic, a refusal changes nothing, and what is accepted stays sound.

use super::*;

impl Draw {
    /// Mostly small, at times huge.
    fn value(&mut self) -> u64 {
        let small = self.next() % 5;
        if self.next() % 16 == 0 {
            self.of(&[u64::MAX, u64::MAX - 1, 1 << 63, u64::MAX / 3, 1_000_000_000, 1_000_000_001, 3_000_000_002, 65])
        } else {
            small
        }
    }

    /// A number, at times with an upper half.
    fn number(&mut self) -> u128 {
        u128::from(self.value()) | u128::from(self.of(&[0, 0, 0, 1, u64::MAX])) << 64
    }
}

fn try_calls(node: &Node, beat: u64, slot: u64, number: u128, bytes: &[u8]) -> [Option<u32>; 15] {
    let sound = node.head(1) != Err(6);
    let changed = |call: &dyn Fn(&mut Node) -> Option<u32>| {
        let mut after = node.clone();
        let refusal = call(&mut after);
        if refusal.is_some() {
            assert_eq!(&after, node);
        } else {
            assert!(sound);
            assert_ne!(after.head(1), Err(6));
        }
        refusal
    };
    [
        changed(&|n| n.receive(beat, bytes).err().map(|refused| refused.number)),
        changed(&|n| n.propose(beat, number).err()),
        changed(&|n| n.vote(beat).err()),
        changed(&|n| n.merge(beat).err()),
        changed(&|n| n.head(slot).err()),
        changed(&|n| n.deep(slot).err()),
        changed(&|n| n.fast(slot).err()),
        changed(&|n| n.write(true, false, &mut [0; 40]).err()),
        changed(&|n| n.write(true, true, &mut [0; 40]).err()),
        changed(&|n| n.write(false, false, &mut [0; 40]).err()),
        changed(&|n| n.write(false, true, &mut [0; 40]).err()),
        {
            let mut after = node.clone();
            let refusal = after.open().err();
            assert!(refusal.is_none() || &after == node);
            refusal
        },
        changed(&|n| n.figures(beat, bytes).err().map(|refused| refused.number)),
        changed(&|n| n.unheard(slot, number as u64).err()),
        changed(&|n| n.pair(beat, bytes, bytes).err().map(|refusal| refusal.refused.number)),
    ]
}

#[test]
fn nonsense() {
    let mut draw = Draw(1);
    let mut refusals = [0; 26];
    for round in 0..12_000 {
        let mut node = fresh(3, 0, 2, 1);
        let profile = draw.of(&[Profile::Loom, Profile::Rack]);
        node.settings = Settings { profile, nodes: 3, own: draw.next() % 3, expiry: 2, depth: 1 };
        node.clock.seen = 3 + draw.next() % 9;
        node.clock.done = node.clock.seen - draw.next() % 2;
        node.clock.merged = (node.clock.done.max(2) - 2) / 3;
        if round % 4 == 0 {
            let (nodes, own, expiry, depth) = (draw.value(), draw.value(), draw.value(), draw.value());
            node.settings = Settings { profile, nodes, own, expiry, depth };
            node.clock = Clock { seen: draw.value(), done: draw.value(), merged: draw.value(), proposed: draw.value() };
        }
        node.blocks.truncate(1 + draw.next() as usize % 5);
        node.votes.truncate(1 + draw.next() as usize % 5);
        // Each block has this number or one above it.
        let first = draw.of(&[1, 1, UP, UP + 1, u128::MAX - 9]);
        for place in 1..node.blocks.len() {
            let (number, parent) = (first + place as u128 - 1, draw.of(&[0, first]));
            node.blocks[place] = Block { number, parent, slot: draw.value(), in_view: draw.yes() };
        }
        for place in 0..node.votes.len() {
            let number = draw.of(&[0, first]);
            node.votes[place] = Vote { voter: draw.value(), slot: draw.value(), number, in_view: draw.yes() };
        }
        node.blocks_used = 1 + draw.next() as usize % 3;
        node.votes_used = draw.next() as usize % 3;
        if draw.next() % 16 == 0 {
            node.blocks_used = draw.of(&[0, 6, usize::MAX]);
        }
        let beat = if draw.yes() { node.clock.seen.saturating_add(draw.next() % 3) } else { draw.value() };
        let blocks = [(draw.number(), draw.number(), draw.value() as u32)];
        let votes = [(draw.value() as u8, draw.value() as u32, draw.number())];
        let kind = draw.of(&[0, 0, 1, 2, 2, 3, 4]);
        let slot = if kind % 2 == 0 { 0 } else { blocks[0].2 };
        let number = if kind % 2 == 0 { 0 } else { blocks[0].0 ^ draw.of(&[0, 1, UP]) };
        let count = draw.next() as usize % 2;
        let mut bytes = packet(kind, slot, number, &blocks, &votes[..count]);
        if draw.next() % 16 == 0 {
            bytes.resize(draw.of(&[4096, 4097]), 0);
        }
        let question = draw.value();
        let proposed = draw.number();
        for refusal in try_calls(&node, beat, question, proposed, &bytes) {
            refusals[refusal.unwrap_or(0) as usize] += 1;
        }
    }
    // Calls were carried out, and every refusal was met but 5. There is no 22.
    let met: Vec<usize> = (0..26).filter(|&number| refusals[number] > 0).collect();
    assert_eq!(met, [0, 1, 2, 3, 4, 6, 7, 8, 9, 10, 11, 12, 13, 14, 15, 16, 17, 18, 19, 20, 21, 23, 24, 25]);
}

#[test]
fn huge_values_alone() {
    let mut huge = Node {
        settings: Settings {
            profile: Profile::Loom,
            nodes: u64::MAX,
            own: u64::MAX,
            expiry: u64::MAX,
            depth: u64::MAX,
        },
        clock: Clock { seen: u64::MAX, done: u64::MAX, merged: u64::MAX, proposed: u64::MAX },
        blocks: vec![block(u128::MAX, u128::MAX, u64::MAX); 3],
        blocks_used: usize::MAX,
        votes: vec![vote(u64::MAX, u64::MAX, u128::MAX); 3],
        votes_used: usize::MAX,
    };
    let six = Some(6);
    let refusals = [six, six, six, six, six, six, six, six, six, six, six, Some(1), six, six, six];
    assert_eq!(try_calls(&huge, u64::MAX, u64::MAX, u128::MAX, &[255; 17]), refusals);
    huge.settings.profile = Profile::Rack;
    assert_eq!(try_calls(&huge, u64::MAX, u64::MAX, u128::MAX, &[255; 4097]), refusals);
    let mut node = fresh(64, 0, 4096, 4096);
    let (seven, no_slot, no_proposal) = (Some(7), Some(17), Some(19));
    let refusals = [
        seven,
        seven,
        seven,
        seven,
        no_slot,
        no_slot,
        no_slot,
        no_proposal,
        no_proposal,
        None,
        None,
        None,
        seven,
        no_slot,
        seven,
    ];
    assert_eq!(try_calls(&node, u64::MAX, u64::MAX, u128::MAX, &[255; 17]), refusals);
    // The last slot is used like any other.
    node.clock = Clock { seen: 3_000_000_000, done: 2_999_999_999, merged: 999_999_999, proposed: 0 };
    assert_eq!(node.propose(3_000_000_000, u128::MAX), Ok(0));
    assert_eq!(node.vote(3_000_000_001), Ok(u128::MAX));
    assert_eq!(node.merge(3_000_000_002), Ok(()));
    assert_eq!(node.deep(1_000_000_000), Ok(0));
    assert_eq!(node.head(1_000_000_000), Ok(u128::MAX));
    assert_eq!(node.merge(3_000_000_005), Err(7));
}
