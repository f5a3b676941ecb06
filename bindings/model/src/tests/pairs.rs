//! Request 4: "A head, deep or fast block that may still be queried must, as long as this node has met no 10, equal the
//! one found had this node, with places enough and given the same calls and packets, never removed a vote".

use super::*;

/// What the runs did, to tell that they tried something.
#[derive(Default)]
struct Counts {
    calls: u64,
    refused: u64,
    answers: u64,
    removed: u64,
    old: u64,
    lacked_places: u64,
    narrow: u64,
    not_narrow: u64,
}

/// A node, and the same node had it never removed a vote.
struct Pair {
    node: Node,
    all: Node,
    /// Every vote that was accepted or made, in the order in which it came first.
    arrived: Vec<(u64, u64, u128)>,
}

/// A call of the node that never removes a vote: with this E no slot of these runs is old. E plays no other part in
/// Receive and Merge.
fn removing_none<T>(node: &mut Node, call: impl Fn(&mut Node) -> T) -> T {
    let expiry = std::mem::replace(&mut node.settings.expiry, 4096);
    let answer = call(node);
    node.settings.expiry = expiry;
    answer
}

impl Pair {
    fn new(nodes: u64, own: u64, expiry: u64, depth: u64, vote_places: usize) -> Pair {
        let node = places(nodes, own, expiry, depth, 256, vote_places);
        let all = places(nodes, own, expiry, depth, 256, 2048);
        Pair { node, all, arrived: Vec::new() }
    }

    /// "a slot below the last merged slot less E"
    fn is_old(&self, slot: u64) -> bool {
        (slot as i64) < self.node.clock.merged as i64 - self.node.settings.expiry as i64
    }

    /// False if this node met 10.
    fn receive(&mut self, beat: u64, bytes: &[u8], counts: &mut Counts) -> bool {
        let received = self.node.receive(beat, bytes);
        counts.calls += 1;
        if received == whole(10) {
            return false;
        }
        let by_all = removing_none(&mut self.all, |all| all.receive(beat, bytes));
        let Ok(received) = received else {
            assert_eq!(by_all, received);
            counts.refused += 1;
            return true;
        };
        let by_all = by_all.unwrap();
        let mut new = 0;
        for vote in Packet::decode(bytes).unwrap().votes {
            let vote = (u64::from(vote.voter), u64::from(vote.slot), vote.number);
            counts.old += u64::from(self.is_old(vote.1));
            if !self.arrived.contains(&vote) {
                new += u64::from(!self.is_old(vote.1));
                self.arrived.push(vote);
            }
        }
        assert_eq!(received, Received { new_votes: new, ..by_all });
        true
    }

    /// The call that is due in the beat's phase. False if this node met 10.
    fn due(&mut self, beat: u64, number: u128, counts: &mut Counts) -> bool {
        let call = |node: &mut Node| match beat % 3 {
            0 => node.propose(beat, number),
            1 => node.vote(beat),
            _ => node.merge(beat).map(|()| 0),
        };
        let votes = self.node.votes_used;
        let answer = call(&mut self.node);
        counts.calls += 1;
        if answer == Err(10) {
            return false;
        }
        let by_all = if beat % 3 == 2 { removing_none(&mut self.all, call) } else { call(&mut self.all) };
        assert_eq!(answer, by_all);
        match answer {
            Ok(head) if beat % 3 == 1 => self.arrived.push((self.node.settings.own, beat / 3, head)),
            Ok(_) => counts.removed += votes.saturating_sub(self.node.votes_used) as u64,
            Err(_) => counts.refused += 1,
        }
        true
    }

    /// Compares the tables and every answer about a slot that may be queried.
    fn compare(&self, counts: &mut Counts) {
        let (node, all) = (&self.node, &self.all);
        assert_eq!((node.clock, &node.blocks, node.blocks_used), (all.clock, &all.blocks, all.blocks_used));
        let stored: Vec<Vote> = all.votes[..all.votes_used].to_vec();
        let fields: Vec<(u64, u64, u128)> = stored.iter().map(|vote| (vote.voter, vote.slot, vote.number)).collect();
        assert_eq!(fields, self.arrived);
        let kept: Vec<Vote> = stored.into_iter().filter(|vote| !self.is_old(vote.slot)).collect();
        assert_eq!(node.votes[..node.votes_used], kept);
        assert!(node.votes[node.votes_used..].iter().all(|place| *place == NO_VOTE));
        let (merged, seen) = (node.clock.merged, node.clock.seen / 3);
        for slot in [0, merged / 2].into_iter().chain(merged.saturating_sub(1)..=seen + 1) {
            let answers = (node.head(slot), node.deep(slot), node.fast(slot));
            if slot == 0 || slot < merged || slot > seen {
                assert_eq!(answers, (Err(17), Err(17), Err(17)));
            } else {
                assert!(answers.0.is_ok() && answers.1.is_ok() && answers.2.is_ok());
                assert_eq!(answers, (all.head(slot), all.deep(slot), all.fast(slot)));
                counts.answers += 3;
            }
        }
    }

    /// The second demand: a fresh node that gets the gossip has exactly the stock. Request 8: in both widths, where
    /// narrow writing is not refused as 23.
    fn compare_gossip(&self, counts: &mut Counts) {
        let mut buffer = vec![0; 65_536];
        let blocks =
            |node: &Node| node.blocks[..node.blocks_used].iter().map(|b| (b.number, b.parent, b.slot)).collect();
        let votes = |node: &Node| node.votes[..node.votes_used].iter().map(|v| (v.voter, v.slot, v.number)).collect();
        let stock = |node: &Node| -> (Vec<(u128, u128, u64)>, Vec<(u64, u64, u128)>) { (blocks(node), votes(node)) };
        let old = stock(&self.node).0.iter().all(|block| block.0 < UP);
        for wide in [false, true] {
            let length = self.node.write(false, wide, &mut buffer);
            let Ok(length) = length else {
                assert_eq!((length, wide, old), (Err(23), false, false));
                counts.not_narrow += 1;
                continue;
            };
            let mut other = places(self.node.settings.nodes, 0, 1, 1, 256, 2048);
            other.receive(self.node.clock.seen, &buffer[..length]).unwrap();
            assert_eq!(stock(&other), stock(&self.node));
            assert!(wide || old);
            // "An old stock written wide, received as in the second demand and then written narrow"
            if wide && old {
                assert_eq!(written(&other, false), written(&self.node, false));
                counts.narrow += 1;
            }
        }
    }

    /// A packet of a dishonest node: late blocks, late and double votes, at times a proposal, at times a wrong entry.
    fn dishonest(&self, beat: u64, number: u128, draw: &mut Draw) -> Vec<u8> {
        let slot = beat / 3;
        let clock = self.node.clock;
        let mut known: Vec<(u128, u64)> =
            self.node.blocks[..self.node.blocks_used].iter().map(|block| (block.number, block.slot)).collect();
        let proposal = draw.next() % 3 == 0;
        let mut blocks = Vec::new();
        if proposal || draw.next() % 3 == 0 {
            let (parent, parent_slot) = if draw.yes() { (0, 0) } else { draw.of(&known) };
            let early = parent_slot + 1 + draw.next() % 2;
            let block_slot = if proposal { slot } else { early };
            blocks.push((number, parent, block_slot as u32));
            if !proposal {
                known.push((number, block_slot));
            }
        }
        let mut votes = Vec::new();
        for _ in 0..draw.next() % 4 {
            let voter = draw.next() % self.node.settings.nodes + u64::from(draw.next() % 64 == 0);
            // Near the slots that may just be old, or anywhere.
            let near = (clock.merged + draw.next() % 4).saturating_sub(self.node.settings.expiry + 2);
            let vote_slot = if draw.yes() { near } else { 1 + draw.next() % slot };
            // Mostly a block that the vote may be for, the last ones rather.
            let allowed: Vec<(u128, u64)> =
                known.iter().copied().filter(|block| block.1 <= vote_slot || draw.next() % 256 == 0).collect();
            if let Some(&last) = allowed.last() {
                let (block, _) = if draw.yes() { last } else { draw.of(&allowed) };
                if vote_slot > 0 || draw.next() % 16 == 0 {
                    votes.push((voter as u8, vote_slot as u32, block));
                }
            }
        }
        // At times narrow, mostly where the numbers allow it.
        let old = blocks.iter().all(|block| block.0 < UP && block.1 < UP) && votes.iter().all(|vote| vote.2 < UP);
        let wide = if old { draw.yes() } else { draw.next() % 64 != 0 };
        let (gossip, proposed) = if wide { (2, 3) } else { (0, 1) };
        if proposal {
            packet(proposed, slot as u32, number, &blocks, &votes)
        } else {
            packet(gossip, 0, 0, &blocks, &votes)
        }
    }
}

/// Some nodes that wake, sleep, send and hear, among dishonest packets. It ends early if a node meets 10. Request 8:
/// honest nodes write wide.
fn run(draw: &mut Draw, few_places: bool, upper_halves: &[u128], counts: &mut Counts) {
    let (nodes, expiry, depth) = (1 + draw.next() % 4, 1 + draw.next() % 3, 1 + draw.next() % 3);
    let vote_places = if few_places { (nodes * (expiry + 3) + 40) as usize } else { 2048 };
    let mut pairs: Vec<Pair> = (0..nodes).map(|own| Pair::new(nodes, own, expiry, depth, vote_places)).collect();
    let mut made = 0;
    // Numbers differ, and later blocks have smaller numbers as often as greater ones.
    let mut number = |draw: &mut Draw| {
        made += 1;
        u128::from(draw.next() % 50 * 10_000 + made) + UP * draw.of(upper_halves)
    };
    let mut slot = 0;
    for _ in 0..18 {
        // At times nothing happens for some slots, or the same beats come again and are refused.
        slot += if draw.next() % 8 == 0 { draw.next() % 6 } else { 1 };
        let awake: Vec<bool> = pairs.iter().map(|_| draw.next() % 4 != 0).collect();
        for beat in 3 * slot..3 * slot + 3 {
            if beat < 3 {
                continue;
            }
            for at in 0..pairs.len() {
                if awake[at] {
                    if !pairs[at].due(beat, number(draw), counts) {
                        counts.lacked_places += 1;
                        return;
                    }
                    pairs[at].compare(counts);
                    if beat % 3 == 2 {
                        pairs[at].compare_gossip(counts);
                    }
                }
            }
            for _ in 0..3 * pairs.len() {
                let at = draw.next() as usize % pairs.len();
                let from = draw.next() as usize % pairs.len();
                let mut buffer = [0; 65_536];
                let bytes = match pairs[from].node.write(draw.next() % 3 == 0, true, &mut buffer) {
                    Ok(length) if draw.yes() => buffer[..length].to_vec(),
                    _ => pairs[at].dishonest(beat, number(draw), draw),
                };
                if !pairs[at].receive(beat, &bytes, counts) {
                    counts.lacked_places += 1;
                    return;
                }
                pairs[at].compare(counts);
            }
        }
    }
}

#[test]
fn removing_changes_no_answer() {
    let mut draw = Draw(4);
    let mut counts = Counts::default();
    for round in 0..16 {
        // Request 8: half of the runs have numbers of both widths.
        let upper_halves: &[u128] = if round % 4 < 2 { &[0] } else { &[0, 1, 1 << 63] };
        run(&mut draw, round % 2 == 0, upper_halves, &mut counts);
    }
    let Counts { calls, refused, answers, removed, old, lacked_places, narrow, not_narrow } = counts;
    assert!(calls > 4000 && refused < calls / 3 && answers > 10_000);
    assert!(removed > 1000 && old > 1000);
    assert!(lacked_places > 0 && lacked_places < 8);
    assert!(narrow > 100 && not_narrow > 100);
}
