//! A week's run on the largest tables, with a slot every six seconds and votes of as many slots as there are places for.
//!
//! One node makes its calls in every slot and hears the votes of all others. Before it merges slot t its table holds the votes of slots
//! t - 1 - E to t: n × (E + 2) votes, which is all 8,192 places with 64 nodes and all but two with 5. If old votes stayed, the
//! table would be full after E + 2 slots, and the run would end with a refusal 10 in slot 129 with 64 nodes, in slot 1,639 with 5.
//! Numbers have 16 bytes and packets are wide.
//!
//! A rack with 16 nodes and 63 blocks beside block 0 has an E of 3, so that its gossip is never longer than racks read.
//!
//! This prints how long a slot takes, and the memory:
//!
//! ```text
//! cargo test --release --offline --test week -- --nocapture
//! ```

use likvost::{Node, Profile, Received, Refusal, Settings, Width, LARGEST_PACKET, RACK_PACKET, VOTE_WORDS};
use std::collections::VecDeque;
use std::time::Instant;

const SLOTS: u64 = 7 * 24 * 60 * 10;
/// Slots from one look at the whole memory to the next.
const LOOK: u64 = 3_600;
/// What the process may grow by meanwhile: other tests run in it, too.
const SLACK_KB: u64 = 4_096;

/// Voter, slot and block.
type Vote = (u64, u64, u128);

/// Number, parent and slot.
type Block = (u128, u128, u64);

/// Block i has the upper half i / 2, and a lower half of 0 or 2^63.
fn number(i: u64) -> u128 {
    u128::from(i) << 63
}

/// Who votes when, and for what. Voter 0 is the node itself, the last ones are dishonest. All of it follows from the slot, so what the
/// node must answer is known.
struct Network {
    profile: Profile,
    /// For blocks and votes.
    places: (usize, usize),
    nodes: u64,
    dishonest: u64,
    expiry: u64,
    depth: u64,
    /// Slots from one block of node 0 to its next, a multiple of `nodes`. Blocks do not leave, and all of them must find places.
    pace: u64,
}

impl Network {
    fn settings(&self) -> Settings {
        Settings { profile: self.profile, nodes: self.nodes, own: 0, expiry: self.expiry, depth: self.depth }
    }

    fn open(&self) -> Node {
        Node::open(self.settings(), self.places.0, self.places.1).expect("settings and places are in range")
    }

    /// The newest block of the chain in slot t. The one of slot p is block 2 × p + 1.
    fn head(&self, t: u64) -> u128 {
        let p = t - t % self.pace;
        if p == 0 {
            0
        } else {
            number(2 * p + 1)
        }
    }

    fn deep(&self, t: u64) -> u128 {
        self.head(t.saturating_sub(self.depth))
    }

    /// The newest rival. Every fourth block has one, which stands beside it and comes in the next slot. Its number is smaller, so votes alone
    /// keep the head off it.
    fn rival(&self, t: u64) -> Option<Block> {
        let p = t.saturating_sub(1) / (4 * self.pace) * (4 * self.pace);
        (p > 0).then(|| (number(2 * p), self.head(p - 1), p + 1))
    }

    /// Honest voters by turns.
    fn honest(&self, turn: u64) -> u64 {
        1 + turn % (self.nodes - self.dishonest - 1)
    }

    /// In every thirteenth slot the last voter votes twice. An honest one sleeps then, so the slot has n votes all the same.
    fn sleeper(&self, t: u64) -> Option<u64> {
        (t % 13 == 5 && self.rival(t).is_some()).then(|| self.honest(t / 13))
    }

    /// In every seventh slot the vote of an honest voter comes one or two slots late.
    fn late(&self, t: u64) -> Option<(u64, u64)> {
        let voter = self.honest(t / 7);
        (t % 7 == 3 && self.sleeper(t) != Some(voter)).then_some((voter, 1 + t % 2))
    }

    /// The votes of others that come in slot t.
    fn votes(&self, t: u64, votes: &mut Vec<Vote>) {
        votes.clear();
        for slot in t.saturating_sub(2).max(1)..t {
            votes.extend(self.late(slot).filter(|&(_, by)| slot + by == t).map(|(voter, _)| (voter, slot, self.head(slot))));
        }
        let first_dishonest = self.nodes - self.dishonest;
        let missing = [self.sleeper(t), self.late(t).map(|(voter, _)| voter)];
        votes.extend((1..first_dishonest).filter(|&voter| !missing.contains(&Some(voter))).map(|voter| (voter, t, self.head(t))));
        let block = self.rival(t).map_or(self.head(t), |(number, _, _)| number);
        votes.extend((first_dishonest..self.nodes).map(|voter| (voter, t, block)));
        votes.extend(self.sleeper(t).map(|_| (self.nodes - 1, t, self.head(t))));
    }

    /// The fast block right after Merge of t. The votes for the head are for all blocks of the chain, those for the rival for its parent and
    /// all below. With 5 nodes a late vote leaves the rival's parent, and a double vote none.
    fn fast(&self, t: u64, votes: &[Vote]) -> Option<u128> {
        let enough = |count: usize| 4 * count as u64 >= 3 * self.nodes;
        let twice = |voter: u64| self.sleeper(t).is_some() && voter == self.nodes - 1;
        let count = |block: u128| votes.iter().filter(|&&(voter, slot, b)| slot == t && b == block && !twice(voter)).count();
        let for_head = 1 + count(self.head(t));
        match self.rival(t) {
            _ if enough(for_head) => Some(self.head(t)),
            Some((rival, parent, _)) if enough(for_head + count(rival)) => Some(parent),
            _ => None,
        }
    }
}

/// A wide gossip packet.
fn encode(packet: &mut Vec<u8>, block: Option<Block>, votes: &[Vote]) {
    packet.clear();
    packet.push(2);
    packet.extend([0; 20]);
    packet.extend(u16::from(block.is_some()).to_le_bytes());
    if let Some((number, parent, slot)) = block {
        packet.extend(number.to_le_bytes());
        packet.extend(parent.to_le_bytes());
        packet.extend((slot as u32).to_le_bytes());
    }
    packet.extend((votes.len() as u16).to_le_bytes());
    for (voter, slot, number) in votes {
        packet.push(*voter as u8);
        packet.extend((*slot as u32).to_le_bytes());
        packet.extend(number.to_le_bytes());
    }
}

/// The resident memory of the process, where the system tells.
fn resident_kb() -> Option<u64> {
    let status = std::fs::read_to_string("/proc/self/status").ok()?;
    status.lines().find_map(|line| line.strip_prefix("VmRSS:"))?.trim().strip_suffix(" kB")?.parse().ok()
}

/// The vote table holds these votes in view, in this order, and zeros behind them.
fn check_votes(node: &Node, kept: &VecDeque<Vote>) {
    let (used, unused) = node.memory().votes.split_at(VOTE_WORDS * node.memory().votes_used);
    let rows = kept.iter().map(|&(voter, slot, number)| [voter, slot, number as u64, (number >> 64) as u64, 1]);
    assert!(used.chunks_exact(VOTE_WORDS).eq(rows));
    assert!(unused.iter().all(|word| *word == 0));
}

/// A fresh node that receives the gossip has the whole store: it writes the same bytes. It is opened in the memory of another.
fn check_gossip(node: &Node, other: Node, buffers: &mut [Vec<u8>; 2]) -> Node {
    let mut memory = other.into_memory();
    Node::open_in(node.settings(), &mut memory).expect("settings and places are in range");
    let mut fresh = Node::from_memory(node.settings(), memory);
    let [gossip, again] = buffers;
    let length = node.write(false, Width::Wide, gossip).expect("the largest packet fits");
    assert!(node.settings().profile == Profile::Loom || length <= RACK_PACKET);
    let (new_blocks, new_votes) = (node.memory().blocks_used as u64 - 1, node.memory().votes_used as u64);
    let received = fresh.receive(node.memory().clock.seen, &gossip[..length]);
    assert_eq!(received, Ok(Received { new_blocks, new_votes, viewed: false }));
    assert_eq!(fresh.write(false, Width::Wide, again), Ok(length));
    assert!(gossip[..length] == again[..length]);
    fresh
}

/// A node that slept since slot 3 catches up with one that has just merged slot t.
fn check_waking(network: &Network, mut node: Node, mut sleeper: Node, t: u64) {
    let gossip = node.gossip().expect("the node is sound");
    // The votes of its first slots still take places, and the others' votes fill the table. They leave at its Merge.
    assert_eq!(sleeper.receive(3 * t + 2, &gossip), Err(Refusal::TooFewPlaces));
    assert_eq!(sleeper.merge(3 * t + 2), Ok(()));
    assert_eq!(sleeper.memory().votes_used, 0);
    assert!(sleeper.receive(3 * t + 2, &gossip).is_ok());
    let next = t + 1;
    for node in [&mut node, &mut sleeper] {
        assert_eq!(node.merge(3 * next + 2), Ok(()));
        assert_eq!(node.head(next), Ok(network.head(t)));
        assert_eq!(node.deep(next), Ok(network.deep(next)));
    }
    assert!(node.gossip() == sleeper.gossip());
}

fn week(network: Network) {
    let most = (network.nodes * (network.expiry + 2)) as usize;
    let vote_places = network.places.1;
    assert!(most <= vote_places && vote_places < most + network.nodes as usize, "E is not the largest that fits");
    let (mut node, mut sleeper, mut other) = (network.open(), network.open(), network.open());
    let lent = |node: &Node| {
        let memory = node.memory();
        (memory.blocks.as_ptr(), memory.blocks.len(), memory.votes.as_ptr(), memory.votes.len())
    };
    let first_lent = lent(&node);
    let (mut votes, mut packet) = (Vec::new(), Vec::new());
    let mut buffers = [vec![0; LARGEST_PACKET], vec![0; LARGEST_PACKET]];
    // The votes that the table must hold, in the order in which they came.
    let mut kept: VecDeque<Vote> = VecDeque::with_capacity(vote_places);
    let mut peak = 0;
    let mut first_kb = None;
    let start = Instant::now();
    for t in 1..=SLOTS {
        let beat = 3 * t;
        if t % network.pace == 0 {
            assert_eq!(node.propose(beat, network.head(t)), Ok(network.head(t - 1)), "slot {t}");
        }
        assert_eq!(node.vote(beat + 1), Ok(network.head(t)), "slot {t}");
        kept.push_back((0, t, network.head(t)));

        let rival = network.rival(t).filter(|&(_, _, slot)| slot == t);
        network.votes(t, &mut votes);
        encode(&mut packet, rival, &votes);
        let all_new = Received { new_blocks: u64::from(rival.is_some()), new_votes: votes.len() as u64, viewed: false };
        assert_eq!(node.receive(beat + 1, &packet), Ok(all_new), "slot {t}");
        kept.extend(&votes);
        if t % 11 == 0 && t > network.expiry + 2 {
            // the node's own vote that left at the last Merge
            let slot = t - network.expiry - 2;
            encode(&mut packet, None, &[(0, slot, network.head(slot))]);
            let nothing_new = Received { new_blocks: 0, new_votes: 0, viewed: false };
            assert_eq!(node.receive(beat + 1, &packet), Ok(nothing_new), "slot {t}");
        }
        assert_eq!(node.memory().votes_used, kept.len(), "slot {t}");
        peak = peak.max(kept.len());

        assert_eq!(node.merge(beat + 2), Ok(()), "slot {t}");
        kept.retain(|&(_, slot, _)| slot + network.expiry >= t);
        assert_eq!(node.memory().votes_used, kept.len(), "slot {t}");
        assert_eq!(lent(&node), first_lent, "slot {t}");

        if t % 4 == 0 {
            assert_eq!(node.head(t), Ok(network.head(t)), "slot {t}");
            assert_eq!(node.deep(t), Ok(network.deep(t)), "slot {t}");
            assert_eq!(node.fast(t), Ok(network.fast(t, &votes)), "slot {t}");
            assert_eq!(node.head(t - 1), Err(Refusal::SlotOutOfRange), "slot {t}");
        }
        if t == 3 {
            let length = node.write(false, Width::Wide, &mut buffers[0]).expect("the largest packet fits");
            assert!(sleeper.receive(beat + 2, &buffers[0][..length]).is_ok());
            assert_eq!(sleeper.merge(beat + 2), Ok(()));
        }
        if t % LOOK == 0 {
            check_votes(&node, &kept);
            other = check_gossip(&node, other, &mut buffers);
            first_kb = first_kb.or_else(resident_kb);
        }
    }
    let (time, last_kb) = (start.elapsed().as_secs_f64(), resident_kb());
    println!(
        "{} nodes, E = {}: {SLOTS} slots in {time:.1} s, {:.0} µs a slot; at most {peak} votes and {} blocks",
        network.nodes,
        network.expiry,
        time * 1e6 / SLOTS as f64,
        node.memory().blocks_used,
    );
    assert_eq!(peak, most);
    check_waking(&network, node, sleeper, SLOTS);
    if let (Some(first), Some(last)) = (first_kb, last_kb) {
        println!("{} nodes: the process had {first} kB after {LOOK} slots, {last} kB at the end", network.nodes);
        assert!(last <= first + SLACK_KB);
    }
}

const LOOM_PLACES: (usize, usize) = (2_048, 8_192);

#[test]
fn five_nodes() {
    week(Network { profile: Profile::Loom, places: LOOM_PLACES, nodes: 5, dishonest: 1, expiry: 1_636, depth: 300, pace: 65 });
}

#[test]
fn sixty_four_nodes() {
    week(Network { profile: Profile::Loom, places: LOOM_PLACES, nodes: 64, dishonest: 8, expiry: 126, depth: 300, pace: 64 });
}

#[test]
fn rack() {
    // As many places for votes as an E of 3 needs. With an E of 4 the gossip of full tables would be too long.
    let gossip = |expiry: usize| 25 + 36 * 63 + 21 * 16 * (expiry + 2);
    assert!(gossip(3) <= RACK_PACKET && RACK_PACKET < gossip(4));
    week(Network { profile: Profile::Rack, places: (64, 80), nodes: 16, dishonest: 2, expiry: 3, depth: 300, pace: 126 * 16 });
}
