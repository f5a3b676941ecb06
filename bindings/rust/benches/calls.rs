//! How long each call takes, for the proved library and for the model, beside one pass that only reads both tables.
//!
//! `cargo bench --offline` prints the tables of docs/PERFORMANCE.md.

mod common;

use common::{micros, Run};
use likvost::{Clock, Memory, Node, Profile, Settings, Width, BLOCK_WORDS, RACK_PACKET, VOTE_WORDS};
use likvost_model as model;
use std::hint::black_box;
use std::time::{Duration, Instant};

/// Blocks and votes that the tables have places for.
const SIZES: [(usize, usize); 3] = [(64, 256), (512, 1_024), (2_048, 8_192)];
const NODES: [u64; 2] = [5, 64];
/// A rack's largest tables, and those with as many votes as its gossip may have.
const RACK_SIZES: [(usize, usize); 2] = [(64, 256), (64, 80)];
const RACK_NODES: u64 = 16;
/// The number of the next slot's block.
const NEXT: u128 = (1 << 64) + (1 << 40);

/// What stands in the tables.
#[derive(Clone, Copy, PartialEq)]
enum Kind {
    /// There is a block for each slot, on the one before, and each sixteenth on the one before that; every node votes in the last slots
    /// for the block of that slot. What is of the last eighth of these slots waits. Expiry is such that no vote is old, and that those of
    /// the first of these slots leave at the next Merge, as on a node that merges every slot. All numbers have one upper half, and their
    /// lower halves count the slots.
    Honest,
    /// The same with every block on block 0.
    Fan,
    /// The honest blocks, and few voters, each with a vote for every block in the last slot: votes that differ in the lowest bits of a
    /// number alone.
    FewVoters,
    /// The same with numbers that make the indices slowest: by crates/index/specs/Keys they share a root and all digits but those of the
    /// highest bits. The low digits are a sum of both halves, which is 0 here, so a descent meets up to 58 blocks.
    Chosen,
    /// The same blocks, and one voter with votes for block 0, in slots that differ in their highest bits alone: the slots that make the
    /// index by voter and slot slowest. Only a node that has not merged for long holds such votes, so this one never did. It is not
    /// joined, and all votes but the last leave at its Merge.
    ChosenSlots,
}

/// A node whose tables hold so many blocks and votes. The last slot was merged, and the next is the node's own.
struct Case {
    settings: Settings,
    memory: Memory,
    last: u64,
}

impl Case {
    fn new(profile: Profile, kind: Kind, nodes: u64, places: (usize, usize), used: (usize, usize)) -> Case {
        let honest = kind == Kind::Honest || kind == Kind::Fan;
        let last_block = used.0 as u64 - 1;
        let voted = if honest { (used.1 as u64).div_ceil(nodes) } else { 1 };
        let chosen_slot = |i: u64| (i + 1) << 16;
        let last_vote = if kind == Kind::ChosenSlots { chosen_slot(used.1 as u64 - 1) } else { voted };
        let last = last_block.max(last_vote);
        let shown = if honest { last - voted / 8 } else { last };
        let mark = |slot: u64| u64::from(slot <= shown);
        // lower half, upper half
        let number = |slot: u64| match kind {
            _ if slot == 0 => [0, 0],
            Kind::Honest | Kind::Fan | Kind::FewVoters => [slot, 1],
            Kind::Chosen | Kind::ChosenSlots => {
                let lower = slot << 53;
                [lower, lower.wrapping_add(lower / 128 + lower / 8192).wrapping_neg()]
            }
        };
        let mut blocks = vec![0, 0, 0, 0, 0, 1];
        for slot in 1..=last_block {
            let parent = match kind {
                Kind::Fan => 0,
                _ if slot % 16 == 0 => slot - 2,
                _ => slot - 1,
            };
            let ([number, number_upper], [parent, parent_upper]) = (number(slot), number(parent));
            blocks.extend([number, number_upper, parent, parent_upper, slot, mark(slot)]);
        }
        let mut votes = Vec::new();
        for i in 0..used.1 as u64 {
            let [voter, slot, block] = match kind {
                Kind::Honest | Kind::Fan => {
                    // all nodes vote in the last slot, so there is a fast block; the first slot may have fewer votes
                    let behind = used.1 as u64 - 1 - i;
                    let slot = last - behind / nodes;
                    [nodes - 1 - behind % nodes, slot, slot.min(last_block)]
                }
                Kind::FewVoters | Kind::Chosen => [i / used.0 as u64, last, i % used.0 as u64],
                Kind::ChosenSlots => [0, chosen_slot(i), 0],
            };
            let [number, number_upper] = number(block);
            votes.extend([voter, slot, number, number_upper, mark(slot)]);
        }
        blocks.resize(BLOCK_WORDS * places.0, 0);
        votes.resize(VOTE_WORDS * places.1, 0);
        let seen = 3 * last + 2;
        let clock = match kind {
            Kind::ChosenSlots => Clock { seen, done: 2, merged: 0, proposed: 0 },
            _ => Clock { seen, done: seen, merged: last, proposed: last },
        };
        let expiry = if honest { voted - 1 } else { 64 };
        Case {
            settings: Settings { profile, nodes, own: (last + 1) % nodes, expiry, depth: 32 },
            memory: Memory { blocks, votes, blocks_used: used.0, votes_used: used.1, clock },
            last,
        }
    }

    /// The memory that a call is made on. A packet is all new to a fresh node; questions are asked right after a Merge, so nothing waits.
    fn memory_for(&self, call: &str) -> Memory {
        let mut memory = self.memory.clone();
        match call {
            "Receive, all entries new" | FIT | COMPARE => {
                Node::open_in(self.settings, &mut memory).expect("settings and lengths are in range");
            }
            "Head" | "Deep" | "Fast" | SETTLED => {
                memory.blocks.chunks_exact_mut(BLOCK_WORDS).take(memory.blocks_used).for_each(|row| row[BLOCK_WORDS - 1] = 1);
                memory.votes.chunks_exact_mut(VOTE_WORDS).take(memory.votes_used).for_each(|row| row[VOTE_WORDS - 1] = 1);
            }
            _ => {}
        }
        memory
    }

    /// How many votes leave at the next Merge.
    fn leaving(&self) -> usize {
        let mut node = Node::from_memory(self.settings, self.memory.clone());
        node.merge(3 * self.last + 5).expect("the case is sound");
        self.memory.votes_used - node.memory().votes_used
    }

    fn model(&self, memory: &Memory) -> model::Node {
        let (s, m, k) = (self.settings, memory, memory.clock);
        let profile = match s.profile {
            Profile::Loom => model::Profile::Loom,
            Profile::Rack => model::Profile::Rack,
        };
        let number = |lower: u64, upper: u64| u128::from(upper) << 64 | u128::from(lower);
        let block =
            |r: &[u64]| model::Block { number: number(r[0], r[1]), parent: number(r[2], r[3]), slot: r[4], in_view: r[5] == 1 };
        let vote = |r: &[u64]| model::Vote { voter: r[0], slot: r[1], number: number(r[2], r[3]), in_view: r[4] == 1 };
        model::Node {
            settings: model::Settings { profile, nodes: s.nodes, own: s.own, expiry: s.expiry, depth: s.depth },
            clock: model::Clock { seen: k.seen, done: k.done, merged: k.merged, proposed: k.proposed },
            blocks: m.blocks.chunks_exact(BLOCK_WORDS).map(block).collect(),
            blocks_used: m.blocks_used,
            votes: m.votes.chunks_exact(VOTE_WORDS).map(vote).collect(),
            votes_used: m.votes_used,
        }
    }

    /// The packets that are received. They are wide.
    fn packets(&self) -> Packets {
        let node = Node::from_memory(self.settings, self.memory.clone());
        let gossip = node.gossip().expect("the case is sound");
        let (slot, number) = ((self.last + 1) as u32, NEXT);
        let block = model::PacketBlock { number, parent: 0, slot };
        let vote = model::PacketVote { voter: 0, slot, number };
        let news = model::Packet { kind: 2, slot: 0, number: 0, blocks: vec![block], votes: vec![vote] };
        let mut proposal = model::Packet::decode(&gossip).expect("it was written");
        (proposal.kind, proposal.slot, proposal.number) = (3, slot, number);
        proposal.blocks.push(block);
        Packets { news: news.encode(), gossip, proposal: proposal.encode() }
    }
}

struct Packets {
    /// One new block and one new vote of the next slot.
    news: Vec<u8>,
    /// All entries of the tables.
    gossip: Vec<u8>,
    /// These and a new block, the next slot's proposal.
    proposal: Vec<u8>,
}

/// Settled, with node 0 silent.
const SETTLED: &str = "Settled";

/// The calls that are measured, with the arguments of their row.
const CALLS: [&str; 12] = [
    "Open",
    "Receive, one new block and vote",
    "Receive, all entries known",
    "Receive, all entries new",
    "Receive, a proposal of all entries",
    "Propose",
    "Vote",
    "Merge",
    "Head",
    "Deep",
    "Fast",
    "Write, gossip",
];

/// Questions that the proved library alone answers, on the memory and with the packet of the Receive of the same entries.
const FIT: &str = "Fit, all entries new";
const COMPARE: &str = "Compare, twice the same packet";

fn medians<const N: usize>(runs: [Run; N]) -> [Duration; N] {
    common::medians(runs, 9, Duration::from_millis(1500))
}

fn timed<T>(call: impl FnOnce() -> T) -> Duration {
    let start = Instant::now();
    black_box(call());
    start.elapsed()
}

/// One pass that reads every used word of both tables.
fn pass(case: &Case) -> Run<'_> {
    let m = &case.memory;
    Box::new(move || {
        let m = black_box(m);
        timed(|| {
            let sum = |words: &[u64]| words.iter().fold(0u64, |sum, word| sum ^ black_box(word));
            sum(&m.blocks[..BLOCK_WORDS * m.blocks_used]) ^ sum(&m.votes[..VOTE_WORDS * m.votes_used])
        })
    })
}

/// Times one call on a node, which has the same methods in the proved library and in the model, but for Open, how Write is told the width
/// and the name of the flag that a packet came into view.
macro_rules! timed_call {
    ($call:expr, $node:expr, $case:expr, $packets:expr, $wide:expr, $buffer:expr, $open:expr, $viewed:ident) => {{
        let beat = 3 * ($case.last + 1);
        let n = $node;
        match $call {
            0 => timed($open),
            1 => timed(|| assert_eq!(n.receive(beat, &$packets.news).unwrap().new_votes, 1)),
            2 => timed(|| assert_eq!(n.receive(beat, &$packets.gossip).unwrap().new_votes, 0)),
            3 => timed(|| assert_eq!(n.receive(beat, &$packets.gossip).unwrap().new_votes, $case.memory.votes_used as u64)),
            4 => timed(|| assert!(n.receive(beat, &$packets.proposal).unwrap().$viewed)),
            5 => timed(|| assert!(n.propose(beat, NEXT).is_ok())),
            6 => timed(|| assert!(n.vote(beat + 1).is_ok())),
            7 => timed(|| assert!(n.merge(beat + 2).is_ok())),
            8 => timed(|| assert!(n.head($case.last).is_ok())),
            9 => timed(|| assert!(n.deep($case.last).is_ok())),
            10 => timed(|| assert!(n.fast($case.last).is_ok())),
            _ => timed(|| assert!(n.write(false, $wide, $buffer).is_ok())),
        }
    }};
}

fn proved<'a>(case: &'a Case, call: usize, packets: &'a Packets) -> Run<'a> {
    let mut buffer = vec![0; packets.gossip.len()];
    let memory = case.memory_for(CALLS[call]);
    Box::new(move || {
        let mut node = Node::from_memory(case.settings, memory.clone());
        let mut opened = memory.clone();
        let open = || Node::open_in(case.settings, &mut opened).unwrap();
        timed_call!(call, &mut node, case, packets, Width::Wide, &mut buffer, open, viewed)
    })
}

fn settled(case: &Case) -> Run<'_> {
    let memory = case.memory_for(SETTLED);
    Box::new(move || {
        // on a copy that was just made, as every other call
        let node = Node::from_memory(case.settings, memory.clone());
        timed(|| assert!(node.settled(case.last, 1).is_ok()))
    })
}

fn fitted<'a>(case: &'a Case, packets: &'a Packets) -> Run<'a> {
    let node = Node::from_memory(case.settings, case.memory_for(FIT));
    let beat = 3 * (case.last + 1);
    Box::new(move || timed(|| assert_eq!(node.fit(beat, &packets.gossip).unwrap().bytes, packets.gossip.len() as u64)))
}

fn compared<'a>(case: &'a Case, packets: &'a Packets) -> Run<'a> {
    let node = Node::from_memory(case.settings, case.memory_for(COMPARE));
    let beat = 3 * (case.last + 1);
    Box::new(move || timed(|| assert!(node.compare(beat, &packets.gossip, &packets.gossip).is_ok())))
}

fn modelled<'a>(case: &'a Case, call: usize, packets: &'a Packets) -> Run<'a> {
    let mut buffer = vec![0; packets.gossip.len()];
    let model = case.model(&case.memory_for(CALLS[call]));
    Box::new(move || {
        let mut node = model.clone();
        let mut opened = model.clone();
        timed_call!(call, &mut node, case, packets, true, &mut buffer, || opened.open().unwrap(), brought)
    })
}

fn ratio(a: Duration, b: Duration) -> String {
    common::ratio(a.as_secs_f64(), b.as_secs_f64())
}

fn measure(profile: Profile, kind: Kind, nodes: u64, (blocks, votes): (usize, usize)) {
    // one place of each table stays free, for the calls that fill one
    let full = Case::new(profile, kind, nodes, (blocks, votes), (blocks - 1, votes - 1));
    let half = Case::new(profile, kind, nodes, (blocks, votes), (blocks / 2, votes / 2));
    let (full_packets, half_packets) = (full.packets(), half.packets());
    let [full_pass, half_pass] = medians([pass(&full), pass(&half)]);
    let chosen = match kind {
        Kind::Honest if profile == Profile::Rack => ", a rack",
        Kind::Honest => "",
        Kind::Fan => ", a fan",
        Kind::FewVoters => ", few voters",
        Kind::Chosen => ", chosen numbers",
        Kind::ChosenSlots => ", chosen slots",
    };
    println!("### {blocks} blocks, {votes} votes, {nodes} nodes{chosen}\n");
    println!("One pass over the full tables takes {} µs, over half-full ones {} µs.", micros(full_pass), micros(half_pass));
    println!("Votes that leave at Merge: {} of the full tables, {} of the half-full ones.\n", full.leaving(), half.leaving());
    println!("| Call | Proved, half | Proved, full | Grows | To the pass | Model, half | Model, full | Grows | To the pass |");
    println!("|---|---|---|---|---|---|---|---|---|");
    for (call, name) in CALLS.iter().enumerate() {
        let joined = kind != Kind::ChosenSlots || !["Propose", "Vote"].contains(name);
        // a rack does not read its full tables' packets
        let readable = profile == Profile::Loom || full_packets.proposal.len() <= RACK_PACKET || !name.contains("entries");
        if !joined || !readable {
            continue;
        }
        let [once, ph, pf, mh, mf] = medians([
            pass(&full),
            proved(&half, call, &half_packets),
            proved(&full, call, &full_packets),
            modelled(&half, call, &half_packets),
            modelled(&full, call, &full_packets),
        ]);
        println!(
            "| {name} | {} | {} | {} | {} | {} | {} | {} | {} |",
            micros(ph),
            micros(pf),
            ratio(pf, ph),
            ratio(pf, once),
            micros(mh),
            micros(mf),
            ratio(mf, mh),
            ratio(mf, once)
        );
        if *name == "Receive, all entries new" {
            let [once, fh, ff] = medians([pass(&full), fitted(&half, &half_packets), fitted(&full, &full_packets)]);
            println!("| {FIT} | {} | {} | {} | {} | | | | |", micros(fh), micros(ff), ratio(ff, fh), ratio(ff, once));
            let [once, ch, cf] = medians([pass(&full), compared(&half, &half_packets), compared(&full, &full_packets)]);
            println!("| {COMPARE} | {} | {} | {} | {} | | | | |", micros(ch), micros(cf), ratio(cf, ch), ratio(cf, once));
        }
    }
    let head = CALLS.iter().position(|name| *name == "Head").unwrap();
    let [once, sh, sf, hf] = medians([pass(&full), settled(&half), settled(&full), proved(&full, head, &full_packets)]);
    println!("| {SETTLED} | {} | {} | {} | {} | | | | |\n", micros(sh), micros(sf), ratio(sf, sh), ratio(sf, once));
    println!("On the full tables Settled takes {} times a Head.\n", ratio(sf, hf));
}

fn main() {
    for nodes in NODES {
        for size in SIZES {
            measure(Profile::Loom, Kind::Honest, nodes, size);
        }
        for kind in [Kind::Fan, Kind::FewVoters, Kind::Chosen, Kind::ChosenSlots] {
            measure(Profile::Loom, kind, nodes, SIZES[2]);
        }
    }
    for size in RACK_SIZES {
        measure(Profile::Rack, Kind::Honest, RACK_NODES, size);
    }
}
