//! How long the worst packets take to be received, for each byte, beside the largest honest packet of new entries; and to be compared.
//!
//! `cargo bench --offline --bench packets` prints a table of chosen packets, with `-- "a chain Full"` the rows that begin so, with `-- pairs`
//! those that are compared, each with itself, and with `-- search` the slowest ten that a search finds.
//!
//! `LIKVOST_MOST` limits the entries of each section in place of 65,535, or of blocks and of votes (`2047,8192`); `LIKVOST_SEED` is the search's
//! seed, `LIKVOST_SECONDS` how long it searches.
//!
//! The cost of a packet is the time of its Receive less that of an empty packet of the same width on the same memory, medians both: so the test
//! of the tables, which every call makes, is left out.

mod common;

use common::{medians, micros, ratio, Run};
use likvost::{CompareRefusal, Equivocation, Memory, Node, Profile, Received, Refusal, Settings, Width};
use likvost_model::{Packet, PacketBlock, PacketVote};
use std::collections::{BTreeMap, BTreeSet};
use std::time::{Duration, Instant, SystemTime};

/// The largest tables, block 0 included.
const PLACES: (usize, usize) = (2_048, 8_192);
const SETTINGS: Settings = Settings { profile: Profile::Loom, nodes: 64, own: 0, expiry: 4_096, depth: 32 };
/// All packets are received at the merge beat of the last slot that there is.
const SLOT: u64 = 1_000_000_000;
const BEAT: u64 = 3 * SLOT + 2;
/// Votes of lower slots are old once that slot was merged.
const KEPT: u64 = SLOT - SETTINGS.expiry;
/// Blocks are of lower slots, votes of this one and higher ones.
const VOTED: u64 = 1 << 17;
/// How many numbers are tried for each of the sought ones.
const TRIES: u64 = 1_024;
/// The number of no block.
const UNKNOWN: u128 = 0x0bad_b10c_0bad_b10d;

/// What the tables hold.
#[derive(Clone, Copy, Debug, PartialEq)]
enum Tables {
    /// Block 0.
    Fresh,
    /// As many blocks of the packet's family as there are places for.
    Blocks,
    /// The same, and as many votes: those with which the packet begins.
    Full,
    /// As many blocks and votes of its family, but none of the packet's.
    Others,
    /// The same blocks, and as many votes of the last slots. The last slot was merged, and all votes of the packet are old.
    Merged,
}

impl Tables {
    /// Rows in use.
    fn used(self) -> (usize, usize) {
        match self {
            Tables::Fresh => (1, 0),
            Tables::Blocks => (PLACES.0, 0),
            Tables::Full | Tables::Others | Tables::Merged => PLACES,
        }
    }
}

/// The numbers of blocks 1, 2, ..: of `x = i * factor << shift`, or of random ones if the factor is 0. The factor is odd, and the shift is lowered
/// until numbers differ. A narrow number is x.
#[derive(Clone, Copy, Debug, PartialEq)]
struct Numbers {
    factor: u64,
    shift: u32,
    halves: Halves,
}

/// The halves of a wide number.
#[derive(Clone, Copy, Debug, PartialEq)]
enum Halves {
    /// The lower half is x, the upper half 1.
    Lower,
    /// The upper half is x, the lower half 0.
    Upper,
    Both,
    /// The lower half is x, and the sum of both is 0.
    Sum,
    /// The lower half is x, and the sum that crates/index/specs/Keys makes of both is 0.
    KeySum,
}

/// What the blocks stand on.
#[derive(Clone, Copy, Debug, PartialEq)]
enum Parents {
    /// The block before.
    Previous,
    /// Block 0.
    Zero,
    /// Any earlier block.
    Earlier,
    /// The block before, and those for which the tables have no place on the last that has one.
    Last,
}

/// Which of the blocks that a vote may be for it is for.
#[derive(Clone, Copy, Debug, PartialEq)]
enum Voted {
    First,
    Last,
    /// The last 64 in turn.
    Late,
    InTurn,
    /// In turn, one in each slot.
    OfSlot,
    Random,
}

/// The order of the packet's votes, and of its blocks where these stand on block 0.
#[derive(Clone, Copy, Debug, PartialEq)]
enum Order {
    Up,
    Down,
    Mixed,
}

impl Order {
    fn put<T>(self, entries: &mut [T]) {
        match self {
            Order::Up => {}
            Order::Down => entries.reverse(),
            Order::Mixed => (1..entries.len()).for_each(|i| entries.swap(i, mixed(i as u64) as usize % (i + 1))),
        }
    }
}

/// An entry that breaks a rule: the last of its section, which names a block that nobody knows.
#[derive(Clone, Copy, Debug, PartialEq)]
enum Bad {
    No,
    Block,
    Vote,
}

/// A packet, and the tables of the node that receives it.
#[derive(Clone, Copy, Debug, PartialEq)]
struct Family {
    width: Width,
    tables: Tables,
    /// How many blocks the packet has, and how many of them are different: these in order, then again from the first.
    blocks: (usize, usize),
    /// The same of votes.
    votes: (usize, usize),
    numbers: Numbers,
    parents: Parents,
    /// Every voter below this one votes in every slot, ...
    voters: u64,
    /// ... for so many blocks, each of a part of the known ones, ...
    choices: u64,
    /// ... for this block of each part.
    voted: Voted,
    /// The slots of votes differ by multiples of 2 to this power, or to the highest by which they stay low enough.
    slot_shift: u32,
    order: Order,
    bad: Bad,
}

const COUNTED: Numbers = Numbers { factor: 1, shift: 0, halves: Halves::Lower };
const HIGH_BITS: Numbers = Numbers { factor: 1, shift: 48, halves: Halves::Upper };
/// As in the benchmark of calls. 2,047 of them fit, of more the shift is lower.
const CHOSEN: Numbers = Numbers { factor: 1, shift: 53, halves: Halves::KeySum };

/// For votes in slots that differ by multiples of 2^13: the sum that crates/index/specs/Keys makes of number and slot is the same for all votes.
const ONE_SUM: Numbers = Numbers { factor: u64::MAX, shift: 6, halves: Halves::Lower };

/// An empty packet. The rows of the table say in what they differ.
const FAMILY: Family = Family {
    width: Width::Wide,
    tables: Tables::Fresh,
    blocks: (0, 0),
    votes: (0, 0),
    numbers: COUNTED,
    parents: Parents::Previous,
    voters: SETTINGS.nodes,
    choices: 1,
    voted: Voted::Last,
    slot_shift: 0,
    order: Order::Up,
    bad: Bad::No,
};

/// A number of 64 bits for each i, another for another (splitmix64).
fn mixed(i: u64) -> u64 {
    let i = i.wrapping_mul(0x9e37_79b9_7f4a_7c15);
    let i = (i ^ (i >> 30)).wrapping_mul(0xbf58_476d_1ce4_e5b9);
    let i = (i ^ (i >> 27)).wrapping_mul(0x94d0_49bb_1331_11eb);
    i ^ (i >> 31)
}

/// The digits by which a key of four words goes its way in an index, the first in the lowest bit: crates/mixing/specs.
fn digits_of(key: [u64; 4]) -> u64 {
    let mut v = [
        key[0] ^ 0x736f_6d65_7073_6575,
        key[1] ^ 0x646f_7261_6e64_6f6d,
        key[2] ^ 0x6c79_6765_6e65_7261,
        key[3] ^ 0x7465_6462_7974_6573,
    ];
    for _ in 0..4 {
        v[0] = v[0].wrapping_add(v[1]);
        v[2] = v[2].wrapping_add(v[3]);
        v[1] = v[1].rotate_left(13) ^ v[0];
        v[3] = v[3].rotate_left(16) ^ v[2];
        v[0] = v[0].rotate_left(32).wrapping_add(v[3]);
        v[2] = v[2].wrapping_add(v[1]);
        v[3] = v[3].rotate_left(21) ^ v[0];
        v[1] = v[1].rotate_left(17) ^ v[2];
        v[2] = v[2].rotate_left(32);
    }
    v[0] ^ v[2]
}

/// Those of a block's number, and of a vote.
fn digits(number: u128) -> u64 {
    let (lower, upper) = (number as u64, (number >> 64) as u64);
    digits_of([lower, lower, lower, upper])
}

fn vote_digits(vote: &PacketVote) -> u64 {
    digits_of([vote.number as u64, u64::from(vote.slot), u64::from(vote.voter), (vote.number >> 64) as u64])
}

fn encode(width: Width, blocks: Vec<PacketBlock>, votes: Vec<PacketVote>) -> Vec<u8> {
    let kind = if width == Width::Wide { 2 } else { 0 };
    Packet { kind, slot: 0, number: 0, blocks, votes }.encode()
}

fn fresh() -> Node {
    Node::open(SETTINGS, PLACES.0, PLACES.1).expect("settings and lengths are in range")
}

fn received(new_blocks: usize, new_votes: usize) -> Result<Received, Refusal> {
    Ok(Received { new_blocks: new_blocks as u64, new_votes: new_votes as u64, viewed: false })
}

fn different<T: Ord>(entries: impl Iterator<Item = T>) -> usize {
    entries.collect::<BTreeSet<T>>().len()
}

impl Family {
    /// How many blocks and votes stand before the packet's.
    fn before(&self) -> (usize, usize) {
        match self.tables {
            Tables::Others => (PLACES.0 - 1, PLACES.1),
            _ => (0, 0),
        }
    }

    /// Blocks that the votes may be for: block 0, the tables' and the packet's.
    fn known(&self) -> u64 {
        self.tables.used().0.max(1 + self.before().0 + self.blocks.1) as u64
    }

    /// The shift by which numbers differ, ...
    fn number_shift(&self) -> u32 {
        let last = self.known().max(PLACES.0 as u64) - 1;
        self.numbers.shift.min(last.leading_zeros())
    }

    /// ... and the one by which slots stay low enough.
    fn slot_shift(&self, choices: u64) -> u32 {
        let votes = (self.before().1 + self.votes.1).max(PLACES.1) as u64;
        let slots = votes.div_ceil(choices * self.voters);
        self.slot_shift.min(((KEPT - VOTED) / slots).ilog2())
    }

    fn number(&self, i: u64) -> u128 {
        let Numbers { factor, halves, .. } = self.numbers;
        let x = match factor {
            _ if i == 0 => return 0,
            0 => mixed(i),
            factor => i.wrapping_mul(factor) << self.number_shift(),
        };
        let (lower, upper) = match halves {
            _ if self.width == Width::Narrow => (x, 0),
            Halves::Lower => (x, 1),
            Halves::Upper => (0, x),
            Halves::Both => (x, x),
            Halves::Sum => (x, x.wrapping_neg()),
            Halves::KeySum => (x, x.wrapping_add(x / 128 + x / 8192).wrapping_neg()),
        };
        u128::from(upper) << 64 | u128::from(lower)
    }

    fn block(&self, i: usize) -> PacketBlock {
        let i = i as u64;
        let parent = match self.parents {
            Parents::Previous => i - 1,
            Parents::Zero => 0,
            Parents::Earlier => mixed(i) % i,
            Parents::Last => (i - 1).min(PLACES.0 as u64 - 1),
        };
        PacketBlock { number: self.number(i), parent: self.number(parent), slot: i as u32 }
    }

    /// Two votes differ in voter or slot, or are for blocks of two parts of the known ones.
    fn vote(&self, j: usize, known: u64, from: u64) -> PacketVote {
        let choices = self.choices.min(known);
        let (part, turn) = (j as u64 % choices, j as u64 / choices);
        let size = known / choices;
        let block = match self.voted {
            Voted::First => 0,
            Voted::Last => size - 1,
            Voted::Late => size - 1 - turn % size.min(64),
            Voted::InTurn => turn % size,
            Voted::OfSlot => turn / self.voters % size,
            Voted::Random => mixed(turn) % size,
        };
        let slot = from + ((turn / self.voters) << self.slot_shift(choices));
        PacketVote { voter: (turn % self.voters) as u8, slot: slot as u32, number: self.number(part * size + block) }
    }

    fn packet(&self) -> Vec<u8> {
        let (b, v) = self.before();
        let mut blocks: Vec<_> = (0..self.blocks.0).map(|i| self.block(1 + b + i % self.blocks.1)).collect();
        let mut votes: Vec<_> = (0..self.votes.0).map(|j| self.vote(v + j % self.votes.1, self.known(), VOTED)).collect();
        assert_eq!(different(blocks.iter().map(|block| block.number)), self.blocks.1);
        assert_eq!(different(votes.iter().map(|vote| (vote.voter, vote.slot, vote.number))), self.votes.1);
        self.order.put(&mut votes);
        if self.parents == Parents::Zero {
            self.order.put(&mut blocks);
        }
        match self.bad {
            Bad::No => {}
            Bad::Block => blocks.last_mut().expect("there is one").parent = UNKNOWN,
            Bad::Vote => votes.last_mut().expect("there is one").number = UNKNOWN,
        }
        encode(self.width, blocks, votes)
    }

    /// The memory on which it is received: a fresh node's, after it received what the tables hold.
    fn memory(&self) -> Memory {
        let (blocks, votes) = self.tables.used();
        let merged = self.tables == Tables::Merged;
        let (voting, from) = match merged {
            true => (Family { voters: SETTINGS.nodes, choices: 1, slot_shift: 0, ..*self }, KEPT),
            false => (*self, VOTED),
        };
        let votes = (0..votes).map(|j| voting.vote(j, blocks as u64, from)).collect();
        let blocks = (1..blocks).map(|i| self.block(i)).collect();
        let mut node = fresh();
        node.receive(BEAT, &encode(self.width, blocks, votes)).expect("there are places");
        if merged {
            node.merge(BEAT).expect("it is due");
        }
        assert_eq!((node.memory().blocks_used, node.memory().votes_used), self.tables.used());
        node.into_memory()
    }

    /// What Receive must answer. If the packet's votes are for more blocks than the tables hold, they are not those of the tables, but then there is
    /// no place for these blocks.
    fn answer(&self) -> Result<Received, Refusal> {
        let (used, before) = (self.tables.used(), self.before());
        let new_blocks = (1 + before.0 + self.blocks.1).saturating_sub(used.0);
        let new_votes = if self.tables == Tables::Merged { 0 } else { (before.1 + self.votes.1).saturating_sub(used.1) };
        match self.bad {
            Bad::Block => Err(Refusal::BadBlock(self.blocks.0 as u64 - 1)),
            Bad::Vote => Err(Refusal::BadVote(self.votes.0 as u64 - 1)),
            Bad::No if new_blocks > PLACES.0 - used.0 || new_votes > PLACES.1 - used.1 => Err(Refusal::TooFewPlaces),
            Bad::No => received(new_blocks, new_votes),
        }
    }

    fn case(&self) -> Case {
        Case { width: self.width, packet: self.packet(), memory: self.memory(), answer: self.answer() }
    }

    fn measure(&self, least: usize, time: Duration) -> Cost {
        self.case().measure(least, time)
    }
}

/// A packet, the memory on which it is received, and what Receive must answer.
struct Case {
    width: Width,
    packet: Vec<u8>,
    memory: Memory,
    answer: Result<Received, Refusal>,
}

impl Case {
    /// The largest gossip of an honest node, on a fresh one, as in the benchmark of calls.
    fn honest() -> Case {
        let number = |slot: u32| if slot == 0 { 0 } else { 1 << 64 | u128::from(slot) };
        let parent = |slot: u32| if slot % 16 == 0 { slot - 2 } else { slot - 1 };
        let block = |slot| PacketBlock { number: number(slot), parent: number(parent(slot)), slot };
        let vote = |j: u32| PacketVote { voter: (j % 64) as u8, slot: 1_920 + j / 64, number: number(1_920 + j / 64) };
        let packet = encode(Width::Wide, (1..2_048).map(block).collect(), (0..8_192).map(vote).collect());
        Case { width: Width::Wide, packet, memory: fresh().into_memory(), answer: received(2_047, 8_192) }
    }

    /// So many blocks that share a root (crates/index/specs/Keys), and each number the one of so many random ones that has the most digits 0 at first.
    /// Each block stands on the one before it that has the most.
    fn sought_blocks(width: Width, count: u32, tries: u64) -> Vec<PacketBlock> {
        let mut most = (0, 0);
        let mut blocks = Vec::new();
        for slot in 1..=count {
            let draw = |i: u64| {
                let i = 2 * (u64::from(slot) * tries + i);
                let upper = if width == Width::Wide { mixed(i + 1) << 13 } else { 0 };
                u128::from(upper) << 64 | u128::from(mixed(i) << 17)
            };
            let best = (0..tries).map(|i| (digits(draw(i)).trailing_zeros(), draw(i))).max().expect("there are some");
            blocks.push(PacketBlock { number: best.1, parent: most.1, slot });
            most = most.max(best);
        }
        blocks
    }

    /// As many such blocks as have a tree of their own. The answer is by the places.
    fn sought(width: Width, tries: u64) -> Case {
        let packet = encode(width, Case::sought_blocks(width, 8_192, tries), vec![]);
        Case { width, packet, memory: fresh().into_memory(), answer: Err(Refusal::TooFewPlaces) }
    }

    /// Tables that are full of such blocks, and the one that stands deepest again and again.
    fn sought_before(width: Width, tries: u64) -> Case {
        let blocks = Case::sought_blocks(width, PLACES.0 as u32 - 1, tries);
        let deepest = *blocks.iter().max_by_key(|block| digits(block.number).trailing_zeros()).expect("there are some");
        let mut node = fresh();
        let stored = node.receive(BEAT, &encode(width, blocks, vec![]));
        assert_eq!(stored, received(PLACES.0 - 1, 0));
        let packet = encode(width, vec![deepest; usize::from(u16::MAX)], vec![]);
        Case { width, packet, memory: node.into_memory(), answer: received(0, 0) }
    }

    /// Tables that are full of such blocks, and as many others as have a tree of their own.
    fn sought_others(width: Width, tries: u64) -> Case {
        let mut blocks = Case::sought_blocks(width, PLACES.0 as u32 - 1 + 8_192, tries);
        let later = blocks.split_off(PLACES.0 - 1);
        let mut node = fresh();
        assert_eq!(node.receive(BEAT, &encode(width, blocks, vec![])), received(PLACES.0 - 1, 0));
        Case { width, packet: encode(width, later, vec![]), memory: node.into_memory(), answer: Err(Refusal::TooFewPlaces) }
    }

    /// Tables full of votes of one voter that share a root and as many digits as can be had, and a packet of as many others. Of all slots with that root
    /// and all blocks, those votes are taken that have the most digits 0 at first.
    fn sought_votes(width: Width) -> Case {
        let blocks = Case::sought_blocks(width, PLACES.0 as u32 - 1, 1);
        let slots = (1..).map(|k| k << 17).take_while(|slot| *slot <= 1_000_000_000u32);
        let all = slots.flat_map(|slot| blocks.iter().map(move |block| PacketVote { voter: 0, slot, number: block.number }));
        let mut votes: Vec<PacketVote> = all.filter(|vote| vote_digits(vote).trailing_zeros() >= 9).collect();
        votes.sort_by_key(|vote| std::cmp::Reverse(vote_digits(vote).trailing_zeros()));
        votes.truncate(2 * PLACES.1);
        let before = votes.iter().step_by(2).cloned().collect();
        let later = votes.iter().skip(1).step_by(2).cloned().collect();
        let mut node = fresh();
        assert_eq!(node.receive(BEAT, &encode(width, blocks, before)), received(PLACES.0 - 1, PLACES.1));
        Case { width, packet: encode(width, vec![], later), memory: node.into_memory(), answer: Err(Refusal::TooFewPlaces) }
    }

    /// Receives the packet on a copy of the memory.
    fn receive<'a>(&'a self, packet: &'a [u8], answer: Result<Received, Refusal>) -> Run<'a> {
        Box::new(move || {
            let mut node = Node::from_memory(SETTINGS, self.memory.clone());
            let start = Instant::now();
            let received = node.receive(BEAT, packet);
            let time = start.elapsed();
            assert_eq!(received, answer);
            time
        })
    }

    /// Measures the packet and the honest one in turn, `least` times and until `time` is over.
    fn measure(&self, least: usize, time: Duration) -> Cost {
        let honest = Case::honest();
        let [empty, honest_empty] = [self, &honest].map(|case| encode(case.width, vec![], vec![]));
        let runs = [
            self.receive(&self.packet, self.answer),
            self.receive(&empty, received(0, 0)),
            honest.receive(&honest.packet, honest.answer),
            honest.receive(&honest_empty, received(0, 0)),
        ];
        let [with, without, honest_with, honest_without] = medians(runs, least, time);
        let for_byte = |time: Duration, case: &Case| time.as_secs_f64() * 1e9 / case.packet.len() as f64;
        let (time, honest_time) = (with.saturating_sub(without), honest_with.saturating_sub(honest_without));
        let (for_byte, honest_for_byte) = (for_byte(time, self), for_byte(honest_time, &honest));
        Cost { bytes: self.packet.len(), time, for_byte, to_honest: for_byte / honest_for_byte.max(1e-9) }
    }
}

#[derive(Clone, Copy)]
struct Cost {
    bytes: usize,
    time: Duration,
    /// Nanoseconds for each byte, ...
    for_byte: f64,
    /// ... and how many times those of the honest packet, which was measured meanwhile.
    to_honest: f64,
}

impl Cost {
    const HEAD: &'static str = "Bytes | µs | ns for a byte | To honest |";

    fn row(&self) -> String {
        format!("{} | {} | {:.2} | {} |", self.bytes, micros(self.time), self.for_byte, ratio(self.to_honest, 1.0))
    }
}

/// A count, and how many of them are different.
fn count((all, different): (usize, usize)) -> String {
    if all == different {
        all.to_string()
    } else {
        format!("{all} ({different})")
    }
}

fn answer(answer: Result<Received, Refusal>) -> String {
    match answer {
        Ok(received) => format!("{} and {} new", received.new_blocks, received.new_votes),
        Err(refusal) => refusal.index().map_or(refusal.number().to_string(), |index| format!("{} at {index}", refusal.number())),
    }
}

/// How long a row of the table is measured.
const ROW: Duration = Duration::from_millis(500);

/// The worst packets that we know, of those whose first three columns begin so.
fn table(most: (usize, usize), part: &str) {
    use Tables::{Blocks, Fresh, Full, Merged, Others};
    let (b, v) = most;
    let (few_b, few_v) = (b.min(PLACES.0 - 1), v.min(PLACES.1));
    let chain = Family { blocks: (b, b), ..FAMILY };
    let fan = Family { parents: Parents::Zero, ..chain };
    let votes = Family { votes: (v, v), ..FAMILY };
    let each = Family { choices: u64::MAX, ..votes };
    let both = Family { blocks: (b, b), votes: (v, v), ..FAMILY };
    let chosen = Family { numbers: CHOSEN, choices: u64::MAX, ..FAMILY };
    let slots = Family { numbers: CHOSEN, blocks: (few_b, few_b), voters: 1, voted: Voted::First, slot_shift: 16, ..FAMILY };
    let sum = Family { numbers: ONE_SUM, voters: 1, voted: Voted::OfSlot, slot_shift: 13, order: Order::Mixed, ..FAMILY };
    let (empty_or_full, all) = ([Fresh, Full], [Fresh, Full, Others]);
    let rows: Vec<(&str, &[Tables], Family)> = vec![
        ("a chain", &empty_or_full, chain),
        ("blocks on block 0", &empty_or_full, fan),
        ("votes for one block", &empty_or_full, votes),
        ("one vote", &empty_or_full, Family { votes: (v, 1), ..votes }),
        ("votes for blocks in turn", &[Blocks, Full], Family { voted: Voted::InTurn, ..votes }),
        ("votes for every block in a slot", &[Blocks, Full], each),
        ("a chain and votes", &empty_or_full, Family { voted: Voted::InTurn, ..both }),
        ("blocks on block 0 and votes", &empty_or_full, Family { parents: Parents::Zero, voted: Voted::InTurn, ..both }),
        ("the last vote bad", &empty_or_full, Family { voted: Voted::InTurn, bad: Bad::Vote, ..both }),
        ("the last block bad", &empty_or_full, Family { voted: Voted::InTurn, bad: Bad::Block, ..both }),
        ("highest bits, a chain", &empty_or_full, Family { numbers: HIGH_BITS, ..chain }),
        ("highest bits, on block 0", &empty_or_full, Family { numbers: HIGH_BITS, ..fan }),
        ("highest bits, a chain and votes", &empty_or_full, Family { numbers: HIGH_BITS, choices: u64::MAX, ..both }),
        ("chosen numbers, as many as places", &all, Family { blocks: (few_b, few_b), votes: (few_v, few_v), ..chosen }),
        ("chosen numbers, a chain", &empty_or_full, Family { blocks: (b, b), ..chosen }),
        ("chosen numbers, votes", &[Blocks, Full, Others], Family { votes: (v, v), ..chosen }),
        ("chosen numbers, a chain and votes", &all, Family { blocks: (b, b), votes: (v, v), ..chosen }),
        ("chosen numbers, again and again", &empty_or_full, Family { blocks: (b, few_b), votes: (v, few_v), ..chosen }),
        ("chosen slots, as many as places", &all, Family { votes: (few_v, few_v), ..slots }),
        ("chosen slots", &all, Family { votes: (v, v), ..slots }),
        ("one sum, as many as places", &all, Family { blocks: (few_b, few_b), votes: (few_v, few_v), ..sum }),
        ("one sum, votes", &[Blocks, Full, Others], Family { votes: (v, v), ..sum }),
        ("one sum, a chain and votes", &all, Family { blocks: (b, b), votes: (v, v), ..sum }),
        ("one sum, again and again", &empty_or_full, Family { blocks: (b, few_b), votes: (v, few_v), ..sum }),
        ("one block", &empty_or_full, Family { blocks: (b, 1), ..chain }),
        ("blocks again and again", &empty_or_full, Family { blocks: (b, few_b), ..chain }),
        ("votes again and again", &empty_or_full, Family { votes: (v, few_v), ..votes }),
        ("both again and again", &empty_or_full, Family { blocks: (b, few_b), votes: (v, few_v), voted: Voted::InTurn, ..both }),
        ("old votes", &[Merged], Family { voted: Voted::InTurn, ..votes }),
        ("old votes for every block", &[Merged], each),
        ("old votes, one sum", &[Merged], Family { votes: (v, v), ..sum }),
        ("old votes, chosen numbers", &[Merged], Family { votes: (v, v), ..chosen }),
    ];
    println!("| Packet | Tables | Width | Blocks | Votes | Answer | {}", Cost::HEAD);
    println!("|---|---|---|---|---|---|---|---|---|---|");
    println!("| honest | Fresh | Wide | 2047 | 8192 | 2047 and 8192 new | {}", Case::honest().measure(9, ROW).row());
    for (name, all_tables, family) in rows {
        for &tables in all_tables {
            for width in [Width::Narrow, Width::Wide] {
                if !format!("{name} {tables:?} {width:?}").starts_with(part) {
                    continue;
                }
                let family = Family { width, tables, ..family };
                let cost = family.measure(9, ROW);
                let (blocks, votes) = (count(family.blocks), count(family.votes));
                println!("| {name} | {tables:?} | {width:?} | {blocks} | {votes} | {} | {}", answer(family.answer()), cost.row());
            }
        }
    }
    for width in [Width::Narrow, Width::Wide] {
        for (name, tables, blocks, votes, case) in [
            ("sought numbers", "Fresh", "8192", "0", Case::sought as fn(Width, u64) -> Case),
            ("sought numbers before", "Full", "65535 (1)", "0", Case::sought_before),
            ("sought numbers", "Others", "8192", "0", Case::sought_others),
            ("sought votes", "Others", "0", "8192", |width, _| Case::sought_votes(width)),
        ] {
            if name.starts_with(part) {
                let case = case(width, TRIES);
                println!(
                    "| {name} | {tables} | {width:?} | {blocks} | {votes} | {} | {}",
                    answer(case.answer),
                    case.measure(9, ROW).row()
                );
            }
        }
    }
}

// ---- two packets compared

/// What Compare must answer for a packet that is held against itself.
fn doubled(packet: &[u8]) -> Option<Equivocation> {
    let mut voted: BTreeMap<(u64, u64), Vec<u128>> = BTreeMap::new();
    for vote in Packet::decode(packet).expect("it is well-formed").votes {
        let blocks = voted.entry((vote.voter.into(), vote.slot.into())).or_default();
        if blocks.len() < 2 && !blocks.contains(&vote.number) {
            blocks.push(vote.number);
        }
    }
    voted.into_iter().find(|(_, blocks)| blocks.len() == 2).map(|((voter, slot), blocks)| Equivocation {
        voter,
        slot,
        block: blocks[0],
        other: blocks[1],
    })
}

/// As many votes as places, for block 0, whose voters and slots share a root (crates/index/specs/Keys) and as many digits as can be had: of all of
/// them with that root those that have the most digits 0 at first.
fn sought_slots(width: Width) -> Vec<u8> {
    let mut keys = Vec::new();
    for slot in 1..=1_000_000_000u32 {
        let root = slot % 128 * 64 + slot / 128 % 1024 * 8;
        let voter = (8192 - root % 8192) % 8192;
        if voter < 64 {
            let digits = digits_of([slot.into(), slot.into(), voter.into(), 0]).trailing_zeros();
            if digits >= 8 {
                keys.push((std::cmp::Reverse(digits), slot, voter));
            }
        }
    }
    keys.sort();
    let vote = |&(_, slot, voter): &(_, u32, u32)| PacketVote { voter: voter as u8, slot, number: 0 };
    encode(width, vec![], keys.iter().take(PLACES.1).map(vote).collect())
}

/// Packets on fresh tables, each compared with itself: the time less that of two empty packets, for each byte of both, beside the largest honest one, and
/// beside two Receives of it; and what Fit takes beside a Receive.
fn pairs(most: (usize, usize)) {
    let (b, v) = most;
    let (few_b, few_v) = (b.min(PLACES.0 - 1), v.min(PLACES.1));
    let both = Family { blocks: (few_b, few_b), votes: (few_v, few_v), voted: Voted::InTurn, ..FAMILY };
    let again = Family { blocks: (b, few_b), votes: (v, few_v), ..both };
    let chosen = Family { numbers: CHOSEN, choices: u64::MAX, ..FAMILY };
    let slots = Family { numbers: CHOSEN, blocks: (few_b, few_b), voters: 1, voted: Voted::First, slot_shift: 16, ..FAMILY };
    let sum = Family { numbers: ONE_SUM, voters: 1, voted: Voted::OfSlot, slot_shift: 13, order: Order::Mixed, ..FAMILY };
    let families = [
        ("as many as places", both),
        ("again and again", again),
        ("one vote", Family { votes: (v, 1), ..FAMILY }),
        ("votes again and again", Family { votes: (v, few_v), ..FAMILY }),
        ("votes for every block in a slot", Family { choices: u64::MAX, ..both }),
        ("votes for every block in a slot, again and again", Family { choices: u64::MAX, ..again }),
        ("chosen numbers, as many as places", Family { blocks: (few_b, few_b), votes: (few_v, few_v), ..chosen }),
        ("chosen numbers, again and again", Family { blocks: (b, few_b), votes: (v, few_v), ..chosen }),
        ("chosen slots, as many as places", Family { votes: (few_v, few_v), ..slots }),
        ("chosen slots, again and again", Family { votes: (v, few_v), ..slots }),
        ("one sum, as many as places", Family { blocks: (few_b, few_b), votes: (few_v, few_v), ..sum }),
        ("one sum, again and again", Family { blocks: (b, few_b), votes: (v, few_v), ..sum }),
        ("the last vote bad", Family { bad: Bad::Vote, ..again }),
    ];
    let honest = Case::honest().packet;
    let mut rows = vec![("honest".to_string(), Width::Wide, honest.clone())];
    for width in [Width::Narrow, Width::Wide] {
        rows.extend(families.map(|(name, family)| (name.to_string(), width, Family { width, ..family }.packet())));
        rows.push(("sought slots".to_string(), width, sought_slots(width)));
    }
    println!("| Packet, twice | Width | Bytes of both | µs | ns for a byte | To honest | To two Receives | Fit to Receive |");
    println!("|---|---|---|---|---|---|---|---|");
    let node = fresh();
    let empty = encode(Width::Wide, vec![], vec![]);
    for (name, width, packet) in rows {
        let received = fresh().receive(BEAT, &packet);
        let expected = received.map(|_| doubled(&packet)).map_err(CompareRefusal::First);
        let compare = |packet: Vec<u8>, expected: Result<Option<Equivocation>, CompareRefusal>| -> Run {
            let node = &node;
            Box::new(move || {
                let start = Instant::now();
                let found = node.compare(BEAT, &packet, &packet);
                let time = start.elapsed();
                assert_eq!(found, expected);
                time
            })
        };
        let fit = |packet: Vec<u8>| -> Run {
            let node = &node;
            Box::new(move || {
                let start = Instant::now();
                let fitted = node.fit(BEAT, &packet);
                let time = start.elapsed();
                std::hint::black_box(fitted.is_ok());
                time
            })
        };
        let case = Case { width, packet: packet.clone(), memory: fresh().into_memory(), answer: received };
        let runs = [
            compare(packet.clone(), expected),
            compare(empty.clone(), Ok(None)),
            compare(honest.clone(), Ok(None)),
            case.receive(&case.packet, received),
            case.receive(&empty, Ok(Received { new_blocks: 0, new_votes: 0, viewed: false })),
            fit(packet.clone()),
            fit(empty.clone()),
        ];
        let [time, nothing, honest_time, receive, receive_nothing, fit, fit_nothing] = medians(runs, 9, ROW);
        let [time, honest_time] = [time, honest_time].map(|time| time.saturating_sub(nothing));
        let for_byte = |time: Duration, bytes: usize| time.as_secs_f64() * 1e9 / (2 * bytes) as f64;
        let receive = receive.saturating_sub(receive_nothing).as_secs_f64();
        let fit = fit.saturating_sub(fit_nothing).as_secs_f64();
        println!(
            "| {name} | {width:?} | {} | {} | {:.2} | {} | {} | {:.2} |",
            2 * packet.len(),
            micros(time),
            for_byte(time, packet.len()),
            ratio(for_byte(time, packet.len()), for_byte(honest_time, honest.len())),
            ratio(time.as_secs_f64(), 2.0 * receive),
            fit / receive
        );
    }
}

/// Draws numbers from a seed.
struct Draws(u64);

impl Draws {
    fn below(&mut self, limit: usize) -> usize {
        self.0 = self.0.wrapping_add(1);
        (mixed(self.0) % limit as u64) as usize
    }

    fn of<T: Copy>(&mut self, choices: &[T]) -> T {
        choices[self.below(choices.len())]
    }

    /// How many entries, and how many of them are different.
    fn count(&mut self, most: usize, places: usize) -> (usize, usize) {
        let all = 1 + self.below(most);
        let all = self.of(&[0, places.min(most), most, most, all]);
        let different = 1 + self.below(all.max(1));
        (all, self.of(&[all, all, 1, places, different]).min(all))
    }
}

impl Family {
    const PARAMETERS: usize = 13;

    /// Draws one parameter anew.
    fn change(&mut self, parameter: usize, draws: &mut Draws, most: (usize, usize)) {
        let odd = mixed(draws.0) | 1;
        match parameter {
            0 => self.width = draws.of(&[Width::Narrow, Width::Wide]),
            1 => self.tables = draws.of(&[Tables::Fresh, Tables::Blocks, Tables::Full, Tables::Others, Tables::Merged]),
            2 => self.blocks = draws.count(most.0, PLACES.0 - 1),
            3 => self.votes = draws.count(most.1, PLACES.1),
            4 => self.numbers.factor = draws.of(&[0, 1, u64::MAX, 0x9e37_79b9_7f4a_7c15, odd]),
            5 => self.numbers.shift = draws.below(54) as u32,
            6 => self.numbers.halves = draws.of(&[Halves::Lower, Halves::Upper, Halves::Both, Halves::Sum, Halves::KeySum]),
            7 => self.parents = draws.of(&[Parents::Previous, Parents::Zero, Parents::Earlier, Parents::Last]),
            8 => self.voters = 1 << draws.below(7),
            9 => self.choices = draws.of(&[1, 1, 2, 16, 1_024, u64::MAX]),
            10 => self.voted = draws.of(&[Voted::First, Voted::Last, Voted::Late, Voted::InTurn, Voted::OfSlot, Voted::Random]),
            11 => {
                let any = draws.below(30) as u32;
                self.slot_shift = draws.of(&[any, self.numbers.shift + 7]);
            }
            _ => self.order = draws.of(&[Order::Up, Order::Down, Order::Mixed]),
        }
    }

    /// Short packets are left out: their cost is mostly that of a call.
    fn long_enough(&self) -> bool {
        20 * self.blocks.0 + 13 * self.votes.0 >= 10_000
    }

    fn drawn(draws: &mut Draws, most: (usize, usize)) -> Family {
        let mut family = FAMILY;
        while !family.long_enough() {
            (0..Family::PARAMETERS).for_each(|parameter| family.change(parameter, draws, most));
        }
        family
    }
}

/// Keeps the slowest ten, first the slowest.
fn keep_slowest(found: &mut Vec<(Family, Cost)>) {
    found.sort_by(|a, b| b.1.to_honest.total_cmp(&a.1.to_honest));
    found.truncate(10);
}

/// Draws packets for half of the time, and then changes one parameter of one of the slowest ten at a time, mostly of the slower ones. What seems
/// slower after three runs is measured again.
fn search(most: (usize, usize), seed: u64, seconds: u64) {
    let start = Instant::now();
    let until = |share: f64| start.elapsed().as_secs_f64() < share * seconds as f64;
    let again = |(family, cost): &mut (Family, Cost)| *cost = family.measure(9, Duration::from_millis(200));
    let mut draws = Draws(mixed(seed));
    let mut found = Vec::new();
    let (mut drawn, mut changed) = (0, 0);
    while until(0.5) {
        let family = Family::drawn(&mut draws, most);
        found.push((family, family.measure(3, Duration::ZERO)));
        drawn += 1;
    }
    keep_slowest(&mut found);
    found.iter_mut().for_each(again);
    while until(0.9) {
        keep_slowest(&mut found);
        let i = draws.below(found.len()).min(draws.below(found.len()));
        let mut next = found[i];
        next.0.change(draws.below(Family::PARAMETERS), &mut draws, most);
        if next.0 == found[i].0 || !next.0.long_enough() {
            continue;
        }
        changed += 1;
        next.1 = next.0.measure(3, Duration::ZERO);
        if next.1.to_honest > found[i].1.to_honest {
            again(&mut next);
        }
        if next.1.to_honest > found[i].1.to_honest {
            found[i] = next;
        }
    }
    found.iter_mut().for_each(again);
    keep_slowest(&mut found);
    println!("Seed {seed}: {drawn} packets drawn, {changed} changed.\n");
    println!(
        "| Width | Tables | Blocks | Votes | Numbers | Parents | Voters, choices | Voted | Slot shift | Order | Answer | {}",
        Cost::HEAD
    );
    println!("|---|---|---|---|---|---|---|---|---|---|---|---|---|---|---|");
    for (f, cost) in found {
        let Numbers { factor, halves, .. } = f.numbers;
        let (shift, choices) = (f.number_shift(), f.choices.min(f.known()));
        println!(
            "| {:?} | {:?} | {} | {} | {factor:#x} << {shift} {halves:?} | {:?} | {}, {} | {:?} | {} | {:?} | {} | {}",
            f.width,
            f.tables,
            count(f.blocks),
            count(f.votes),
            f.parents,
            f.voters,
            choices,
            f.voted,
            f.slot_shift(choices),
            f.order,
            answer(f.answer()),
            cost.row()
        );
    }
}

/// What the environment gives, or this.
fn setting(name: &str, default: u64) -> u64 {
    std::env::var(name).map_or(default, |text| text.parse().expect("a number"))
}

fn main() {
    let most = std::env::var("LIKVOST_MOST").unwrap_or("65535".to_string());
    let mut sections = most.split(',').map(|text| text.parse::<usize>().expect("a number").clamp(1, 65_535));
    let blocks = sections.next().expect("a number");
    let most = (blocks, sections.next().unwrap_or(blocks));
    match std::env::args().skip(1).find(|argument| !argument.starts_with('-')).as_deref() {
        Some("search") => {
            let now = SystemTime::now().duration_since(SystemTime::UNIX_EPOCH).map_or(0, |time| time.as_secs());
            search(most, setting("LIKVOST_SEED", now), setting("LIKVOST_SECONDS", 60));
        }
        Some("pairs") => pairs(most),
        part => table(most, part.unwrap_or("")),
    }
}
