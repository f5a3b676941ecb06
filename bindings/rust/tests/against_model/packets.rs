//! Packets for a node: made to fit what it knows, or nearly, and damaged ones.

use crate::both::{blocks, halves, number_of, votes};
use crate::random::Random;
use likvost::{Memory, Settings, BLOCK_WORDS, RACK_PACKET, VOTE_WORDS};
use likvost_model::{Block, Packet, PacketBlock, PacketVote, Vote};
use std::collections::HashSet;

/// Which numbers the blocks of a network have.
#[derive(Clone, Copy, PartialEq)]
pub enum Numbers {
    /// Old ones: no upper half.
    Old,
    /// Any, and many that have one half in common.
    Any,
}

impl Numbers {
    /// A number, mostly a new one. Its lower half is from `low` to `high`, 0, or that of a known block.
    pub fn draw(self, random: &mut Random, low: u64, high: u64, known: &[Block]) -> u128 {
        let lower = random.between(low, high);
        if self == Numbers::Old {
            return number_of(lower, 0);
        }
        let upper = match random.below(8) {
            0..=2 => 0,
            3..=5 => random.between(1, 3),
            6 => random.between(1, 400),
            _ => random.word(),
        };
        match random.below(5) {
            0 => number_of(0, upper.max(random.between(1, 400))),
            1 | 2 => {
                let known = random.pick(known).number;
                twin(random, known)
            }
            _ => number_of(lower, upper),
        }
    }
}

/// The number with the same lower half and another upper half.
fn twin(random: &mut Random, of: u128) -> u128 {
    of ^ number_of(0, random.between(1, 3))
}

/// Blocks and votes on what the node knows, most of them allowed at this beat.
pub fn made(random: &mut Random, numbers: Numbers, settings: Settings, memory: &Memory, beat: u64) -> Vec<u8> {
    let now = slot_of(beat);
    let first = first_kept(settings, memory);
    let mut known = known_blocks(memory);
    let mut blocks = Vec::new();
    for _ in 0..random.pick(&[0, 0, 1, 1, 2, 3, 5]) {
        if random.once_in(5) {
            // one that is known already, as it stands or with another slot
            let Block { number, parent, slot, .. } = random.pick(&known);
            let slot = if random.once_in(12) { slot.wrapping_add(1) } else { slot };
            if slot > 0 {
                blocks.push(PacketBlock { number, parent, slot: slot as u32 });
            }
            continue;
        }
        let Block { number: parent, slot: above, .. } = known[known.len() - 1 - random.below(known.len().min(6) as u64) as usize];
        let slot = match random.below(40) {
            0 => 0,
            1 => above,
            2 => now + 1,
            3..=20 => now,
            _ => random.between(above.saturating_add(1).min(now), now),
        };
        let number = match random.below(20) {
            0 => random.word().into(),
            1 => random.pick(&known).number,
            _ => numbers.draw(random, 1, 400, &known),
        };
        let parent = match random.below(60) {
            0 => random.between(1, 400).into(),
            1 | 2 => twin(random, parent),
            _ => parent,
        };
        blocks.push(PacketBlock { number, parent, slot: slot as u32 });
        known.push(Block { number, parent, slot, in_view: false });
    }
    let held: Vec<_> = votes(memory).collect();
    let mut votes = Vec::new();
    for _ in 0..random.pick(&[0, 0, 1, 2, 3, 6]) {
        let Block { number, slot: from, .. } = random.pick(&known);
        let slot = match random.below(40) {
            0 => 0,
            1 => now + 1,
            2 => from.saturating_sub(1),
            3..=18 => now,
            // the first slot whose votes are stored, and the one before it
            19..=22 => first.max(from),
            23..=26 => first.saturating_sub(1).max(from),
            _ => random.between(from.min(now), now),
        };
        let voter = if random.once_in(60) { settings.nodes } else { random.below(settings.nodes) };
        let voted = match random.below(60) {
            0 => random.word().into(),
            1 | 2 => twin(random, number),
            _ => number,
        };
        let mut vote = PacketVote { voter: voter as u8, slot: slot as u32, number: voted };
        if !held.is_empty() && random.once_in(5) {
            // one that is known already
            vote = packet_vote(random.pick(&held));
        }
        let twins = |block: &&Block| block.number != vote.number && block.number as u64 == vote.number as u64;
        match known.iter().find(twins) {
            // and one for a block with the same lower half, or this one alone
            Some(block) if random.once_in(2) => votes.push(PacketVote { number: block.number, ..vote }),
            Some(block) if random.once_in(2) => vote.number = block.number,
            _ => {}
        }
        votes.push(vote);
        if random.once_in(15) {
            votes.push(vote);
        }
    }
    if random.once_in(10) {
        // all vote for one block
        let Block { number, slot: from, .. } = known[known.len() - 1];
        let slot = from.max(now);
        votes.extend((0..settings.nodes).map(|voter| PacketVote { voter: voter as u8, slot: slot as u32, number }));
    }
    let packet = match blocks.last().copied() {
        Some(last) if random.once_in(2) => {
            let named = if random.once_in(4) { random.pick(&blocks) } else { last };
            let number = match random.below(20) {
                0 => random.between(0, 400).into(),
                1..=6 => twin(random, named.number),
                _ => named.number,
            };
            let slot = if random.once_in(20) { named.slot.wrapping_add(1) } else { named.slot };
            Packet { kind: 3, slot, number, blocks, votes }
        }
        _ if random.once_in(18) => {
            // what is zero in gossip is not
            let (slot, number) = random.pick(&[(1, 0), (1 << 31, 0), (0, 1), (0, 1 << 63), (0, 1 << 64), (0, 1 << 127)]);
            Packet { slot, number, ..gossip(blocks, votes) }
        }
        _ => gossip(blocks, votes),
    };
    encoded(random, packet)
}

/// Gossip with a late block, of a slot whose votes are old, and then the proposal of the beat's slot with an old vote for that block. The
/// proposal also carries the old votes that the table holds. None if no slot is old.
pub fn with_old_votes(
    random: &mut Random,
    numbers: Numbers,
    settings: Settings,
    memory: &Memory,
    beat: u64,
) -> Option<[Vec<u8>; 2]> {
    let (first, now) = (first_kept(settings, memory), slot_of(beat));
    if first < 2 || first > now {
        return None;
    }
    let known = known_blocks(memory);
    let slot = random.between(1, first - 1);
    let late = PacketBlock { number: numbers.draw(random, 401, 800, &known), parent: 0, slot: slot as u32 };
    let vote = PacketVote {
        voter: random.below(settings.nodes) as u8,
        slot: random.between(slot, first - 1) as u32,
        number: late.number,
    };
    let parent = random.pick(&known).number;
    let proposed = PacketBlock { number: numbers.draw(random, 801, 1_200, &known), parent, slot: now as u32 };
    let held = votes(memory).filter(|vote| vote.slot > 0 && vote.slot < first);
    let mut votes = vec![vote];
    votes.extend(held.map(packet_vote));
    if random.once_in(8) {
        votes.push(PacketVote { voter: settings.nodes as u8, ..vote });
    }
    let proposal = Packet { kind: 3, slot: proposed.slot, number: proposed.number, blocks: vec![proposed], votes };
    let with_late = if random.once_in(2) { vec![vote] } else { Vec::new() };
    Some([encoded(random, gossip(vec![late], with_late)), encoded(random, proposal)])
}

/// Gossip with two blocks that have the lower half in common and a vote for the first, and then the proposal of the beat's slot with the same
/// voter's vote for the second. So the first and its vote wait when the second comes into view.
pub fn with_twins(random: &mut Random, settings: Settings, memory: &Memory, beat: u64) -> [Vec<u8>; 2] {
    let now = slot_of(beat);
    let number = number_of(random.pick(&[0, 1, 400, 1 << 63]), random.between(401, 800));
    let twins = [number, twin(random, number)].map(|number| PacketBlock { number, parent: 0, slot: now as u32 });
    let voter = random.below(settings.nodes) as u8;
    let [first, second] = twins.map(|block| PacketVote { voter, slot: block.slot, number: block.number });
    let parent = random.pick(&known_blocks(memory)).number;
    let proposed = PacketBlock { number: number_of(random.between(801, 1_200), random.below(2)), parent, slot: now as u32 };
    let proposal = Packet { kind: 3, slot: proposed.slot, number: proposed.number, blocks: vec![proposed], votes: vec![second] };
    [gossip(twins.to_vec(), vec![first]), proposal].map(|packet| packet.encode())
}

/// Gossip with a small tree, mostly a trunk with branches on it, and votes of this slot and the one before for its last blocks.
pub fn with_tree(random: &mut Random, settings: Settings, slot: u64) -> Packet {
    let mut known = vec![Block { number: 0, parent: 0, slot: 0, in_view: true }];
    let latest = |random: &mut Random, known: &[Block]| known[known.len() - 1 - random.below(known.len().min(3) as u64) as usize];
    for _ in 0..random.between(3, 8) {
        let Block { number: parent, slot: above, .. } = latest(random, &known);
        let number = Numbers::Any.draw(random, 1, 400, &known);
        if known.iter().all(|block| block.number != number) {
            known.push(Block { number, parent, slot: above + random.between(1, 2), in_view: false });
        }
    }
    let blocks =
        known[1..].iter().map(|block| PacketBlock { number: block.number, parent: block.parent, slot: block.slot as u32 });
    let mut votes = Vec::new();
    for voter in 0..settings.nodes {
        for _ in 0..random.pick(&[0, 1, 1, 1, 1, 1, 1, 2]) {
            let slot = slot - u64::from(random.once_in(8));
            votes.push(PacketVote { voter: voter as u8, slot: slot as u32, number: latest(random, &known).number });
        }
    }
    gossip(blocks.collect(), votes)
}

/// Two packets of one slot, each with a small tree of its own or the same one, and votes of few voters in few slots. Most of the votes are as
/// the same ones in the other packet, so that in many pairs nobody votes twice.
pub fn of_keepers(random: &mut Random, settings: Settings, slot: u64) -> [Vec<u8>; 2] {
    let old = random.once_in(2);
    let tree = |random: &mut Random| {
        let mut blocks = with_tree(random, settings, slot).blocks;
        if old {
            // the same tree with numbers that have no upper half
            let numbers: Vec<u128> = [0].into_iter().chain(blocks.iter().map(|block| block.number)).collect();
            let place = |number: u128| numbers.iter().position(|&other| other == number).expect("it is in the tree") as u128;
            for block in &mut blocks {
                (block.number, block.parent) = (place(block.number), place(block.parent));
            }
        }
        blocks
    };
    let shared = tree(random);
    let (voters, slots) = (random.between(1, settings.nodes.min(5)), random.between(1, 4));
    let seldom = random.pick(&[2, 5, 20, 200, 2000]);
    [0, 1].map(|_| {
        let blocks = if random.once_in(8) { tree(random) } else { shared.clone() };
        let mut votes: Vec<PacketVote> = Vec::new();
        for _ in 0..random.pick(&[0, 1, 3, 6, 12]) {
            let (voter, slot) = (random.below(voters), slot - random.below(slots));
            let usual = blocks[(voter + slot) as usize % blocks.len()].number;
            let other = random.pick(&blocks).number;
            let number = if random.once_in(seldom) { random.pick(&[0, other]) } else { usual };
            votes.push(PacketVote { voter: voter as u8, slot: slot as u32, number });
        }
        let last = blocks[blocks.len() - 1];
        let mut packet = gossip(blocks, votes);
        if random.once_in(5) {
            (packet.kind, packet.slot, packet.number) = (3, last.slot, last.number);
        }
        let bytes = packet.encode();
        if random.once_in(2) && !needs_wide(&packet) {
            in_other_width(&bytes)
        } else {
            bytes
        }
    })
}

/// A packet about as long as the longest that a rack reads. Most are well-formed and keep the rules. The beat's slot is not 0.
pub fn about_longest(random: &mut Random, numbers: Numbers, settings: Settings, memory: &Memory, beat: u64) -> Vec<u8> {
    let length = match random.below(40) {
        0..=7 => RACK_PACKET - 1,
        8..=16 => RACK_PACKET,
        17..=23 => RACK_PACKET + 1,
        // the next length that a wide packet may have
        24..=31 => RACK_PACKET + 3,
        32..=33 => RACK_PACKET - random.between(2, 600) as usize,
        34..=36 => RACK_PACKET + random.between(2, 6_000) as usize,
        _ => (1 << 16) + random.between(0, RACK_PACKET as u64) as usize,
    };
    let fill = random.once_in(4);
    let mut packet = of_length(random, numbers, settings, memory, beat, length, fill);
    match random.below(10) {
        // one entry or the header breaks a rule
        0 if !packet.blocks.is_empty() => {
            let at = random.below(packet.blocks.len() as u64) as usize;
            packet.blocks[at].slot = 0;
        }
        1 if !packet.votes.is_empty() => {
            let at = random.below(packet.votes.len() as u64) as usize;
            packet.votes[at].voter = settings.nodes as u8;
        }
        2 | 3 if packet.kind % 2 == 1 => packet.slot += 1,
        // bytes are changed, and its length is the one wanted all the same, or it is not
        4 => {
            let mut bytes = damaged(random, &packet.encode());
            if random.once_in(2) {
                bytes.resize(length, 0);
            }
            return bytes;
        }
        // a short packet and bytes behind it
        5 => {
            let mut bytes = made(random, numbers, settings, memory, beat);
            bytes.resize(length, 0);
            return bytes;
        }
        _ => {}
    }
    packet.encode()
}

/// A packet that the node takes if it has places and reads so many bytes. Few of the entries are new or, to fill the tables, as many as there
/// are free places, and at times too many; the others are known ones, or these over again. The beat's slot is not 0.
pub fn of_length(
    random: &mut Random,
    numbers: Numbers,
    settings: Settings,
    memory: &Memory,
    beat: u64,
    length: usize,
    fill: bool,
) -> Packet {
    let now = slot_of(beat);
    // the length of a wide packet less 25 is a multiple of 3
    let wide = random.once_in(2) && length % 3 == 1;
    let proposal = random.once_in(2);
    let (block_count, vote_count) = counts(random, wide, length);
    let free = [memory.blocks.len() / BLOCK_WORDS - memory.blocks_used, memory.votes.len() / VOTE_WORDS - memory.votes_used];
    let [mut new_blocks, new_votes] = [(free[0], block_count), (free[1], vote_count)].map(|(free, count)| {
        let new = match random.below(8) {
            0 => free + 1,
            1 => random.between(0, count as u64) as usize,
            _ if fill => free,
            _ => free.min(random.between(0, 3) as usize),
        };
        new.min(count)
    });
    if proposal {
        new_blocks = new_blocks.max(1).min(block_count);
    }
    // a narrow packet can name these alone
    let mut known = known_blocks(memory);
    known.retain(|block| wide || halves(block.number)[1] == 0);
    let mut blocks: Vec<PacketBlock> = Vec::new();
    while blocks.len() < new_blocks || (blocks.len() < block_count && known.len() < 2) {
        let Block { number: parent, slot: above, .. } = random.pick(&known);
        if above < now {
            let upper = if wide && numbers == Numbers::Any { random.below(3) } else { 0 };
            let number = number_of(random.between(2_000, 1 << 40), upper);
            let slot = if proposal && blocks.is_empty() || random.once_in(3) { now } else { random.between(above + 1, now) };
            blocks.push(PacketBlock { number, parent, slot: slot as u32 });
            known.push(Block { number, parent, slot, in_view: false });
        }
    }
    while blocks.len() < block_count {
        let Block { number, parent, slot, .. } = known[random.between(1, known.len() as u64 - 1) as usize];
        blocks.push(PacketBlock { number, parent, slot: slot as u32 });
    }
    let mut held: Vec<PacketVote> = votes(memory).filter(|vote| wide || halves(vote.number)[1] == 0).map(packet_vote).collect();
    let mut cast: HashSet<_> = held.iter().map(|vote| (vote.voter, vote.slot, vote.number)).collect();
    let mut votes = Vec::new();
    // what is drawn may be known already
    for _ in 0..4 * new_votes.max(usize::from(held.is_empty())) {
        if votes.len() == new_votes && !held.is_empty() {
            break;
        }
        let Block { number, slot: from, .. } = random.pick(&known);
        let slot = random.between(from.max(first_kept(settings, memory)).clamp(1, now), now) as u32;
        let vote = PacketVote { voter: random.below(settings.nodes) as u8, slot, number };
        if cast.insert((vote.voter, vote.slot, vote.number)) {
            votes.push(vote);
            held.push(vote);
        }
    }
    while votes.len() < vote_count {
        votes.push(random.pick(&held));
    }
    let named = blocks.first().filter(|_| proposal).copied();
    let mut packet = gossip(blocks, votes);
    if let Some(named) = named {
        (packet.kind, packet.slot, packet.number) = (3, named.slot, named.number);
    }
    packet.kind -= if wide { 0 } else { 2 };
    packet
}

/// How many blocks and votes a packet of so many bytes has. Of all lengths from 250 on there are narrow ones, and of every third there are wide
/// ones.
fn counts(random: &mut Random, wide: bool, length: usize) -> (usize, usize) {
    let (header, block, vote) = if wide { (25, 36, 21) } else { (17, 20, 13) };
    let body = length - header;
    let fits: Vec<_> = (0..=body / block).filter(|blocks| (body - block * blocks) % vote == 0).collect();
    let blocks = random.pick(&fits);
    (blocks, (body - block * blocks) / vote)
}

fn slot_of(beat: u64) -> u64 {
    (beat / 3).min(u64::from(u32::MAX))
}

/// Votes of earlier slots are old.
fn first_kept(settings: Settings, memory: &Memory) -> u64 {
    memory.clock.merged.saturating_sub(settings.expiry)
}

/// A wide gossip packet.
pub fn gossip(blocks: Vec<PacketBlock>, votes: Vec<PacketVote>) -> Packet {
    Packet { kind: 2, slot: 0, number: 0, blocks, votes }
}

/// A vote of the table as a packet's.
fn packet_vote(vote: Vote) -> PacketVote {
    PacketVote { voter: vote.voter as u8, slot: vote.slot as u32, number: vote.number }
}

/// The blocks of the table; block 0 where the memory has none.
fn known_blocks(memory: &Memory) -> Vec<Block> {
    let mut known: Vec<_> = blocks(memory).collect();
    if known.is_empty() {
        known.push(Block { number: 0, parent: 0, slot: 0, in_view: true });
    }
    known
}

/// The bytes of a wide packet, or of the narrow one with the same entries. Where that does not hold them it is seldom chosen, and has their
/// lower halves.
fn encoded(random: &mut Random, mut packet: Packet) -> Vec<u8> {
    let narrow = if needs_wide(&packet) { random.once_in(12) } else { !random.once_in(4) };
    if narrow {
        packet.kind -= 2;
    }
    let mut bytes = packet.encode();
    if random.once_in(40) {
        bytes[0] = random.pick(&[4, 5, 6, 7, 128, 130, 255]);
    }
    bytes
}

/// Whether a number of the packet has an upper half.
pub fn needs_wide(packet: &Packet) -> bool {
    let blocks = packet.blocks.iter().flat_map(|block| [block.number, block.parent]);
    let votes = packet.votes.iter().map(|vote| vote.number);
    blocks.chain(votes).chain([packet.number]).any(|number| halves(number)[1] != 0)
}

/// The packet with the same entries in the other width, or with their lower halves. Bytes that are no packet stay as they are.
pub fn in_other_width(packet: &[u8]) -> Vec<u8> {
    match Packet::decode(packet) {
        Some(packet) => Packet { kind: packet.kind ^ 2, ..packet }.encode(),
        None => packet.to_vec(),
    }
}

/// A packet with bytes changed, cut off, put in or added.
pub fn damaged(random: &mut Random, packet: &[u8]) -> Vec<u8> {
    let mut bytes = packet.to_vec();
    for _ in 0..random.between(1, 2) {
        let at = random.below(bytes.len() as u64 + 1) as usize;
        // the header and the count of blocks
        let front = if bytes.first().is_some_and(|kind| *kind < 2) { 15 } else { 23 };
        match random.below(9) {
            0 => bytes.truncate(at),
            1 => bytes.extend(std::iter::repeat_n(0, random.between(1, 40) as usize)),
            2 => bytes.insert(at, random.word() as u8),
            3 => bytes.truncate(bytes.len().saturating_sub(1)),
            4 if bytes.len() > front => bytes[random.below(front as u64) as usize] ^= 1 << random.below(8),
            5 if bytes.len() > front => bytes[random.below(front as u64) as usize] = random.word() as u8,
            6 if !bytes.is_empty() => bytes[0] = random.below(6) as u8,
            _ if at < bytes.len() => bytes[at] ^= 1 << random.below(8),
            _ => bytes.push(random.word() as u8),
        }
    }
    bytes
}
