//! Tests. Expected values are words of document 01 and its requests or computed by hand.

mod doubles;
mod extremes;
mod figures;
mod fit_program;
mod keepers;
mod old_votes;
mod packets;
mod pair_program;
mod pairs;
mod places;
mod program;
mod racks;
mod receive;
mod refusals;
mod run;
mod shed;
mod shortcuts;
mod soundness;
mod unheard;
mod wide;

use crate::{Block, Clock, Figures, Node, Packet, PacketBlock, PacketVote, Profile, Received, Refused, Settings, Vote};

pub const NO_BLOCK: Block = Block { number: 0, parent: 0, slot: 0, in_view: false };
pub const NO_VOTE: Vote = Vote { voter: 0, slot: 0, number: 0, in_view: false };
/// The smallest number whose upper half is not zero.
pub const UP: u128 = 1 << 64;

/// A fresh loom with 16 places in each table.
pub fn fresh(nodes: u64, own: u64, expiry: u64, depth: u64) -> Node {
    places(nodes, own, expiry, depth, 16, 16)
}

/// A fresh loom with so many places.
pub fn places(nodes: u64, own: u64, expiry: u64, depth: u64, blocks: usize, votes: usize) -> Node {
    opened(Settings { profile: Profile::Loom, nodes, own, expiry, depth }, blocks, votes)
}

/// A fresh node with these settings and so many places.
pub fn opened(settings: Settings, blocks: usize, votes: usize) -> Node {
    let mut node = Node {
        settings,
        clock: Clock { seen: 77, done: 78, merged: 79, proposed: 80 },
        blocks: vec![block(9, 9, 9); blocks],
        blocks_used: 99,
        votes: vec![vote(9, 9, 9); votes],
        votes_used: 99,
    };
    node.open().unwrap();
    node
}

/// A block in view.
pub fn block(number: u128, parent: u128, slot: u64) -> Block {
    Block { number, parent, slot, in_view: true }
}

/// A vote in view.
pub fn vote(voter: u64, slot: u64, number: u128) -> Vote {
    Vote { voter, slot, number, in_view: true }
}

/// Puts a block into the next free place.
pub fn add_block(node: &mut Node, block: Block) {
    node.blocks[node.blocks_used] = block;
    node.blocks_used += 1;
}

/// Puts a vote into the next free place.
pub fn add_vote(node: &mut Node, vote: Vote) {
    node.votes[node.votes_used] = vote;
    node.votes_used += 1;
}

/// The shed of document 01 with K = 3, slot 4 last merged. Merge would have removed its vote of slot 1; such tables are
/// sound all the same.
pub fn shed() -> Node {
    let mut node = fresh(5, 0, 2, 3);
    node.clock = Clock { seen: 14, done: 14, merged: 4, proposed: 0 };
    for (number, parent, slot) in [(11, 0, 1), (21, 0, 2), (31, 11, 3)] {
        add_block(&mut node, block(number, parent, slot));
    }
    for (voter, slot, number) in [(0, 1, 11), (1, 2, 21), (4, 2, 11), (2, 3, 31), (3, 3, 21)] {
        add_vote(&mut node, vote(voter, slot, number));
    }
    node
}

/// A small generator of numbers.
pub struct Draw(pub u64);

impl Draw {
    pub fn next(&mut self) -> u64 {
        self.0 = self.0.wrapping_mul(6_364_136_223_846_793_005).wrapping_add(1_442_695_040_888_963_407);
        self.0 >> 33
    }

    pub fn of<T: Copy>(&mut self, values: &[T]) -> T {
        values[self.next() as usize % values.len()]
    }

    pub fn yes(&mut self) -> bool {
        self.next() % 2 == 0
    }
}

/// The bytes of a packet.
pub fn packet(kind: u8, slot: u32, number: u128, blocks: &[(u128, u128, u32)], votes: &[(u8, u32, u128)]) -> Vec<u8> {
    let blocks = blocks.iter().map(|&(number, parent, slot)| PacketBlock { number, parent, slot }).collect();
    let votes = votes.iter().map(|&(voter, slot, number)| PacketVote { voter, slot, number }).collect();
    Packet { kind, slot, number, blocks, votes }.encode()
}

/// The bytes of a narrow gossip packet.
pub fn gossip(blocks: &[(u128, u128, u32)], votes: &[(u8, u32, u128)]) -> Vec<u8> {
    packet(0, 0, 0, blocks, votes)
}

/// The bytes of a wide gossip packet.
pub fn wide_gossip(blocks: &[(u128, u128, u32)], votes: &[(u8, u32, u128)]) -> Vec<u8> {
    packet(2, 0, 0, blocks, votes)
}

/// The same packet with wide numbers. The given one must be narrow and rightly formed.
pub fn widened(bytes: &[u8]) -> Vec<u8> {
    let mut packet = Packet::decode(bytes).unwrap();
    packet.kind += 2;
    packet.encode()
}

/// A refusal of Receive that is not about one entry.
pub fn whole(number: u32) -> Result<Received, Refused> {
    Err(Refused { number, index: None })
}

/// A refusal of Receive about the entry at this index.
pub fn entry(number: u32, index: u64) -> Result<Received, Refused> {
    Err(Refused { number, index: Some(index) })
}

/// What a node writes with narrow numbers.
pub fn written(node: &Node, proposal: bool) -> Vec<u8> {
    written_as(node, proposal, false)
}

/// What a node writes with wide numbers.
pub fn written_wide(node: &Node, proposal: bool) -> Vec<u8> {
    written_as(node, proposal, true)
}

fn written_as(node: &Node, proposal: bool, wide: bool) -> Vec<u8> {
    let mut buffer = vec![0; 65_536];
    let length = node.write(proposal, wide, &mut buffer).unwrap();
    buffer.truncate(length);
    buffer
}

/// The numbers of the blocks in view, in table order.
pub fn blocks_in_view(node: &Node) -> Vec<u128> {
    node.blocks[..node.blocks_used].iter().filter(|block| block.in_view).map(|block| block.number).collect()
}

/// Voter, slot and number of the votes in view, in table order.
pub fn votes_in_view(node: &Node) -> Vec<(u64, u64, u128)> {
    let votes = node.votes[..node.votes_used].iter().filter(|vote| vote.in_view);
    votes.map(|vote| (vote.voter, vote.slot, vote.number)).collect()
}
