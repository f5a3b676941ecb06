//! Settings, clock and lent tables, and when they are sound. Words of requests 8 and 9 are marked so.

use std::collections::{HashMap, HashSet};
use std::ops::RangeInclusive;

/// "expiry period E, 1 to 4,096 slots"
pub(crate) const EXPIRY: RangeInclusive<u64> = 1..=4096;
/// "depth K, 1 to 4,096 slots"
pub(crate) const DEPTH: RangeInclusive<u64> = 1..=4096;
/// "Slots run to 1,000,000,000."
pub(crate) const SLOT_LIMIT: u64 = 1_000_000_000;

/// "The starting block has number 0, parent 0 and slot 0 and is always in view."
pub(crate) const START: Block = Block { number: 0, parent: 0, slot: 0, in_view: true };
/// A place of the vote table as Open leaves it: "every other place to zero".
pub(crate) const ZERO_VOTE: Vote = Vote { voter: 0, slot: 0, number: 0, in_view: false };
/// "A fresh node has seen 2, done 2, merged 0, proposal 0."
pub(crate) const FRESH: Clock = Clock { seen: 2, done: 2, merged: 0, proposed: 0 };

/// "A beat is 3 × slot + phase": its slot.
pub(crate) fn slot_of(beat: u64) -> u64 {
    beat / 3
}

/// "A beat is 3 × slot + phase": its phase.
pub(crate) fn phase_of(beat: u64) -> u64 {
    beat % 3
}

/// Request 9: which "set of limits" a node goes by.
#[derive(Debug, Clone, Copy, PartialEq, Eq)]
pub enum Profile {
    /// That of a loom controller.
    Loom,
    /// That of a rack controller.
    Rack,
}

/// Request 9: a "set of limits".
pub(crate) struct Limits {
    /// The number n of nodes.
    pub(crate) nodes: RangeInclusive<u64>,
    /// The length of the block table.
    pub(crate) block_places: RangeInclusive<usize>,
    /// The length of the vote table.
    pub(crate) vote_places: RangeInclusive<usize>,
    /// The longest packet that is read; none if there is no longest.
    pub(crate) packet_bytes: Option<usize>,
}

/// Request 9: "Loom controllers keep their own limits".
const LOOM: Limits = Limits {
    // "nodes n, 1 to 64"
    nodes: 1..=64,
    // "1 to 2,048 blocks (starting block included)"
    block_places: 1..=2048,
    // "1 to 8,192 votes"
    vote_places: 1..=8192,
    // Request 9: "and take a packet of any length"
    packet_bytes: None,
};

/// Request 9: "The rack controller runs the same node".
const RACK: Limits = Limits {
    // Request 9: "in sheds of at most 16 nodes"
    nodes: 1..=16,
    // Request 9: "with 64 blocks"
    block_places: 1..=64,
    // Request 9: "256 votes"
    vote_places: 1..=256,
    // Request 9: "packets up to 4,096 bytes"
    packet_bytes: Some(4096),
};

impl Profile {
    pub(crate) fn limits(self) -> Limits {
        match self {
            Profile::Loom => LOOM,
            Profile::Rack => RACK,
        }
    }
}

/// The settings of a node. Any value may stand in a field.
#[derive(Debug, Clone, Copy, PartialEq, Eq)]
pub struct Settings {
    /// Request 9: the set of limits is kept "with the settings".
    pub profile: Profile,
    /// The number n of nodes.
    pub nodes: u64,
    /// The node's own index.
    pub own: u64,
    /// The expiry period E in slots.
    pub expiry: u64,
    /// The depth K in slots.
    pub depth: u64,
}

/// The clock of a node. Any value may stand in a field.
#[derive(Debug, Clone, Copy, PartialEq, Eq)]
pub struct Clock {
    /// The beat last seen.
    pub seen: u64,
    /// The last beat done.
    pub done: u64,
    /// The slot last merged.
    pub merged: u64,
    /// The slot of the last proposal made or brought into view.
    pub proposed: u64,
}

/// A place of the block table. Request 8: a number is "widened to two 64-bit halves, compared by the upper half first";
/// so is one of 128 bits.
#[derive(Debug, Clone, Copy, PartialEq, Eq)]
pub struct Block {
    /// The block's number.
    pub number: u128,
    /// The number of its parent.
    pub parent: u128,
    /// Its slot.
    pub slot: u64,
    /// In view or, if not, waiting.
    pub in_view: bool,
}

/// A place of the vote table.
#[derive(Debug, Clone, Copy, PartialEq, Eq)]
pub struct Vote {
    /// The index of the voter.
    pub voter: u64,
    /// The slot of the vote.
    pub slot: u64,
    /// The number of the block voted for.
    pub number: u128,
    /// In view or, if not, waiting.
    pub in_view: bool,
}

/// A node with its lent memory. The tables have one element for each lent place, used or not.
#[derive(Debug, Clone, PartialEq, Eq)]
pub struct Node {
    /// The settings.
    pub settings: Settings,
    /// The clock.
    pub clock: Clock,
    /// The places of the block table.
    pub blocks: Vec<Block>,
    /// How many of them are in use, from the first on.
    pub blocks_used: usize,
    /// The places of the vote table.
    pub votes: Vec<Vote>,
    /// How many of them are in use, from the first on.
    pub votes_used: usize,
}

impl Node {
    /// The blocks of the stock. The used count must fit.
    pub(crate) fn stock_blocks(&self) -> &[Block] {
        &self.blocks[..self.blocks_used]
    }

    /// The votes of the stock. The used count must fit.
    pub(crate) fn stock_votes(&self) -> &[Vote] {
        &self.votes[..self.votes_used]
    }

    /// "Tables are sound if": all the rules of that paragraph.
    pub(crate) fn is_sound(&self) -> bool {
        self.ranges_are_sound() && self.clock_is_sound() && self.blocks_are_sound() && self.votes_are_sound()
    }

    /// "settings and lengths are in range and the used counts fit"
    fn ranges_are_sound(&self) -> bool {
        let Settings { profile, nodes, own, expiry, depth } = self.settings;
        // Request 9: "1, 5 and 6 go by it", the set of limits
        let nodes_right = profile.limits().nodes.contains(&nodes);
        let settings = nodes_right && own < nodes && EXPIRY.contains(&expiry) && DEPTH.contains(&depth);
        let used = self.blocks_used <= self.blocks.len() && self.votes_used <= self.votes.len();
        settings && self.lengths_are_in_range() && used
    }

    /// "lengths are in range"
    pub(crate) fn lengths_are_in_range(&self) -> bool {
        let Limits { block_places, vote_places, .. } = self.settings.profile.limits();
        block_places.contains(&self.blocks.len()) && vote_places.contains(&self.votes.len())
    }

    fn clock_is_sound(&self) -> bool {
        let Clock { seen, done, merged, proposed } = self.clock;
        // "the slot seen is at most the limit"
        slot_of(seen) <= SLOT_LIMIT
            // "done is at most seen"
            && done <= seen
            // "merged slot × 3 + 2 is at most done"
            && u128::from(merged) * 3 + 2 <= u128::from(done)
            // "the proposal slot is at most the slot seen"
            && proposed <= slot_of(seen)
    }

    fn blocks_are_sound(&self) -> bool {
        // "block 0 stands first"
        if self.stock_blocks().first() != Some(&START) {
            return false;
        }
        let mut earlier = HashMap::from([(START.number, START)]);
        for &block in &self.stock_blocks()[1..] {
            // "every other block's parent stands earlier"
            let Some(parent) = earlier.get(&block.parent) else { return false };
            // "with a lower slot"
            let above_parent = parent.slot < block.slot;
            // "no entry's slot is above it", the slot seen
            let not_ahead = block.slot <= slot_of(self.clock.seen);
            // "a block in view has its parent in view"
            let view = parent.in_view || !block.in_view;
            // "block numbers differ"
            let differs = earlier.insert(block.number, block).is_none();
            if !(above_parent && not_ahead && view && differs) {
                return false;
            }
        }
        true
    }

    fn votes_are_sound(&self) -> bool {
        let blocks: HashMap<u128, Block> = self.stock_blocks().iter().map(|&b| (b.number, b)).collect();
        let mut earlier = HashSet::new();
        for &vote in self.stock_votes() {
            // "a known block"
            let Some(block) = blocks.get(&vote.number) else { return false };
            // "a voter below n, a slot of 1 or more"
            let fields = vote.voter < self.settings.nodes && vote.slot >= 1;
            // "whose slot is not above the vote's"
            let block_not_later = block.slot <= vote.slot;
            // "no entry's slot is above it", the slot seen
            let not_ahead = vote.slot <= slot_of(self.clock.seen);
            // "a vote in view its block"
            let view = block.in_view || !vote.in_view;
            // "no vote stands twice"
            let differs = earlier.insert((vote.voter, vote.slot, vote.number));
            if !(fields && block_not_later && not_ahead && view && differs) {
                return false;
            }
        }
        true
    }
}
