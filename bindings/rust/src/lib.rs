//! A consensus node for a small network whose members sleep and wake (RLMD-GHOST).
//!
//! The node itself is written in Rattle and proved: every call does what its definition says, or is refused by the first number
//! that applies, and then nothing has changed. This crate owns the memory that the node works on and calls it.
//!
//! A beat is `3 * slot + phase`: phase 0 propose, 1 vote, 2 merge. The first beat of a fresh node is 3. At each beat an awake node makes
//! the call that is due and then sends its gossip and, if it proposed, its proposal.
//!
//! The cable may be out for fewer than `expiry` slots (docs/PROOF.md, "Asynchrony resilience"). A node that has heard nobody for longer
//! makes no call until it has received what the others sent. One that slept wakes for the merge of the slot before the one in which it is
//! to vote. When the whole network stops, stop its beats: while none begins no vote expires.
//!
//! Blocks stay in their table; votes leave when they are old. Once slot `m` was merged no slot that may be asked for looks at votes of
//! slots below `m - expiry`: [`Node::merge`] removes them, and [`Node::receive`] accepts those that still come but does not store them.
//!
//! A node is a loom controller or a rack controller: its [`Profile`] says which limits it keeps to. Looms and racks may be nodes of one
//! network.
//!
//! A block's number has 16 bytes. Nodes write their packets wide, with whole numbers; for boards that read numbers of 8 bytes alone there
//! are narrow packets, see [`Width`].
//!
//! ```
//! use likvost::{Node, Profile, Settings};
//!
//! # fn main() -> Result<(), likvost::Refusal> {
//! let settings = |own| Settings { profile: Profile::Loom, nodes: 2, own, expiry: 4, depth: 1 };
//! let mut a = Node::open(settings(0), 16, 32)?;
//! let mut b = Node::open(settings(1), 16, 32)?;
//!
//! // Slot 1 is node 1's: it proposes a block on block 0, and the proposal reaches node 0 in the same beat.
//! let number = 0x0194_37a1_c0de_7000_8f3b_52d9_6e10_4a7c;
//! assert_eq!(b.propose(3, number)?, 0);
//! let received = a.receive(3, &b.proposal()?)?;
//! assert!(received.viewed);
//!
//! // Both vote for it, exchange their votes and merge.
//! assert_eq!(a.vote(4)?, number);
//! assert_eq!(b.vote(4)?, number);
//! let (from_a, from_b) = (a.gossip()?, b.gossip()?);
//! a.receive(4, &from_b)?;
//! b.receive(4, &from_a)?;
//! a.merge(5)?;
//! b.merge(5)?;
//! assert_eq!(a.head(1)?, number);
//! assert_eq!(a.fast(1)?, Some(number));
//! assert_eq!(a.deep(1)?, 0);
//! # Ok(())
//! # }
//! ```

#![warn(missing_docs)]

mod compare;
mod ffi;
mod refusal;

pub use compare::{CompareRefusal, Equivocation};
pub use refusal::Refusal;

/// Words to a row of [`Memory::blocks`].
pub const BLOCK_WORDS: usize = 6;

/// Words to a row of [`Memory::votes`].
pub const VOTE_WORDS: usize = 5;

/// No honest node sends a packet of more bytes. A loom answers longer ones too, at no higher cost for each byte.
pub const LARGEST_PACKET: usize = Width::Wide.packet_length(2047, 8192);

/// The longest packet that a rack reads: [`Node::receive`] refuses longer ones by [`Refusal::PacketTooLong`], whatever they hold.
pub const RACK_PACKET: usize = 4096;

/// Whose limits a node keeps to. The nodes of a network may have different profiles.
///
/// | | nodes | block places, block 0 included | vote places | packets that [`Node::receive`] reads |
/// |---|---|---|---|---|
/// | loom | 1 to 64 | 1 to 2,048 | 1 to 8,192 | of any length |
/// | rack | 1 to 16 | 1 to 64 | 1 to 256 | up to 4,096 bytes |
///
/// Where a rack is in the network, the wide gossip of every honest node, looms too, must stay within 4,096 bytes: `36 * blocks` (without
/// block 0) `+ 21 * votes` at most 4,071. With `nodes * (expiry + 2)` votes, where nobody votes twice in a slot, that is an expiry of 3 at most
/// for 16 nodes and 63 blocks, though 256 places would do for 14. A full rack writes 7,669 bytes (narrow 4,605), and no rack reads them.
///
/// ```
/// use likvost::{Node, Profile, Refusal, Settings, RACK_PACKET};
///
/// let settings = Settings { profile: Profile::Rack, nodes: 16, own: 0, expiry: 3, depth: 8 };
/// let mut rack = Node::open(settings, 64, 80).unwrap();
/// assert_eq!(rack.receive(3, &[0; RACK_PACKET + 1]), Err(Refusal::PacketTooLong));
/// assert_eq!(Node::open(settings, 65, 80), Err(Refusal::LengthOutOfRange));
/// assert_eq!(Node::open(Settings { nodes: 17, ..settings }, 64, 80), Err(Refusal::NodesOutOfRange));
///
/// let mut loom = Node::open(Settings { profile: Profile::Loom, ..settings }, 65, 80).unwrap();
/// assert_eq!(loom.receive(3, &[0; RACK_PACKET + 1]), Err(Refusal::PacketMalformed));
/// ```
#[repr(u64)]
#[derive(Clone, Copy, Debug, PartialEq, Eq)]
pub enum Profile {
    /// A loom controller.
    Loom = 1,
    /// A rack controller, whose limits are lower.
    Rack = 2,
}

/// What a node is opened with. All nodes of a network have the same `nodes`, `expiry` and `depth`.
#[derive(Clone, Copy, Debug, PartialEq, Eq)]
pub struct Settings {
    /// The limits of `nodes`, of both tables and of packets.
    pub profile: Profile,
    /// How many nodes the network has: 1 to 64, or 1 to 16 on a rack.
    pub nodes: u64,
    /// This node's index, below `nodes`.
    pub own: u64,
    /// Votes of the last `expiry` slots count: 1 to 4,096. Those of `expiry + 2` slots should find places, see [`Node::open`].
    pub expiry: u64,
    /// The deep block is at least `depth` slots old: 1 to 4,096.
    pub depth: u64,
}

/// What a node knows of time.
#[repr(C)]
#[derive(Clone, Copy, Debug, Default, PartialEq, Eq)]
pub struct Clock {
    /// The beat last seen.
    pub seen: u64,
    /// The last beat done.
    pub done: u64,
    /// The slot last merged. Earlier ones can no longer be asked for.
    pub merged: u64,
    /// The slot of the last proposal that was made or brought into view.
    pub proposed: u64,
}

/// What a Receive that was carried out answers.
#[derive(Clone, Copy, Debug, PartialEq, Eq)]
pub struct Received {
    /// How many blocks were new.
    pub new_blocks: u64,
    /// How many votes were new. Old ones are not.
    pub new_votes: u64,
    /// Whether the packet came into view at once.
    pub viewed: bool,
}

/// What [`Node::fit`] answers: how much of a packet a node would store, and how long its gossip would be then.
#[derive(Clone, Copy, Debug, PartialEq, Eq)]
pub struct Figures {
    /// How many blocks would be new.
    pub new_blocks: u64,
    /// How many votes would be new. Old ones are not.
    pub new_votes: u64,
    /// How many bytes a wide gossip packet would have.
    pub bytes: u64,
}

/// How many bytes the numbers of a packet have. [`Node::receive`] reads both.
///
/// ```
/// use likvost::{Node, Profile, Refusal, Settings, Width};
///
/// # fn main() -> Result<(), Refusal> {
/// let settings = Settings { profile: Profile::Loom, nodes: 1, own: 0, expiry: 4, depth: 1 };
/// let mut node = Node::open(settings, 16, 32)?;
/// node.propose(3, 11)?;
/// assert_eq!(node.packet(false, Width::Narrow)?.len(), 17 + 20);
/// assert_eq!(node.gossip()?.len(), 25 + 36);
///
/// node.merge(5)?;
/// node.propose(6, (1 << 64) + 11)?;
/// assert_eq!(node.packet(false, Width::Narrow), Err(Refusal::NumberTooWide));
/// assert_eq!(node.gossip()?.len(), 25 + 2 * 36);
/// # Ok(())
/// # }
/// ```
#[derive(Clone, Copy, Debug, PartialEq, Eq)]
pub enum Width {
    /// 8 bytes, for boards that read no others: kinds 0 (gossip) and 1 (proposal). A packet takes 17 bytes, 20 for each block but block 0 and
    /// 13 for each vote. Where one of its numbers is 2^64 or more, writing is refused by [`Refusal::NumberTooWide`].
    Narrow,
    /// All 16 bytes, as nodes write: kinds 2 (gossip) and 3 (proposal). A packet takes 25 bytes, 36 for each block but block 0 and 21 for each
    /// vote.
    Wide,
}

impl Width {
    /// The bytes of a packet with so many blocks and votes.
    const fn packet_length(self, blocks: usize, votes: usize) -> usize {
        match self {
            Width::Narrow => 17 + 20 * blocks + 13 * votes,
            Width::Wide => 25 + 36 * blocks + 21 * votes,
        }
    }
}

/// The memory of a node, as it is lent to every call: words, [`BLOCK_WORDS`] or [`VOTE_WORDS`] to a row. A number takes two, the lower half
/// first.
///
/// [`Node`] keeps it for you. It is public for tests and for storing a node. Every call takes any memory: what is unsound is refused.
///
/// ```
/// use likvost::{Node, Profile, Refusal, Settings};
///
/// let settings = Settings { profile: Profile::Loom, nodes: 3, own: 1, expiry: 4, depth: 1 };
/// let node = Node::open(settings, 16, 32).unwrap();
/// let mut memory = node.into_memory();
/// assert_eq!(Node::from_memory(settings, memory.clone()).merge(5), Ok(()));
///
/// memory.blocks_used = usize::MAX;
/// assert_eq!(Node::from_memory(settings, memory).merge(5), Err(Refusal::Unsound));
/// ```
#[derive(Clone, Debug, PartialEq, Eq)]
pub struct Memory {
    /// number (lower half, upper half), parent (lower half, upper half), slot, mark of each block
    pub blocks: Vec<u64>,
    /// voter, slot, number (lower half, upper half), mark of each vote
    pub votes: Vec<u64>,
    /// how many rows of `blocks` are in use
    pub blocks_used: usize,
    /// how many rows of `votes` are in use
    pub votes_used: usize,
    /// the clock
    pub clock: Clock,
}

/// A node with its own tables.
#[derive(Clone, Debug, PartialEq, Eq)]
pub struct Node {
    settings: Settings,
    memory: Memory,
}

// The exported functions are proved for every memory, clock, settings, packet and buffer, so nothing of these is tested here. What
// they ask of a caller is that pointers are aligned, valid for their lengths and do not overlap: each points to a vector, a slice or a
// field of its own, which is borrowed for the call.

/// The tables and counts of `$m` as a call that changes them wants them.
macro_rules! lend {
    ($m:expr) => {
        (
            $m.blocks.as_mut_ptr(),
            $m.blocks.len(),
            &mut $m.blocks_used as *mut usize,
            $m.votes.as_mut_ptr(),
            $m.votes.len(),
            &mut $m.votes_used as *mut usize,
        )
    };
}

impl Node {
    /// A fresh node with so many places for blocks (1 to 2,048, block 0 included) and votes (1 to 8,192); on a rack 1 to 64 and 1 to 256.
    ///
    /// The node holds votes of the slots from `expiry` slots before the one last merged to the slot seen. So if no voter votes twice in a slot,
    /// no vote is refused by [`Refusal::TooFewPlaces`] on a node that merges every slot and has `nodes * (expiry + 2)` places for votes; one that
    /// left out the last `s` Merges needs `nodes * (expiry + 2 + s)`, until its next Merge removes what is old by then. Every further vote
    /// of a voter in a slot takes a place too, and a dishonest voter may cast one for each block.
    pub fn open(settings: Settings, block_places: usize, vote_places: usize) -> Result<Node, Refusal> {
        // No table of more places is opened, so no more memory is asked for.
        let within = |places: usize, limit: usize| if places > limit { 0 } else { places };
        let mut memory = Memory {
            blocks: vec![0; BLOCK_WORDS * within(block_places, 2048)],
            votes: vec![0; VOTE_WORDS * within(vote_places, 8192)],
            blocks_used: 0,
            votes_used: 0,
            clock: Clock::default(),
        };
        Node::open_in(settings, &mut memory)?;
        Ok(Node { settings, memory })
    }

    /// Opens a node in memory that may hold anything.
    pub fn open_in(settings: Settings, memory: &mut Memory) -> Result<(), Refusal> {
        let (b, bl, bu, v, vl, vu) = lend!(memory);
        // SAFETY: the pointers are to live, separate vectors and numbers, with their lengths.
        let a = unsafe { ffi::likvost_open(settings.into(), memory.clock, b, bl, bu, v, vl, vu) };
        Self::answered(memory, a).map(|_| ())
    }

    /// A node on memory that an earlier node left; every call refuses memory that is unsound.
    pub fn from_memory(settings: Settings, memory: Memory) -> Node {
        Node { settings, memory }
    }

    /// The settings.
    pub fn settings(&self) -> Settings {
        self.settings
    }

    /// The memory as the last call left it.
    pub fn memory(&self) -> &Memory {
        &self.memory
    }

    /// The memory, to store it or to look at it.
    pub fn into_memory(self) -> Memory {
        self.memory
    }

    /// Keeps the clock, and tells a refusal from an answer.
    fn answered(memory: &mut Memory, a: ffi::Answer) -> Result<ffi::Answer, Refusal> {
        memory.clock = a.clock;
        match Refusal::from_answer(a.refusal, a.index) {
            None => Ok(a),
            Some(refusal) => Err(refusal),
        }
    }

    /// Takes a packet of either [`Width`]. Its new entries wait; the first proposal of the beat's slot, in phase 0, comes into view at once.
    /// An old vote, of a slot below the one last merged less `expiry`, must keep the rules too, but is not stored, not new and needs no place;
    /// the block that it is for comes into view with a proposal all the same.
    /// A rack reads packets of at most [`RACK_PACKET`] bytes, and refuses longer ones by [`Refusal::PacketTooLong`].
    /// A packet with a block or vote that breaks a rule is refused whole; [`Refusal::BadBlock`] and [`Refusal::BadVote`] tell the first such entry.
    pub fn receive(&mut self, beat: u64, packet: &[u8]) -> Result<Received, Refusal> {
        let m = &mut self.memory;
        let (b, bl, bu, v, vl, vu) = lend!(m);
        // SAFETY: as in `open_in`; the packet is only read.
        let a = unsafe {
            ffi::likvost_receive(self.settings.into(), m.clock, b, bl, bu, v, vl, vu, beat, packet.as_ptr(), packet.len())
        };
        Self::answered(m, a).map(|a| Received { new_blocks: a.new_blocks, new_votes: a.new_votes, viewed: a.viewed != 0 })
    }

    /// Builds a block with this number on the base, and answers the base.
    pub fn propose(&mut self, beat: u64, number: u128) -> Result<u128, Refusal> {
        let m = &mut self.memory;
        let (b, bl, bu, v, vl, vu) = lend!(m);
        // SAFETY: as in `open_in`.
        let a = unsafe { ffi::likvost_propose(self.settings.into(), m.clock, b, bl, bu, v, vl, vu, beat, number.into()) };
        Self::answered(m, a).map(|a| a.value.into())
    }

    /// Votes for the head, and answers it.
    pub fn vote(&mut self, beat: u64) -> Result<u128, Refusal> {
        let m = &mut self.memory;
        let (b, bl, bu, v, vl, vu) = lend!(m);
        // SAFETY: as in `open_in`.
        let a = unsafe { ffi::likvost_vote(self.settings.into(), m.clock, b, bl, bu, v, vl, vu, beat) };
        Self::answered(m, a).map(|a| a.value.into())
    }

    /// Brings all waiting entries into view, and removes the votes of slots below `t - expiry`, `t` being the beat's slot: the others keep
    /// their order and move up, and the places that become free are set to zero.
    pub fn merge(&mut self, beat: u64) -> Result<(), Refusal> {
        let m = &mut self.memory;
        let (b, bl, bu, v, vl, vu) = lend!(m);
        // SAFETY: as in `open_in`.
        let a = unsafe { ffi::likvost_merge(self.settings.into(), m.clock, b, bl, bu, v, vl, vu, beat) };
        Self::answered(m, a).map(|_| ())
    }

    /// The head for a slot, from the one last merged to the one seen. The deep, the fast and the settled block are for these slots too.
    ///
    /// ```
    /// use likvost::{Node, Profile, Refusal, Settings};
    ///
    /// let settings = Settings { profile: Profile::Loom, nodes: 3, own: 1, expiry: 4, depth: 1 };
    /// let mut node = Node::open(settings, 16, 32).unwrap();
    /// node.merge(3 * 7 + 2).unwrap();
    /// assert_eq!(node.head(6), Err(Refusal::SlotOutOfRange));
    /// assert_eq!(node.head(7), Ok(0));
    /// assert_eq!(node.head(8), Err(Refusal::SlotOutOfRange));
    /// ```
    pub fn head(&self, slot: u64) -> Result<u128, Refusal> {
        self.ask(ffi::likvost_head, slot).map(|found| found.value.into())
    }

    /// The deep block for a slot. Ask after the vote in it: under the conditions of docs/PROOF.md (packets in time, enough voters awake, an honest
    /// block in every `depth` slots) the deep blocks that honest nodes have then stand on one chain.
    pub fn deep(&self, slot: u64) -> Result<u128, Refusal> {
        self.ask(ffi::likvost_deep, slot).map(|found| found.value.into())
    }

    /// The fast block for a slot, if there is one; block 0 where three quarters of the nodes agree on nothing else. Ask after the Merge of it:
    /// under the conditions of docs/PROOF.md (fewer than a quarter of the nodes dishonest, packets in time, enough voters awake) it stays under
    /// every later honest vote and block.
    pub fn fast(&self, slot: u64) -> Result<Option<u128>, Refusal> {
        self.ask(ffi::likvost_fast, slot).map(|found| (found.found != 0).then_some(found.value.into()))
    }

    /// The settled block for a slot: the farthest block from block 0 that is on the chain of the head, whatever the nodes of the set `silent` count
    /// for. Bit `v` is node `v`. Each of them may count for nothing or for any one block in view of a slot below this one; the others count as they
    /// voted. With no silent node it is the head, and it is always on the head's chain; one more silent node leaves it or moves it down.
    ///
    /// ```
    /// use likvost::{Node, Profile, Refusal, Settings};
    ///
    /// # fn main() -> Result<(), Refusal> {
    /// let settings = Settings { profile: Profile::Loom, nodes: 3, own: 1, expiry: 4, depth: 1 };
    /// let mut node = Node::open(settings, 16, 32)?;
    /// node.propose(3, 11)?;
    /// node.vote(4)?;
    /// node.merge(5)?;
    /// // Block 11 of slot 1 has no rival, so nobody can turn the head of slot 2 away from it.
    /// node.receive(6, &node.gossip()?)?;
    /// assert_eq!(node.settled(2, 0b101)?, 11);
    /// assert_eq!(node.settled(2, 0)?, node.head(2)?);
    /// assert_eq!(node.settled(2, 0b1000), Err(Refusal::SilentOutOfRange));
    /// # Ok(())
    /// # }
    /// ```
    pub fn settled(&self, slot: u64, silent: u64) -> Result<u128, Refusal> {
        let m = &self.memory;
        let (b, v) = (&m.blocks, &m.votes);
        // SAFETY: as in `ask`.
        let found = unsafe {
            ffi::likvost_settled(
                self.settings.into(),
                m.clock,
                b.as_ptr(),
                b.len(),
                m.blocks_used,
                v.as_ptr(),
                v.len(),
                m.votes_used,
                slot,
                silent,
            )
        };
        Self::found(found).map(|found| found.value.into())
    }

    fn ask(&self, question: ffi::Question, slot: u64) -> Result<ffi::Found, Refusal> {
        let m = &self.memory;
        let (b, v) = (&m.blocks, &m.votes);
        // SAFETY: the tables are only read, within their lengths.
        let found = unsafe {
            question(self.settings.into(), m.clock, b.as_ptr(), b.len(), m.blocks_used, v.as_ptr(), v.len(), m.votes_used, slot)
        };
        Self::found(found)
    }

    /// Tells a refusal from the answer of a question.
    fn found(found: ffi::Found) -> Result<ffi::Found, Refusal> {
        match Refusal::from_answer(found.refusal, 0) {
            None => Ok(found),
            Some(refusal) => Err(refusal),
        }
    }

    /// How many places a packet would take, of either [`Width`], and how many bytes the node's wide gossip would have then. Nothing changes, the
    /// beat seen neither. It is refused as [`Node::receive`] would refuse the packet, but never by [`Refusal::TooFewPlaces`]: the packet fits if
    /// the tables have as many places as there are rows in use and new entries together. Past the largest tables the sums are the same. It
    /// costs no more than that Receive.
    ///
    /// ```
    /// use likvost::{Figures, Node, Profile, Refusal, Settings};
    ///
    /// # fn main() -> Result<(), Refusal> {
    /// let settings = Settings { profile: Profile::Loom, nodes: 1, own: 0, expiry: 4, depth: 1 };
    /// let mut stopped = Node::open(settings, 16, 32)?;
    /// stopped.propose(3, 11)?;
    /// stopped.vote(4)?;
    /// stopped.merge(5)?;
    ///
    /// // A node with a place for block 0 alone: one block and one vote would be new.
    /// let mut node = Node::open(settings, 1, 1)?;
    /// let packet = stopped.gossip()?;
    /// assert_eq!(node.fit(5, &packet)?, Figures { new_blocks: 1, new_votes: 1, bytes: 25 + 36 + 21 });
    /// assert_eq!(node.receive(5, &packet), Err(Refusal::TooFewPlaces));
    /// assert_eq!(node.fit(1, &packet), Err(Refusal::WrongBeat));
    /// # Ok(())
    /// # }
    /// ```
    pub fn fit(&self, beat: u64, packet: &[u8]) -> Result<Figures, Refusal> {
        let m = &self.memory;
        let (b, v) = (&m.blocks, &m.votes);
        // SAFETY: the tables and the packet are only read, within their lengths.
        let fitted = unsafe {
            ffi::likvost_fit(
                self.settings.into(),
                m.clock,
                b.as_ptr(),
                b.len(),
                m.blocks_used,
                v.as_ptr(),
                v.len(),
                m.votes_used,
                beat,
                packet.as_ptr(),
                packet.len(),
            )
        };
        match Refusal::from_answer(fitted.refusal, fitted.index) {
            None => Ok(Figures { new_blocks: fitted.new_blocks, new_votes: fitted.new_votes, bytes: fitted.bytes }),
            Some(refusal) => Err(refusal),
        }
    }

    /// Holds two packets against each other, of either [`Width`], as two nodes of one network saved them: the lowest voter with two different
    /// votes of one slot within or between them, or none exactly if they hold none together. Repeats of a vote are no second one. Each packet
    /// is refused as [`Node::receive`] would refuse it at this beat on fresh tables with this node's settings and places, the first before the
    /// second; so the beat may be below the one that this node has seen, and its store counts for nothing. Nothing changes. It costs 1.3 times
    /// as much as both Receives for honest packets, and for the worst that are known three times.
    ///
    /// ```
    /// use likvost::{CompareRefusal, Equivocation, Node, Profile, Refusal, Settings};
    ///
    /// # fn main() -> Result<(), Box<dyn std::error::Error>> {
    /// // Node 0's board is swapped in slot 1: it votes for its own view, of block 0 alone, and then, from an older memory, once more.
    /// let settings = |own| Settings { profile: Profile::Loom, nodes: 2, own, expiry: 4, depth: 1 };
    /// let mut other = Node::open(settings(1), 16, 32)?;
    /// other.propose(3, 11)?;
    /// let mut board = Node::open(settings(0), 16, 32)?;
    /// let mut swapped = board.clone();
    /// assert_eq!(board.vote(4)?, 0);
    /// swapped.receive(3, &other.proposal()?)?;
    /// assert_eq!(swapped.vote(4)?, 11);
    ///
    /// // Two keepers saved what they heard.
    /// let (first, second) = (swapped.gossip()?, board.gossip()?);
    /// let found = other.compare(5, &first, &second)?;
    /// assert_eq!(found, Some(Equivocation { voter: 0, slot: 1, block: 11, other: 0 }));
    /// assert_eq!(other.compare(5, &first, &first)?, None);
    ///
    /// // The second packet is cut short.
    /// let refused = other.compare(5, &first, &second[..9]);
    /// assert_eq!(refused, Err(CompareRefusal::Second(Refusal::PacketMalformed)));
    /// # Ok(())
    /// # }
    /// ```
    pub fn compare(&self, beat: u64, first: &[u8], second: &[u8]) -> Result<Option<Equivocation>, CompareRefusal> {
        let m = &self.memory;
        let (b, v) = (&m.blocks, &m.votes);
        // SAFETY: the tables and the packets are only read, within their lengths.
        let compared = unsafe {
            ffi::likvost_compare(
                self.settings.into(),
                m.clock,
                b.as_ptr(),
                b.len(),
                m.blocks_used,
                v.as_ptr(),
                v.len(),
                m.votes_used,
                beat,
                first.as_ptr(),
                first.len(),
                second.as_ptr(),
                second.len(),
            )
        };
        if let Some(refusal) = CompareRefusal::from_answer(&compared) {
            return Err(refusal);
        }
        let ffi::Compared { found, voter, slot, block, other, .. } = compared;
        Ok((found == 1).then(|| Equivocation { voter, slot, block: block.into(), other: other.into() }))
    }

    /// Writes gossip or, if `proposal`, the own proposal into a buffer, and answers the packet's length. A buffer of [`LARGEST_PACKET`]
    /// bytes is always long enough, on a rack one of 7,669.
    pub fn write(&self, proposal: bool, width: Width, buffer: &mut [u8]) -> Result<usize, Refusal> {
        let m = &self.memory;
        // SAFETY: as in `ask`; the buffer is written within its length.
        let w = unsafe {
            ffi::likvost_write(
                self.settings.into(),
                m.clock,
                m.blocks.as_ptr(),
                m.blocks.len(),
                m.blocks_used,
                m.votes.as_ptr(),
                m.votes.len(),
                m.votes_used,
                proposal,
                width == Width::Wide,
                buffer.as_mut_ptr(),
                buffer.len(),
            )
        };
        Refusal::from_answer(w.refusal, 0).map_or(Ok(w.bytes as usize), Err)
    }

    /// The node's gossip: its whole store as a wide packet.
    pub fn gossip(&self) -> Result<Vec<u8>, Refusal> {
        self.packet(false, Width::Wide)
    }

    /// The node's proposal of the beat seen: its view as a wide packet.
    pub fn proposal(&self) -> Result<Vec<u8>, Refusal> {
        self.packet(true, Width::Wide)
    }

    /// What [`Node::write`] writes.
    pub fn packet(&self, proposal: bool, width: Width) -> Result<Vec<u8>, Refusal> {
        // Room for all rows that there can be in sound tables.
        let room = width.packet_length(self.memory.blocks_used.min(2048), self.memory.votes_used.min(8192));
        let mut buffer = vec![0; room];
        let length = self.write(proposal, width, &mut buffer)?;
        buffer.truncate(length);
        Ok(buffer)
    }
}
