//! The calls on a node. A number in `Err` is the refusal's; a refused call changes nothing.
//! Words of requests 1, 4, 8, 9, 10, 12 and 13 are marked so.

use crate::packet::{Packet, PacketBlock, PacketVote};
use crate::tables::{phase_of, slot_of, Block, Node, Vote};
use crate::tables::{DEPTH, EXPIRY, FRESH, SLOT_LIMIT, START, ZERO_VOTE};
use crate::walks::View;
use std::collections::{BTreeMap, HashMap, HashSet};

/// What Receive answers.
#[derive(Debug, Clone, Copy, PartialEq, Eq)]
pub struct Received {
    /// How many blocks were new.
    pub new_blocks: u64,
    /// How many votes were new.
    pub new_votes: u64,
    /// The packet was a proposal and came into view.
    pub brought: bool,
}

/// Request 10: what a Receive would take in, "without touching anything".
#[derive(Debug, Clone, Copy, PartialEq, Eq)]
pub struct Figures {
    /// How many blocks would be new.
    pub new_blocks: u64,
    /// How many votes would be new.
    pub new_votes: u64,
    /// The bytes of a wide gossip packet afterwards.
    pub bytes: u64,
}

/// Why a Receive was refused: the number, and the index of the refused entry in its section where there is one.
#[derive(Debug, Clone, Copy, PartialEq, Eq)]
pub struct Refused {
    /// The refusal's number.
    pub number: u32,
    /// Request 1: "its index in its section, from 0"; none where no entry of a section is refused.
    pub index: Option<u64>,
}

impl Refused {
    /// A refusal that is not about one entry of a section.
    fn whole(number: u32) -> Refused {
        Refused { number, index: None }
    }

    /// Request 1: "A refused entry is now reported with its index in its section, from 0."
    fn entry(number: u32, index: usize) -> Refused {
        Refused { number, index: Some(index as u64) }
    }
}

/// Request 12: a voter "with two different votes" of one slot in two packets.
#[derive(Debug, Clone, Copy, PartialEq, Eq)]
pub struct Double {
    /// Request 12: "the lowest voter".
    pub voter: u64,
    /// Request 12: "for it the earliest slot".
    pub slot: u64,
    /// Request 12: "the first two different blocks that it voted for there, in the order met".
    pub blocks: [u128; 2],
}

/// Request 12: the packet that a refusal is about.
#[derive(Debug, Clone, Copy, PartialEq, Eq)]
pub enum Which {
    /// Neither was tested.
    Neither,
    /// The first packet; the second was not tested.
    First,
    /// The second packet; Receive would take the first.
    Second,
}

/// Request 12: why two packets were not held against each other.
#[derive(Debug, Clone, Copy, PartialEq, Eq)]
pub struct PairRefused {
    /// The packet that was refused.
    pub which: Which,
    /// The number and the index as Receive tells them.
    pub refused: Refused,
}

/// Err(number) where the refusal applies.
fn refuse_if(applies: bool, number: u32) -> Result<(), u32> {
    if applies {
        Err(number)
    } else {
        Ok(())
    }
}

impl Node {
    /// Open: sets the tables and the clock of a fresh node.
    pub fn open(&mut self) -> Result<(), u32> {
        let settings = self.settings;
        // "1 n out of range; 2 own index; 3 E; 4 K; 5 a table's length out of range"
        // Request 9: "1, 5 and 6 go by it", the set of limits
        refuse_if(!settings.profile.limits().nodes.contains(&settings.nodes), 1)?;
        refuse_if(settings.own >= settings.nodes, 2)?;
        refuse_if(!EXPIRY.contains(&settings.expiry), 3)?;
        refuse_if(!DEPTH.contains(&settings.depth), 4)?;
        refuse_if(!self.lengths_are_in_range(), 5)?;
        // "sets the tables to block 0 alone, every other place to zero"
        self.blocks.fill(Block { number: 0, parent: 0, slot: 0, in_view: false });
        self.votes.fill(ZERO_VOTE);
        self.blocks[0] = START;
        self.blocks_used = 1;
        self.votes_used = 0;
        // "and the clock to a fresh node's"
        self.clock = FRESH;
        Ok(())
    }

    /// Receive: takes in what is new of a packet.
    pub fn receive(&mut self, beat: u64, packet: &[u8]) -> Result<Received, Refused> {
        let (packet, new_blocks, new_votes) = self.read(beat, packet)?;
        // "10 fewer free places than new entries"
        refuse_if(self.blocks.len() - self.blocks_used < new_blocks.len(), 10).map_err(Refused::whole)?;
        refuse_if(self.votes.len() - self.votes_used < new_votes.len(), 10).map_err(Refused::whole)?;

        // "puts new entries at the tables' ends in packet order, as waiting"
        for block in &new_blocks {
            self.add_block(*block);
        }
        for vote in &new_votes {
            self.add_vote(*vote);
        }
        // "A proposal whose slot is the beat's slot, in phase 0, as the first of that slot's proposals to be accepted"
        let of_the_beat = packet.is_proposal() && u64::from(packet.slot) == slot_of(beat) && phase_of(beat) == 0;
        let brought = of_the_beat && self.clock.proposed != slot_of(beat);
        if brought {
            self.bring_into_view(&packet);
            self.clock.proposed = slot_of(beat);
        }
        // "Receive sets the beat seen"
        self.clock.seen = beat;
        Ok(Received { new_blocks: new_blocks.len() as u64, new_votes: new_votes.len() as u64, brought })
    }

    /// Request 10: "the new blocks, the new votes and the bytes that a gossip packet would have afterwards". It refuses
    /// "as Receive would, but gives the figures in place of 10".
    pub fn figures(&self, beat: u64, packet: &[u8]) -> Result<Figures, Refused> {
        let (_, new_blocks, new_votes) = self.read(beat, packet)?;
        let (new_blocks, new_votes) = (new_blocks.len() as u64, new_votes.len() as u64);
        // "block 0 is never written"
        let blocks = self.blocks_used as u64 - 1 + new_blocks;
        let votes = self.votes_used as u64 + new_votes;
        // Kind 1 byte, slot 4, number 16 and two counts of 2; request 8: "blocks take 36 bytes, votes 21".
        // Request 10: "past the largest tables they are the same sums"
        let bytes = 1 + 4 + 16 + 2 + 36 * blocks + 2 + 21 * votes;
        Ok(Figures { new_blocks, new_votes, bytes })
    }

    /// Request 12: holds two packets "against each other". It answers "the lowest voter, and for it the earliest slot,
    /// with two different votes within or between them", none "exactly if the two packets together hold none".
    pub fn pair(&self, beat: u64, first: &[u8], second: &[u8]) -> Result<Option<Double>, PairRefused> {
        let of = |which: Which| move |refused: Refused| PairRefused { which, refused };
        // "All calls but Open test first: 6 tables unsound."
        self.test_sound().map_err(Refused::whole).map_err(of(Which::Neither))?;
        // Request 12: "the first packet tested before the second"
        let first = self.votes_of(beat, first).map_err(of(Which::First))?;
        let second = self.votes_of(beat, second).map_err(of(Which::Second))?;
        // For each voter and slot the first two different blocks,
        // request 12: "in the order met when the first packet and then the second is read through".
        let mut met: BTreeMap<(u64, u64), Vec<u128>> = BTreeMap::new();
        for vote in first.iter().chain(&second) {
            let (voter, slot, number) = fields(vote);
            let blocks = met.entry((voter, slot)).or_default();
            if blocks.len() < 2 && !blocks.contains(&number) {
                blocks.push(number);
            }
        }
        // The map goes by voters and then by slots, so the first with two blocks is the one.
        for ((voter, slot), blocks) in met {
            if let [one, other] = blocks[..] {
                return Ok(Some(Double { voter, slot, blocks: [one, other] }));
            }
        }
        Ok(None)
    }

    /// Propose: makes the block of an own slot and answers the base.
    pub fn propose(&mut self, beat: u64, number: u128) -> Result<u128, u32> {
        let t = slot_of(beat);
        self.test_due(beat, 0)?;
        self.test_joined(t)?;
        // "14 another's slot"
        refuse_if(t % self.settings.nodes != self.settings.own, 14)?;
        // "15 number known"
        refuse_if(self.stock_blocks().iter().any(|block| block.number == number), 15)?;
        // "10 no free place"
        refuse_if(self.blocks_used == self.blocks.len(), 10)?;
        let base = View::stock(self).base(t);
        // "The whole stock and the new block, on the base and last in the table, come into view."
        self.add_block(Block { number, parent: base, slot: t, in_view: true });
        self.bring_stock_into_view();
        self.set_done(beat);
        self.clock.proposed = t;
        Ok(base)
    }

    /// Vote: stores the own vote for the head and answers the head.
    pub fn vote(&mut self, beat: u64) -> Result<u128, u32> {
        let t = slot_of(beat);
        self.test_due(beat, 1)?;
        self.test_joined(t)?;
        let own = self.settings.own;
        // "16 a vote of its own for this slot is known"
        refuse_if(self.stock_votes().iter().any(|vote| vote.voter == own && vote.slot == t), 16)?;
        refuse_if(self.votes_used == self.votes.len(), 10)?;
        // "It answers the head and stores the own vote as waiting."
        let head = View::in_view(self).head(t);
        self.add_vote(Vote { voter: own, slot: t, number: head, in_view: false });
        self.set_done(beat);
        Ok(head)
    }

    /// Merge: brings all that waits into view and removes old votes.
    pub fn merge(&mut self, beat: u64) -> Result<(), u32> {
        self.test_due(beat, 2)?;
        // "All waiting entries come into view."
        self.bring_stock_into_view();
        self.set_done(beat);
        self.clock.merged = slot_of(beat);
        // Request 4: "At Merge of slot t, votes of slots below t-E are removed"
        self.remove_old_votes();
        Ok(())
    }

    /// Head: the head for a slot.
    pub fn head(&self, slot: u64) -> Result<u128, u32> {
        self.test_question(slot)?;
        Ok(View::in_view(self).head(slot))
    }

    /// Deep: the deep block for a slot.
    pub fn deep(&self, slot: u64) -> Result<u128, u32> {
        self.test_question(slot)?;
        Ok(View::in_view(self).deep(slot))
    }

    /// Fast: the fast block for a slot, if there is one.
    pub fn fast(&self, slot: u64) -> Result<Option<u128>, u32> {
        self.test_question(slot)?;
        Ok(View::in_view(self).fast(slot))
    }

    /// Request 13: the block that is sure for a slot while the looms of a set are silent; bit v stands for node v. None
    /// where there are too many fillings to try: this model does not say then.
    pub fn unheard(&self, slot: u64, silent: u64) -> Result<Option<u128>, u32> {
        self.test_question(slot)?;
        // Request 13: "25 when the set names a node not below n, tested after 17"
        refuse_if((self.settings.nodes..64).any(|node| silent >> node & 1 == 1), 25)?;
        Ok(View::in_view(self).unheard(slot, silent))
    }

    /// Write: writes a packet into the front of the buffer and answers its length.
    pub fn write(&self, proposal: bool, wide: bool, buffer: &mut [u8]) -> Result<usize, u32> {
        self.test_sound()?;
        let packet = if proposal { self.proposal(wide).ok_or(19u32)? } else { self.gossip(wide) };
        // Request 8: "23 when narrow writing meets a number whose upper half is not zero", "after 19 and before 18"
        refuse_if(!wide && packet.needs_wide(), 23)?;
        let bytes = packet.encode();
        // "18 buffer too short"
        refuse_if(buffer.len() < bytes.len(), 18)?;
        // "Bytes beyond the packet stay."
        buffer[..bytes.len()].copy_from_slice(&bytes);
        Ok(bytes.len())
    }

    /// "All calls but Open test first: 6 tables unsound."
    fn test_sound(&self) -> Result<(), u32> {
        refuse_if(!self.is_sound(), 6)
    }

    /// "7 beat below the one seen, or slot above the limit"
    fn test_beat(&self, beat: u64) -> Result<(), u32> {
        refuse_if(beat < self.clock.seen || slot_of(beat) > SLOT_LIMIT, 7)
    }

    /// The tests that Propose, Vote and Merge begin with.
    fn test_due(&self, beat: u64, phase: u64) -> Result<(), u32> {
        self.test_sound()?;
        self.test_beat(beat)?;
        // "11 phase not 0", and so for 1 and 2
        refuse_if(phase_of(beat) != phase, 11)?;
        // "12 beat already done"
        refuse_if(beat <= self.clock.done, 12)
    }

    /// "13 not joined": "It is joined for slot t if it last merged slot t-1."
    fn test_joined(&self, t: u64) -> Result<(), u32> {
        refuse_if(t.checked_sub(1) != Some(self.clock.merged), 13)
    }

    /// The tests of Receive but 10: the packet and what is new of it.
    fn read(&self, beat: u64, packet: &[u8]) -> Result<(Packet, Vec<Block>, Vec<Vote>), Refused> {
        self.test_sound().map_err(Refused::whole)?;
        self.test_beat(beat).map_err(Refused::whole)?;
        // Request 9: "24 when a packet to be read is longer than the node's limit, before 8"
        let longest = self.settings.profile.limits().packet_bytes;
        refuse_if(longest.is_some_and(|longest| packet.len() > longest), 24).map_err(Refused::whole)?;
        // "8 length, kind or zero fields wrong"
        let packet = Packet::decode(packet).ok_or(Refused::whole(8))?;
        // Request 1: "Blocks are tested in order, then votes, then the header"
        let new_blocks = self.new_blocks(beat, &packet)?;
        let new_votes = self.new_votes(beat, &packet)?;
        // Request 1: "21 when a proposal's header names no block of the packet or another slot"
        let named = |block: &PacketBlock| block.number == packet.number && block.slot == packet.slot;
        refuse_if(packet.is_proposal() && !packet.blocks.iter().any(named), 21).map_err(Refused::whole)?;
        Ok((packet, new_blocks, new_votes))
    }

    /// Request 12: the votes of a packet in its order, or its refusal "as Receive would", "on fresh tables with this
    /// node's settings and places". The tables must be sound; then Open does not refuse.
    fn votes_of(&self, beat: u64, packet: &[u8]) -> Result<Vec<PacketVote>, Refused> {
        let mut fresh = self.clone();
        fresh.open().map_err(Refused::whole)?;
        fresh.receive(beat, packet)?;
        Ok(Packet::decode(packet).expect("Receive has taken it").votes)
    }

    /// The tests of Head, Deep and Fast: "17 slot 0 or above the slot seen".
    fn test_question(&self, slot: u64) -> Result<(), u32> {
        self.test_sound()?;
        // Request 4: "Slots earlier than the one last merged can no longer be queried, so 17 covers them too."
        refuse_if(slot == 0 || slot < self.clock.merged || slot > slot_of(self.clock.seen), 17)
    }

    /// The packet's blocks that are new, or refusal 9 for the first that breaks a rule.
    fn new_blocks(&self, beat: u64, packet: &Packet) -> Result<Vec<Block>, Refused> {
        // "stock and earlier entries count as known"
        let mut known: HashMap<u128, (u128, u64)> =
            self.stock_blocks().iter().map(|block| (block.number, (block.parent, block.slot))).collect();
        let mut new = Vec::new();
        for (index, entry) in packet.blocks.iter().enumerate() {
            // Request 1: "9 is kept for blocks"
            let refused = Refused::entry(9, index);
            let slot = u64::from(entry.slot);
            // "block slot 0 or above the beat's slot"
            if slot == 0 || slot > slot_of(beat) {
                return Err(refused);
            }
            // "parent unknown"
            let &(_, parent_slot) = known.get(&entry.parent).ok_or(refused)?;
            // "slot not above the parent's"
            if slot <= parent_slot {
                return Err(refused);
            }
            match known.get(&entry.number) {
                // "An entry known already, or repeated in the packet, is not new."
                Some(&same) if same == (entry.parent, slot) => {}
                // "number known with another parent or slot"
                Some(_) => return Err(refused),
                None => {
                    known.insert(entry.number, (entry.parent, slot));
                    new.push(Block { number: entry.number, parent: entry.parent, slot, in_view: false });
                }
            }
        }
        Ok(new)
    }

    /// The packet's votes that are new, or refusal 20 for the first that breaks a rule. Its blocks must keep theirs.
    fn new_votes(&self, beat: u64, packet: &Packet) -> Result<Vec<Vote>, Refused> {
        let mut block_slots: HashMap<u128, u64> = self.stock_blocks().iter().map(|b| (b.number, b.slot)).collect();
        block_slots.extend(packet.blocks.iter().map(|b| (b.number, u64::from(b.slot))));
        let mut known: HashSet<(u64, u64, u128)> =
            self.stock_votes().iter().map(|vote| (vote.voter, vote.slot, vote.number)).collect();
        let mut new = Vec::new();
        for (index, entry) in packet.votes.iter().enumerate() {
            // Request 1: "20 when a vote breaks a vote rule"
            let refused = Refused::entry(20, index);
            let (voter, slot, number) = fields(entry);
            // "voter not below n"
            if voter >= self.settings.nodes {
                return Err(refused);
            }
            // "vote slot 0 or above the beat's slot"
            if slot == 0 || slot > slot_of(beat) {
                return Err(refused);
            }
            // "block unknown or of a later slot than the vote"
            let &block_slot = block_slots.get(&number).ok_or(refused)?;
            if block_slot > slot {
                return Err(refused);
            }
            // Request 4: an old vote "is accepted, not stored and not counted as new".
            // "An entry known already, or repeated in the packet, is not new."
            if !self.is_old(slot) && known.insert((voter, slot, number)) {
                new.push(Vote { voter, slot, number, in_view: false });
            }
        }
        Ok(new)
    }

    /// "brings its entries, the blocks they vote for and the ancestors of all these into view"
    fn bring_into_view(&mut self, packet: &Packet) {
        let votes: HashSet<(u64, u64, u128)> = packet.votes.iter().map(fields).collect();
        for vote in &mut self.votes[..self.votes_used] {
            vote.in_view |= votes.contains(&(vote.voter, vote.slot, vote.number));
        }
        let mut blocks: HashSet<u128> = packet.blocks.iter().map(|block| block.number).collect();
        // Request 4: of a vote that is not stored, it "brings that vote's block and its ancestors all the same".
        blocks.extend(packet.votes.iter().map(|vote| vote.number));
        // A parent stands earlier than its children, so going backwards finds all ancestors.
        for block in self.blocks[..self.blocks_used].iter_mut().rev() {
            if blocks.contains(&block.number) {
                block.in_view = true;
                blocks.insert(block.parent);
            }
        }
    }

    fn bring_stock_into_view(&mut self) {
        self.blocks[..self.blocks_used].iter_mut().for_each(|block| block.in_view = true);
        self.votes[..self.votes_used].iter_mut().for_each(|vote| vote.in_view = true);
    }

    /// Request 4: a vote of "a slot below the last merged slot less E". E is added to the vote's slot instead, so that
    /// nothing is old where the difference is below 0. A slot of the stock or of a packet is small enough for this.
    fn is_old(&self, slot: u64) -> bool {
        slot + self.settings.expiry < self.clock.merged
    }

    /// Takes the old votes out of the table.
    fn remove_old_votes(&mut self) {
        let kept: Vec<Vote> = self.stock_votes().iter().copied().filter(|vote| !self.is_old(vote.slot)).collect();
        // Request 4: "the others keep their order and move up"
        self.votes[..kept.len()].copy_from_slice(&kept);
        // Request 4: "the freed places at the end are set to zero and used by later votes"
        self.votes[kept.len()..self.votes_used].fill(ZERO_VOTE);
        self.votes_used = kept.len();
    }

    /// Puts a block at the table's end. A place must be free.
    fn add_block(&mut self, block: Block) {
        self.blocks[self.blocks_used] = block;
        self.blocks_used += 1;
    }

    /// Puts a vote at the table's end. A place must be free.
    fn add_vote(&mut self, vote: Vote) {
        self.votes[self.votes_used] = vote;
        self.votes_used += 1;
    }

    /// "Propose, Vote and Merge set seen and done."
    fn set_done(&mut self, beat: u64) {
        self.clock.seen = beat;
        self.clock.done = beat;
    }

    /// "Gossip writes the stock"
    fn gossip(&self, wide: bool) -> Packet {
        self.packet(if wide { 2 } else { 0 }, 0, 0, |_in_view| true)
    }

    /// "a proposal the view"; none where refusal 19 applies.
    fn proposal(&self, wide: bool) -> Option<Packet> {
        let kind = if wide { 3 } else { 1 };
        let t = slot_of(self.clock.seen);
        // "the beat seen is not phase 0 of a slot this node proposed"
        let phase = phase_of(self.clock.seen) == 0;
        // "This node proposed slot t if done is 3 × t, its index is t mod n"
        let own = self.clock.done == 3 * t && self.settings.own == t % self.settings.nodes;
        // "and the last block in view has slot t; that block is the proposed one"
        let last = self.stock_blocks().iter().rev().find(|block| block.in_view)?;
        (phase && own && last.slot == t).then(|| self.packet(kind, t, last.number, |in_view| in_view))
    }

    /// "Entries keep table order; block 0 is never written." The tables must be sound, so slots and voters fit.
    fn packet(&self, kind: u8, slot: u64, number: u128, wanted: impl Fn(bool) -> bool) -> Packet {
        let blocks = self.stock_blocks()[1..].iter().filter(|block| wanted(block.in_view));
        let votes = self.stock_votes().iter().filter(|vote| wanted(vote.in_view));
        Packet {
            kind,
            slot: slot as u32,
            number,
            blocks: blocks.map(|b| PacketBlock { number: b.number, parent: b.parent, slot: b.slot as u32 }).collect(),
            votes: votes.map(|v| PacketVote { voter: v.voter as u8, slot: v.slot as u32, number: v.number }).collect(),
        }
    }
}

/// Voter, slot and number of a packet's vote, as the table holds them.
fn fields(vote: &PacketVote) -> (u64, u64, u128) {
    (u64::from(vote.voter), u64::from(vote.slot), vote.number)
}
