//! How often the calls of a test meet what request 8 says of numbers with two halves, and of narrow and wide packets.

use crate::both::{blocks, halves, modelled, votes, Answer, Both, Call, Reply};
use crate::packets::needs_wide;
use likvost::{Memory, Settings};
use likvost_model::{Node, Packet};
use std::collections::{HashMap, HashSet};

/// The counts of a test.
#[derive(Default)]
pub struct Wide {
    /// By kind.
    accepted: [u64; 4],
    brought_narrow: u64,
    brought_wide: u64,
    narrow_beside_upper: u64,
    no_kind: u64,
    not_zero_above: u64,
    wrong_length: u64,
    lower_half_known: u64,
    lower_half_zero: u64,
    parent_by_lower_half: u64,
    voted_by_lower_half: u64,
    named_by_lower_half: u64,
    votes_for_twins: u64,
    waits_beside_twin: u64,
    proposed_lower_half_known: u64,
    by_upper_half: u64,
    settled_by_upper_half: u64,
    unsound_by_upper_half: u64,
    /// By kind.
    written: [u64; 4],
    too_wide_gossip: u64,
    too_wide_proposal: u64,
    too_wide_and_short: u64,
    no_proposal_and_too_wide: u64,
    narrow_proposal_beside_wide: u64,
    /// Counted by the test that does it.
    pub carried: u64,
}

impl Wide {
    pub fn list(&self) -> [(&'static str, u64); 31] {
        [
            ("narrow gossip with entries accepted", self.accepted[0]),
            ("narrow proposals accepted", self.accepted[1]),
            ("wide gossip with entries accepted", self.accepted[2]),
            ("wide proposals accepted", self.accepted[3]),
            ("narrow proposals that came into view", self.brought_narrow),
            ("wide proposals that came into view", self.brought_wide),
            ("narrow packets accepted where the table has an upper half", self.narrow_beside_upper),
            ("packets of a kind above 3", self.no_kind),
            ("wide gossip whose number is not 0 by its upper half alone", self.not_zero_above),
            ("wide packets of a wrong length", self.wrong_length),
            ("new blocks with the lower half of a known one", self.lower_half_known),
            ("new blocks with the lower half of block 0", self.lower_half_zero),
            ("blocks refused whose parent is known by its lower half alone", self.parent_by_lower_half),
            ("votes refused whose block is known by its lower half alone", self.voted_by_lower_half),
            ("headers refused that name a block by its lower half alone", self.named_by_lower_half),
            ("new votes of a voter that differ in the upper half alone", self.votes_for_twins),
            ("votes that wait where one with the same lower half is brought", self.waits_beside_twin),
            ("numbers proposed whose lower half is known", self.proposed_lower_half_known),
            ("answers that would be others by the lower half first", self.by_upper_half),
            ("of these, settled blocks", self.settled_by_upper_half),
            ("memory that is unsound by an upper half alone", self.unsound_by_upper_half),
            ("gossip with entries written narrow", self.written[0]),
            ("proposals written narrow", self.written[1]),
            ("gossip with entries written wide", self.written[2]),
            ("proposals written wide", self.written[3]),
            ("narrow gossip refused by 23", self.too_wide_gossip),
            ("narrow proposals refused by 23", self.too_wide_proposal),
            ("refusals by 23 where the buffer is too short as well", self.too_wide_and_short),
            ("refusals by 19 where a number is too wide as well", self.no_proposal_and_too_wide),
            ("narrow proposals written while an upper half waits", self.narrow_proposal_beside_wide),
            ("old stocks carried wide and written narrow", self.carried),
        ]
    }

    /// Counts a call on a node, which had this memory before it. The buffer that was passed has so many bytes.
    pub fn count(&mut self, node: &Both, before: &Memory, call: &Call, reply: &Reply, buffer: usize) {
        match (call, reply) {
            (Call::Receive { packet, .. }, Ok(Answer::Received { viewed, .. })) => {
                let packet = Packet::decode(packet).expect("it was accepted");
                self.count_accepted(node, before, &packet, *viewed);
            }
            (Call::Receive { packet, .. }, Err((8, _))) => self.count_malformed(packet),
            (Call::Receive { packet, .. }, Err((number @ (9 | 20 | 21), index))) => {
                let packet = Packet::decode(packet).expect("its entries were tested");
                self.count_refused(before, &packet, *number, index.unwrap_or(0) as usize);
            }
            (Call::Propose { number, .. }, Ok(_)) => {
                let known = blocks(before).any(|block| lower(block.number) == lower(*number));
                self.proposed_lower_half_known += u64::from(known);
            }
            (Call::Write { proposal, wide }, reply) => {
                // the blocks and votes that it writes
                let blocks: Vec<_> = blocks(before).skip(1).filter(|block| block.in_view || !proposal).collect();
                let votes = votes(before).filter(|vote| vote.in_view || !proposal).count();
                match reply {
                    Ok(_) => {
                        let kind = 2 * usize::from(*wide) + usize::from(*proposal);
                        self.written[kind] += u64::from(!blocks.is_empty() || votes > 0);
                        self.narrow_proposal_beside_wide += u64::from(!wide && has_upper_half(before));
                    }
                    Err((23, _)) => {
                        let refused = if *proposal { &mut self.too_wide_proposal } else { &mut self.too_wide_gossip };
                        *refused += 1;
                        self.too_wide_and_short += u64::from(buffer < 17 + 20 * blocks.len() + 13 * votes);
                    }
                    Err((19, _)) => {
                        let too_wide = !wide && blocks.iter().any(|block| upper(block.number) != 0);
                        self.no_proposal_and_too_wide += u64::from(too_wide);
                    }
                    Err(_) => {}
                }
            }
            _ => {}
        }
        match reply {
            Ok(Answer::Block(answer)) if has_upper_half(before) => {
                let other = by_lower_half(node.settings(), before, call);
                let differs = u64::from(other.is_some_and(|other| other != *answer));
                self.by_upper_half += differs;
                self.settled_by_upper_half += if matches!(call, Call::Settled { .. }) { differs } else { 0 };
            }
            Err((6, _)) if node.is_readable() && has_upper_half(before) => {
                let mut model = modelled(node.settings(), before);
                each_number(&mut model, |number| lower(number).into());
                // sound memory has no slot to ask for that is so large
                self.unsound_by_upper_half += u64::from(model.head(u64::MAX) == Err(17));
            }
            _ => {}
        }
    }

    fn count_accepted(&mut self, node: &Both, before: &Memory, packet: &Packet, viewed: bool) {
        let narrow = packet.kind < 2;
        self.accepted[usize::from(packet.kind)] += u64::from(!packet.blocks.is_empty() || !packet.votes.is_empty());
        self.brought_narrow += u64::from(viewed && narrow);
        self.brought_wide += u64::from(viewed && !narrow && needs_wide(packet));
        self.narrow_beside_upper += u64::from(narrow && has_upper_half(before));
        let mut known: HashSet<u64> = blocks(before).map(|block| lower(block.number)).collect();
        for block in blocks(node.memory()).skip(before.blocks_used) {
            self.lower_half_zero += u64::from(lower(block.number) == 0);
            self.lower_half_known += u64::from(!known.insert(lower(block.number)));
        }
        let mut cast: HashMap<(u64, u64, u64), u64> = HashMap::new();
        for (i, vote) in votes(node.memory()).enumerate() {
            let earlier = cast.insert((vote.voter, vote.slot, lower(vote.number)), upper(vote.number));
            self.votes_for_twins += u64::from(i >= before.votes_used && earlier.is_some());
        }
        if viewed {
            let of = |voter: u64, slot: u64, number: u128| (voter, slot, lower(number));
            let votes_brought = packet.votes.iter().map(|vote| of(vote.voter.into(), vote.slot.into(), vote.number));
            let votes_brought: HashSet<_> = votes_brought.collect();
            let waiting = votes(node.memory()).filter(|vote| !vote.in_view);
            let beside = waiting.filter(|vote| votes_brought.contains(&of(vote.voter, vote.slot, vote.number)));
            self.waits_beside_twin += beside.count() as u64;
        }
    }

    fn count_malformed(&mut self, packet: &[u8]) {
        match packet.first() {
            Some(2 | 3) => {
                // The same packet without what must be zero in gossip.
                let mut zeroed = packet.to_vec();
                zeroed.iter_mut().take(21).skip(1).for_each(|byte| *byte = 0);
                if Packet::decode(&zeroed).is_none() {
                    self.wrong_length += 1;
                } else {
                    self.not_zero_above += u64::from(packet[1..13].iter().all(|byte| *byte == 0));
                }
            }
            Some(4..) => self.no_kind += 1,
            _ => {}
        }
    }

    fn count_refused(&mut self, before: &Memory, packet: &Packet, refusal: u64, index: usize) {
        let entries = &packet.blocks[..if refusal == 9 { index } else { packet.blocks.len() }];
        let known: Vec<u128> = blocks(before).map(|b| b.number).chain(entries.iter().map(|b| b.number)).collect();
        let by_lower_half = |number: u128| !known.contains(&number) && known.iter().any(|k| lower(*k) == lower(number));
        match refusal {
            9 => self.parent_by_lower_half += u64::from(by_lower_half(packet.blocks[index].parent)),
            20 => self.voted_by_lower_half += u64::from(by_lower_half(packet.votes[index].number)),
            _ => {
                let of_slot = packet.blocks.iter().filter(|block| block.slot == packet.slot);
                let named = of_slot.map(|block| block.number).any(|number| lower(number) == lower(packet.number));
                self.named_by_lower_half += u64::from(named);
            }
        }
    }
}

fn lower(number: u128) -> u64 {
    halves(number)[0]
}

fn upper(number: u128) -> u64 {
    halves(number)[1]
}

/// Whether a number of the tables has an upper half. In sound ones a block's number has it then.
fn has_upper_half(memory: &Memory) -> bool {
    let numbers = blocks(memory).flat_map(|block| [block.number, block.parent]);
    numbers.chain(votes(memory).map(|vote| vote.number)).any(|number| upper(number) != 0)
}

fn each_number(node: &mut Node, to: impl Fn(u128) -> u128) {
    for block in &mut node.blocks {
        (block.number, block.parent) = (to(block.number), to(block.parent));
    }
    node.votes.iter_mut().for_each(|vote| vote.number = to(vote.number));
}

/// What the call answers if numbers are compared by the lower half first: as on a node with the halves of every number exchanged.
fn by_lower_half(settings: Settings, before: &Memory, call: &Call) -> Option<u128> {
    let exchanged = |number: u128| number.rotate_left(64);
    let mut node = modelled(settings, before);
    each_number(&mut node, exchanged);
    let answer = match call {
        Call::Propose { beat, number } => node.propose(*beat, exchanged(*number)),
        Call::Vote { beat } => node.vote(*beat),
        Call::Head { slot } => node.head(*slot),
        Call::Deep { slot } => node.deep(*slot),
        // few ways to count, since it is asked twice
        Call::Settled { slot, silent } if silent.count_ones() < 3 => return node.unheard(*slot, *silent).ok()?.map(exchanged),
        _ => return None,
    };
    answer.ok().map(exchanged)
}
