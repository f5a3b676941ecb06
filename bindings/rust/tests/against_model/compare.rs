//! How often the calls of a test meet what request 12 says of two packets.

use crate::both::{Answer, Reply};
use likvost_model::{Packet, PacketVote};
use std::collections::HashMap;

/// The counts of a test.
#[derive(Default)]
pub struct Compare {
    nobody: u64,
    nobody_with_repeats: u64,
    in_first: u64,
    in_second: u64,
    between: u64,
    higher_block_first: u64,
    third_block: u64,
    earlier_slot_of_another: u64,
    later_slot_of_its_own: u64,
    halves: u64,
    widths: u64,
    proposals: u64,
    below_beat_seen: u64,
    /// By packet and refusal.
    pub refused: [[u64; 26]; 2],
}

impl Compare {
    pub fn list(&self) -> [(&'static str, u64); 13] {
        [
            ("pairs of packets in which nobody voted twice", self.nobody),
            ("of these, with a vote that stands in both", self.nobody_with_repeats),
            ("equivocations within the first packet", self.in_first),
            ("equivocations within the second packet, where the first has no vote of this voter and slot", self.in_second),
            ("equivocations between the packets", self.between),
            ("equivocations where the block of the first vote has the higher number", self.higher_block_first),
            ("equivocations of three blocks or more", self.third_block),
            ("equivocations where a higher voter has one in an earlier slot", self.earlier_slot_of_another),
            ("equivocations of a voter that has one in a later slot too", self.later_slot_of_its_own),
            ("equivocations of blocks with one half in common", self.halves),
            ("pairs of packets of both widths", self.widths),
            ("pairs of packets with a proposal", self.proposals),
            ("pairs of packets that are compared at a beat below the one seen", self.below_beat_seen),
        ]
    }

    /// Counts what was answered for two packets at a beat, by a node that has seen another.
    pub fn count(&mut self, seen: u64, beat: u64, first: &[u8], second: &[u8], reply: &Reply) {
        if let Ok(Answer::PacketRefused { second, number, .. }) = *reply {
            self.refused[usize::from(second)][number as usize] += 1;
        }
        let Ok(answer @ (Answer::Nothing | Answer::Equivocation { .. })) = *reply else { return };
        let [one, two] = [first, second].map(|packet| Packet::decode(packet).expect("it was not refused"));
        self.widths += u64::from(one.kind / 2 != two.kind / 2);
        self.proposals += u64::from(one.kind % 2 == 1 || two.kind % 2 == 1);
        self.below_beat_seen += u64::from(beat < seen);
        // which blocks each voter voted for in each slot, and how many of them the first packet has
        let mut blocks: HashMap<(u8, u32), (Vec<u128>, usize)> = HashMap::new();
        let mut repeats = false;
        let add = |blocks: &mut HashMap<_, (Vec<u128>, usize)>, vote: &PacketVote| {
            let (known, _) = blocks.entry((vote.voter, vote.slot)).or_default();
            let is_known = known.contains(&vote.number);
            if !is_known {
                known.push(vote.number);
            }
            is_known
        };
        one.votes.iter().for_each(|vote| _ = add(&mut blocks, vote));
        blocks.values_mut().for_each(|(known, in_first)| *in_first = known.len());
        two.votes.iter().for_each(|vote| repeats |= add(&mut blocks, vote));
        let Answer::Equivocation { voter, slot, block, other } = answer else {
            self.nobody += 1;
            self.nobody_with_repeats += u64::from(repeats);
            return;
        };
        let (known, in_first) = &blocks[&(voter as u8, slot as u32)];
        match in_first {
            0 => self.in_second += 1,
            1 => self.between += 1,
            _ => self.in_first += 1,
        }
        self.higher_block_first += u64::from(block > other);
        self.third_block += u64::from(known.len() > 2);
        let twice =
            || blocks.iter().filter(|(_, (known, _))| known.len() > 1).map(|(key, _)| (u64::from(key.0), u64::from(key.1)));
        self.earlier_slot_of_another += u64::from(twice().any(|(v, s)| v > voter && s < slot));
        self.later_slot_of_its_own += u64::from(twice().any(|(v, s)| v == voter && s > slot));
        let half = |number: u128| (number as u64, (number >> 64) as u64);
        self.halves += u64::from(half(block).0 == half(other).0 || half(block).1 == half(other).1 && half(block).1 != 0);
    }
}
