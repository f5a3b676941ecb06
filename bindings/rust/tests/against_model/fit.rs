//! How often the calls of a test meet what request 10 says of the figures of a packet, and that these are what Receive then finds.

use crate::both::{votes, Answer, Both, Reply};
use likvost::{Memory, Profile, BLOCK_WORDS, VOTE_WORDS};
use likvost_model::Packet;

/// The counts of a test.
#[derive(Default)]
pub struct Fit {
    found: u64,
    nothing_new: u64,
    narrow: u64,
    proposals: u64,
    not_all_new: u64,
    old_votes: u64,
    lacks_blocks: u64,
    lacks_votes: u64,
    lacks_both: u64,
    rack_lacks: u64,
    past_rack_packet: u64,
}

impl Fit {
    pub fn list(&self) -> [(&'static str, u64); 11] {
        [
            ("figures that Receive then found", self.found),
            ("of these, with nothing new", self.nothing_new),
            ("figures above those of an empty packet for a narrow one", self.narrow),
            ("figures of proposals", self.proposals),
            ("figures where not all entries are new", self.not_all_new),
            ("figures of packets with an old vote that is not known", self.old_votes),
            ("figures where block places lack", self.lacks_blocks),
            ("figures where vote places lack", self.lacks_votes),
            ("figures where both lack", self.lacks_both),
            ("figures of racks that lack places", self.rack_lacks),
            ("figures of racks whose gossip would be too long for a rack", self.past_rack_packet),
        ]
    }

    /// Counts what was asked of a packet and what Receive answered then. The node had this memory before both.
    pub fn count(&mut self, node: &Both, before: &Memory, packet: &[u8], fitted: &Reply, received: &Reply) {
        let Ok(Answer::Figures { new_blocks, new_votes, bytes }) = *fitted else {
            assert_eq!(fitted, received, "a packet is refused as Receive refuses it");
            return;
        };
        let settings = node.settings();
        let (rack, packet) = (settings.profile == Profile::Rack, Packet::decode(packet).expect("it was not refused"));
        match *received {
            Ok(Answer::Received { new_blocks: blocks, new_votes: votes, .. }) => {
                let after = node.memory();
                let length = 25 + 36 * (after.blocks_used - 1) + 21 * after.votes_used;
                assert_eq!((new_blocks, new_votes, bytes), (blocks, votes, length as u64), "the figures are what Receive finds");
                self.found += 1;
                self.nothing_new += u64::from(new_blocks + new_votes == 0);
            }
            _ => {
                assert_eq!(*received, Err((10, None)), "the figures stand in place of 10 alone");
                let lacks = |used: usize, new: u64, places: usize| used + new as usize > places;
                match (
                    lacks(before.blocks_used, new_blocks, before.blocks.len() / BLOCK_WORDS),
                    lacks(before.votes_used, new_votes, before.votes.len() / VOTE_WORDS),
                ) {
                    (true, false) => self.lacks_blocks += 1,
                    (false, true) => self.lacks_votes += 1,
                    (true, true) => self.lacks_both += 1,
                    (false, false) => panic!("10 while places are free"),
                }
                self.rack_lacks += u64::from(rack);
            }
        }
        self.past_rack_packet += u64::from(rack && bytes > likvost::RACK_PACKET as u64);
        self.narrow += u64::from(packet.kind < 2 && new_blocks + new_votes > 0);
        self.proposals += u64::from(packet.kind % 2 == 1);
        self.not_all_new += u64::from(new_blocks + new_votes < (packet.blocks.len() + packet.votes.len()) as u64);
        let end = before.clock.merged.saturating_sub(settings.expiry);
        let mut old = packet.votes.iter().map(|vote| (u64::from(vote.voter), u64::from(vote.slot), vote.number));
        let is_known =
            |(voter, slot, number)| votes(before).any(|vote| (vote.voter, vote.slot, vote.number) == (voter, slot, number));
        self.old_votes += u64::from(old.any(|vote| vote.1 < end && !is_known(vote)));
    }
}
