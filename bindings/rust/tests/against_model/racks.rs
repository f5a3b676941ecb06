//! How often the calls of a test meet what request 9 says of racks.

use crate::both::{modelled, Answer, Both, Call, Reply};
use likvost::{Memory, Profile, Settings, BLOCK_WORDS, RACK_PACKET, VOTE_WORDS};
use likvost_model::Packet;

/// The counts of a test.
#[derive(Default)]
pub struct Racks {
    opened: u64,
    opened_with_most_nodes: u64,
    opened_with_most_places: u64,
    refused_by_nodes: u64,
    refused_by_block_places: u64,
    refused_by_vote_places: u64,
    unsound_by_nodes: u64,
    unsound_by_block_places: u64,
    unsound_by_vote_places: u64,
    /// By call.
    unsound: [u64; 12],
    /// By kind.
    too_long: [u64; 4],
    too_long_by_one: u64,
    too_long_for_16_bits: u64,
    /// By what a loom answers: carried out, or the refusal.
    too_long_beside: [u64; 25],
    too_long_brought: u64,
    wrong_beat_and_too_long: u64,
    unsound_and_too_long: u64,
    longest_narrow: u64,
    longest_wide: u64,
    one_shorter: u64,
    longest_malformed: u64,
    loom_took: u64,
    loom_malformed: u64,
    /// By call.
    lacked_places: [u64; 12],
    lacked_block_places: u64,
    lacked_vote_places: u64,
    /// By kind.
    written_too_long: [u64; 4],
    /// Counted by the test that does it.
    pub carried: u64,
}

impl Racks {
    pub fn list(&self) -> [(&'static str, u64); 50] {
        let beside = |refusal: usize| self.too_long_beside[refusal];
        [
            ("racks opened", self.opened),
            ("of these, with 16 nodes", self.opened_with_most_nodes),
            ("of these, with 64 block places and 256 vote places", self.opened_with_most_places),
            ("racks refused by 1 where a loom is opened", self.refused_by_nodes),
            ("racks refused by 5 for 65 block places", self.refused_by_block_places),
            ("racks refused by 5 for 257 vote places", self.refused_by_vote_places),
            ("racks unsound by the number of nodes alone", self.unsound_by_nodes),
            ("racks unsound by the number of block places alone", self.unsound_by_block_places),
            ("racks unsound by the number of vote places alone", self.unsound_by_vote_places),
            ("of these, in Receive", self.unsound[1]),
            ("of these, in Propose", self.unsound[2]),
            ("of these, in Vote", self.unsound[3]),
            ("of these, in Merge", self.unsound[4]),
            ("of these, in Head", self.unsound[5]),
            ("of these, in Deep", self.unsound[6]),
            ("of these, in Fast", self.unsound[7]),
            ("of these, in Settled", self.unsound[8]),
            ("of these, in Write", self.unsound[9]),
            ("of these, in Fit", self.unsound[10]),
            ("well-formed narrow gossip refused by 24", self.too_long[0]),
            ("well-formed narrow proposals refused by 24", self.too_long[1]),
            ("well-formed wide gossip refused by 24", self.too_long[2]),
            ("well-formed wide proposals refused by 24", self.too_long[3]),
            ("well-formed packets of 4,097 bytes refused by 24", self.too_long_by_one),
            ("packets refused by 24 whose length modulo 2^16 is at most 4,096", self.too_long_for_16_bits),
            ("packets refused by 24 that a loom takes", beside(0)),
            ("of these, proposals that come into view on a loom", self.too_long_brought),
            ("packets refused by 24 that a loom refuses by 8", beside(8)),
            ("packets refused by 24 that a loom refuses by 9", beside(9)),
            ("packets refused by 24 that a loom refuses by 20", beside(20)),
            ("packets refused by 24 that a loom refuses by 21", beside(21)),
            ("packets refused by 24 that a loom refuses by 10", beside(10)),
            ("packets refused by 7 that are too long as well", self.wrong_beat_and_too_long),
            ("packets refused by 6 that are too long as well", self.unsound_and_too_long),
            ("narrow packets of 4,096 bytes that a rack takes", self.longest_narrow),
            ("wide packets of 4,096 bytes that a rack takes", self.longest_wide),
            ("packets of 4,095 bytes that a rack takes", self.one_shorter),
            ("packets of 4,095 or 4,096 bytes that a rack refuses by 8", self.longest_malformed),
            ("packets of more bytes that a loom takes", self.loom_took),
            ("packets of more bytes that a loom refuses by 8", self.loom_malformed),
            ("Receives of racks that lack places", self.lacked_places[1]),
            ("Proposes of racks that lack a place", self.lacked_places[2]),
            ("Votes of racks that lack a place", self.lacked_places[3]),
            ("racks that lack block places and have 64", self.lacked_block_places),
            ("racks that lack vote places and have 256", self.lacked_vote_places),
            ("narrow gossip of racks of more than 4,096 bytes", self.written_too_long[0]),
            ("narrow proposals of racks of more than 4,096 bytes", self.written_too_long[1]),
            ("wide gossip of racks of more than 4,096 bytes", self.written_too_long[2]),
            ("wide proposals of racks of more than 4,096 bytes", self.written_too_long[3]),
            ("such gossip refused by a fresh rack and taken by a fresh loom", self.carried),
        ]
    }

    /// Counts a call on a node, which had this memory before it.
    pub fn count(&mut self, node: &Both, before: &Memory, call: &Call, reply: &Reply) {
        let settings = node.settings();
        if settings.profile == Profile::Loom {
            if let Call::Receive { packet, .. } = call {
                let longer = packet.len() > RACK_PACKET;
                self.loom_took += u64::from(longer && reply.is_ok());
                self.loom_malformed += u64::from(longer && *reply == Err((8, None)));
            }
            return;
        }
        let loom = Settings { profile: Profile::Loom, ..settings };
        let (block_places, vote_places) = (before.blocks.len() / BLOCK_WORDS, before.votes.len() / VOTE_WORDS);
        let past = [settings.nodes > 16, block_places > 64, vote_places > 256];
        match (call, reply) {
            (Call::Open, Ok(_)) => {
                self.opened += 1;
                self.opened_with_most_nodes += u64::from(settings.nodes == 16);
                self.opened_with_most_places += u64::from((block_places, vote_places) == (64, 256));
            }
            (Call::Open, Err((1, _))) => self.refused_by_nodes += u64::from(modelled(loom, before).open().is_ok()),
            (Call::Open, Err((5, _))) => {
                self.refused_by_block_places += u64::from((block_places, past[2]) == (65, false));
                self.refused_by_vote_places += u64::from((past[1], vote_places) == (false, 257));
            }
            (Call::Receive { beat, packet }, reply) => self.count_received(loom, before, *beat, packet, reply),
            (Call::Write { proposal, wide }, Ok(Answer::Length(length))) if *length > RACK_PACKET => {
                self.written_too_long[2 * usize::from(*wide) + usize::from(*proposal)] += 1;
            }
            _ => {}
        }
        match reply {
            // sound memory has no slot to ask for that is so large
            Err((6, _)) if node.is_readable() && modelled(loom, before).head(u64::MAX) == Err(17) => {
                self.unsound[call.index()] += 1;
                match past {
                    [true, false, false] => self.unsound_by_nodes += 1,
                    [false, true, false] => self.unsound_by_block_places += 1,
                    [false, false, true] => self.unsound_by_vote_places += 1,
                    _ => {}
                }
            }
            Err((10, _)) => {
                self.lacked_places[call.index()] += 1;
                self.lacked_block_places += u64::from(block_places == 64 && matches!(call, Call::Propose { .. }));
                self.lacked_vote_places += u64::from(vote_places == 256 && matches!(call, Call::Vote { .. }));
            }
            _ => {}
        }
    }

    /// Counts a Receive of a rack, which has these settings as a loom.
    fn count_received(&mut self, loom: Settings, before: &Memory, beat: u64, packet: &[u8], reply: &Reply) {
        let (length, decoded) = (packet.len(), Packet::decode(packet));
        let longer = length > RACK_PACKET;
        match reply {
            Ok(_) => {
                let wide = decoded.is_some_and(|packet| packet.kind > 1);
                self.longest_narrow += u64::from(length == RACK_PACKET && !wide);
                self.longest_wide += u64::from(length == RACK_PACKET && wide);
                self.one_shorter += u64::from(length == RACK_PACKET - 1);
            }
            Err((6, _)) => self.unsound_and_too_long += u64::from(longer),
            Err((7, _)) => self.wrong_beat_and_too_long += u64::from(longer),
            Err((8, _)) => self.longest_malformed += u64::from(length == RACK_PACKET || length == RACK_PACKET - 1),
            Err((24, _)) => {
                if let Some(packet) = decoded {
                    self.too_long[usize::from(packet.kind)] += 1;
                    self.too_long_by_one += u64::from(length == RACK_PACKET + 1);
                }
                self.too_long_for_16_bits += u64::from(length % (1 << 16) <= RACK_PACKET);
                match modelled(loom, before).receive(beat, packet) {
                    Ok(received) => {
                        self.too_long_beside[0] += 1;
                        self.too_long_brought += u64::from(received.brought);
                    }
                    Err(refused) => self.too_long_beside[refused.number as usize] += 1,
                }
            }
            Err(_) => {}
        }
    }
}
