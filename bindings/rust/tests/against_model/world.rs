//! A few nodes of one network that make calls, exchange packets and are lent damaged memory.

use crate::both::{blocks, number_of, votes, zeroed, Answer, Both, Call, Refused, Reply};
use crate::compare::Compare;
use crate::fit::Fit;
use crate::old_votes::OldVotes;
use crate::packets::{self, Numbers};
use crate::racks::Racks;
use crate::random::Random;
use crate::settled::Settled;
use crate::wide::Wide;
use likvost::{Clock, Memory, Profile, Settings, BLOCK_WORDS, RACK_PACKET, VOTE_WORDS};
use likvost_model::{Block, PacketBlock};

/// The last beat of the last slot.
const LAST_BEAT: u64 = 3 * 1_000_000_000 + 2;

/// All calls of a test: how many there were, what they answered, and the seed that repeats them.
pub struct Run {
    seed: u64,
    pub calls: u64,
    /// By call and refusal; 0 stands for a call that was carried out.
    pub replies: [[u64; 26]; 12],
    /// The largest index of a refused block and vote.
    pub deepest: [u64; 2],
    /// Proposals that came into view on arrival, and Fast blocks.
    pub viewed: u64,
    pub fast: u64,
    pub old_votes: OldVotes,
    pub wide: Wide,
    pub racks: Racks,
    pub settled: Settled,
    pub fit: Fit,
    pub compare: Compare,
}

impl Run {
    pub fn new(seed: u64) -> Run {
        Run {
            seed,
            calls: 0,
            replies: [[0; 26]; 12],
            deepest: [0; 2],
            viewed: 0,
            fast: 0,
            old_votes: OldVotes::default(),
            wide: Wide::default(),
            racks: Racks::default(),
            settled: Settled::default(),
            fit: Fit::default(),
            compare: Compare::default(),
        }
    }

    /// Makes a call on both sides; ends the test if they differ. Before a Receive both are asked what the packet would take.
    pub fn make(&mut self, node: &mut Both, call: &Call, buffer: &mut [u8]) -> Reply {
        self.calls += 1;
        let before = node.memory().clone();
        let Call::Receive { beat, packet } = call else { return self.make_alone(node, &before, call, buffer) };
        let fitted = self.make_alone(node, &before, &Call::Fit { beat: *beat, packet: packet.clone() }, &mut []);
        let received = self.make_alone(node, &before, call, buffer);
        self.fit.count(node, &before, packet, &fitted, &received);
        received
    }

    /// Compares two packets on both sides. It is not among the calls that are counted, which go on as without it.
    pub fn compare(&mut self, node: &mut Both, beat: u64, first: Vec<u8>, second: Vec<u8>) -> Reply {
        let before = node.memory().clone();
        let call = Call::Compare { beat, first: first.clone(), second: second.clone() };
        let reply = self.make_alone(node, &before, &call, &mut []);
        self.compare.count(before.clock.seen, beat, &first, &second, &reply);
        reply
    }

    /// Makes a call on a node that has this memory before it.
    fn make_alone(&mut self, node: &mut Both, before: &Memory, call: &Call, buffer: &mut [u8]) -> Reply {
        let reply = node.make(call, buffer).unwrap_or_else(|difference| {
            panic!("LIKVOST_SEED={}, call {}: {call:?} of {:?}: {difference}", self.seed, self.calls, node.settings())
        });
        self.old_votes.count(node, before, call, &reply);
        self.wide.count(node, before, call, &reply, buffer.len());
        self.racks.count(node, before, call, &reply);
        self.settled.count(node, before, call, &reply);
        self.replies[call.index()][reply.err().map_or(0, |(number, _)| number) as usize] += 1;
        match reply {
            Err((9, Some(index))) => self.deepest[0] = self.deepest[0].max(index),
            Err((20, Some(index))) => self.deepest[1] = self.deepest[1].max(index),
            Ok(Answer::Received { viewed: true, .. }) => self.viewed += 1,
            Ok(Answer::Block(_)) if matches!(call, Call::Fast { .. }) => self.fast += 1,
            _ => {}
        }
        reply
    }
}

pub struct World<'a> {
    run: &'a mut Run,
    random: Random,
    nodes: Vec<Both>,
    beat: u64,
    numbers: Numbers,
    packets: Vec<Vec<u8>>,
}

impl<'a> World<'a> {
    pub fn new(run: &'a mut Run, mut random: Random) -> World<'a> {
        // in half of the networks most nodes are racks
        let racks = random.once_in(2);
        let size = match racks {
            false => random.pick(&[1, 2, 3, 4, 5, 5, 7, 16, 33, 63, 64]),
            true => random.pick(&[1, 2, 3, 4, 5, 7, 15, 16, 16, 17]),
        };
        let expiry = random.pick(&[1, 2, 2, 3, 5, 100, 4096]);
        let depth = random.pick(&[1, 2, 3, 4, 7, 4096]);
        let mut nodes = Vec::new();
        for i in 0..size.min(random.between(1, 4)) {
            let own = if random.once_in(2) { i } else { size - 1 - i };
            let profile = if racks && !random.once_in(4) { Profile::Rack } else { Profile::Loom };
            let mut settings = Settings { profile, nodes: size, own, expiry, depth };
            let (blocks, votes) = match random.below(20) {
                0..=4 => (random.between(1, 4), random.between(1, 4)),
                5 => (random.between(25, 64), random.between(65, 256)),
                6..=11 if racks => random.pick(&[(64, 256), (64, 256), (64, 256), (65, 256), (65, 99), (64, 257), (9, 257)]),
                _ => (random.between(5, 24), random.between(5, 64)),
            };
            let mut memory = zeroed(blocks as usize, votes as usize);
            fill(&mut random, &mut memory);
            let mut node = Both::new(settings, memory);
            if run.make(&mut node, &Call::Open, &mut []).is_err() {
                // past the limits of a rack, so it is a loom
                settings.profile = Profile::Loom;
                node = Both::new(settings, node.memory().clone());
                run.make(&mut node, &Call::Open, &mut []).expect("the settings are in range");
            }
            if random.once_in(2) {
                // unused places may hold anything
                let mut memory = node.memory().clone();
                fill_unused(&mut random, &mut memory);
                node = Both::new(settings, memory);
            }
            nodes.push(node);
        }
        let numbers = random.pick(&[Numbers::Old, Numbers::Any]);
        let mut world = World { run, random, nodes, beat: 2, numbers, packets: Vec::new() };
        if world.random.once_in(5) {
            world.beat = LAST_BEAT - 3 * world.random.between(0, 8);
            for node in 0..world.nodes.len() {
                let beat = world.beat;
                let _ = world.make(node, Call::Merge { beat });
            }
        }
        world
    }

    /// Runs until this many calls were made, or the slots are over.
    pub fn go(&mut self, calls: u64) {
        let end = self.run.calls + self.random.between(100, 900);
        while self.run.calls < calls.min(end) && self.beat <= LAST_BEAT + 2 {
            if self.random.once_in(4) {
                self.compare_packets();
            }
            match self.random.below(124) {
                0..=18 => self.tick(),
                20..=41 => self.deliver(),
                42..=52 => self.receive_made(),
                53..=58 => self.receive_old_votes(),
                59..=72 => self.ask(),
                73..=76 => self.late(),
                19 | 77..=81 => self.write_odd(),
                82..=94 => self.trial(),
                95 => self.bring_twin(),
                96 => self.wide_beside_proposal(),
                97..=98 => self.carry_old_stock(),
                99 => self.reopen(),
                100..=111 => self.receive_about_longest(),
                112 => self.past_rack_limits(),
                113..=115 => self.fill_rack(),
                116..=117 => self.settle_tree(),
                _ => self.ask_settled(),
            }
        }
    }

    fn any(&mut self) -> usize {
        self.random.below(self.nodes.len() as u64) as usize
    }

    fn make(&mut self, node: usize, call: Call) -> Reply {
        self.run.make(&mut self.nodes[node], &call, &mut [])
    }

    /// The next beat: each node that is awake makes the call that is due and sends its packets.
    fn tick(&mut self) {
        self.beat += if self.random.once_in(30) { self.random.between(2, 20) } else { 1 };
        let beat = self.beat;
        for node in 0..self.nodes.len() {
            if self.random.once_in(5) {
                continue;
            }
            let made = self.due(node).is_ok();
            self.send(node, false);
            if beat % 3 == 0 && (made || self.random.once_in(4)) {
                self.send(node, true);
            }
        }
    }

    /// The call that is due at this beat.
    fn due(&mut self, node: usize) -> Reply {
        let beat = self.beat;
        let call = match beat % 3 {
            0 => Call::Propose { beat, number: self.number(node) },
            1 => Call::Vote { beat },
            _ => Call::Merge { beat },
        };
        self.make(node, call)
    }

    /// A node makes its call late in the beat, after it has received packets, or makes it again.
    fn late(&mut self) {
        let node = self.any();
        let _ = self.due(node);
        self.send(node, self.beat % 3 == 0);
    }

    /// A block number, mostly new.
    fn number(&mut self, node: usize) -> u128 {
        let known: Vec<Block> = blocks(self.nodes[node].memory()).collect();
        let random = &mut self.random;
        match random.below(12) {
            0 => random.word().into(),
            1 => random.pick(&known).number,
            2 => self.numbers.draw(random, 1, 400, &known),
            _ => self.numbers.draw(random, 1_000, 1_000_999, &known),
        }
    }

    /// Write, mostly wide, and the packet stays for others to receive.
    fn send(&mut self, node: usize, proposal: bool) {
        let wide = !self.random.once_in(3);
        let mut buffer = vec![0xa5; room(self.nodes[node].memory())];
        if let Ok(Answer::Length(length)) = self.run.make(&mut self.nodes[node], &Call::Write { proposal, wide }, &mut buffer) {
            buffer.truncate(length);
            if self.packets.len() == 24 {
                let at = self.random.below(24) as usize;
                self.packets.swap_remove(at);
            }
            self.packets.push(buffer);
        }
    }

    /// A sent packet reaches a node, sometimes in the other width or damaged.
    fn deliver(&mut self) {
        if self.packets.is_empty() {
            return self.tick();
        }
        let last = self.packets.len() as u64 - 1;
        let at = if self.random.once_in(2) { last } else { self.random.below(last + 1) } as usize;
        let mut packet = self.packets[at].clone();
        if self.random.once_in(6) {
            packet = packets::in_other_width(&packet);
        }
        if self.random.once_in(4) {
            packet = packets::damaged(&mut self.random, &packet);
        }
        let (node, beat) = (self.any(), self.beat);
        let _ = self.make(node, Call::Receive { beat, packet });
    }

    fn made_packet(&mut self, node: usize) -> Vec<u8> {
        let both = &self.nodes[node];
        packets::made(&mut self.random, self.numbers, both.settings(), both.memory(), self.beat)
    }

    /// A late block, and then a proposal with an old vote for it.
    fn receive_old_votes(&mut self) {
        let (node, beat) = (self.any(), self.beat);
        let both = &self.nodes[node];
        let packets = packets::with_old_votes(&mut self.random, self.numbers, both.settings(), both.memory(), beat);
        for packet in packets.into_iter().flatten() {
            let _ = self.make(node, Call::Receive { beat, packet });
        }
    }

    /// A packet that was made for the node.
    fn receive_made(&mut self) {
        let (node, beat) = (self.any(), self.beat);
        let packet = self.made_packet(node);
        let _ = self.make(node, Call::Receive { beat, packet });
    }

    fn slot(&mut self, node: usize) -> u64 {
        let clock = self.nodes[node].memory().clock;
        let seen = clock.seen / 3;
        match self.random.below(24) {
            0 => 0,
            1 => seen.saturating_add(1),
            2 => self.random.word(),
            3 => self.random.between(0, seen),
            4..=5 => clock.merged.saturating_sub(self.random.between(1, 6)),
            6..=10 => clock.merged,
            11..=13 => self.random.between(clock.merged, seen),
            _ => seen,
        }
    }

    fn ask(&mut self) {
        let node = self.any();
        let slot = self.slot(node);
        let calls = [Call::Head { slot }, Call::Deep { slot }, Call::Fast { slot }];
        let call = calls[self.random.below(3) as usize].clone();
        let _ = self.make(node, call);
    }

    /// The settled block.
    fn ask_settled(&mut self) {
        let node = self.any();
        let (slot, silent) = (self.slot(node), self.silent(node));
        let _ = self.make(node, Call::Settled { slot, silent });
    }

    fn silent(&mut self, node: usize) -> u64 {
        silent(&mut self.random, self.nodes[node].settings(), self.nodes[node].memory())
    }

    /// The settled block of a fresh node with a small tree and votes for its branches.
    fn settle_tree(&mut self) {
        let settings = Settings { profile: Profile::Loom, ..self.nodes[0].settings() };
        let slot = 20;
        let packet = packets::with_tree(&mut self.random, settings, slot - 1).encode();
        let beat = 3 * slot - 1;
        let mut fresh = receiver(self.run, settings, (16, 256), beat, packet).expect("it keeps the rules");
        for call in [Call::Merge { beat }, Call::Vote { beat: beat + 2 }] {
            self.run.make(&mut fresh, &call, &mut []).expect("it is due");
        }
        for _ in 0..4 {
            let silent = silent(&mut self.random, settings, fresh.memory());
            let _ = self.run.make(&mut fresh, &Call::Settled { slot, silent }, &mut []);
        }
    }

    /// Two packets held against each other, on a node or on a copy of it whose memory is damaged.
    fn compare_packets(&mut self) {
        let node = self.any();
        let mut copy = self.nodes[node].clone();
        if self.random.once_in(12) {
            let mut memory = copy.memory().clone();
            damage_rows(&mut self.random, &mut memory);
            copy = Both::new(copy.settings(), memory);
        }
        let settings = copy.settings();
        let slot = self.random.between(16, 24);
        let mut pair = packets::of_keepers(&mut self.random, settings, slot);
        for packet in &mut pair {
            match self.random.below(30) {
                0..=2 => *packet = packets::damaged(&mut self.random, packet),
                3 => {
                    let (memory, beat) = (self.nodes[node].memory(), self.beat.max(3));
                    *packet = packets::about_longest(&mut self.random, self.numbers, settings, memory, beat);
                }
                // one that a node sent, or one made for a node that knows more
                4 if !self.packets.is_empty() => {
                    *packet = self.packets[self.random.below(self.packets.len() as u64) as usize].clone()
                }
                5 => *packet = self.made_packet(node),
                _ => {}
            }
        }
        let beat = match self.random.below(20) {
            0 => self.odd_beat(),
            1 => self.random.below(4),
            2 => 3 * self.random.between(1, 16),
            _ => 3 * slot + self.random.below(3),
        };
        let [first, second] = pair;
        let _ = self.run.compare(&mut copy, beat, first, second);
    }

    /// Write with a buffer of any length.
    fn write_odd(&mut self) {
        let node = self.any();
        let mut buffer = vec![0; self.random.pick(&[0, 1, 16, 17, 18, 24, 25, 26, 37, 50, 61, 200, 700, 3000, 4096, 5000])];
        buffer.iter_mut().for_each(|byte| *byte = self.random.word() as u8);
        let call = self.write();
        let _ = self.run.make(&mut self.nodes[node], &call, &mut buffer);
    }

    /// Write, of either kind and width.
    fn write(&mut self) -> Call {
        Call::Write { proposal: self.random.once_in(2), wide: self.random.once_in(2) }
    }

    /// A copy of a node proposes a block with an old number, and then one whose number has an upper half waits: the whole store has it, the
    /// view has not.
    fn wide_beside_proposal(&mut self) {
        let node = self.any();
        let mut copy = self.nodes[node].clone();
        let Settings { nodes, own, .. } = copy.settings();
        let next = copy.memory().clock.seen / 3 + 1;
        let slot = next + (own + nodes - next % nodes) % nodes;
        let beat = 3 * slot;
        let number = self.random.between(1_201, 1_600).into();
        let wide = number_of(self.random.between(0, 400), self.random.between(1, 3));
        let waiting = packets::gossip(vec![PacketBlock { number: wide, parent: 0, slot: slot as u32 }], Vec::new());
        let calls =
            [Call::Merge { beat: beat - 1 }, Call::Propose { beat, number }, Call::Receive { beat, packet: waiting.encode() }];
        let writes = [(true, false), (false, false), (true, true)].map(|(proposal, wide)| Call::Write { proposal, wide });
        let mut buffer = vec![7; room(copy.memory()) + 36 + 36];
        for call in calls.iter().chain(&writes) {
            let _ = self.run.make(&mut copy, call, &mut buffer);
        }
    }

    /// A copy of a node has two blocks with the lower half in common and one voter's votes for both. A proposal brings one of them into view.
    fn bring_twin(&mut self) {
        let node = self.any();
        let mut copy = self.nodes[node].clone();
        let slot = copy.memory().clock.seen / 3 + 1;
        let beat = 3 * slot;
        let [gossip, proposal] = packets::with_twins(&mut self.random, copy.settings(), copy.memory(), beat);
        let calls = [
            Call::Receive { beat, packet: gossip },
            Call::Receive { beat, packet: proposal },
            Call::Head { slot },
            Call::Merge { beat: beat + 2 },
            Call::Fast { slot },
            Call::Vote { beat: beat + 4 },
        ];
        for call in &calls {
            let _ = self.run.make(&mut copy, call, &mut []);
        }
    }

    /// An old stock written wide, received by a fresh node and then written narrow gives the bytes of its own narrow gossip.
    fn carry_old_stock(&mut self) {
        let node = self.any();
        let both = &mut self.nodes[node];
        let Ok(narrow) = gossip(self.run, both, false) else { return };
        let packet = gossip(self.run, both, true).expect("there is room for it");
        let (memory, random) = (both.memory(), &mut self.random);
        let settings = Settings {
            own: random.below(both.settings().nodes),
            expiry: random.between(1, 4096),
            depth: random.between(1, 4096),
            ..both.settings()
        };
        let beat = memory.clock.seen;
        let places = (memory.blocks_used, memory.votes_used.max(1));
        let profile = if packet.len() > RACK_PACKET { Profile::Loom } else { settings.profile };
        let mut fresh =
            receiver(self.run, Settings { profile, ..settings }, places, beat, packet).expect("a fresh node takes it");
        assert_eq!(gossip(self.run, &mut fresh, false), Ok(narrow));
        self.run.wide.carried += 1;
    }

    /// Packets about as long as the longest that a rack reads, for a node or for a copy of it in the next slots. What is too long for it goes
    /// to a loom with the same tables.
    fn receive_about_longest(&mut self) {
        let rack = self.nodes.iter().position(|node| node.settings().profile == Profile::Rack);
        let node = rack.unwrap_or_else(|| self.any());
        let mut copy = self.nodes[node].clone();
        let ahead = !self.random.once_in(3);
        if rack.is_some() && !self.random.once_in(4) {
            copy = Both::new(copy.settings(), with_places(copy.memory(), 64, 256));
        }
        for _ in 0..self.random.between(1, 4) {
            let both = if ahead { &mut copy } else { &mut self.nodes[node] };
            let beat = match self.random.below(6) {
                0 => both.memory().clock.seen - 1,
                1..=4 if ahead => 3 * (both.memory().clock.seen / 3 + 1),
                _ if ahead => both.memory().clock.seen,
                _ => self.beat,
            };
            let (settings, memory, beat) = (both.settings(), both.memory().clone(), beat.max(3));
            let packet = packets::about_longest(&mut self.random, self.numbers, settings, &memory, beat);
            let call = Call::Receive { beat, packet };
            if self.run.make(both, &call, &mut []) == Err((24, None)) {
                let mut loom = Both::new(Settings { profile: Profile::Loom, ..settings }, memory);
                let _ = self.run.make(&mut loom, &call, &mut []);
            }
        }
    }

    /// Every call on a copy of a node that is a rack with one node, block place or vote place more than it may have.
    fn past_rack_limits(&mut self) {
        let node = self.any();
        let mut settings = Settings { profile: Profile::Rack, ..self.nodes[node].settings() };
        let nodes = settings.nodes;
        let mut memory = self.nodes[node].memory().clone();
        match self.random.below(5) {
            0 | 1 if nodes <= 16 => memory.blocks.resize(BLOCK_WORDS * 65, 0),
            2 | 3 if nodes <= 16 => memory.votes.resize(VOTE_WORDS * 257, 0),
            _ => settings.nodes = nodes.max(17),
        }
        let beat = self.beat.max(3);
        let (slot, number) = (self.slot(node), self.number(node));
        let silent = self.silent(node) | self.random.pick(&[0, 1 << 63]);
        let packet = packets::about_longest(&mut self.random, self.numbers, settings, &memory, beat);
        let calls = [
            Call::Receive { beat, packet },
            Call::Propose { beat, number },
            Call::Vote { beat },
            Call::Merge { beat },
            Call::Head { slot },
            Call::Deep { slot },
            Call::Fast { slot },
            Call::Settled { slot, silent },
            self.write(),
            Call::Open,
        ];
        let mut copy = Both::new(settings, memory);
        for call in &calls {
            let _ = self.run.make(&mut copy, call, &mut [7; 5000]);
        }
    }

    /// A copy of a node is a rack with all the places that there may be, and most of them become used. So its packets are longer than those
    /// that a rack reads. At times a place stays free for its block and its vote.
    fn fill_rack(&mut self) {
        let node = self.any();
        let settings = Settings { profile: Profile::Rack, ..self.nodes[node].settings() };
        let (memory, Settings { nodes, own, .. }) = (self.nodes[node].memory(), settings);
        if nodes > 16 || memory.blocks_used > 63 || memory.votes_used > 255 {
            return;
        }
        let free = self.random.below(2) as usize;
        let mut rack = Both::new(settings, with_places(memory, 64 - free, 256 - free));
        let mut numbers = self.numbers;
        if self.random.once_in(2) {
            self.run.make(&mut rack, &Call::Open, &mut []).expect("it has no more than a rack may have");
            numbers = Numbers::Old;
        }
        // the next slot of its own; there are entries in the one before
        let next = (rack.memory().clock.seen / 3 + 1).max(2);
        let slot = next + (own + nodes - next % nodes) % nodes;
        let beat = 3 * slot;
        if self.run.make(&mut rack, &Call::Merge { beat: beat - 1 }, &mut []).is_err() {
            return; // the slots are over
        }
        for _ in 0..self.random.between(4, 7) {
            let packet = packets::of_length(&mut self.random, numbers, settings, rack.memory(), beat - 1, RACK_PACKET, true);
            let _ = self.run.make(&mut rack, &Call::Receive { beat: beat - 1, packet: packet.encode() }, &mut []);
        }
        rack = Both::new(settings, with_places(rack.memory(), 64, 256));
        let number = match numbers {
            Numbers::Old => self.random.between(1_201, 1_600).into(),
            Numbers::Any => self.number(node),
        };
        let writes = [(true, true), (true, false)].map(|(proposal, wide)| Call::Write { proposal, wide });
        for call in [Call::Propose { beat, number }].iter().chain(&writes).chain(&[Call::Vote { beat: beat + 1 }]) {
            let _ = self.run.make(&mut rack, call, &mut [7; 7_669]);
        }
        let _ = gossip(self.run, &mut rack, false);
        let packet = gossip(self.run, &mut rack, true).expect("there is room for it");
        if packet.len() > RACK_PACKET {
            let seen = rack.memory().clock.seen;
            let refused = receiver(self.run, settings, (64, 256), seen, packet.clone());
            assert_eq!(refused.err(), Some((24, None)));
            let loom = Settings { profile: Profile::Loom, ..settings };
            let mut fresh = receiver(self.run, loom, (64, 256), seen, packet.clone()).expect("a fresh loom takes it");
            assert_eq!(gossip(self.run, &mut fresh, true), Ok(packet));
            self.run.racks.carried += 1;
        }
    }

    /// Opens a node again.
    fn reopen(&mut self) {
        let node = self.any();
        let _ = self.make(node, Call::Open);
    }

    /// A few calls on a copy of a node, most with odd arguments, and on damaged memory half of the time.
    fn trial(&mut self) {
        let node = self.any();
        if self.random.once_in(4) {
            return self.lend_old_vote(node);
        }
        let mut copy = self.nodes[node].clone();
        if self.random.once_in(2) {
            let mut settings = copy.settings();
            let mut memory = copy.memory().clone();
            match self.random.below(8) {
                0 | 1 => damage_settings(&mut self.random, &mut settings),
                2 => damage_clock(&mut self.random, &mut memory.clock),
                3 => damage_lengths(&mut self.random, &mut memory),
                _ => damage_rows(&mut self.random, &mut memory),
            }
            copy = Both::new(settings, memory);
        }
        for _ in 0..self.random.between(1, 3) {
            let beat = self.odd_beat();
            let slot = self.slot(node);
            let call = match self.random.below(13) {
                0 | 1 => Call::Receive { beat, packet: self.made_packet(node) },
                2 => Call::Propose { beat, number: self.number(node) },
                3 => Call::Vote { beat },
                4 => Call::Merge { beat },
                5 => Call::Head { slot },
                6 => Call::Deep { slot },
                7 => Call::Fast { slot },
                8 => Call::Settled { slot, silent: self.silent(node) },
                9 => self.write(),
                _ => Call::Open,
            };
            let mut buffer = [7; 1200];
            let _ = self.run.make(&mut copy, &call, &mut buffer);
        }
    }

    /// Calls on a copy of a node with a vote that is old already. No call leaves one, but the memory is sound.
    fn lend_old_vote(&mut self, node: usize) {
        let (settings, mut memory) = (self.nodes[node].settings(), self.nodes[node].memory().clone());
        let first = memory.clock.merged.saturating_sub(settings.expiry);
        if first < 2 || memory.votes_used == 0 {
            return;
        }
        let row = VOTE_WORDS * self.random.below(memory.votes_used as u64) as usize;
        // a waiting vote of the same voter for block 0
        memory.votes[row + 1..row + VOTE_WORDS].copy_from_slice(&[self.random.between(1, first - 1), 0, 0, 0]);
        let (beat, slot) = (self.beat.next_multiple_of(3), self.slot(node));
        let packets = packets::with_old_votes(&mut self.random, self.numbers, settings, &memory, beat);
        let mut copy = Both::new(settings, memory);
        for packet in packets.into_iter().flatten() {
            let _ = self.run.make(&mut copy, &Call::Receive { beat, packet }, &mut []);
        }
        let due = [Call::Vote { beat: beat + 1 }, Call::Merge { beat: beat + 2 }];
        let others = [Call::Head { slot }, Call::Write { proposal: false, wide: true }];
        for call in [&due[self.random.below(2) as usize], &others[self.random.below(2) as usize]] {
            let _ = self.run.make(&mut copy, call, &mut [7; 5000]);
        }
    }

    fn odd_beat(&mut self) -> u64 {
        let ahead = self.random.between(1, 9);
        self.random.pick(&[
            self.beat,
            self.beat,
            self.beat + 1,
            self.beat + ahead,
            self.beat.saturating_sub(ahead),
            0,
            2,
            3,
            LAST_BEAT,
            LAST_BEAT - ahead,
            LAST_BEAT + 1,
            u64::MAX,
        ])
    }
}

/// The gossip that a node writes.
fn gossip(run: &mut Run, node: &mut Both, wide: bool) -> Result<Vec<u8>, Reply> {
    let mut buffer = vec![7; room(node.memory())];
    match run.make(node, &Call::Write { proposal: false, wide }, &mut buffer) {
        Ok(Answer::Length(length)) => buffer.truncate(length),
        reply => return Err(reply),
    }
    Ok(buffer)
}

/// A fresh node with so many places for blocks and votes that has received the packet, or why it refused.
fn receiver(
    run: &mut Run,
    settings: Settings,
    (block_places, vote_places): (usize, usize),
    beat: u64,
    packet: Vec<u8>,
) -> Result<Both, Refused> {
    let mut fresh = Both::new(settings, zeroed(block_places, vote_places));
    run.make(&mut fresh, &Call::Open, &mut []).expect("the settings are in range");
    run.make(&mut fresh, &Call::Receive { beat, packet }, &mut []).map(|_| fresh)
}

/// A set of silent nodes, mostly so few that the model soon says the settled block.
fn silent(random: &mut Random, settings: Settings, memory: &Memory) -> u64 {
    let nodes = settings.nodes;
    let all = u64::MAX >> (64 - nodes);
    match random.below(20) {
        0 | 1 => return 0,
        2 => return all,
        3 | 4 => return random.word(),
        // node n and at times others
        5 | 6 => return 1_u64.checked_shl(nodes as u32).unwrap_or(0) | random.word() & random.pick(&[0, 1, all]),
        _ => {}
    }
    let voters: Vec<u64> = votes(memory).map(|vote| vote.voter).collect();
    let most = if random.once_in(50) { 20_000 } else { 500 };
    let (mut silent, mut fillings) = (0, 1);
    for _ in 0..random.between(1, 4) {
        fillings *= memory.blocks_used + 1;
        if fillings > most && silent != 0 {
            break;
        }
        let voter = if voters.is_empty() || random.once_in(3) { random.below(nodes) } else { random.pick(&voters) };
        silent |= 1 << voter;
    }
    silent
}

/// Bytes that the node's packets fit in.
fn room(memory: &Memory) -> usize {
    25 + 36 * memory.blocks_used.min(100) + 21 * memory.votes_used.min(300)
}

/// The memory with so many places, zero where they are more.
fn with_places(memory: &Memory, blocks: usize, votes: usize) -> Memory {
    let mut memory = memory.clone();
    memory.blocks.resize(BLOCK_WORDS * blocks, 0);
    memory.votes.resize(VOTE_WORDS * votes, 0);
    memory
}

fn fill(random: &mut Random, memory: &mut Memory) {
    memory.blocks.iter_mut().chain(&mut memory.votes).for_each(|word| *word = random.word());
    memory.blocks_used = random.word() as usize;
    memory.votes_used = random.word() as usize;
    memory.clock = Clock { seen: random.word(), done: random.word(), merged: random.word(), proposed: random.word() };
}

fn fill_unused(random: &mut Random, memory: &mut Memory) {
    let (blocks, votes) = (BLOCK_WORDS * memory.blocks_used, VOTE_WORDS * memory.votes_used);
    memory.blocks[blocks..].iter_mut().chain(&mut memory.votes[votes..]).for_each(|word| *word = random.word());
}

fn damage_settings(random: &mut Random, settings: &mut Settings) {
    let value = random.pick(&[0, 1, 2, 16, 17, 64, 65, 4096, 4097, u64::MAX]);
    match random.below(5) {
        0 => settings.nodes = value,
        1 => settings.own = value,
        2 => settings.expiry = value,
        3 => settings.depth = value,
        _ if settings.profile == Profile::Loom => settings.profile = Profile::Rack,
        _ => settings.profile = Profile::Loom,
    }
}

fn damage_clock(random: &mut Random, clock: &mut Clock) {
    let field = match random.below(4) {
        0 => &mut clock.seen,
        1 => &mut clock.done,
        2 => &mut clock.merged,
        _ => &mut clock.proposed,
    };
    *field = match random.below(8) {
        0 => u64::MAX,
        1 => LAST_BEAT + random.below(3),
        2 => 6_148_914_691_236_517_204 + random.below(3), // three times this is about 2^64
        3 => random.below(4),
        4 => field.wrapping_sub(1),
        5 => *field ^ 1 << random.below(64),
        _ => field.wrapping_add(random.between(1, 3)),
    };
}

fn damage_lengths(random: &mut Random, memory: &mut Memory) {
    let (words, used, width) = if random.once_in(2) {
        (&mut memory.blocks, &mut memory.blocks_used, BLOCK_WORDS)
    } else {
        (&mut memory.votes, &mut memory.votes_used, VOTE_WORDS)
    };
    match random.below(8) {
        0 => *used = random.pick(&[0, 1, usize::MAX, usize::MAX / width, usize::MAX / width + 1, 1 << 62]),
        1 => *used = used.wrapping_add(1),
        2 => *used = used.wrapping_sub(1),
        3 => *used = words.len() / width + random.below(2) as usize,
        4 => words.clear(),
        5 => words.truncate(random.below(words.len() as u64 + 1) as usize),
        6 => words.resize(words.len() + random.between(1, 8) as usize, 0),
        _ => words.resize(width * random.pick(&[64, 65, 256, 257, 2048, 2049, 8192, 8193]), 0),
    }
}

/// One change in the used rows, which may leave the memory sound.
fn damage_rows(random: &mut Random, memory: &mut Memory) {
    // where the upper halves stand
    let (words, used, width, upper) = if random.once_in(2) {
        (&mut memory.blocks, memory.blocks_used, BLOCK_WORDS, random.pick(&[1, 3]))
    } else {
        (&mut memory.votes, memory.votes_used, VOTE_WORDS, 3)
    };
    if used == 0 || used > words.len() / width {
        return;
    }
    let other = width * random.below(used as u64) as usize;
    let row = if random.once_in(6) { 0 } else { width * random.below(used as u64) as usize };
    let field = random.below(width as u64) as usize;
    let (at, mark) = (row + field, row + width - 1);
    match random.below(11) {
        // two rows change places
        0 => (0..width).for_each(|i| words.swap(row + i, other + i)),
        // a row stands twice
        1 => words.copy_within(row..row + width, other),
        // a field of another row
        2 => words[at] = words[other + field],
        3 => words[mark] ^= 1,
        4 => words[mark] = random.pick(&[2, 256, 1 << 32, u64::MAX]),
        5 => words[at] = random.word(),
        6 => words[at] = words[at].wrapping_add(random.pick(&[1, u64::MAX])),
        7..=8 => words[row + upper] = random.pick(&[0, 1, 2, 1 << 63]),
        9 => words.swap(row + upper - 1, row + upper),
        _ => words[at] = random.below(4),
    }
}
