//! A rack and a loom of the library, opened with the same nodes, index, expiry and depth, the loom with as many places or more. The same calls
//! are answered alike until the rack lacks places or meets a packet that is too long for it.

use crate::both::{zeroed, Answer, Call, Reply};
use crate::packets::{self, Numbers};
use crate::random::Random;
use likvost::{Memory, Node, Profile, Settings, BLOCK_WORDS, VOTE_WORDS};

const LISTS: usize = 1_000;
const LONGEST: usize = 300;

struct Pair {
    rack: Node,
    loom: Node,
}

/// The rows in use. The loom may have more that are not.
fn used(memory: &Memory) -> (&[u64], &[u64]) {
    (&memory.blocks[..BLOCK_WORDS * memory.blocks_used], &memory.votes[..VOTE_WORDS * memory.votes_used])
}

impl Pair {
    fn open(random: &mut Random) -> Pair {
        let nodes = random.pick(&[1, 2, 3, 5, 15, 16]);
        let (expiry, depth) = (random.pick(&[1, 2, 3, 14, 4096]), random.pick(&[1, 3, 4096]));
        let rack = Settings { profile: Profile::Rack, nodes, own: nodes / 2, expiry, depth };
        let loom = Settings { profile: Profile::Loom, ..rack };
        let (blocks, votes) = random.pick(&[(64, 256), (64, 256), (7, 99), (64, 5)]);
        let (more_blocks, more_votes) = random.pick(&[(0, 0), (1, 0), (0, 1), (1984, 7936)]);
        let open = |settings, memory| {
            let mut node = Node::from_memory(settings, memory);
            assert_eq!(Call::Open.make(&mut node, &mut []), Ok(Answer::Done));
            node
        };
        Pair { rack: open(rack, zeroed(blocks, votes)), loom: open(loom, zeroed(blocks + more_blocks, votes + more_votes)) }
    }

    /// Makes the call on both, and answers the replies of the rack and of the loom. They are the same unless the rack's is 10 or 24.
    fn make(&mut self, call: &Call, buffer: &mut [u8]) -> [Reply; 2] {
        let mut other = buffer.to_vec();
        let replies = [call.make(&mut self.rack, buffer), call.make(&mut self.loom, &mut other)];
        if by_room(&replies[0]).is_none() {
            let (rack, loom) = (self.rack.memory(), self.loom.memory());
            assert_eq!(replies[0], replies[1], "{call:?}");
            assert!(buffer == other, "{call:?}");
            assert_eq!(used(rack), used(loom), "{call:?}");
            assert_eq!(rack.clock, loom.clock, "{call:?}");
        }
        replies
    }
}

/// Whether a call is refused for want of room, or Compare refuses a packet so: by 10 or 24.
fn by_room(reply: &Reply) -> Option<u64> {
    match *reply {
        Err((number @ (10 | 24), _)) | Ok(Answer::PacketRefused { number: number @ (10 | 24), .. }) => Some(number),
        _ => None,
    }
}

/// The next call, most of them at the next beat or this one.
fn next_call(random: &mut Random, node: &Node, numbers: Numbers, about_longest: bool) -> Call {
    let (settings, memory) = (node.settings(), node.memory());
    let (seen, nodes) = (memory.clock.seen, settings.nodes);
    let beat = seen + random.pick(&[0, 0, 0, 1, 1, 1, 1, 1, 2, 9]);
    let slot = random.between(memory.clock.merged, seen / 3 + 1);
    match random.below(18) {
        0..=5 => match beat.max(seen + 1) {
            beat if beat % 3 == 0 => Call::Propose { beat, number: random.between(1, 1_000_000).into() },
            beat if beat % 3 == 1 => Call::Vote { beat },
            beat => Call::Merge { beat },
        },
        6 | 7 => Call::Receive { beat, packet: packets::made(random, numbers, settings, memory, beat) },
        8 => {
            let gossip = node.gossip().expect("the node is sound");
            Call::Receive { beat, packet: packets::damaged(random, &gossip) }
        }
        9 if about_longest => {
            let beat = beat.max(3);
            Call::Receive { beat, packet: packets::about_longest(random, numbers, settings, memory, beat) }
        }
        10 => Call::Receive { beat: seen - 1, packet: vec![0; random.pick(&[17, 4096, 4097])] },
        11 => Call::Head { slot },
        12 => Call::Deep { slot },
        13 => Call::Fast { slot },
        14 => Call::Settled { slot, silent: random.word() & random.pick(&[0, 1, 6, (1 << nodes) - 1, u64::MAX]) },
        16 if random.once_in(4) => {
            let [first, second] = packets::of_keepers(random, settings, 20);
            Call::Compare { beat: 60 + random.below(3), first, second }
        }
        15 => Call::Fit { beat, packet: packets::made(random, numbers, settings, memory, beat) },
        _ => Call::Write { proposal: random.once_in(2), wide: random.once_in(2) },
    }
}

#[test]
fn a_rack_answers_as_a_loom() {
    let random = &mut Random::new(9);
    // by call: lists that end with 10, and of these those that the loom goes on with
    let (mut lacked, mut loom_had) = ([0; 12], 0);
    // lists that end with 24, and of these those whose last packet the loom took
    let (mut too_long, mut loom_took) = (0, 0);
    // lists in which neither came; lists of 100 calls or more before the end, and all calls that were answered alike
    let (mut unending, mut long, mut alike) = (0, 0, 0);
    for list in 0..LISTS {
        let mut pair = Pair::open(random);
        let numbers = random.pick(&[Numbers::Old, Numbers::Any]);
        let about_longest = list % 2 == 0;
        let mut calls = 0;
        let end = loop {
            let call = next_call(random, &pair.rack, numbers, about_longest);
            let mut buffer = vec![7; random.pick(&[8_000, 8_000, 300])];
            let replies = pair.make(&call, &mut buffer);
            match by_room(&replies[0]) {
                Some(refusal) => break Some((call, refusal, replies[1])),
                _ if calls == LONGEST => break None,
                _ => calls += 1,
            }
        };
        alike += calls;
        long += usize::from(calls >= 100);
        match end {
            Some((call, 10, loom)) => {
                lacked[call.index()] += 1;
                loom_had += usize::from(loom.is_ok());
            }
            Some((_, _, loom)) => {
                too_long += 1;
                loom_took += usize::from(loom.is_ok());
            }
            None => unending += 1,
        }
    }
    println!("{alike} calls answered alike in {LISTS} lists, {long} of them with 100 or more; {unending} without an end");
    println!("ended by 10: Receive {}, Propose {}, Vote {}; the loom had places: {loom_had}", lacked[1], lacked[2], lacked[3]);
    println!("ended by 24: {too_long}; the loom took the packet: {loom_took}");
    let met = [lacked[1], lacked[2], lacked[3], loom_had, too_long, loom_took, unending, long];
    assert!(met.iter().all(|&times| times >= LISTS / 50), "{met:?}");
}
