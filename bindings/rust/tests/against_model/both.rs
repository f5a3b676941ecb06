//! One node twice: the proved library and the model. Every call is made on both, and all that it leaves is compared.
//!
//! The model has tables of blocks and votes. How tables are lent, which words a row has, is said here: the model does not know it.

use crate::old_votes::Removed;
use likvost::{Clock, CompareRefusal, Equivocation, Memory, Node, Profile, Settings, Width, BLOCK_WORDS, VOTE_WORDS};
use likvost_model as model;
use std::fmt::Debug;

/// A call with its arguments.
#[derive(Clone, Debug)]
pub enum Call {
    Open,
    Receive { beat: u64, packet: Vec<u8> },
    Propose { beat: u64, number: u128 },
    Vote { beat: u64 },
    Merge { beat: u64 },
    Head { slot: u64 },
    Deep { slot: u64 },
    Fast { slot: u64 },
    Settled { slot: u64, silent: u64 },
    Write { proposal: bool, wide: bool },
    Fit { beat: u64, packet: Vec<u8> },
    Compare { beat: u64, first: Vec<u8>, second: Vec<u8> },
}

impl Call {
    pub const NAMES: [&'static str; 12] =
        ["Open", "Receive", "Propose", "Vote", "Merge", "Head", "Deep", "Fast", "Settled", "Write", "Fit", "Compare"];

    /// The place of the call's name in `NAMES`.
    pub fn index(&self) -> usize {
        match self {
            Call::Open => 0,
            Call::Receive { .. } => 1,
            Call::Propose { .. } => 2,
            Call::Vote { .. } => 3,
            Call::Merge { .. } => 4,
            Call::Head { .. } => 5,
            Call::Deep { .. } => 6,
            Call::Fast { .. } => 7,
            Call::Settled { .. } => 8,
            Call::Write { .. } => 9,
            Call::Fit { .. } => 10,
            Call::Compare { .. } => 11,
        }
    }

    /// Makes the call on a node of the library. The buffer is Write's.
    pub fn make(&self, node: &mut Node, buffer: &mut [u8]) -> Reply {
        let reply = match self {
            Call::Open => {
                let (settings, mut memory) = (node.settings(), node.memory().clone());
                let reply = Node::open_in(settings, &mut memory);
                *node = Node::from_memory(settings, memory);
                reply.map(|()| Answer::Done)
            }
            Call::Receive { beat, packet } => node.receive(*beat, packet).map(|r| Answer::Received {
                new_blocks: r.new_blocks,
                new_votes: r.new_votes,
                viewed: r.viewed,
            }),
            Call::Propose { beat, number } => node.propose(*beat, *number).map(Answer::Block),
            Call::Vote { beat } => node.vote(*beat).map(Answer::Block),
            Call::Merge { beat } => node.merge(*beat).map(|()| Answer::Done),
            Call::Head { slot } => node.head(*slot).map(Answer::Block),
            Call::Deep { slot } => node.deep(*slot).map(Answer::Block),
            Call::Fast { slot } => node.fast(*slot).map(|found| found.map_or(Answer::Nothing, Answer::Block)),
            Call::Settled { slot, silent } => node.settled(*slot, *silent).map(Answer::Block),
            Call::Write { proposal, wide } => {
                let width = if *wide { Width::Wide } else { Width::Narrow };
                node.write(*proposal, width, buffer).map(Answer::Length)
            }
            Call::Fit { beat, packet } => node.fit(*beat, packet).map(|f| Answer::Figures {
                new_blocks: f.new_blocks,
                new_votes: f.new_votes,
                bytes: f.bytes,
            }),
            Call::Compare { beat, first, second } => match node.compare(*beat, first, second) {
                Ok(None) => Ok(Answer::Nothing),
                Ok(Some(Equivocation { voter, slot, block, other })) => Ok(Answer::Equivocation { voter, slot, block, other }),
                Err(CompareRefusal::Neither(refusal)) => Err(refusal),
                Err(CompareRefusal::First(refusal)) => {
                    Ok(Answer::PacketRefused { second: false, number: refusal.number().into(), index: refusal.index() })
                }
                Err(CompareRefusal::Second(refusal)) => {
                    Ok(Answer::PacketRefused { second: true, number: refusal.number().into(), index: refusal.index() })
                }
            },
        };
        reply.map_err(|refusal| (u64::from(refusal.number()), refusal.index()))
    }
}

/// What a call that was carried out answers. `Unsaid` is the model's where silent nodes may count in too many ways to try.
#[derive(Clone, Copy, Debug, PartialEq, Eq)]
pub enum Answer {
    Done,
    Received {
        new_blocks: u64,
        new_votes: u64,
        viewed: bool,
    },
    Block(u128),
    Nothing,
    Unsaid,
    Length(usize),
    Figures {
        new_blocks: u64,
        new_votes: u64,
        bytes: u64,
    },
    Equivocation {
        voter: u64,
        slot: u64,
        block: u128,
        other: u128,
    },
    /// Compare refuses the first or the second packet.
    PacketRefused {
        second: bool,
        number: u64,
        index: Option<u64>,
    },
}

/// The number of a refusal, and the index of the refused entry where there is one.
pub type Refused = (u64, Option<u64>);

/// The answer, or the refusal.
pub type Reply = Result<Answer, Refused>;

/// Memory of zeros with so many places. It is not sound before Open.
pub fn zeroed(block_places: usize, vote_places: usize) -> Memory {
    Memory {
        blocks: vec![0; BLOCK_WORDS * block_places],
        votes: vec![0; VOTE_WORDS * vote_places],
        blocks_used: 0,
        votes_used: 0,
        clock: Clock::default(),
    }
}

#[derive(Clone)]
pub struct Both {
    proved: Node,
    model: model::Node,
    /// A used row may have a mark that is neither 0 nor 1. No row of the model is like that, and every call but Open refuses it by 6.
    readable: bool,
    /// The words that the model's tables make, and in unused places what stood there.
    lent: Memory,
    /// For the counts of a test.
    pub removed: Removed,
    /// Whether the model said what the last call answers.
    pub said: bool,
}

impl Both {
    /// A node on memory that may hold anything.
    pub fn new(settings: Settings, memory: Memory) -> Both {
        Both {
            model: modelled(settings, &memory),
            readable: marks::<BLOCK_WORDS>(&memory.blocks, memory.blocks_used)
                && marks::<VOTE_WORDS>(&memory.votes, memory.votes_used),
            lent: memory.clone(),
            proved: Node::from_memory(settings, memory),
            removed: Removed::default(),
            said: true,
        }
    }

    pub fn settings(&self) -> Settings {
        self.proved.settings()
    }

    /// The memory, which is the same on both sides.
    pub fn memory(&self) -> &Memory {
        &self.lent
    }

    /// Whether every mark of the used rows is 0 or 1.
    pub fn is_readable(&self) -> bool {
        self.readable
    }

    /// Makes the call on both. The buffer is Write's. Says what differs.
    pub fn make(&mut self, call: &Call, buffer: &mut [u8]) -> Result<Reply, String> {
        let mut other = buffer.to_vec();
        let model = self.on_model(call, &mut other);
        let proved = call.make(&mut self.proved, buffer);
        self.said = model != Ok(Answer::Unsaid);
        if self.said || proved.is_err() {
            same("the answer", &proved, &model)?;
        }
        same_words("the buffer", buffer, &other)?;
        let (p, m) = (self.proved.memory(), &self.lent);
        same_words("the block table", &p.blocks, &m.blocks)?;
        same_words("the vote table", &p.votes, &m.votes)?;
        same("the count of blocks", &p.blocks_used, &m.blocks_used)?;
        same("the count of votes", &p.votes_used, &m.votes_used)?;
        same("the clock", &p.clock, &m.clock)?;
        Ok(proved)
    }

    fn on_model(&mut self, call: &Call, buffer: &mut [u8]) -> Reply {
        let node = &mut self.model;
        let whole = |number: u32| (u64::from(number), None);
        let reply = match call {
            Call::Open => node.open().map(|()| Answer::Done).map_err(whole),
            _ if !self.readable => Err(whole(6)),
            Call::Receive { beat, packet } => match node.receive(*beat, packet) {
                Ok(r) => Ok(Answer::Received { new_blocks: r.new_blocks, new_votes: r.new_votes, viewed: r.brought }),
                Err(refused) => Err((u64::from(refused.number), refused.index)),
            },
            Call::Propose { beat, number } => node.propose(*beat, *number).map(Answer::Block).map_err(whole),
            Call::Vote { beat } => node.vote(*beat).map(Answer::Block).map_err(whole),
            Call::Merge { beat } => node.merge(*beat).map(|()| Answer::Done).map_err(whole),
            Call::Head { slot } => node.head(*slot).map(Answer::Block).map_err(whole),
            Call::Deep { slot } => node.deep(*slot).map(Answer::Block).map_err(whole),
            Call::Fast { slot } => node.fast(*slot).map(|found| found.map_or(Answer::Nothing, Answer::Block)).map_err(whole),
            Call::Settled { slot, silent } => {
                node.unheard(*slot, *silent).map(|found| found.map_or(Answer::Unsaid, Answer::Block)).map_err(whole)
            }
            Call::Write { proposal, wide } => node.write(*proposal, *wide, buffer).map(Answer::Length).map_err(whole),
            Call::Fit { beat, packet } => match node.figures(*beat, packet) {
                Ok(f) => Ok(Answer::Figures { new_blocks: f.new_blocks, new_votes: f.new_votes, bytes: f.bytes }),
                Err(refused) => Err((u64::from(refused.number), refused.index)),
            },
            Call::Compare { beat, first, second } => match node.pair(*beat, first, second) {
                Ok(None) => Ok(Answer::Nothing),
                Ok(Some(model::Double { voter, slot, blocks: [block, other] })) => {
                    Ok(Answer::Equivocation { voter, slot, block, other })
                }
                Err(model::PairRefused { which, refused }) => {
                    let (number, index) = (u64::from(refused.number), refused.index);
                    match which {
                        model::Which::Neither => Err((number, index)),
                        which => Ok(Answer::PacketRefused { second: which == model::Which::Second, number, index }),
                    }
                }
            },
        };
        if reply.is_ok() {
            if let Call::Open = call {
                self.readable = true;
                self.lent.blocks.fill(0);
                self.lent.votes.fill(0);
            }
            self.store();
        }
        reply
    }

    /// The words of the model's rows that are in use or were before the call, its counts and its clock.
    fn store(&mut self) {
        let (node, lent) = (&self.model, &mut self.lent);
        let blocks = node.blocks.iter().take(node.blocks_used.max(lent.blocks_used));
        for (row, b) in lent.blocks.chunks_exact_mut(BLOCK_WORDS).zip(blocks) {
            let ([number, number_upper], [parent, parent_upper]) = (halves(b.number), halves(b.parent));
            row.copy_from_slice(&[number, number_upper, parent, parent_upper, b.slot, u64::from(b.in_view)]);
        }
        let votes = node.votes.iter().take(node.votes_used.max(lent.votes_used));
        for (row, v) in lent.votes.chunks_exact_mut(VOTE_WORDS).zip(votes) {
            let [number, number_upper] = halves(v.number);
            row.copy_from_slice(&[v.voter, v.slot, number, number_upper, u64::from(v.in_view)]);
        }
        lent.blocks_used = node.blocks_used;
        lent.votes_used = node.votes_used;
        let model::Clock { seen, done, merged, proposed } = node.clock;
        lent.clock = Clock { seen, done, merged, proposed };
    }
}

/// The model's node on the same memory. What an unused place holds is left out.
pub fn modelled(settings: Settings, memory: &Memory) -> model::Node {
    let Settings { profile, nodes, own, expiry, depth } = settings;
    let profile = match profile {
        Profile::Loom => model::Profile::Loom,
        Profile::Rack => model::Profile::Rack,
    };
    let Clock { seen, done, merged, proposed } = memory.clock;
    model::Node {
        settings: model::Settings { profile, nodes, own, expiry, depth },
        clock: model::Clock { seen, done, merged, proposed },
        blocks: places(&memory.blocks, memory.blocks_used).map(block).collect(),
        blocks_used: memory.blocks_used,
        votes: places(&memory.votes, memory.votes_used).map(vote).collect(),
        votes_used: memory.votes_used,
    }
}

/// The rows of a table, zero in unused places. A length that is no multiple of a row's is no table's, and has no places.
fn places<const WORDS: usize>(words: &[u64], used: usize) -> impl Iterator<Item = [u64; WORDS]> + '_ {
    let words = if words.len() % WORDS == 0 { words } else { &[] };
    words.chunks_exact(WORDS).enumerate().map(move |(i, row)| if i < used { row.try_into().unwrap() } else { [0; WORDS] })
}

/// Whether the marks of the used rows are 0 or 1.
fn marks<const WORDS: usize>(words: &[u64], used: usize) -> bool {
    places::<WORDS>(words, used).all(|row| row[WORDS - 1] <= 1)
}

fn block([number, number_upper, parent, parent_upper, slot, mark]: [u64; BLOCK_WORDS]) -> model::Block {
    model::Block { number: number_of(number, number_upper), parent: number_of(parent, parent_upper), slot, in_view: mark == 1 }
}

fn vote([voter, slot, number, number_upper, mark]: [u64; VOTE_WORDS]) -> model::Vote {
    model::Vote { voter, slot, number: number_of(number, number_upper), in_view: mark == 1 }
}

/// The used rows of the block table.
pub fn blocks(memory: &Memory) -> impl Iterator<Item = model::Block> + '_ {
    places(&memory.blocks, memory.blocks_used).take(memory.blocks_used).map(block)
}

/// The used rows of the vote table.
pub fn votes(memory: &Memory) -> impl Iterator<Item = model::Vote> + '_ {
    places(&memory.votes, memory.votes_used).take(memory.votes_used).map(vote)
}

/// The number with these halves.
pub fn number_of(lower: u64, upper: u64) -> u128 {
    u128::from(lower) | u128::from(upper) << 64
}

/// The lower and the upper half of a number.
pub fn halves(number: u128) -> [u64; 2] {
    [number as u64, (number >> 64) as u64]
}

fn same<T: PartialEq + Debug>(what: &str, proved: &T, model: &T) -> Result<(), String> {
    if proved == model {
        Ok(())
    } else {
        Err(format!("{what}: proved {proved:?}, model {model:?}"))
    }
}

fn same_words<T: PartialEq + Debug>(what: &str, proved: &[T], model: &[T]) -> Result<(), String> {
    same(&format!("the length of {what}"), &proved.len(), &model.len())?;
    match proved.iter().zip(model).position(|(p, m)| p != m) {
        None => Ok(()),
        Some(at) => Err(format!("{what} at {at}: proved {:?}, model {:?}", proved[at], model[at])),
    }
}
