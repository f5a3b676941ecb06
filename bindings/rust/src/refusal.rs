use std::fmt;

/// Why a call was refused: the first reason that applies, in the order that each call tests them. Nothing has changed then.
///
/// ```
/// use likvost::{Node, Profile, Refusal, Settings};
///
/// let settings = Settings { profile: Profile::Loom, nodes: 3, own: 0, expiry: 4, depth: 1 };
/// let refusal = Node::open(Settings { nodes: 65, ..settings }, 16, 32).unwrap_err();
/// assert_eq!(refusal, Refusal::NodesOutOfRange);
/// assert_eq!(refusal.number(), 1);
/// assert_eq!(refusal.to_string(), "nodes out of range");
///
/// // A wide gossip packet with no blocks and two votes of slot 1 for block 0: one of node 1, and one of node 7 of 3.
/// let mut packet = vec![2];
/// packet.extend([0; 22]);
/// packet.extend([2, 0]);
/// for voter in [1, 7] {
///     packet.extend([voter, 1, 0, 0, 0]);
///     packet.extend([0; 16]);
/// }
/// let refusal = Node::open(settings, 16, 32).unwrap().receive(3, &packet).unwrap_err();
/// assert_eq!(refusal, Refusal::BadVote(1));
/// assert_eq!((refusal.number(), refusal.index()), (20, Some(1)));
/// assert_eq!(refusal.to_string(), "vote 1 of the packet breaks a rule");
/// ```
#[derive(Clone, Copy, Debug, PartialEq, Eq, Hash)]
pub enum Refusal {
    /// 1: nodes out of range.
    NodesOutOfRange,
    /// 2: the own index is not below nodes.
    OwnOutOfRange,
    /// 3: expiry out of range.
    ExpiryOutOfRange,
    /// 4: depth out of range.
    DepthOutOfRange,
    /// 5: a table's length is out of range.
    LengthOutOfRange,
    /// 6: the lent memory is unsound.
    Unsound,
    /// 7: the beat is below the one seen, or its slot is above the limit.
    WrongBeat,
    /// 8: a malformed packet.
    PacketMalformed,
    /// 9: a block of the packet breaks a rule. Its index among the packet's blocks, from 0.
    BadBlock(u64),
    /// 10: not enough free places.
    TooFewPlaces,
    /// 11: not the phase of this call.
    WrongPhase,
    /// 12: the beat is done already.
    BeatDone,
    /// 13: not joined for this slot.
    NotJoined,
    /// 14: another node's slot.
    NotProposer,
    /// 15: the block number is known.
    NumberKnown,
    /// 16: already voted in this slot.
    AlreadyVoted,
    /// 17: slot 0, a slot before the one last merged, or one above the slot seen.
    SlotOutOfRange,
    /// 18: the buffer is too short.
    BufferTooShort,
    /// 19: no own proposal of this beat.
    NoOwnProposal,
    /// 20: a vote of the packet breaks a rule. Its index among the packet's votes, from 0.
    BadVote(u64),
    /// 21: a proposal's header names no block of the packet, or another slot.
    BadHeader,
    /// 23: narrow writing meets a number of more than 8 bytes.
    NumberTooWide,
    /// 24: the packet is longer than this node's [profile](crate::Profile) allows.
    PacketTooLong,
    /// 25: a set of silent nodes names one that is not below nodes.
    SilentOutOfRange,
}

impl Refusal {
    /// The refusal with this number and index; `None` for 0, a call that was carried out.
    pub(crate) fn from_answer(number: u64, index: u64) -> Option<Refusal> {
        Some(match number {
            0 => return None,
            1 => Refusal::NodesOutOfRange,
            2 => Refusal::OwnOutOfRange,
            3 => Refusal::ExpiryOutOfRange,
            4 => Refusal::DepthOutOfRange,
            5 => Refusal::LengthOutOfRange,
            6 => Refusal::Unsound,
            7 => Refusal::WrongBeat,
            8 => Refusal::PacketMalformed,
            9 => Refusal::BadBlock(index),
            10 => Refusal::TooFewPlaces,
            11 => Refusal::WrongPhase,
            12 => Refusal::BeatDone,
            13 => Refusal::NotJoined,
            14 => Refusal::NotProposer,
            15 => Refusal::NumberKnown,
            16 => Refusal::AlreadyVoted,
            17 => Refusal::SlotOutOfRange,
            18 => Refusal::BufferTooShort,
            19 => Refusal::NoOwnProposal,
            20 => Refusal::BadVote(index),
            21 => Refusal::BadHeader,
            23 => Refusal::NumberTooWide,
            24 => Refusal::PacketTooLong,
            25 => Refusal::SilentOutOfRange,
            _ => unreachable!("no call answers this number"),
        })
    }

    /// The number by which document 01 names it.
    pub fn number(self) -> u8 {
        match self {
            Refusal::NodesOutOfRange => 1,
            Refusal::OwnOutOfRange => 2,
            Refusal::ExpiryOutOfRange => 3,
            Refusal::DepthOutOfRange => 4,
            Refusal::LengthOutOfRange => 5,
            Refusal::Unsound => 6,
            Refusal::WrongBeat => 7,
            Refusal::PacketMalformed => 8,
            Refusal::BadBlock(_) => 9,
            Refusal::TooFewPlaces => 10,
            Refusal::WrongPhase => 11,
            Refusal::BeatDone => 12,
            Refusal::NotJoined => 13,
            Refusal::NotProposer => 14,
            Refusal::NumberKnown => 15,
            Refusal::AlreadyVoted => 16,
            Refusal::SlotOutOfRange => 17,
            Refusal::BufferTooShort => 18,
            Refusal::NoOwnProposal => 19,
            Refusal::BadVote(_) => 20,
            Refusal::BadHeader => 21,
            Refusal::NumberTooWide => 23,
            Refusal::PacketTooLong => 24,
            Refusal::SilentOutOfRange => 25,
        }
    }

    /// The index of the refused block or vote in its section of the packet, where one was refused.
    pub fn index(self) -> Option<u64> {
        match self {
            Refusal::BadBlock(index) | Refusal::BadVote(index) => Some(index),
            _ => None,
        }
    }
}

impl fmt::Display for Refusal {
    fn fmt(&self, f: &mut fmt::Formatter<'_>) -> fmt::Result {
        f.write_str(match self {
            Refusal::BadBlock(index) => return write!(f, "block {index} of the packet breaks a rule"),
            Refusal::BadVote(index) => return write!(f, "vote {index} of the packet breaks a rule"),
            Refusal::NodesOutOfRange => "nodes out of range",
            Refusal::OwnOutOfRange => "own index not below nodes",
            Refusal::ExpiryOutOfRange => "expiry out of range",
            Refusal::DepthOutOfRange => "depth out of range",
            Refusal::LengthOutOfRange => "a table's length is out of range",
            Refusal::Unsound => "the lent memory is unsound",
            Refusal::WrongBeat => "beat below the one seen, or slot above the limit",
            Refusal::PacketMalformed => "malformed packet",
            Refusal::TooFewPlaces => "not enough free places",
            Refusal::WrongPhase => "not the phase of this call",
            Refusal::BeatDone => "beat already done",
            Refusal::NotJoined => "not joined for this slot",
            Refusal::NotProposer => "another node's slot",
            Refusal::NumberKnown => "block number already known",
            Refusal::AlreadyVoted => "already voted in this slot",
            Refusal::SlotOutOfRange => "slot 0, before the one last merged, or above the slot seen",
            Refusal::BufferTooShort => "buffer too short",
            Refusal::NoOwnProposal => "no own proposal of this beat",
            Refusal::BadHeader => "the proposal's header does not fit its blocks",
            Refusal::NumberTooWide => "narrow writing meets a number of more than 8 bytes",
            Refusal::PacketTooLong => "packet too long for this node",
            Refusal::SilentOutOfRange => "a silent node's index is not below nodes",
        })
    }
}

impl std::error::Error for Refusal {}
