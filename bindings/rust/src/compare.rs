use crate::{ffi, Refusal};
use std::fmt;

/// Two different votes of one voter in one slot, as [`Node::compare`](crate::Node::compare) finds them in two packets.
#[derive(Clone, Copy, Debug, PartialEq, Eq, Hash)]
pub struct Equivocation {
    /// The lowest voter that has any.
    pub voter: u64,
    /// Its earliest slot with two different votes.
    pub slot: u64,
    /// The block of its first vote there, in the order of the first packet and then the second.
    pub block: u128,
    /// The block of its first vote there for another one.
    pub other: u128,
}

/// Why [`Node::compare`](crate::Node::compare) was refused, and by which packet.
#[derive(Clone, Copy, Debug, PartialEq, Eq, Hash)]
pub enum CompareRefusal {
    /// Neither packet was looked at.
    Neither(Refusal),
    /// Receive would refuse the first packet.
    First(Refusal),
    /// Receive would take the first packet and refuse the second.
    Second(Refusal),
}

impl CompareRefusal {
    /// Why, whichever packet it is.
    pub fn refusal(self) -> Refusal {
        match self {
            CompareRefusal::Neither(refusal) | CompareRefusal::First(refusal) | CompareRefusal::Second(refusal) => refusal,
        }
    }

    /// The refusal in an answer, if it is one.
    pub(crate) fn from_answer(compared: &ffi::Compared) -> Option<CompareRefusal> {
        let refusal = Refusal::from_answer(compared.refusal, compared.index)?;
        Some(match compared.packet {
            1 => CompareRefusal::First(refusal),
            2 => CompareRefusal::Second(refusal),
            _ => CompareRefusal::Neither(refusal),
        })
    }
}

impl fmt::Display for CompareRefusal {
    fn fmt(&self, f: &mut fmt::Formatter<'_>) -> fmt::Result {
        match self {
            CompareRefusal::Neither(refusal) => refusal.fmt(f),
            CompareRefusal::First(refusal) => write!(f, "the first packet: {refusal}"),
            CompareRefusal::Second(refusal) => write!(f, "the second packet: {refusal}"),
        }
    }
}

impl std::error::Error for CompareRefusal {}
