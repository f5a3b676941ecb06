//! An executable model of one node, written from document 01 with requests 1, 2, 4, 8, 9, 10, 12 and 13.
//! Request 3 changes no answer.
//!
//! It says in the plainest way what each call answers and what it leaves behind. Comments in quotation marks are
//! words of document 01. Where these leave something open, READINGS.md says what was taken.
#![forbid(unsafe_code)]
#![warn(missing_docs)]

mod ask;
mod calls;
mod packet;
mod tables;
#[cfg(test)]
mod tests;
mod walks;

pub use ask::{chainask, fitask, pairask};
pub use calls::{Double, Figures, PairRefused, Received, Refused, Which};
pub use packet::{Packet, PacketBlock, PacketVote};
pub use tables::{Block, Clock, Node, Profile, Settings, Vote};
