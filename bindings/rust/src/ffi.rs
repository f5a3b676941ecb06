//! The exported functions of crates/capi, as include/likvost.h declares them.

use crate::Clock;

/// What a node is opened with. The profile may be any number; that of a [`crate::Profile`] names one.
#[repr(C)]
#[derive(Clone, Copy)]
pub struct Settings {
    pub profile: u64,
    pub nodes: u64,
    pub own: u64,
    pub expiry: u64,
    pub depth: u64,
}

impl From<crate::Settings> for Settings {
    fn from(settings: crate::Settings) -> Settings {
        let crate::Settings { profile, nodes, own, expiry, depth } = settings;
        Settings { profile: profile as u64, nodes, own, expiry, depth }
    }
}

/// A block's number: lower + 2^64 * upper.
#[repr(C)]
pub struct Number {
    pub lower: u64,
    pub upper: u64,
}

impl From<u128> for Number {
    fn from(number: u128) -> Number {
        Number { lower: number as u64, upper: (number >> 64) as u64 }
    }
}

impl From<Number> for u128 {
    fn from(number: Number) -> u128 {
        u128::from(number.upper) << 64 | u128::from(number.lower)
    }
}

#[repr(C)]
pub struct Answer {
    pub refusal: u64,
    pub index: u64,
    pub value: Number,
    pub new_blocks: u64,
    pub new_votes: u64,
    pub viewed: u64,
    pub clock: Clock,
}

#[repr(C)]
pub struct Found {
    pub refusal: u64,
    pub found: u64,
    pub value: Number,
}

#[repr(C)]
pub struct Fitted {
    pub refusal: u64,
    pub index: u64,
    pub new_blocks: u64,
    pub new_votes: u64,
    pub bytes: u64,
}

#[repr(C)]
pub struct Compared {
    pub refusal: u64,
    pub index: u64,
    pub packet: u64,
    pub found: u64,
    pub voter: u64,
    pub slot: u64,
    pub block: Number,
    pub other: Number,
}

#[repr(C)]
pub struct Written {
    pub refusal: u64,
    pub bytes: u64,
}

/// Head, Deep or Fast.
pub type Question = unsafe extern "C" fn(Settings, Clock, *const u64, usize, usize, *const u64, usize, usize, u64) -> Found;

extern "C" {
    pub fn likvost_open(
        settings: Settings,
        clock: Clock,
        blocks: *mut u64,
        blocks_len: usize,
        blocks_used: *mut usize,
        votes: *mut u64,
        votes_len: usize,
        votes_used: *mut usize,
    ) -> Answer;
    pub fn likvost_receive(
        settings: Settings,
        clock: Clock,
        blocks: *mut u64,
        blocks_len: usize,
        blocks_used: *mut usize,
        votes: *mut u64,
        votes_len: usize,
        votes_used: *mut usize,
        beat: u64,
        packet: *const u8,
        packet_len: usize,
    ) -> Answer;
    pub fn likvost_propose(
        settings: Settings,
        clock: Clock,
        blocks: *mut u64,
        blocks_len: usize,
        blocks_used: *mut usize,
        votes: *mut u64,
        votes_len: usize,
        votes_used: *mut usize,
        beat: u64,
        number: Number,
    ) -> Answer;
    pub fn likvost_vote(
        settings: Settings,
        clock: Clock,
        blocks: *mut u64,
        blocks_len: usize,
        blocks_used: *mut usize,
        votes: *mut u64,
        votes_len: usize,
        votes_used: *mut usize,
        beat: u64,
    ) -> Answer;
    pub fn likvost_merge(
        settings: Settings,
        clock: Clock,
        blocks: *mut u64,
        blocks_len: usize,
        blocks_used: *mut usize,
        votes: *mut u64,
        votes_len: usize,
        votes_used: *mut usize,
        beat: u64,
    ) -> Answer;
    pub fn likvost_head(
        settings: Settings,
        clock: Clock,
        blocks: *const u64,
        blocks_len: usize,
        blocks_used: usize,
        votes: *const u64,
        votes_len: usize,
        votes_used: usize,
        slot: u64,
    ) -> Found;
    pub fn likvost_deep(
        settings: Settings,
        clock: Clock,
        blocks: *const u64,
        blocks_len: usize,
        blocks_used: usize,
        votes: *const u64,
        votes_len: usize,
        votes_used: usize,
        slot: u64,
    ) -> Found;
    pub fn likvost_fast(
        settings: Settings,
        clock: Clock,
        blocks: *const u64,
        blocks_len: usize,
        blocks_used: usize,
        votes: *const u64,
        votes_len: usize,
        votes_used: usize,
        slot: u64,
    ) -> Found;
    pub fn likvost_settled(
        settings: Settings,
        clock: Clock,
        blocks: *const u64,
        blocks_len: usize,
        blocks_used: usize,
        votes: *const u64,
        votes_len: usize,
        votes_used: usize,
        slot: u64,
        silent: u64,
    ) -> Found;
    pub fn likvost_fit(
        settings: Settings,
        clock: Clock,
        blocks: *const u64,
        blocks_len: usize,
        blocks_used: usize,
        votes: *const u64,
        votes_len: usize,
        votes_used: usize,
        beat: u64,
        packet: *const u8,
        packet_len: usize,
    ) -> Fitted;
    pub fn likvost_compare(
        settings: Settings,
        clock: Clock,
        blocks: *const u64,
        blocks_len: usize,
        blocks_used: usize,
        votes: *const u64,
        votes_len: usize,
        votes_used: usize,
        beat: u64,
        first: *const u8,
        first_len: usize,
        second: *const u8,
        second_len: usize,
    ) -> Compared;
    pub fn likvost_write(
        settings: Settings,
        clock: Clock,
        blocks: *const u64,
        blocks_len: usize,
        blocks_used: usize,
        votes: *const u64,
        votes_len: usize,
        votes_used: usize,
        proposal: bool,
        wide: bool,
        buffer: *mut u8,
        buffer_len: usize,
    ) -> Written;
}

#[cfg(test)]
mod tests {
    use super::*;

    const BLOCK_WORDS: usize = 2 * crate::BLOCK_WORDS;
    const VOTE_WORDS: usize = crate::VOTE_WORDS;
    const BUFFER: usize = 100;

    /// All that is lent to the calls on a node.
    #[derive(Clone, Debug, PartialEq)]
    struct Lent {
        clock: Clock,
        blocks: [u64; BLOCK_WORDS],
        blocks_used: usize,
        votes: [u64; VOTE_WORDS],
        votes_used: usize,
        buffer: [u8; BUFFER],
    }

    /// Makes all twelve calls, one after the other, and answers their refusals.
    fn refusals(settings: Settings, m: &mut Lent) -> [u64; 12] {
        let (b, bl, bu, v, vl, vu) =
            (m.blocks.as_mut_ptr(), BLOCK_WORDS, &mut m.blocks_used, m.votes.as_mut_ptr(), VOTE_WORDS, &mut m.votes_used);
        let empty = [0; 17];
        let number = Number { lower: 11, upper: 1 };
        // SAFETY: each pointer is to an array or a number of its own, with its length.
        unsafe {
            let open = likvost_open(settings, m.clock, b, bl, bu, v, vl, vu);
            let receive = likvost_receive(settings, open.clock, b, bl, bu, v, vl, vu, 3, empty.as_ptr(), empty.len());
            let propose = likvost_propose(settings, receive.clock, b, bl, bu, v, vl, vu, 3, number);
            let vote = likvost_vote(settings, propose.clock, b, bl, bu, v, vl, vu, 4);
            let merge = likvost_merge(settings, vote.clock, b, bl, bu, v, vl, vu, 5);
            m.clock = merge.clock;
            let ask = |question: Question| question(settings, m.clock, b, bl, *bu, v, vl, *vu, 1).refusal;
            let [head, deep, fast] = [likvost_head as Question, likvost_deep, likvost_fast].map(ask);
            let settled = likvost_settled(settings, m.clock, b, bl, *bu, v, vl, *vu, 1, 0);
            let fit = likvost_fit(settings, m.clock, b, bl, *bu, v, vl, *vu, 5, empty.as_ptr(), empty.len());
            let (p, n) = (empty.as_ptr(), empty.len());
            let compare = likvost_compare(settings, m.clock, b, bl, *bu, v, vl, *vu, 5, p, n, p, n);
            let write = likvost_write(settings, m.clock, b, bl, *bu, v, vl, *vu, false, true, m.buffer.as_mut_ptr(), BUFFER);
            let [open, receive, propose, vote, merge] = [open, receive, propose, vote, merge].map(|answer| answer.refusal);
            [open, receive, propose, vote, merge, head, deep, fast, settled.refusal, fit.refusal, compare.refusal, write.refusal]
        }
    }

    #[test]
    fn numbers_that_name_no_profile() {
        let settings = |profile| Settings { profile, nodes: 1, own: 0, expiry: 1, depth: 1 };
        for named in [1, 2] {
            let clock = Clock::default();
            let (blocks, votes) = ([9; BLOCK_WORDS], [9; VOTE_WORDS]);
            let mut lent = Lent { clock, blocks, blocks_used: 9, votes, votes_used: 9, buffer: [9; BUFFER] };
            assert_eq!(refusals(settings(named), &mut lent), [0; 12]);
            for none in [0, 3, 256, (1 << 32) + named, (1 << 63) + named, u64::MAX] {
                let before = lent.clone();
                assert_eq!(refusals(settings(none), &mut lent), [1, 6, 6, 6, 6, 6, 6, 6, 6, 6, 6, 6], "profile {none}");
                assert_eq!(lent, before, "profile {none}");
            }
        }
    }
}
