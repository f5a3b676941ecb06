//! How often the calls of a test meet what request 4 says of old votes. A comparison that seldom meets a rule shows little of it.

use crate::both::{blocks, modelled, votes, Answer, Both, Call, Reply};
use likvost::{Memory, Settings, VOTE_WORDS};
use likvost_model::{Packet, PacketVote};
use std::collections::HashSet;

/// What Merge has removed on a node since it was opened.
#[derive(Clone, Copy, Default)]
pub struct Removed {
    /// So many votes.
    votes: usize,
    /// The most places that were in use before a removal. Those of them that are not in use were freed.
    places: usize,
}

/// The counts of a test.
#[derive(Default)]
pub struct OldVotes {
    removed_in_view: u64,
    removed_waiting: u64,
    removed_of_last_slot: u64,
    kept_of_first_slot: u64,
    moved_up: u64,
    none_kept: u64,
    accepted: u64,
    accepted_of_last_slot: u64,
    stored_of_first_slot: u64,
    block_without_vote: u64,
    viewed: u64,
    brought_alone: u64,
    bad: u64,
    bad_behind: u64,
    in_freed_places: u64,
    room_by_removal: u64,
    room_by_not_counting: u64,
    lent: u64,
    lent_brought: u64,
    asked_before_merged: u64,
    asked_merged: u64,
}

impl OldVotes {
    pub fn list(&self) -> [(&'static str, u64); 21] {
        [
            ("votes in view removed by Merge", self.removed_in_view),
            ("waiting votes removed by Merge", self.removed_waiting),
            ("votes of slot t - E - 1 removed by Merge of t", self.removed_of_last_slot),
            ("votes of slot t - E kept by Merge of t", self.kept_of_first_slot),
            ("Merges that moved two votes or more up", self.moved_up),
            ("Merges that removed all votes", self.none_kept),
            ("old votes in accepted packets", self.accepted),
            ("of these, of the last slot that is old", self.accepted_of_last_slot),
            ("new votes of the first slot that is not old", self.stored_of_first_slot),
            ("packets with a new block and an old vote for it", self.block_without_vote),
            ("proposals with an old vote that came into view", self.viewed),
            ("of these, with a block that only an old vote brought", self.brought_alone),
            ("old votes that break a rule", self.bad),
            ("votes that break a rule, behind an old one", self.bad_behind),
            ("votes stored in freed places", self.in_freed_places),
            ("calls that found a place since votes were removed", self.room_by_removal),
            ("packets that found places since old votes take none", self.room_by_not_counting),
            ("calls on lent memory with an old vote", self.lent),
            ("old votes of lent memory brought into view", self.lent_brought),
            ("questions for a slot before the one last merged", self.asked_before_merged),
            ("answers for the slot last merged, where votes were removed", self.asked_merged),
        ]
    }

    /// Counts a call on a node, which had this memory before it.
    pub fn count(&mut self, node: &mut Both, before: &Memory, call: &Call, reply: &Reply) {
        let old = Old::new(node.settings(), before.clock.merged);
        match (call, reply) {
            (Call::Open, Ok(_)) => node.removed = Removed::default(),
            (Call::Open, Err(_)) => {}
            (Call::Merge { beat }, Ok(_)) => {
                self.count_merge(before, Old::new(node.settings(), beat / 3));
                if node.memory().votes_used < before.votes_used {
                    node.removed.votes += before.votes_used - node.memory().votes_used;
                    node.removed.places = node.removed.places.max(before.votes_used);
                }
            }
            (Call::Receive { beat, packet }, Ok(Answer::Received { new_votes, viewed, .. })) => {
                let packet = Packet::decode(packet).expect("it was accepted");
                self.count_accepted(before, old, &packet, *new_votes as usize);
                if *viewed && packet.votes.iter().any(|vote| old.is(vote.slot.into())) {
                    self.count_brought(node, before, old, *beat, packet);
                }
            }
            (Call::Receive { packet, .. }, Err((20, Some(index)))) => {
                let votes = Packet::decode(packet).expect("its votes were tested").votes;
                let is_old = |vote: &PacketVote| old.is(vote.slot.into());
                self.bad += u64::from(is_old(&votes[*index as usize]));
                self.bad_behind += u64::from(votes[..*index as usize].iter().any(is_old));
            }
            (Call::Head { slot } | Call::Deep { slot } | Call::Fast { slot } | Call::Settled { slot, .. }, reply) => {
                let before_merged = *slot > 0 && *slot < before.clock.merged;
                self.asked_before_merged += u64::from(*reply == Err((17, None)) && before_merged);
                self.asked_merged += u64::from(reply.is_ok() && *slot == before.clock.merged && node.removed.votes > 0);
            }
            _ => {}
        }
        if reply.is_ok() && !matches!(call, Call::Open) {
            self.lent += u64::from(votes(before).any(|vote| old.is(vote.slot)));
            let after = node.memory();
            if after.votes_used > before.votes_used {
                let freed = after.votes_used.min(node.removed.places).saturating_sub(before.votes_used);
                self.in_freed_places += freed as u64;
                self.room_by_removal += u64::from(after.votes_used + node.removed.votes > after.votes.len() / VOTE_WORDS);
            }
        }
    }

    fn count_merge(&mut self, before: &Memory, old: Old) {
        for vote in votes(before) {
            match (old.is(vote.slot), vote.in_view) {
                (true, true) => self.removed_in_view += 1,
                (true, false) => self.removed_waiting += 1,
                (false, _) => self.kept_of_first_slot += u64::from(vote.slot == old.end),
            }
            self.removed_of_last_slot += u64::from(vote.slot + 1 == old.end);
        }
        let kept = |from: usize| votes(before).skip(from).filter(|vote| !old.is(vote.slot)).count();
        if let Some(first_removed) = votes(before).position(|vote| old.is(vote.slot)) {
            self.moved_up += u64::from(kept(first_removed) >= 2);
            self.none_kept += u64::from(kept(0) == 0);
        }
    }

    fn count_accepted(&mut self, before: &Memory, old: Old, packet: &Packet, new_votes: usize) {
        let blocks: HashSet<u128> = blocks(before).map(|block| block.number).collect();
        let stock: HashSet<_> = votes(before).map(|vote| (vote.voter, vote.slot, vote.number)).collect();
        let mut unknown = HashSet::new();
        let mut late_block = false;
        for vote in &packet.votes {
            let (voter, slot) = (u64::from(vote.voter), u64::from(vote.slot));
            let is_new = !stock.contains(&(voter, slot, vote.number));
            self.stored_of_first_slot += u64::from(is_new && slot == old.end);
            if old.is(slot) {
                self.accepted += 1;
                self.accepted_of_last_slot += u64::from(slot + 1 == old.end);
                late_block |= !blocks.contains(&vote.number);
                if is_new {
                    unknown.insert((voter, slot, vote.number));
                }
            }
        }
        self.block_without_vote += u64::from(late_block);
        let free = before.votes.len() / VOTE_WORDS - before.votes_used;
        self.room_by_not_counting += u64::from(new_votes + unknown.len() > free);
    }

    fn count_brought(&mut self, node: &Both, before: &Memory, old: Old, beat: u64, mut packet: Packet) {
        self.viewed += 1;
        let in_view = |memory: &Memory| blocks(memory).filter(|block| block.in_view).count();
        packet.votes.retain(|vote| !old.is(vote.slot.into()));
        let mut without = modelled(node.settings(), before);
        without.receive(beat, &packet.encode()).expect("it is accepted with more votes");
        let viewed = without.blocks[..without.blocks_used].iter().filter(|block| block.in_view).count();
        self.brought_alone += u64::from(in_view(node.memory()) > viewed);
        let came = votes(before).zip(votes(node.memory())).filter(|(was, is)| old.is(was.slot) && !was.in_view && is.in_view);
        self.lent_brought += came.count() as u64;
    }
}

/// Which votes are old.
#[derive(Clone, Copy)]
struct Old {
    /// Those of slots below this one: the slot last merged less E.
    end: u64,
}

impl Old {
    fn new(settings: Settings, merged: u64) -> Old {
        Old { end: merged.saturating_sub(settings.expiry) }
    }

    fn is(self, slot: u64) -> bool {
        slot < self.end
    }
}
