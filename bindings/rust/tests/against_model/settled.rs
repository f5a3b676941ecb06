//! How often the calls of a test meet what request 13 says of silent nodes.

use crate::both::{blocks, modelled, votes, Answer, Both, Call, Reply};
use likvost::Memory;
use std::collections::{HashMap, HashSet};

/// The counts of a test.
#[derive(Default)]
pub struct Settled {
    /// Questions that were answered, and those of them that the model does not answer.
    pub answered: u64,
    pub unsaid: u64,
    nobody: u64,
    nobody_above_0: u64,
    is_head: u64,
    below_head: u64,
    below_head_above_0: u64,
    other_head: u64,
    one: u64,
    more: u64,
    all: u64,
    own: u64,
    voted: u64,
    voted_twice: u64,
    before_slot_seen: u64,
    out_of_range: u64,
    out_of_range_by_one: u64,
    slot_and_set: u64,
    unsound_and_set: u64,
}

impl Settled {
    pub fn list(&self) -> [(&'static str, u64); 17] {
        [
            ("settled blocks with nobody silent", self.nobody),
            ("of these, above block 0", self.nobody_above_0),
            ("settled blocks with silent nodes that are the head, above block 0", self.is_head),
            ("settled blocks with silent nodes below the head", self.below_head),
            ("of these, above block 0", self.below_head_above_0),
            ("settled blocks where the votes of the others alone have another head", self.other_head),
            ("settled blocks with one silent node, said by the model", self.one),
            ("settled blocks with more silent nodes, said by the model", self.more),
            ("settled blocks with all nodes silent, said by the model", self.all),
            ("settled blocks with the own node silent", self.own),
            ("settled blocks with a silent node whose vote is in view", self.voted),
            ("settled blocks with a silent node that voted twice in a slot", self.voted_twice),
            ("settled blocks for a slot before the one seen", self.before_slot_seen),
            ("sets refused by 25", self.out_of_range),
            ("of these, sets that name node n and no other past the last", self.out_of_range_by_one),
            ("questions refused by 17 whose set is out of range as well", self.slot_and_set),
            ("questions refused by 6 whose set is out of range as well", self.unsound_and_set),
        ]
    }

    /// Counts a call on a node, which had this memory before it.
    pub fn count(&mut self, node: &Both, before: &Memory, call: &Call, reply: &Reply) {
        let Call::Settled { slot, silent } = call else { return };
        let nodes = node.settings().nodes;
        let past = silent.checked_shr(nodes as u32).unwrap_or(0);
        match reply {
            Ok(Answer::Block(answer)) => self.count_answer(node, before, *slot, *silent, *answer),
            Err((25, _)) => {
                self.out_of_range += 1;
                self.out_of_range_by_one += u64::from(past == 1);
            }
            Err((17, _)) => self.slot_and_set += u64::from(past != 0),
            Err((6, _)) => self.unsound_and_set += u64::from(past != 0),
            _ => {}
        }
    }

    fn count_answer(&mut self, node: &Both, before: &Memory, slot: u64, silent: u64, answer: u128) {
        let is_silent = |voter: u64| silent >> voter & 1 == 1;
        let model = modelled(node.settings(), before);
        let head = model.head(slot).expect("it is answered for this slot");
        assert!(chain(before, head).contains(&answer), "slot {slot}, silent {silent:#b}: {answer} is not on the chain of {head}");
        self.answered += 1;
        self.unsaid += u64::from(!node.said);
        self.before_slot_seen += u64::from(slot < before.clock.seen / 3);
        if silent == 0 {
            self.nobody += 1;
            self.nobody_above_0 += u64::from(answer != 0);
            return;
        }
        self.is_head += u64::from(answer == head && answer != 0);
        self.below_head += u64::from(answer != head);
        self.below_head_above_0 += u64::from(answer != head && answer != 0);
        // the silent nodes count for nothing
        let mut others = model;
        let kept: Vec<_> = votes(before).filter(|vote| !is_silent(vote.voter)).collect();
        others.votes_used = kept.len();
        others.votes[..kept.len()].copy_from_slice(&kept);
        let alone = others.head(slot).expect("fewer votes are sound too");
        self.other_head += u64::from(alone != head);
        if node.said {
            self.one += u64::from(silent.count_ones() == 1);
            self.more += u64::from(silent.count_ones() > 1);
            self.all += u64::from(u64::from(silent.count_ones()) == node.settings().nodes);
        }
        self.own += u64::from(is_silent(node.settings().own));
        let in_view = || votes(before).filter(|vote| vote.in_view && is_silent(vote.voter));
        self.voted += u64::from(in_view().next().is_some());
        let mut cast = HashSet::new();
        self.voted_twice += u64::from(!in_view().all(|vote| cast.insert((vote.voter, vote.slot))));
    }
}

/// The block with this number and all below it.
fn chain(memory: &Memory, head: u128) -> HashSet<u128> {
    let parents: HashMap<u128, u128> = blocks(memory).map(|block| (block.number, block.parent)).collect();
    let mut chain = HashSet::from([head]);
    let mut number = head;
    while number != 0 {
        number = parents[&number];
        chain.insert(number);
    }
    chain
}
