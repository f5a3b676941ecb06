//! Filters and walks over a view: head, base, deep block, fast block, and the block that is sure with silent looms.
//! Words of requests 2, 8 and 13 are marked so.

use crate::tables::{Block, Node, Settings, Vote};
use std::collections::{HashMap, HashSet};
use std::ops::Range;

/// The most fillings of request 13 that are tried.
const MOST_FILLINGS: u64 = 20_000;

/// The entries that a filter or a walk looks at, in table order. The tables must be sound.
pub(crate) struct View {
    settings: Settings,
    blocks: Vec<Block>,
    votes: Vec<Vote>,
    /// For each block the place of its parent in `blocks`; block 0 stands at 0 and has 0.
    parents: Vec<usize>,
    /// The place in `blocks` of each block number.
    places: HashMap<u128, usize>,
}

impl View {
    /// The entries marked in view.
    pub(crate) fn in_view(node: &Node) -> View {
        let blocks = node.stock_blocks().iter().copied().filter(|block| block.in_view).collect();
        let votes = node.stock_votes().iter().copied().filter(|vote| vote.in_view).collect();
        View::over(node.settings, blocks, votes)
    }

    /// "the stock is both together"
    pub(crate) fn stock(node: &Node) -> View {
        View::over(node.settings, node.stock_blocks().to_vec(), node.stock_votes().to_vec())
    }

    fn over(settings: Settings, blocks: Vec<Block>, votes: Vec<Vote>) -> View {
        let places: HashMap<u128, usize> = blocks.iter().enumerate().map(|(place, b)| (b.number, place)).collect();
        let parents = blocks.iter().map(|block| places[&block.parent]).collect();
        View { settings, blocks, votes, parents, places }
    }

    /// "slots t-E to t-1, none below 1"
    fn window(&self, t: u64) -> Range<u64> {
        t.saturating_sub(self.settings.expiry).max(1)..t
    }

    /// The voters that are dropped. Request 2: those with "two different votes of one slot among" these slots.
    fn double_voters(&self, slots: Range<u64>) -> HashSet<u64> {
        // The block that each voter's first vote of each slot is for.
        let mut first: HashMap<(u64, u64), u128> = HashMap::new();
        let mut double = HashSet::new();
        for vote in self.votes.iter().filter(|vote| slots.contains(&vote.slot)) {
            let number = *first.entry((vote.voter, vote.slot)).or_insert(vote.number);
            if vote.number != number {
                double.insert(vote.voter);
            }
        }
        double
    }

    /// The votes that the filters for slot t keep, "in this order".
    fn kept_votes(&self, t: u64) -> Vec<Vote> {
        let mut votes = self.votes.clone();
        // "(1) drop every vote of a voter that has two votes of one slot for different blocks"
        // Request 2: "only for two different votes of one slot among t-E to t-1"
        let double = self.double_voters(self.window(t));
        votes.retain(|vote| !double.contains(&vote.voter));
        // "(2) keep votes of slots t-E to t-1, none below 1"
        votes.retain(|vote| self.window(t).contains(&vote.slot));
        // "(3) of each voter keep the latest"
        let mut latest: HashMap<u64, Vote> = HashMap::new();
        for vote in votes {
            let kept = latest.entry(vote.voter).or_insert(vote);
            if kept.slot < vote.slot {
                *kept = vote;
            }
        }
        latest.into_values().collect()
    }

    /// For each block "the number of voters whose kept vote is for it or for a block above it".
    fn weights(&self, kept: &[Vote]) -> Vec<u32> {
        // "A set of voters is one 64-bit word and its weight is the number of ones."
        let mut voters = vec![0u64; self.blocks.len()];
        for vote in kept {
            voters[self.places[&vote.number]] |= 1 << vote.voter;
        }
        // A parent stands earlier than its children, so each set is complete when it is handed down.
        for place in (1..self.blocks.len()).rev() {
            voters[self.parents[place]] |= voters[place];
        }
        voters.into_iter().map(u64::count_ones).collect()
    }

    /// The place at which the walk for slot t stops; it goes only to blocks that `allowed` lets through.
    fn walk(&self, t: u64, allowed: impl Fn(&Block) -> bool) -> usize {
        self.walk_by(&self.kept_votes(t), allowed)
    }

    /// The same walk with these kept votes.
    fn walk_by(&self, kept: &[Vote], allowed: impl Fn(&Block) -> bool) -> usize {
        let weights = self.weights(kept);
        let mut children: Vec<Vec<usize>> = vec![Vec::new(); self.blocks.len()];
        for place in 1..self.blocks.len() {
            if allowed(&self.blocks[place]) {
                children[self.parents[place]].push(place);
            }
        }
        // "starts at block 0 and goes to the heaviest child"
        let mut at = 0;
        // "ties to the smaller number, weight 0 included, until no child is left"
        // Request 8: numbers are "compared by the upper half first"
        let rank = |place: usize| (weights[place], std::cmp::Reverse(self.blocks[place].number));
        while let Some(&next) = children[at].iter().max_by_key(|&&place| rank(place)) {
            at = next;
        }
        at
    }

    fn head_place(&self, t: u64) -> usize {
        // "child in view with slot at most t"
        self.walk(t, |block| block.slot <= t)
    }

    /// The head for slot t.
    pub(crate) fn head(&self, t: u64) -> u128 {
        self.blocks[self.head_place(t)].number
    }

    /// The base of a proposal of slot t, over the stock: "with children of slots below t only".
    pub(crate) fn base(&self, t: u64) -> u128 {
        self.blocks[self.walk(t, |block| block.slot < t)].number
    }

    /// "the highest block of the head's chain with slot at most t-K, else block 0"
    pub(crate) fn deep(&self, t: u64) -> u128 {
        let Some(highest) = t.checked_sub(self.settings.depth) else { return 0 };
        let mut place = self.head_place(t);
        while self.blocks[place].slot > highest {
            place = self.parents[place];
        }
        self.blocks[place].number
    }

    /// The fast block for slot t.
    pub(crate) fn fast(&self, t: u64) -> Option<u128> {
        // "of the votes of slot t in view, without the voters dropped in (1)"
        // Request 2: "for the fast block, only for two in slot t"
        let double = self.double_voters(t..t + 1);
        let of_slot = |vote: &&Vote| vote.slot == t && !double.contains(&vote.voter);
        let votes: Vec<Vote> = self.votes.iter().filter(of_slot).copied().collect();
        let weights = self.weights(&votes);
        let distances = self.distances();
        // "with 4 × its weight at least 3 × n; none if no block has it"
        let enough = |&place: &usize| 4 * u64::from(weights[place]) >= 3 * self.settings.nodes;
        // "the block farthest from block 0"
        let place = (0..self.blocks.len()).filter(enough).max_by_key(|&place| distances[place])?;
        Some(self.blocks[place].number)
    }

    /// For each block the number of parent steps to block 0.
    fn distances(&self) -> Vec<u64> {
        let mut distances = vec![0u64; self.blocks.len()];
        for place in 1..self.blocks.len() {
            distances[place] = distances[self.parents[place]] + 1;
        }
        distances
    }

    /// Request 13: "the farthest block from block 0 that lies on the head's chain for every such filling", by trying
    /// every filling. None where there are too many.
    pub(crate) fn unheard(&self, t: u64, silent: u64) -> Option<u128> {
        let is_silent = |voter: u64| silent >> voter & 1 == 1;
        let looms: Vec<u64> = (0..64).filter(|&voter| is_silent(voter)).collect();
        // Request 13: "any one block in view of a slot below t"
        let below: Vec<u128> = self.blocks.iter().filter(|block| block.slot < t).map(|block| block.number).collect();
        // Request 13: "may count for nothing or for any one block"
        let choices: Vec<Option<u128>> = std::iter::once(None).chain(below.into_iter().map(Some)).collect();
        let count = choices.len() as u64;
        let fillings = count.checked_pow(looms.len() as u32).filter(|&fillings| fillings <= MOST_FILLINGS)?;
        // Request 13: "the other kept votes stand"
        let others: Vec<Vote> = self.kept_votes(t).into_iter().filter(|vote| !is_silent(vote.voter)).collect();
        // For each block the number of fillings with the block on the head's chain.
        let mut chains = vec![0u64; self.blocks.len()];
        for filling in 0..fillings {
            // The filling's digits to the base of `count` are the choices of the silent looms.
            let mut digits = filling;
            let mut kept = others.clone();
            for &voter in &looms {
                if let Some(number) = choices[(digits % count) as usize] {
                    // The walk does not look at the slot of a kept vote.
                    kept.push(Vote { voter, slot: t - 1, number, in_view: true });
                }
                digits /= count;
            }
            // "child in view with slot at most t"
            let mut place = self.walk_by(&kept, |block| block.slot <= t);
            while place != 0 {
                chains[place] += 1;
                place = self.parents[place];
            }
            chains[0] += 1;
        }
        let distances = self.distances();
        let sure = (0..self.blocks.len()).filter(|&place| chains[place] == fillings);
        sure.max_by_key(|&place| distances[place]).map(|place| self.blocks[place].number)
    }
}
