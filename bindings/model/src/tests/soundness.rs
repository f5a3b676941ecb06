//! The rules of sound tables one by one: each flaw alone makes every call but Open refuse with 6.

use super::*;
use crate::{PairRefused, Which};

/// The shed with 31 and a block 41 on it waiting, and votes for them waiting.
fn sound() -> Node {
    let mut node = shed();
    node.blocks[3].in_view = false;
    node.votes[3].in_view = false;
    add_block(&mut node, Block { number: 41, parent: 31, slot: 4, in_view: false });
    add_vote(&mut node, Vote { voter: 2, slot: 4, number: 41, in_view: false });
    node
}

fn unsound(change: impl Fn(&mut Node)) {
    let mut node = sound();
    change(&mut node);
    let before = node.clone();
    assert_eq!(node.receive(14, &[0; 17]), whole(6));
    assert_eq!(node.propose(15, 99), Err(6));
    assert_eq!(node.vote(16), Err(6));
    assert_eq!(node.merge(17), Err(6));
    assert_eq!(node.head(4), Err(6));
    assert_eq!(node.deep(4), Err(6));
    assert_eq!(node.fast(4), Err(6));
    let six = PairRefused { which: Which::Neither, refused: Refused { number: 6, index: None } };
    assert_eq!(node.pair(14, &[0; 17], &[0; 17]), Err(six));
    let mut buffer = [7; 300];
    for wide in [false, true] {
        assert_eq!(node.write(false, wide, &mut buffer), Err(6));
        assert_eq!(node.write(true, wide, &mut buffer), Err(6));
    }
    assert_eq!(buffer, [7; 300]);
    assert_eq!(node, before);
}

fn still_sound(change: impl Fn(&mut Node)) {
    let mut node = sound();
    change(&mut node);
    assert!(node.write(false, true, &mut [0; 400]).is_ok());
}

#[test]
fn settings_and_lengths_in_range() {
    still_sound(|_| ());
    unsound(|n| n.settings.nodes = 0);
    unsound(|n| n.settings.nodes = 65);
    still_sound(|n| n.settings.nodes = 64);
    unsound(|n| n.settings.own = 5);
    still_sound(|n| n.settings.own = 4);
    unsound(|n| n.settings.expiry = 0);
    unsound(|n| n.settings.expiry = 4097);
    still_sound(|n| n.settings.expiry = 4096);
    unsound(|n| n.settings.depth = 0);
    unsound(|n| n.settings.depth = 4097);
    still_sound(|n| n.settings.depth = 4096);
    unsound(|n| n.blocks.resize(2049, NO_BLOCK));
    still_sound(|n| n.blocks.resize(2048, NO_BLOCK));
    unsound(|n| n.votes.resize(8193, NO_VOTE));
    still_sound(|n| n.votes.resize(8192, NO_VOTE));
    unsound(|n| {
        n.votes.clear();
        n.votes_used = 0;
    });
    unsound(|n| {
        n.blocks.clear();
        n.blocks_used = 0;
    });
}

/// The change on a rack.
fn on_a_rack(change: impl Fn(&mut Node)) -> impl Fn(&mut Node) {
    move |n| {
        n.settings.profile = Profile::Rack;
        change(n);
    }
}

#[test]
fn limits_of_a_rack() {
    // Request 9: "1, 5 and 6 go by" the set of limits. On a loom each of these is sound.
    let changes: [fn(&mut Node); 8] = [
        |n| n.settings.nodes = 17,
        |n| n.settings.nodes = 64,
        |n| (n.settings.nodes, n.settings.own) = (17, 16),
        |n| n.blocks.resize(65, NO_BLOCK),
        |n| n.blocks.resize(2048, NO_BLOCK),
        |n| n.votes.resize(257, NO_VOTE),
        |n| n.votes.resize(8192, NO_VOTE),
        |n| (n.settings.nodes, n.blocks, n.votes) = (17, n.blocks.repeat(5), n.votes.repeat(17)),
    ];
    for change in changes {
        still_sound(change);
        unsound(on_a_rack(change));
    }
    still_sound(on_a_rack(|_| ()));
    still_sound(on_a_rack(|n| n.settings.nodes = 16));
    still_sound(on_a_rack(|n| n.blocks.resize(64, NO_BLOCK)));
    still_sound(on_a_rack(|n| n.votes.resize(256, NO_VOTE)));
    // E and K have the range of a loom.
    still_sound(on_a_rack(|n| (n.settings.expiry, n.settings.depth) = (4096, 4096)));
    unsound(on_a_rack(|n| n.settings.expiry = 4097));
    unsound(on_a_rack(|n| n.settings.depth = 4097));
    // All other rules hold on a rack too.
    unsound(on_a_rack(|n| n.settings.nodes = 0));
    unsound(on_a_rack(|n| n.settings.own = 5));
    unsound(on_a_rack(|n| n.blocks_used = 17));
    unsound(on_a_rack(|n| n.blocks[0].slot = 1));
    unsound(on_a_rack(|n| add_vote(n, vote(5, 4, 11))));
    unsound(on_a_rack(|n| n.clock.proposed = 5));
}

#[test]
fn used_counts_fit() {
    unsound(|n| n.blocks_used = 17);
    unsound(|n| n.blocks_used = usize::MAX);
    unsound(|n| n.votes_used = 17);
    unsound(|n| n.votes_used = usize::MAX);
    still_sound(|n| n.blocks.truncate(5));
    still_sound(|n| n.votes.truncate(6));
    unsound(|n| n.blocks.truncate(4));
    unsound(|n| n.votes.truncate(5));
}

#[test]
fn block_0_stands_first() {
    unsound(|n| {
        n.blocks_used = 0;
        n.votes_used = 0;
    });
    unsound(|n| n.blocks[0].number = 1);
    unsound(|n| n.blocks[0].number = UP);
    unsound(|n| n.blocks[0].parent = 1);
    unsound(|n| n.blocks[0].parent = UP);
    unsound(|n| n.blocks[0].slot = 1);
    unsound(|n| {
        // Nothing else is in view, so that this is the only flaw.
        n.blocks_used = 1;
        n.votes_used = 0;
        n.blocks[0].in_view = false;
    });
    unsound(|n| n.blocks.swap(0, 1));
}

#[test]
fn blocks() {
    // "block numbers differ"
    unsound(|n| add_block(n, block(41, 31, 4)));
    unsound(|n| add_block(n, block(21, 0, 3)));
    unsound(|n| add_block(n, block(0, 0, 1)));
    still_sound(|n| add_block(n, block(UP, 0, 1)));
    still_sound(|n| add_block(n, block(UP + 41, 21, 4)));
    unsound(|n| {
        add_block(n, block(UP + 41, 21, 4));
        add_block(n, block(UP + 41, 21, 4));
    });
    // "every other block's parent stands earlier with a lower slot"
    unsound(|n| add_block(n, block(42, 99, 4)));
    unsound(|n| add_block(n, block(42, 42, 4)));
    unsound(|n| add_block(n, block(42, UP + 21, 4)));
    unsound(|n| add_block(n, block(42, UP, 4)));
    unsound(|n| n.blocks.swap(3, 4));
    unsound(|n| add_block(n, block(42, 21, 2)));
    unsound(|n| add_block(n, block(42, 0, 0)));
    still_sound(|n| add_block(n, block(42, 21, 3)));
    // "no entry's slot is above" the slot seen
    unsound(|n| add_block(n, block(42, 21, 5)));
    unsound(|n| add_block(n, block(42, 21, u64::MAX)));
    // "a block in view has its parent in view"
    unsound(|n| n.blocks[4].in_view = true);
    still_sound(|n| n.blocks[3].in_view = true);
    // What stands behind the used places does not matter.
    still_sound(|n| n.blocks[5] = block(41, 99, u64::MAX));
}

#[test]
fn votes() {
    // "a voter below n, a slot of 1 or more"
    unsound(|n| add_vote(n, vote(5, 4, 11)));
    unsound(|n| add_vote(n, vote(64, 4, 11)));
    unsound(|n| add_vote(n, vote(u64::MAX, 4, 11)));
    unsound(|n| add_vote(n, vote(0, 0, 0)));
    still_sound(|n| add_vote(n, vote(0, 1, 0)));
    // "a known block whose slot is not above the vote's"
    unsound(|n| add_vote(n, vote(0, 4, 99)));
    unsound(|n| add_vote(n, vote(0, 4, UP + 11)));
    unsound(|n| add_vote(n, vote(0, 4, UP)));
    unsound(|n| add_vote(n, vote(0, 1, 21)));
    still_sound(|n| add_vote(n, vote(0, 2, 21)));
    // "no entry's slot is above" the slot seen
    unsound(|n| add_vote(n, vote(0, 5, 11)));
    unsound(|n| add_vote(n, vote(0, u64::MAX, 11)));
    still_sound(|n| add_vote(n, vote(0, 4, 11)));
    // "no vote stands twice", whatever the marks; a double vote is another thing
    unsound(|n| add_vote(n, vote(1, 2, 21)));
    unsound(|n| add_vote(n, Vote { in_view: false, ..vote(1, 2, 21) }));
    still_sound(|n| add_vote(n, vote(1, 2, 11)));
    still_sound(|n| {
        add_block(n, block(UP + 21, 0, 2));
        add_vote(n, vote(1, 2, UP + 21));
    });
    // "a vote in view its block"
    unsound(|n| n.votes[3].in_view = true);
    still_sound(|n| n.votes[0].in_view = false);
    // What stands behind the used places does not matter.
    still_sound(|n| n.votes[6] = vote(99, 0, 99));
}

#[test]
fn clock() {
    // "the slot seen is at most the limit"
    still_sound(|n| n.clock.seen = 3_000_000_002);
    unsound(|n| n.clock.seen = 3_000_000_003);
    unsound(|n| n.clock.seen = u64::MAX);
    // "done is at most seen"
    unsound(|n| n.clock.done = 15);
    unsound(|n| n.clock.done = u64::MAX);
    // "merged slot × 3 + 2 is at most done"
    unsound(|n| n.clock.done = 13);
    still_sound(|n| (n.clock.done, n.clock.merged) = (13, 3));
    unsound(|n| (n.clock.done, n.clock.merged) = (1, 0));
    still_sound(|n| (n.clock.done, n.clock.merged) = (2, 0));
    unsound(|n| n.clock.merged = 5);
    unsound(|n| n.clock.merged = u64::MAX);
    // Wrapped at 64 bits this merged slot would give 2.
    unsound(|n| n.clock.merged = 1 << 63);
    // "the proposal slot is at most the slot seen"
    still_sound(|n| n.clock.proposed = 4);
    unsound(|n| n.clock.proposed = 5);
    unsound(|n| n.clock.proposed = u64::MAX);
    // The slot seen is below the entries' slots.
    unsound(|n| n.clock = Clock { seen: 11, done: 11, merged: 3, proposed: 0 });
}
