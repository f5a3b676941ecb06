//! Program fitask.

use super::pair_program::{input, with_length};
use super::*;
use crate::fitask;

/// The answer to two packets for slot 4, with n = 5 and E = 2.
fn of_shed(first: &[u8], second: &[u8]) -> String {
    fitask(&input(5, 2, 3, 4, first, second))
}

/// So many blocks of slot 1 on block 0, from number 1 on.
fn blocks(count: u128) -> Vec<(u128, u128, u32)> {
    (1..=count).map(|number| (number, 0, 1)).collect()
}

/// So many votes of one voter for block 0, from slot 1 on.
fn votes(voter: u8, count: u32) -> Vec<(u8, u32, u128)> {
    (1..=count).map(|slot| (voter, slot, 0)).collect()
}

/// As many entries as the program has places for.
fn full() -> Vec<u8> {
    gossip(&blocks(511), &votes(0, 1024))
}

#[test]
fn the_shed() {
    let shed = written(&shed(), false);
    let asked = |second: &[u8]| fitask(&input(5, 3, 3, 4, &shed, second));
    // With E = 3 the three blocks and all five votes are kept: 25 + 3 × 36 + 5 × 21.
    assert_eq!(asked(&gossip(&[], &[])), "blocks 0\nvotes 0\nbytes 238\n");
    // Known and repeated entries are not new: 238 + 36 + 21.
    let second = gossip(&[(31, 11, 3), (41, 31, 4), (41, 31, 4)], &[(2, 3, 31), (2, 4, 41), (2, 4, 41)]);
    assert_eq!(asked(&second), "blocks 1\nvotes 1\nbytes 295\n");
    // A second vote of voter 2 in slot 3 is new.
    assert_eq!(asked(&gossip(&[], &[(2, 3, 11)])), "blocks 0\nvotes 1\nbytes 259\n");
    // Two blocks on block 0 and three votes: 238 + 2 × 36 + 3 × 21.
    let second = gossip(&[(12, 0, 1), (13, 0, 4)], &[(0, 1, 12), (0, 2, 12), (0, 4, 13)]);
    assert_eq!(asked(&second), "blocks 2\nvotes 3\nbytes 373\n");
    // On a node without entries all of the shed is new.
    let text = "blocks 3\nvotes 5\nbytes 238\n";
    assert_eq!(fitask(&input(5, 3, 3, 4, &gossip(&[], &[]), &shed)), text);
}

#[test]
fn proposals() {
    // The first waits when it is received and is merged. The second counts as gossip does, of whatever slot it is.
    let first = packet(1, 4, 41, &[(41, 0, 4)], &[(0, 4, 41)]);
    assert_eq!(of_shed(&first, &gossip(&[], &[])), "blocks 0\nvotes 0\nbytes 82\n");
    assert_eq!(of_shed(&first, &first), "blocks 0\nvotes 0\nbytes 82\n");
    assert_eq!(of_shed(&first, &packet(1, 4, 42, &[(42, 0, 4)], &[])), "blocks 1\nvotes 0\nbytes 118\n");
    assert_eq!(of_shed(&first, &packet(1, 2, 21, &[(21, 0, 2)], &[(1, 3, 21)])), "blocks 1\nvotes 1\nbytes 139\n");
    assert_eq!(of_shed(&gossip(&[], &[]), &first), "blocks 1\nvotes 1\nbytes 82\n");
}

#[test]
fn nothing_new() {
    let shed = written(&shed(), false);
    assert_eq!(of_shed(&gossip(&[], &[]), &gossip(&[], &[])), "blocks 0\nvotes 0\nbytes 25\n");
    // With E = 2 the vote of slot 1 has left and is not new again: 25 + 3 × 36 + 4 × 21.
    assert_eq!(of_shed(&shed, &shed), "blocks 0\nvotes 0\nbytes 217\n");
    assert_eq!(of_shed(&shed, &gossip(&[], &[])), "blocks 0\nvotes 0\nbytes 217\n");
    // With full tables too: 25 + 511 × 36 + 1,024 × 21.
    let text = "blocks 0\nvotes 0\nbytes 39925\n";
    assert_eq!(fitask(&input(64, 4096, 1, 2000, &full(), &full())), text);
}

#[test]
fn old_votes() {
    let (b, v) = ([(11, 0, 1), (21, 11, 2)], [(0, 1, 11), (1, 3, 21), (2, 4, 21), (3, 6, 0)]);
    let first = gossip(&b, &v);
    let asked = |expiry: u16, second: &[u8]| fitask(&input(5, expiry, 1, 6, &first, second));
    // Slot 6 is merged. Slots 4 to 6 are kept with E = 2, slots 3 to 6 with E = 3, all with E = 5.
    assert_eq!(asked(2, &gossip(&[], &[])), "blocks 0\nvotes 0\nbytes 139\n");
    assert_eq!(asked(3, &gossip(&[], &[])), "blocks 0\nvotes 0\nbytes 160\n");
    assert_eq!(asked(5, &gossip(&[], &[])), "blocks 0\nvotes 0\nbytes 181\n");
    // So it is with the votes of the second packet.
    let second = gossip(&[], &[(4, 2, 21), (4, 3, 21), (4, 4, 21), (4, 5, 21)]);
    assert_eq!(asked(2, &second), "blocks 0\nvotes 2\nbytes 181\n");
    assert_eq!(asked(3, &second), "blocks 0\nvotes 3\nbytes 223\n");
    assert_eq!(asked(5, &second), "blocks 0\nvotes 4\nbytes 265\n");
    // A block is new though the vote for it is old.
    assert_eq!(asked(2, &gossip(&[(31, 21, 3)], &[(4, 3, 31)])), "blocks 1\nvotes 0\nbytes 175\n");
    // An old vote must keep the vote rules.
    assert_eq!(asked(2, &gossip(&[], &[(5, 3, 21)])), "refused 20\n");
    assert_eq!(asked(2, &gossip(&[], &[(4, 1, 21)])), "refused 20\n");
    assert_eq!(asked(2, &gossip(&[], &[(4, 3, 31)])), "refused 20\n");
    // In the last slot: slot 999,995,904 is the earliest that is kept.
    let last = 1_000_000_000;
    let second = gossip(&[], &[(1, 999_995_903, 0), (2, 999_995_904, 0), (3, last, 0)]);
    assert_eq!(fitask(&input(5, 4096, 4096, last, &second, &second)), "blocks 0\nvotes 0\nbytes 67\n");
    assert_eq!(fitask(&input(5, 4096, 4096, last, &first, &second)), "blocks 0\nvotes 2\nbytes 139\n");
}

#[test]
fn wide_and_narrow() {
    // The bytes are those of wide gossip, whatever the widths of the packets.
    let first = written(&shed(), false);
    let second = gossip(&[(31, 11, 3), (41, 31, 4)], &[(2, 3, 31), (2, 4, 41)]);
    for first in [&first, &widened(&first)] {
        for second in [&second, &widened(&second)] {
            assert_eq!(of_shed(first, second), "blocks 1\nvotes 1\nbytes 274\n");
        }
    }
    // Numbers that differ in the upper half alone are different.
    let first = wide_gossip(&[(UP + 11, 0, 1)], &[(0, 3, UP + 11)]);
    assert_eq!(of_shed(&first, &first), "blocks 0\nvotes 0\nbytes 82\n");
    assert_eq!(of_shed(&first, &gossip(&[(11, 0, 1)], &[(0, 3, 11)])), "blocks 1\nvotes 1\nbytes 139\n");
    assert_eq!(of_shed(&first, &gossip(&[(12, 11, 2)], &[])), "refused 9\n");
    assert_eq!(of_shed(&first, &wide_gossip(&[(12, UP + 11, 2)], &[])), "blocks 1\nvotes 0\nbytes 118\n");
    assert_eq!(of_shed(&first, &gossip(&[], &[(1, 3, 11)])), "refused 20\n");
    assert_eq!(of_shed(&first, &wide_gossip(&[], &[(1, 3, UP + 11)])), "blocks 0\nvotes 1\nbytes 103\n");
    // A wide proposal with the largest number.
    let proposal = packet(3, 4, u128::MAX, &[(u128::MAX, UP + 11, 4)], &[]);
    assert_eq!(of_shed(&first, &proposal), "blocks 1\nvotes 0\nbytes 118\n");
    let narrow = packet(1, 4, u128::MAX >> 64, &[(u128::MAX >> 64, 0, 4)], &[]);
    assert_eq!(of_shed(&proposal, &narrow), "refused 9\n");
    assert_eq!(of_shed(&narrow, &packet(3, 4, UP, &[(UP, 0, 4)], &[])), "blocks 1\nvotes 0\nbytes 97\n");
}

#[test]
fn in_place_of_10() {
    let asked = |first: &[u8], second: &[u8]| fitask(&input(64, 4096, 1, 2000, first, second));
    // The tables are full. 10 comes for the first packet only.
    assert_eq!(asked(&full(), &gossip(&[(512, 0, 1)], &[])), "blocks 1\nvotes 0\nbytes 39961\n");
    assert_eq!(asked(&full(), &gossip(&[], &[(63, 1, 511)])), "blocks 0\nvotes 1\nbytes 39946\n");
    for bytes in [gossip(&blocks(512), &[]), gossip(&[], &votes(0, 1025))] {
        assert_eq!(asked(&bytes, &gossip(&[], &[])), "refused 10\n");
    }
    assert_eq!(asked(&gossip(&[], &[]), &gossip(&blocks(512), &[])), "blocks 512\nvotes 0\nbytes 18457\n");
    assert_eq!(asked(&gossip(&[], &[]), &gossip(&[], &votes(0, 1025))), "blocks 0\nvotes 1025\nbytes 21550\n");
    // Both tables twice over: 25 + 1,023 × 36 + 2,049 × 21. A node with more places finds the same.
    let more: Vec<(u128, u128, u32)> = (1..=512).map(|number| (511 + number, number - 1, 2)).collect();
    let second = gossip(&more, &votes(1, 1025));
    assert_eq!(asked(&full(), &second), "blocks 512\nvotes 1025\nbytes 79882\n");
    let mut node = places(64, 0, 4096, 1, 2048, 8192);
    node.receive(6002, &full()).unwrap();
    node.merge(6002).unwrap();
    assert_eq!(node.receive(6002, &second), Ok(Received { new_blocks: 512, new_votes: 1025, brought: false }));
    let mut buffer = vec![0; 79_882];
    assert_eq!(node.write(false, true, &mut buffer), Ok(79_882));
    // More blocks than any table has: 25 + 3,274 × 36, and with the full tables 25 + 2,561 × 36 + 1,024 × 21.
    assert_eq!(asked(&gossip(&[], &[]), &gossip(&blocks(3274), &[])), "blocks 3274\nvotes 0\nbytes 117889\n");
    assert_eq!(asked(&full(), &gossip(&blocks(2050), &[])), "blocks 1539\nvotes 0\nbytes 95329\n");
}

#[test]
fn places_of_votes_that_leave() {
    // With E = 1 all votes of the first packet leave at its Merge, and need places before it.
    let asked = |first: &[u8], second: &[u8]| fitask(&input(1, 1, 1, 2000, first, second));
    assert_eq!(asked(&full(), &gossip(&[], &[])), "blocks 0\nvotes 0\nbytes 18421\n");
    assert_eq!(asked(&full(), &gossip(&[], &[(0, 1999, 1), (0, 1998, 1)])), "blocks 0\nvotes 1\nbytes 18442\n");
    assert_eq!(asked(&gossip(&[], &votes(0, 1025)), &gossip(&[], &[])), "refused 10\n");
}

#[test]
fn input_of_a_wrong_length() {
    for length in 0..13 {
        assert_eq!(fitask(&vec![0; length]), "refused 8\n");
    }
    assert_eq!(fitask(&[0; 13]), "refused 1\n");
    assert_eq!(fitask(&[0; 65_536]), "refused 1\n");
    assert_eq!(fitask(&[0; 65_537]), "refused 8\n");
    // Shorter than the length says: before n is tested, and before any packet.
    assert_eq!(fitask(&with_length(0, 0, 0, 4, 1, &[])), "refused 8\n");
    assert_eq!(fitask(&with_length(0, 0, 0, 4, 18, &[0; 17])), "refused 8\n");
    assert_eq!(fitask(&with_length(0, 0, 0, 4, 17, &[0; 17])), "refused 1\n");
    assert_eq!(fitask(&with_length(5, 2, 3, u32::MAX, u32::MAX, &[0; 17])), "refused 8\n");
    assert_eq!(fitask(&with_length(5, 2, 3, 0, 18, &[0; 17])), "refused 8\n");
    // One packet and nothing behind it: the second is empty. It is refused after Merge, which at slot 0 is refused.
    assert_eq!(fitask(&with_length(5, 2, 3, 4, 17, &[0; 17])), "refused 8\n");
    assert_eq!(fitask(&with_length(5, 2, 3, 0, 17, &[0; 17])), "refused 12\n");
    // An empty gossip packet has 17 bytes.
    assert_eq!(fitask(&with_length(5, 2, 3, 4, 0, &[0; 17])), "refused 8\n");
    assert_eq!(fitask(&with_length(5, 2, 3, 4, 16, &[0; 34])), "refused 8\n");
    assert_eq!(fitask(&with_length(5, 2, 3, 4, 17, &[0; 34])), "blocks 0\nvotes 0\nbytes 25\n");
    assert_eq!(fitask(&with_length(5, 2, 3, 4, 17, &[0; 35])), "refused 8\n");
    // An input of the greatest length, 13 + 17 + 17 + 3 × 20 + 5,033 × 13, and one of a byte more,
    // 13 + 17 + 17 + 5 × 20 + 5,030 × 13.
    let longest = |count: u128, votes: u32| {
        let votes: Vec<(u8, u32, u128)> = (0..votes).map(|at| ((at % 64) as u8, 1 + at / 64, 0)).collect();
        input(64, 4096, 1, 100, &gossip(&[], &[]), &gossip(&blocks(count), &votes))
    };
    let (most, above) = (longest(3, 5033), longest(5, 5030));
    assert_eq!((most.len(), above.len()), (65_536, 65_537));
    assert_eq!(fitask(&most), "blocks 3\nvotes 5033\nbytes 105826\n");
    assert_eq!(fitask(&above), "refused 8\n");
}

#[test]
fn refusals() {
    let shed = written(&shed(), false);
    // Open, whatever the slot and the packets are.
    for (slot, bytes) in [(4, &shed[..]), (0, &[]), (u32::MAX, &[])] {
        assert_eq!(fitask(&input(0, 0, 0, slot, bytes, bytes)), "refused 1\n");
        assert_eq!(fitask(&input(65, 0, 0, slot, bytes, bytes)), "refused 1\n");
        assert_eq!(fitask(&input(5, 0, 0, slot, bytes, bytes)), "refused 3\n");
        assert_eq!(fitask(&input(5, 4097, 0, slot, bytes, bytes)), "refused 3\n");
        assert_eq!(fitask(&input(5, 4096, 0, slot, bytes, bytes)), "refused 4\n");
        assert_eq!(fitask(&input(5, 4096, 4097, slot, bytes, bytes)), "refused 4\n");
    }
    // A slot above the limit, before the packets.
    assert_eq!(fitask(&input(5, 4096, 4096, 1_000_000_001, &shed, &shed)), "refused 7\n");
    assert_eq!(fitask(&input(5, 4096, 4096, u32::MAX, &[], &[])), "refused 7\n");
    assert_eq!(fitask(&input(5, 4096, 4096, 1_000_000_000, &shed, &shed)), "blocks 0\nvotes 0\nbytes 133\n");
    // A wrong length, block, vote and header; in each all that comes later is wrong too. A loom has no 24.
    let many: Vec<(u128, u128, u32)> = (100..=611).map(|number| (number, 0, 1)).collect();
    let with_many = |block: (u128, u128, u32)| [&many[..], &[block]].concat();
    let wrong = [
        (vec![], 8),
        (vec![0; 4097], 8),
        (packet(4, 1, 11, &with_many((12, 0, 5)), &[(5, 1, 100)]), 8),
        (packet(1, 1, 11, &with_many((12, 0, 5)), &[(5, 1, 100)]), 9),
        (packet(1, 1, 11, &with_many((12, 0, 1)), &[(0, 1, 100), (5, 1, 100)]), 20),
        (packet(1, 1, 11, &with_many((12, 0, 1)), &[(0, 1, 100)]), 21),
    ];
    for (bytes, number) in &wrong {
        assert_eq!(of_shed(&shed, bytes), format!("refused {number}\n"));
        // The first packet goes before the second, and so does its 10.
        assert_eq!(of_shed(bytes, &shed), format!("refused {number}\n"));
        for (other, _) in &wrong {
            assert_eq!(of_shed(bytes, other), format!("refused {number}\n"));
        }
        assert_eq!(of_shed(&gossip(&many, &[]), bytes), "refused 10\n");
    }
    // It goes by n and by the slot: voter 4 is not below 4, block 31 is of slot 3.
    assert_eq!(fitask(&input(4, 2, 3, 4, &gossip(&[], &[]), &shed)), "refused 20\n");
    assert_eq!(fitask(&input(5, 2, 3, 2, &gossip(&[], &[]), &shed)), "refused 9\n");
    // The second packet is tested on the stock of the first.
    assert_eq!(of_shed(&shed, &gossip(&[(11, 0, 2)], &[])), "refused 9\n");
    assert_eq!(of_shed(&shed, &gossip(&[(41, 31, 3)], &[])), "refused 9\n");
    assert_eq!(of_shed(&shed, &gossip(&[], &[(0, 2, 31)])), "refused 20\n");
    assert_eq!(of_shed(&shed, &packet(1, 3, 31, &[(11, 0, 1)], &[])), "refused 21\n");
    assert_eq!(of_shed(&shed, &gossip(&[(41, 31, 4)], &[(0, 3, 31)])), "blocks 1\nvotes 1\nbytes 274\n");
    assert_eq!(of_shed(&gossip(&[], &[]), &gossip(&[(41, 31, 4)], &[])), "refused 9\n");
    assert_eq!(of_shed(&gossip(&[], &[]), &gossip(&[], &[(0, 3, 31)])), "refused 20\n");
    // At slot 0 beat 2 is done already: after the first packet and before the second.
    for second in [&gossip(&[], &[])[..], &shed, &[]] {
        assert_eq!(fitask(&input(5, 2, 3, 0, &gossip(&[], &[]), second)), "refused 12\n");
        assert_eq!(fitask(&input(5, 2, 3, 0, &shed, second)), "refused 9\n");
        assert_eq!(fitask(&input(5, 2, 3, 0, &[], second)), "refused 8\n");
    }
}
