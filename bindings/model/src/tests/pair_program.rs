//! Program pairask.

use super::*;
use crate::pairask;

/// The input with this length of the first packet and with all that follows it. That of fitask has the same form.
pub fn with_length(n: u8, e: u16, k: u16, slot: u32, length: u32, rest: &[u8]) -> Vec<u8> {
    let mut bytes = vec![n];
    bytes.extend(e.to_le_bytes());
    bytes.extend(k.to_le_bytes());
    bytes.extend(slot.to_le_bytes());
    bytes.extend(length.to_le_bytes());
    bytes.extend(rest);
    bytes
}

/// The input with two packets at its end.
pub fn input(n: u8, e: u16, k: u16, slot: u32, first: &[u8], second: &[u8]) -> Vec<u8> {
    with_length(n, e, k, slot, first.len() as u32, &[first, second].concat())
}

/// The answer to two packets of the shed, for slot 4.
fn of_shed(first: &[u8], second: &[u8]) -> String {
    pairask(&input(5, 2, 3, 4, first, second))
}

#[test]
fn the_shed() {
    let shed = written(&shed(), false);
    assert_eq!(of_shed(&shed, &shed), "none\n");
    assert_eq!(of_shed(&shed, &widened(&shed)), "none\n");
    // Voter 1 voted in slot 2 for 21, voter 4 in slot 2 for 11.
    let second = gossip(&[(11, 0, 1)], &[(4, 2, 0), (1, 2, 11)]);
    assert_eq!(of_shed(&shed, &second), "voter 1 slot 2 blocks 21 11\n");
    assert_eq!(of_shed(&second, &shed), "voter 1 slot 2 blocks 11 21\n");
    assert_eq!(of_shed(&shed, &gossip(&[], &[(4, 2, 0)])), "voter 4 slot 2 blocks 11 0\n");
    // Within the second packet, in slot 1, which a merge of slot 4 would remove.
    let second = gossip(&[(11, 0, 1), (12, 0, 1)], &[(0, 1, 12), (0, 1, 11)]);
    assert_eq!(of_shed(&gossip(&[], &[]), &second), "voter 0 slot 1 blocks 12 11\n");
    assert_eq!(of_shed(&shed, &second), "voter 0 slot 1 blocks 11 12\n");
    // Proposals are taken too.
    let proposal = packet(1, 1, 12, &[(12, 0, 1)], &[(0, 1, 12)]);
    assert_eq!(of_shed(&proposal, &shed), "voter 0 slot 1 blocks 12 11\n");
}

#[test]
fn the_largest_numbers() {
    let last = 1_000_000_000;
    let stock = |number: u128| wide_gossip(&[(number, 0, 1)], &[(63, last, number)]);
    let text = "voter 63 slot 1000000000 blocks 340282366920938463463374607431768211455 18446744073709551616\n";
    assert_eq!(pairask(&input(64, 4096, 4096, last, &stock(u128::MAX), &stock(UP))), text);
}

#[test]
fn input_of_a_wrong_length() {
    assert_eq!(pairask(&[]), "refused 8\n");
    assert_eq!(pairask(&[0; 12]), "refused 8\n");
    assert_eq!(pairask(&[0; 13]), "refused 1\n");
    assert_eq!(pairask(&[0; 65_536]), "refused 1\n");
    assert_eq!(pairask(&[0; 65_537]), "refused 8\n");
    // Shorter than the length says: before n is tested, and before any packet.
    assert_eq!(pairask(&with_length(0, 0, 0, 4, 1, &[])), "refused 8\n");
    assert_eq!(pairask(&with_length(0, 0, 0, 4, 18, &[0; 17])), "refused 8\n");
    assert_eq!(pairask(&with_length(0, 0, 0, 4, 17, &[0; 17])), "refused 1\n");
    assert_eq!(pairask(&with_length(5, 2, 3, u32::MAX, u32::MAX, &[0; 17])), "refused 8\n");
    // One packet and nothing behind it: the second is empty. An empty gossip packet has 17 bytes.
    assert_eq!(pairask(&with_length(5, 2, 3, 4, 17, &[0; 17])), "refused 8 second\n");
    assert_eq!(pairask(&with_length(5, 2, 3, 4, 0, &[0; 17])), "refused 8 first\n");
    assert_eq!(pairask(&with_length(5, 2, 3, 4, 16, &[0; 34])), "refused 8 first\n");
    assert_eq!(pairask(&with_length(5, 2, 3, 4, 17, &[0; 34])), "none\n");
    assert_eq!(pairask(&with_length(5, 2, 3, 4, 17, &[0; 35])), "refused 8 second\n");
    // An input of the greatest length.
    let mut most = with_length(5, 2, 3, 4, 17, &[0; 17]);
    most.resize(65_536, 0);
    assert_eq!(pairask(&most), "refused 8 second\n");
    most.push(0);
    assert_eq!(pairask(&most), "refused 8\n");
}

#[test]
fn refusals() {
    let shed = written(&shed(), false);
    // What Open refuses is about neither packet.
    assert_eq!(pairask(&input(0, 0, 0, 4, &[], &[])), "refused 1\n");
    assert_eq!(pairask(&input(65, 0, 0, 4, &shed, &shed)), "refused 1\n");
    assert_eq!(pairask(&input(5, 0, 0, 4, &[], &[])), "refused 3\n");
    assert_eq!(pairask(&input(5, 4097, 0, 4, &shed, &shed)), "refused 3\n");
    assert_eq!(pairask(&input(5, 4096, 0, 4, &shed, &shed)), "refused 4\n");
    assert_eq!(pairask(&input(5, 4096, 4097, 1_000_000_001, &[], &[])), "refused 4\n");
    // A beat that is not allowed refuses the first packet.
    assert_eq!(pairask(&input(5, 4096, 4096, 1_000_000_001, &shed, &shed)), "refused 7 first\n");
    assert_eq!(pairask(&input(5, 4096, 4096, u32::MAX, &[], &[])), "refused 7 first\n");
    assert_eq!(pairask(&input(5, 4096, 4096, 1_000_000_000, &shed, &shed)), "none\n");
    // A wrong block, a wrong vote, a wrong header; a loom has no 24.
    let wrong = [
        (vec![], 8),
        (vec![0; 4097], 8),
        (gossip(&[(11, 0, 1), (12, 0, 5)], &[(5, 1, 11)]), 9),
        (gossip(&[(11, 0, 1)], &[(0, 1, 11), (5, 1, 11)]), 20),
        (packet(1, 1, 11, &[(12, 0, 1)], &[]), 21),
    ];
    for (bytes, number) in &wrong {
        assert_eq!(of_shed(bytes, &shed), format!("refused {number} first\n"));
        assert_eq!(of_shed(&shed, bytes), format!("refused {number} second\n"));
        for (other, _) in &wrong {
            assert_eq!(of_shed(bytes, other), format!("refused {number} first\n"));
        }
    }
    // It goes by n and by the slot: voter 4 is not below 4, block 31 is of slot 3.
    assert_eq!(pairask(&input(4, 2, 3, 4, &gossip(&[], &[]), &shed)), "refused 20 second\n");
    assert_eq!(pairask(&input(5, 2, 3, 2, &gossip(&[], &[]), &shed)), "refused 9 second\n");
    // At slot 0 packets without entries are taken.
    assert_eq!(pairask(&input(5, 2, 3, 0, &gossip(&[], &[]), &wide_gossip(&[], &[]))), "none\n");
    assert_eq!(pairask(&input(5, 2, 3, 0, &gossip(&[], &[]), &shed)), "refused 9 second\n");
}

#[test]
fn its_places() {
    let blocks = |count: u128| (1..=count).map(|number| (number, 0, 1)).collect::<Vec<_>>();
    let votes = |count: u32, number: u128| (1..=count).map(|slot| (0, slot, number)).collect::<Vec<_>>();
    let asked = |first: &[u8], second: &[u8]| pairask(&input(64, 2, 3, 2000, first, second));
    let full = |number: u128| gossip(&blocks(511), &votes(1024, number));
    assert_eq!(asked(&full(511), &full(511)), "none\n");
    assert_eq!(asked(&full(511), &full(510)), "voter 0 slot 1 blocks 511 510\n");
    for bytes in [gossip(&blocks(512), &[]), gossip(&[], &votes(1025, 0))] {
        assert_eq!(asked(&bytes, &full(1)), "refused 10 first\n");
        assert_eq!(asked(&full(1), &bytes), "refused 10 second\n");
    }
}
