//! Program chainask.

use super::*;
use crate::chainask;

/// The input with a packet at its end.
fn input(n: u8, e: u16, k: u16, slot: u32, packet: &[u8]) -> Vec<u8> {
    let mut bytes = vec![n];
    bytes.extend(e.to_le_bytes());
    bytes.extend(k.to_le_bytes());
    bytes.extend(slot.to_le_bytes());
    bytes.extend(packet);
    bytes
}

#[test]
fn the_first_case() {
    let shed = written(&shed(), false);
    assert_eq!(chainask(&input(5, 2, 3, 4, &shed)), "head 31\ndeep 11\nfast none\n");
    assert_eq!(chainask(&input(5, 2, 1, 4, &shed)), "head 31\ndeep 31\nfast none\n");
    // Two nodes vote in slot 3, with n = 5 too few.
    assert_eq!(chainask(&input(5, 2, 3, 3, &shed)), "head 31\ndeep 0\nfast none\n");
}

#[test]
fn a_fast_block_and_a_waiting_proposal() {
    // Received in phase 2, the proposal waits and is merged.
    let number = u128::from(u64::MAX);
    let bytes = packet(1, 1, number, &[(number, 0, 1)], &[(0, 1, number)]);
    let text = "head 18446744073709551615\ndeep 0\nfast 18446744073709551615\n";
    assert_eq!(chainask(&input(1, 1, 1, 1, &bytes)), text);
}

#[test]
fn a_double_vote() {
    // One node with E = 2, twice in slot 1 and for 21 in slot 3. It is dropped for slot 3 and counts again for slot 4.
    let bytes = gossip(&[(11, 0, 1), (21, 0, 1)], &[(0, 1, 11), (0, 1, 21), (0, 3, 21)]);
    assert_eq!(chainask(&input(1, 2, 1, 3, &bytes)), "head 11\ndeep 11\nfast 21\n");
    assert_eq!(chainask(&input(1, 2, 1, 4, &bytes)), "head 21\ndeep 21\nfast none\n");
}

#[test]
fn refusals() {
    let shed = written(&shed(), false);
    assert_eq!(chainask(&[]), "refused 8\n");
    assert_eq!(chainask(&[0; 8]), "refused 8\n");
    assert_eq!(chainask(&[0; 9]), "refused 1\n");
    assert_eq!(chainask(&[0; 32_768]), "refused 1\n");
    assert_eq!(chainask(&[0; 32_769]), "refused 8\n");
    assert_eq!(chainask(&input(65, 0, 0, 4, &shed)), "refused 1\n");
    assert_eq!(chainask(&input(5, 0, 0, 4, &shed)), "refused 3\n");
    assert_eq!(chainask(&input(5, 4097, 0, 4, &shed)), "refused 3\n");
    assert_eq!(chainask(&input(5, 4096, 0, 4, &shed)), "refused 4\n");
    assert_eq!(chainask(&input(5, 4096, 4097, 4, &shed)), "refused 4\n");
    assert_eq!(chainask(&input(5, 4096, 4096, 1_000_000_001, &[])), "refused 7\n");
    assert_eq!(chainask(&input(5, 4096, 4096, u32::MAX, &[])), "refused 7\n");
    assert_eq!(chainask(&input(5, 4096, 4096, 1_000_000_000, &[])), "refused 8\n");
    assert_eq!(chainask(&input(5, 4096, 4096, 1_000_000_000, &shed)), "head 31\ndeep 31\nfast none\n");
    // Block 31 is of a later slot than 2. Voter 4 is not below 4. The header names no block of the packet.
    assert_eq!(chainask(&input(5, 2, 3, 2, &shed)), "refused 9\n");
    assert_eq!(chainask(&input(4, 2, 3, 4, &shed)), "refused 20\n");
    assert_eq!(chainask(&input(5, 2, 3, 4, &packet(1, 1, 11, &[(12, 0, 1)], &[]))), "refused 21\n");
    // At slot 0 the packet is taken, and beat 2 is done already.
    assert_eq!(chainask(&input(5, 2, 3, 0, &gossip(&[], &[]))), "refused 12\n");
    assert_eq!(chainask(&input(5, 2, 3, 0, &[])), "refused 8\n");
}

#[test]
fn it_opens_a_loom() {
    // Of all these a rack has less: nodes, places of each table, bytes of a packet.
    let blocks: Vec<(u128, u128, u32)> = (1..=64).map(|number| (number, 0, 1)).collect();
    let votes: Vec<(u8, u32, u128)> = (0..257).map(|at| ((63 - at % 64) as u8, 1 + at / 64, 0)).collect();
    let bytes = gossip(&blocks, &votes);
    assert_eq!(bytes.len(), 17 + 64 * 20 + 257 * 13);
    assert_eq!(chainask(&input(64, 9, 1, 5, &bytes)), "head 1\ndeep 1\nfast none\n");
    assert_eq!(chainask(&input(17, 9, 1, 5, &gossip(&[], &[]))), "head 0\ndeep 0\nfast none\n");
    // A packet of 4,097 bytes or more is refused as 8 where it is wrong, never as 24.
    for length in [4096, 4097, 32_759] {
        assert_eq!(chainask(&input(5, 2, 3, 4, &vec![0; length])), "refused 8\n");
    }
}

#[test]
fn its_places() {
    let blocks = |count: u128| (1..=count).map(|number| (number, 0, 1)).collect::<Vec<_>>();
    let votes = |count: u32| (1..=count).map(|slot| (0, slot, 0)).collect::<Vec<_>>();
    let text = "head 1\ndeep 1\nfast none\n";
    assert_eq!(chainask(&input(5, 2, 3, 2000, &gossip(&blocks(511), &votes(1024)))), text);
    assert_eq!(chainask(&input(5, 2, 3, 2000, &gossip(&blocks(512), &[]))), "refused 10\n");
    assert_eq!(chainask(&input(5, 2, 3, 2000, &gossip(&[], &votes(1025)))), "refused 10\n");
}
