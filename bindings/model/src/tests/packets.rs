//! Packets byte for byte, Write, and what Receive refuses as 8; with narrow numbers, the wide ones are in `wide`.

use super::*;

/// A proposal of slot 258 with number 0x0807060504030201, one block and one vote.
const BYTES: [u8; 50] = [
    1, // kind
    2, 1, 0, 0, // slot
    1, 2, 3, 4, 5, 6, 7, 8, // proposed number
    1, 0, // count of blocks
    1, 2, 3, 4, 5, 6, 7, 8, // number
    9, 0, 0, 0, 0, 0, 0, 16, // parent
    2, 1, 0, 0, // slot
    1, 0,  // count of votes
    63, // voter
    3, 1, 0, 128, // slot
    255, 255, 255, 255, 255, 255, 255, 255, // number
];

#[test]
fn bytes_and_fields() {
    let said = Packet {
        kind: 1,
        slot: 258,
        number: 0x0807_0605_0403_0201,
        blocks: vec![PacketBlock { number: 0x0807_0605_0403_0201, parent: 0x1000_0000_0000_0009, slot: 258 }],
        votes: vec![PacketVote { voter: 63, slot: 0x8000_0103, number: u128::from(u64::MAX) }],
    };
    assert_eq!(said.encode(), BYTES);
    assert_eq!(Packet::decode(&BYTES), Some(said));
}

#[test]
fn empty_gossip_has_17_bytes() {
    let node = fresh(5, 0, 2, 3);
    assert_eq!(written(&node, false), [0; 17]);
    let said = Packet { kind: 0, slot: 0, number: 0, blocks: vec![], votes: vec![] };
    assert_eq!(Packet::decode(&[0; 17]), Some(said));
}

#[test]
fn wrong_packets() {
    let mut wrong: Vec<Vec<u8>> = Vec::new();
    // Every shorter length, and one byte more.
    wrong.extend((0..BYTES.len()).map(|length| BYTES[..length].to_vec()));
    wrong.push([&BYTES[..], &[0][..]].concat());
    // Kinds that are none, and wide kinds over narrow numbers.
    for kind in [2, 3, 4, 5, 128, 255] {
        wrong.push([&[kind][..], &BYTES[1..]].concat());
    }
    // Gossip with a slot, a number, or both.
    for at in 1..13 {
        let mut bytes = vec![0; 17];
        bytes[at] = 1;
        wrong.push(bytes);
    }
    wrong.push([&[0][..], &BYTES[1..]].concat());
    // Counts that promise more than is there, or less.
    for at in [13, 14, 35, 36] {
        let mut bytes = BYTES.to_vec();
        bytes[at] = 255;
        wrong.push(bytes);
        let mut bytes = BYTES.to_vec();
        bytes[at] ^= 1;
        wrong.push(bytes);
    }
    for bytes in wrong {
        assert_eq!(Packet::decode(&bytes), None, "{bytes:?}");
        let mut node = fresh(5, 0, 2, 3);
        assert_eq!(node.receive(2, &bytes), whole(8), "{bytes:?}");
    }
}

#[test]
fn a_proposal_may_have_zero_fields() {
    // No refusal 8; that no block of the packet has number 0 is refusal 21.
    let bytes = packet(1, 0, 0, &[], &[]);
    assert!(Packet::decode(&bytes).is_some());
    assert_eq!(fresh(5, 0, 2, 3).receive(3, &bytes), whole(21));
}

#[test]
fn gossip_writes_the_stock_and_a_proposal_the_view() {
    let mut node = fresh(2, 1, 2, 1);
    node.receive(3, &gossip(&[(5, 0, 1)], &[(0, 1, 5)])).unwrap();
    assert_eq!(node.propose(3, 258), Ok(0));
    // One more block and vote wait.
    node.receive(3, &gossip(&[(6, 0, 1)], &[(1, 1, 6)])).unwrap();
    let mut stock = vec![0, 0, 0, 0, 0, 0, 0, 0, 0, 0, 0, 0, 0, 3, 0];
    stock.extend([5, 0, 0, 0, 0, 0, 0, 0, 0, 0, 0, 0, 0, 0, 0, 0, 1, 0, 0, 0]);
    stock.extend([2, 1, 0, 0, 0, 0, 0, 0, 0, 0, 0, 0, 0, 0, 0, 0, 1, 0, 0, 0]);
    stock.extend([6, 0, 0, 0, 0, 0, 0, 0, 0, 0, 0, 0, 0, 0, 0, 0, 1, 0, 0, 0]);
    stock.extend([2, 0, 0, 1, 0, 0, 0, 5, 0, 0, 0, 0, 0, 0, 0]);
    stock.extend([1, 1, 0, 0, 0, 6, 0, 0, 0, 0, 0, 0, 0]);
    assert_eq!(written(&node, false), stock);
    let mut view = vec![1, 1, 0, 0, 0, 2, 1, 0, 0, 0, 0, 0, 0, 2, 0];
    view.extend([5, 0, 0, 0, 0, 0, 0, 0, 0, 0, 0, 0, 0, 0, 0, 0, 1, 0, 0, 0]);
    view.extend([2, 1, 0, 0, 0, 0, 0, 0, 0, 0, 0, 0, 0, 0, 0, 0, 1, 0, 0, 0]);
    view.extend([1, 0, 0, 1, 0, 0, 0, 5, 0, 0, 0, 0, 0, 0, 0]);
    assert_eq!(written(&node, true), view);
}

#[test]
fn bytes_beyond_the_packet_stay() {
    let node = shed();
    // 17 bytes, three blocks of 20 and five votes of 13.
    let mut buffer = vec![7; 150];
    assert_eq!(node.write(false, false, &mut buffer), Ok(142));
    assert_eq!(buffer[142..], [7; 8]);
    assert_eq!(buffer[..1], [0]);
    let mut exact = vec![7; 142];
    assert_eq!(node.write(false, false, &mut exact), Ok(142));
    assert_eq!(exact, buffer[..142]);
    let mut short = vec![7; 141];
    assert_eq!(node.write(false, false, &mut short), Err(18));
    assert_eq!(short, [7; 141]);
}

#[test]
fn a_section_ends_where_its_count_does() {
    let blocks = vec![PacketBlock { number: 1, parent: 0, slot: 1 }; 65_537];
    let bytes = Packet { kind: 0, slot: 0, number: 0, blocks, votes: vec![] }.encode();
    assert_eq!(bytes.len(), 17 + 65_535 * 20);
    assert_eq!(bytes[13..15], [255, 255]);
    assert_eq!(Packet::decode(&bytes).unwrap().blocks.len(), 65_535);
}
