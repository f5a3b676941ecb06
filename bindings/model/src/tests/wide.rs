//! Request 8: numbers of 16 bytes in packets, tables and walks, both widths of Write, and refusal 23.

use super::*;
use crate::chainask;

/// A proposal of slot 258 with wide numbers, one block and one vote.
const BYTES: [u8; 82] = [
    3, // kind
    2, 1, 0, 0, // slot
    1, 2, 3, 4, 5, 6, 7, 8, 9, 10, 11, 12, 13, 14, 15, 16, // proposed number
    1, 0, // count of blocks
    1, 2, 3, 4, 5, 6, 7, 8, 9, 10, 11, 12, 13, 14, 15, 16, // number
    9, 0, 0, 0, 0, 0, 0, 16, 17, 0, 0, 0, 0, 0, 0, 32, // parent
    2, 1, 0, 0, // slot
    1, 0,  // count of votes
    63, // voter
    3, 1, 0, 128, // slot
    255, 255, 255, 255, 255, 255, 255, 255, 0, 0, 0, 0, 0, 0, 0, 128, // number
];

/// What BYTES say.
fn said() -> Packet {
    let number = 0x100f_0e0d_0c0b_0a09_0807_0605_0403_0201;
    let parent = 0x2000_0000_0000_0011_1000_0000_0000_0009;
    let voted = 0x8000_0000_0000_0000_ffff_ffff_ffff_ffff;
    Packet {
        kind: 3,
        slot: 258,
        number,
        blocks: vec![PacketBlock { number, parent, slot: 258 }],
        votes: vec![PacketVote { voter: 63, slot: 0x8000_0103, number: voted }],
    }
}

fn answer(new_blocks: u64, new_votes: u64, brought: bool) -> Result<Received, Refused> {
    Ok(Received { new_blocks, new_votes, brought })
}

#[test]
fn bytes_and_fields() {
    assert_eq!(said().encode(), BYTES);
    assert_eq!(Packet::decode(&BYTES), Some(said()));
    // The same entries as gossip.
    let gossip = Packet { kind: 2, slot: 0, number: 0, ..said() };
    let mut bytes = BYTES;
    bytes[..21].fill(0);
    bytes[0] = 2;
    assert_eq!(gossip.encode(), bytes);
    assert_eq!(Packet::decode(&bytes), Some(gossip));
}

#[test]
fn empty_packets_of_each_kind() {
    for (kind, right) in [(0, 17), (1, 17), (2, 25), (3, 25)] {
        for length in 1..60 {
            let mut bytes = vec![0; length];
            bytes[0] = kind;
            let packet = Packet { kind, slot: 0, number: 0, blocks: vec![], votes: vec![] };
            assert_eq!(Packet::decode(&bytes), (length == right).then_some(packet), "kind {kind}, {length} bytes");
            // No block of a proposal without blocks has number 0.
            let refusal = if length != right { whole(8) } else { whole(21) };
            let expected = if length == right && kind % 2 == 0 { answer(0, 0, false) } else { refusal };
            assert_eq!(fresh(5, 0, 2, 3).receive(2, &bytes), expected);
        }
    }
    // Kinds that are none.
    for kind in 4..=255 {
        for length in [1, 17, 25] {
            let mut bytes = vec![0; length];
            bytes[0] = kind;
            assert_eq!(fresh(5, 0, 2, 3).receive(2, &bytes), whole(8), "kind {kind}, {length} bytes");
        }
    }
}

#[test]
fn wrong_wide_packets() {
    let mut wrong: Vec<Vec<u8>> = Vec::new();
    // Every shorter length, and one byte more.
    wrong.extend((0..BYTES.len()).map(|length| BYTES[..length].to_vec()));
    wrong.push([&BYTES[..], &[0][..]].concat());
    // Narrow kinds over wide numbers, gossip with a slot and a number, and kinds that are none.
    for kind in [0, 1, 2, 4, 5, 6, 7, 128, 130, 131, 255] {
        wrong.push([&[kind][..], &BYTES[1..]].concat());
    }
    // Gossip with one bit in its slot or in one of the 16 bytes of its number.
    for at in 1..21 {
        for bit in [1, 128] {
            let mut bytes = vec![0; 25];
            bytes[0] = 2;
            bytes[at] = bit;
            wrong.push(bytes);
        }
    }
    // Counts that promise more than is there, or less.
    for at in [21, 22, 59, 60] {
        let mut bytes = BYTES.to_vec();
        bytes[at] = 255;
        wrong.push(bytes);
        let mut bytes = BYTES.to_vec();
        bytes[at] ^= 1;
        wrong.push(bytes);
    }
    for bytes in wrong {
        assert_eq!(Packet::decode(&bytes), None, "{bytes:?}");
        let mut node = fresh(5, 0, 2, 3);
        assert_eq!(node.receive(2, &bytes), whole(8), "{bytes:?}");
        assert_eq!(node, fresh(5, 0, 2, 3));
    }
}

#[test]
fn the_kind_alone_tells_the_width() {
    // A block and a vote wide are as long as no block and five votes narrow. Here the upper half of the proposed number
    // says these counts.
    let number = (5 << 80) + 7;
    let mut bytes = packet(3, 1, number, &[(number, 0, 1)], &[(0, 1, number)]);
    assert_eq!(bytes.len(), 82);
    assert_eq!(fresh(5, 0, 2, 3).receive(3, &bytes), answer(1, 1, true));
    bytes[0] = 1;
    let narrow = Packet::decode(&bytes).unwrap();
    assert_eq!((narrow.number, narrow.blocks.len(), narrow.votes.len()), (7, 0, 5));
    // Its first vote has a slot far above the beat's.
    assert_eq!(fresh(5, 0, 2, 3).receive(3, &bytes), entry(20, 0));
}

#[test]
fn encoding_what_does_not_fit() {
    // A narrow number has its lower half alone.
    let (blocks, votes) = ([(UP + 5, 3 * UP + 4, 1)], [(0, 1, u128::MAX)]);
    let cut = packet(1, 1, 5, &[(5, 4, 1)], &[(0, 1, u64::MAX.into())]);
    assert_eq!(packet(1, 1, UP + 5, &blocks, &votes), cut);
    // Kinds that are none have wide numbers.
    for kind in [4, 5, 255] {
        let bytes = packet(kind, 1, UP + 5, &blocks, &votes);
        assert_eq!(bytes[0], kind);
        assert_eq!(bytes[1..], packet(3, 1, UP + 5, &blocks, &votes)[1..]);
        assert_eq!(Packet::decode(&bytes), None);
    }
}

#[test]
fn gossip_writes_the_stock_and_a_proposal_the_view() {
    let mut node = fresh(2, 1, 2, 1);
    node.receive(3, &gossip(&[(5, 0, 1)], &[(0, 1, 5)])).unwrap();
    assert_eq!(node.propose(3, 772 * UP + 258), Ok(0));
    // One more block and vote wait.
    node.receive(3, &wide_gossip(&[(6 * UP, 0, 1)], &[(1, 1, 6 * UP)])).unwrap();
    let mut stock = vec![2, 0, 0, 0, 0, 0, 0, 0, 0, 0, 0, 0, 0, 0, 0, 0, 0, 0, 0, 0, 0, 3, 0];
    stock.extend([5, 0, 0, 0, 0, 0, 0, 0, 0, 0, 0, 0, 0, 0, 0, 0]);
    stock.extend([0, 0, 0, 0, 0, 0, 0, 0, 0, 0, 0, 0, 0, 0, 0, 0, 1, 0, 0, 0]);
    stock.extend([2, 1, 0, 0, 0, 0, 0, 0, 4, 3, 0, 0, 0, 0, 0, 0]);
    stock.extend([0, 0, 0, 0, 0, 0, 0, 0, 0, 0, 0, 0, 0, 0, 0, 0, 1, 0, 0, 0]);
    stock.extend([0, 0, 0, 0, 0, 0, 0, 0, 6, 0, 0, 0, 0, 0, 0, 0]);
    stock.extend([0, 0, 0, 0, 0, 0, 0, 0, 0, 0, 0, 0, 0, 0, 0, 0, 1, 0, 0, 0]);
    stock.extend([2, 0, 0, 1, 0, 0, 0, 5, 0, 0, 0, 0, 0, 0, 0, 0, 0, 0, 0, 0, 0, 0, 0]);
    stock.extend([1, 1, 0, 0, 0, 0, 0, 0, 0, 0, 0, 0, 0, 6, 0, 0, 0, 0, 0, 0, 0]);
    assert_eq!(written_wide(&node, false), stock);
    let mut view = vec![3, 1, 0, 0, 0, 2, 1, 0, 0, 0, 0, 0, 0, 4, 3, 0, 0, 0, 0, 0, 0, 2, 0];
    view.extend([5, 0, 0, 0, 0, 0, 0, 0, 0, 0, 0, 0, 0, 0, 0, 0]);
    view.extend([0, 0, 0, 0, 0, 0, 0, 0, 0, 0, 0, 0, 0, 0, 0, 0, 1, 0, 0, 0]);
    view.extend([2, 1, 0, 0, 0, 0, 0, 0, 4, 3, 0, 0, 0, 0, 0, 0]);
    view.extend([0, 0, 0, 0, 0, 0, 0, 0, 0, 0, 0, 0, 0, 0, 0, 0, 1, 0, 0, 0]);
    view.extend([1, 0, 0, 1, 0, 0, 0, 5, 0, 0, 0, 0, 0, 0, 0, 0, 0, 0, 0, 0, 0, 0, 0]);
    assert_eq!(written_wide(&node, true), view);
}

#[test]
fn bytes_beyond_the_packet_stay() {
    let node = shed();
    // 25 bytes, three blocks of 36 and five votes of 21.
    let mut buffer = vec![7; 250];
    assert_eq!(node.write(false, true, &mut buffer), Ok(238));
    assert_eq!(buffer[238..], [7; 12]);
    let mut exact = vec![7; 238];
    assert_eq!(node.write(false, true, &mut exact), Ok(238));
    assert_eq!(exact, buffer[..238]);
    let mut short = vec![7; 237];
    assert_eq!(node.write(false, true, &mut short), Err(18));
    assert_eq!(short, [7; 237]);
    // Narrow it would fit.
    assert_eq!(node.write(false, false, &mut short), Ok(142));
}

#[test]
fn an_old_stock_in_both_widths() {
    // In view and waiting, the largest narrow number, a vote that Merge would remove.
    let mut node = shed();
    let largest = u128::from(u64::MAX);
    node.receive(14, &gossip(&[(largest, 31, 4)], &[(1, 4, largest)])).unwrap();
    let (narrow, wide) = (written(&node, false), written_wide(&node, false));
    assert_eq!((narrow.len(), wide.len()), (17 + 4 * 20 + 6 * 13, 25 + 4 * 36 + 6 * 21));
    assert_eq!(widened(&narrow), wide);
    // "An old stock written wide, received as in the second demand and then written narrow gives the bytes of its own
    // narrow gossip."
    for (own, expiry, depth) in [(0, 2, 3), (4, 1, 1), (2, 4096, 4096)] {
        let mut from_wide = fresh(5, own, expiry, depth);
        assert_eq!(from_wide.receive(14, &wide), answer(4, 6, false));
        assert_eq!(written(&from_wide, false), narrow);
        assert_eq!(written_wide(&from_wide, false), wide);
        // The width of a packet leaves no trace.
        let mut from_narrow = fresh(5, own, expiry, depth);
        assert_eq!(from_narrow.receive(14, &narrow), answer(4, 6, false));
        assert_eq!(from_narrow, from_wide);
        // What came narrow is known when it comes wide, and the other way.
        assert_eq!(from_narrow.receive(14, &wide), answer(0, 0, false));
        assert_eq!(from_wide.receive(14, &narrow), answer(0, 0, false));
        assert_eq!(from_narrow, from_wide);
    }
}

#[test]
fn a_new_stock_written_wide() {
    let mut node = shed();
    let (blocks, votes) = ([(UP + 31, 31, 4), (u128::MAX, 0, 1)], [(0, 4, UP + 31), (1, 3, u128::MAX)]);
    assert_eq!(node.receive(14, &wide_gossip(&blocks, &votes)), answer(2, 2, false));
    // A narrow number on a wide one.
    assert_eq!(node.receive(15, &wide_gossip(&[(51, UP + 31, 5)], &[(2, 5, 51)])), answer(1, 1, false));
    let mut other = fresh(5, 3, 7, 8);
    assert_eq!(other.receive(15, &written_wide(&node, false)), answer(6, 8, false));
    assert_eq!(written_wide(&other, false), written_wide(&node, false));
    let fields = |n: &Node| n.blocks.iter().map(|b| (b.number, b.parent, b.slot)).collect::<Vec<_>>();
    assert_eq!(fields(&other), fields(&node));
    let fields = |n: &Node| n.votes.iter().map(|v| (v.voter, v.slot, v.number)).collect::<Vec<_>>();
    assert_eq!(fields(&other), fields(&node));
    for node in [node, other] {
        assert_eq!(node.write(false, false, &mut [0; 1000]), Err(23));
    }
}

/// Narrow gossip is refused as 23 whatever the buffer, which stays; wide gossip is not.
fn gossip_is_refused(node: &Node) {
    for length in [0, 10, 1000] {
        let mut buffer = vec![7; length];
        assert_eq!(node.write(false, false, &mut buffer), Err(23));
        assert_eq!(buffer, vec![7; length]);
    }
    assert!(node.write(false, true, &mut [0; 1000]).is_ok());
}

#[test]
fn narrow_gossip() {
    assert_eq!(written(&shed(), false).len(), 142);
    // A block in view or waiting, with any bit of the upper half.
    for bit in 64..128 {
        for in_view in [false, true] {
            let mut node = shed();
            add_block(&mut node, Block { in_view, ..block(1 << bit, 0, 1) });
            gossip_is_refused(&node);
        }
    }
    // The lower half does not matter.
    for bit in 5..64 {
        let mut node = shed();
        add_block(&mut node, block(1 << bit, 0, 1));
        assert_eq!(written(&node, false).len(), 162);
    }
    // What stands in unused places is not met.
    let mut node = shed();
    node.blocks[4] = block(UP, UP, 1);
    node.votes[5] = vote(0, 1, UP);
    assert_eq!(written(&node, false).len(), 142);
    // The vote for a wide block leaves, the block does not.
    let mut node = fresh(5, 0, 1, 1);
    node.receive(3, &wide_gossip(&[(UP, 0, 1)], &[(1, 1, UP)])).unwrap();
    node.merge(11).unwrap();
    assert_eq!((node.votes_used, &node.votes), (0, &vec![NO_VOTE; 16]));
    gossip_is_refused(&node);
}

/// The shed after its node 0 has proposed this number in slot 5.
fn proposed(number: u128) -> Node {
    let mut node = shed();
    assert_eq!(node.propose(15, number), Ok(31));
    node
}

#[test]
fn narrow_proposals() {
    // The proposed number itself.
    for number in [UP, UP + 11, u128::MAX] {
        let node = proposed(number);
        for length in [0, 161, 1000] {
            let mut buffer = vec![7; length];
            assert_eq!(node.write(true, false, &mut buffer), Err(23));
            assert_eq!(buffer, vec![7; length]);
        }
        let packet = Packet::decode(&written_wide(&node, true)).unwrap();
        assert_eq!((packet.kind, packet.slot, packet.number), (3, 5, number));
        gossip_is_refused(&node);
    }
    // A wide block that came before Propose is in view with it.
    let mut node = shed();
    node.receive(15, &wide_gossip(&[(UP, 0, 1)], &[])).unwrap();
    assert_eq!(node.propose(15, 99), Ok(31));
    assert_eq!(node.write(true, false, &mut []), Err(23));
    assert_eq!(node.write(true, true, &mut []), Err(18));
    // One that came after it waits: gossip writes it, the proposal does not.
    let mut node = proposed(99);
    let narrow = written(&node, true);
    assert_eq!(node.receive(15, &wide_gossip(&[(UP, 0, 5)], &[(1, 5, UP)])), answer(1, 1, false));
    gossip_is_refused(&node);
    assert_eq!(written(&node, true), narrow);
    assert_eq!(node.write(true, false, &mut [0; 161]), Err(18));
    assert_eq!(written_wide(&node, true), widened(&narrow));
    // Where no proposal is to be written, 19 goes first.
    node.vote(16).unwrap();
    assert_eq!(node.write(true, false, &mut []), Err(19));
    assert_eq!(node.write(true, true, &mut []), Err(19));
}

#[test]
fn the_upper_half_decides_ties() {
    // The smaller number first. In some of them the lower halves say the opposite.
    let (top, lower_top) = (1 << 127, 1 << 63);
    let pairs = [
        (9, UP + 5),
        (u128::from(u64::MAX), UP),
        (UP + 7, 2 * UP + 6),
        (2 * UP - 1, 2 * UP),
        (top - 1, top),
        (UP + lower_top, top + 1),
        (top + 3, top + UP + 2),
        // With the same upper half the lower one decides.
        (7 * UP + 2, 7 * UP + 3),
        (7 * UP + lower_top - 1, 7 * UP + lower_top),
        (u128::MAX - 1, u128::MAX),
    ];
    for (smaller, greater) in pairs {
        for (first, second) in [(smaller, greater), (greater, smaller)] {
            let blocks = [(first, 0, 1), (second, 0, 1)];
            // No vote, one each, one more for the greater.
            let votes = [(0, 1, first), (1, 1, second), (2, 1, greater)];
            for (count, head) in [(0, smaller), (2, smaller), (3, greater)] {
                let mut node = fresh(3, 2, 2, 1);
                node.receive(5, &wide_gossip(&blocks, &votes[..count])).unwrap();
                node.merge(5).unwrap();
                assert_eq!(node.clone().vote(7), Ok(head), "{first} {second}, {count} votes");
                assert_eq!(node.propose(6, 77), Ok(head), "{first} {second}, {count} votes");
                assert_eq!((node.head(2), node.deep(2)), (Ok(77), Ok(head)));
            }
        }
    }
}

#[test]
fn two_to_the_64_beside_block_0() {
    let mut node = fresh(4, 0, 2, 1);
    // It is not block 0 and may stand on it, not on itself.
    assert_eq!(node.receive(3, &wide_gossip(&[(UP, UP, 1)], &[])), entry(9, 0));
    assert_eq!(node.receive(3, &wide_gossip(&[(7, UP, 1)], &[])), entry(9, 0));
    assert_eq!(node.receive(3, &wide_gossip(&[], &[(0, 1, UP)])), entry(20, 0));
    assert_eq!(node.receive(3, &wide_gossip(&[(UP, 0, 1)], &[(0, 1, UP), (1, 1, 0), (2, 1, UP)])), answer(1, 3, false));
    // Block 0 is known in both widths and refused as before.
    assert_eq!(node.receive(3, &wide_gossip(&[(0, 0, 0)], &[])), entry(9, 0));
    assert_eq!(node.receive(3, &wide_gossip(&[(0, 0, 1)], &[])), entry(9, 0));
    // A narrow vote for 0 is for block 0.
    assert_eq!(node.receive(3, &gossip(&[], &[(1, 1, 0)])), answer(0, 0, false));
    assert_eq!(node.receive(3, &gossip(&[], &[(3, 1, 0)])), answer(0, 1, false));
    node.merge(5).unwrap();
    // Three of four are needed: two are for 2^64, all four for block 0.
    assert_eq!((node.head(1), node.deep(1), node.fast(1)), (Ok(UP), Ok(0), Ok(Some(0))));
    node.receive(8, &wide_gossip(&[], &[(0, 2, UP), (1, 2, UP), (2, 2, UP), (3, 2, 0)])).unwrap();
    node.merge(8).unwrap();
    assert_eq!((node.head(2), node.deep(2), node.fast(2)), (Ok(UP), Ok(UP), Ok(Some(UP))));
    // Propose: 2^64 is not known on a fresh node, and then it is.
    let mut node = fresh(1, 0, 1, 1);
    assert_eq!(node.propose(3, 0), Err(15));
    assert_eq!(node.propose(3, UP), Ok(0));
    assert_eq!(node.blocks[..2], [block(0, 0, 0), block(UP, 0, 1)]);
    assert_eq!(node.vote(4), Ok(UP));
    node.merge(5).unwrap();
    assert_eq!(node.propose(6, UP), Err(15));
    assert_eq!(node.propose(6, 2 * UP), Ok(UP));
}

#[test]
fn numbers_are_known_over_both_halves() {
    // The shed has 11, 21 and 31. Each rule of 9 and 20, with numbers whose lower halves are known.
    let at_14 = |bytes: &[u8]| shed().receive(14, bytes);
    assert_eq!(at_14(&wide_gossip(&[(41, 31, 4), (42, UP + 31, 4)], &[])), entry(9, 1));
    assert_eq!(at_14(&wide_gossip(&[(UP + 31, 0, 4), (UP + 31, 0, 3)], &[])), entry(9, 1));
    assert_eq!(at_14(&wide_gossip(&[(UP + 31, 0, 4), (2 * UP + 31, 0, 3)], &[])), answer(2, 0, false));
    assert_eq!(at_14(&wide_gossip(&[(UP + 31, 0, 3), (42, UP + 31, 4)], &[])), answer(2, 0, false));
    assert_eq!(at_14(&wide_gossip(&[(UP + 31, 0, 4), (42, UP + 31, 4)], &[])), entry(9, 1));
    assert_eq!(at_14(&wide_gossip(&[], &[(0, 4, 31), (0, 4, UP + 31)])), entry(20, 1));
    assert_eq!(at_14(&wide_gossip(&[(UP + 31, 0, 4)], &[(0, 3, 31), (0, 3, UP + 31)])), entry(20, 1));
    assert_eq!(at_14(&wide_gossip(&[(UP + 31, 0, 4)], &[(0, 4, UP + 31), (0, 4, UP + 31)])), answer(1, 1, false));
    // The header too.
    assert_eq!(at_14(&packet(3, 4, UP + 41, &[(41, 31, 4)], &[])), whole(21));
    assert_eq!(at_14(&packet(3, 4, 41, &[(UP + 41, 31, 4)], &[])), whole(21));
    assert_eq!(at_14(&packet(3, 3, UP + 41, &[(UP + 41, 31, 4)], &[])), whole(21));
    assert_eq!(at_14(&packet(3, 4, UP + 41, &[(UP + 41, 31, 4)], &[])), answer(1, 0, false));
    // A narrow number has upper half zero: it does not name a wide block.
    let mut node = shed();
    node.receive(14, &wide_gossip(&[(UP + 41, 0, 1)], &[])).unwrap();
    assert_eq!(node.receive(14, &gossip(&[(42, 41, 4)], &[])), entry(9, 0));
    assert_eq!(node.receive(14, &gossip(&[], &[(0, 4, 41)])), entry(20, 0));
    assert_eq!(node.receive(14, &gossip(&[(41, 31, 4)], &[(0, 4, 41)])), answer(1, 1, false));
    // Propose goes by both halves.
    assert_eq!(node.clone().propose(15, UP + 41), Err(15));
    assert!(node.clone().propose(15, UP + 31).is_ok());
    assert!(node.clone().propose(15, 2 * UP + 41).is_ok());
}

#[test]
fn double_votes_for_numbers_of_one_lower_half() {
    // Voter 0 votes for 21, or for 21 and 2^64 + 21; 11 is the smallest number.
    let blocks = [(11, 0, 1), (21, 0, 1), (UP + 21, 0, 1)];
    let votes = [(0, 1, 21), (0, 1, UP + 21)];
    for (count, head, fast) in [(1, 21, Some(21)), (2, 11, None)] {
        let mut node = fresh(1, 0, 2, 1);
        node.receive(5, &wide_gossip(&blocks, &votes[..count])).unwrap();
        node.merge(5).unwrap();
        assert_eq!(node.fast(1), Ok(fast));
        assert_eq!(node.vote(7), Ok(head));
    }
}

#[test]
fn proposals_of_both_widths() {
    let (narrow, wide) = (packet(1, 5, 51, &[(51, 31, 5)], &[]), packet(3, 5, UP + 51, &[(UP + 51, 31, 5)], &[]));
    // The first of the slot comes into view, of whatever kind; the second waits.
    for (first, second, number) in [(&narrow, &wide, 51), (&wide, &narrow, UP + 51)] {
        let mut node = shed();
        assert_eq!(node.receive(15, first), answer(1, 0, true));
        assert_eq!(node.receive(15, second), answer(1, 0, false));
        assert_eq!(blocks_in_view(&node), [0, 11, 21, 31, number]);
        assert_eq!(node.clock.proposed, 5);
    }
    // The same proposal in the other width is the second too.
    let mut node = shed();
    assert_eq!(node.receive(15, &widened(&narrow)), answer(1, 0, true));
    assert_eq!(node.receive(15, &narrow), answer(0, 0, false));
    // In another phase, or as gossip, it waits.
    assert_eq!(shed().receive(16, &wide), answer(1, 0, false));
    assert_eq!(shed().receive(15, &wide_gossip(&[(UP + 51, 31, 5)], &[])), answer(1, 0, false));
    // Ancestors and the blocks of votes come along by their whole numbers.
    let mut node = shed();
    node.receive(14, &wide_gossip(&[(UP + 1, 0, 1), (1, 0, 1), (UP + 2, 0, 1), (2, 0, 1)], &[])).unwrap();
    let bytes = packet(3, 5, UP + 51, &[(UP + 51, UP + 1, 5)], &[(0, 4, UP + 2)]);
    assert_eq!(node.receive(15, &bytes), answer(1, 1, true));
    assert_eq!(blocks_in_view(&node), [0, 11, 21, 31, UP + 1, UP + 2, UP + 51]);
    assert_eq!(votes_in_view(&node)[5..], [(0, 4, UP + 2)]);
}

#[test]
fn the_shed_cases_with_wide_numbers() {
    // The shed's numbers are upper halves, and the lower halves are in the opposite order.
    let lifted = |number: u128| if number == 0 { 0 } else { number * UP + 100 - number };
    let mut node = shed();
    node.clock.merged = 0;
    node.blocks.iter_mut().for_each(|b| (b.number, b.parent) = (lifted(b.number), lifted(b.parent)));
    node.votes.iter_mut().for_each(|v| v.number = lifted(v.number));
    assert_eq!((node.head(4), node.head(3)), (Ok(lifted(31)), Ok(lifted(31))));
    for (depth, number) in [(1, 31), (2, 11), (3, 11), (4, 0)] {
        node.settings.depth = depth;
        assert_eq!(node.deep(4), Ok(lifted(number)));
    }
    assert_eq!(node.fast(3), Ok(None));
    let mut added = node.clone();
    add_vote(&mut added, vote(4, 3, lifted(21)));
    assert_eq!(added.head(4), Ok(lifted(21)));
    let mut instead = node.clone();
    add_vote(&mut instead, vote(3, 3, lifted(31)));
    assert_eq!(instead.head(4), Ok(lifted(31)));
    let mut fast = node.clone();
    fast.votes_used = 0;
    for (voter, number) in [(0, 31), (1, 31), (2, 31), (4, 11)] {
        assert_eq!(fast.fast(3), Ok(None));
        add_vote(&mut fast, vote(voter, 3, lifted(number)));
    }
    assert_eq!(fast.fast(3), Ok(Some(lifted(11))));
    // The base for 3.
    node.settings.own = 3;
    node.clock = Clock { seen: 9, done: 8, merged: 2, proposed: 0 };
    assert_eq!(node.propose(9, lifted(99)), Ok(lifted(11)));
}

/// The input of chainask.
fn input(n: u8, e: u16, k: u16, slot: u32, packet: &[u8]) -> Vec<u8> {
    [&[n][..], &e.to_le_bytes(), &k.to_le_bytes(), &slot.to_le_bytes(), packet].concat()
}

#[test]
fn chainask_on_wide_packets() {
    let shed = written_wide(&shed(), false);
    assert_eq!(chainask(&input(5, 2, 3, 4, &shed)), "head 31\ndeep 11\nfast none\n");
    assert_eq!(chainask(&input(5, 2, 1, 4, &shed)), "head 31\ndeep 31\nfast none\n");
    // 39 digits, as gossip and as a proposal that waits.
    let (small, large) = (10u128.pow(38), u128::MAX);
    let (blocks, votes) = ([(small, 0, 1), (large, small, 2)], [(0, 2, large)]);
    let text = "head 340282366920938463463374607431768211455\n\
                deep 100000000000000000000000000000000000000\n\
                fast 340282366920938463463374607431768211455\n";
    assert_eq!(chainask(&input(1, 1, 1, 2, &wide_gossip(&blocks, &votes))), text);
    assert_eq!(chainask(&input(1, 1, 1, 2, &packet(3, 2, large, &blocks, &votes))), text);
    // 2^64 + 5 beside 2^64 and beside 9: the smaller number.
    let text = "head 18446744073709551616\ndeep 18446744073709551616\nfast none\n";
    assert_eq!(chainask(&input(1, 1, 1, 2, &wide_gossip(&[(UP + 5, 0, 1), (UP, 0, 1)], &[]))), text);
    let text = "head 9\ndeep 9\nfast 18446744073709551621\n";
    assert_eq!(chainask(&input(1, 1, 1, 2, &wide_gossip(&[(UP + 5, 0, 1), (9, 0, 1)], &[(0, 2, UP + 5)]))), text);
}

#[test]
fn chainask_refusals_on_wide_packets() {
    let asked = |packet: &[u8]| chainask(&input(5, 2, 3, 2000, packet));
    assert_eq!(asked(&wide_gossip(&[], &[])), "head 0\ndeep 0\nfast none\n");
    assert_eq!(asked(&packet(2, 0, UP, &[], &[])), "refused 8\n");
    assert_eq!(asked(&packet(2, 1, 0, &[], &[])), "refused 8\n");
    assert_eq!(asked(&packet(4, 0, 0, &[], &[])), "refused 8\n");
    assert_eq!(asked(&wide_gossip(&[], &[])[..24]), "refused 8\n");
    assert_eq!(asked(&wide_gossip(&[(7, UP, 1)], &[])), "refused 9\n");
    assert_eq!(asked(&wide_gossip(&[(7, 0, 1)], &[(0, 1, UP + 7)])), "refused 20\n");
    assert_eq!(asked(&packet(3, 1, UP + 7, &[(7, 0, 1)], &[])), "refused 21\n");
    // Its places and the largest input are as before: wide, both tables cannot be filled at once.
    let blocks = |count: u128| (1..=count).map(|number| (UP * number, 0, 1)).collect::<Vec<_>>();
    let votes = |count: u32| (1..=count).map(|slot| (0, slot, 0)).collect::<Vec<_>>();
    let text = "head 18446744073709551616\ndeep 18446744073709551616\nfast none\n";
    assert_eq!(asked(&wide_gossip(&blocks(511), &[])), text);
    assert_eq!(asked(&wide_gossip(&blocks(512), &[])), "refused 10\n");
    assert_eq!(asked(&wide_gossip(&[], &votes(1024))), "head 0\ndeep 0\nfast none\n");
    assert_eq!(asked(&wide_gossip(&[], &votes(1025))), "refused 10\n");
    // 9 + 25 + 511 × 36 + 682 × 21 = 32,752
    assert_eq!(asked(&wide_gossip(&blocks(511), &votes(682))), text);
    assert_eq!(asked(&wide_gossip(&blocks(511), &votes(683))), "refused 8\n");
}
