//! Request 9: the limits of a rack, refusal 24, and a rack beside a loom.

use super::*;

/// A fresh rack with all the places that it may have.
fn rack(nodes: u64, own: u64, expiry: u64, depth: u64) -> Node {
    opened(Settings { profile: Profile::Rack, nodes, own, expiry, depth }, 64, 256)
}

/// A fresh loom with the settings and the places of this node.
fn loom_like(node: &Node) -> Node {
    opened(Settings { profile: Profile::Loom, ..node.settings }, node.blocks.len(), node.votes.len())
}

fn answer(new_blocks: u64, new_votes: u64, brought: bool) -> Result<Received, Refused> {
    Ok(Received { new_blocks, new_votes, brought })
}

/// The packet is refused so, and nothing changes.
fn refused(node: &Node, beat: u64, bytes: &[u8], refusal: Result<Received, Refused>) {
    let mut after = node.clone();
    assert_eq!(after.receive(beat, bytes), refusal, "{} bytes", bytes.len());
    assert_eq!(&after, node);
}

/// So many different blocks, of slot 1 on block 0.
fn blocks(count: u128) -> Vec<(u128, u128, u32)> {
    (1..=count).map(|number| (number, 0, 1)).collect()
}

/// So many different votes for block 0, of voters 0 to 15, sixteen in each slot from 1 on.
fn votes(count: u32) -> Vec<(u8, u32, u128)> {
    (0..count).map(|at| ((at % 16) as u8, 1 + at / 16, 0)).collect()
}

/// A packet of this kind with so many entries. The header of a proposal names its first block.
fn of_kind(kind: u8, block_count: u128, vote_count: u32) -> Vec<u8> {
    let header = u8::from(kind % 2 == 1);
    packet(kind, header.into(), header.into(), &blocks(block_count), &votes(vote_count))
}

#[test]
fn open_goes_by_the_kept_limits() {
    // n and the lengths of both tables; what a rack answers and what a loom answers.
    let cases = [
        (1, 1, 1, Ok(()), Ok(())),
        (16, 64, 256, Ok(()), Ok(())),
        (0, 64, 256, Err(1), Err(1)),
        (17, 64, 256, Err(1), Ok(())),
        (17, 65, 257, Err(1), Ok(())),
        (64, 64, 256, Err(1), Ok(())),
        (65, 64, 256, Err(1), Err(1)),
        (16, 65, 256, Err(5), Ok(())),
        (16, 64, 257, Err(5), Ok(())),
        (1, 2048, 8192, Err(5), Ok(())),
        (1, 2049, 1, Err(5), Err(5)),
        (1, 1, 8193, Err(5), Err(5)),
        (16, 0, 256, Err(5), Err(5)),
        (16, 64, 0, Err(5), Err(5)),
    ];
    for (nodes, blocks, votes, by_rack, by_loom) in cases {
        for (profile, expected) in [(Profile::Rack, by_rack), (Profile::Loom, by_loom)] {
            let mut node = fresh(1, 0, 1, 1);
            node.settings = Settings { profile, nodes, own: 0, expiry: 4096, depth: 4096 };
            node.blocks.resize(blocks, block(7, 7, 7));
            node.votes.resize(votes, vote(7, 7, 7));
            let before = node.clone();
            assert_eq!(node.open(), expected, "{profile:?}, n = {nodes}, {blocks} blocks, {votes} votes");
            assert_eq!(node.settings, before.settings);
            assert!(expected.is_ok() || node == before);
            // What Open refuses by 1 or 5 is unsound, what it opens is sound.
            assert_eq!(node.head(1), Err(if expected.is_ok() { 17 } else { 6 }));
        }
    }
}

#[test]
fn rightly_formed_packets() {
    // Kinds, blocks, votes, length. The length of a wide packet less 25 is a multiple of 3, so none has 4,097 bytes.
    let cases = [
        ([0, 1], 59, 223, 4096),
        ([0, 1], 46, 243, 4096),
        ([0, 1], 61, 220, 4097),
        ([0, 1], 48, 240, 4097),
        ([0, 1], 63, 256, 4605),
        ([2, 3], 60, 91, 4096),
        ([2, 3], 4, 187, 4096),
        ([2, 3], 63, 86, 4099),
        ([2, 3], 63, 256, 7669),
    ];
    for (kinds, block_count, vote_count, length) in cases {
        for kind in kinds {
            let bytes = of_kind(kind, block_count, vote_count);
            assert_eq!(bytes.len(), length);
            // A proposal of slot 1 waits at slot 20.
            let taken = answer(block_count as u64, vote_count.into(), false);
            let mut rack = rack(16, 0, 2, 1);
            let mut loom = loom_like(&rack);
            assert_eq!(loom.receive(60, &bytes), taken);
            if length <= 4096 {
                assert_eq!(rack.receive(60, &bytes), taken);
                rack.settings.profile = Profile::Loom;
                assert_eq!(rack, loom);
            } else {
                refused(&rack, 60, &bytes, whole(24));
            }
        }
    }
}

#[test]
fn wrong_packets() {
    let rack = rack(16, 0, 2, 1);
    let loom = loom_like(&rack);
    for fill in [0, 1, 2, 3, 4, 255] {
        for length in [0, 1, 4095, 4096, 4097, 4098, 65_536, 1_000_000] {
            let bytes = vec![fill; length];
            refused(&loom, 60, &bytes, whole(8));
            refused(&rack, 60, &bytes, whole(if length > 4096 { 24 } else { 8 }));
        }
    }
    // A packet of 4,096 bytes with one more byte, and one of 4,097 bytes with one less or a wrong kind.
    let mut bytes = of_kind(0, 59, 223);
    bytes.push(0);
    refused(&loom, 60, &bytes, whole(8));
    refused(&rack, 60, &bytes, whole(24));
    let mut bytes = of_kind(0, 61, 220);
    bytes[0] = 4;
    refused(&loom, 60, &bytes, whole(8));
    refused(&rack, 60, &bytes, whole(24));
    bytes[0] = 0;
    bytes.pop();
    refused(&loom, 60, &bytes, whole(8));
    refused(&rack, 60, &bytes, whole(8));
}

#[test]
fn a_loom_takes_any_length() {
    // The longest packets that are rightly formed: one block and one vote, as often as the counts can say.
    for (kind, length) in [(0, 17 + 65_535 * 33), (2, 25 + 65_535 * 57)] {
        let bytes = packet(kind, 0, 0, &[(1, 0, 1); 65_535], &[(0, 1, 1); 65_535]);
        assert_eq!(bytes.len(), length);
        assert_eq!(places(1, 0, 1, 1, 2, 1).receive(3, &bytes), answer(1, 1, false));
        refused(&rack(1, 0, 1, 1), 3, &bytes, whole(24));
    }
}

#[test]
fn every_entry_counts_for_the_length() {
    // Known and repeated entries are not new and still make the packet longer: 17 + 204 × 20 = 4,097.
    let mut node = rack(16, 0, 2, 1);
    refused(&node, 3, &gossip(&[(1, 0, 1); 204], &[]), whole(24));
    assert_eq!(node.receive(3, &gossip(&[(1, 0, 1); 203], &[])), answer(1, 0, false));
    refused(&node, 3, &gossip(&[(1, 0, 1); 204], &[]), whole(24));
    // Old votes too: 17 + 314 × 13 = 4,099. With E = 2 and slot 9 merged, slot 1 is old.
    node.merge(29).unwrap();
    refused(&node, 29, &gossip(&[], &[(0, 1, 0); 314]), whole(24));
    assert_eq!(node.receive(29, &gossip(&[], &[(0, 1, 0); 313])), answer(0, 0, false));
}

#[test]
fn order_among_the_refusals_of_receive() {
    // A rack with one free place in each table, slot 1 seen.
    let mut node = rack(16, 0, 2, 1);
    node.blocks.truncate(2);
    node.votes.truncate(1);
    node.clock.seen = 5;
    // The packet, once as it is and once made too long by a repeated vote at its end.
    let both = |slot: u32, number: u128, blocks: &[(u128, u128, u32)], votes: &[(u8, u32, u128)]| {
        let long = [votes, &[(0, 1, 0); 320]].concat();
        [packet(1, slot, number, blocks, votes), packet(1, slot, number, blocks, &long)]
    };
    let (good, bad, second) = ((1, 0, 1), (2, 99, 1), (3, 0, 1));
    let wrong = [
        (both(1, 9, &[good, second, bad], &[(16, 1, 0)]), entry(9, 2)),
        (both(1, 9, &[good, second], &[(16, 1, 0)]), entry(20, 0)),
        (both(1, 9, &[good, second], &[(0, 1, 0)]), whole(21)),
        (both(1, 1, &[good, second], &[(0, 1, 0)]), whole(10)),
        (both(1, 1, &[good], &[(0, 1, 0), (1, 1, 0)]), whole(10)),
    ];
    for ([short, long], refusal) in &wrong {
        refused(&node, 5, short, *refusal);
        refused(&node, 5, long, whole(24));
        refused(&node, 5, &long[..4096], whole(8));
        refused(&node, 5, &long[..4097], whole(24));
        // 7 and 6 go first.
        refused(&node, 4, long, whole(7));
        refused(&node, 3_000_000_003, long, whole(7));
        let mut unsound = node.clone();
        unsound.settings.nodes = 17;
        refused(&unsound, 4, long, whole(6));
        // Without the limit each has its own number.
        let mut loom = node.clone();
        loom.settings.profile = Profile::Loom;
        refused(&loom, 5, long, *refusal);
    }
}

#[test]
fn a_packet_too_long_leaves_no_trace() {
    // A proposal that is too long is not accepted: neither the beat is seen nor is it the first of its slot.
    let mut node = rack(16, 0, 2, 1);
    let long = packet(1, 1, 1, &blocks(63), &[(0, 1, 0); 250]);
    refused(&node, 3, &long, whole(24));
    assert_eq!(node.receive(3, &packet(1, 1, 2, &[(2, 0, 1)], &[])), answer(1, 0, true));
    assert_eq!(blocks_in_view(&node), [0, 2]);
}

/// A rack with no free place: 63 blocks beside block 0, 256 votes. No packet that it took was too long.
fn full_rack() -> Node {
    let mut node = rack(16, 0, 30, 1);
    assert_eq!(node.receive(60, &gossip(&blocks(63), &votes(100))), answer(63, 100, false));
    assert_eq!(node.receive(60, &gossip(&blocks(1), &votes(256)[100..])), answer(0, 156, false));
    node
}

#[test]
fn a_full_rack_writes_what_no_rack_may_read() {
    let mut node = full_rack();
    for in_view in [false, true] {
        if in_view {
            node.merge(62).unwrap();
        }
        // 17 + 63 × 20 + 256 × 13 and 25 + 63 × 36 + 256 × 21
        for (wide, length) in [(false, 4605), (true, 7669)] {
            // Write is not limited but by its buffer.
            assert_eq!(node.write(false, wide, &mut [0; 4096]), Err(18));
            let mut buffer = vec![7; 8000];
            assert_eq!(node.write(false, wide, &mut buffer), Ok(length));
            assert_eq!(buffer[length..], vec![7; 8000 - length]);
            let bytes = &buffer[..length];
            // Neither a fresh rack nor the sender, to which all of it is known.
            refused(&rack(16, 1, 2, 1), 62, bytes, whole(24));
            refused(&node, 62, bytes, whole(24));
            // A loom may, with as many places, and has the stock then.
            let mut loom = loom_like(&node);
            assert_eq!(loom.receive(62, bytes), answer(63, 256, false));
            assert_eq!(written(&loom, false), written(&node, false));
            assert_eq!(written_wide(&loom, false), written_wide(&node, false));
        }
    }
    // All else goes on: only places are lacking.
    assert_eq!(node.receive(63, &gossip(&[(99, 0, 1)], &[])), whole(10));
    assert_eq!(node.receive(63, &gossip(&[], &[(0, 20, 0)])), whole(10));
    assert_eq!(node.vote(64), Err(10));
    assert_eq!((node.head(20), node.deep(20), node.fast(16)), (Ok(1), Ok(1), Err(17)));
    assert_eq!(node.merge(65), Ok(()));
}

#[test]
fn a_rack_writes_a_proposal_that_no_rack_may_read() {
    // One block place is free for the own block of slot 32, and slot 31 is merged.
    let mut node = rack(16, 0, 30, 1);
    assert_eq!(node.receive(95, &gossip(&blocks(62), &[])), answer(62, 0, false));
    assert_eq!(node.receive(95, &gossip(&[], &votes(256))), answer(0, 256, false));
    node.merge(95).unwrap();
    assert_eq!(node.propose(96, 99), Ok(1));
    for (wide, length) in [(false, 4605), (true, 7669)] {
        let mut buffer = vec![0; length];
        assert_eq!(node.write(true, wide, &mut buffer), Ok(length));
        refused(&rack(16, 1, 2, 1), 96, &buffer, whole(24));
        assert_eq!(loom_like(&node).receive(96, &buffer), answer(63, 256, true));
    }
}

#[test]
fn a_fresh_rack_gets_the_stock() {
    // "The fresh node of the second demand then also has a limit that the packet keeps to." A loom sends so many blocks
    // and votes; which of its packets a rack may read, narrow and wide.
    for (block_count, vote_count, narrow, wide) in [
        (60, 91, true, true),
        (59, 223, true, false),
        (63, 86, true, false),
        (61, 220, false, false),
        (0, 0, true, true),
        (63, 0, true, true),
        (0, 256, true, false),
    ] {
        let mut sender = places(16, 3, 30, 1, 2048, 8192);
        sender.receive(60, &of_kind(0, block_count, vote_count)).unwrap();
        for (bytes, fits) in [(written(&sender, false), narrow), (written_wide(&sender, false), wide)] {
            assert_eq!(bytes.len() <= 4096, fits);
            let mut other = rack(16, 0, 1, 1);
            if fits {
                assert_eq!(other.receive(60, &bytes), answer(block_count as u64, vote_count.into(), false));
                assert_eq!(other.blocks[..other.blocks_used], sender.blocks[..sender.blocks_used]);
                assert_eq!(other.votes[..other.votes_used], sender.votes[..sender.votes_used]);
            } else {
                refused(&other, 60, &bytes, whole(24));
            }
        }
    }
}

/// What the lists of calls did, to tell that they tried something.
#[derive(Default)]
struct Counts {
    calls: u64,
    /// Lists that came to their end, that ended by 10, and that ended by 24.
    whole_lists: u64,
    lacked_places: u64,
    too_long: u64,
    /// Calls that were carried out, for each phase, and proposals brought into view.
    due: [u64; 3],
    brought: u64,
    /// Packets too long for the rack that the loom took.
    taken_by_loom: u64,
    /// Packets of 4,000 to 4,096 bytes that both took.
    nearly_too_long: u64,
    /// Packets too long that both refused by 7.
    not_read: u64,
    /// How often the rack was refused by each number; at 0 how often it was not.
    refusals: [u64; 25],
}

/// The number of the refusal if there is one, all of the answer as text, and the lent buffer.
type Answer = (Option<u32>, String, Vec<u8>);

fn told<T: std::fmt::Debug>(answer: Result<T, u32>) -> Answer {
    (answer.as_ref().err().copied(), format!("{answer:?}"), Vec::new())
}

/// A call with all that it is given.
#[derive(Debug)]
enum Call {
    Receive(u64, Vec<u8>),
    Propose(u64, u128),
    Vote(u64),
    Merge(u64),
    Ask(u64),
    Write(bool, bool, usize),
}

impl Call {
    fn make(&self, node: &mut Node) -> Answer {
        match *self {
            Call::Receive(beat, ref bytes) => {
                let answer = node.receive(beat, bytes);
                (answer.err().map(|refused| refused.number), format!("{answer:?}"), Vec::new())
            }
            Call::Propose(beat, number) => told(node.propose(beat, number)),
            Call::Vote(beat) => told(node.vote(beat)),
            Call::Merge(beat) => told(node.merge(beat)),
            // Head, Deep and Fast refuse the same slots.
            Call::Ask(slot) => told(node.head(slot).and_then(|head| Ok((head, node.deep(slot)?, node.fast(slot)?)))),
            Call::Write(proposal, wide, length) => {
                let mut buffer = vec![7; length];
                let answer = node.write(proposal, wide, &mut buffer);
                (answer.err(), format!("{answer:?}"), buffer)
            }
        }
    }

    /// The call of this phase.
    fn of_phase(phase: u64, beat: u64, number: u128) -> Call {
        match phase {
            0 => Call::Propose(beat, number),
            1 => Call::Vote(beat),
            _ => Call::Merge(beat),
        }
    }

    /// A call at this beat, mostly one that is allowed.
    fn drawn(node: &Node, beat: u64, draw: &mut Draw) -> Call {
        let number = u128::from(draw.next() % 100_000) + UP * draw.of(&[0, 0, 1]);
        match draw.next() % 16 {
            0..=4 => {
                let beat = beat - u64::from(draw.next() % 12 == 0);
                Call::Receive(beat, drawn_packet(node, beat, number, draw))
            }
            // With a known number, if it is Propose.
            5 => Call::of_phase(beat % 3, beat, node.blocks[node.blocks_used - 1].number),
            6 => Call::Ask(beat / 3 + draw.next() % 2 - draw.next() % 2),
            7 => Call::Write(draw.yes(), draw.yes(), draw.of(&[20, 200, 4096, 8192])),
            // Out of turn.
            8 => Call::of_phase(draw.next() % 3, beat, number),
            // What is due.
            _ => Call::of_phase(beat % 3, beat, number),
        }
    }
}

/// A packet with mostly few and at times many new entries, at times with repeated ones up to the limit of a rack and
/// above it, at times wrong, at times what the node itself writes.
fn drawn_packet(node: &Node, beat: u64, number: u128, draw: &mut Draw) -> Vec<u8> {
    if draw.next() % 16 == 0 {
        return written_wide(node, false);
    }
    let slot = beat / 3;
    let proposal = draw.next() % 4 == 0;
    let (most_blocks, most_votes) = if draw.next() % 16 == 0 { (40, 120) } else { (3, 6) };
    let mut known: Vec<(u128, u64)> = node.blocks[..node.blocks_used].iter().map(|b| (b.number, b.slot)).collect();
    let mut blocks = Vec::new();
    for at in 0..draw.next() % most_blocks + u64::from(proposal) {
        let (parent, parent_slot) = draw.of(&known);
        // The first block of a proposal is the proposed one.
        let block_slot = if proposal && at == 0 { slot } else { parent_slot + 1 + draw.next() % 2 };
        if block_slot <= slot || draw.next() % 64 == 0 {
            let number = number + u128::from(100_000 * at);
            blocks.push((number, parent, block_slot as u32));
            known.push((number, block_slot));
        }
    }
    let mut votes = Vec::new();
    for _ in 0..draw.next() % most_votes {
        let voter = draw.next() % node.settings.nodes + u64::from(draw.next() % 512 == 0);
        let vote_slot = 1 + draw.next() % slot.max(1);
        let (number, block_slot) = draw.of(&known);
        let block = if block_slot <= vote_slot || draw.next() % 512 == 0 { number } else { 0 };
        votes.push((voter as u8, vote_slot as u32, block));
    }
    let kind = if draw.next() % 3 == 0 { 0 } else { 2 } + u8::from(proposal);
    let header = if draw.next() % 32 == 0 { number ^ 1 } else { number };
    let (header_slot, header) = if proposal { (slot as u32, header) } else { (0, 0) };
    let mut bytes = packet(kind, header_slot, header, &blocks, &votes);
    if draw.next() % 16 == 0 {
        // Repeated votes: the last one, or one for block 0.
        let repeated = *votes.last().unwrap_or(&(0, 1, 0));
        let length = 4030 + draw.next() as usize % 120;
        let size = if kind < 2 { 13 } else { 21 };
        votes.extend(vec![repeated; length.saturating_sub(bytes.len()) / size]);
        bytes = packet(kind, header_slot, header, &blocks, &votes);
    }
    match draw.next() % 64 {
        0 => bytes.push(0),
        1 => bytes.truncate(bytes.len() / 2),
        2 => bytes.resize(5000, 0),
        3 => bytes[0] = 4,
        _ => {}
    }
    bytes
}

/// Both hold the same in the places that are used, and nothing in the others.
fn alike(rack: &Node, loom: &Node) {
    assert_eq!(Settings { profile: Profile::Loom, ..rack.settings }, loom.settings);
    assert_eq!(rack.clock, loom.clock);
    assert_eq!(rack.blocks[..rack.blocks_used], loom.blocks[..loom.blocks_used]);
    assert_eq!(rack.votes[..rack.votes_used], loom.votes[..loom.votes_used]);
    for node in [rack, loom] {
        assert!(node.blocks[node.blocks_used..].iter().all(|place| *place == NO_BLOCK));
        assert!(node.votes[node.votes_used..].iter().all(|place| *place == NO_VOTE));
    }
}

/// A list of calls on a rack and on a loom with places enough, until the rack lacks places or meets a packet too long.
fn list(draw: &mut Draw, counts: &mut Counts) {
    let nodes = draw.of(&[1, 2, 3, 5, 16]);
    let (own, expiry, depth) = (draw.next() % nodes, 1 + draw.next() % 4, 1 + draw.next() % 3);
    let settings = Settings { profile: Profile::Rack, nodes, own, expiry, depth };
    let (blocks, votes) = draw.of(&[(64, 256), (64, 256), (64, 40), (12, 256), (1, 1)]);
    let mut rack = opened(settings, blocks, votes);
    let mut loom = opened(Settings { profile: Profile::Loom, ..settings }, 128, 512);
    let mut beat = 3;
    for _ in 0..50 {
        beat += if draw.next() % 64 == 0 { 6 } else { draw.of(&[0, 0, 0, 1, 1]) };
        let call = Call::drawn(&rack, beat, draw);
        let long = matches!(&call, Call::Receive(_, bytes) if bytes.len() > 4096);
        let near = matches!(&call, Call::Receive(_, bytes) if (4000..=4096).contains(&bytes.len()));
        let before = rack.clone();
        let (by_rack, by_loom) = (call.make(&mut rack), call.make(&mut loom));
        counts.calls += 1;
        counts.refusals[by_rack.0.unwrap_or(0) as usize] += 1;
        assert_ne!(by_loom.0, Some(10), "{call:?}");
        assert_ne!(by_loom.0, Some(24), "{call:?}");
        match by_rack.0 {
            Some(10) => {
                // 10 is tested last, so the loom carries the call out.
                assert_eq!((by_loom.0, &rack), (None, &before), "{call:?}");
                counts.lacked_places += 1;
                return;
            }
            Some(24) => {
                assert!(long && by_loom.0 != Some(6) && by_loom.0 != Some(7), "{call:?}");
                assert_eq!(rack, before, "{call:?}");
                counts.too_long += 1;
                counts.taken_by_loom += u64::from(by_loom.0.is_none());
                return;
            }
            refusal => {
                assert_eq!(by_rack, by_loom, "{call:?}");
                assert!(!long || refusal == Some(7), "{call:?}");
                alike(&rack, &loom);
                counts.not_read += u64::from(long);
                counts.nearly_too_long += u64::from(near && refusal.is_none());
                if rack.clock.done != before.clock.done {
                    counts.due[rack.clock.done as usize % 3] += 1;
                } else if rack.clock.proposed != before.clock.proposed {
                    counts.brought += 1;
                }
            }
        }
    }
    counts.whole_lists += 1;
}

#[test]
fn a_rack_behaves_as_a_loom() {
    // "a rack given the settings, calls and packets of a loom with places enough behaves as that loom until the rack
    // lacks places or meets a packet too long for it"
    let mut draw = Draw(9);
    let mut counts = Counts::default();
    for _ in 0..3000 {
        list(&mut draw, &mut counts);
    }
    assert!(counts.whole_lists > 500 && counts.lacked_places > 500 && counts.too_long > 500);
    assert_eq!(counts.whole_lists + counts.lacked_places + counts.too_long, 3000);
    assert!(counts.calls > 60_000 && counts.due.iter().all(|&count| count > 1000) && counts.brought > 500);
    assert!(counts.taken_by_loom > 200 && counts.taken_by_loom < counts.too_long);
    assert!(counts.nearly_too_long > 200 && counts.not_read > 10);
    // Of what calls on sound tables may be refused by, all was met.
    let met: Vec<usize> = (0..25).filter(|&number| counts.refusals[number] > 0).collect();
    assert_eq!(met, [0, 7, 8, 9, 10, 11, 12, 13, 14, 15, 16, 17, 18, 19, 20, 21, 23, 24]);
}
