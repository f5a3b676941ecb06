//! A loom's largest tables: filled by one packet, then every call on them.

use crate::both::{zeroed, Answer, Both, Call};
use crate::packets::gossip;
use crate::random::Random;
use crate::world::Run;
use likvost::{Profile, Settings, LARGEST_PACKET};
use likvost_model::{Packet, PacketBlock, PacketVote};

/// The number of block i. Sixteen blocks in a row have one upper half, and every sixteenth block has the same lower half.
fn number(i: u64) -> u128 {
    u128::from(i) << 60
}

/// So many blocks, four to a slot, each on a random one of the slot before.
fn blocks(random: &mut Random, count: u64) -> Vec<PacketBlock> {
    (0..count)
        .map(|i| {
            let slot = 1 + i / 4;
            let parent = if slot == 1 { 0 } else { 1 + 4 * (slot - 2) + random.below(4) };
            PacketBlock { number: number(1 + i), parent: number(parent), slot: slot as u32 }
        })
        .collect()
}

/// One vote of each voter in each of the slots from `from` on, for a random block of that slot or an earlier one.
fn votes(random: &mut Random, voters: u64, count: u64, from: u64) -> Vec<PacketVote> {
    (0..count)
        .map(|i| {
            let slot = from + i / voters;
            let block = random.between(1, 2047.min(4 * slot));
            PacketVote { voter: (i % voters) as u8, slot: slot as u32, number: number(block) }
        })
        .collect()
}

/// The narrow packet of the same entries, where block i has the number i.
fn narrow(mut packet: Packet) -> Packet {
    packet.kind -= 2;
    for block in &mut packet.blocks {
        (block.number, block.parent) = (block.number >> 60, block.parent >> 60);
    }
    packet.votes.iter_mut().for_each(|vote| vote.number >>= 60);
    packet
}

#[test]
fn largest_tables() {
    let random = &mut Random::new(5);
    let mut run = Run::new(5);
    // 2,047 blocks reach to slot 512; 64 voters in the 128 slots up to it cast 8,192 votes.
    let packet = gossip(blocks(random, 2047), votes(random, 64, 8192, 385));
    let (largest, largest_narrow) = (packet.encode(), narrow(packet).encode());
    assert_eq!((largest.len(), largest_narrow.len()), (LARGEST_PACKET, 147_453));
    let slot = 512;
    let beat = 3 * slot + 1;
    // one place too few for the blocks, then for the votes, then enough; and so for the narrow packet
    let cases = [
        (2047, 8192, true, Some(10)),
        (2048, 8191, true, Some(10)),
        (2048, 8192, true, None),
        (2047, 8192, false, Some(10)),
        (2048, 8191, false, Some(10)),
        (2048, 8192, false, None),
    ];
    for (block_places, vote_places, wide, refusal) in cases {
        let packet = if wide { &largest } else { &largest_narrow };
        let settings = Settings { profile: Profile::Loom, nodes: 64, own: 3, expiry: 200, depth: 40 };
        let mut node = Both::new(settings, zeroed(block_places, vote_places));
        let mut make = |call: Call, buffer: &mut [u8]| run.make(&mut node, &call, buffer);
        assert_eq!(make(Call::Open, &mut []), Ok(Answer::Done));
        let received = make(Call::Receive { beat, packet: packet.clone() }, &mut []);
        if let Some(refusal) = refusal {
            assert_eq!(received, Err((refusal, None)));
            continue;
        }
        assert_eq!(received, Ok(Answer::Received { new_blocks: 2047, new_votes: 8192, viewed: false }));
        assert_eq!(make(Call::Merge { beat: beat + 1 }, &mut []), Ok(Answer::Done));
        let mut buffer = vec![0; packet.len() + 3];
        let write = |wide| Call::Write { proposal: false, wide };
        assert_eq!(make(write(wide), &mut buffer), Ok(Answer::Length(packet.len())));
        assert_eq!(buffer[..packet.len()], packet[..]);
        assert_eq!(make(write(wide), &mut vec![0; packet.len() - 1]), Err((18, None)));
        // in the other width
        let other = if wide { Err((23, None)) } else { Ok(Answer::Length(LARGEST_PACKET)) };
        assert_eq!(make(write(!wide), &mut vec![0; LARGEST_PACKET]), other);
        let questions = [
            |slot| Call::Head { slot },
            |slot| Call::Deep { slot },
            |slot| Call::Fast { slot },
            |slot| Call::Settled { slot, silent: 0 },
            |slot| Call::Settled { slot, silent: 1 << 63 },
            |slot| Call::Settled { slot, silent: u64::MAX },
        ];
        for question in questions {
            assert!(matches!(make(question(slot), &mut []), Ok(Answer::Block(_))));
            assert_eq!(make(question(slot - 1), &mut []), Err((17, None)));
        }
        let beat = beat + 2;
        assert_eq!(make(Call::Propose { beat, number: 9 }, &mut []), Err((14, None)));
        assert_eq!(make(Call::Vote { beat: beat + 1 }, &mut []), Err((10, None)));
        assert_eq!(
            make(Call::Receive { beat, packet: packet.clone() }, &mut []),
            Ok(Answer::Received { new_blocks: 0, new_votes: 0, viewed: false })
        );
    }
}

/// Half of the votes of full tables leave at a Merge, and others take their places.
#[test]
fn freed_places() {
    let random = &mut Random::new(7);
    let mut run = Run::new(7);
    let settings = Settings { profile: Profile::Loom, nodes: 64, own: 3, expiry: 64, depth: 40 };
    let mut node = Both::new(settings, zeroed(2048, 8192));
    let mut make = |call: Call, used: usize| {
        let reply = run.make(&mut node, &call, &mut []);
        assert_eq!(node.memory().votes_used, used);
        reply
    };
    let receive = |slot: u64, packet: &[u8]| Call::Receive { beat: 3 * slot, packet: packet.to_vec() };
    let merge = |slot: u64| Call::Merge { beat: 3 * slot + 2 };
    let new_votes = |new_votes| Ok(Answer::Received { new_blocks: 0, new_votes, viewed: false });
    assert_eq!(make(Call::Open, 0), Ok(Answer::Done));
    let first = gossip(blocks(random, 2047), votes(random, 64, 8192, 385)).encode();
    assert_eq!(make(receive(512, &first), 8192), Ok(Answer::Received { new_blocks: 2047, new_votes: 8192, viewed: false }));
    // Slots 385 to 447 are old after this Merge: 63 slots of 64 votes.
    assert_eq!(make(merge(512), 8192 - 63 * 64), Ok(Answer::Done));
    // What left does not come back, and takes no places.
    assert_eq!(make(receive(600, &first), 8192 - 63 * 64), new_votes(0));
    let full = gossip(Vec::new(), votes(random, 64, 63 * 64, 513)).encode();
    assert_eq!(make(receive(600, &full), 8192), new_votes(63 * 64));
    let one_more = gossip(Vec::new(), votes(random, 1, 1, 600)).encode();
    assert_eq!(make(receive(600, &one_more), 8192), Err((10, None)));
    // This Merge keeps slots 536 to 575, and the next one none.
    assert_eq!(make(merge(600), 40 * 64), Ok(Answer::Done));
    assert_eq!(make(merge(640), 0), Ok(Answer::Done));
}

/// Packets that no honest node sends, longer than the places of any index: what is past these is found all the same.
#[test]
fn longer_than_honest() {
    let random = &mut Random::new(6);
    let mut run = Run::new(6);
    let settings = Settings { profile: Profile::Loom, nodes: 64, own: 3, expiry: 200, depth: 40 };
    let mut node = Both::new(settings, zeroed(2048, 8192));
    let beat = 3 * 1300 + 1;
    let mut make = |call: Call| run.make(&mut node, &call, &mut []);
    assert_eq!(make(Call::Open), Ok(Answer::Done));
    let mut receive = |blocks, votes| make(Call::Receive { beat, packet: gossip(blocks, votes).encode() });
    // the tables half full
    let known = (blocks(random, 1250), votes(random, 64, 4000, 250));
    let answer = receive(known.0.clone(), known.1.clone());
    assert_eq!(answer, Ok(Answer::Received { new_blocks: 1250, new_votes: 4000, viewed: false }));
    // more blocks than there are places, with the lower halves of known ones, and one that is bad far behind
    let many = blocks(random, 5000);
    let mut other = known.0.clone();
    other.extend(many[1250..].iter().map(|block| PacketBlock { number: block.number + (10_000 << 64), parent: 0, ..*block }));
    assert_eq!(receive(other.clone(), Vec::new()), Err((10, None)));
    other[4990].parent = known.0[0].number + (99_999 << 64);
    assert_eq!(receive(other.clone(), Vec::new()), Err((9, Some(4990))));
    // a block that stands twice, with another slot the second time, far behind
    other[4990] = PacketBlock { slot: other[4980].slot + 1, ..other[4980] };
    assert_eq!(receive(other, Vec::new()), Err((9, Some(4990))));
    // every known entry many times over is nothing new, and one new vote at the end is one
    let mut all: Vec<PacketVote> = known.1.iter().cycle().take(20_000).copied().collect();
    let blocks: Vec<PacketBlock> = known.0.iter().cycle().take(6000).copied().collect();
    let answer = receive(blocks.clone(), all.clone());
    assert_eq!(answer, Ok(Answer::Received { new_blocks: 0, new_votes: 0, viewed: false }));
    let vote = PacketVote { voter: 63, slot: 1300, number: number(1000) };
    all.push(vote);
    all.push(vote);
    let answer = receive(blocks.clone(), all.clone());
    assert_eq!(answer, Ok(Answer::Received { new_blocks: 0, new_votes: 1, viewed: false }));
    // a bad vote behind all these: its block is known by its lower half alone
    all.push(PacketVote { number: vote.number + (99_999 << 64), ..vote });
    assert_eq!(receive(blocks, all), Err((20, Some(20_002))));
}

/// Packets with as many votes as a count can say, nearly all of them repeats: the one that differs is found, wherever it stands.
#[test]
fn longest_pairs() {
    let random = &mut Random::new(8);
    let mut run = Run::new(8);
    let settings = Settings { profile: Profile::Loom, nodes: 64, own: 3, expiry: 200, depth: 40 };
    let mut node = Both::new(settings, zeroed(2048, 8192));
    assert_eq!(run.make(&mut node, &Call::Open, &mut []), Ok(Answer::Done));
    let beat = 3 * 600;
    let (blocks, votes) = (blocks(random, 2047), votes(random, 64, 8191, 385));
    let all = |votes: &[PacketVote]| gossip(blocks.clone(), votes.iter().cycle().take(65_535).copied().collect());
    let (first, mut second) = (all(&votes), all(&votes));
    let mut compare = |first: &Packet, second: &Packet| run.compare(&mut node, beat, first.encode(), second.encode());
    assert_eq!(compare(&first, &second), Ok(Answer::Nothing));
    // one vote is for block 0 in place of its own, at the very end of the second packet
    let usual = second.votes[65_534];
    second.votes[65_534].number = 0;
    let (voter, slot) = (usual.voter.into(), usual.slot.into());
    let found = |block, other| Ok(Answer::Equivocation { voter, slot, block, other });
    assert_eq!(compare(&first, &second), found(usual.number, 0));
    assert_eq!(compare(&second, &first), found(usual.number, 0));
    // and of a packet with no other vote of this voter and slot
    second.votes = vec![second.votes[65_534]];
    assert_eq!(compare(&first, &second), found(usual.number, 0));
    assert_eq!(compare(&second, &first), found(0, usual.number));
}
