//! A short run of three nodes whose packets go round. Request 8: "in the run" they "write wide".

use super::*;

/// Each awake node makes its due call, then sends; all nodes that listen receive at the same beat.
struct Run {
    nodes: Vec<Node>,
}

impl Run {
    fn new(profiles: [Profile; 3]) -> Run {
        let settings = |(own, profile)| Settings { profile, nodes: 3, own, expiry: 2, depth: 1 };
        Run { nodes: (0..).zip(profiles).map(|node| opened(settings(node), 16, 16)).collect() }
    }

    /// Packets of the senders reach the receivers.
    fn send(&mut self, beat: u64, proposer: Option<usize>, awake: &[usize]) {
        let mut packets = Vec::new();
        packets.extend(proposer.map(|sender| written_wide(&self.nodes[sender], true)));
        packets.extend(awake.iter().map(|&sender| written_wide(&self.nodes[sender], false)));
        for &receiver in awake {
            for packet in &packets {
                self.nodes[receiver].receive(beat, packet).unwrap();
            }
        }
    }

    /// A slot with the base and the heads that are expected.
    fn slot(&mut self, slot: u64, awake: &[usize], proposal: Option<(u128, u128)>, heads: &[Result<u128, u32>]) {
        let proposer = (slot % 3) as usize;
        if let Some((number, base)) = proposal {
            assert_eq!(self.nodes[proposer].propose(3 * slot, number), Ok(base), "base of slot {slot}");
        }
        self.send(3 * slot, proposal.map(|_| proposer), awake);
        let votes: Vec<Result<u128, u32>> = awake.iter().map(|&node| self.nodes[node].vote(3 * slot + 1)).collect();
        assert_eq!(votes, heads, "votes of slot {slot}");
        self.send(3 * slot + 1, None, awake);
        for &node in awake {
            self.nodes[node].merge(3 * slot + 2).unwrap();
        }
        self.send(3 * slot + 2, None, awake);
    }
}

#[test]
fn three_nodes() {
    three_nodes_are([Profile::Loom; 3]);
}

#[test]
fn racks_among_looms() {
    three_nodes_are([Profile::Rack, Profile::Loom, Profile::Loom]);
    three_nodes_are([Profile::Loom, Profile::Rack, Profile::Rack]);
    three_nodes_are([Profile::Rack; 3]);
}

fn three_nodes_are(profiles: [Profile; 3]) {
    let mut run = Run::new(profiles);
    let all = [0, 1, 2];
    run.slot(1, &all, Some((101, 0)), &[Ok(101); 3]);
    for node in &run.nodes {
        assert_eq!((node.head(1), node.deep(1), node.fast(1)), (Ok(101), Ok(0), Ok(Some(101))));
    }
    run.slot(2, &all, Some((102, 101)), &[Ok(102); 3]);
    for node in &run.nodes {
        assert_eq!((node.head(2), node.deep(2), node.fast(2)), (Ok(102), Ok(101), Ok(Some(102))));
    }
    // Node 0 sleeps through slot 3, which is its own: no block, and two of three are too few.
    run.slot(3, &[1, 2], None, &[Ok(102); 2]);
    assert_eq!((run.nodes[1].fast(3), run.nodes[2].fast(3)), (Ok(None), Ok(None)));
    assert_eq!(run.nodes[0].head(3), Err(17));
    // Awake in slot 4 it is not joined, takes the proposal and all gossip, and merges.
    run.slot(4, &all, Some((104, 102)), &[Err(13), Ok(104), Ok(104)]);
    for node in &run.nodes {
        assert_eq!((node.head(4), node.deep(4), node.fast(4)), (Ok(104), Ok(102), Ok(None)));
        assert_eq!(node.clock, Clock { seen: 14, done: 14, merged: 4, proposed: 4 });
    }
    // The number maker now issues numbers that have an upper half.
    let (five, six) = (UP + 102, u128::MAX);
    run.slot(5, &all, Some((five, 104)), &[Ok(five); 3]);
    run.slot(6, &all, Some((six, five)), &[Ok(six); 3]);
    for node in &run.nodes {
        assert_eq!((node.head(6), node.deep(6), node.fast(6)), (Ok(six), Ok(five), Ok(Some(six))));
        assert_eq!(blocks_in_view(node), [0, 101, 102, 104, five, six]);
        // Slots 4, 5 and 6 of three votes, without node 0 in slot 4.
        assert_eq!(node.votes_used, 8);
    }
}

#[test]
fn two_proposals_of_one_slot() {
    // Node 1 is dishonest in slot 1: it sends 111 to node 0 and 112 to node 2.
    let mut run = Run::new([Profile::Loom; 3]);
    let one = packet(1, 1, 111, &[(111, 0, 1)], &[]);
    let other = packet(1, 1, 112, &[(112, 0, 1)], &[]);
    assert!(run.nodes[0].receive(3, &one).unwrap().brought);
    assert!(run.nodes[2].receive(3, &other).unwrap().brought);
    assert!(!run.nodes[0].receive(3, &other).unwrap().brought);
    assert!(!run.nodes[2].receive(3, &one).unwrap().brought);
    assert_eq!(run.nodes[0].vote(4), Ok(111));
    assert_eq!(run.nodes[2].vote(4), Ok(112));
    let votes = gossip(&[(111, 0, 1), (112, 0, 1)], &[(0, 1, 111), (2, 1, 112), (1, 1, 112), (1, 1, 111)]);
    for node in [0, 2] {
        run.nodes[node].receive(4, &votes).unwrap();
        run.nodes[node].merge(5).unwrap();
    }
    // Node 1 is dropped for its double vote: one against one, the smaller number.
    assert_eq!(run.nodes[2].propose(6, 120), Ok(111));
    assert_eq!(run.nodes[0].vote(7), Ok(111));
    assert_eq!(run.nodes[2].vote(7), Ok(120));
}

#[test]
fn a_replaced_board_counts_again() {
    // Node 0 is honest. Node 1 votes twice in slot 1, then for 21 with another board; node 2 votes for 21 always.
    let mut node = fresh(3, 0, 2, 1);
    let both = packet(1, 1, 11, &[(11, 0, 1), (21, 0, 1)], &[]);
    assert!(node.receive(3, &both).unwrap().brought);
    assert_eq!(node.vote(4), Ok(11));
    node.receive(4, &gossip(&[], &[(1, 1, 11), (1, 1, 21), (2, 1, 21)])).unwrap();
    node.merge(5).unwrap();
    // All three are needed for a fast block. In slot 1 node 1 is dropped.
    assert_eq!(node.fast(1), Ok(None));
    // Slots 2 and 3 look back on slot 1, node 1 is dropped: one against one, the smaller number.
    assert_eq!(node.vote(7), Ok(11));
    node.receive(7, &gossip(&[], &[(1, 2, 21), (2, 2, 21)])).unwrap();
    node.merge(8).unwrap();
    // In slots 2 and 3 it counts, and only block 0 has all three.
    assert_eq!(node.fast(2), Ok(Some(0)));
    assert_eq!(node.propose(9, 31), Ok(11));
    assert_eq!(node.vote(10), Ok(31));
    node.receive(10, &gossip(&[], &[(1, 3, 21), (2, 3, 21)])).unwrap();
    node.merge(11).unwrap();
    assert_eq!(node.fast(3), Ok(Some(0)));
    // Slot 4 looks back on slots 2 and 3: two against one.
    assert_eq!(node.vote(13), Ok(21));
    node.receive(13, &gossip(&[], &[(1, 4, 21), (2, 4, 21)])).unwrap();
    node.merge(14).unwrap();
    assert_eq!((node.head(4), node.deep(4), node.fast(4)), (Ok(21), Ok(21), Ok(Some(21))));
}
