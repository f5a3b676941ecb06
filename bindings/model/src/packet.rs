//! Packets as bytes. Words of request 8 are marked so.

/// A packet as bytes say it.
#[derive(Debug, Clone, PartialEq, Eq)]
pub struct Packet {
    /// 0 gossip, 1 proposal; 2 and 3 the same with wide numbers.
    pub kind: u8,
    /// The slot of the proposal, zero in gossip.
    pub slot: u32,
    /// The proposed number, zero in gossip.
    pub number: u128,
    /// The block section.
    pub blocks: Vec<PacketBlock>,
    /// The vote section.
    pub votes: Vec<PacketVote>,
}

/// An entry of the block section.
#[derive(Debug, Clone, Copy, PartialEq, Eq)]
pub struct PacketBlock {
    /// The block's number.
    pub number: u128,
    /// The number of its parent.
    pub parent: u128,
    /// Its slot.
    pub slot: u32,
}

/// An entry of the vote section.
#[derive(Debug, Clone, Copy, PartialEq, Eq)]
pub struct PacketVote {
    /// The index of the voter.
    pub voter: u8,
    /// The slot of the vote.
    pub slot: u32,
    /// The number of the block voted for.
    pub number: u128,
}

impl Packet {
    /// The bytes of the packet. A section holds what its count can say, at most 65,535 entries, and a narrow number its
    /// lower half. Kinds that are none are written wide.
    pub fn encode(&self) -> Vec<u8> {
        let wide = self.kind > 1;
        // "Little-endian: kind, 1 byte (0 gossip, 1 proposal); slot, 4; proposed number, 8"
        // Request 8: in kinds 2 and 3 "the header's number 16"
        let mut bytes = vec![self.kind];
        bytes.extend(self.slot.to_le_bytes());
        put_number(&mut bytes, self.number, wide);
        // "each after its 2-byte count: blocks of 20 bytes (number, parent, slot)"
        // Request 8: "their blocks take 36 bytes"
        let count = u16::try_from(self.blocks.len()).unwrap_or(u16::MAX);
        bytes.extend(count.to_le_bytes());
        for block in self.blocks.iter().take(usize::from(count)) {
            put_number(&mut bytes, block.number, wide);
            put_number(&mut bytes, block.parent, wide);
            bytes.extend(block.slot.to_le_bytes());
        }
        // "votes of 13 (voter 1, slot 4, number 8)"
        // Request 8: "votes 21"
        let count = u16::try_from(self.votes.len()).unwrap_or(u16::MAX);
        bytes.extend(count.to_le_bytes());
        for vote in self.votes.iter().take(usize::from(count)) {
            bytes.push(vote.voter);
            bytes.extend(vote.slot.to_le_bytes());
            put_number(&mut bytes, vote.number, wide);
        }
        bytes
    }

    /// The packet that the bytes say, or none: "8 length, kind or zero fields wrong".
    pub fn decode(bytes: &[u8]) -> Option<Packet> {
        let mut rest = bytes;
        let [kind] = take(&mut rest)?;
        let wide = match kind {
            // "0 gossip, 1 proposal"
            0 | 1 => false,
            // Request 8: "Packet kinds 2 and 3 are gossip and proposal with wide numbers"
            2 | 3 => true,
            _ => return None,
        };
        let slot = u32::from_le_bytes(take(&mut rest)?);
        let number = take_number(&mut rest, wide)?;
        let mut blocks = Vec::new();
        for _ in 0..u16::from_le_bytes(take(&mut rest)?) {
            let number = take_number(&mut rest, wide)?;
            let parent = take_number(&mut rest, wide)?;
            let slot = u32::from_le_bytes(take(&mut rest)?);
            blocks.push(PacketBlock { number, parent, slot });
        }
        let mut votes = Vec::new();
        for _ in 0..u16::from_le_bytes(take(&mut rest)?) {
            let [voter] = take(&mut rest)?;
            let slot = u32::from_le_bytes(take(&mut rest)?);
            let number = take_number(&mut rest, wide)?;
            votes.push(PacketVote { voter, slot, number });
        }
        let packet = Packet { kind, slot, number, blocks, votes };
        // "Nothing follows"
        let length_right = rest.is_empty();
        // "both zero in kind 0", and so in kind 2, which is gossip too
        let zero_fields_right = packet.is_proposal() || (slot == 0 && number == 0);
        (length_right && zero_fields_right).then_some(packet)
    }

    /// "1 proposal"; request 8: kind 3 too.
    pub(crate) fn is_proposal(&self) -> bool {
        self.kind == 1 || self.kind == 3
    }

    /// Request 8: there is "a number whose upper half is not zero".
    pub(crate) fn needs_wide(&self) -> bool {
        let upper = |number: u128| number >> 64 != 0;
        upper(self.number)
            || self.blocks.iter().any(|block| upper(block.number) || upper(block.parent))
            || self.votes.iter().any(|vote| upper(vote.number))
    }
}

/// Puts a number of 16 bytes, or 8 where it is narrow. Request 8: "written lower half first".
fn put_number(bytes: &mut Vec<u8>, number: u128, wide: bool) {
    let (lower, upper) = (number as u64, (number >> 64) as u64);
    bytes.extend(lower.to_le_bytes());
    if wide {
        bytes.extend(upper.to_le_bytes());
    }
}

/// The next number, if there are bytes enough. Request 8: narrow ones are read "with upper half zero".
fn take_number(rest: &mut &[u8], wide: bool) -> Option<u128> {
    let lower = u64::from_le_bytes(take(rest)?);
    let upper = if wide { u64::from_le_bytes(take(rest)?) } else { 0 };
    Some(u128::from(upper) << 64 | u128::from(lower))
}

/// The next N bytes, if there are so many.
fn take<const N: usize>(rest: &mut &[u8]) -> Option<[u8; N]> {
    let (front, back) = rest.split_first_chunk::<N>()?;
    *rest = back;
    Some(*front)
}
