//! Programs chainask, pairask and fitask.

use crate::calls::{Double, Figures, Which};
use crate::tables::{Block, Clock, Node, Profile, Settings, Vote};

/// The program: from the bytes of its standard input to the text that it prints.
pub fn chainask(input: &[u8]) -> String {
    match answers(input) {
        // "`head 31`, `deep 11`, `fast none`, one a line", "the word and the decimal block number"
        Ok((head, deep, fast)) => {
            let fast = fast.map_or("none".to_string(), |number| number.to_string());
            format!("head {head}\ndeep {deep}\nfast {fast}\n")
        }
        Err(number) => refusal(number),
    }
}

/// Head, deep block and fast block, or the number of the first refusal.
fn answers(input: &[u8]) -> Result<(u128, u128, Option<u128>), u32> {
    // "input below 9 or above 32,768 bytes"
    let (asked, packet) = read(input, 32_768)?;
    let node = asked.merged(packet)?;
    Ok((node.head(asked.slot)?, node.deep(asked.slot)?, node.fast(asked.slot)?))
}

/// The program that holds two packets against each other: from the bytes of its standard input to the line that it
/// prints.
pub fn pairask(input: &[u8]) -> String {
    match double(input) {
        Ok(None) => "none\n".to_string(),
        Ok(Some(Double { voter, slot, blocks: [one, other] })) => {
            format!("voter {voter} slot {slot} blocks {one} {other}\n")
        }
        Err((number, Which::Neither)) => refusal(number),
        Err((number, Which::First)) => format!("refused {number} first\n"),
        Err((number, Which::Second)) => format!("refused {number} second\n"),
    }
}

/// What request 12 answers, or the number of the first refusal and the packet that it is about.
fn double(input: &[u8]) -> Result<Option<Double>, (u32, Which)> {
    let of_neither = |number: u32| (number, Which::Neither);
    let (asked, first, second) = read_two(input).map_err(of_neither)?;
    let node = asked.opened().map_err(of_neither)?;
    node.pair(asked.beat(), first, second).map_err(|refusal| (refusal.refused.number, refusal.which))
}

/// The program that tells how many places a packet will take on top of another: from the bytes of its standard input
/// to the text that it prints.
pub fn fitask(input: &[u8]) -> String {
    match fit(input) {
        Ok(Figures { new_blocks, new_votes, bytes }) => {
            format!("blocks {new_blocks}\nvotes {new_votes}\nbytes {bytes}\n")
        }
        Err(number) => refusal(number),
    }
}

/// What request 10 answers, or the number of the first refusal.
fn fit(input: &[u8]) -> Result<Figures, u32> {
    let (asked, first, second) = read_two(input)?;
    let node = asked.merged(first)?;
    node.figures(asked.beat(), second).map_err(|refused| refused.number)
}

/// "Otherwise one line `refused` and the number"
fn refusal(number: u32) -> String {
    format!("refused {number}\n")
}

/// What every input begins with.
struct Asked {
    nodes: u64,
    expiry: u64,
    depth: u64,
    slot: u64,
}

/// Reads "n (1 byte), E, K (2 each), slot (4), all little-endian" and leaves the rest. An input that is shorter than
/// these, or longer than the longest, "is refused as 8 before anything else".
fn read(input: &[u8], longest: usize) -> Result<(Asked, &[u8]), u32> {
    if input.len() > longest {
        return Err(8);
    }
    let (&[n, e0, e1, k0, k1, s0, s1, s2, s3], rest) = input.split_first_chunk::<9>().ok_or(8u32)?;
    let nodes = u64::from(n);
    let expiry = u64::from(u16::from_le_bytes([e0, e1]));
    let depth = u64::from(u16::from_le_bytes([k0, k1]));
    let slot = u64::from(u32::from_le_bytes([s0, s1, s2, s3]));
    Ok((Asked { nodes, expiry, depth, slot }, rest))
}

/// Reads an input with two packets: after the slot the length of the first (4, little-endian), then the first and then
/// the second, which is all the rest. An input that is shorter than the length says is refused as 8 too.
fn read_two(input: &[u8]) -> Result<(Asked, &[u8], &[u8]), u32> {
    let (asked, rest) = read(input, 65_536)?;
    let (&length, packets) = rest.split_first_chunk::<4>().ok_or(8u32)?;
    let (first, second) = packets.split_at_checked(u32::from_le_bytes(length) as usize).ok_or(8u32)?;
    Ok((asked, first, second))
}

impl Asked {
    /// "beat 3 × slot + 2"
    fn beat(&self) -> u64 {
        3 * self.slot + 2
    }

    /// The node of all programs, or the number by which Open refuses it.
    fn opened(&self) -> Result<Node, u32> {
        let &Asked { nodes, expiry, depth, .. } = self;
        // "opens node 0 with 512 block and 1,024 vote places", so many as a loom alone may have
        let mut node = Node {
            settings: Settings { profile: Profile::Loom, nodes, own: 0, expiry, depth },
            clock: Clock { seen: 0, done: 0, merged: 0, proposed: 0 },
            blocks: vec![Block { number: 0, parent: 0, slot: 0, in_view: false }; 512],
            blocks_used: 0,
            votes: vec![Vote { voter: 0, slot: 0, number: 0, in_view: false }; 1024],
            votes_used: 0,
        };
        node.open()?;
        Ok(node)
    }

    /// The node after it "receives and merges at beat 3 × slot + 2", or the number of the first refusal.
    fn merged(&self, packet: &[u8]) -> Result<Node, u32> {
        let mut node = self.opened()?;
        // Request 1: "chainask prints the number alone, as before."
        node.receive(self.beat(), packet).map_err(|refused| refused.number)?;
        node.merge(self.beat())?;
        Ok(node)
    }
}
