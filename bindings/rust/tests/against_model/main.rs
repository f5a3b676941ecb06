//! Random calls on the proved library and on the model, side by side. After every call the answer, both tables, both counts, the
//! clock and the buffer are compared, word for word.
//!
//! `LIKVOST_SEED` and `LIKVOST_CALLS` choose the calls; a difference is reported with both. The whole comparison:
//!
//! ```text
//! LIKVOST_CALLS=10000000 cargo test --release --offline --test against_model -- --nocapture
//! ```

mod as_loom;
mod both;
mod compare;
mod fit;
mod full;
mod old_votes;
mod packets;
mod racks;
mod random;
mod settled;
mod wide;
mod world;

use both::Call;
use random::Random;
use world::{Run, World};

fn setting(name: &str, default: u64) -> u64 {
    match std::env::var(name) {
        Ok(text) => text.parse().unwrap_or_else(|_| panic!("{name} is not a number: {text}")),
        Err(_) => default,
    }
}

/// What each call may answer: 0, carried out, and its refusals.
const REPLIES: [&[usize]; 12] = [
    &[0, 1, 2, 3, 4, 5],
    &[0, 6, 7, 24, 8, 9, 20, 21, 10],
    &[0, 6, 7, 11, 12, 13, 14, 15, 10],
    &[0, 6, 7, 11, 12, 13, 16, 10],
    &[0, 6, 7, 11, 12],
    &[0, 6, 17],
    &[0, 6, 17],
    &[0, 6, 17],
    &[0, 6, 17, 25],
    &[0, 6, 19, 23, 18],
    &[0, 6, 7, 24, 8, 9, 20, 21],
    &[0, 6],
];

/// How Compare may refuse a packet: 7 would come to both, and the first is tested before the second.
const PACKET_REFUSALS: [&[usize]; 2] = [&[7, 24, 8, 9, 20, 21, 10], &[24, 8, 9, 20, 21, 10]];

#[test]
fn random_calls() {
    let seed = setting("LIKVOST_SEED", 20_261_115);
    let calls = setting("LIKVOST_CALLS", 200_000);
    println!("LIKVOST_SEED={seed} LIKVOST_CALLS={calls}");
    let mut run = Run::new(seed);
    let mut worlds = Random::new(seed);
    while run.calls < calls {
        let random = Random::new(worlds.word());
        World::new(&mut run, random).go(calls);
    }
    for (name, replies) in Call::NAMES.iter().zip(&run.replies) {
        let refused: Vec<String> = (1..26).filter(|&k| replies[k] > 0).map(|k| format!("{k}: {}", replies[k])).collect();
        println!("{name}: {} carried out; refused by {}", replies[0], refused.join(", "));
    }
    println!("{} proposals came into view on arrival, {} fast blocks", run.viewed, run.fast);
    println!("the largest index of a refused block {}, of a refused vote {}", run.deepest[0], run.deepest[1]);
    println!("{} settled blocks, {} of them not said by the model", run.settled.answered, run.settled.unsaid);
    let met = [
        &run.old_votes.list()[..],
        &run.wide.list(),
        &run.racks.list(),
        &run.settled.list(),
        &run.fit.list(),
        &run.compare.list(),
    ]
    .concat();
    for (what, times) in &met {
        println!("{what}: {times}");
    }
    for (packet, refused) in ["first", "second"].iter().zip(&run.compare.refused) {
        let refused: Vec<String> = (1..26).filter(|&k| refused[k] > 0).map(|k| format!("{k}: {}", refused[k])).collect();
        println!("Compare: the {packet} packet refused by {}", refused.join(", "));
    }
    if calls >= 100_000 {
        for (refused, expected) in run.compare.refused.iter().zip(PACKET_REFUSALS) {
            assert!(expected.iter().all(|&number| refused[number] > 0), "Compare refuses by each of {expected:?}: {refused:?}");
        }
        for (call, expected) in REPLIES.iter().enumerate() {
            for &reply in *expected {
                assert!(run.replies[call][reply] > 0, "no {} answered {reply}", Call::NAMES[call]);
            }
        }
        assert!(run.viewed > 0 && run.fast > 0);
        assert!(run.deepest.iter().all(|&index| index >= 2), "refused entries stand deep in their sections too");
        assert!(run.settled.unsaid <= run.settled.answered / 5, "the model says most settled blocks");
        for (what, times) in met {
            assert!(times >= calls / 1_000, "{what}: {times} in {calls} calls");
        }
    }
}
