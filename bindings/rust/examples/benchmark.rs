//! What the start of a process costs: one check of a large bundle, and 1,000 checks of small ones,
//! by the library and by the program, in one run.
//!
//! ```text
//! cargo run --release --example benchmark
//! ```

#[path = "../tests/common/mod.rs"]
mod common;

use common::{generated, program, run};
use npos_elections::{mine, report, Bundle, Election, Miner, Task, Work};
use std::time::{Duration, Instant};

/// The bytes of an election with what sequential Phragmén makes of it.
fn with_work(election: Election) -> Vec<u8> {
    let mined = mine(&election, Miner::Seq).expect("it is mined");
    let solution = mined.solution.expect("it is packed");
    let work = Work::Packed {
        claim: mined.score,
        solution,
    };
    Bundle { election, work }.to_bytes()
}

/// How long the library and the program take for these bundles, which they report alike.
fn compare(name: &str, bundles: &[Vec<u8>]) {
    let program = program();
    let begin = Instant::now();
    let told: Vec<_> = (bundles.iter())
        .map(|bundle| report(Task::Check, bundle).expect("there is memory"))
        .collect();
    let library = begin.elapsed();
    let begin = Instant::now();
    let written: Vec<_> = (bundles.iter())
        .map(|bundle| run(&program, &["check"], bundle))
        .collect();
    let process = begin.elapsed();
    for (told, (text, status)) in told.iter().zip(&written) {
        assert_eq!((&told.text, i32::from(told.status.code())), (text, *status));
    }
    let each = |whole: Duration| whole.as_secs_f64() * 1e6 / bundles.len() as f64;
    println!(
        "{name}: library {:.1} us each, process {:.1} us each, {:.2} times as long",
        each(library),
        each(process),
        each(process) / each(library)
    );
}

fn main() {
    let large = with_work(generated(7, 16_384, 512));
    println!("the large bundle has {} bytes", large.len());
    compare("one check of 512 seats and 16384 voters", &[large]);
    let small: Vec<_> = (0..1_000)
        .map(|seed| with_work(generated(seed, 20, 3)))
        .collect();
    compare("1000 checks of 3 seats and 20 voters", &small);
}
