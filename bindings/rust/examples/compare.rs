//! Which miner does best on an election: the scores of all of them, the best one first.
//!
//! ```text
//! cargo run --example compare < ../../examples/pack/plain.json
//! ```

use npos_elections::{mine, Bundle, Miner};
use std::cmp::Reverse;
use std::error::Error;
use std::io::{self, Read};

fn main() -> Result<(), Box<dyn Error>> {
    let mut text = String::new();
    io::stdin().read_to_string(&mut text)?;
    let Bundle { election, .. } = Bundle::from_json(&text)?;

    let miners = [
        ("fill", Miner::Fill),
        ("seq", Miner::Seq),
        ("mms", Miner::default()),
        ("mms of 50 rounds", Miner::Mms { rounds: 50 }),
    ];
    let mut found = Vec::new();
    for (name, miner) in miners {
        match mine(&election, miner) {
            Ok(mined) => found.push((mined.score, name, mined.verdict)),
            Err(error) => println!("{name}: {error}"),
        }
    }
    found.sort_by_key(|one| Reverse(one.0));
    for (score, name, verdict) in found {
        println!("{name}: score {score}, {verdict}");
    }
    Ok(())
}
