//! Makes the bytes that a chain takes as the fields `claim` and `bytes` of a submission: mines the
//! election of a bundle in JSON, makes sure that the verdict on it is a yes, and writes both.
//!
//! ```text
//! cargo run --example hand_in < ../../examples/pack/plain.json
//! ```

use npos_elections::{check, mine, Bundle, Miner, Verdict, Work};
use std::error::Error;
use std::io::{self, Read};

fn main() -> Result<(), Box<dyn Error>> {
    let mut text = String::new();
    io::stdin().read_to_string(&mut text)?;
    let Bundle { election, .. } = Bundle::from_json(&text)?;

    let mined = mine(&election, Miner::default())?;
    let solution = mined.solution.ok_or("what was mined is not packed")?;
    let work = Work::Packed {
        claim: mined.score,
        solution: solution.clone(),
    };
    // a claim that is not the actual score, or a committee that is not proportional, costs the deposit
    let verdict = check(&election, &work)?;
    if verdict != Verdict::Yes {
        return Err(format!("not handed in: {verdict}").into());
    }
    println!("claim {}", mined.score);
    println!("bytes {solution}");
    Ok(())
}
