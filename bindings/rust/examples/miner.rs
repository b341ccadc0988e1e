//! A miner of one's own, judged by the proved checker.
//!
//! Reads a bundle in JSON on standard input, elects the targets that the most stake nominates, has
//! each voter give equal parts to its nominees among them, asks for the verdict, and prints its
//! score beside that of PHRAGMMS.
//!
//! ```text
//! cargo run --example miner < ../../examples/pack/plain.json
//! ```

use npos_elections::{check, mine, Bundle, Edge, Election, Miner, Score, Work};
use std::cmp::Reverse;
use std::error::Error;
use std::io::{self, Read};

/// The targets that the most stake nominates, the lower position before at equal ones.
fn most_nominated(election: &Election) -> Vec<u16> {
    let mut stakes = vec![0u128; election.targets.len()];
    for voter in &election.voters {
        for vote in &voter.votes {
            if let Some(stake) = stakes.get_mut(usize::from(*vote)) {
                *stake += u128::from(voter.stake);
            }
        }
    }
    let mut targets: Vec<u16> = (0..).take(stakes.len()).collect();
    targets.sort_by_key(|target| (Reverse(stakes[usize::from(*target)]), *target));
    targets.truncate(election.seats as usize);
    targets
}

/// Each voter gives equal parts to its nominees that are members, and what is left over to the
/// first of them.
fn even_edges(election: &Election, committee: &[u16]) -> Vec<Edge> {
    let mut edges = Vec::new();
    for (voter, it) in (0..).zip(&election.voters) {
        let members: Vec<u16> = (it.votes.iter().copied())
            .filter(|vote| committee.contains(vote))
            .collect();
        let count = members.len() as u64;
        for (place, target) in members.into_iter().enumerate() {
            let over = if place == 0 { it.stake % count } else { 0 };
            let amount = it.stake / count + over;
            edges.push(Edge {
                voter,
                target,
                amount,
            });
        }
    }
    edges
}

fn main() -> Result<(), Box<dyn Error>> {
    let mut text = String::new();
    io::stdin().read_to_string(&mut text)?;
    let Bundle { election, .. } = Bundle::from_json(&text)?;

    let committee = most_nominated(&election);
    let edges = even_edges(&election, &committee);
    println!("own score {}", Score::of(&committee, &edges));
    let verdict = check(&election, &Work::Plain { committee, edges })?;
    println!("own {verdict}");

    let mined = mine(&election, Miner::default())?;
    println!("mms score {}", mined.score);
    println!("mms {}", mined.verdict);
    Ok(())
}
