//! Makes a given solution better. A bundle in JSON with packed work comes in. Of its weights each voter
//! that gives to several members moves units from the one with the most support to the one with the
//! least, as long as that helps; what comes is packed anew, and the better one is told.
//!
//! ```text
//! cargo run --example improve < solved.json
//! ```

use npos_elections::{check, Bundle, Edge, Election, Score, Solution, Work};
use std::collections::BTreeMap;
use std::error::Error;
use std::io::{self, Read};

/// The weights that the solution expands to: the members, and edges that give something.
fn expanded(
    election: &Election,
    solution: &Solution,
) -> Result<(Vec<u16>, Vec<Edge>), Box<dyn Error>> {
    let mut edges = Vec::new();
    for entry in solution.entries()? {
        let voter = election
            .voters
            .get(entry.voter as usize)
            .ok_or("there is no such voter")?;
        edges.extend(entry.edges(voter.stake));
    }
    let mut members: Vec<u16> = edges.iter().map(|edge| edge.target).collect();
    members.sort_unstable();
    members.dedup();
    edges.retain(|edge| edge.amount > 0);
    Ok((members, edges))
}

/// Moves half of the difference from the best supported member of each voter to the worst, once round.
fn level(edges: &mut [Edge]) {
    let mut supports: BTreeMap<u16, u64> = BTreeMap::new();
    for edge in edges.iter() {
        *supports.entry(edge.target).or_default() += edge.amount;
    }
    edges.sort_by_key(|edge| edge.voter);
    for own in edges.chunk_by_mut(|one, other| one.voter == other.voter) {
        own.sort_by_key(|edge| supports[&edge.target]);
        if let [least, .., most] = own {
            let between = supports[&most.target] - supports[&least.target];
            let moved = (between / 2).min(most.amount - 1);
            least.amount += moved;
            most.amount -= moved;
            *supports.entry(least.target).or_default() += moved;
            *supports.entry(most.target).or_default() -= moved;
        }
    }
}

fn main() -> Result<(), Box<dyn Error>> {
    let mut text = String::new();
    io::stdin().read_to_string(&mut text)?;
    let Bundle { election, work } = Bundle::from_json(&text)?;
    let Work::Packed { solution, .. } = work else {
        return Err("the bundle has no packed work".into());
    };

    let given = solution.score(&election)?;
    println!("given score {given}");
    let (members, mut edges) = expanded(&election, &solution)?;
    for _ in 0..20 {
        level(&mut edges);
    }
    let better = Solution::pack(&election, &members, &edges)?;
    let made = better.score(&election)?;
    let (claim, solution): (Score, Solution) = if made > given {
        (made, better)
    } else {
        (given, solution)
    };
    println!("best score {claim}");
    println!("solution {solution}");
    println!("{}", check(&election, &Work::Packed { claim, solution })?);
    Ok(())
}
