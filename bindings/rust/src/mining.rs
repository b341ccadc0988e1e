//! Miners.

use crate::calls;
use crate::scale::bytes_within;
use crate::{Election, Error, Score, Solution, Verdict, Work};
use alloc::vec;
use alloc::vec::Vec;

/// A proved miner.
///
/// ```
/// use npos_elections::Miner;
///
/// assert_eq!(Miner::default(), Miner::Mms { rounds: 8 });
/// ```
#[derive(Clone, Copy, Debug, PartialEq, Eq, Hash)]
pub enum Miner {
    /// The greedy fill, which always passes. It is not packed into a solution.
    Fill,
    /// Sequential Phragmén.
    Seq,
    /// PHRAGMMS.
    Mms {
        /// How many balancing rounds follow each pick, from 1 to 100.
        rounds: u32,
    },
}

impl Miner {
    /// The number and the rounds by which the library knows it.
    pub(crate) fn numbers(self) -> (u32, u32) {
        match self {
            Miner::Fill => (1, 0),
            Miner::Seq => (2, 0),
            Miner::Mms { rounds } => (3, rounds),
        }
    }
}

impl Default for Miner {
    /// PHRAGMMS with 8 rounds, as the program has it.
    fn default() -> Miner {
        Miner::Mms { rounds: 8 }
    }
}

/// What a miner made.
///
/// ```
/// use npos_elections::{mine, Election, Miner};
///
/// let mut election = Election::new(1);
/// let target = election.add_target([1; 32]);
/// election.add_voter([2; 32], 60, &[target]);
/// let mined = mine(&election, Miner::Seq)?;
/// assert_eq!(mined.committee, [target]);
/// assert_eq!(mined.score.to_string(), "60 60 3600");
/// assert!(mined.solution.is_some() && mined.verdict.is_yes());
/// # Ok::<(), npos_elections::Error>(())
/// ```
#[derive(Clone, Debug, PartialEq, Eq)]
pub struct Mined {
    /// The positions of the members, rising.
    pub committee: Vec<u16>,
    /// The score; of a packed solution, that of what it expands to.
    pub score: Score,
    /// The packed solution, or None for the fill.
    pub solution: Option<Solution>,
    /// The verdict on it; of a packed solution, that on its bytes with its score as the claim.
    pub verdict: Verdict,
}

/// As many bytes as the packed solution of an election may have: the mark of a wide one, the lengths
/// of its 24 lists, and of each voter itself and two numbers for each vote, all of at most 4 bytes.
fn most_bytes(election: &Election) -> usize {
    let votes: usize = election.voters.iter().map(|voter| voter.votes.len()).sum();
    1 + 4 * 24 + 4 * election.voters.len() + 8 * votes
}

/// Has a proved miner make a committee for an election.
///
/// ```
/// use npos_elections::{mine, Election, Error, Miner, Verdict};
///
/// let mut election = Election::new(1);
/// election.add_target([1; 32]);
/// let popular = election.add_target([2; 32]);
/// election.add_voter([3; 32], 60, &[popular]);
/// let mined = mine(&election, Miner::Fill)?;
/// assert_eq!((mined.committee, mined.verdict), (vec![popular], Verdict::Yes));
/// assert_eq!(mine(&election, Miner::Mms { rounds: 0 }), Err(Error::OutOfRange));
/// # Ok::<(), Error>(())
/// ```
///
/// # Errors
///
/// [`Error::Lost`] where packing loses a member; [`Error::OutOfRange`] where the rounds are not 1
/// to 100; and, but for [`Error::NoWork`], those of [`check`](crate::check).
pub fn mine(election: &Election, miner: Miner) -> Result<Mined, Error> {
    let bundle = bytes_within(election, &Work::Nothing)?;
    let (number, rounds) = miner.numbers();
    let mut committee = vec![0; 512];
    let mut bytes = match miner {
        Miner::Fill => Vec::new(),
        _ => vec![0; most_bytes(election)],
    };
    let (mut answer, mut mined) = calls::mine(number, rounds, &bundle, &mut committee, &mut bytes);
    if answer == calls::SMALL {
        committee.resize(mined.members, 0);
        bytes.resize(mined.bytes, 0);
        (answer, mined) = calls::mine(number, rounds, &bundle, &mut committee, &mut bytes);
    }
    if !matches!(answer, calls::DONE | calls::NO) || mined.finding.kind != calls::JUDGED {
        return Err(Error::of(answer, mined.finding));
    }
    committee.truncate(mined.members);
    bytes.truncate(mined.bytes);
    Ok(Mined {
        committee,
        score: Score {
            minimal: mined.minimal,
            sum: mined.sum,
            squares: u128::from(mined.squares_high) << 64 | u128::from(mined.squares_low),
        },
        solution: (miner != Miner::Fill).then(|| Solution::from_bytes(bytes)),
        verdict: Verdict::of(mined.finding)?,
    })
}
