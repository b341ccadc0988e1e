//! How much the library takes. Each call looks at these before it asks, and names the one that is
//! passed: [`Error::OverLimit`](crate::Error::OverLimit).

use crate::{Election, Error, Work};
use core::fmt;

/// The most seats of an election.
pub const SEATS: u32 = 512;
/// The most targets of an election.
pub const TARGETS: usize = 2_048;
/// The most voters of an election.
pub const VOTERS: usize = 16_384;
/// The most targets that a voter nominates.
pub const VOTES: usize = 24;
/// The most members that plain work may list. More than there are seats get a verdict.
pub const MEMBERS: usize = 2_048;
/// The most edges of plain work.
pub const EDGES: usize = 262_144;
/// The most bytes of a packed solution.
pub const SOLUTION_BYTES: usize = 2_097_152;
/// The most bytes of a bundle, in SCALE or in JSON.
pub const BUNDLE_BYTES: usize = 16_777_216;
/// The most rounds of balancing after each pick of [`Miner::Mms`](crate::Miner::Mms).
pub const ROUNDS: u32 = 100;

/// Of what there is a limit.
///
/// ```
/// use npos_elections::{limits, mine, Election, Error, Limit, Miner};
///
/// let mut election = Election::new(1);
/// election.targets = vec![[0; 32]; limits::TARGETS + 1];
/// let over = Error::OverLimit { limit: Limit::Targets, found: 2_049 };
/// assert_eq!(mine(&election, Miner::Fill), Err(over.clone()));
/// assert_eq!(over.to_string(), "2049 targets, where there may be 2048");
/// ```
#[derive(Clone, Copy, Debug, PartialEq, Eq, Hash)]
pub enum Limit {
    /// Targets of an election: [`TARGETS`].
    Targets,
    /// Voters of an election: [`VOTERS`].
    Voters,
    /// Votes of the voter at this position: [`VOTES`].
    Votes(u32),
    /// Members of plain work: [`MEMBERS`].
    Members,
    /// Edges of plain work: [`EDGES`].
    Edges,
    /// Bytes of a packed solution: [`SOLUTION_BYTES`].
    SolutionBytes,
    /// Bytes of a bundle: [`BUNDLE_BYTES`].
    BundleBytes,
}

impl Limit {
    /// The greatest number that is taken.
    ///
    /// ```
    /// assert_eq!(npos_elections::Limit::Edges.most(), 262_144);
    /// ```
    pub fn most(self) -> u64 {
        let most = match self {
            Limit::Targets => TARGETS,
            Limit::Voters => VOTERS,
            Limit::Votes(_) => VOTES,
            Limit::Members => MEMBERS,
            Limit::Edges => EDGES,
            Limit::SolutionBytes => SOLUTION_BYTES,
            Limit::BundleBytes => BUNDLE_BYTES,
        };
        most as u64
    }

    /// Nothing where this many are taken.
    pub(crate) fn allows(self, found: usize) -> Result<(), Error> {
        let found = found as u64;
        if found <= self.most() {
            return Ok(());
        }
        Err(Error::OverLimit { limit: self, found })
    }
}

impl fmt::Display for Limit {
    fn fmt(&self, f: &mut fmt::Formatter<'_>) -> fmt::Result {
        match self {
            Limit::Targets => f.write_str("targets"),
            Limit::Voters => f.write_str("voters"),
            Limit::Votes(voter) => write!(f, "votes of voter {voter}"),
            Limit::Members => f.write_str("members"),
            Limit::Edges => f.write_str("edges"),
            Limit::SolutionBytes => f.write_str("bytes of a solution"),
            Limit::BundleBytes => f.write_str("bytes of a bundle"),
        }
    }
}

/// Nothing where the library takes lists as long as these.
pub(crate) fn look(election: &Election, work: &Work) -> Result<(), Error> {
    Limit::Targets.allows(election.targets.len())?;
    Limit::Voters.allows(election.voters.len())?;
    for (position, voter) in (0..).zip(&election.voters) {
        Limit::Votes(position).allows(voter.votes.len())?;
    }
    match work {
        Work::Nothing => Ok(()),
        Work::Packed { solution, .. } => Limit::SolutionBytes.allows(solution.as_bytes().len()),
        Work::Plain { committee, edges } => {
            Limit::Members.allows(committee.len())?;
            Limit::Edges.allows(edges.len())
        }
    }
}
