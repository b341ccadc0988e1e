//! Why there is no answer.

use crate::calls::{self, Finding};
use crate::{Limit, Verdict, Why};
use alloc::string::String;
use core::fmt;

/// Why the values of an [`Election`](crate::Election) are no election: its first fault
/// (`docs/RULES.md`, "Building an election"). A position is that of the account in its list.
///
/// ```
/// use npos_elections::{mine, Election, ElectionFault, Error, Miner};
///
/// let fault = ElectionFault::Few { targets: 0, seats: 1 };
/// assert_eq!(mine(&Election::new(1), Miner::Fill), Err(Error::Unelectable(fault)));
/// assert_eq!(fault.to_string(), "0 targets are too few for 1 seats");
/// ```
#[derive(Clone, Copy, Debug, PartialEq, Eq, Hash)]
pub enum ElectionFault {
    /// There are fewer targets than seats.
    Few {
        /// How many targets there are.
        targets: u32,
        /// How many seats there are.
        seats: u32,
    },
    /// The stakes sum to less than the seats times the seats.
    Poor {
        /// The sum of the stakes, in units.
        total: u64,
        /// How many seats there are.
        seats: u32,
    },
    /// The account of the target at this position stands before it too.
    RepeatedTarget(u32),
    /// The account of the voter at this position stands before it too.
    RepeatedVoter(u32),
    /// A vote of the voter at this position is no position of a target.
    UnknownTarget(u32),
    /// A vote of the voter at this position stands twice.
    RepeatedVote(u32),
    /// The voter at this position has no vote.
    NoVotes(u32),
    /// The voter at this position has no stake.
    ZeroStake(u32),
    /// There are more than 2,048 targets.
    TooManyTargets,
    /// There are more than 16,384 voters.
    TooManyVoters,
    /// The voter at this position has more than 24 votes.
    TooManyVotes(u32),
    /// With the voter at this position the stakes sum to 2^64 or more.
    TotalTooLarge(u32),
    /// There are this many seats, which are 0 or more than 512.
    BadSeats(u32),
}

impl ElectionFault {
    fn of(finding: Finding) -> Option<ElectionFault> {
        let Finding { first, second, .. } = finding;
        let place = u32::try_from(first);
        Some(match finding.number {
            1 => ElectionFault::Few {
                targets: place.ok()?,
                seats: u32::try_from(second).ok()?,
            },
            2 => ElectionFault::Poor {
                total: first,
                seats: u32::try_from(second).ok()?,
            },
            3 => ElectionFault::RepeatedTarget(place.ok()?),
            4 => ElectionFault::RepeatedVoter(place.ok()?),
            5 => ElectionFault::UnknownTarget(place.ok()?),
            6 => ElectionFault::RepeatedVote(place.ok()?),
            7 => ElectionFault::NoVotes(place.ok()?),
            8 => ElectionFault::ZeroStake(place.ok()?),
            9 => ElectionFault::TooManyTargets,
            10 => ElectionFault::TooManyVoters,
            11 => ElectionFault::TooManyVotes(place.ok()?),
            12 => ElectionFault::TotalTooLarge(place.ok()?),
            13 => ElectionFault::BadSeats(place.ok()?),
            _ => return None,
        })
    }
}

impl fmt::Display for ElectionFault {
    fn fmt(&self, f: &mut fmt::Formatter<'_>) -> fmt::Result {
        match self {
            ElectionFault::Few { targets, seats } => {
                write!(f, "{targets} targets are too few for {seats} seats")
            }
            ElectionFault::Poor { total, seats } => {
                write!(
                    f,
                    "a stake of {total} units is too little for {seats} seats"
                )
            }
            ElectionFault::RepeatedTarget(target) => write!(f, "target {target} stands twice"),
            ElectionFault::RepeatedVoter(voter) => write!(f, "voter {voter} stands twice"),
            ElectionFault::UnknownTarget(voter) => write!(f, "voter {voter} votes for no target"),
            ElectionFault::RepeatedVote(voter) => {
                write!(f, "voter {voter} votes twice for a target")
            }
            ElectionFault::NoVotes(voter) => write!(f, "voter {voter} has no votes"),
            ElectionFault::ZeroStake(voter) => write!(f, "voter {voter} has no stake"),
            ElectionFault::TooManyTargets => f.write_str("there are more than 2048 targets"),
            ElectionFault::TooManyVoters => f.write_str("there are more than 16384 voters"),
            ElectionFault::TooManyVotes(voter) => write!(f, "voter {voter} has more than 24 votes"),
            ElectionFault::TotalTooLarge(voter) => {
                write!(f, "with voter {voter} the stakes sum to 2^64 or more")
            }
            ElectionFault::BadSeats(seats) => write!(f, "there are {seats} seats, not 1 to 512"),
        }
    }
}

/// Why a call has no other answer.
///
/// ```
/// use npos_elections::{check, Election, Error, Work};
///
/// let mut election = Election::new(1);
/// election.add_target([1; 32]);
/// election.add_voter([2; 32], 60, &[0]);
/// let error = check(&election, &Work::Nothing).unwrap_err();
/// assert_eq!(error, Error::NoWork);
/// assert_eq!(error.to_string(), "there is no work on the election");
/// ```
#[derive(Clone, Debug, PartialEq, Eq, Hash)]
#[non_exhaustive]
pub enum Error {
    /// The values are no election.
    Unelectable(ElectionFault),
    /// There is no work to check.
    NoWork,
    /// There is more of something than the library takes; nothing was asked of it.
    OverLimit {
        /// Of what.
        limit: Limit,
        /// How many there are.
        found: u64,
    },
    /// The bytes that were handed in spell no bundle.
    Refused {
        /// The place of the first byte of the part that is refused.
        at: u64,
        /// Why.
        why: Why,
    },
    /// As weights were packed no edge to the member at this position was kept.
    Lost(u16),
    /// The edge at this place of the list cannot be packed: its voter or its target is none, it gives
    /// nothing, the same pair stands before it, or its voter gives more than its stake or to more
    /// than 24 members.
    BadEdge(usize),
    /// The bytes spell no solution.
    NoSolution,
    /// The solution expands to no weights, and so has no score: this is the verdict on it.
    NoScore(Verdict),
    /// The text stands for no bundle, or the bundle for no text. This is the line that the program
    /// would write.
    Json(String),
    /// The library knows no such numbers: rounds that are not 1 to 100, voters that are not 1 to
    /// 16,384, or seats that are not 1 to 512.
    OutOfRange,
    /// Memory was refused.
    NoMemory,
    /// The library that is linked answers what this crate does not know: it is another version.
    OtherLibrary,
}

impl Error {
    /// The error of an answer that is no verdict.
    pub(crate) fn of(answer: u32, finding: Finding) -> Error {
        match answer {
            calls::NO | calls::BAD_INPUT => Error::found(finding).unwrap_or(Error::OtherLibrary),
            calls::UNKNOWN => Error::OutOfRange,
            calls::NO_MEMORY => Error::NoMemory,
            _ => Error::OtherLibrary,
        }
    }

    fn found(finding: Finding) -> Option<Error> {
        Some(match finding.kind {
            calls::LOST => Error::Lost(u16::try_from(finding.first).ok()?),
            calls::REFUSED => Error::Refused {
                at: finding.first,
                why: Why::of(u64::from(finding.number))?,
            },
            calls::UNELECTABLE => Error::Unelectable(ElectionFault::of(finding)?),
            calls::UNSOLVED => Error::NoWork,
            calls::LONG => Error::OverLimit {
                limit: Limit::BundleBytes,
                found: finding.first,
            },
            _ => return None,
        })
    }
}

impl fmt::Display for Error {
    fn fmt(&self, f: &mut fmt::Formatter<'_>) -> fmt::Result {
        match self {
            Error::Unelectable(fault) => write!(f, "there is no election: {fault}"),
            Error::NoWork => f.write_str("there is no work on the election"),
            Error::Refused { at, why } => {
                write!(f, "the bundle is refused from byte {at} on: {why}")
            }
            Error::OverLimit { limit, found } => {
                write!(f, "{found} {limit}, where there may be {}", limit.most())
            }
            Error::Lost(member) => write!(f, "member {member} is lost as the weights are packed"),
            Error::BadEdge(place) => write!(f, "the edge at place {place} cannot be packed"),
            Error::NoSolution => f.write_str("the bytes spell no solution"),
            Error::NoScore(verdict) => write!(f, "the solution has no score: {verdict}"),
            Error::Json(line) => write!(f, "no bundle and no text: {line}"),
            Error::OutOfRange => f.write_str("a number is out of its range"),
            Error::NoMemory => f.write_str("memory was refused"),
            Error::OtherLibrary => f.write_str("the library that is linked is another version"),
        }
    }
}

#[cfg(feature = "std")]
impl std::error::Error for Error {}
