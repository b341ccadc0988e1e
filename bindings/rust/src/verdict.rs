//! Verdicts.

use crate::calls::{self, Finding};
use crate::scale::bytes_within;
use crate::{Election, Error, Score, Work};
use core::fmt;

/// Why bytes are refused.
///
/// ```
/// use npos_elections::Why;
///
/// assert_eq!(Why::Short.to_string(), "short");
/// ```
#[derive(Clone, Copy, Debug, PartialEq, Eq, Hash)]
pub enum Why {
    /// Fewer bytes are left than the part has.
    Short,
    /// A compact integer is spelled in a longer mode than it needs.
    NotShortest,
    /// A compact integer is over the range of its type.
    TooWide,
    /// A tag names no variant.
    BadTag,
    /// A length is over the limit of its list.
    TooMany,
    /// A byte follows a value that must be the whole input.
    Trailing,
}

impl Why {
    pub(crate) fn of(number: u64) -> Option<Why> {
        Some(match number {
            1 => Why::Short,
            2 => Why::NotShortest,
            3 => Why::TooWide,
            4 => Why::BadTag,
            5 => Why::TooMany,
            6 => Why::Trailing,
            _ => return None,
        })
    }

    fn number(self) -> u8 {
        match self {
            Why::Short => 1,
            Why::NotShortest => 2,
            Why::TooWide => 3,
            Why::BadTag => 4,
            Why::TooMany => 5,
            Why::Trailing => 6,
        }
    }
}

impl fmt::Display for Why {
    /// The word of the program's fault lines.
    fn fmt(&self, f: &mut fmt::Formatter<'_>) -> fmt::Result {
        f.write_str(match self {
            Why::Short => "short",
            Why::NotShortest => "notshortest",
            Why::TooWide => "toowide",
            Why::BadTag => "badtag",
            Why::TooMany => "toomany",
            Why::Trailing => "trailing",
        })
    }
}

/// What a check finds: that the weights pass, or the first fault in the order of the check
/// (`docs/RULES.md`, "Verdicts").
///
/// ```
/// use npos_elections::{check, Election, Verdict, Work};
///
/// let mut election = Election::new(1);
/// let target = election.add_target([1; 32]);
/// election.add_voter([2; 32], 60, &[target]);
/// let work = Work::Plain { committee: vec![target], edges: vec![] };
/// let verdict = check(&election, &work)?;
/// assert_eq!(verdict, Verdict::Yes);
///
/// let work = Work::Plain { committee: vec![], edges: vec![] };
/// let verdict = check(&election, &work)?;
/// assert_eq!(verdict, Verdict::WrongSize(0));
/// assert_eq!(verdict.to_string(), "verdict 8 0");
/// # Ok::<(), npos_elections::Error>(())
/// ```
#[derive(Clone, Copy, Debug, PartialEq, Eq, Hash)]
pub enum Verdict {
    /// The weights are feasible and pass. The committee is proportional to stake, which is proved.
    Yes,
    /// The bytes are no spelling of a solution.
    Undecodable {
        /// The place of the first byte of the part that is refused, in the solution.
        at: u64,
        /// Why.
        why: Why,
    },
    /// No voter has this position.
    NoVoter(u32),
    /// No target has this position, or an edge leads to it and it is no member.
    NoTarget(u16),
    /// The voter stands in two entries.
    VoterTwice(u32),
    /// The member stands twice, or two edges of one voter lead to the target.
    TargetTwice(u16),
    /// An edge leads from a voter to a target that it does not nominate.
    NotNominated {
        /// The position of the voter.
        voter: u32,
        /// The position of the target.
        target: u16,
    },
    /// A share of this voter's is 0, or its shares leave nothing for its last target.
    BadShare(u32),
    /// There are this many members, and not one for each seat.
    WrongSize(u32),
    /// The score is this one, and not the one that was claimed.
    WrongScore(Score),
    /// The nominators of this target outside have as much left as a seat stands for.
    Outweighed {
        /// The position of the target.
        target: u16,
        /// What its nominators have left, in units.
        prescore: u64,
    },
    /// This voter gives more than its stake.
    Overspent(u32),
}

impl Verdict {
    /// Whether the verdict is [`Verdict::Yes`].
    ///
    /// ```
    /// use npos_elections::Verdict;
    ///
    /// assert!(Verdict::Yes.is_yes());
    /// assert!(!Verdict::Overspent(3).is_yes());
    /// ```
    pub fn is_yes(self) -> bool {
        self == Verdict::Yes
    }

    /// The number by which the program tells the verdict.
    ///
    /// ```
    /// use npos_elections::Verdict;
    ///
    /// assert_eq!(Verdict::Overspent(3).number(), 11);
    /// ```
    pub fn number(self) -> u8 {
        match self {
            Verdict::Yes => 0,
            Verdict::Undecodable { .. } => 1,
            Verdict::NoVoter(_) => 2,
            Verdict::NoTarget(_) => 3,
            Verdict::VoterTwice(_) => 4,
            Verdict::TargetTwice(_) => 5,
            Verdict::NotNominated { .. } => 6,
            Verdict::BadShare(_) => 7,
            Verdict::WrongSize(_) => 8,
            Verdict::WrongScore(_) => 9,
            Verdict::Outweighed { .. } => 10,
            Verdict::Overspent(_) => 11,
        }
    }

    /// The verdict of a finding that is one.
    pub(crate) fn of(finding: Finding) -> Result<Verdict, Error> {
        Verdict::judged(finding).ok_or(Error::OtherLibrary)
    }

    fn judged(finding: Finding) -> Option<Verdict> {
        let Finding { first, second, .. } = finding;
        if finding.kind != calls::JUDGED {
            return None;
        }
        let voter = || u32::try_from(first).ok();
        let target = || u16::try_from(first).ok();
        Some(match finding.number {
            0 => Verdict::Yes,
            1 => Verdict::Undecodable {
                at: first,
                why: Why::of(second)?,
            },
            2 => Verdict::NoVoter(voter()?),
            3 => Verdict::NoTarget(target()?),
            4 => Verdict::VoterTwice(voter()?),
            5 => Verdict::TargetTwice(target()?),
            6 => Verdict::NotNominated {
                voter: voter()?,
                target: u16::try_from(second).ok()?,
            },
            7 => Verdict::BadShare(voter()?),
            8 => Verdict::WrongSize(u32::try_from(first).ok()?),
            9 => Verdict::WrongScore(Score {
                minimal: first,
                sum: second,
                squares: u128::from(finding.third_high) << 64 | u128::from(finding.third_low),
            }),
            10 => Verdict::Outweighed {
                target: target()?,
                prescore: second,
            },
            11 => Verdict::Overspent(voter()?),
            _ => return None,
        })
    }
}

impl fmt::Display for Verdict {
    /// The line of the program, without its end.
    fn fmt(&self, f: &mut fmt::Formatter<'_>) -> fmt::Result {
        write!(f, "verdict {}", self.number())?;
        match self {
            Verdict::Yes => Ok(()),
            Verdict::Undecodable { at, why } => write!(f, " {at} {}", why.number()),
            Verdict::NoVoter(position)
            | Verdict::VoterTwice(position)
            | Verdict::BadShare(position)
            | Verdict::WrongSize(position)
            | Verdict::Overspent(position) => write!(f, " {position}"),
            Verdict::NoTarget(target) | Verdict::TargetTwice(target) => write!(f, " {target}"),
            Verdict::NotNominated { voter, target } => write!(f, " {voter} {target}"),
            Verdict::WrongScore(score) => write!(f, " {score}"),
            Verdict::Outweighed { target, prescore } => write!(f, " {target} {prescore}"),
        }
    }
}

/// The verdict on the work on an election.
///
/// ```
/// use npos_elections::{check, Edge, Election, Error, Verdict, Work};
///
/// let mut election = Election::new(1);
/// let target = election.add_target([1; 32]);
/// election.add_voter([2; 32], 60, &[target]);
/// let edges = vec![Edge { voter: 0, target, amount: 61 }];
/// let work = Work::Plain { committee: vec![target], edges };
/// assert_eq!(check(&election, &work)?, Verdict::Overspent(0));
/// assert_eq!(check(&election, &Work::Nothing), Err(Error::NoWork));
/// # Ok::<(), Error>(())
/// ```
///
/// # Errors
///
/// [`Error::NoWork`] where there is none; [`Error::Unelectable`] where the election has a fault;
/// [`Error::OverLimit`] where there is more of something than the library takes; and
/// [`Error::NoMemory`].
pub fn check(election: &Election, work: &Work) -> Result<Verdict, Error> {
    let (answer, finding) = calls::check(&bytes_within(election, work)?);
    match answer {
        calls::DONE | calls::NO => Verdict::of(finding),
        _ => Err(Error::of(answer, finding)),
    }
}
