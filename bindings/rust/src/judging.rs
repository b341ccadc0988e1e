//! Whom a committee denies a seat.

use crate::calls;
use crate::scale::bytes_within;
use crate::{Election, Error, Verdict, Work};
use alloc::vec;
use alloc::vec::Vec;

/// A target that a committee denies a seat, and whom: a group of voters that all nominate it, and
/// hold the stake of more seats than they nominate members.
#[derive(Clone, Debug, PartialEq, Eq, Hash)]
pub struct Denied {
    /// The position of the target, the lowest that is denied.
    pub target: u16,
    /// The positions of the voters, rising: of all groups that nominate the target the one that holds
    /// most beyond its members' share, and the largest of several.
    pub group: Vec<u32>,
    /// The positions of the members that some voter of the group nominates, rising.
    pub members: Vec<u16>,
    /// How many seats the stake of the group stands for, rounded down.
    pub seats: u64,
    /// The stake of the group, in units.
    pub stake: u64,
    /// What the group holds beyond the share of its members, in units, rounded down.
    pub excess: u64,
}

/// The judgement on a committee.
#[derive(Clone, Debug, PartialEq, Eq, Hash)]
pub enum Judgement {
    /// It denies nobody, and so is proportional to stake, whatever the weights. That is proved.
    Answered,
    /// It denies this target a seat.
    Denies(Denied),
    /// Its members are no committee: no target, twice the same, or not one for each seat; or a packed
    /// solution has a fault.
    NoCommittee(Verdict),
}

/// Whether the committee of the work on an election denies somebody a seat (PJR+ of Brill and Peters,
/// with stakes). The answer is exact, and does not rest on the weights: of plain work the list of
/// members alone is looked at, of a packed solution the targets in it. So it is the second question to
/// ask where [`check`](crate::check) tells [`Verdict::Outweighed`]: the weights are poor, or the
/// committee is.
///
/// ```
/// use npos_elections::{judge, Election, Judgement, Work};
///
/// let mut election = Election::new(2);
/// let ann = election.add_target([1; 32]);
/// let bob = election.add_target([2; 32]);
/// let cid = election.add_target([3; 32]);
/// election.add_voter([4; 32], 60, &[ann, bob]);
/// election.add_voter([5; 32], 40, &[cid]);
///
/// let fair = Work::Plain { committee: vec![bob, cid], edges: vec![] };
/// assert_eq!(judge(&election, &fair)?, Judgement::Answered);
///
/// let mut election = Election::new(1);
/// let ann = election.add_target([1; 32]);
/// let bob = election.add_target([2; 32]);
/// election.add_voter([4; 32], 60, &[ann]);
/// let work = Work::Plain { committee: vec![bob], edges: vec![] };
/// let Judgement::Denies(denied) = judge(&election, &work)? else { panic!() };
/// assert_eq!((denied.target, denied.group, denied.seats, denied.stake), (ann, vec![0], 1, 60));
/// # Ok::<(), npos_elections::Error>(())
/// ```
///
/// # Errors
///
/// Those of [`check`](crate::check).
pub fn judge(election: &Election, work: &Work) -> Result<Judgement, Error> {
    let bundle = bytes_within(election, work)?;
    let mut group = vec![0; election.voters.len()];
    let mut members = vec![0; election.targets.len()];
    let (answer, denied) = calls::judge(&bundle, &mut group, &mut members);
    if !matches!(answer, calls::DONE | calls::NO) || denied.finding.kind != calls::JUDGED {
        return Err(Error::of(answer, denied.finding));
    }
    group.truncate(denied.voters);
    members.truncate(denied.members);
    Ok(match Verdict::of(denied.finding)? {
        Verdict::Yes => Judgement::Answered,
        Verdict::Outweighed { target, prescore } => Judgement::Denies(Denied {
            target,
            group,
            members,
            seats: denied.seats,
            stake: denied.stake,
            excess: prescore,
        }),
        verdict => Judgement::NoCommittee(verdict),
    })
}
