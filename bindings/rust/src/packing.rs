//! Solutions made of weights, and weights told by solutions: `docs/RULES.md`, "Packing".

use crate::scale::{put_compact, Cursor};
use crate::{check, limits, Edge, Election, Error, Score, Solution, Verdict, Work};
use alloc::collections::BTreeSet;
use alloc::vec::Vec;

/// What a whole stake is in shares.
const WHOLE: u128 = 65_535;
/// The lists of the plain form, and of the wide one, which stands behind the byte `ff`.
const PLAIN_GROUPS: usize = 16;
const WIDE_GROUPS: usize = 24;
const WIDE_MARK: u8 = 0xFF;

/// What a solution says of one voter: to each target but the last goes a share of its stake, in
/// parts of 65,535, rounded down, and to the last one goes the rest.
///
/// ```
/// use npos_elections::{Edge, Election, Solution};
///
/// let mut election = Election::new(2);
/// let ann = election.add_target([1; 32]);
/// let bob = election.add_target([2; 32]);
/// election.add_voter([3; 32], 10, &[ann, bob]);
/// let edges = [
///     Edge { voter: 0, target: ann, amount: 4 },
///     Edge { voter: 0, target: bob, amount: 6 },
/// ];
/// let solution = Solution::pack(&election, &[ann, bob], &edges)?;
/// let entries = solution.entries()?;
/// assert_eq!((entries[0].voter, entries[0].last), (0, bob));
/// assert_eq!(entries[0].shares, [(ann, 26_214)]);
/// # Ok::<(), npos_elections::Error>(())
/// ```
#[derive(Clone, Debug, PartialEq, Eq, Hash)]
pub struct Entry {
    /// The position of the voter.
    pub voter: u32,
    /// The targets but the last, each with its share in parts of 65,535.
    pub shares: Vec<(u16, u16)>,
    /// The target to which the rest goes.
    pub last: u16,
}

impl Entry {
    /// What a voter with this stake gives to whom. Where its shares are more than a whole, which
    /// gets a verdict, nothing is left for the last target.
    ///
    /// ```
    /// use npos_elections::{Edge, Entry};
    ///
    /// let entry = Entry { voter: 7, shares: vec![(0, 21_845)], last: 1 };
    /// let amounts: Vec<u64> = entry.edges(10).iter().map(|edge| edge.amount).collect();
    /// assert_eq!(amounts, [3, 7]);
    /// ```
    pub fn edges(&self, stake: u64) -> Vec<Edge> {
        let mut rest = stake;
        let mut edges = Vec::with_capacity(self.shares.len() + 1);
        for (target, share) in &self.shares {
            let amount = (u128::from(stake) * u128::from(*share) / WHOLE) as u64;
            rest = rest.saturating_sub(amount);
            edges.push(Edge {
                voter: self.voter,
                target: *target,
                amount,
            });
        }
        edges.push(Edge {
            voter: self.voter,
            target: self.last,
            amount: rest,
        });
        edges
    }
}

/// The edges of each voter, by rising target, or the first edge that cannot be packed.
fn by_voter(
    election: &Election,
    committee: &[u16],
    edges: &[Edge],
) -> Result<Vec<Vec<Edge>>, Error> {
    let members: BTreeSet<u16> = committee.iter().copied().collect();
    let mut seen = BTreeSet::new();
    let mut left: Vec<u64> = election.voters.iter().map(|voter| voter.stake).collect();
    let mut found = Vec::new();
    found.resize_with(left.len(), Vec::new);
    for (place, edge) in edges.iter().enumerate() {
        let voter = edge.voter as usize;
        let rest = (left.get(voter)).and_then(|stake| stake.checked_sub(edge.amount));
        let is_new = seen.insert((edge.voter, edge.target));
        match rest {
            Some(rest) if edge.amount > 0 && members.contains(&edge.target) && is_new => {
                left[voter] = rest;
                found[voter].push(*edge);
            }
            _ => return Err(Error::BadEdge(place)),
        }
        if found[voter].len() > limits::VOTES {
            return Err(Error::BadEdge(place));
        }
    }
    found
        .iter_mut()
        .for_each(|own| own.sort_by_key(|edge| edge.target));
    Ok(found)
}

/// The entry of a voter that has edges: those that round to no share are left out, but for the
/// first with the greatest amount, where all do.
fn entry_of(voter: u32, stake: u64, edges: &[Edge]) -> Option<Entry> {
    let share = |edge: &Edge| (u128::from(edge.amount) * WHOLE / u128::from(stake)) as u16;
    let mut kept: Vec<(u16, u16)> = (edges.iter())
        .map(|edge| (edge.target, share(edge)))
        .filter(|(_, share)| *share > 0)
        .collect();
    if kept.is_empty() {
        let most = edges.iter().map(|edge| edge.amount).max()?;
        let first = edges.iter().find(|edge| edge.amount == most)?;
        kept.push((first.target, 0));
    }
    let (last, _) = kept.pop()?;
    Some(Entry {
        voter,
        shares: kept,
        last,
    })
}

impl Solution {
    /// Packs weights: a committee, and how much each voter gives to which member. The edges may
    /// stand in any order. Amounts are rounded to shares, so the solution expands to other weights
    /// than these; [`Solution::score`] is what it has.
    ///
    /// ```
    /// use npos_elections::{check, Edge, Election, Solution, Verdict, Work};
    ///
    /// let mut election = Election::new(1);
    /// let target = election.add_target([1; 32]);
    /// election.add_voter([2; 32], 60, &[target]);
    /// let edges = [Edge { voter: 0, target, amount: 60 }];
    /// let solution = Solution::pack(&election, &[target], &edges)?;
    /// let claim = solution.score(&election)?;
    /// assert_eq!(check(&election, &Work::Packed { claim, solution })?, Verdict::Yes);
    /// # Ok::<(), npos_elections::Error>(())
    /// ```
    ///
    /// # Errors
    ///
    /// [`Error::BadEdge`] for the first edge that cannot be packed, or [`Error::Lost`] with the
    /// lowest member to whom no edge is kept.
    pub fn pack(election: &Election, committee: &[u16], edges: &[Edge]) -> Result<Solution, Error> {
        let mut groups: Vec<Vec<Entry>> = Vec::new();
        groups.resize_with(WIDE_GROUPS, Vec::new);
        let mut lost: BTreeSet<u16> = committee.iter().copied().collect();
        let own = by_voter(election, committee, edges)?;
        for ((position, voter), edges) in (0..).zip(&election.voters).zip(&own) {
            if let Some(entry) = entry_of(position, voter.stake, edges) {
                lost.remove(&entry.last);
                entry.shares.iter().for_each(|(target, _)| {
                    lost.remove(target);
                });
                groups[entry.shares.len()].push(entry);
            }
        }
        if let Some(member) = lost.first() {
            return Err(Error::Lost(*member));
        }
        let is_wide = groups[PLAIN_GROUPS..].iter().any(|group| !group.is_empty());
        Ok(Solution::from_bytes(spelled(&groups, is_wide)))
    }

    /// What the solution says of each voter, in its order.
    ///
    /// ```
    /// use npos_elections::{Error, Solution};
    ///
    /// assert_eq!(Solution::from_bytes(vec![0; 16]).entries(), Ok(vec![]));
    /// assert_eq!(Solution::from_bytes(vec![0; 15]).entries(), Err(Error::NoSolution));
    /// ```
    ///
    /// # Errors
    ///
    /// [`Error::NoSolution`] where the bytes spell none: [`check`] says where and why.
    pub fn entries(&self) -> Result<Vec<Entry>, Error> {
        let (bytes, count) = match self.as_bytes() {
            [WIDE_MARK, rest @ ..] => (rest, WIDE_GROUPS),
            plain => (plain, PLAIN_GROUPS),
        };
        let mut cursor = Cursor::new(bytes);
        let mut entries = Vec::new();
        for shares in 0..count {
            let group = cursor.list(|cursor| {
                Some(Entry {
                    voter: cursor.compact()?,
                    shares: (0..shares)
                        .map(|_| Some((cursor.compact()?, cursor.compact()?)))
                        .collect::<Option<_>>()?,
                    last: cursor.compact()?,
                })
            });
            let group = group.filter(|group| group.len() <= limits::VOTERS);
            entries.extend(group.ok_or(Error::NoSolution)?);
        }
        if cursor.is_done() {
            Ok(entries)
        } else {
            Err(Error::NoSolution)
        }
    }

    /// The score that the solution has on this election, which is what a claim has to be. The
    /// library says it.
    ///
    /// ```
    /// use npos_elections::{mine, Election, Miner};
    ///
    /// let mut election = Election::new(1);
    /// election.add_target([1; 32]);
    /// election.add_voter([2; 32], 60, &[0]);
    /// let mined = mine(&election, Miner::Seq)?;
    /// let solution = mined.solution.expect("what seq mines is packed");
    /// assert_eq!(solution.score(&election)?, mined.score);
    /// # Ok::<(), npos_elections::Error>(())
    /// ```
    ///
    /// # Errors
    ///
    /// [`Error::NoScore`] with the verdict where it expands to no weights, and what [`check`] says.
    pub fn score(&self, election: &Election) -> Result<Score, Error> {
        // no solution that gives something has this score, so the verdict tells the one it has
        let claim = Score::default();
        let work = Work::Packed {
            claim,
            solution: self.clone(),
        };
        match check(election, &work)? {
            Verdict::WrongScore(actual) => Ok(actual),
            Verdict::Yes | Verdict::Outweighed { .. } => Ok(claim),
            verdict => Err(Error::NoScore(verdict)),
        }
    }
}

/// The bytes of these groups.
fn spelled(groups: &[Vec<Entry>], is_wide: bool) -> Vec<u8> {
    let mut bytes = Vec::new();
    let count = if is_wide {
        bytes.push(WIDE_MARK);
        WIDE_GROUPS
    } else {
        PLAIN_GROUPS
    };
    for group in &groups[..count] {
        put_compact(&mut bytes, group.len() as u64);
        for entry in group {
            put_compact(&mut bytes, u64::from(entry.voter));
            for (target, share) in &entry.shares {
                put_compact(&mut bytes, u64::from(*target));
                put_compact(&mut bytes, u64::from(*share));
            }
            put_compact(&mut bytes, u64::from(entry.last));
        }
    }
    bytes
}

#[cfg(test)]
mod tests {
    use super::*;

    /// An election with one voter of this stake for so many targets.
    fn of_one(stake: u64, targets: u8) -> (Election, Vec<u16>) {
        let mut election = Election::new(1);
        let all: Vec<u16> = (1..=targets)
            .map(|byte| election.add_target([byte; 32]))
            .collect();
        election.add_voter([255; 32], stake, &all);
        (election, all)
    }

    #[test]
    fn a_member_without_a_share_is_lost() {
        let (election, all) = of_one(1_000_000, 2);
        let edge = |target, amount| Edge {
            voter: 0,
            target,
            amount,
        };
        let edges = [edge(0, 1), edge(1, 999_999)];
        assert_eq!(Solution::pack(&election, &all, &edges), Err(Error::Lost(0)));
        assert_eq!(
            Solution::pack(&election, &all, &[edge(0, 5), edge(0, 6)]),
            Err(Error::BadEdge(1))
        );
        assert_eq!(
            Solution::pack(&election, &all, &[edge(1, 1_000_001)]),
            Err(Error::BadEdge(0))
        );
    }

    #[test]
    fn seventeen_edges_are_wide() {
        let (election, all) = of_one(17, 17);
        let edges: Vec<Edge> = (all.iter())
            .map(|target| Edge {
                voter: 0,
                target: *target,
                amount: 1,
            })
            .collect();
        let solution = Solution::pack(&election, &all, &edges).expect("each has a share");
        assert_eq!(solution.as_bytes()[0], WIDE_MARK);
        let entries = solution.entries().expect("it was just spelled");
        assert_eq!(entries.len(), 1);
        assert!(entries[0].shares.iter().all(|(_, share)| *share == 3_855));
    }
}
