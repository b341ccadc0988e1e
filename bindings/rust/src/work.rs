//! Work on an election.

use alloc::vec;
use alloc::vec::Vec;
use core::cmp::Ordering;
use core::fmt;

/// A score: by it chains compare what was handed in. A greater score is a better one: by a greater
/// least support, at equal ones by a greater sum, and at equal sums by smaller squares.
///
/// ```
/// use npos_elections::Score;
///
/// let even = Score { minimal: 50, sum: 100, squares: 5_000 };
/// let uneven = Score { minimal: 40, sum: 100, squares: 5_200 };
/// assert!(even > uneven);
/// assert_eq!(even.to_string(), "50 100 5000");
/// ```
#[derive(Clone, Copy, Debug, Default, PartialEq, Eq, Hash)]
pub struct Score {
    /// The least support of a member, in units.
    pub minimal: u64,
    /// The sum of the members' supports, in units.
    pub sum: u64,
    /// The sum of the squares of the members' supports.
    pub squares: u128,
}

impl Score {
    /// The score of a committee with these edges, which must go to its members. The support of a
    /// member is the sum of the amounts of the edges to it; sums that are too large stay at the
    /// greatest number.
    ///
    /// ```
    /// use npos_elections::{Edge, Score};
    ///
    /// let edges = [
    ///     Edge { voter: 0, target: 4, amount: 60 },
    ///     Edge { voter: 1, target: 7, amount: 40 },
    /// ];
    /// let score = Score { minimal: 40, sum: 100, squares: 5_200 };
    /// assert_eq!(Score::of(&[4, 7], &edges), score);
    /// ```
    pub fn of(committee: &[u16], edges: &[Edge]) -> Score {
        let mut supports = vec![0u64; 1 << 16];
        for edge in edges {
            let support = &mut supports[usize::from(edge.target)];
            *support = support.saturating_add(edge.amount);
        }
        let mut score = Score {
            minimal: u64::MAX,
            sum: 0,
            squares: 0,
        };
        for member in committee {
            let support = supports[usize::from(*member)];
            score.minimal = score.minimal.min(support);
            score.sum = score.sum.saturating_add(support);
            score.squares = score
                .squares
                .saturating_add(u128::from(support) * u128::from(support));
        }
        score
    }
}

impl Ord for Score {
    fn cmp(&self, other: &Score) -> Ordering {
        let by_squares = other.squares.cmp(&self.squares);
        (self.minimal.cmp(&other.minimal))
            .then(self.sum.cmp(&other.sum))
            .then(by_squares)
    }
}

impl PartialOrd for Score {
    fn partial_cmp(&self, other: &Score) -> Option<Ordering> {
        Some(self.cmp(other))
    }
}

impl fmt::Display for Score {
    fn fmt(&self, f: &mut fmt::Formatter<'_>) -> fmt::Result {
        write!(f, "{} {} {}", self.minimal, self.sum, self.squares)
    }
}

/// The bytes of a packed solution, as a chain takes them.
///
/// ```
/// use npos_elections::Solution;
///
/// let solution = Solution::from_bytes(vec![0; 16]);
/// assert_eq!(solution.as_bytes().len(), 16);
/// assert_eq!(solution.to_string(), "00".repeat(16));
/// ```
#[derive(Clone, Debug, Default, PartialEq, Eq, Hash)]
pub struct Solution {
    bytes: Vec<u8>,
}

impl Solution {
    /// The solution of these bytes, whatever they are: [`check`](crate::check) says whether they
    /// spell one.
    ///
    /// ```
    /// use npos_elections::Solution;
    ///
    /// assert_eq!(Solution::from_bytes(vec![1, 2]).into_bytes(), [1, 2]);
    /// ```
    pub fn from_bytes(bytes: Vec<u8>) -> Solution {
        Solution { bytes }
    }

    /// The bytes.
    ///
    /// ```
    /// use npos_elections::Solution;
    ///
    /// assert_eq!(Solution::from_bytes(vec![1, 2]).as_bytes(), [1, 2]);
    /// ```
    pub fn as_bytes(&self) -> &[u8] {
        &self.bytes
    }

    /// The bytes, to be kept.
    ///
    /// ```
    /// use npos_elections::Solution;
    ///
    /// assert_eq!(Solution::from_bytes(vec![1, 2]).into_bytes(), [1, 2]);
    /// ```
    pub fn into_bytes(self) -> Vec<u8> {
        self.bytes
    }
}

impl fmt::Display for Solution {
    /// The bytes in lower-case hexadecimal.
    fn fmt(&self, f: &mut fmt::Formatter<'_>) -> fmt::Result {
        self.bytes
            .iter()
            .try_for_each(|byte| write!(f, "{byte:02x}"))
    }
}

/// One edge of plain weights: a voter gives so much of its stake to a target.
///
/// ```
/// use npos_elections::Edge;
///
/// let edge = Edge { voter: 0, target: 1, amount: 60 };
/// assert_eq!(edge.amount, 60);
/// ```
#[derive(Clone, Copy, Debug, PartialEq, Eq, Hash)]
pub struct Edge {
    /// The position of the voter.
    pub voter: u32,
    /// The position of the target.
    pub target: u16,
    /// How much it gives, in units.
    pub amount: u64,
}

/// What was done on an election.
///
/// ```
/// use npos_elections::{check, Edge, Election, Verdict, Work};
///
/// let mut election = Election::new(1);
/// let target = election.add_target([1; 32]);
/// election.add_voter([2; 32], 60, &[target]);
/// let work = Work::Plain {
///     committee: vec![target],
///     edges: vec![Edge { voter: 0, target, amount: 60 }],
/// };
/// assert_eq!(check(&election, &work)?, Verdict::Yes);
/// # Ok::<(), npos_elections::Error>(())
/// ```
#[derive(Clone, Debug, PartialEq, Eq)]
pub enum Work {
    /// Nothing yet.
    Nothing,
    /// A packed solution with the score that it claims.
    Packed {
        /// The score that the solution is to have.
        claim: Score,
        /// Its bytes.
        solution: Solution,
    },
    /// A committee with plain weights.
    Plain {
        /// The positions of the members.
        committee: Vec<u16>,
        /// How much each voter gives to which member.
        edges: Vec<Edge>,
    },
}

#[cfg(test)]
mod tests {
    use super::*;
    use alloc::string::ToString;

    #[test]
    fn scores_are_compared_part_by_part() {
        let score = |minimal, sum, squares| Score {
            minimal,
            sum,
            squares,
        };
        assert!(score(2, 0, 9) > score(1, 9, 0));
        assert!(score(1, 3, 9) > score(1, 2, 0));
        assert!(score(1, 2, 3) > score(1, 2, 4));
        assert_eq!(score(1, 2, 3).cmp(&score(1, 2, 3)), Ordering::Equal);
    }

    #[test]
    fn an_edge_to_no_member_counts_for_no_score() {
        let edges = [
            Edge {
                voter: 0,
                target: 1,
                amount: 5,
            },
            Edge {
                voter: 0,
                target: 2,
                amount: 3,
            },
        ];
        assert_eq!(Score::of(&[1], &edges).to_string(), "5 5 25");
    }
}
