//! Bundles in SCALE: `docs/RULES.md`, "The bundle that `npos check` and `npos mine` read".

use crate::limits::{self, Limit};
use crate::{Bundle, Edge, Election, Error, Score, Solution, Voter, Work};
use alloc::vec::Vec;

/// Appends a compact integer, in the fewest bytes that it has.
pub(crate) fn put_compact(bytes: &mut Vec<u8>, value: u64) {
    match value {
        0..=0x3F => bytes.push((value << 2) as u8),
        0x40..=0x3FFF => bytes.extend(((value << 2 | 1) as u16).to_le_bytes()),
        0x4000..=0x3FFF_FFFF => bytes.extend(((value << 2 | 2) as u32).to_le_bytes()),
        _ => {
            let count = (8 - value.leading_zeros() as usize / 8).max(4);
            bytes.push(((count - 4) << 2 | 3) as u8);
            bytes.extend(&value.to_le_bytes()[..count]);
        }
    }
}

fn put_voter(bytes: &mut Vec<u8>, voter: &Voter) {
    bytes.extend(voter.account);
    put_compact(bytes, voter.stake);
    put_compact(bytes, voter.votes.len() as u64);
    for vote in &voter.votes {
        put_compact(bytes, u64::from(*vote));
    }
}

fn put_work(bytes: &mut Vec<u8>, work: &Work) {
    match work {
        Work::Nothing => bytes.push(0),
        Work::Packed { claim, solution } => {
            bytes.push(1);
            put_compact(bytes, claim.minimal);
            put_compact(bytes, claim.sum);
            bytes.extend(claim.squares.to_le_bytes());
            put_compact(bytes, solution.as_bytes().len() as u64);
            bytes.extend(solution.as_bytes());
        }
        Work::Plain { committee, edges } => {
            bytes.push(2);
            put_compact(bytes, committee.len() as u64);
            for member in committee {
                put_compact(bytes, u64::from(*member));
            }
            put_compact(bytes, edges.len() as u64);
            for edge in edges {
                put_compact(bytes, u64::from(edge.voter));
                put_compact(bytes, u64::from(edge.target));
                put_compact(bytes, edge.amount);
            }
        }
    }
}

/// The bytes of an election with work on it, where the library takes as many of all of it.
pub(crate) fn bytes_within(election: &Election, work: &Work) -> Result<Vec<u8>, Error> {
    limits::look(election, work)?;
    let bytes = bundle_bytes(election, work);
    Limit::BundleBytes.allows(bytes.len())?;
    Ok(bytes)
}

/// The bytes of an election with work on it.
pub(crate) fn bundle_bytes(election: &Election, work: &Work) -> Vec<u8> {
    let mut bytes = Vec::new();
    put_compact(&mut bytes, u64::from(election.seats));
    put_compact(&mut bytes, election.targets.len() as u64);
    for target in &election.targets {
        bytes.extend(target);
    }
    put_compact(&mut bytes, election.voters.len() as u64);
    for voter in &election.voters {
        put_voter(&mut bytes, voter);
    }
    put_work(&mut bytes, work);
    bytes
}

/// The bytes that were not read yet. The library refuses what is no spelling, so that a reader here
/// may take longer spellings than it must; where bytes are missing it has nothing.
pub(crate) struct Cursor<'a> {
    left: &'a [u8],
}

impl<'a> Cursor<'a> {
    pub(crate) fn new(left: &'a [u8]) -> Cursor<'a> {
        Cursor { left }
    }

    pub(crate) fn is_done(&self) -> bool {
        self.left.is_empty()
    }

    fn take(&mut self, count: usize) -> Option<&'a [u8]> {
        if count > self.left.len() {
            return None;
        }
        let (taken, left) = self.left.split_at(count);
        self.left = left;
        Some(taken)
    }

    fn little_endian(&mut self, count: usize) -> Option<u128> {
        let mut bytes = [0; 16];
        bytes.get_mut(..count)?.copy_from_slice(self.take(count)?);
        Some(u128::from_le_bytes(bytes))
    }

    /// A compact integer, in as few bytes as it has.
    pub(crate) fn compact<T: TryFrom<u64>>(&mut self) -> Option<T> {
        let before = self.left.len();
        let first = *self.left.first()?;
        let value = match first & 3 {
            0 => self.little_endian(1)? >> 2,
            1 => self.little_endian(2)? >> 2,
            2 => self.little_endian(4)? >> 2,
            _ => {
                self.take(1)?;
                self.little_endian(usize::from(first >> 2) + 4)?
            }
        };
        let value = u64::try_from(value).ok()?;
        let mut fewest = Vec::new();
        put_compact(&mut fewest, value);
        if fewest.len() != before - self.left.len() {
            return None;
        }
        T::try_from(value).ok()
    }

    pub(crate) fn list<T>(&mut self, item: impl Fn(&mut Self) -> Option<T>) -> Option<Vec<T>> {
        let count: u32 = self.compact()?;
        (0..count).map(|_| item(self)).collect()
    }

    fn account(&mut self) -> Option<[u8; 32]> {
        self.take(32)?.try_into().ok()
    }

    fn voter(&mut self) -> Option<Voter> {
        Some(Voter {
            account: self.account()?,
            stake: self.compact()?,
            votes: self.list(Self::compact)?,
        })
    }

    fn edge(&mut self) -> Option<Edge> {
        Some(Edge {
            voter: self.compact()?,
            target: self.compact()?,
            amount: self.compact()?,
        })
    }

    fn work(&mut self) -> Option<Work> {
        match self.take(1)?[0] {
            0 => Some(Work::Nothing),
            1 => {
                let claim = Score {
                    minimal: self.compact()?,
                    sum: self.compact()?,
                    squares: self.little_endian(16)?,
                };
                let size: u32 = self.compact()?;
                let solution = Solution::from_bytes(self.take(size as usize)?.to_vec());
                Some(Work::Packed { claim, solution })
            }
            2 => Some(Work::Plain {
                committee: self.list(Self::compact)?,
                edges: self.list(Self::edge)?,
            }),
            _ => None,
        }
    }
}

/// The election and the work that these bytes spell.
pub(crate) fn bundle_of(bytes: &[u8]) -> Option<Bundle> {
    let mut cursor = Cursor::new(bytes);
    let election = Election {
        seats: cursor.compact()?,
        targets: cursor.list(Cursor::account)?,
        voters: cursor.list(Cursor::voter)?,
    };
    let work = cursor.work()?;
    cursor.is_done().then_some(Bundle { election, work })
}

#[cfg(test)]
mod tests {
    use super::*;
    use alloc::vec;

    #[test]
    fn compact_integers_have_the_fewest_bytes() {
        let spelled = |value| {
            let mut bytes = Vec::new();
            put_compact(&mut bytes, value);
            bytes
        };
        assert_eq!(spelled(0), [0]);
        assert_eq!(spelled(63), [0xFC]);
        assert_eq!(spelled(64), [0x01, 0x01]);
        assert_eq!(spelled(16_383), [0xFD, 0xFF]);
        assert_eq!(spelled(16_384), [0x02, 0x00, 0x01, 0x00]);
        assert_eq!(spelled((1 << 30) - 1), [0xFE, 0xFF, 0xFF, 0xFF]);
        assert_eq!(spelled(1 << 30), [0x03, 0, 0, 0, 0x40]);
        assert_eq!(spelled(1 << 32), [0x07, 0, 0, 0, 0, 1]);
        assert_eq!(
            spelled(u64::MAX),
            [0x13, 255, 255, 255, 255, 255, 255, 255, 255]
        );
    }

    #[test]
    fn a_compact_integer_is_read_back() {
        for shift in 0..64 {
            for value in [1u64 << shift, (1 << shift) - 1, (1 << shift) + 1] {
                let mut bytes = Vec::new();
                put_compact(&mut bytes, value);
                let mut cursor = Cursor { left: &bytes };
                assert_eq!(cursor.compact::<u64>(), Some(value));
                assert!(cursor.left.is_empty());
            }
        }
    }

    #[test]
    fn bytes_that_end_early_are_nothing() {
        let mut election = Election::new(1);
        election.add_target([1; 32]);
        election.add_voter([2; 32], 70_000, &[0]);
        let work = Work::Plain {
            committee: vec![0],
            edges: vec![Edge {
                voter: 0,
                target: 0,
                amount: 70_000,
            }],
        };
        let bytes = bundle_bytes(&election, &work);
        assert_eq!(bundle_of(&bytes), Some(Bundle { election, work }));
        for count in 0..bytes.len() {
            assert_eq!(bundle_of(&bytes[..count]), None);
        }
    }
}
