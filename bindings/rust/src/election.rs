//! Elections.

use crate::calls;
use crate::report::{report, Status, Task};
use crate::scale::{bundle_bytes, bundle_of, bytes_within};
use crate::{Error, Work};
use alloc::string::String;
use alloc::string::ToString;
use alloc::vec::Vec;

/// One voter of an election.
///
/// ```
/// use npos_elections::Voter;
///
/// let voter = Voter { account: [7; 32], stake: 1_000, votes: vec![0, 3] };
/// assert_eq!(voter.votes.len(), 2);
/// ```
#[derive(Clone, Debug, PartialEq, Eq)]
pub struct Voter {
    /// Its account. No two voters have one.
    pub account: [u8; 32],
    /// Its stake in units, above 0.
    pub stake: u64,
    /// The positions of the 1 to 24 different targets that it nominates.
    pub votes: Vec<u16>,
}

/// An election: seats, and who may get them by whose stake.
///
/// Any values can stand here; whether they are an election is for [`check`](crate::check) and
/// [`mine`](crate::mine) to say, by [`Error::Unelectable`]. An election has 1 to 512 seats, as many
/// targets as seats at least and 2,048 at most, at most 16,384 voters, and stakes that sum to the
/// square of the seats at least and to less than 2^64.
///
/// ```
/// use npos_elections::{mine, Election, Error, ElectionFault, Miner, Voter};
///
/// let election = Election {
///     seats: 1,
///     targets: vec![[1; 32], [2; 32]],
///     voters: vec![Voter { account: [3; 32], stake: 10, votes: vec![1] }],
/// };
/// assert_eq!(mine(&election, Miner::Fill)?.committee, [1]);
///
/// let poor = Election { seats: 2, ..election };
/// let fault = ElectionFault::ZeroStake(0);
/// let none = Election { voters: vec![Voter { account: [3; 32], stake: 0, votes: vec![1] }], ..poor };
/// assert_eq!(mine(&none, Miner::Fill), Err(Error::Unelectable(fault)));
/// # Ok::<(), Error>(())
/// ```
#[derive(Clone, Debug, Default, PartialEq, Eq)]
pub struct Election {
    /// How many members the committee has.
    pub seats: u32,
    /// The accounts that can be elected, all different. The position of a target is its place here.
    pub targets: Vec<[u8; 32]>,
    /// Who votes. The position of a voter is its place here.
    pub voters: Vec<Voter>,
}

impl Election {
    /// An election for so many seats, with no target and no voter yet.
    ///
    /// ```
    /// use npos_elections::Election;
    ///
    /// assert_eq!(Election::new(3).seats, 3);
    /// ```
    pub fn new(seats: u32) -> Election {
        Election {
            seats,
            ..Election::default()
        }
    }

    /// Adds a target, and gives its position.
    ///
    /// ```
    /// use npos_elections::Election;
    ///
    /// let mut election = Election::new(1);
    /// assert_eq!(election.add_target([1; 32]), 0);
    /// assert_eq!(election.add_target([2; 32]), 1);
    /// ```
    ///
    /// # Panics
    ///
    /// Where 65,536 targets stand already, of which no election has so many.
    pub fn add_target(&mut self, account: [u8; 32]) -> u16 {
        let position = u16::try_from(self.targets.len()).expect("an election has few targets");
        self.targets.push(account);
        position
    }

    /// Adds a voter with its stake in units and the positions of the targets that it nominates.
    ///
    /// ```
    /// use npos_elections::Election;
    ///
    /// let mut election = Election::new(1);
    /// let target = election.add_target([1; 32]);
    /// election.add_voter([2; 32], 500, &[target]);
    /// assert_eq!(election.voters[0].stake, 500);
    /// ```
    pub fn add_voter(&mut self, account: [u8; 32], stake: u64, votes: &[u16]) {
        self.voters.push(Voter {
            account,
            stake,
            votes: votes.to_vec(),
        });
    }

    /// The sum of all stakes, in units.
    ///
    /// ```
    /// use npos_elections::Election;
    ///
    /// let mut election = Election::new(1);
    /// election.add_voter([2; 32], 500, &[0]);
    /// election.add_voter([3; 32], 700, &[0]);
    /// assert_eq!(election.total(), 1_200);
    /// ```
    pub fn total(&self) -> u128 {
        self.voters
            .iter()
            .map(|voter| u128::from(voter.stake))
            .sum()
    }
}

/// An election with work on it: what the bytes of a bundle, or a text of JSON, stand for.
///
/// ```
/// use npos_elections::{Bundle, Election, Work};
///
/// let mut election = Election::new(1);
/// election.add_target([1; 32]);
/// election.add_voter([2; 32], 500, &[0]);
/// let bundle = Bundle { election, work: Work::Nothing };
/// assert_eq!(Bundle::from_json(&bundle.to_json()?)?, bundle);
/// # Ok::<(), npos_elections::Error>(())
/// ```
#[derive(Clone, Debug, PartialEq, Eq)]
pub struct Bundle {
    /// The election.
    pub election: Election,
    /// What was done on it.
    pub work: Work,
}

impl Bundle {
    /// The bytes of the bundle in SCALE, as `npos check` and `npos mine` read them.
    ///
    /// ```
    /// use npos_elections::{Bundle, Election, Work};
    ///
    /// let bundle = Bundle { election: Election::new(1), work: Work::Nothing };
    /// assert_eq!(bundle.to_bytes(), [4, 0, 0, 0]);
    /// ```
    pub fn to_bytes(&self) -> Vec<u8> {
        bundle_bytes(&self.election, &self.work)
    }

    /// The bundle that bytes in SCALE spell, as `npos pack` writes them. The library says whether they
    /// do. Whether the election has a fault is not looked at.
    ///
    /// ```
    /// use npos_elections::{Bundle, Error, Why};
    ///
    /// assert_eq!(Bundle::from_bytes(&[4, 0, 0, 0])?.election.seats, 1);
    /// let short = Error::Refused { at: 3, why: Why::Short };
    /// assert_eq!(Bundle::from_bytes(&[4, 0, 0]), Err(short));
    /// # Ok::<(), Error>(())
    /// ```
    ///
    /// # Errors
    ///
    /// [`Error::Refused`] with the place of the first part that is refused,
    /// [`Error::OverLimit`] for too many bytes, or [`Error::NoMemory`].
    pub fn from_bytes(bytes: &[u8]) -> Result<Bundle, Error> {
        let (answer, finding) = calls::check(bytes);
        if matches!(answer, calls::DONE | calls::NO | calls::BAD_INPUT) {
            if let Some(bundle) = bundle_of(bytes) {
                return Ok(bundle);
            }
        }
        Err(Error::of(answer, finding))
    }

    /// The bundle that a text of JSON stands for, as `npos show` writes it. The library reads it.
    /// Whether the election has a fault is not looked at.
    ///
    /// ```
    /// use npos_elections::{Bundle, Error};
    ///
    /// let text = r#"{"seats": 1, "targets": [], "voters": [], "work": null}"#;
    /// assert_eq!(Bundle::from_json(text)?.election.seats, 1);
    /// assert_eq!(Bundle::from_json("{"), Err(Error::Json("fault 0 json".to_string())));
    /// # Ok::<(), Error>(())
    /// ```
    ///
    /// # Errors
    ///
    /// [`Error::Json`] with the line that `npos pack` would write, or [`Error::NoMemory`].
    pub fn from_json(text: &str) -> Result<Bundle, Error> {
        let packed = report(Task::Pack, text.as_bytes())?;
        match packed.status {
            Status::Done => bundle_of(&packed.text).ok_or(Error::OtherLibrary),
            _ => Err(Error::Json(line_of(packed.text))),
        }
    }

    /// The bundle as a line of JSON. The library writes it.
    ///
    /// ```
    /// use npos_elections::{Bundle, Election, Work};
    ///
    /// let bundle = Bundle { election: Election::new(1), work: Work::Nothing };
    /// let text = "{\"seats\":1,\"targets\":[],\"voters\":[],\"work\":null}\n";
    /// assert_eq!(bundle.to_json()?, text);
    /// # Ok::<(), npos_elections::Error>(())
    /// ```
    ///
    /// # Errors
    ///
    /// [`Error::OverLimit`] where a list is too long for a bundle, or [`Error::NoMemory`].
    pub fn to_json(&self) -> Result<String, Error> {
        let shown = report(Task::Show, &bytes_within(&self.election, &self.work)?)?;
        match shown.status {
            Status::Done => String::from_utf8(shown.text).map_err(|_| Error::OtherLibrary),
            _ => Err(Error::OtherLibrary),
        }
    }
}

/// A line without its end.
fn line_of(text: Vec<u8>) -> String {
    String::from_utf8_lossy(&text).trim_end().to_string()
}
