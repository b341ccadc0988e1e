//! Verdicts and miners for the elections of Nominated Proof-of-Stake, by the proved library of
//! `npos`.
//!
//! Whoever makes a committee, [`check`] says whether it holds: where its verdict is
//! [`Verdict::Yes`], each group of voters that holds the stake of `r` seats and agrees on one
//! target outside has at least `r` members of the committee among the targets that it nominates. That is
//! proved of the library, which is written in Rattle (`crates/npos_c` of the repository), and not
//! of this crate: what stands here turns Rust values into the bytes that the library reads, and its
//! numbers into Rust values.
//!
//! ```
//! use npos_elections::{check, mine, Election, Miner, Verdict, Work};
//!
//! let mut election = Election::new(2);
//! let ann = election.add_target([1; 32]);
//! let bob = election.add_target([2; 32]);
//! let cid = election.add_target([3; 32]);
//! election.add_voter([4; 32], 60, &[ann, bob]);
//! election.add_voter([5; 32], 40, &[bob, cid]);
//!
//! let mined = mine(&election, Miner::Seq)?;
//! assert_eq!(mined.committee, [ann, bob]);
//! let solution = mined.solution.expect("what seq mines is packed");
//! let work = Work::Packed { claim: mined.score, solution };
//! assert_eq!(check(&election, &work)?, Verdict::Yes);
//! # Ok::<(), npos_elections::Error>(())
//! ```
//!
//! Stakes, supports and scores are in units of stake. Voters and targets are named by their
//! positions in their lists, from 0. An account is 32 bytes, as a chain has it. Each call may be
//! made from any thread. A call runs until it has its answer: who has a deadline makes it from a
//! thread of its own, and lets that thread go.
//!
//! Without the feature `std`, which is on unless it is turned off, the crate needs `alloc` alone.
#![no_std]
#![deny(missing_docs)]

extern crate alloc;
#[cfg(any(feature = "std", test))]
extern crate std;

mod calls;
mod election;
mod error;
mod judging;
pub mod limits;
mod mining;
mod packing;
mod report;
mod scale;
mod verdict;
mod work;

pub use election::{Bundle, Election, Voter};
pub use error::{ElectionFault, Error};
pub use judging::{judge, Denied, Judgement};
pub use limits::Limit;
pub use mining::{mine, Mined, Miner};
pub use packing::Entry;
pub use report::{demo, report, Report, Status, Task};
pub use verdict::{check, Verdict, Why};
pub use work::{Edge, Score, Solution, Work};
