//! The texts of the program.

use crate::calls;
use crate::{Error, Miner};
use alloc::string::String;
use alloc::vec;
use alloc::vec::Vec;

/// What is to be reported of the bytes of a bundle.
///
/// ```
/// use npos_elections::{report, Task};
///
/// let text = report(Task::Check, b"")?.text;
/// assert_eq!(text, b"fault 0 short\n");
/// # Ok::<(), npos_elections::Error>(())
/// ```
#[derive(Clone, Copy, Debug, PartialEq, Eq, Hash)]
pub enum Task {
    /// The verdict on its work: `npos check`.
    Check,
    /// What a miner makes of it: `npos mine`.
    Mine(Miner),
    /// The bundle in JSON, written in SCALE: `npos pack`.
    Pack,
    /// The bundle in SCALE, written in JSON: `npos show`.
    Show,
}

impl Task {
    fn numbers(self) -> (u32, u32) {
        match self {
            Task::Check => (0, 0),
            Task::Mine(miner) => miner.numbers(),
            Task::Pack => (4, 0),
            Task::Show => (5, 0),
        }
    }
}

/// How the program would end.
///
/// ```
/// use npos_elections::Status;
///
/// assert_eq!(Status::BadInput.code(), 3);
/// ```
#[derive(Clone, Copy, Debug, PartialEq, Eq, Hash)]
pub enum Status {
    /// What was asked is done; where there is a verdict, it is Yes.
    Done,
    /// The verdict is not Yes, or a member is lost.
    No,
    /// The text is a fault line.
    BadInput,
}

impl Status {
    /// The exit status of the program.
    ///
    /// ```
    /// use npos_elections::Status;
    ///
    /// assert_eq!((Status::Done.code(), Status::No.code()), (0, 1));
    /// ```
    pub fn code(self) -> u8 {
        match self {
            Status::Done => 0,
            Status::No => 1,
            Status::BadInput => 3,
        }
    }
}

/// What the program would write, and how it would end.
///
/// ```
/// use npos_elections::{report, Bundle, Election, Status, Task, Work};
///
/// let mut election = Election::new(1);
/// election.add_target([1; 32]);
/// election.add_voter([2; 32], 60, &[0]);
/// let work = Work::Plain { committee: vec![0], edges: vec![] };
/// let report = report(Task::Check, &Bundle { election, work }.to_bytes())?;
/// assert_eq!((&report.text[..], report.status), (&b"verdict 0\n"[..], Status::Done));
/// # Ok::<(), npos_elections::Error>(())
/// ```
#[derive(Clone, Debug, PartialEq, Eq)]
pub struct Report {
    /// The text. It is UTF-8 but for [`Task::Pack`], whose text is the bytes of a bundle.
    pub text: Vec<u8>,
    /// How the program would end.
    pub status: Status,
}

/// Has the library write a text, into a larger buffer where the first one was too small.
fn text_of(write: impl Fn(&mut [u8]) -> (u32, usize)) -> Result<Report, Error> {
    let mut text = vec![0; 4096];
    let (mut answer, mut size) = write(&mut text);
    if answer == calls::SMALL {
        text.resize(size, 0);
        (answer, size) = write(&mut text);
    }
    text.truncate(size);
    let status = match answer {
        calls::DONE => Status::Done,
        calls::NO => Status::No,
        calls::BAD_INPUT => Status::BadInput,
        calls::UNKNOWN => return Err(Error::OutOfRange),
        calls::NO_MEMORY => return Err(Error::NoMemory),
        _ => return Err(Error::OtherLibrary),
    };
    Ok(Report { text, status })
}

/// Exactly what the program would write for the bytes of a bundle, and how it would end.
///
/// ```
/// use npos_elections::{report, Bundle, Status, Task};
///
/// let json = br#"{"seats": 1, "targets": [], "voters": [], "work": null}"#;
/// let packed = report(Task::Pack, json)?;
/// assert_eq!((&packed.text[..], packed.status), (&[4, 0, 0, 0][..], Status::Done));
/// # Ok::<(), npos_elections::Error>(())
/// ```
///
/// # Errors
///
/// [`Error::OutOfRange`] where the rounds of a miner are not 1 to 100, and [`Error::NoMemory`].
/// Faults of the bundle are no errors but texts.
pub fn report(task: Task, bundle: &[u8]) -> Result<Report, Error> {
    let (number, rounds) = task.numbers();
    text_of(|text| calls::report(number, rounds, bundle, text))
}

/// Exactly what `npos demo` would write of the election that a seed generates, for 1 to 16,384
/// voters and 1 to 512 seats.
///
/// ```
/// use npos_elections::{demo, Error};
///
/// let text = demo(7, 20, 3)?;
/// assert!(text.starts_with("demo targets 12 voters 20 total "));
/// assert_eq!(demo(7, 0, 3), Err(Error::OutOfRange));
/// # Ok::<(), Error>(())
/// ```
///
/// # Errors
///
/// [`Error::OutOfRange`] for other voters or seats, and [`Error::NoMemory`].
pub fn demo(seed: u64, voters: u32, seats: u32) -> Result<String, Error> {
    let report = text_of(|text| calls::demo(seed, voters, seats, text))?;
    String::from_utf8(report.text).map_err(|_| Error::OtherLibrary)
}
