//! What the tests and the benchmark share.

use npos_elections::Election;
use std::io::Write;
use std::path::PathBuf;
use std::process::{Command, Stdio};

/// The proved program. `NPOS_PROGRAM` names another one.
pub fn program() -> PathBuf {
    let made = concat!(env!("CARGO_MANIFEST_DIR"), "/../../crates/npos/out/npos");
    let program = std::env::var_os("NPOS_PROGRAM").map_or(PathBuf::from(made), PathBuf::from);
    assert!(
        program.is_file(),
        "there is no program at {}: run `./npos` at the top of the repository, which proves and \
         builds it, or set NPOS_PROGRAM",
        program.display()
    );
    program
}

/// What the program writes for these words and this input, and its exit status.
pub fn run(program: &PathBuf, words: &[&str], input: &[u8]) -> (Vec<u8>, i32) {
    let mut child = Command::new(program)
        .args(words)
        .stdin(Stdio::piped())
        .stdout(Stdio::piped())
        .spawn()
        .expect("the program starts");
    // the program reads its whole input before it writes, and may end before it read all
    let _ = child
        .stdin
        .take()
        .expect("it has an input")
        .write_all(input);
    let output = child.wait_with_output().expect("the program ends");
    (output.stdout, output.status.code().unwrap_or(-1))
}

/// The draws of the stated generator.
pub struct Draws {
    pub state: u64,
}

impl Draws {
    pub fn draw(&mut self) -> u64 {
        self.state =
            (self.state.wrapping_mul(6364136223846793005)).wrapping_add(1442695040888963407);
        self.state >> 33
    }
}

/// An account with these two halves.
fn account(high: u128, low: u128) -> [u8; 32] {
    let mut bytes = [0; 32];
    bytes[..16].copy_from_slice(&high.to_be_bytes());
    bytes[16..].copy_from_slice(&low.to_be_bytes());
    bytes
}

/// The election that `npos demo` generates: `docs/RULES.md`, "Generated elections".
pub fn generated(seed: u64, voters: u32, seats: u32) -> Election {
    let mut draws = Draws { state: seed };
    let mut election = Election::new(seats);
    let targets = 4 * u64::from(seats);
    for target in 0..targets {
        election.add_target(account(0, u128::from(target) + 1));
    }
    for voter in 0..voters {
        let stake = 1_000_000 + draws.draw() % 1_000_000;
        let count = 1 + draws.draw() % targets.min(16);
        let first = draws.draw() % targets;
        let votes: Vec<u16> = (0..count).map(|k| ((first + k) % targets) as u16).collect();
        election.add_voter(account(1, u128::from(voter) + 1), stake, &votes);
    }
    election
}
