//! The library against the program: equal texts and equal statuses, over the bundles of `examples/`
//! and over generated ones, and the typed calls against the texts.

mod common;

use common::{generated, program, run, Draws};
use npos_elections::{
    check, demo, mine, report, Bundle, Edge, Election, Error, Miner, Score, Solution, Task,
    Verdict, Work,
};
use std::fs;
use std::path::{Path, PathBuf};
use std::process::Command;
use std::sync::atomic::{AtomicUsize, Ordering};
use std::thread;

/// The tasks, with the words that ask the program for them.
const TASKS: [(Task, &[&str]); 7] = [
    (Task::Check, &["check"]),
    (Task::Mine(Miner::Fill), &["mine", "--miner", "fill"]),
    (Task::Mine(Miner::Seq), &["mine", "--miner", "seq"]),
    (
        Task::Mine(Miner::Mms { rounds: 8 }),
        &["mine", "--miner", "mms"],
    ),
    (
        Task::Mine(Miner::Mms { rounds: 3 }),
        &["mine", "--miner", "mms", "--rounds", "3"],
    ),
    (Task::Show, &["show"]),
    (Task::Pack, &["pack"]),
];

/// Compares one task on these bytes, and gives the text.
fn compare(program: &PathBuf, task: Task, words: &[&str], bytes: &[u8]) -> Vec<u8> {
    let (text, status) = run(program, words, bytes);
    let told = report(task, bytes).expect("there is memory");
    assert!(
        told.text == text && i32::from(told.status.code()) == status,
        "{words:?}: the program wrote {:?} with status {status}, and the library {:?} with {:?}",
        String::from_utf8_lossy(&text),
        String::from_utf8_lossy(&told.text),
        told.status,
    );
    text
}

/// Compares all tasks on these bytes, and that of packing on what they are shown as.
fn compare_all(program: &PathBuf, bytes: &[u8]) {
    for (task, words) in TASKS {
        let text = compare(program, task, words, bytes);
        if task == Task::Show {
            compare(program, Task::Pack, &["pack"], &text);
        }
    }
}

/// Does the work of each place once, in as many threads as there are processors: calls may be made
/// from all of them at once.
fn in_threads(count: usize, work: impl Fn(usize) + Sync) {
    let next = AtomicUsize::new(0);
    let threads = thread::available_parallelism().map_or(2, usize::from);
    thread::scope(|scope| {
        for _ in 0..threads {
            scope.spawn(|| loop {
                let place = next.fetch_add(1, Ordering::Relaxed);
                if place >= count {
                    break;
                }
                work(place);
            });
        }
    });
}

/// The files below the examples with one of these endings, in order.
fn examples_with(ending: &str) -> Vec<PathBuf> {
    let top = Path::new(env!("CARGO_MANIFEST_DIR")).join("../../examples");
    let mut files = Vec::new();
    for folder in fs::read_dir(&top)
        .expect("the examples stand there")
        .flatten()
    {
        for file in fs::read_dir(folder.path()).into_iter().flatten().flatten() {
            if file.path().extension().is_some_and(|it| it == ending) {
                files.push(file.path());
            }
        }
    }
    files.sort();
    files
}

/// The bytes of a readable example, by the script of the examples; None for a text of another kind.
fn encoded(path: &Path) -> Option<Vec<u8>> {
    let script = Path::new(env!("CARGO_MANIFEST_DIR")).join("../../examples/encode");
    let text = fs::File::open(path).expect("the example opens");
    let done = (Command::new("python3").arg(script).stdin(text))
        .output()
        .expect("python3 runs");
    done.status.success().then_some(done.stdout)
}

#[test]
fn examples_are_reported_alike() {
    let program = program();
    let texts = [examples_with("txt"), examples_with("bundle")].concat();
    // streams are for a replay; what is no bundle is reported as a fault of one
    let mut inputs: Vec<Vec<u8>> = texts.iter().filter_map(|path| encoded(path)).collect();
    assert!(inputs.len() >= 50, "the examples are encoded");
    for path in texts.iter().chain(&examples_with("json")) {
        inputs.push(fs::read(path).expect("the example is read"));
    }
    in_threads(inputs.len(), |place| compare_all(&program, &inputs[place]));
}

/// Some work on an election, of all kinds, good and bad, as the draws have it.
fn some_work(election: &Election, draws: &mut Draws) -> Work {
    let kind = draws.draw() % 6;
    if kind == 0 {
        return Work::Nothing;
    }
    if kind == 1 {
        let voters = election.voters.len() as u64;
        let committee: Vec<u16> = (0..election.seats as u16).collect();
        let edges = (0..draws.draw() % 40)
            .map(|_| {
                let voter = (draws.draw() % voters) as u32;
                let votes = &election.voters[voter as usize].votes;
                let target = votes[(draws.draw() % votes.len() as u64) as usize];
                let amount = draws.draw() % 400_000;
                Edge {
                    voter,
                    target,
                    amount,
                }
            })
            .collect();
        return Work::Plain { committee, edges };
    }
    let Ok(mined) = mine(
        election,
        if kind == 2 {
            Miner::Seq
        } else {
            Miner::default()
        },
    ) else {
        return Work::Nothing;
    };
    let mut claim = mined.score;
    let mut bytes = mined.solution.expect("it is packed").into_bytes();
    if kind == 4 {
        claim.sum += 1;
    }
    if kind == 5 {
        let place = (draws.draw() % bytes.len() as u64) as usize;
        bytes[place] = bytes[place].wrapping_add(draws.draw() as u8);
    }
    let solution = Solution::from_bytes(bytes);
    Work::Packed { claim, solution }
}

/// A generated bundle. Some have an election with a fault, and some bytes that are no bundle.
fn some_bundle(seed: u64) -> (Election, Work, Vec<u8>) {
    let mut draws = Draws { state: seed };
    let seats = 1 + draws.draw() % 6;
    let voters = 1 + draws.draw() % 40;
    let mut election = generated(seed, voters as u32, seats as u32);
    let work = some_work(&election, &mut draws);
    let place = (draws.draw() % voters) as usize;
    match draws.draw() % 16 {
        0 => election.seats = 600,
        1 => election.voters[place].stake = 0,
        2 => election.voters[place].votes.push(2_000),
        3 => election.voters[place].account = election.voters[0].account,
        4 => election.seats = election.targets.len() as u32 + 1,
        _ => {}
    }
    let bundle = Bundle { election, work };
    let mut bytes = bundle.to_bytes();
    match draws.draw() % 16 {
        0 => bytes.truncate((draws.draw() % bytes.len() as u64) as usize),
        1 => bytes.push(0),
        _ => {}
    }
    (bundle.election, bundle.work, bytes)
}

#[test]
fn generated_bundles_are_reported_alike() {
    let program = program();
    in_threads(300, |place| {
        let (_, _, bytes) = some_bundle(1_000 + place as u64);
        compare_all(&program, &bytes);
    });
}

#[test]
fn generated_elections_are_reported_alike() {
    let program = program();
    in_threads(60, |place| {
        let seed = place as u64 * 0x9E37_79B9;
        let (voters, seats) = (1 + place as u32 % 50, 1 + place as u32 % 9);
        let numbers = [seed.to_string(), voters.to_string(), seats.to_string()];
        let words = [
            "demo",
            "--seed",
            &numbers[0],
            "--voters",
            &numbers[1],
            "--seats",
            &numbers[2],
        ];
        let (text, status) = run(&program, &words, b"");
        assert_eq!(
            (demo(seed, voters, seats).unwrap().into_bytes(), 0),
            (text, status)
        );
    });
}

/// The last line of a report, without its end.
fn last_line(text: &[u8]) -> String {
    let text = String::from_utf8(text.to_vec()).expect("it is text");
    text.trim_end().lines().last().unwrap_or("").to_string()
}

/// The line of the program where there is an error in place of a verdict.
fn fault_line(error: &Error, bytes: &[u8]) -> Option<String> {
    match error {
        Error::NoWork => Some(format!("fault {} nosolution", bytes.len() - 1)),
        Error::Refused { at, why } => Some(format!("fault {at} {why}")),
        Error::Lost(member) => Some(format!("lost {member}")),
        _ => None,
    }
}

/// What was mined, as the program tells it.
fn mined_text(election: &Election, miner: Miner) -> Result<String, Error> {
    let mined = mine(election, miner)?;
    let mut text = format!("score {}\n", mined.score);
    if let Some(solution) = mined.solution {
        text += &format!("solution {solution}\n");
    }
    let accounts: Vec<String> = (mined.committee.iter())
        .map(|member| Solution::from_bytes(election.targets[usize::from(*member)].to_vec()))
        .map(|account| format!("member {account}"))
        .collect();
    Ok(format!(
        "{}\n{text}{}\n",
        accounts.join("\n"),
        mined.verdict
    ))
}

/// A report without the supports of members.
fn without_supports(text: &[u8]) -> String {
    let text = String::from_utf8(text.to_vec()).expect("it is text");
    text.lines()
        .map(|line| match line.strip_prefix("member ") {
            Some(rest) => format!("member {}\n", &rest[..64]),
            None => format!("{line}\n"),
        })
        .collect()
}

#[test]
fn typed_calls_say_what_the_texts_say() {
    in_threads(300, |place| {
        let (election, work, _) = some_bundle(5_000 + place as u64);
        let bundle = Bundle { election, work };
        let bytes = bundle.to_bytes();
        let text = report(Task::Check, &bytes).unwrap().text;
        match check(&bundle.election, &bundle.work) {
            Ok(verdict) => assert_eq!(last_line(&text), verdict.to_string()),
            Err(Error::Unelectable(_)) => {
                assert!(last_line(&text).starts_with("fault 0 snapshot "))
            }
            Err(error) => assert_eq!(Some(last_line(&text)), fault_line(&error, &bytes)),
        }
        for miner in [Miner::Fill, Miner::Seq, Miner::default()] {
            let text = report(Task::Mine(miner), &bytes).unwrap().text;
            match mined_text(&bundle.election, miner) {
                Ok(told) => assert_eq!(without_supports(&text), told),
                Err(Error::Unelectable(_)) => assert!(last_line(&text).starts_with("fault 0 snap")),
                Err(error) => assert_eq!(Some(last_line(&text)), fault_line(&error, &bytes)),
            }
        }
        if let Ok(text) = bundle.to_json() {
            assert_eq!(Bundle::from_json(&text).as_ref(), Ok(&bundle));
        }
    });
}

#[test]
fn the_generator_is_that_of_the_demo() {
    for seed in [0, 7, u64::MAX] {
        let election = generated(seed, 33, 5);
        let text = demo(seed, 33, 5).unwrap();
        let size = format!("demo targets 20 voters 33 total {}\n", election.total());
        assert!(text.starts_with(&size), "{text} begins with {size}");
        let mined = mine(&election, Miner::Fill).unwrap();
        let line = format!("fill score {} {}\n", mined.score, mined.verdict);
        assert!(text.contains(&line), "{text} has {line}");
        let score: Score = mine(&election, Miner::Seq).unwrap().score;
        assert!(text.contains(&format!("seq score {score} ")));
    }
}

/// What is sent to another thread, or looked at from several, says so.
#[test]
fn values_go_from_thread_to_thread() {
    fn goes<T: Send + Sync>() {}
    goes::<Bundle>();
    goes::<Error>();
    goes::<npos_elections::Entry>();
    goes::<npos_elections::Limit>();
    goes::<npos_elections::Mined>();
    goes::<npos_elections::Report>();
    goes::<npos_elections::Verdict>();
}

/// What each miner packed is told entry by entry, and packed again from these weights to a solution
/// with the same members that the library takes.
#[test]
fn solutions_are_told_and_packed_again() {
    for seed in 0..40 {
        let election = generated(seed, 60, 4);
        let Ok(mined) = mine(&election, Miner::Seq) else {
            continue;
        };
        let Some(solution) = mined.solution else {
            panic!("what seq mines is packed");
        };
        assert_eq!(solution.score(&election), Ok(mined.score));
        let edges: Vec<Edge> = (solution.entries().expect("the library spelled it").iter())
            .flat_map(|entry| entry.edges(election.voters[entry.voter as usize].stake))
            .filter(|edge| edge.amount > 0)
            .collect();
        assert_eq!(Score::of(&mined.committee, &edges), mined.score);
        let again = Solution::pack(&election, &mined.committee, &edges).expect("no member is lost");
        let claim = again.score(&election).expect("it expands");
        let verdict = check(
            &election,
            &Work::Packed {
                claim,
                solution: again,
            },
        );
        assert!(
            matches!(verdict, Ok(Verdict::Yes | Verdict::Outweighed { .. })),
            "{verdict:?}"
        );
    }
}
