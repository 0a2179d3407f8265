//! Runs the proved code beside the reference on seeded cases: the programs `tryreq` and `trycalls`, the agent's C call, and the
//! benchmark's hand-written implementation. The last line is 'N passed, M failed'; the exit status is 0 only where M is 0.
//!
//!     differential [--rounds N] [--seed S] [--part tryreq|trycalls|walks|agent|handwritten]... [--tryreq PATH] [--trycalls PATH]

mod agent;
mod by_hand;
mod explanations;
mod programs;
mod sets;
mod shrink;
mod tally;
mod trycalls;
mod tryreq;
mod walks;

use beside::random::Random;
use beside::reference::lines;
use programs::Program;
use std::path::{Path, PathBuf};
use std::process::ExitCode;
use std::time::Instant;
use tally::{Tally, IMAGE_PLACES};

const PARTS: [&str; 5] = ["handwritten", "agent", "tryreq", "trycalls", "walks"];

struct Settings {
    rounds: usize,
    seed: u64,
    parts: Vec<String>,
    tryreq: PathBuf,
    trycalls: PathBuf,
}

fn settings() -> Result<Settings, String> {
    let built = |name: &str, variable: &str| match std::env::var_os(variable) {
        Some(path) => PathBuf::from(path),
        None => Path::new(env!("CARGO_MANIFEST_DIR")).join("../target/bin").join(name),
    };
    let mut settings = Settings {
        rounds: 20,
        seed: 3415,
        parts: Vec::new(),
        tryreq: built("tryreq", "DUGWALEN_TRYREQ"),
        trycalls: built("trycalls", "DUGWALEN_TRYCALLS"),
    };
    let mut words = std::env::args().skip(1);
    while let Some(word) = words.next() {
        let value = words.next().ok_or(format!("{word} wants a value"))?;
        match word.as_str() {
            "--rounds" => settings.rounds = value.parse().map_err(|_| "--rounds wants a number")?,
            "--seed" => settings.seed = value.parse().map_err(|_| "--seed wants a number")?,
            "--part" if PARTS.contains(&value.as_str()) => settings.parts.push(value),
            "--tryreq" => settings.tryreq = value.into(),
            "--trycalls" => settings.trycalls = value.into(),
            _ => return Err(format!("no such option: {word} {value}")),
        }
    }
    Ok(settings)
}

const CAUSES: &[&str] = &["0", "1", "2", "3", "4", "5", "7"];

const EXPLAINED: &[&str] = &["0", "1", "2", "3", "4", "5, excluded", "5, none matches", "7"];

const POSITIONS: &[&str] = &["1", "2", "3", "4", "5", "6", "7", "8"];

const SETS: &[(&str, &[&str])] = &[
    ("set", &["0", "1", "2", "3", "4", "5", "7, the caller's", "7, an edit's", "9", "10", "11", "12", "18", "19"]),
    ("set accepted, edits", POSITIONS),
    ("set refused at position", POSITIONS),
    ("set accepted in a full table", &["create first", "removal first"]),
    ("set, 9", &["mapping", "access", "view", "two tables, the earlier one's create first", "two tables, the later one's create first"]),
    ("set, 19", &["no edit", "over 8 edits", "a key twice", "a key twice, a field behind it out of range", "a caller out of range"]),
    ("set, a cause", &["a 7 behind it"]),
    ("set with equal keys of two tables", &["accepted", "refused"]),
    ("set unlike its edits one by one", &["accepted", "refused"]),
];

const PAIRS: &[(&str, &[&str])] =
    &[("pairs of lists of demand 3, from fresh stores", &["alike"]), ("pairs of lists of demand 3, from stores whose circles agree", &["alike"])];

fn program_part(tally: &mut Tally, settings: &Settings, name: &'static str) -> Result<(), String> {
    let mut random = Random::new(settings.seed);
    match name {
        "tryreq" => {
            let mut program = Program::new(name, &settings.tryreq, lines::tryreq)?;
            tryreq::run(tally, &mut random, &mut program, settings.rounds);
            tally.require(name, IMAGE_PLACES);
            tally.require(name, &[("request", CAUSES), ("line over 2,048 bytes", &["7"])]);
        }
        "walks" => {
            let mut program = Program::new(name, &settings.trycalls, lines::trycalls)?;
            walks::run(tally, &mut random, &mut program, settings.rounds);
            tally.require(name, IMAGE_PLACES);
            tally.require(
                name,
                &[
                    ("walk", &["context", "mapping", "access", "view", "1", "2", "3", "4", "7", "17"]),
                    ("member's walk", &["context", "mapping", "access", "view", "17"]),
                    ("walk to the end", &["everything", "some", "nothing", "1", "2", "3", "4"]),
                    ("malformed line", &["7"]),
                    ("line over 2,048 bytes", &["7"]),
                ],
            );
            tally.require(name, PAIRS);
        }
        _ => {
            let mut program = Program::new(name, &settings.trycalls, lines::trycalls)?;
            trycalls::run(tally, &mut random, &mut program, settings.rounds);
            tally.require(name, IMAGE_PLACES);
            tally.require(
                name,
                &[
                    ("decide", CAUSES),
                    ("explain", EXPLAINED),
                    ("explain, a candidate lost by its", &["model", "prefix", "level", "length", "order"]),
                    ("explain, would be shown if active", &["mapping", "access", "view"]),
                    ("owner create", &["0", "7", "9", "18"]),
                    ("owner change", &["0", "7", "10"]),
                    ("owner remove", &["0", "7", "10"]),
                    ("principal create", &["0", "1", "2", "3", "4", "5", "7", "9", "11", "12", "18"]),
                    ("principal change", &["0", "1", "2", "3", "4", "5", "7", "10", "11", "12"]),
                    ("principal remove", &["0", "1", "2", "3", "4", "5", "7", "10", "11", "12"]),
                    ("by some columns, not held: change, create, removal", &["4, 4, 4", "5, 5, 5", "5, 5, 10", "10, 0, 0"]),
                    ("by some columns, held: create, change, removal", &["4, 4, 4", "5, 5, 0", "5, 5, 5", "18, 0, 0"]),
                    ("encode", &["oid", "7"]),
                    ("decode", &["instance", "13"]),
                    ("match view", &["included", "excluded", "none", "7"]),
                    ("match access", &["own model", "model 0", "none", "7"]),
                    ("image", &["image"]),
                    ("malformed line", &["7"]),
                    ("line over 2,048 bytes", &["7"]),
                    ("member's set", &["0", "2", "5", "19"]),
                    ("another's set", &["0", "5", "19"]),
                ],
            );
            tally.require(name, SETS);
            tally.require_often(name, "set drawn: 0", 10 * settings.rounds);
            tally.require(name, PAIRS);
        }
    }
    Ok(())
}

fn call_part(tally: &mut Tally, settings: &Settings, name: &'static str) -> Result<(), String> {
    let mut random = Random::new(settings.seed);
    if name == "handwritten" {
        by_hand::on_a_store(tally, &mut random, settings.rounds);
        by_hand::every_edit(tally, &mut random);
        by_hand::sets(tally, &mut random, settings.rounds);
        by_hand::explanations(tally, &mut random, settings.rounds);
        by_hand::walks(tally, &mut random, settings.rounds);
        tally.require(
            name,
            &[
                ("match view", &["included", "excluded", "none", "6", "7"]),
                ("match access", &["own model", "model 0", "none", "6", "7"]),
                ("owner's create", &["0", "7", "9", "18"]),
                ("owner's change", &["0", "7", "10"]),
                ("owner's removal", &["0", "10"]),
                ("principal's create", &["0", "1", "2", "3", "4", "5", "6", "7", "9", "11", "12", "18"]),
                ("principal's change", &["0", "1", "2", "3", "4", "5", "6", "7", "10", "11", "12"]),
                ("explanation", EXPLAINED),
                ("explanation", &["6"]),
                ("set", &["6"]),
                ("walk", &["context", "mapping", "access", "view", "1", "2", "3", "4", "6", "7", "17"]),
            ],
        );
        tally.require(name, SETS);
        tally.require_often(name, "set drawn: 0", 15 * settings.rounds);
        agent::run(tally, &mut random, name, by_hand::call, settings.rounds);
    } else {
        #[cfg(agent_linked)]
        agent::run(tally, &mut random, name, agent::linked::call, settings.rounds);
        #[cfg(not(agent_linked))]
        return Err("the archive libdugwalen.a was not there when this was built".to_string());
    }
    tally.require(name, IMAGE_PLACES);
    tally.require(name, &[("decision", CAUSES)]);
    Ok(())
}

fn main() -> ExitCode {
    let settings = match settings() {
        Ok(settings) => settings,
        Err(why) => {
            println!("{why}");
            println!("0 passed, 1 failed");
            return ExitCode::FAILURE;
        }
    };
    let mut tally = Tally::default();
    for part in PARTS {
        if !settings.parts.is_empty() && !settings.parts.iter().any(|asked| asked == part) {
            continue;
        }
        let start = Instant::now();
        let before = (tally.passed, tally.failed);
        tally.mismatches = 0;
        let ran = match part {
            "tryreq" | "trycalls" | "walks" => program_part(&mut tally, &settings, part),
            _ => call_part(&mut tally, &settings, part),
        };
        tally.check(ran.is_ok(), || format!("{part}: {}", ran.unwrap_err()));
        let seconds = start.elapsed().as_secs_f64();
        println!("{part}: {} passed, {} failed, {seconds:.1} s", tally.passed - before.0, tally.failed - before.1);
    }
    println!();
    for ((part, place), times) in &tally.met {
        println!("{part:12} {place:45} {times:9}");
    }
    println!();
    println!("{} passed, {} failed", tally.passed, tally.failed);
    if tally.failed == 0 {
        ExitCode::SUCCESS
    } else {
        ExitCode::FAILURE
    }
}
