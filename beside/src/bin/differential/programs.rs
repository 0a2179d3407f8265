//! A program run in a folder of its own beside the reference, many lines at a time.

use crate::shrink::show_shrunk;
use crate::tally::{image_place, Tally};
use beside::random::Random;
use beside::reference::edits::Edit;
use beside::reference::image;
use beside::reference::lines::{self, call_of, call_text, Call};
use std::fs::{self, File};
use std::io::Write;
use std::path::{Path, PathBuf};
use std::process::{Child, Command, Stdio};
use std::time::{Duration, Instant};

/// Mismatches that are shrunk and shown, for each part.
pub const SHOWN: u64 = 5;

pub struct Program {
    pub name: &'static str,
    path: PathBuf,
    folder: PathBuf,
    pub reference: fn(&[u8], &[u8]) -> Vec<u8>,
    runs: u64,
}

impl Program {
    pub fn new(name: &'static str, path: &Path, reference: fn(&[u8], &[u8]) -> Vec<u8>) -> Result<Program, String> {
        let path = fs::canonicalize(path).map_err(|_| format!("there is no program {}", path.display()))?;
        let folder = std::env::temp_dir().join(format!("beside-{}-{}", std::process::id(), name));
        fs::create_dir_all(&folder).map_err(|e| format!("{}: {e}", folder.display()))?;
        Ok(Program { name, path, folder, reference, runs: 0 })
    }

    /// What the program writes, with these bytes as `tables.bin`; without them the file is missing. Now and then standard input
    /// is a pipe that is written in pieces.
    pub fn run(&mut self, tables: Option<&[u8]>, stdin: &[u8]) -> Result<Vec<u8>, String> {
        self.runs += 1;
        let tables_bin = self.folder.join("tables.bin");
        match tables {
            Some(bytes) => fs::write(&tables_bin, bytes).map_err(|e| e.to_string())?,
            None => drop(fs::remove_file(&tables_bin)),
        }
        let out = self.folder.join("out");
        let written = File::create(&out).map_err(|e| e.to_string())?;
        let mut command = Command::new(&self.path);
        command.current_dir(&self.folder).stdout(written).stderr(Stdio::null());
        let status = if self.runs.is_multiple_of(8) {
            let mut child = command.stdin(Stdio::piped()).spawn().map_err(|e| e.to_string())?;
            let mut pipe = child.stdin.take().expect("a pipe");
            let bytes = stdin.to_vec();
            let mut random = Random::new(self.runs);
            let writer = std::thread::spawn(move || {
                let mut rest = &bytes[..];
                while !rest.is_empty() {
                    let piece = random.of(&[1, 7, 100, 1000, 4096, 5000, 60_000]).min(rest.len());
                    // a program that ends early does not read all
                    if pipe.write_all(&rest[..piece]).is_err() {
                        break;
                    }
                    rest = &rest[piece..];
                }
            });
            let status = wait(&mut child);
            let _ = writer.join();
            status
        } else {
            let input = self.folder.join("in");
            fs::write(&input, stdin).map_err(|e| e.to_string())?;
            let file = File::open(&input).map_err(|e| e.to_string())?;
            wait(&mut command.stdin(file).spawn().map_err(|e| e.to_string())?)
        };
        status?;
        fs::read(&out).map_err(|e| e.to_string())
    }

    pub fn differs(&mut self, tables: Option<&[u8]>, stdin: &[u8]) -> bool {
        let expected = (self.reference)(tables.unwrap_or(&[]), stdin);
        self.run(tables, stdin) != Ok(expected)
    }
}

impl Drop for Program {
    fn drop(&mut self) {
        let _ = fs::remove_dir_all(&self.folder);
    }
}

/// A program that was ended by a signal, or does not end, has failed.
fn wait(child: &mut Child) -> Result<(), String> {
    let start = Instant::now();
    loop {
        match child.try_wait() {
            Ok(Some(status)) if status.code().is_none() => return Err(format!("{status}")),
            Ok(Some(_)) => return Ok(()),
            Ok(None) => {}
            Err(e) => return Err(e.to_string()),
        }
        if start.elapsed() > Duration::from_secs(60) {
            let _ = child.kill();
            let _ = child.wait();
            return Err("does not end".to_string());
        }
        std::thread::sleep(Duration::from_micros(if start.elapsed() < Duration::from_millis(20) { 100 } else { 1000 }));
    }
}

/// The lines of one run. The last may lack its newline.
pub struct Input {
    pub lines: Vec<Vec<u8>>,
    pub newline: bool,
}

impl Input {
    pub fn of(lines: Vec<Vec<u8>>) -> Input {
        Input { lines, newline: true }
    }

    pub fn texts<'a>(lines: impl IntoIterator<Item = &'a str>) -> Input {
        Input::of(lines.into_iter().map(|line| line.as_bytes().to_vec()).collect())
    }

    pub fn calls(calls: &[Call]) -> Input {
        Input::of(calls.iter().map(|call| call_text(call).into_bytes()).collect())
    }

    pub fn bytes(&self) -> Vec<u8> {
        let mut bytes = self.lines.join(&b'\n');
        if self.newline && !self.lines.is_empty() {
            bytes.push(b'\n');
        }
        bytes
    }
}

/// One run of the program beside the reference. Returns what the program wrote.
pub fn compare(tally: &mut Tally, program: &mut Program, tables: Option<&[u8]>, input: &Input) -> Vec<u8> {
    let stdin = input.bytes();
    let bytes = tables.unwrap_or(&[]);
    let expected = (program.reference)(bytes, &stdin);
    let got = program.run(tables, &stdin);
    count_places(tally, program.name, bytes, &stdin, &expected);
    if got.as_ref() == Ok(&expected) {
        tally.passed += (expected.split(|byte| *byte == b'\n').count() as u64 - 1).max(1);
        return expected;
    }
    let written = got.clone().unwrap_or_default();
    tally.failed += differing(&expected, &written).len().max(1) as u64;
    tally.mismatches += 1;
    if tally.mismatches <= SHOWN {
        show_shrunk(program, tables, input, &expected, &written, tally.mismatches);
    }
    written
}

/// The answer of each line, without the line's number.
pub fn answers(written: &[u8]) -> Vec<String> {
    let text = String::from_utf8_lossy(written);
    text.lines().map(|line| line.split_once(' ').map_or("", |(_, answer)| answer).to_string()).collect()
}

pub fn differing(expected: &[u8], written: &[u8]) -> Vec<usize> {
    let a: Vec<&[u8]> = expected.split(|byte| *byte == b'\n').collect();
    let b: Vec<&[u8]> = written.split(|byte| *byte == b'\n').collect();
    (0..a.len().max(b.len())).filter(|i| a.get(*i) != b.get(*i)).collect()
}

fn count_places(tally: &mut Tally, part: &'static str, tables: &[u8], stdin: &[u8], expected: &[u8]) {
    let text = String::from_utf8_lossy(expected);
    let read = &tables[..tables.len().min(image::LARGEST + 1)];
    if let Some(number) = text.strip_prefix("0 ") {
        tally.meet(part, image_place(read, number.trim_end().parse().expect("a number")));
        return;
    }
    for (line, answer) in lines::lines_of(stdin).into_iter().zip(answers(expected)) {
        let kind = answer_kind(&answer);
        let place = match (part, line.len() > lines::LINE_LIMIT) {
            (_, true) => "line over 2,048 bytes",
            ("tryreq", _) => "request",
            _ => call_place(line),
        };
        tally.meet(part, format!("{place}: {kind}"));
        if let ("set", Some(position)) = (place, set_position(&answer)) {
            tally.meet(part, format!("set refused at position: {position}"));
        }
    }
}

/// The position that a set's answer tells, if it is about an edit.
pub fn set_position(answer: &str) -> Option<&str> {
    answer.split_once(' ').map(|(_, position)| position).filter(|position| *position != "0")
}

/// The answer's first word; where a match tells a row, what kind of row; where a walk tells an instance, of which table; where an
/// explanation tells notInView, by what; where a set tells 7, whose.
pub fn answer_kind(answer: &str) -> &str {
    let words: Vec<&str> = answer.split(' ').collect();
    match words[..] {
        ["next", _, _, table, ..] => table,
        ["view", .., "1"] => "included",
        ["view", .., "2"] => "excluded",
        ["access", _, _, "0", _] => "model 0",
        ["access", ..] => "own model",
        ["5", "mapping", .., "view", _, _, _, "2", _, _] => "5, excluded",
        ["5", "mapping", ..] => "5, none matches",
        ["7", "0"] => "7, the caller's",
        ["7", _] => "7, an edit's",
        [word, ..] => word,
        [] => "",
    }
}

fn call_place(line: &[u8]) -> &'static str {
    match call_of(line) {
        None => "malformed line",
        Some(Call::Decide(_)) => "decide",
        Some(Call::Explain(_)) => "explain",
        Some(Call::Owner(Edit::Create(_))) => "owner create",
        Some(Call::Owner(Edit::Change(_))) => "owner change",
        Some(Call::Owner(Edit::Remove(_))) => "owner remove",
        Some(Call::Principal(_, Edit::Create(_))) => "principal create",
        Some(Call::Principal(_, Edit::Change(_))) => "principal change",
        Some(Call::Principal(_, Edit::Remove(_))) => "principal remove",
        Some(Call::Set(..)) => "set",
        Some(Call::Encode(..)) => "encode",
        Some(Call::Decode(_)) => "decode",
        Some(Call::MatchView { .. }) => "match view",
        Some(Call::MatchAccess { .. }) => "match access",
        Some(Call::Walk(..)) => "walk",
        Some(Call::Image) => "image",
    }
}
