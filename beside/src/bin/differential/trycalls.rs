//! The part trycalls: lists of calls, edits into every table up to its limit and past it, sets of edits, the rows that step 3 and step 5
//! choose, explanations, and pairs of lists for demand 3.

use crate::explanations::{self, explained};
use crate::programs::{answer_kind, answers, compare, Input, Program};
use crate::sets;
use crate::tally::Tally;
use crate::tryreq::{line_ends, spelt, P12};
use beside::generate::calls::{call, fitting, spoil_row, with_key};
use beside::generate::damage::{beyond_largest, every_damage, one_of_each};
use beside::generate::every::{access_match, columns, instances, ranges, step_five, step_three, storages, view_match, Case};
use beside::generate::lines::{every_alteration, every_wrap};
use beside::generate::lists::{agreeing_starts, list_keeps, two_lists, Circle};
use beside::generate::world::{self, grant, largest, tables, Size, World};
use beside::random::Random;
use beside::reference::decision::Request;
use beside::reference::edits::{Caller, Edit};
use beside::reference::image;
use beside::reference::lines::{self, call_of, call_text, hex, Call};
use beside::reference::ridge;
use beside::reference::rows::*;
use beside::reference::tables::Tables;

const FRESH: [u8; 8] = [0; 8];

pub fn run(tally: &mut Tally, random: &mut Random, program: &mut Program, rounds: usize) {
    let ridge = image::write(&ridge::tables());
    let image_line = || b"image".to_vec();
    let example = [
        "owner create mapping 3 616e6e 6c65616473 3 1",
        "owner change mapping 3 616e6e 747261696e 3 1",
        "decode 1.3.6.1.6.3.16.1.2.1.5.3.3.97.110.110",
        "encode 5 mapping 3 616e6e",
        "image",
    ];
    for tables in [Some(&P12[..]), Some(&FRESH[..]), Some(&ridge[..]), Some(&b""[..]), None] {
        compare(tally, program, tables, &Input::texts(example));
    }
    for lines in [ridge::MATCHES, ridge::EXPLANATIONS, ridge::EDITS, ridge::SETS] {
        compare(tally, program, Some(&ridge), &Input::texts(lines.iter().map(|(line, _)| *line)));
    }
    line_ends(tally, program, &ridge, "encode 5 mapping 3 616e6e");
    line_ends(tally, program, &ridge, "owner change mapping 3 616e6e 6c65616473 3 1");
    line_ends(tally, program, &written_by_ann(), "set 3 616e6e 1 change mapping 3 616e6e 6c65616473 3 1 ; create context 61");
    for line in FORMS {
        alterations(tally, random, program, &ridge, line);
    }
    for line in SET_FORMS {
        alterations(tally, random, program, &written_by_ann(), line);
    }
    for bytes in one_of_each().into_iter().chain(beyond_largest(&image::write(&largest(random)))) {
        compare(tally, program, Some(&bytes), &Input::of(vec![image_line()]));
    }
    for (start, calls) in [storages(), ranges(), (Tables::default(), instances())] {
        compare(tally, program, Some(&image::write(&start)), &Input::calls(&calls));
    }
    some_columns(tally, program);
    sets::run(tally, random, program, rounds);
    let (step_three, step_five) = (step_three(), step_five());
    for _ in 0..10 * rounds {
        matches(tally, program, random.pick(&step_three), access_match);
        matches(tally, program, random.pick(&step_five), view_match);
    }
    explanations::run(tally, random, program, rounds);
    let every = every_damage(&ridge);
    for _ in 0..10 * rounds {
        compare(tally, program, Some(&every[random.below(every.len())]), &Input::of(vec![image_line()]));
    }
    for round in 0..rounds {
        for _ in 0..6 {
            let world = World::any(random);
            let start = if random.chance(25) { Tables::default() } else { tables(random, &world) };
            let lines = calls_list(random, &world, &start);
            let newline = random.chance(80);
            compare(tally, program, Some(&image::write(&start)), &Input { lines, newline });
        }
        let calls = growth(random, round);
        compare(tally, program, Some(&FRESH), &Input::calls(&calls));
        refusals_when_full(tally, random, program);
        for fresh in [true, true, false, false] {
            isolation(tally, random, program, fresh, false);
        }
    }
}

/// Edits by views that have some columns only: how often a create and a change are refused at a column where the removal of their row is not.
fn some_columns(tally: &mut Tally, program: &mut Program) {
    let (start, calls) = columns();
    let answers = answers(&compare(tally, program, Some(&image::write(&start)), &Input::calls(&calls)));
    for (calls, answers) in calls.windows(3).zip(answers.windows(3)) {
        let [Call::Principal(_, first), Call::Principal(_, second), Call::Principal(_, Edit::Remove(_))] = calls else { continue };
        let place = match (first, second) {
            (Edit::Change(_), Edit::Create(_)) => "not held: change, create, removal",
            (Edit::Create(_), Edit::Change(_)) => "held: create, change, removal",
            _ => continue,
        };
        tally.meet(program.name, format!("by some columns, {place}: {}", answers.join(", ")));
    }
}

/// What the requests of a case come down to at a step, and the requests explained.
fn matches(tally: &mut Tally, program: &mut Program, case: &Case, asked: fn(&Request) -> Call) {
    let calls: Vec<Call> = case.requests.iter().map(asked).collect();
    compare(tally, program, Some(&image::write(&case.tables)), &Input::calls(&calls));
    explained(tally, program, case);
}

/// A line of every form, for their alterations.
const FORMS: &[&str] = &[
    "decide 3 3 1 616e6e 726964676531 1.3.6.1.2.1.2.2.1.8.2",
    "explain 3 3 1 616e6e 726964676531 1.3.6.1.2.1.2.2.1.8.2",
    "owner create context 7a",
    "owner change context -",
    "owner remove context -",
    "owner create mapping 3 626f62 6c65616473 3 1",
    "owner change mapping 3 616e6e 747261696e 3 1",
    "owner remove mapping 3 616e6e",
    "owner create access 6c65616473 7269 3 2 2 616c6c - 676f6e65 3 1",
    "owner change access 6c65616473 - 0 1 2 616c6c 616c6c 676f6e65 3 1",
    "owner remove access 6c65616473 7269 3 2",
    "owner create view 616c6c 1.3.6.2 ff80 1 3 1",
    "owner remove view 616c6c 1.3.6.1",
    "principal 3 616e6e 1 create mapping 3 626f62 747261696e 3 1",
    "principal 3 616e6e 1 change mapping 3 63616c 747261696e 3 1",
    "principal 3 616e6e 1 remove view 62617365 1.3.6.1",
    "encode 5 mapping 3 616e6e",
    "decode 1.3.6.1.6.3.16.1.1.1.1.1.97",
    "match view 62617365 1.3.6.1.2.1.2.2.1.8.2",
    "match access 6c65616473 726964676531 3 2",
    "image",
];

/// Sets, for their alterations: accepted, refused at the second edit, and without edits.
const SET_FORMS: &[&str] = &[
    "set 3 616e6e 1 change mapping 3 63616c 747261696e 3 1 ; create view 61 1.3 ff 1 3 1",
    "set 3 616e6e 1 remove mapping 3 63616c ; change access 6c65616473 - 3 1 2 - - - 3 1",
    "set 3 616e6e 1",
];

/// The Ridge tables' image, with Ann as one who may write everything.
fn written_by_ann() -> Vec<u8> {
    let mut tables = ridge::tables();
    tables.accesses[0].write = "all".into();
    image::write(&tables)
}

/// The line with each of its numbers too great, and altered at each of its places; what they leave is looked at in between.
pub fn alterations(tally: &mut Tally, random: &mut Random, program: &mut Program, tables: &[u8], line: &str) {
    let image_line = || b"image".to_vec();
    let mut lines = every_wrap(line);
    lines.push(image_line());
    for altered in every_alteration(line) {
        lines.push(altered);
        if random.chance(2) {
            lines.push(image_line());
        }
    }
    lines.push(image_line());
    compare(tally, program, Some(tables), &Input::of(lines));
}

fn calls_list(random: &mut Random, world: &World, start: &Tables) -> Vec<Vec<u8>> {
    let mut held = start.clone();
    let mut list = Vec::new();
    for _ in 0..random.between(60, 500) {
        let line = match random.below(100) {
            0 => b"image".to_vec(),
            1 | 2 => {
                // rights for somebody, row by row
                let mut granted = Tables::default();
                grant(random, world, &mut granted);
                let row = random.pick(&granted.rows()).clone();
                call_text(&Call::Owner(fitting(&held, row))).into_bytes()
            }
            _ => {
                let text = call_text(&call(random, world, &held));
                spelt(random, text)
            }
        };
        play(&mut held, &line);
        list.push(line);
    }
    list.push(b"image".to_vec());
    list
}

/// The line played on the tables, and its answer; none for a line that is no call.
pub fn play(held: &mut Tables, line: &[u8]) -> Option<String> {
    let call = call_of(line).filter(|_| line.len() <= lines::LINE_LIMIT)?;
    Some(lines::answer(held, &call))
}

/// Rows created one by one in random order until every table is past its limit, some of them twice and some changed, before or after; then
/// taken out again.
fn growth(random: &mut Random, round: usize) -> Vec<Call> {
    let size = [Size::Wide, Size::Maximal][round % 2];
    let world = World::new(random, size);
    let mut calls = Vec::new();
    let mut keys = Vec::new();
    for table in TABLES {
        for _ in 0..2 * table.limit() {
            let row = world::row(random, &world, table);
            keys.push(row.key());
            if random.chance(25) {
                let changed = with_key(world::row(random, &world, table), row.key());
                calls.push(Call::Owner(Edit::Change(changed)));
            }
            calls.push(Call::Owner(Edit::Create(row)));
        }
    }
    random.shuffle(&mut calls);
    random.shuffle(&mut keys);
    calls.push(Call::Image);
    calls.extend(keys.iter().take(200).map(|key| Call::Owner(Edit::Remove(key.clone()))));
    calls.push(Call::Image);
    calls
}

/// A granted principal's edits of full tables. A create is answered 18 for a held row and 9 for a new one, a change 10 for a new row and 0
/// for a held one; 11 comes before 9.
fn refusals_when_full(tally: &mut Tally, random: &mut Random, program: &mut Program) {
    let world = World::new(random, Size::Wide);
    let mut tables = world::filled(random, &world, TABLES.map(Table::limit));
    let Mapping { model, name, .. } = grant(random, &world, &mut tables);
    let mut calls = Vec::new();
    for _ in 0..160 {
        let table = random.of(&[Table::Mapping, Table::Access, Table::View]);
        let mut row = world::row(random, &world, table);
        if random.chance(40) {
            row = with_key(row, random.pick(&tables.rows_of(table)).key());
        }
        if random.chance(5) {
            spoil_row(random, &mut row);
        }
        let edit = if random.chance(50) { Edit::Create(row) } else { Edit::Change(row) };
        let level = random.between(1, 3) as u32;
        let caller = Caller { model, name: name.clone(), level };
        calls.push(if random.chance(70) { Call::Principal(caller, edit) } else { Call::Owner(edit) });
    }
    calls.push(Call::Image);
    compare(tally, program, Some(&image::write(&tables)), &Input::calls(&calls));
}

/// Demand 3 on the program itself: two lists with the same shared calls give these the same answers and leave the same circle, from fresh
/// stores or from two whose circles agree; with members' walks or without.
pub fn isolation(tally: &mut Tally, random: &mut Random, program: &mut Program, fresh: bool, walks: bool) {
    let size = random.of(&[Size::Small, Size::Wide, Size::Dense]);
    let world = World::new(random, size);
    let circle = Circle::new(random, &world, walks);
    let starts = if fresh { Default::default() } else { agreeing_starts(random, &world, &circle) };
    let length = random.between(20, 120);
    let pair = two_lists(random, &world, &circle, &starts, length);
    let mut told: Vec<Vec<(&Call, String)>> = Vec::new();
    let mut ends = Vec::new();
    for (start, list) in starts.iter().zip(&pair) {
        let mut lines: Vec<Vec<u8>> = list.iter().map(|call| call_text(call).into_bytes()).collect();
        lines.push(b"image".to_vec());
        let out = compare(tally, program, Some(&image::write(start)), &Input::of(lines));
        let answers = answers(&out);
        let image = answers.last().and_then(|answer| answer.strip_prefix("image ")).map(unhex).unwrap_or_default();
        ends.push(image::read(&image).map(|tables| circle.rows(&tables)));
        told.push(list.iter().zip(answers).collect());
    }
    if starts.iter().zip(&pair).all(|(start, list)| list_keeps(&circle, start, list)) {
        let from = if fresh { "fresh stores" } else { "stores whose circles agree" };
        tally.meet(program.name, format!("pairs of lists of demand 3, from {from}: alike"));
        for (call, answer) in &told[0] {
            let whose = if circle.is_shared(call) { "member's" } else { "another's" };
            match call {
                Call::Walk(..) => tally.meet(program.name, format!("{whose} walk: {}", answer_kind(answer))),
                Call::Set(..) => tally.meet(program.name, format!("{whose} set: {}", answer_kind(answer))),
                _ => {}
            }
        }
        let is_shared = |(call, _): &&(&Call, String)| circle.is_shared(call);
        let shared: Vec<Vec<&(&Call, String)>> = told.iter().map(|list| list.iter().filter(is_shared).collect()).collect();
        let alike = shared[0] == shared[1] && ends[0].is_ok() && ends[0] == ends[1];
        tally.check(alike, || {
            let texts = pair.each_ref().map(|list| list.iter().map(call_text).collect::<Vec<_>>().join("\n"));
            format!("demand 3, for the group {}, of the lists\n{}\n-- and\n{}", hex(&circle.group), texts[0], texts[1])
        });
    }
}

fn unhex(text: &str) -> Vec<u8> {
    (0..text.len() / 2).filter_map(|i| u8::from_str_radix(&text[2 * i..2 * i + 2], 16).ok()).collect()
}
