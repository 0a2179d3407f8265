//! The part walks: `trycalls` walks from about every instance and to the end, on tables where a view refuses columns and rows; and
//! members' walks in pairs of lists for demand 3.

use crate::programs::{answers, compare, Input, Program};
use crate::tally::Tally;
use crate::trycalls::{alterations, isolation, play};
use crate::tryreq::{line_ends, spelt};
use beside::generate::calls::{call, mostly_fitting};
use beside::generate::damage::{beyond_largest, every_damage, one_of_each};
use beside::generate::every::{walk_ranges, walks};
use beside::generate::walks::{ascending, callers, grant_reading, ridge_walks, walk};
use beside::generate::world::{self, largest, tables, Size, World};
use beside::random::Random;
use beside::reference::decision::{decide, Request, READ};
use beside::reference::edits::Caller;
use beside::reference::image;
use beside::reference::lines::{call_text, Call};
use beside::reference::ridge;
use beside::reference::rows::*;
use beside::reference::tables::Tables;

pub fn run(tally: &mut Tally, random: &mut Random, program: &mut Program, rounds: usize) {
    let ridge = image::write(&ridge::tables());
    compare(tally, program, Some(&ridge), &Input::texts(ridge::WALKS.iter().map(|(line, _)| *line)));
    line_ends(tally, program, &ridge, "walk 3 616e6e 1 1.3.6.1.6.3.16.1.2.1.5");
    for line in ["walk 3 616e6e 1 1.3.6.1.6.3.16.1.4.1.3", "walk 3 616e6e 3 -"] {
        alterations(tally, random, program, &ridge, line);
    }
    for (tables, calls) in walks().into_iter().chain([walk_ranges()]) {
        compare(tally, program, Some(&image::write(&tables)), &Input::calls(&calls));
    }
    for (tables, caller) in ridge_walks() {
        to_the_end(tally, program, &tables, &caller);
    }
    let few = Input::texts(["walk 3 616e6e 1 -", "walk 3 616e6e 3 1.3.6.1.6.3.16.1.2.1.4", "walk 3 63616c 1 1.3.6.1.6.3.16.1.5"]);
    for bytes in one_of_each().into_iter().chain(beyond_largest(&image::write(&largest(random)))) {
        compare(tally, program, Some(&bytes), &few);
    }
    let every = every_damage(&ridge);
    for _ in 0..10 * rounds {
        compare(tally, program, Some(&every[random.below(every.len())]), &few);
    }
    for round in 0..rounds {
        for _ in 0..4 {
            let world = World::any(random);
            let mut start = tables(random, &world);
            if random.chance(85) {
                let kind = random.between(1, 2) as u32;
                grant_reading(random, &world, &mut start, kind);
            }
            let lines = walks_list(random, &world, &start);
            compare(tally, program, Some(&image::write(&start)), &Input::of(lines));
        }
        on_full_tables(tally, random, program, [Size::Wide, Size::Maximal][round % 2]);
        some_to_the_end(tally, random, program);
        for fresh in [true, false] {
            isolation(tally, random, program, fresh, true);
        }
    }
    full_to_the_end(tally, random, program);
}

/// Walks, many from what the last one handed back, on tables that are edited in between.
fn walks_list(random: &mut Random, world: &World, start: &Tables) -> Vec<Vec<u8>> {
    let mut held = start.clone();
    let mut last = Vec::new();
    let mut list = Vec::new();
    for _ in 0..random.between(40, 100) {
        let drawn = match random.below(20) {
            0 => {
                let mut granted = Tables::default();
                grant_reading(random, world, &mut granted, 1);
                let row = random.pick(&granted.rows()).clone();
                Call::Owner(mostly_fitting(random, &held, row))
            }
            1..=5 => call(random, world, &held),
            _ => walk(random, world, &held, &last),
        };
        let line = spelt(random, call_text(&drawn));
        if let Some(next) = play(&mut held, &line).and_then(|answer| instance_told(&answer)) {
            last = next;
        }
        list.push(line);
    }
    list
}

/// The instance that a walk's answer tells.
fn instance_told(answer: &str) -> Option<Identifier> {
    let mut words = answer.split(' ');
    if words.next() != Some("next") {
        return None;
    }
    words.next()?.split('.').map(|part| part.parse().ok()).collect()
}

fn on_full_tables(tally: &mut Tally, random: &mut Random, program: &mut Program, size: Size) {
    let world = World::new(random, size);
    let mut tables = world::filled(random, &world, TABLES.map(Table::limit));
    let kind = random.between(1, 2) as u32;
    grant_reading(random, &world, &mut tables, kind);
    let calls: Vec<Call> = (0..20).map(|_| walk(random, &world, &tables, &[])).collect();
    compare(tally, program, Some(&image::write(&tables)), &Input::calls(&calls));
}

fn full_to_the_end(tally: &mut Tally, random: &mut Random, program: &mut Program) {
    let world = World::new(random, Size::Wide);
    let mut tables = world::filled(random, &world, TABLES.map(Table::limit));
    let Mapping { model, name, .. } = grant_reading(random, &world, &mut tables, 1);
    to_the_end(tally, program, &tables, &Caller { model, name, level: 3 });
}

/// To the end under a principal that may read, at every level, and under some others.
fn some_to_the_end(tally: &mut Tally, random: &mut Random, program: &mut Program) {
    let world = World::any(random);
    let counts = [4, 6, 6, 8].map(|most| random.between(0, most));
    let mut tables = world::filled(random, &world, counts);
    let kind = random.between(1, 2) as u32;
    let reader = grant_reading(random, &world, &mut tables, kind);
    for caller in callers(&tables) {
        if (caller.model, &caller.name) == (reader.model, &reader.name) || random.chance(10) {
            to_the_end(tally, program, &tables, &caller);
        }
    }
}

/// Every instance of a held row is asked for, ascending, and then walked to the end, each step from what the one before has to hand
/// back: the program's walk tells the instances that its own decisions allow, and then 17; or all are told the same cause.
fn to_the_end(tally: &mut Tally, program: &mut Program, tables: &Tables, caller: &Caller) {
    let instances = ascending(tables);
    let requests: Vec<Request> = instances.iter().map(|instance| caller.request(READ, instance.clone())).collect();
    let readable = requests.iter().filter(|request| decide(tables, request) == 0).map(|request| request.variable.clone());
    let walks = [Vec::new()].into_iter().chain(readable).map(|from| Call::Walk(caller.clone(), from));
    let calls: Vec<Call> = requests.iter().cloned().map(Call::Decide).chain(walks).collect();
    let told = answers(&compare(tally, program, Some(&image::write(tables)), &Input::calls(&calls)));
    let (asked, walked) = told.split_at(instances.len().min(told.len()));
    let (kind, alike) = compare_with_asking(&instances, asked, walked);
    tally.meet(program.name, format!("walk to the end: {kind}"));
    let walk = Call::Walk(caller.clone(), Vec::new());
    tally.check(alike, || format!("{}: what is told from '{}' on is not what asking allows", program.name, call_text(&walk)));
}

/// What asking lets the caller read, and whether the walk told exactly that.
fn compare_with_asking(instances: &[Identifier], asked: &[String], walked: &[String]) -> (String, bool) {
    if let Some(cause) = asked.iter().find(|answer| !["0", "5"].contains(&answer.as_str())) {
        return (cause.clone(), asked.iter().chain(walked).all(|answer| answer == cause));
    }
    let allowed: Vec<&Identifier> = instances.iter().zip(asked).filter(|(_, answer)| *answer == "0").map(|(instance, _)| instance).collect();
    let kind = match allowed.len() {
        0 => "nothing",
        count if count == instances.len() => "everything",
        _ => "some",
    };
    let told: Vec<Option<Identifier>> = walked.iter().map(|answer| instance_told(answer)).collect();
    let expected: Vec<Option<Identifier>> = allowed.into_iter().cloned().map(Some).chain([None]).collect();
    (kind.to_string(), told == expected && walked.last().is_some_and(|answer| answer == "17"))
}
