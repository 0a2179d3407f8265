//! Sets of edits by `trycalls`; and what a set met, counted for it and for the hand-written one: tables at their limits, why it was no set,
//! and where it is not answered as its edits would be one by one.

use crate::programs::{answer_kind, compare, Input, Program};
use crate::tally::Tally;
use crate::tryreq::spelt;
use beside::generate::every_set::{sets, sets_of_one, undoing};
use beside::generate::sets::{grant_editing, set_by, set_in_a_line, shortened};
use beside::generate::world::{self, tables, Size, World};
use beside::random::Random;
use beside::reference::answers::*;
use beside::reference::edits::{principal_edit, Caller, Edit};
use beside::reference::image::{self, key_bytes};
use beside::reference::lines::{self, answer, call_of, call_text, set_answer_text, Call};
use beside::reference::rows::*;
use beside::reference::sets::{principal_set, Handed, SetAnswer, MOST_EDITS};
use beside::reference::tables::Tables;

pub fn run(tally: &mut Tally, random: &mut Random, program: &mut Program, rounds: usize) {
    for (start, calls) in sets().into_iter().chain(sets_of_one()) {
        let mut held = start.clone();
        for call in &calls {
            play_counted(tally, program.name, &mut held, call);
        }
        compare(tally, program, Some(&image::write(&start)), &Input::calls(&calls));
    }
    for round in 0..rounds {
        for _ in 0..2 {
            some_sets(tally, random, program);
        }
        on_full_tables(tally, random, program, [Size::Wide, Size::Wide, Size::Maximal][round % 3]);
    }
}

/// Sets on tables of every size.
fn some_sets(tally: &mut Tally, random: &mut Random, program: &mut Program) {
    let world = World::any(random);
    let mut start = tables(random, &world);
    if random.chance(85) {
        grant_editing(random, &world, &mut start);
    }
    drawn_sets(tally, random, program, &start, |random, held| set_in_a_line(random, &world, held));
}

/// Sets on full tables, of a principal that may edit.
fn on_full_tables(tally: &mut Tally, random: &mut Random, program: &mut Program, size: Size) {
    let world = World::new(random, size);
    let mut start = world::filled(random, &world, TABLES.map(Table::limit));
    let caller = grant_editing(random, &world, &mut start);
    drawn_sets(tally, random, program, &start, |random, held| {
        let call = set_by(random, &world, held, caller.clone());
        shortened(random, call)
    });
}

/// Sets one after the other, each drawn for the tables that the ones before it leave; some are undone by the owner.
fn drawn_sets(tally: &mut Tally, random: &mut Random, program: &mut Program, start: &Tables, draw: impl Fn(&mut Random, &Tables) -> Call) {
    let mut held = start.clone();
    let mut lines = Vec::new();
    for _ in 0..25 {
        let text = call_text(&draw(random, &held));
        let line = spelt(random, text);
        lines.push(line.clone());
        let Some(call) = call_of(&line).filter(|_| line.len() <= lines::LINE_LIMIT) else { continue };
        let before = held.clone();
        let answer = play_counted(tally, program.name, &mut held, &call);
        tally.meet(program.name, format!("set drawn: {}", answer_kind(&answer)));
        match &call {
            Call::Set(_, edits) if answer == "0 0" && random.chance(70) => {
                for back in undoing(edits, &before) {
                    play_counted(tally, program.name, &mut held, &back);
                    lines.push(call_text(&back).into_bytes());
                }
            }
            _ if random.chance(10) => lines.push(b"image".to_vec()),
            _ => {}
        }
    }
    lines.push(b"image".to_vec());
    compare(tally, program, Some(&image::write(start)), &Input::of(lines));
}

/// A call played on the tables, and what it met if it is a set.
fn play_counted(tally: &mut Tally, part: &'static str, held: &mut Tables, call: &Call) -> String {
    let Call::Set(caller, edits) = call else { return answer(held, call) };
    let before = held.clone();
    let set: Vec<Handed> = edits.iter().map(Handed::of).collect();
    let answer = principal_set(held, caller, &set);
    count_set(tally, part, &before, caller, &set, answer);
    set_answer_text(answer)
}

// ---- what a set met

fn outcome(is_accepted: bool) -> &'static str {
    if is_accepted {
        "accepted"
    } else {
        "refused"
    }
}

/// Counts a set, with the tables before it and the reference's answer.
pub fn count_set(tally: &mut Tally, part: &'static str, before: &Tables, caller: &Caller, set: &[Handed], answer: SetAnswer) {
    let is_accepted = answer.number == SUCCESS;
    match answer.number {
        SUCCESS => {
            tally.meet(part, format!("set accepted, edits: {}", set.len()));
            for first in in_full_tables(before, set) {
                tally.meet(part, format!("set accepted in a full table: {first} first"));
            }
        }
        TABLE_FULL => tally.meet(part, format!("set, 9: {}", why_full(before, set))),
        NOT_A_SET => {
            tally.meet(part, format!("set, 19: {}", why_no_set(set)));
            if !caller.legal() {
                tally.meet(part, "set, 19: a caller out of range".to_string());
            }
        }
        NO_SUCH_CONTEXT..=NOT_IN_VIEW if set[answer.position..].iter().any(|handed| handed.edit.is_none()) => {
            tally.meet(part, "set, a cause: a 7 behind it".to_string());
        }
        _ => {}
    }
    if has_equal_bytes(set) {
        tally.meet(part, format!("set with equal keys of two tables: {}", outcome(is_accepted)));
    }
    if one_by_one(before, caller, set).is_some_and(|accepted| accepted != is_accepted) {
        tally.meet(part, format!("set unlike its edits one by one: {}", outcome(is_accepted)));
    }
}

fn creates(table: Table, handed: &Handed) -> bool {
    matches!(&handed.edit, Some(Edit::Create(row)) if row.table() == table)
}

fn removes(table: Table, handed: &Handed) -> bool {
    matches!(&handed.edit, Some(Edit::Remove(key)) if key.table() == table)
}

/// For each full table with a create and a removal, which of them comes first.
fn in_full_tables(before: &Tables, set: &[Handed]) -> Vec<&'static str> {
    let full = TABLES.into_iter().filter(|table| before.count(*table) == table.limit());
    full.filter_map(|table| {
        let create = set.iter().position(|handed| creates(table, handed))?;
        let removal = set.iter().position(|handed| removes(table, handed))?;
        Some(if create < removal { "create" } else { "removal" })
    })
    .collect()
}

/// The table that would have too many rows; where there are two, whether the create told is the first that makes one too many in the set.
fn why_full(before: &Tables, set: &[Handed]) -> String {
    let count = |table: Table| {
        let new = set.iter().filter(|handed| creates(table, handed)).count();
        let gone = set.iter().filter(|handed| removes(table, handed)).count();
        before.count(table) + new - gone
    };
    let over: Vec<Table> = TABLES.into_iter().filter(|table| count(*table) > table.limit()).collect();
    let first = |table: &Table| set.iter().position(|handed| creates(*table, handed));
    match over[..] {
        [table] => format!("{table:?}").to_lowercase(),
        _ if over.iter().all(|table| first(table) >= first(&over[0])) => "two tables, the earlier one's create first".to_string(),
        _ => "two tables, the later one's create first".to_string(),
    }
}

fn why_no_set(set: &[Handed]) -> &'static str {
    let is_repeated = |handed: &Handed| handed.key.is_some() && set.iter().filter(|other| other.key == handed.key).count() > 1;
    if set.is_empty() {
        "no edit"
    } else if set.len() > MOST_EDITS {
        "over 8 edits"
    } else if set.iter().any(|handed| is_repeated(handed) && handed.edit.is_none()) {
        "a key twice, a field behind it out of range"
    } else {
        "a key twice"
    }
}

fn has_equal_bytes(set: &[Handed]) -> bool {
    let keys: Vec<&Key> = set.iter().filter_map(|handed| handed.key.as_ref()).collect();
    let equal = |a: &Key, b: &Key| a.table() != b.table() && key_bytes(a) == key_bytes(b);
    (1..keys.len()).any(|i| keys[..i].iter().any(|key| equal(key, keys[i])))
}

/// Whether the edits would all be accepted one after the other; none where one of them is none.
fn one_by_one(before: &Tables, caller: &Caller, set: &[Handed]) -> Option<bool> {
    let edits: Option<Vec<&Edit>> = set.iter().map(|handed| handed.edit.as_ref()).collect();
    let mut tables = before.clone();
    Some(edits?.into_iter().all(|edit| principal_edit(&mut tables, caller, edit) == SUCCESS))
}
