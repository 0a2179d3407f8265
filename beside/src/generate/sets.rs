//! Sets of edits on the tables as they stand: mostly such as are accepted, and near them such as are refused, for each reason and at each
//! position.

use super::calls::{caller, edit, edit_in, fitting, spoil_key, spoil_row, with_key};
use super::requests::{principal, AROUND, MODELS_AROUND};
use super::world::{grant, held_key, make_room, name, near_name, row, World, OWN_TABLES};
use crate::random::Random;
use crate::reference::decision::{view_of, WRITE};
use crate::reference::edits::{judge_principal, Caller, Edit};
use crate::reference::image::read_key;
use crate::reference::lines::{call_text, can_hold, Call, LINE_LIMIT};
use crate::reference::rows::*;
use crate::reference::sets::MOST_EDITS;
use crate::reference::tables::Tables;

/// The tables that principals edit.
pub const EDITED: [Table; 3] = [Table::Mapping, Table::Access, Table::View];

pub fn set_call(random: &mut Random, world: &World, tables: &Tables) -> Call {
    let caller = writer(random, world, tables);
    set_by(random, world, tables, caller)
}

/// The same where a line has room for it.
pub fn set_in_a_line(random: &mut Random, world: &World, tables: &Tables) -> Call {
    let call = set_call(random, world, tables);
    if random.chance(97) {
        shortened(random, call)
    } else {
        call
    }
}

/// A set of this caller's, now and then with something that it is refused for, or two such things.
pub fn set_by(random: &mut Random, world: &World, tables: &Tables, mut caller: Caller) -> Call {
    let mut edits = match random.below(10) {
        0 | 1 => team_move(random, world, tables, &caller),
        2..=4 => at_limits(random, world, tables, &caller),
        5 => equal_bytes(random, world, tables, &caller),
        _ => Vec::new(),
    };
    if edits.is_empty() {
        let count = random.of(&[1, 2, 2, 3, 4, 5, 6, 7, 8, 8]);
        edits = allowed(random, tables, &caller, count, |random| edit(random, world, tables));
    }
    for _ in 0..random.of(&[0, 0, 0, 0, 1, 1, 2]) {
        disturb(random, world, tables, &mut caller, &mut edits);
    }
    Call::Set(caller, edits)
}

/// Without some of its edits, so that its line is not too long.
pub fn shortened(random: &mut Random, mut call: Call) -> Call {
    while call_text(&call).len() > LINE_LIMIT {
        match &mut call {
            Call::Set(_, edits) if !edits.is_empty() => drop(edits.remove(random.below(edits.len()))),
            _ => return call,
        }
    }
    call
}

/// Of some callers mostly one that has a view to write by.
fn writer(random: &mut Random, world: &World, tables: &Tables) -> Caller {
    let mut tries = 6;
    loop {
        let caller = caller(random, world, tables, |row| &row.write);
        tries -= 1;
        if tries == 0 || may_write(tables, &caller) {
            return caller;
        }
    }
}

fn may_write(tables: &Tables, caller: &Caller) -> bool {
    view_of(tables, &caller.request(WRITE, Vec::new())).is_ok()
}

/// Lets a principal edit rows, mostly all of them.
pub fn grant_editing(random: &mut Random, world: &World, tables: &mut Tables) -> Caller {
    let Mapping { model, name, group, .. } = grant(random, world, tables);
    if random.chance(80) {
        let view = View { name: "edited".into(), subtree: OWN_TABLES.to_vec(), mask: Vec::new(), kind: 1, storage: 3, status: 1 };
        for row in tables.accesses.iter_mut().filter(|row| row.group == group && row.prefix.is_empty()) {
            row.write = view.name.clone();
        }
        let row = Row::View(view);
        make_room(random, tables, &row.key());
        tables.put(row);
    }
    Caller { model, name, level: 3 }
}

/// Drawn edits that the tables let the caller make, and no key of them twice; whatever is drawn, where it may make none.
pub fn allowed(random: &mut Random, tables: &Tables, caller: &Caller, count: usize, mut draw: impl FnMut(&mut Random) -> Edit) -> Vec<Edit> {
    let mut edits = Vec::new();
    if may_write(tables, caller) {
        for _ in 0..4 * count {
            let edit = draw(random);
            if edits.len() < count && fits_in(tables, caller, &edits, &edit) {
                edits.push(edit);
            }
        }
    }
    while edits.is_empty() {
        edits.extend((0..count).map(|_| draw(random)));
    }
    edits
}

fn fits_in(tables: &Tables, caller: &Caller, edits: &[Edit], edit: &Edit) -> bool {
    edits.iter().all(|other| other.key() != edit.key()) && judge_principal(tables, caller, edit) == 0
}

/// Of these edits, for each key the first, and mostly those alone that the caller may make.
fn mostly_allowed(random: &mut Random, tables: &Tables, caller: &Caller, wanted: Vec<Edit>) -> Vec<Edit> {
    let mut edits: Vec<Edit> = Vec::new();
    for edit in wanted {
        if edits.len() < MOST_EDITS && (random.chance(4) || fits_in(tables, caller, &edits, &edit)) {
            edits.push(edit);
        }
    }
    edits
}

/// A team moves to a new view: it is made from the old one's rows, the group's access rows name it, principals join the group, and the old
/// one's rows go.
fn team_move(random: &mut Random, world: &World, tables: &Tables, caller: &Caller) -> Vec<Edit> {
    let Some(team) = some(random, &tables.accesses) else { return Vec::new() };
    let old = random.of(&[&team.read, &team.write, &team.notify]).clone();
    let new = if random.chance(70) { near_name(random, &old) } else { random.pick(&world.views).clone() };
    let mut rows: Vec<View> = tables.views.iter().filter(|row| row.name == old).cloned().collect();
    random.shuffle(&mut rows);
    rows.truncate(random.between(1, 2));
    let renamed = |view: &Name| if *view == old { new.clone() } else { view.clone() };

    let mut wanted: Vec<Edit> =
        rows.iter().map(|row| fitting(tables, Row::View(View { name: new.clone(), storage: 3, status: 1, ..row.clone() }))).collect();
    for row in tables.accesses.iter().filter(|row| row.group == team.group).take(3) {
        let [read, write, notify] = [&row.read, &row.write, &row.notify].map(renamed);
        wanted.push(Edit::Change(Row::Access(Access { read, write, notify, ..row.clone() })));
    }
    for _ in 0..random.between(1, 2) {
        let Row::Mapping(joins) = row(random, world, Table::Mapping) else { unreachable!() };
        wanted.push(fitting(tables, Row::Mapping(Mapping { group: team.group.clone(), storage: 3, ..joins })));
    }
    wanted.extend(rows.iter().map(|row| Edit::Remove(Row::View(row.clone()).key())));
    if random.chance(30) {
        random.shuffle(&mut wanted);
    }
    mostly_allowed(random, tables, caller, wanted)
}

fn some<R: Clone>(random: &mut Random, rows: &[R]) -> Option<R> {
    if rows.is_empty() {
        None
    } else {
        Some(random.pick(rows).clone())
    }
}

/// In some tables, creates for all the room that there will be, or one more, and removals, in any order.
fn at_limits(random: &mut Random, world: &World, tables: &Tables, caller: &Caller) -> Vec<Edit> {
    let mut edited = EDITED;
    random.shuffle(&mut edited);
    let mut wanted = Vec::new();
    for table in &edited[..random.of(&[1, 1, 2, 2, 3])] {
        let rows = tables.rows_of(*table);
        let removed = random.below(3).min(rows.len());
        let room = table.limit() - rows.len() + removed;
        wanted.extend((0..removed).map(|_| Edit::Remove(random.pick(&rows).key())));
        wanted.extend((0..(room + random.of(&[0, 0, 0, 1])).min(4)).map(|_| Edit::Create(new_row(random, world, tables, *table))));
    }
    random.shuffle(&mut wanted);
    mostly_allowed(random, tables, caller, wanted)
}

/// A row that is not held, of a storage that a principal may give.
fn new_row(random: &mut Random, world: &World, tables: &Tables, table: Table) -> Row {
    let mut new = with_storage(row(random, world, table), random.of(&[2, 3]));
    while tables.held(&new.key()).is_some() {
        // a name that the world does not have
        let (name, level) = (name(random, 1), random.between(1, 3) as u32);
        new = match new {
            Row::Context(_) => Row::Context(Context { name }),
            Row::Mapping(r) => Row::Mapping(Mapping { name, ..r }),
            Row::Access(r) => Row::Access(Access { group: name, level, ..r }),
            Row::View(r) => Row::View(View { name, ..r }),
        };
    }
    new
}

pub fn with_storage(row: Row, storage: u32) -> Row {
    match row {
        Row::Context(r) => Row::Context(r),
        Row::Mapping(r) => Row::Mapping(Mapping { storage, ..r }),
        Row::Access(r) => Row::Access(Access { storage, ..r }),
        Row::View(r) => Row::View(View { storage, ..r }),
    }
}

/// Bytes that are the key of a mapping row and of a view row, of a mapping row and of an access row, or of a context and of a mapping row.
pub fn shared_keys(octets: [u8; 4]) -> [[Key; 2]; 3] {
    let [a, b, c, d] = octets;
    let read = |bytes: &[u8], tables: [Table; 2]| tables.map(|table| read_key(table, bytes).expect("a legal key").0);
    [
        read(&[1, a, 1, b, 2, c, d], [Table::Mapping, Table::View]),
        read(&[1, a, 0, b & 0x7f, 3, c, d, 1 + d % 3], [Table::Mapping, Table::Access]),
        read(&[5, a, b, c, 1, d], [Table::Context, Table::Mapping]),
    ]
}

/// Among others, edits of two tables at keys whose bytes are the same.
fn equal_bytes(random: &mut Random, world: &World, tables: &Tables, caller: &Caller) -> Vec<Edit> {
    let octets = [(); 4].map(|_| random.of(&[0, 1, 2, b'a', 0xff]));
    let [of_views, of_accesses, of_contexts] = shared_keys(octets);
    let keys = random.of(&[&of_views, &of_views, &of_accesses, &of_accesses, &of_contexts]);
    let count = random.between(1, 4);
    let mut edits = allowed(random, tables, caller, count, |random| edit(random, world, tables));
    for key in keys {
        let row = with_key(new_row(random, world, tables, key.table()), key.clone());
        let new = if random.chance(85) { fitting(tables, row) } else { Edit::Remove(key.clone()) };
        edits.insert(random.between(0, edits.len()), new);
    }
    edits
}

// ---- what a set is refused for

fn disturb(random: &mut Random, world: &World, tables: &Tables, caller: &mut Caller, edits: &mut Vec<Edit>) {
    let place = random.between(0, edits.len());
    match random.below(13) {
        0..=4 => {
            if let Some(edit) = edits.get_mut(place) {
                *edit = disturbed(random, world, tables, edit);
            }
        }
        5 => edits.insert(place, edit_in(random, world, tables, Table::Context)),
        6 | 7 => repeat_key(random, world, edits),
        8 => spoil_caller(random, caller),
        9 => {
            let count = random.of(&[0, MOST_EDITS + 1, MOST_EDITS + 1, MOST_EDITS + 2]);
            edits.truncate(count);
            edits.extend((edits.len()..count).map(|_| edit(random, world, tables)));
        }
        10 => {
            // a cause, and behind it what is out of range
            let (model, name) = principal(random, world, tables);
            *caller = Caller { model, name, level: random.between(1, 3) as u32 };
            if let Some(edit) = edits.last_mut() {
                *edit = spoilt(random, edit);
            }
        }
        11 => random.shuffle(edits),
        _ => edits.insert(place, edit(random, world, tables)),
    }
}

fn spoil_caller(random: &mut Random, caller: &mut Caller) {
    match random.below(3) {
        0 => caller.model = random.of(&MODELS_AROUND),
        1 => caller.name.resize(random.of(&[0, NAME_LIMIT + 1, 300]), b'a'),
        _ => caller.level = random.of(&AROUND),
    }
}

/// With a field out of range; a create where the row is held or a change where it is not, the removal of another row; or of a storage that
/// no principal may give.
fn disturbed(random: &mut Random, world: &World, tables: &Tables, edit: &Edit) -> Edit {
    let storage = random.of(&[4, 5]);
    match (random.below(5), edit) {
        (0 | 1, _) => spoilt(random, edit),
        (2, Edit::Create(row)) => Edit::Create(with_storage(row.clone(), storage)),
        (2, Edit::Change(row)) => Edit::Change(with_storage(row.clone(), storage)),
        (_, Edit::Create(row)) => Edit::Change(row.clone()),
        (_, Edit::Change(row)) => Edit::Create(row.clone()),
        (_, Edit::Remove(key)) => Edit::Remove(held_key(random, world, tables, key.table())),
    }
}

/// With a field out of range, mostly one that its bytes can hold.
fn spoilt(random: &mut Random, edit: &Edit) -> Edit {
    let mut tries = 4;
    loop {
        let mut spoilt = edit.clone();
        match &mut spoilt {
            Edit::Create(row) | Edit::Change(row) => spoil_row(random, row),
            Edit::Remove(key) => spoil_key(random, key),
        }
        tries -= 1;
        if tries == 0 || can_hold(&spoilt) && !spoilt.legal() {
            return spoilt;
        }
    }
}

/// A key twice. Now and then a field behind one of the two is out of range, or the key itself, of one or of both.
fn repeat_key(random: &mut Random, world: &World, edits: &mut Vec<Edit>) {
    let Some(first) = some(random, edits) else { return };
    let mut key = first.key();
    if random.chance(20) {
        spoil_key(random, &mut key);
        if random.chance(50) {
            edits.insert(random.between(0, edits.len()), Edit::Remove(key.clone()));
        }
    }
    let mut row = with_key(row(random, world, key.table()), key.clone());
    if random.chance(30) {
        row = with_storage(row, random.of(&[0, 1, 6, 255]));
    }
    let again = match random.below(3) {
        0 => Edit::Create(row),
        1 => Edit::Change(row),
        _ => Edit::Remove(key),
    };
    edits.insert(random.between(0, edits.len()), again);
}
