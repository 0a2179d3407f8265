//! Every set of a small kind: each refusal at each position and before each other one, sets of each length, a key twice, creates and
//! removals about a table's limit, rights that a set takes from its caller or gives to it, and single edits as sets of one.

use super::calls::with_key;
use super::every::{ann, columns, granted, ranges, storages, stored, view};
use super::sets::{shared_keys, with_storage, EDITED};
use super::world::any_column;
use crate::reference::edits::{Caller, Edit};
use crate::reference::instance;
use crate::reference::lines::Call;
use crate::reference::rows::*;
use crate::reference::sets::MOST_EDITS;
use crate::reference::tables::Tables;

/// Tables, and calls to play on them one after the other.
type Play = (Tables, Vec<Call>);

pub fn sets() -> Vec<Play> {
    let mut plays = vec![refusals(), lengths(), keys_twice(), equal_bytes(), rights()];
    plays.extend(causes());
    plays.extend(limits());
    plays.extend(tables_full_together());
    plays
}

fn by_ann(edits: Vec<Edit>) -> Call {
    Call::Set(ann(), edits)
}

/// Callers out of range in each field.
fn no_callers() -> [Caller; 3] {
    [Caller { model: 0, ..ann() }, Caller { name: Vec::new(), ..ann() }, Caller { level: 4, ..ann() }]
}

/// The row of a number, in the tables that principals edit by turns.
fn row_of(number: usize) -> Row {
    stored(EDITED[number % EDITED.len()], number, 3)
}

/// A row with the same key, in service.
fn in_service(row: Row) -> Row {
    match row {
        Row::Context(r) => Row::Context(r),
        Row::Mapping(r) => Row::Mapping(Mapping { status: 1, ..r }),
        Row::Access(r) => Row::Access(Access { status: 1, notify: "n".into(), ..r }),
        Row::View(r) => Row::View(View { status: 1, mask: vec![0xff; MASK_LIMIT], ..r }),
    }
}

// ---- refusals

/// Rows of each table that are held, of storage 3, 4 and 5, and one mapping row at which Ann's view refuses every column.
fn judged() -> Tables {
    let mut tables = granted();
    for (number, storage) in [(30, 3), (40, 4), (50, 5)] {
        for table in EDITED {
            tables.put(stored(table, number, storage));
        }
    }
    let refused = instance::encode(5, &stored(Table::Mapping, 60, 3).key()).expect("a legal key and a listed column");
    tables.put(Row::View(view("v", refused, any_column(Table::Mapping), 2, 1)));
    tables
}

/// Edits of `judged` that Ann is refused, for each reason.
fn refused() -> Vec<Edit> {
    let outside = stored(Table::Mapping, 60, 3);
    let mut edits = vec![
        Edit::Create(with_storage(stored(Table::Access, 70, 3), 6)),
        Edit::Change(with_storage(stored(Table::View, 30, 3), 1)),
        Edit::Remove(Key::Mapping { model: 0, name: "r".into() }),
        Edit::Create(outside.clone()),
        Edit::Change(outside.clone()),
        Edit::Remove(outside.key()),
        Edit::Create(with_storage(stored(Table::View, 70, 3), 4)),
        Edit::Change(stored(Table::Access, 40, 3)),
        Edit::Remove(stored(Table::Mapping, 40, 4).key()),
        Edit::Remove(stored(Table::View, 50, 5).key()),
        Edit::Create(Row::Context(Context { name: "r".into() })),
        Edit::Remove(Key::Context { name: "".into() }),
    ];
    for table in EDITED {
        edits.push(Edit::Create(stored(table, 30, 3)));
        edits.push(Edit::Change(stored(table, 80, 3)));
        edits.push(Edit::Remove(stored(table, 90, 3).key()));
    }
    edits
}

/// Each refusal at each position of a set whose other edits are none, and each two of them one behind the other.
fn refusals() -> Play {
    let mut calls = Vec::new();
    for edit in refused() {
        for place in 0..MOST_EDITS {
            let mut edits: Vec<Edit> = (0..MOST_EDITS).map(|number| Edit::Create(row_of(number))).collect();
            edits[place] = edit.clone();
            calls.push(by_ann(edits));
        }
        for other in refused() {
            calls.push(by_ann(vec![edit.clone(), other]));
        }
    }
    calls.push(Call::Image);
    (judged(), calls)
}

/// No set, and sets of each length that create rows, change them to longer ones and remove them from the last on; by Ann and by callers out
/// of range. What they leave is looked at.
fn lengths() -> Play {
    let mut calls = Vec::new();
    for count in 0..MOST_EDITS + 3 {
        let rows: Vec<Row> = (0..count).map(row_of).collect();
        let creates: Vec<Edit> = rows.iter().cloned().map(Edit::Create).collect();
        let changes: Vec<Edit> = rows.iter().cloned().map(in_service).map(Edit::Change).collect();
        let removals: Vec<Edit> = rows.iter().rev().map(|row| Edit::Remove(row.key())).collect();
        for edits in [creates, changes, removals] {
            calls.extend(no_callers().map(|caller| Call::Set(caller, edits.clone())));
            calls.push(by_ann(edits));
            calls.push(Call::Image);
        }
    }
    (granted(), calls)
}

// ---- keys

/// Each two edits of one row, held or not, with what is behind the key of the first, of the second or of neither out of range; side by side
/// or at the ends of a set. And a key that is not legal twice.
fn keys_twice() -> Play {
    let mut calls = Vec::new();
    for table in TABLES {
        for row in [stored(table, 30, 3), stored(table, 31, 3)] {
            for first in of_row(&row) {
                for second in of_row(&row) {
                    let between: Vec<Edit> = (0..MOST_EDITS - 2).map(|number| Edit::Create(row_of(number))).collect();
                    calls.push(by_ann(vec![first.clone(), second.clone()]));
                    calls.push(by_ann([vec![first.clone()], between, vec![second.clone()]].concat()));
                    calls.push(Call::Set(no_callers()[2].clone(), vec![first.clone(), second]));
                }
            }
        }
    }
    let twice = |key: Key| by_ann(vec![Edit::Remove(key.clone()), Edit::Remove(key)]);
    calls.push(twice(Key::Context { name: vec![b'r'; NAME_LIMIT + 1] }));
    calls.push(twice(Key::Mapping { model: 0, name: "r".into() }));
    calls.push(twice(Key::Mapping { model: 1, name: Vec::new() }));
    calls.push(twice(Key::Access { group: "r".into(), prefix: "".into(), model: 0, level: 4 }));
    calls.push(twice(Key::View { name: "r".into(), subtree: Vec::new() }));
    calls.push(twice(Key::View { name: "r".into(), subtree: vec![1; SUBTREE_LIMIT + 1] }));
    calls.push(Call::Image);
    (judged(), calls)
}

/// A create, a change and the removal of a row, and a change with a field behind the key that is out of range.
fn of_row(row: &Row) -> [Edit; 4] {
    let spoilt = with_storage(row.clone(), 0);
    [Edit::Create(row.clone()), Edit::Change(row.clone()), Edit::Remove(row.key()), Edit::Change(spoilt)]
}

/// Rows of two tables whose keys are the same bytes created, changed and removed together.
fn equal_bytes() -> Play {
    let mut calls = Vec::new();
    for keys in shared_keys(*b"abcd") {
        let rows = keys.map(|key| with_key(stored(key.table(), 0, 3), key));
        for edit in [Edit::Create, Edit::Change] {
            calls.push(by_ann(rows.iter().cloned().map(edit).collect()));
            calls.push(Call::Image);
        }
        calls.push(by_ann(rows.iter().rev().map(|row| Edit::Remove(row.key())).collect()));
        calls.push(Call::Image);
    }
    (granted(), calls)
}

// ---- the store before the set

/// Ann's own rows go, or go out of service, before or behind another edit: she may make both. The rows that would let her make an edit
/// do not count before the set is through.
fn rights() -> Play {
    let tables = granted();
    let create = Edit::Create(stored(Table::Mapping, 0, 3));
    let mut calls = Vec::new();
    let own = [tables.rows_of(Table::Mapping)[0].clone(), tables.rows_of(Table::Access)[0].clone(), tables.rows_of(Table::View)[0].clone()];
    for row in own {
        for edit in [Edit::Remove(row.key()), Edit::Change(out_of_service(row.clone()))] {
            for edits in [vec![edit.clone(), create.clone()], vec![create.clone(), edit.clone()]] {
                calls.push(by_ann(edits));
                calls.push(by_ann(vec![Edit::Remove(create.key())]));
                calls.push(Call::Owner(Edit::Create(row.clone())));
                calls.push(Call::Owner(Edit::Change(row.clone())));
                calls.push(by_ann(vec![Edit::Remove(create.key())]));
            }
        }
    }
    // while this row is held, her view has no mapping row
    let bar = Row::View(view("v", instance::base(Table::Mapping).to_vec(), vec![], 2, 1));
    calls.push(Call::Owner(Edit::Create(bar.clone())));
    calls.push(by_ann(vec![Edit::Remove(bar.key()), create.clone()]));
    calls.push(by_ann(vec![Edit::Remove(bar.key())]));
    calls.push(by_ann(vec![create]));
    calls.push(Call::Image);
    (tables, calls)
}

fn out_of_service(row: Row) -> Row {
    match row {
        Row::Context(r) => Row::Context(r),
        Row::Mapping(r) => Row::Mapping(Mapping { status: 2, ..r }),
        Row::Access(r) => Row::Access(Access { status: 2, ..r }),
        Row::View(r) => Row::View(View { status: 2, ..r }),
    }
}

/// Causes 1 to 4, each before a 7 and a 12 behind it, and behind a 7 and a 12.
fn causes() -> Vec<Play> {
    let good = Edit::Create(stored(Table::Access, 0, 3));
    let others = [Edit::Create(with_storage(stored(Table::View, 0, 3), 0)), Edit::Create(Row::Context(Context { name: "r".into() }))];
    let sets = others.iter().flat_map(|other| [vec![good.clone(), other.clone()], vec![other.clone(), good.clone()]]);
    let calls: Vec<Call> = sets.map(by_ann).collect();
    let without = |row: Row| {
        let mut tables = granted();
        tables.remove(&row.key());
        (tables, calls.clone())
    };
    TABLES.map(|table| without(granted().rows_of(table)[0].clone())).to_vec()
}

// ---- room

/// In each table with no room, room for one row and for two: each list of up to three creates, removals and changes of as many rows.
fn limits() -> Vec<Play> {
    let mut plays = Vec::new();
    for table in EDITED {
        for room in 0..3 {
            let tables = filled_up(table, room);
            let mut calls = Vec::new();
            for count in 1..=3 {
                for code in 0..3usize.pow(count) {
                    let edits = (0..count).map(|i| nth_edit(table, i as usize, code / 3usize.pow(i) % 3)).collect();
                    calls.extend(undone(by_ann(edits), &tables));
                }
            }
            calls.push(Call::Image);
            plays.push((tables, calls));
        }
    }
    plays
}

/// Full but for some rows.
fn filled_up(table: Table, room: usize) -> Tables {
    let mut tables = granted();
    fill(&mut tables, table, room);
    tables
}

fn fill(tables: &mut Tables, table: Table, room: usize) {
    for number in 100..100 + table.limit() {
        if tables.count(table) + room < table.limit() {
            tables.put(stored(table, number, 3));
        }
    }
}

/// A create of a row that `fill` does not put, or the removal or a change of one that it does.
fn nth_edit(table: Table, number: usize, operation: usize) -> Edit {
    let (new, held) = (stored(table, number, 3), stored(table, 101 + number, 3));
    match operation {
        0 => Edit::Create(new),
        1 => Edit::Remove(held.key()),
        _ => Edit::Change(in_service(held)),
    }
}

/// A set, and then its rows as they were before it.
fn undone(set: Call, before: &Tables) -> Vec<Call> {
    let Call::Set(_, edits) = &set else { unreachable!() };
    let back = undoing(edits, before);
    [vec![set], back].concat()
}

/// The owner's edits that bring the rows of a set back to what they were, removals first: their answers tell which were put and gone.
pub fn undoing(edits: &[Edit], before: &Tables) -> Vec<Call> {
    let removals = edits.iter().filter(|edit| before.held(&edit.key()).is_none()).map(|edit| Edit::Remove(edit.key()));
    let others = edits.iter().filter_map(|edit| {
        let row = before.held(&edit.key())?;
        Some(if matches!(edit, Edit::Remove(_)) { Edit::Create(row) } else { Edit::Change(row) })
    });
    removals.chain(others).map(Call::Owner).collect()
}

/// Two creates in each table, in each order of the tables, where each has room for one row or for two: 9 is told of the first of document
/// 01's tables that has room for one, wherever its creates stand in the set. And the same with a removal in the last table.
fn tables_full_together() -> Vec<Play> {
    let orders = [[0, 1, 2], [0, 2, 1], [1, 0, 2], [1, 2, 0], [2, 0, 1], [2, 1, 0]];
    let mut plays = Vec::new();
    for bits in 0..1 << EDITED.len() {
        let mut tables = granted();
        for (i, table) in EDITED.into_iter().enumerate() {
            fill(&mut tables, table, if bits >> i & 1 == 1 { 1 } else { 2 });
        }
        let mut calls = Vec::new();
        for order in orders {
            let create = |number: usize| order.map(|i| Edit::Create(stored(EDITED[i], number, 3)));
            calls.extend(undone(by_ann([create(0), create(1)].concat()), &tables));
            let removal = Edit::Remove(stored(EDITED[order[2]], 101, 3).key());
            calls.extend(undone(by_ann([&create(0)[..], &create(1), &[removal]].concat()), &tables));
        }
        plays.push((tables, calls));
    }
    plays
}

// ---- sets of one

/// The edits of every storage, every set of columns and every range, with the principal's as sets of one.
pub fn sets_of_one() -> Vec<Play> {
    let as_set = |call: Call| match call {
        Call::Principal(caller, edit) => Some(Call::Set(caller, vec![edit])),
        Call::Owner(_) | Call::Image => Some(call),
        _ => None,
    };
    [storages(), columns(), ranges()].map(|(tables, calls)| (tables, calls.into_iter().filter_map(as_set).collect())).to_vec()
}
