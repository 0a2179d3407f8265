//! Every case of a small kind: each two access rows under step 3, each two view rows under step 5, the rows that come near those
//! behind an answer, each storage and each set of columns under an edit, each field about the ends of its range, each identifier
//! about an instance.

use super::calls::with_key;
use super::world::any_column;
use crate::reference::decision::Request;
use crate::reference::edits::{Caller, Edit};
use crate::reference::instance;
use crate::reference::lines::Call;
use crate::reference::rows::*;
use crate::reference::tables::Tables;

pub struct Case {
    pub tables: Tables,
    pub requests: Vec<Request>,
}

/// One context for each name, Ann in the group "g" under models 3 and 4.
fn base(contexts: &[&str]) -> Tables {
    let mut tables = Tables::default();
    for name in contexts {
        tables.put(Row::Context(Context { name: (*name).into() }));
    }
    for model in [3, 4] {
        tables.put(Row::Mapping(Mapping { model, name: "ann".into(), group: "g".into(), storage: 3, status: 1 }));
    }
    tables
}

fn access(prefix: &str, model: u32, level: u32, matching: u32, view: &str) -> Access {
    let view: Name = view.into();
    let (read, write, notify) = (view.clone(), view.clone(), view);
    Access { group: "g".into(), prefix: prefix.into(), model, level, matching, read, write, notify, storage: 3, status: 1 }
}

pub(super) fn view(name: &str, subtree: Identifier, mask: Vec<u8>, kind: u32, status: u32) -> View {
    View { name: name.into(), subtree, mask, kind, storage: 3, status }
}

fn read(model: u32, level: u32, context: &str, variable: Identifier) -> Request {
    Request { model, name: "ann".into(), level, kind: 1, context: context.into(), variable }
}

/// Each two access rows of one group. The first row's view includes the variable and the second's does not: the answer says
/// which row was chosen.
pub fn step_three() -> Vec<Case> {
    let contexts = ["", "a", "ab", "abc", "b"];
    let mut rows = Vec::new();
    for prefix in ["", "a", "ab"] {
        for model in [0, 3, 5] {
            for level in 1..=3 {
                for matching in 1..=2 {
                    rows.push(access(prefix, model, level, matching, "in"));
                }
            }
        }
    }
    let mut requests = Vec::new();
    for context in contexts {
        for model in [3, 4] {
            for level in 1..=3 {
                requests.push(read(model, level, context, vec![1]));
            }
        }
    }
    let mut cases = Vec::new();
    for first in &rows {
        for second in &rows {
            let (key, other) = (Row::Access(first.clone()).key(), Row::Access(second.clone()).key());
            if key == other {
                continue;
            }
            let mut tables = base(&contexts);
            tables.put(Row::Access(first.clone()));
            tables.put(Row::Access(Access { read: "out".into(), ..second.clone() }));
            tables.put(Row::View(view("in", vec![1], vec![], 1, 1)));
            tables.put(Row::View(view("out", vec![1], vec![], 2, 1)));
            cases.push(Case { tables, requests: requests.clone() });
        }
    }
    cases
}

/// What a request of `step_three` comes down to at that step.
pub fn access_match(request: &Request) -> Call {
    Call::MatchAccess { group: "g".into(), context: request.context.clone(), model: request.model, level: request.level }
}

/// Each two view rows of one view, with subtrees of one or two parts, under variables of one to three.
pub fn step_five() -> Vec<Case> {
    let short = |most: u32| -> Vec<Identifier> {
        (1..=most).flat_map(|length| (0..1u32 << length).map(move |bits| (0..length).map(|i| 1 + (bits >> i & 1)).collect())).collect()
    };
    let mut rows = Vec::new();
    for subtree in short(2) {
        for mask in [vec![], vec![0x00], vec![0x40], vec![0x80], vec![0xc0, 0x00]] {
            for kind in 1..=2 {
                for status in 1..=2 {
                    rows.push(view("v", subtree.clone(), mask.clone(), kind, status));
                }
            }
        }
    }
    let requests: Vec<Request> = short(3).into_iter().map(|variable| read(3, 1, "", variable)).collect();
    let mut cases = Vec::new();
    for (i, first) in rows.iter().enumerate() {
        for second in &rows[i..] {
            let mut tables = base(&[""]);
            tables.put(Row::Access(access("", 0, 1, 1, "v")));
            tables.put(Row::View(first.clone()));
            tables.put(Row::View(second.clone()));
            cases.push(Case { tables, requests: requests.clone() });
        }
    }
    cases
}

/// What a request of `step_five` comes down to at that step.
pub fn view_match(request: &Request) -> Call {
    Call::MatchView { name: "v".into(), variable: request.variable.clone() }
}

/// Requests beside rows that come near those behind the answer and must not be shown; and the longest rows, shown.
pub fn explanations() -> Vec<Case> {
    beside_access_rows().into_iter().chain(beside_view_rows()).chain([longest_rows()]).collect()
}

/// An access row and beside it, each alone and all together, rows that lose to it and rows that would win and do not count; the same
/// without it. Ann's mapping is to the group, out of service, or to another group. The row names no view to write and one without active
/// rows to be notified of.
fn beside_access_rows() -> Vec<Case> {
    let chosen = Access { write: "".into(), notify: "idle".into(), ..access("a", 3, 2, 2, "in") };
    let beside = [
        // lose by model, by prefix and by level
        access("ab", 0, 2, 2, "out"),
        access("", 3, 2, 2, "out"),
        access("a", 3, 1, 2, "out"),
        // would win if in service, of the group, of the model, at the level, in the context
        Access { status: 2, ..access("ab", 3, 2, 2, "out") },
        Access { group: "h".into(), ..access("ab", 3, 2, 2, "out") },
        access("ab", 5, 2, 2, "out"),
        access("ab", 3, 3, 2, "out"),
        access("ab", 3, 1, 1, "out"),
        access("bc", 3, 2, 2, "out"),
    ];
    let mut sets: Vec<Vec<Access>> = beside.iter().map(|row| vec![row.clone()]).collect();
    sets.extend([Vec::new(), beside.to_vec()]);
    sets.extend(sets.clone().into_iter().map(|set| [vec![chosen.clone()], set].concat()));

    let mut requests = vec![read(3, 4, "ab", vec![1]), Request { name: "bob".into(), ..read(3, 2, "ab", vec![1]) }];
    for context in ["", "ab", "abc", "none"] {
        for model in [3, 4] {
            for level in 1..=3 {
                requests.extend((1..=3).map(|kind| Request { kind, ..read(model, level, context, vec![1]) }));
            }
        }
    }
    let mut cases = Vec::new();
    for set in sets {
        for (group, status) in [("g", 1), ("g", 2), ("h", 1)] {
            let mut tables = base(&["", "ab", "abc"]);
            tables.put(Row::Mapping(Mapping { model: 3, name: "ann".into(), group: group.into(), storage: 3, status }));
            for row in &set {
                tables.put(Row::Access(row.clone()));
            }
            tables.put(Row::View(view("in", vec![1], vec![], 1, 1)));
            tables.put(Row::View(view("out", vec![1], vec![], 2, 1)));
            tables.put(Row::View(view("idle", vec![1], vec![], 1, 2)));
            cases.push(Case { tables, requests: requests.clone() });
        }
    }
    cases
}

/// Each set of these view rows, under variables that some of them match or none.
fn beside_view_rows() -> Vec<Case> {
    let rows = [
        view("v", vec![1], vec![], 1, 1),
        // longer; at equal length, greater
        view("v", vec![1, 1], vec![], 2, 1),
        view("v", vec![1, 2], vec![0x80], 1, 1),
        // longer still, and out of service or of another view
        view("v", vec![1, 1, 1], vec![], 2, 2),
        view("w", vec![1, 1, 1], vec![], 2, 1),
        view("v", vec![2], vec![], 1, 1),
    ];
    let variables = [vec![1], vec![1, 1], vec![1, 1, 1], vec![1, 1, 1, 1], vec![1, 3], vec![2], vec![3]];
    let requests: Vec<Request> = variables.into_iter().map(|variable| read(3, 1, "", variable)).collect();
    let mut cases = Vec::new();
    for bits in 0..1u32 << rows.len() {
        let mut tables = base(&[""]);
        tables.put(Row::Access(access("", 0, 1, 1, "v")));
        for (_, row) in rows.iter().enumerate().filter(|(i, _)| bits >> i & 1 == 1) {
            tables.put(Row::View(row.clone()));
        }
        cases.push(Case { tables, requests: requests.clone() });
    }
    cases
}

/// One row of each table, with every field at its greatest length, under variables about the subtree's length and the greatest.
fn longest_rows() -> Case {
    let (model, name) = (LARGEST_MODEL, vec![0xff; NAME_LIMIT]);
    let [group, prefix, read, write, notify] = [(); 5].map(|_| name.clone());
    let mut tables = Tables::default();
    tables.put(Row::Context(Context { name: name.clone() }));
    tables.put(Row::Mapping(Mapping { model, name: name.clone(), group: name.clone(), storage: 3, status: 1 }));
    tables.put(Row::Access(Access { group, prefix, read, write, notify, ..access("", model, 3, 1, "") }));
    tables.put(Row::View(View { name: name.clone(), ..view("", vec![u32::MAX; SUBTREE_LIMIT], vec![0xff; MASK_LIMIT], 1, 1) }));
    let lengths = [SUBTREE_LIMIT - 1, SUBTREE_LIMIT, SUBTREE_LIMIT + 1, VARIABLE_LIMIT];
    let request = |length| Request { model, name: name.clone(), level: 3, kind: 3, context: name.clone(), variable: vec![u32::MAX; length] };
    Case { tables, requests: lengths.map(request).to_vec() }
}

/// Tables where Ann, under model 3 at level 1, may edit every row.
pub(super) fn granted() -> Tables {
    let mut tables = base(&[""]);
    tables.put(Row::Access(access("", 0, 1, 1, "v")));
    tables.put(Row::View(view("v", vec![1], vec![], 1, 1)));
    tables
}

pub(super) fn ann() -> Caller {
    Caller { model: 3, name: "ann".into(), level: 1 }
}

fn by_ann(edit: Edit) -> Call {
    Call::Principal(ann(), edit)
}

/// The owner, and Ann who may edit every row, create, change and remove a row of each table, with each storage held before or none and each
/// given, in a table with room and in a full one. What every edit leaves is looked at.
pub fn storages() -> (Tables, Vec<Call>) {
    let mut calls = Vec::new();
    for table in TABLES {
        let row = |storage| stored(table, 100, storage);
        let mut edits = vec![Edit::Remove(row(3).key())];
        edits.extend((2..=5).flat_map(|given| [Edit::Create(row(given)), Edit::Change(row(given))]));
        for full in [false, true] {
            let other = stored(table, 101, 3);
            if full {
                // without the row, others one by one until there is no room
                calls.push(Call::Owner(Edit::Remove(row(3).key())));
                calls.extend((0..table.limit()).map(|i| Call::Owner(Edit::Create(stored(table, 101 + i, 3)))));
            }
            for held in [None, Some(2), Some(3), Some(4), Some(5)] {
                for edit in &edits {
                    for by in [Call::Owner, by_ann] {
                        // a full table has the row, or the other in its place
                        calls.push(Call::Owner(Edit::Remove(row(3).key())));
                        calls.push(Call::Owner(Edit::Remove(other.key())));
                        match held {
                            Some(storage) => calls.push(Call::Owner(Edit::Create(row(storage)))),
                            None if full => calls.push(Call::Owner(Edit::Create(other.clone()))),
                            None => {}
                        }
                        calls.push(by(edit.clone()));
                        calls.push(Call::Image);
                    }
                }
            }
        }
    }
    (granted(), calls)
}

/// The principal's write view includes some columns of a table: each set of those listed, one at a time of those about them, all of them,
/// and those of one row alone.
pub fn columns() -> (Tables, Vec<Call>) {
    let mut tables = base(&[""]);
    tables.put(Row::Access(access("", 0, 1, 1, "v")));
    let mut calls = Vec::new();
    for table in [Table::Mapping, Table::Access, Table::View] {
        let listed = instance::columns(table);
        let column_of = |column: u32| view("v", [instance::base(table), &[column]].concat(), vec![], 1, 1);
        let mut sets: Vec<Vec<View>> = Vec::new();
        for bits in 0..1u32 << listed.len() {
            let chosen = listed.iter().enumerate().filter(|(i, _)| bits >> i & 1 == 1);
            sets.push(chosen.map(|(_, column)| column_of(*column)).collect());
        }
        sets.extend((0..12).map(|column| vec![column_of(column)]));
        sets.push(vec![view("v", instance::base(table).to_vec(), vec![], 1, 1)]);
        let whole = instance::encode(listed[0], &stored(table, 0, 3).key()).expect("a legal key and a listed column");
        for length in [whole.len() - 1, whole.len()] {
            sets.push(vec![view("v", whole[..length].to_vec(), any_column(table), 1, 1)]);
        }
        for set in sets {
            edits_under(&set, table, &mut calls);
        }
    }
    calls.push(Call::Image);
    (tables, calls)
}

/// While the view has these rows, Ann changes a row that is not held, creates it and removes it; then creates one that is held, changes it,
/// which leaves it as it is, and removes it.
fn edits_under(set: &[View], table: Table, calls: &mut Vec<Call>) {
    calls.extend(set.iter().map(|row| Call::Owner(Edit::Create(Row::View(row.clone())))));
    for number in 0..2 {
        let row = stored(table, number, 3);
        calls.push(by_ann(Edit::Change(row.clone())));
        calls.push(by_ann(Edit::Create(row.clone())));
        calls.push(by_ann(Edit::Remove(row.key())));
        calls.push(Call::Owner(Edit::Create(row.clone())));
        calls.push(by_ann(Edit::Create(row.clone())));
        calls.push(by_ann(Edit::Change(row.clone())));
        calls.push(by_ann(Edit::Remove(row.key())));
        calls.push(Call::Owner(Edit::Remove(row.key())));
    }
    calls.extend(set.iter().map(|row| Call::Owner(Edit::Remove(Row::View(row.clone()).key()))));
}

pub(super) fn stored(table: Table, number: usize, storage: u32) -> Row {
    let name = vec![b'r', number as u8];
    match table {
        Table::Context => Row::Context(Context { name }),
        Table::Mapping => Row::Mapping(Mapping { model: 1, name, group: "h".into(), storage, status: 2 }),
        Table::Access => Row::Access(Access { group: name, storage, ..access("", 0, 1, 1, "") }),
        Table::View => Row::View(View { name, storage, ..view("", vec![1], vec![], 1, 2) }),
    }
}

// ---- ranges

/// About the ends of every range of numbers, and what a narrower number would wrap into one.
const NUMBERS: [u32; 22] = [0, 1, 2, 3, 4, 5, 6, 7, 8, 9, 10, 255, 256, 257, 258, 259, 260, 261, 65_537, LARGEST_MODEL, LARGEST_MODEL + 1, u32::MAX];

/// About the ends of every range of lengths, and what a byte would wrap into one.
const LENGTHS: [usize; 20] = [0, 1, 2, 15, 16, 17, 31, 32, 33, 63, 64, 65, 127, 128, 129, 255, 256, 257, 272, 288];

fn octets() -> impl Iterator<Item = Vec<u8>> {
    LENGTHS.into_iter().map(|length| vec![b'o'; length])
}

fn identifiers() -> impl Iterator<Item = Identifier> {
    LENGTHS.into_iter().map(|length| vec![1; length])
}

/// One request for each value of each field; the others are legal.
pub fn requests() -> Vec<Request> {
    let legal = read(3, 1, "", vec![1]);
    let mut requests = Vec::new();
    for number in NUMBERS {
        requests.push(Request { model: number, ..legal.clone() });
        requests.push(Request { level: number, ..legal.clone() });
        requests.push(Request { kind: number, ..legal.clone() });
    }
    for name in octets() {
        requests.push(Request { name: name.clone(), ..legal.clone() });
        requests.push(Request { context: name, ..legal.clone() });
    }
    requests.extend(identifiers().map(|variable| Request { variable, ..legal.clone() }));
    requests
}

/// One match for each value of each field; the others are those of held rows.
fn matches() -> Vec<Call> {
    let match_view = |name: Name, variable: Identifier| Call::MatchView { name, variable };
    let match_access = |group: Name, context: Name, model: u32, level: u32| Call::MatchAccess { group, context, model, level };
    let mut calls = Vec::new();
    for number in NUMBERS {
        calls.push(match_access("g".into(), "".into(), number, 1));
        calls.push(match_access("g".into(), "".into(), 3, number));
    }
    for name in octets() {
        calls.push(match_view(name.clone(), vec![1]));
        calls.push(match_access(name.clone(), "".into(), 3, 1));
        calls.push(match_access("g".into(), name, 3, 1));
    }
    calls.extend(identifiers().map(|variable| match_view("v".into(), variable)));
    calls
}

/// One row for each value of each field; the others are legal.
fn rows() -> Vec<Row> {
    let mapping = Mapping { model: 1, name: "m".into(), group: "g".into(), storage: 3, status: 1 };
    let access = Access { group: "h".into(), ..access("p", 1, 1, 1, "v") };
    let view = view("w", vec![1, 3], vec![0xff], 1, 1);
    let mut rows = Vec::new();
    for number in NUMBERS {
        rows.push(Row::Mapping(Mapping { model: number, ..mapping.clone() }));
        rows.push(Row::Mapping(Mapping { storage: number, ..mapping.clone() }));
        rows.push(Row::Mapping(Mapping { status: number, ..mapping.clone() }));
        rows.push(Row::Access(Access { model: number, ..access.clone() }));
        rows.push(Row::Access(Access { level: number, ..access.clone() }));
        rows.push(Row::Access(Access { matching: number, ..access.clone() }));
        rows.push(Row::Access(Access { storage: number, ..access.clone() }));
        rows.push(Row::Access(Access { status: number, ..access.clone() }));
        rows.push(Row::View(View { kind: number, ..view.clone() }));
        rows.push(Row::View(View { storage: number, ..view.clone() }));
        rows.push(Row::View(View { status: number, ..view.clone() }));
    }
    for name in octets() {
        rows.push(Row::Context(Context { name: name.clone() }));
        rows.push(Row::Mapping(Mapping { name: name.clone(), ..mapping.clone() }));
        rows.push(Row::Mapping(Mapping { group: name.clone(), ..mapping.clone() }));
        rows.push(Row::Access(Access { group: name.clone(), ..access.clone() }));
        rows.push(Row::Access(Access { prefix: name.clone(), ..access.clone() }));
        rows.push(Row::Access(Access { read: name.clone(), ..access.clone() }));
        rows.push(Row::Access(Access { write: name.clone(), ..access.clone() }));
        rows.push(Row::Access(Access { notify: name.clone(), ..access.clone() }));
        rows.push(Row::View(View { name: name.clone(), ..view.clone() }));
        rows.push(Row::View(View { mask: name, ..view.clone() }));
    }
    rows.extend(identifiers().map(|subtree| Row::View(View { subtree, ..view.clone() })));
    rows
}

/// Every call with every field about the ends of its range.
pub fn ranges() -> (Tables, Vec<Call>) {
    let tables = granted();
    let mut calls: Vec<Call> = requests().into_iter().map(Call::Decide).collect();
    calls.extend(requests().into_iter().map(Call::Explain));
    calls.extend(matches());
    for row in rows() {
        let key = row.key();
        for by in [Call::Owner, by_ann] {
            calls.push(by(Edit::Change(row.clone())));
            calls.push(by(Edit::Create(row.clone())));
            // from here on a row with this key is held, unless the key is out of range
            calls.push(Call::Owner(Edit::Create(with_key(stored(key.table(), 0, 3), key.clone()))));
            calls.push(by(Edit::Create(row.clone())));
            calls.push(by(Edit::Change(row.clone())));
            calls.push(Call::Image);
            calls.push(by(Edit::Remove(key.clone())));
            calls.push(Call::Owner(Edit::Remove(key.clone())));
            // the empty context, where Ann is judged, comes back
            calls.extend(tables.held(&key).map(|row| Call::Owner(Edit::Create(row))));
        }
        for column in NUMBERS {
            calls.push(Call::Encode(column, key.clone()));
        }
    }
    let row = stored(Table::Mapping, 0, 3);
    let context = Row::Context(Context { name: "".into() });
    for edit in [Edit::Create(row.clone()), Edit::Change(row.clone()), Edit::Remove(row.key()), Edit::Change(context)] {
        for number in NUMBERS {
            calls.push(Call::Principal(Caller { model: number, ..ann() }, edit.clone()));
            calls.push(Call::Principal(Caller { level: number, ..ann() }, edit.clone()));
        }
        calls.extend(octets().map(|name| Call::Principal(Caller { name, ..ann() }, edit.clone())));
    }
    calls.push(Call::Image);
    (tables, calls)
}

fn keys() -> [Key; 6] {
    [
        Key::Context { name: "".into() },
        Key::Context { name: "ab".into() },
        Key::Mapping { model: 3, name: "ab".into() },
        Key::Access { group: "ab".into(), prefix: "".into(), model: 0, level: 1 },
        Key::Access { group: "a".into(), prefix: "bc".into(), model: 3, level: 3 },
        Key::View { name: "ab".into(), subtree: vec![1, 3, u32::MAX] },
    ]
}

/// Instances of every column of `keys`, cut at every length, with every part altered, and with a part over.
fn about_instances() -> Vec<Identifier> {
    let mut identifiers: Vec<Identifier> = Vec::new();
    for key in keys() {
        for column in instance::columns(key.table()) {
            let whole = instance::encode(*column, &key).expect("a legal key and a listed column");
            identifiers.extend((0..=whole.len()).map(|end| whole[..end].to_vec()));
            for place in 0..=whole.len() {
                identifiers.push([&whole[..place], &[0], &whole[place..]].concat());
                for number in NUMBERS {
                    let mut altered = whole.clone();
                    if place < whole.len() {
                        altered[place] = number;
                        identifiers.push(altered);
                    }
                }
            }
        }
    }
    for length in LENGTHS {
        // names and subtrees of every length, well told and told short by one
        let name = vec![b'n'; length];
        for told in [length, length.saturating_sub(1)] {
            let spelt: Identifier = [told as u32].into_iter().chain(name.iter().map(|octet| u32::from(*octet))).collect();
            let instance = |base: &[u32], behind: &[u32]| [base, &spelt, behind].concat();
            identifiers.push(instance(&[1, 3, 6, 1, 6, 3, 16, 1, 1, 1, 1], &[]));
            identifiers.push(instance(&[1, 3, 6, 1, 6, 3, 16, 1, 2, 1, 5, 3], &[]));
            identifiers.push(instance(&[1, 3, 6, 1, 6, 3, 16, 1, 4, 1, 9], &[0, 0, 1]));
            identifiers.push(instance(&[1, 3, 6, 1, 6, 3, 16, 1, 4, 1, 9, 1, 97], &[0, 1]));
            identifiers.push(instance(&[1, 3, 6, 1, 6, 3, 16, 1, 5, 2, 1, 6], &[1, 1]));
            identifiers.push(instance(&[1, 3, 6, 1, 6, 3, 16, 1, 5, 2, 1, 6, 1, 97], &[]));
        }
    }
    identifiers
}

pub fn instances() -> Vec<Call> {
    about_instances().into_iter().map(Call::Decode).collect()
}

// ---- walks

/// Tables with rows at `keys`, out of service, where Ann may read everything, all but each table's last column, or each table's last
/// row alone.
fn walked() -> [Tables; 3] {
    let mut everything = granted();
    for key in keys() {
        everything.put(with_key(stored(key.table(), 0, 3), key));
    }
    let mut columns = everything.clone();
    let mut rows = everything.clone();
    rows.put(Row::View(view("v", vec![1], vec![], 2, 1)));
    for table in TABLES {
        let column = *instance::columns(table).last().expect("columns");
        columns.put(Row::View(view("v", [instance::base(table), &[column]].concat(), vec![], 2, 1)));
        let key = everything.rows_of(table).last().expect("rows of every table").key();
        let instance = instance::encode(column, &key).expect("a legal key and a listed column");
        rows.put(Row::View(view("v", instance, any_column(table), 1, 1)));
    }
    [everything, columns, rows]
}

/// Ann's walk from every identifier about an instance.
pub fn walks() -> Vec<(Tables, Vec<Call>)> {
    let calls: Vec<Call> = about_instances().into_iter().map(|identifier| Call::Walk(ann(), identifier)).collect();
    walked().into_iter().map(|tables| (tables, calls.clone())).collect()
}

/// One walk for each value of each field; the others are legal. The identifier is below all instances, or begins with one.
pub fn walk_ranges() -> (Tables, Vec<Call>) {
    let [tables, _, _] = walked();
    let walk = |caller: Caller| Call::Walk(caller, Vec::new());
    let mut calls = Vec::new();
    for number in NUMBERS {
        calls.push(walk(Caller { model: number, ..ann() }));
        calls.push(walk(Caller { level: number, ..ann() }));
    }
    calls.extend(octets().map(|name| walk(Caller { name, ..ann() })));
    calls.extend(identifiers().map(|identifier| Call::Walk(ann(), identifier)));
    let first = instance::encode(1, &Key::Context { name: "".into() }).expect("a legal key and a listed column");
    calls.extend(identifiers().map(|behind| Call::Walk(ann(), [&first[..], &behind].concat())));
    for length in VARIABLE_LIMIT - 1..=VARIABLE_LIMIT + 1 {
        for part in [0, 1, u32::MAX] {
            let mut from = first.clone();
            from.resize(length, part);
            calls.push(Call::Walk(ann(), from));
            calls.push(Call::Walk(ann(), vec![part; length]));
        }
    }
    (tables, calls)
}
