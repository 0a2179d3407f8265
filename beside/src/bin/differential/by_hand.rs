//! The part handwritten: the benchmark's other side has to do the same work.

use crate::programs::{answer_kind, set_position};
use crate::sets::count_set;
use crate::tally::Tally;
use beside::generate::calls::{edit, principal_call};
use beside::generate::damage::damaged;
use beside::generate::every::{self, Case};
use beside::generate::every_set;
use beside::generate::matches;
use beside::generate::requests::request;
use beside::generate::sets::{grant_editing, set_call};
use beside::generate::walks::{grant_reading, ridge_walks, walk};
use beside::generate::world::{tables, World};
use beside::handwritten;
use beside::random::Random;
use beside::reference::decision::{decide, explain, match_access, match_view, Explanation, Request};
use beside::reference::edits::{owner_edit, principal_edit, Caller, Edit};
use beside::reference::image::{self, AgentRequest};
use beside::reference::lines::{call_text, set_answer_text, Call};
use beside::reference::rows::*;
use beside::reference::sets::{principal_set, Handed, Operation, SetAnswer};
use beside::reference::tables::Tables;
use beside::reference::walk::walk as reference_walk;

pub fn call(image: &[u8], r: &AgentRequest) -> u32 {
    let request = handwritten::Request { model: r.model, name: &r.name, level: r.level, kind: r.kind, context: &r.context };
    handwritten::is_access_allowed(image, &request, &r.variable)
}

fn lent(r: &Request) -> handwritten::Request<'_> {
    handwritten::Request { model: r.model, name: &r.name, level: r.level, kind: r.kind, context: &r.context }
}

/// The hand-written edits on a store, beside the reference's on its tables; after each a decision, its explanation, both matches and a
/// principal's create or change.
pub fn on_a_store(tally: &mut Tally, random: &mut Random, rounds: usize) {
    for _ in 0..rounds {
        let world = World::any(random);
        let mut held = tables(random, &world);
        let mut store = [0u8; handwritten::ROOM];
        let bytes = image::write(&held);
        tally.check(handwritten::read_image(&bytes, &mut store) == 0, || "handwritten: a sound image is refused".to_string());
        for _ in 0..200 {
            let edit = edit(random, &world, &held);
            let cut = random.chance(4);
            check_owner_edit(tally, random, &mut store, &mut held, &edit, cut);
            let asked = request(random, &world, &held);
            let got = handwritten::store_decide(&store, &lent(&asked), &asked.variable);
            let expected = decide(&held, &asked);
            tally.check(got == expected, || format!("handwritten: {asked:?} is {got}, not {expected}"));
            if got != expected {
                return;
            }
            check_explanation(tally, random, &store, Ok(&held), &asked);
            for asked in [matches::match_view(random, &world, &held), matches::match_access(random, &world, &held)] {
                check_match(tally, random, &store, &held, &asked);
            }
            let asked = principal_call(random, &world, &held);
            let short = random.chance(2);
            check_principal_row(tally, &mut store, &mut held, &asked, short);
        }
    }
}

/// Every storage, every set of columns and every field about the ends of its range, under edits.
pub fn every_edit(tally: &mut Tally, random: &mut Random) {
    for (mut held, calls) in [every::storages(), every::columns(), every::ranges()] {
        let mut store = store_of(random, &image::write(&held));
        for asked in &calls {
            match asked {
                Call::Owner(edit) => check_owner_edit(tally, random, &mut store, &mut held, edit, false),
                // by hand a principal's removal is a set of one
                Call::Principal(caller, edit @ Edit::Remove(_)) => {
                    check_set(tally, random, &mut store, Ok(&mut held), caller, &[Lent::of(edit)]);
                }
                Call::Principal(..) => check_principal_row(tally, &mut store, &mut held, asked, false),
                _ => {}
            }
        }
    }
}

type OwnerEdit = fn(&mut [u8], u32, &[u8]) -> u32;
type PrincipalEdit = fn(&mut [u8], u32, &[u8], u32, u32, &[u8]) -> u32;

/// The owner's edit, a row's bytes whole or cut, and the image of the store that it leaves.
fn check_owner_edit(tally: &mut Tally, random: &mut Random, store: &mut [u8], held: &mut Tables, edit: &Edit, cut: bool) {
    let table = edit.key().table();
    let mut row_edit = |row: &Row, by_hand: OwnerEdit, edit_of: fn(Row) -> Edit| {
        let mut bytes = image::row_bytes(row);
        if cut {
            bytes.truncate(random.between(0, bytes.len()));
        }
        let expected = image::read_row(table, &bytes).map_or(7, |row| owner_edit(held, &edit_of(row)));
        (by_hand(store, table as u32, &bytes), expected)
    };
    let (name, (got, expected)) = match edit {
        Edit::Create(row) => ("create", row_edit(row, handwritten::owner_create, Edit::Create)),
        Edit::Change(row) => ("change", row_edit(row, handwritten::owner_change, Edit::Change)),
        // its bytes would be another's
        Edit::Remove(key) if !key.legal() => return,
        Edit::Remove(key) => ("removal", (handwritten::owner_remove(store, table as u32, &image::key_bytes(key)), owner_edit(held, edit))),
    };
    tally.meet("handwritten", format!("owner's {name}: {expected}"));
    let image = image::write(held);
    let mut out = [0u8; handwritten::ROOM];
    let written = handwritten::write_image(store, &mut out);
    let same = got == expected && written == image.len() as u64 && out[..image.len()] == image[..];
    tally.check(same, || format!("handwritten: {edit:?} is {got}, not {expected}, or the rows differ"));
}

/// A principal's create or change, on a whole store or on one a byte short, and the store that it leaves.
fn check_principal_row(tally: &mut Tally, store: &mut [u8], held: &mut Tables, asked: &Call, short: bool) {
    let Call::Principal(caller, edit) = asked else { return };
    let mut row_edit = |row: &Row, by_hand: PrincipalEdit, edit_of: fn(Row) -> Edit| {
        let bytes = image::row_bytes(row);
        let expected = match image::read_row(row.table(), &bytes) {
            _ if short => 6,
            Ok(row) => principal_edit(held, caller, &edit_of(row)),
            Err(_) => 7,
        };
        let lent = &mut store[usize::from(short)..];
        (by_hand(lent, caller.model, &caller.name, caller.level, row.table() as u32, &bytes), expected)
    };
    let (name, (got, expected)) = match edit {
        Edit::Create(row) => ("create", row_edit(row, handwritten::principal_create, Edit::Create)),
        Edit::Change(row) => ("change", row_edit(row, handwritten::principal_change, Edit::Change)),
        Edit::Remove(_) => return,
    };
    tally.meet("handwritten", format!("principal's {name}: {expected}"));
    let image = image::write(held);
    tally.check(got == expected && store[..image.len()] == image[..], || {
        format!("handwritten: {} is {got}, not {expected}, or the rows differ", call_text(asked))
    });
}

/// The hand-written set beside the reference's: every set of a small kind, random ones on stores as the ones before leave them, and some on
/// damaged stores.
pub fn sets(tally: &mut Tally, random: &mut Random, rounds: usize) {
    for (mut held, calls) in every_set::sets().into_iter().chain(every_set::sets_of_one()) {
        let mut store = store_of(random, &image::write(&held));
        for asked in &calls {
            match asked {
                Call::Owner(edit) => check_owner_edit(tally, random, &mut store, &mut held, edit, false),
                Call::Set(caller, edits) => {
                    let lent: Vec<Lent> = edits.iter().map(Lent::of).collect();
                    check_set(tally, random, &mut store, Ok(&mut held), caller, &lent);
                }
                _ => {}
            }
        }
    }
    for _ in 0..10 * rounds {
        some_sets(tally, random);
    }
}

fn some_sets(tally: &mut Tally, random: &mut Random) {
    let world = World::any(random);
    let mut held = tables(random, &world);
    if random.chance(85) {
        grant_editing(random, &world, &mut held);
    }
    let mut store = store_of(random, &image::write(&held));
    for _ in 0..10 {
        let (caller, lent) = drawn_set(random, &world, &held);
        let answer = check_set(tally, random, &mut store, Ok(&mut held), &caller, &lent);
        tally.meet("handwritten", format!("set drawn: {}", answer_kind(&answer)));
    }
    let damaged = damaged(random, &image::write(&held));
    for mut unsound in unsound(random, &store, &damaged) {
        let (caller, lent) = drawn_set(random, &world, &held);
        let mut held = image::held(&unsound);
        check_set(tally, random, &mut unsound, held.as_mut(), &caller, &lent);
    }
}

/// An edit of a set as it is lent: what it does, its table, and its bytes.
struct Lent {
    operation: Operation,
    table: Table,
    bytes: Vec<u8>,
}

impl Lent {
    fn of(edit: &Edit) -> Lent {
        let (operation, bytes) = match edit {
            Edit::Create(row) => (Operation::Create, image::row_bytes(row)),
            Edit::Change(row) => (Operation::Change, image::row_bytes(row)),
            Edit::Remove(key) => (Operation::Remove, image::key_bytes(key)),
        };
        Lent { operation, table: edit.key().table(), bytes }
    }

    /// Cut, with a byte over or another one, or lent for another operation: mostly no whole row or key.
    fn damage(&mut self, random: &mut Random) {
        let place = random.between(0, self.bytes.len());
        match random.below(4) {
            0 => self.bytes.truncate(place),
            1 => self.bytes.push(random.of(&[0, 1, 3])),
            2 if place < self.bytes.len() => self.bytes[place] = random.word() as u8,
            _ => self.operation = random.of(&[Operation::Create, Operation::Change, Operation::Remove]),
        }
    }
}

fn drawn_set(random: &mut Random, world: &World, held: &Tables) -> (Caller, Vec<Lent>) {
    let Call::Set(caller, edits) = set_call(random, world, held) else { unreachable!() };
    let mut lent: Vec<Lent> = edits.iter().map(Lent::of).collect();
    for edit in &mut lent {
        if random.chance(3) {
            edit.damage(random);
        }
    }
    (caller, lent)
}

/// A set and the store that it leaves: refused, every byte as found. Returns the answer.
fn check_set(
    tally: &mut Tally,
    random: &mut Random,
    store: &mut [u8],
    held: Result<&mut Tables, &mut u32>,
    caller: &Caller,
    lent: &[Lent],
) -> String {
    let set: Vec<Handed> = lent.iter().map(|edit| Handed::read(edit.operation, edit.table, &edit.bytes)).collect();
    let before = store.to_vec();
    let (expected, image) = match held {
        Err(number) => (SetAnswer { number: *number, position: 0 }, Vec::new()),
        Ok(held) => {
            let found = held.clone();
            let answer = principal_set(held, caller, &set);
            count_set(tally, "handwritten", &found, caller, &set, answer);
            (answer, image::write(held))
        }
    };
    let (heads, bytes) = laid(random, lent);
    let got = handwritten::principal_set(store, caller.model, &caller.name, caller.level, &heads, &bytes);
    let told = set_answer_text(expected);
    tally.meet("handwritten", format!("set: {}", answer_kind(&told)));
    if let Some(position) = set_position(&told) {
        tally.meet("handwritten", format!("set refused at position: {position}"));
    }
    let rows_are = if expected.number == 0 { store[..image.len()] == image[..] } else { *store == before[..] };
    tally.check(got == 256 * expected.position as u32 + expected.number && rows_are, || {
        format!("handwritten: {caller:?}'s set {set:?} is {} {}, not {told}, or the store differs", got % 256, got / 256)
    });
    told
}

/// The numbers of a set's edits, and all their bytes in any order with others between.
fn laid(random: &mut Random, lent: &[Lent]) -> (Vec<u32>, Vec<u8>) {
    let mut order: Vec<usize> = (0..lent.len()).collect();
    random.shuffle(&mut order);
    let mut bytes = Vec::new();
    let mut heads = vec![0; 4 * lent.len()];
    for i in order {
        bytes.extend((0..random.below(3)).map(|_| 1));
        let from = bytes.len();
        bytes.extend_from_slice(&lent[i].bytes);
        let head = [lent[i].operation as u32, lent[i].table as u32, from as u32, bytes.len() as u32];
        heads[4 * i..4 * i + 4].copy_from_slice(&head);
    }
    (heads, bytes)
}

/// The key of the row that a match hands back and a view row's type (0 for an access row), or none, or a refusal.
type Match = Result<Option<(Vec<u8>, u32)>, u32>;

/// A match and its lent room, which has the key at its front and is otherwise as found; now and then on a store a byte short.
fn check_match(tally: &mut Tally, random: &mut Random, store: &[u8], held: &Tables, asked: &Call) {
    let short = random.chance(2);
    let expected = if short { Err(6) } else { reference_match(held, asked) };
    let found = [random.word() as u8; handwritten::KEY_MAX];
    let mut expected_room = found;
    if let Ok(Some((key, _))) = &expected {
        expected_room[..key.len()].copy_from_slice(key);
    }
    let mut room = found;
    let got = handwritten_match(&store[usize::from(short)..], asked, &mut room);
    tally.meet("handwritten", match_place(asked, &expected));
    tally.check(got == expected && room == expected_room, || {
        format!("handwritten: {} is {got:?}, not {expected:?}, or the lent room differs", call_text(asked))
    });
}

fn reference_match(held: &Tables, asked: &Call) -> Match {
    let key = |row| image::key_bytes(&Row::key(&row));
    match asked {
        Call::MatchView { name, variable } => {
            let row = match_view(held, name, variable)?;
            Ok(row.map(|row| (key(Row::View(row.clone())), row.kind)))
        }
        Call::MatchAccess { group, context, model, level } => {
            let row = match_access(held, group, context, *model, *level)?;
            Ok(row.map(|row| (key(Row::Access(row.clone())), 0)))
        }
        _ => unreachable!(),
    }
}

fn handwritten_match(store: &[u8], asked: &Call, room: &mut [u8; handwritten::KEY_MAX]) -> Match {
    match asked {
        Call::MatchView { name, variable } => {
            let row = handwritten::match_view(store, name, variable, room)?;
            Ok(row.map(|(length, kind)| (room[..length].to_vec(), u32::from(kind))))
        }
        Call::MatchAccess { group, context, model, level } => {
            let row = handwritten::match_access(store, group, context, *model, *level, room)?;
            Ok(row.map(|length| (room[..length].to_vec(), 0)))
        }
        _ => unreachable!(),
    }
}

fn match_place(asked: &Call, expected: &Match) -> String {
    let call = if matches!(asked, Call::MatchView { .. }) { "match view" } else { "match access" };
    let told = match expected {
        Ok(Some((_, 1))) => "included".to_string(),
        Ok(Some((_, 2))) => "excluded".to_string(),
        // the model and the level are the last fields of an access row's key
        Ok(Some((key, _))) if key[key.len() - 5..key.len() - 1] == [0; 4] => "model 0".to_string(),
        Ok(Some(_)) => "own model".to_string(),
        Ok(None) => "none".to_string(),
        Err(number) => number.to_string(),
    };
    format!("{call}: {told}")
}

/// The hand-written explanation beside the reference's: beside rows that must not be shown, about every range, on random stores and on
/// damaged ones.
pub fn explanations(tally: &mut Tally, random: &mut Random, rounds: usize) {
    let ranges = Case { tables: every::ranges().0, requests: every::requests() };
    for case in every::explanations().into_iter().chain(every::step_three()).chain(every::step_five()).chain([ranges]) {
        let store = store_of(random, &image::write(&case.tables));
        for asked in &case.requests {
            check_explanation(tally, random, &store, Ok(&case.tables), asked);
        }
    }
    for _ in 0..10 * rounds {
        let world = World::any(random);
        let held = tables(random, &world);
        let bytes = image::write(&held);
        let store = store_of(random, &bytes);
        for _ in 0..20 {
            let asked = request(random, &world, &held);
            check_explanation(tally, random, &store, Ok(&held), &asked);
        }
        let damaged = damaged(random, &bytes);
        for unsound in unsound(random, &store, &damaged) {
            let asked = request(random, &world, &held);
            check_explanation(tally, random, &unsound, image::held(&unsound).as_ref(), &asked);
        }
    }
}

/// An explanation and its lent rooms, each of which has its row at its front and is otherwise as found.
fn check_explanation(tally: &mut Tally, random: &mut Random, store: &[u8], held: Result<&Tables, &u32>, asked: &Request) {
    let expected = match held {
        Ok(tables) => explain(tables, asked),
        Err(number) => Explanation { number: *number, ..Explanation::default() },
    };
    let rows = expected.rows().map(|row| row.map(|row| image::row_bytes(&row)));
    let mut rooms = [(); 3].map(|_| [random.word() as u8; handwritten::ROW_MAX]);
    let mut expected_rooms = rooms;
    for (room, row) in expected_rooms.iter_mut().zip(&rows) {
        let bytes = row.as_deref().unwrap_or_default();
        room[..bytes.len()].copy_from_slice(bytes);
    }
    let lengths = rows.map(|row| row.map(|bytes| bytes.len()));
    let [mapping, access, view] = &mut rooms;
    let got = handwritten::explain(store, &lent(asked), &asked.variable, mapping, access, view);
    let told = match (expected.number, expected.view) {
        (5, Some(_)) => "5, excluded".to_string(),
        (5, None) => "5, none matches".to_string(),
        (number, _) => number.to_string(),
    };
    tally.meet("handwritten", format!("explanation: {told}"));
    let same = got.number == expected.number && [got.mapping, got.access, got.view] == lengths && rooms == expected_rooms;
    tally.check(same, || format!("handwritten: {asked:?} is explained by {got:?}, not by {expected:?}, or the lent rooms differ"));
}

/// The hand-written walk beside the reference's: from about every instance, to the end, on random stores and on damaged ones.
pub fn walks(tally: &mut Tally, random: &mut Random, rounds: usize) {
    for (held, calls) in every::walks().into_iter().chain([every::walk_ranges()]) {
        let store = store_of(random, &image::write(&held));
        for asked in &calls {
            check_walk(tally, random, &store, asked);
        }
    }
    for (held, caller) in ridge_walks() {
        walk_to_the_end(tally, random, &held, &caller);
    }
    for _ in 0..10 * rounds {
        some_walks(tally, random);
    }
}

fn walk_to_the_end(tally: &mut Tally, random: &mut Random, held: &Tables, caller: &Caller) {
    let store = store_of(random, &image::write(held));
    let mut from = Some(Vec::new());
    while let Some(identifier) = from {
        from = check_walk(tally, random, &store, &Call::Walk(caller.clone(), identifier));
    }
}

/// Walks on a sound store, and one on room a byte short, on room a byte over and on a damaged store.
fn some_walks(tally: &mut Tally, random: &mut Random) {
    let world = World::any(random);
    let mut held = tables(random, &world);
    if random.chance(85) {
        let kind = random.between(1, 2) as u32;
        grant_reading(random, &world, &mut held, kind);
    }
    let bytes = image::write(&held);
    let store = store_of(random, &bytes);
    for _ in 0..20 {
        let asked = walk(random, &world, &held, &[]);
        check_walk(tally, random, &store, &asked);
    }
    let damaged = damaged(random, &bytes);
    for unsound in unsound(random, &store, &damaged) {
        let asked = walk(random, &world, &held, &[]);
        check_walk(tally, random, &unsound, &asked);
    }
}

/// Room a byte short, room a byte over, and a store of a damaged image.
fn unsound(random: &mut Random, store: &[u8], damaged: &[u8]) -> [Vec<u8>; 3] {
    [store[1..].to_vec(), [store, &[0]].concat(), store_of(random, damaged)]
}

/// An image, or as much of it as there is room for, and anything behind it.
fn store_of(random: &mut Random, image: &[u8]) -> Vec<u8> {
    let mut store = vec![random.of(&[0, 1, 0xff]); handwritten::ROOM];
    let length = image.len().min(handwritten::ROOM);
    store[..length].copy_from_slice(&image[..length]);
    store
}

/// A walk and its lent rooms, which have the instance and the key at their fronts and are otherwise as found. Returns the instance.
fn check_walk(tally: &mut Tally, random: &mut Random, store: &[u8], asked: &Call) -> Option<Identifier> {
    let Call::Walk(caller, identifier) = asked else { unreachable!() };
    let expected = image::held(store).and_then(|held| reference_walk(&held, caller, identifier));
    let mut instance = [random.word() as u32; handwritten::MOST_PARTS];
    let mut key = [random.word() as u8; handwritten::KEY_MAX];
    let (mut expected_instance, mut expected_key) = (instance, key);
    let expected_next = expected.as_ref().map_err(|number| *number).map(|next| {
        let bytes = image::key_bytes(&next.key);
        expected_instance[..next.instance.len()].copy_from_slice(&next.instance);
        expected_key[..bytes.len()].copy_from_slice(&bytes);
        handwritten::Next { parts: next.instance.len(), table: next.key.table() as u32, column: next.column, key: bytes.len() }
    });
    let got = handwritten::walk(store, caller.model, &caller.name, caller.level, identifier, &mut instance, &mut key);
    let told = match &expected {
        Ok(next) => format!("{:?}", next.key.table()).to_lowercase(),
        Err(number) => number.to_string(),
    };
    tally.meet("handwritten", format!("walk: {told}"));
    tally.check(got == expected_next && instance == expected_instance && key == expected_key, || {
        format!("handwritten: {} is {got:?}, not {expected_next:?}, or the lent rooms differ", call_text(asked))
    });
    expected.ok().map(|next| next.instance)
}
