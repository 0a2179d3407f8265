//! A set is carried out whole or not at all: accepted, it leaves the old rows with exactly its own put or gone; of one edit, it is that
//! edit; and what is said in bytes is what is said in fields.

use super::answers::*;
use super::edits::{judge_principal, principal_edit, Caller, Edit};
use super::image;
use super::lines::{answer, can_hold, Call};
use super::rows::*;
use super::sets::{principal_set, Handed, Operation, SetAnswer};
use super::tables::Tables;
use crate::generate::every_set;
use crate::generate::sets::{grant_editing, set_call};
use crate::generate::world::{tables, World};
use crate::random::Random;

fn handed(edits: &[Edit]) -> Vec<Handed> {
    edits.iter().map(Handed::of).collect()
}

/// The rows of no edit.
fn others(tables: &Tables, edits: &[Edit]) -> Vec<Row> {
    let keys: Vec<Key> = edits.iter().map(Edit::key).collect();
    tables.rows().into_iter().filter(|row| !keys.contains(&row.key())).collect()
}

fn is_whole_or_nothing(before: &Tables, caller: &Caller, edits: &[Edit]) -> Tables {
    let mut after = before.clone();
    let SetAnswer { number, position } = principal_set(&mut after, caller, &handed(edits));
    if number != SUCCESS {
        assert_eq!(after, *before);
        assert_eq!(position == 0, number == NOT_A_SET || !caller.legal());
        return after;
    }
    assert_eq!(position, 0);
    assert!(edits.iter().all(|edit| judge_principal(before, caller, edit) == SUCCESS));
    assert_eq!(others(&after, edits), others(before, edits));
    for edit in edits {
        let left = match edit {
            Edit::Create(row) | Edit::Change(row) => Some(row.clone()),
            Edit::Remove(_) => None,
        };
        assert_eq!(after.held(&edit.key()), left);
    }
    // sound: it reads back, in order and within the limits
    assert_eq!(image::read(&image::write(&after)), Ok(after.clone()));
    after
}

fn is_its_one_edit(before: &Tables, caller: &Caller, edit: &Edit) {
    let (mut by_edit, mut by_set) = (before.clone(), before.clone());
    let number = principal_edit(&mut by_edit, caller, edit);
    let position = if number == SUCCESS || !caller.legal() { 0 } else { 1 };
    assert_eq!(principal_set(&mut by_set, caller, &[Handed::of(edit)]), SetAnswer { number, position });
    assert_eq!(by_set, by_edit);
}

fn reads_the_same(edit: &Edit) {
    let (operation, bytes) = match edit {
        Edit::Create(row) => (Operation::Create, image::row_bytes(row)),
        Edit::Change(row) => (Operation::Change, image::row_bytes(row)),
        Edit::Remove(key) => (Operation::Remove, image::key_bytes(key)),
    };
    if can_hold(edit) {
        assert_eq!(Handed::read(operation, edit.key().table(), &bytes), Handed::of(edit));
    }
}

#[test]
fn of_small_kinds() {
    for (mut tables, calls) in every_set::sets().into_iter().chain(every_set::sets_of_one()) {
        for call in calls {
            match call {
                Call::Set(caller, edits) => {
                    edits.iter().for_each(reads_the_same);
                    tables = is_whole_or_nothing(&tables, &caller, &edits);
                }
                other => drop(answer(&mut tables, &other)),
            }
        }
    }
}

#[test]
fn on_random_tables() {
    let random = &mut Random::new(6);
    for _ in 0..40 {
        let world = World::any(random);
        let mut tables = tables(random, &world);
        grant_editing(random, &world, &mut tables);
        for _ in 0..10 {
            let Call::Set(caller, edits) = set_call(random, &world, &tables) else { unreachable!() };
            for edit in &edits {
                reads_the_same(edit);
                is_its_one_edit(&tables, &caller, edit);
            }
            tables = is_whole_or_nothing(&tables, &caller, &edits);
        }
    }
}

/// The key is at the front of the bytes, whatever follows it.
#[test]
fn torn_bytes() {
    let row = Row::Mapping(Mapping { model: 3, name: "ann".into(), group: "leads".into(), storage: 3, status: 1 });
    let (bytes, key) = (image::row_bytes(&row), image::key_bytes(&row.key()));
    for operation in [Operation::Create, Operation::Change, Operation::Remove] {
        for end in 0..bytes.len() + 2 {
            let mut bytes = bytes.clone();
            bytes.resize(end, 1);
            let Handed { key: read, edit } = Handed::read(operation, Table::Mapping, &bytes);
            assert_eq!(read, Some(row.key()).filter(|_| end >= key.len()));
            let whole = if operation == Operation::Remove { key.len() } else { image::row_bytes(&row).len() };
            assert_eq!(edit.is_some(), end == whole);
        }
    }
}
