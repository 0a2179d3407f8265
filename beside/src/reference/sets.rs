//! Sets of edits by one principal: all of them or none.

use super::answers::*;
use super::edits::{carry_out, judge_principal, Caller, Edit};
use super::image::{read_key, read_row};
use super::rows::*;
use super::tables::Tables;

pub const MOST_EDITS: usize = 8;

#[derive(Clone, Copy, Debug, PartialEq, Eq)]
pub enum Operation {
    Create,
    Change,
    Remove,
}

/// An edit as a set has it: its key where that is legal, whatever else is wrong; and the edit itself where nothing is.
#[derive(Clone, Debug, PartialEq, Eq)]
pub struct Handed {
    pub key: Option<Key>,
    pub edit: Option<Edit>,
}

impl Handed {
    pub fn of(edit: &Edit) -> Handed {
        Handed { key: Some(edit.key()).filter(Key::legal), edit: Some(edit.clone()).filter(Edit::legal) }
    }

    /// From the bytes of a row, or of a key for a removal. The key stands in front, whatever follows it.
    pub fn read(operation: Operation, table: Table, bytes: &[u8]) -> Handed {
        let row = read_row(table, bytes).ok();
        let key = read_key(table, bytes).ok();
        let edit = match operation {
            Operation::Create => row.map(Edit::Create),
            Operation::Change => row.map(Edit::Change),
            Operation::Remove => key.clone().filter(|(_, over)| over.is_empty()).map(|(key, _)| Edit::Remove(key)),
        };
        Handed { key: key.map(|(key, _)| key), edit }
    }
}

/// An answer's number, and the position of the edit that it is about, counted from 1; 0 where it is about none.
#[derive(Clone, Copy, Debug, PartialEq, Eq)]
pub struct SetAnswer {
    pub number: Number,
    pub position: usize,
}

/// Every edit is judged on the tables before the set; room, on those behind it.
pub fn principal_set(tables: &mut Tables, caller: &Caller, set: &[Handed]) -> SetAnswer {
    let of_none = |number| SetAnswer { number, position: 0 };
    if set.is_empty() || set.len() > MOST_EDITS || has_key_twice(set) {
        return of_none(NOT_A_SET);
    }
    if !caller.legal() {
        return of_none(OUT_OF_RANGE);
    }
    let mut after = tables.clone();
    for (i, handed) in set.iter().enumerate() {
        let refused = |number| SetAnswer { number, position: i + 1 };
        let Some(edit) = &handed.edit else { return refused(OUT_OF_RANGE) };
        match judge_principal(tables, caller, edit) {
            SUCCESS => carry_out(&mut after, edit),
            number => return refused(number),
        }
    }
    for table in TABLES {
        let creates = |handed: &Handed| matches!(&handed.edit, Some(Edit::Create(row)) if row.table() == table);
        if after.count(table) > table.limit() {
            let first = set.iter().position(creates).expect("a table grows by a create alone");
            return SetAnswer { number: TABLE_FULL, position: first + 1 };
        }
    }
    *tables = after;
    of_none(SUCCESS)
}

/// Keys of two tables are never the same.
fn has_key_twice(set: &[Handed]) -> bool {
    let keys: Vec<&Key> = set.iter().filter_map(|handed| handed.key.as_ref()).collect();
    (1..keys.len()).any(|i| keys[..i].contains(&keys[i]))
}
