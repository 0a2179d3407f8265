//! The owner's and the principals' edits.

use super::answers::*;
use super::decision::{decide, Request, WRITE};
use super::instance;
use super::rows::*;
use super::tables::Tables;

#[derive(Clone, Debug, PartialEq, Eq)]
pub enum Edit {
    Create(Row),
    Change(Row),
    Remove(Key),
}

impl Edit {
    pub fn key(&self) -> Key {
        match self {
            Edit::Create(row) | Edit::Change(row) => row.key(),
            Edit::Remove(key) => key.clone(),
        }
    }

    pub fn legal(&self) -> bool {
        match self {
            Edit::Create(row) | Edit::Change(row) => row.legal(),
            Edit::Remove(key) => key.legal(),
        }
    }

    /// The columns that it writes: a create and a change all that the table lists, a removal the status, which is the last of them.
    fn columns(&self) -> &'static [u32] {
        let listed = instance::columns(self.key().table());
        match self {
            Edit::Create(_) | Edit::Change(_) => listed,
            Edit::Remove(_) => &listed[listed.len() - 1..],
        }
    }
}

#[derive(Clone, Debug, PartialEq, Eq)]
pub struct Caller {
    pub model: u32,
    pub name: Name,
    pub level: u32,
}

impl Caller {
    pub fn legal(&self) -> bool {
        legal_principal_model(self.model) && legal_name(&self.name) && legal_level(self.level)
    }

    /// The caller's request in the empty context, where edits and walks are judged.
    pub fn request(&self, kind: u32, variable: Identifier) -> Request {
        Request { model: self.model, name: self.name.clone(), level: self.level, kind, context: Vec::new(), variable }
    }
}

pub fn owner_edit(tables: &mut Tables, edit: &Edit) -> Number {
    if !edit.legal() {
        return OUT_OF_RANGE;
    }
    match judge_held(tables, edit) {
        SUCCESS => apply(tables, edit),
        refusal => refusal,
    }
}

pub fn principal_edit(tables: &mut Tables, caller: &Caller, edit: &Edit) -> Number {
    match judge_principal(tables, caller, edit) {
        SUCCESS => apply(tables, edit),
        refusal => refusal,
    }
}

/// All that is judged of a principal's edit but room.
pub fn judge_principal(tables: &Tables, caller: &Caller, edit: &Edit) -> Number {
    if !caller.legal() || !edit.legal() {
        return OUT_OF_RANGE;
    }
    let key = edit.key();
    if key.table() == Table::Context {
        return CONTEXT_TABLE;
    }
    for column in edit.columns() {
        let instance = instance::encode(*column, &key).expect("a legal key and a listed column");
        let answer = decide(tables, &caller.request(WRITE, instance));
        if answer != SUCCESS {
            return answer;
        }
    }
    let answer = judge_held(tables, edit);
    if answer != SUCCESS {
        return answer;
    }
    if !storage_allows(edit, tables.held(&key).and_then(|row| row.storage())) {
        return STORAGE_FORBIDS;
    }
    SUCCESS
}

/// A row to create must not be held, whatever its status; a row to change or to remove must.
fn judge_held(tables: &Tables, edit: &Edit) -> Number {
    let is_held = tables.held(&edit.key()).is_some();
    match edit {
        Edit::Create(_) if is_held => ROW_HELD,
        Edit::Change(_) | Edit::Remove(_) if !is_held => ROW_ABSENT,
        _ => SUCCESS,
    }
}

/// A create may not give storage 4 or 5. A change may not give them to a row that lacks them, nor alter storage 4, nor touch a row of 5.
/// A row of 4 or 5 may not be removed.
fn storage_allows(edit: &Edit, held: Option<u32>) -> bool {
    match edit {
        Edit::Create(row) => !matches!(row.storage(), Some(4 | 5)),
        Edit::Change(row) => match held {
            Some(5) => false,
            Some(4) => row.storage() == Some(4),
            _ => !matches!(row.storage(), Some(4 | 5)),
        },
        Edit::Remove(_) => !matches!(held, Some(4 | 5)),
    }
}

/// A create wants room; rows out of service take room too.
fn apply(tables: &mut Tables, edit: &Edit) -> Number {
    let table = edit.key().table();
    if matches!(edit, Edit::Create(_)) && tables.count(table) == table.limit() {
        return TABLE_FULL;
    }
    carry_out(tables, edit);
    SUCCESS
}

/// The row put or gone. Room is the caller's affair.
pub fn carry_out(tables: &mut Tables, edit: &Edit) {
    match edit {
        Edit::Create(row) | Edit::Change(row) => tables.put(row.clone()),
        Edit::Remove(key) => tables.remove(key),
    }
}
