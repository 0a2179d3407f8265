//! Walking the tables: of all instances of held rows the least above an identifier that the caller may read in the empty context.

use super::answers::*;
use super::decision::{decide, view_of, READ};
use super::edits::Caller;
use super::instance;
use super::rows::*;
use super::tables::Tables;

#[derive(Clone, Debug, PartialEq, Eq)]
pub struct Next {
    pub instance: Identifier,
    pub column: u32,
    pub key: Key,
}

/// Every instance above the identifier is asked for. A vector's own order is the order of identifiers.
pub fn walk(tables: &Tables, caller: &Caller, identifier: &[u32]) -> Result<Next, Number> {
    if !caller.legal() || identifier.len() > VARIABLE_LIMIT {
        return Err(OUT_OF_RANGE);
    }
    // steps 1 to 4 look at no variable
    view_of(tables, &caller.request(READ, Vec::new()))?;
    let above = instances(tables).into_iter().filter(|next| next.instance[..] > *identifier);
    let readable = above.filter(|next| decide(tables, &caller.request(READ, next.instance.clone())) == SUCCESS);
    readable.min_by(|one, other| one.instance.cmp(&other.instance)).ok_or(END_OF_MIB_VIEW)
}

/// Every listed column of every held row, whether in service or not.
pub fn instances(tables: &Tables) -> Vec<Next> {
    let mut instances = Vec::new();
    for row in tables.rows() {
        let key = row.key();
        for column in instance::columns(key.table()) {
            let instance = instance::encode(*column, &key).expect("a held row's key and a listed column");
            instances.push(Next { instance, column: *column, key: key.clone() });
        }
    }
    instances
}
