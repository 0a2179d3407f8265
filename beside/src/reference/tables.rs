//! The four tables: rows ascend strictly by index; a row is found, put and removed by its key.

use super::rows::{Access, Context, Key, Mapping, Row, Table, View, TABLES};

#[derive(Clone, Debug, Default, PartialEq, Eq)]
pub struct Tables {
    pub contexts: Vec<Context>,
    pub mappings: Vec<Mapping>,
    pub accesses: Vec<Access>,
    pub views: Vec<View>,
}

impl Tables {
    pub fn count(&self, table: Table) -> usize {
        match table {
            Table::Context => self.contexts.len(),
            Table::Mapping => self.mappings.len(),
            Table::Access => self.accesses.len(),
            Table::View => self.views.len(),
        }
    }

    pub fn rows_of(&self, table: Table) -> Vec<Row> {
        match table {
            Table::Context => self.contexts.iter().cloned().map(Row::Context).collect(),
            Table::Mapping => self.mappings.iter().cloned().map(Row::Mapping).collect(),
            Table::Access => self.accesses.iter().cloned().map(Row::Access).collect(),
            Table::View => self.views.iter().cloned().map(Row::View).collect(),
        }
    }

    /// All rows, tables in document 01's order.
    pub fn rows(&self) -> Vec<Row> {
        TABLES.iter().flat_map(|table| self.rows_of(*table)).collect()
    }

    pub fn held(&self, key: &Key) -> Option<Row> {
        self.rows_of(key.table()).into_iter().find(|row| row.key() == *key)
    }

    /// Adds the row at its place, or replaces the one with its key. Room is the caller's affair.
    pub fn put(&mut self, row: Row) {
        match row {
            Row::Context(r) => put_in(&mut self.contexts, r, |r| Row::Context(r.clone()).key()),
            Row::Mapping(r) => put_in(&mut self.mappings, r, |r| Row::Mapping(r.clone()).key()),
            Row::Access(r) => put_in(&mut self.accesses, r, |r| Row::Access(r.clone()).key()),
            Row::View(r) => put_in(&mut self.views, r, |r| Row::View(r.clone()).key()),
        }
    }

    pub fn remove(&mut self, key: &Key) {
        match key {
            Key::Context { .. } => self.contexts.retain(|r| Row::Context(r.clone()).key() != *key),
            Key::Mapping { .. } => self.mappings.retain(|r| Row::Mapping(r.clone()).key() != *key),
            Key::Access { .. } => self.accesses.retain(|r| Row::Access(r.clone()).key() != *key),
            Key::View { .. } => self.views.retain(|r| Row::View(r.clone()).key() != *key),
        }
    }
}

fn put_in<R>(rows: &mut Vec<R>, row: R, key: impl Fn(&R) -> Key) {
    let own = key(&row);
    rows.retain(|held| key(held) != own);
    let index = own.index();
    let place = rows.iter().filter(|held| key(held).index() < index).count();
    rows.insert(place, row);
}
