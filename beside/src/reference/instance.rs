//! Row instances: a base, the column, then the index of the key.

use super::answers::*;
use super::rows::*;

pub fn base(table: Table) -> &'static [u32] {
    match table {
        Table::Context => &[1, 3, 6, 1, 6, 3, 16, 1, 1, 1],
        Table::Mapping => &[1, 3, 6, 1, 6, 3, 16, 1, 2, 1],
        Table::Access => &[1, 3, 6, 1, 6, 3, 16, 1, 4, 1],
        Table::View => &[1, 3, 6, 1, 6, 3, 16, 1, 5, 2, 1],
    }
}

pub fn columns(table: Table) -> &'static [u32] {
    match table {
        Table::Context => &[1],
        Table::Mapping => &[3, 4, 5],
        Table::Access => &[4, 5, 6, 7, 8, 9],
        Table::View => &[3, 4, 5, 6],
    }
}

pub fn encode(column: u32, key: &Key) -> Result<Identifier, Number> {
    if !columns(key.table()).contains(&column) || !key.legal() {
        return Err(OUT_OF_RANGE);
    }
    let mut identifier = base(key.table()).to_vec();
    identifier.push(column);
    identifier.extend(key.index());
    Ok(identifier)
}

pub fn decode(identifier: &[u32]) -> Result<(u32, Key), Number> {
    for table in TABLES {
        if let Some(rest) = identifier.strip_prefix(base(table)) {
            let found = match rest.split_first() {
                Some((column, index)) if columns(table).contains(column) => key_of(table, index).map(|key| (*column, key)),
                _ => None,
            };
            return found.ok_or(NO_INSTANCE);
        }
    }
    Err(NO_INSTANCE)
}

fn key_of(table: Table, index: &[u32]) -> Option<Key> {
    let mut parts = index;
    let key = match table {
        Table::Context => Key::Context { name: take_name(&mut parts)? },
        Table::Mapping => Key::Mapping { model: take(&mut parts)?, name: take_name(&mut parts)? },
        Table::Access => {
            Key::Access { group: take_name(&mut parts)?, prefix: take_name(&mut parts)?, model: take(&mut parts)?, level: take(&mut parts)? }
        }
        Table::View => {
            let name = take_name(&mut parts)?;
            let count = take(&mut parts)? as usize;
            if count > parts.len() {
                return None;
            }
            let (subtree, rest) = parts.split_at(count);
            parts = rest;
            Key::View { name, subtree: subtree.to_vec() }
        }
    };
    if parts.is_empty() && key.legal() {
        Some(key)
    } else {
        None
    }
}

fn take(parts: &mut &[u32]) -> Option<u32> {
    let (first, rest) = parts.split_first()?;
    *parts = rest;
    Some(*first)
}

fn take_name(parts: &mut &[u32]) -> Option<Name> {
    let length = take(parts)?;
    let mut name = Vec::new();
    for _ in 0..length {
        name.push(u8::try_from(take(parts)?).ok()?);
    }
    Some(name)
}
