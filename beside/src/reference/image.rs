//! The table image: counts, row lengths, rows; big-endian.

use super::answers::*;
use super::decision::{decide, Request};
use super::rows::*;
use super::tables::Tables;

pub const LARGEST: usize = 46_456;

// ---- writing

pub fn write(tables: &Tables) -> Vec<u8> {
    let rows: Vec<Vec<u8>> = tables.rows().iter().map(row_bytes).collect();
    let mut image = Vec::new();
    for table in TABLES {
        push_16(&mut image, tables.count(table));
    }
    for row in &rows {
        push_16(&mut image, row.len());
    }
    for row in &rows {
        image.extend_from_slice(row);
    }
    image
}

pub fn row_bytes(row: &Row) -> Vec<u8> {
    let mut bytes = key_bytes(&row.key());
    match row {
        Row::Context(_) => {}
        Row::Mapping(r) => {
            push_octets(&mut bytes, &r.group);
            bytes.push(r.storage as u8);
            bytes.push(r.status as u8);
        }
        Row::Access(r) => {
            bytes.push(r.matching as u8);
            push_octets(&mut bytes, &r.read);
            push_octets(&mut bytes, &r.write);
            push_octets(&mut bytes, &r.notify);
            bytes.push(r.storage as u8);
            bytes.push(r.status as u8);
        }
        Row::View(r) => {
            push_octets(&mut bytes, &r.mask);
            bytes.push(r.kind as u8);
            bytes.push(r.storage as u8);
            bytes.push(r.status as u8);
        }
    }
    bytes
}

/// The key's fields stand first in each row.
pub fn key_bytes(key: &Key) -> Vec<u8> {
    let mut bytes = Vec::new();
    match key {
        Key::Context { name } => push_octets(&mut bytes, name),
        Key::Mapping { model, name } => {
            bytes.extend_from_slice(&model.to_be_bytes());
            push_octets(&mut bytes, name);
        }
        Key::Access { group, prefix, model, level } => {
            push_octets(&mut bytes, group);
            push_octets(&mut bytes, prefix);
            bytes.extend_from_slice(&model.to_be_bytes());
            bytes.push(*level as u8);
        }
        Key::View { name, subtree } => {
            push_octets(&mut bytes, name);
            bytes.push(subtree.len() as u8);
            for part in subtree {
                bytes.extend_from_slice(&part.to_be_bytes());
            }
        }
    }
    bytes
}

fn push_16(bytes: &mut Vec<u8>, number: usize) {
    bytes.extend_from_slice(&(number as u16).to_be_bytes());
}

fn push_octets(bytes: &mut Vec<u8>, octets: &[u8]) {
    bytes.push(octets.len() as u8);
    bytes.extend_from_slice(octets);
}

/// Whether the bytes of a row can hold its fields, in range or not: what a byte holds, as a number or as a count, is 255 at most.
pub fn can_hold_row(row: &Row) -> bool {
    can_hold_key(&row.key())
        && match row {
            Row::Context(_) => true,
            Row::Mapping(r) => fits(r.group.len()) && numbers_fit(&[r.storage, r.status]),
            Row::Access(r) => [&r.read, &r.write, &r.notify].iter().all(|name| fits(name.len())) && numbers_fit(&[r.matching, r.storage, r.status]),
            Row::View(r) => fits(r.mask.len()) && numbers_fit(&[r.kind, r.storage, r.status]),
        }
}

/// The same of a key. Four bytes hold every model.
pub fn can_hold_key(key: &Key) -> bool {
    match key {
        Key::Context { name } | Key::Mapping { name, .. } => fits(name.len()),
        Key::Access { group, prefix, level, .. } => fits(group.len()) && fits(prefix.len()) && numbers_fit(&[*level]),
        Key::View { name, subtree } => fits(name.len()) && fits(subtree.len()),
    }
}

fn fits(count: usize) -> bool {
    u8::try_from(count).is_ok()
}

fn numbers_fit(numbers: &[u32]) -> bool {
    numbers.iter().all(|number| u8::try_from(*number).is_ok())
}

// ---- reading

pub fn read(image: &[u8]) -> Result<Tables, Number> {
    if image.len() < 8 {
        return Err(TORN);
    }
    let mut counts = Vec::new();
    for (i, table) in TABLES.iter().enumerate() {
        let count = number_16(image, 2 * i);
        if count > table.limit() {
            return Err(TABLE_FULL);
        }
        counts.push(count);
    }
    let rows: usize = counts.iter().sum();
    let array_end = 8 + 2 * rows;
    if image.len() < array_end {
        return Err(TORN);
    }
    let lengths: Vec<usize> = (0..rows).map(|i| number_16(image, 8 + 2 * i)).collect();
    if image.len() != array_end + lengths.iter().sum::<usize>() {
        return Err(TORN);
    }
    let mut tables = Tables::default();
    let mut lengths = lengths.into_iter();
    let mut rest = &image[array_end..];
    for (i, table) in TABLES.iter().enumerate() {
        let mut before: Option<Identifier> = None;
        for length in lengths.by_ref().take(counts[i]) {
            let (bytes, behind) = rest.split_at(length);
            rest = behind;
            let row = read_row(*table, bytes)?;
            let index = row.key().index();
            if before.is_some_and(|before| before >= index) {
                return Err(NOT_ASCENDING);
            }
            before = Some(index);
            match row {
                Row::Context(r) => tables.contexts.push(r),
                Row::Mapping(r) => tables.mappings.push(r),
                Row::Access(r) => tables.accesses.push(r),
                Row::View(r) => tables.views.push(r),
            }
        }
    }
    Ok(tables)
}

/// The tables of a store: room of one size, with an image at its front.
pub fn held(store: &[u8]) -> Result<Tables, Number> {
    if store.len() != LARGEST {
        return Err(NOT_SOUND);
    }
    read(front(store).ok_or(NOT_SOUND)?).map_err(|_| NOT_SOUND)
}

/// As many bytes as the counts and the row lengths call for.
fn front(store: &[u8]) -> Option<&[u8]> {
    let rows: usize = [0, 2, 4, 6].iter().map(|place| number_16(store, *place)).sum();
    let lengths = store.get(8..8 + 2 * rows)?;
    let total: usize = lengths.chunks(2).map(|length| number_16(length, 0)).sum();
    store.get(..8 + 2 * rows + total)
}

/// The bytes of one row: each field in order is first there (14), then in range (7); then no bytes are over (14).
pub fn read_row(table: Table, bytes: &[u8]) -> Result<Row, Number> {
    let mut fields = Fields { bytes };
    let row = match fields.key(table)? {
        Key::Context { name } => Row::Context(Context { name }),
        Key::Mapping { model, name } => Row::Mapping(Mapping {
            model,
            name,
            group: fields.octets(1, NAME_LIMIT)?,
            storage: fields.byte(legal_storage)?,
            status: fields.byte(legal_status)?,
        }),
        Key::Access { group, prefix, model, level } => Row::Access(Access {
            group,
            prefix,
            model,
            level,
            matching: fields.byte(legal_match)?,
            read: fields.octets(0, NAME_LIMIT)?,
            write: fields.octets(0, NAME_LIMIT)?,
            notify: fields.octets(0, NAME_LIMIT)?,
            storage: fields.byte(legal_storage)?,
            status: fields.byte(legal_status)?,
        }),
        Key::View { name, subtree } => Row::View(View {
            name,
            subtree,
            mask: fields.octets(0, MASK_LIMIT)?,
            kind: fields.byte(legal_type)?,
            storage: fields.byte(legal_storage)?,
            status: fields.byte(legal_status)?,
        }),
    };
    if fields.bytes.is_empty() {
        Ok(row)
    } else {
        Err(TORN)
    }
}

/// The key at the front of the bytes, and the bytes behind it.
pub fn read_key(table: Table, bytes: &[u8]) -> Result<(Key, &[u8]), Number> {
    let mut fields = Fields { bytes };
    let key = fields.key(table)?;
    Ok((key, fields.bytes))
}

struct Fields<'a> {
    bytes: &'a [u8],
}

impl<'a> Fields<'a> {
    fn key(&mut self, table: Table) -> Result<Key, Number> {
        Ok(match table {
            Table::Context => Key::Context { name: self.octets(0, NAME_LIMIT)? },
            Table::Mapping => Key::Mapping { model: self.model(legal_principal_model)?, name: self.octets(1, NAME_LIMIT)? },
            Table::Access => Key::Access {
                group: self.octets(1, NAME_LIMIT)?,
                prefix: self.octets(0, NAME_LIMIT)?,
                model: self.model(legal_access_model)?,
                level: self.byte(legal_level)?,
            },
            Table::View => Key::View { name: self.octets(1, NAME_LIMIT)?, subtree: self.subtree()? },
        })
    }

    fn take(&mut self, length: usize) -> Result<&'a [u8], Number> {
        if length > self.bytes.len() {
            return Err(TORN);
        }
        let (taken, rest) = self.bytes.split_at(length);
        self.bytes = rest;
        Ok(taken)
    }

    fn length(&mut self, least: usize, most: usize) -> Result<usize, Number> {
        let length = self.take(1)?[0] as usize;
        if length < least || length > most {
            return Err(OUT_OF_RANGE);
        }
        Ok(length)
    }

    fn octets(&mut self, least: usize, most: usize) -> Result<Vec<u8>, Number> {
        let length = self.length(least, most)?;
        Ok(self.take(length)?.to_vec())
    }

    fn subtree(&mut self) -> Result<Identifier, Number> {
        let count = self.length(1, SUBTREE_LIMIT)?;
        Ok(parts_of(self.take(4 * count)?))
    }

    fn model(&mut self, legal: fn(u32) -> bool) -> Result<u32, Number> {
        let model = parts_of(self.take(4)?)[0];
        if legal(model) {
            Ok(model)
        } else {
            Err(OUT_OF_RANGE)
        }
    }

    fn byte(&mut self, legal: fn(u32) -> bool) -> Result<u32, Number> {
        let value = u32::from(self.take(1)?[0]);
        if legal(value) {
            Ok(value)
        } else {
            Err(OUT_OF_RANGE)
        }
    }
}

/// Big-endian parts of 4 bytes; a torn last part is dropped.
pub fn parts_of(bytes: &[u8]) -> Identifier {
    bytes.chunks_exact(4).map(|part| u32::from_be_bytes([part[0], part[1], part[2], part[3]])).collect()
}

pub fn number_16(bytes: &[u8], place: usize) -> usize {
    256 * bytes[place] as usize + bytes[place + 1] as usize
}

// ---- the agent's call

/// The request of a C call: as `Request`, the variable in bytes.
#[derive(Clone, Debug, PartialEq, Eq)]
pub struct AgentRequest {
    pub model: u32,
    pub name: Name,
    pub level: u32,
    pub kind: u32,
    pub context: Name,
    pub variable: Vec<u8>,
}

/// The image's refusal, judged before the request's fields, or the decision's number.
pub fn agent_call(image: &[u8], request: &AgentRequest) -> Number {
    match read(image) {
        Err(number) => number,
        Ok(tables) => agent_decide(&tables, request),
    }
}

pub fn agent_decide(tables: &Tables, request: &AgentRequest) -> Number {
    if !request.variable.len().is_multiple_of(4) {
        return OUT_OF_RANGE;
    }
    let request = Request {
        model: request.model,
        name: request.name.clone(),
        level: request.level,
        kind: request.kind,
        context: request.context.clone(),
        variable: parts_of(&request.variable),
    };
    decide(tables, &request)
}
