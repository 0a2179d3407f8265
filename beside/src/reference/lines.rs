//! The programs `tryreq` and `trycalls`: from the bytes of `tables.bin` and of standard input to those of standard output.

use super::answers::*;
use super::decision::{decide, explain, match_access, match_view, Explanation, Request};
use super::edits::{owner_edit, principal_edit, Caller, Edit};
use super::image;
use super::instance;
use super::rows::*;
use super::sets::{principal_set, Handed, SetAnswer};
use super::tables::Tables;
use super::walk::walk;

pub const LINE_LIMIT: usize = 2048;

pub fn tryreq(tables_bin: &[u8], stdin: &[u8]) -> Vec<u8> {
    play(tables_bin, stdin, |tables, line| {
        let mut words = Words::of(line);
        let answer = match words.request().filter(|_| words.over()) {
            Some(request) => decide(tables, &request),
            None => OUT_OF_RANGE,
        };
        answer.to_string()
    })
}

pub fn trycalls(tables_bin: &[u8], stdin: &[u8]) -> Vec<u8> {
    play(tables_bin, stdin, |tables, line| match call_of(line) {
        Some(call) => answer(tables, &call),
        None => OUT_OF_RANGE.to_string(),
    })
}

/// A refused image prints `0` and its number alone. Of a file longer than the largest image, that many bytes and one more are read.
fn play(tables_bin: &[u8], stdin: &[u8], mut answer: impl FnMut(&mut Tables, &[u8]) -> String) -> Vec<u8> {
    let read = &tables_bin[..tables_bin.len().min(image::LARGEST + 1)];
    let mut tables = match image::read(read) {
        Ok(tables) => tables,
        Err(number) => return format!("0 {number}\n").into_bytes(),
    };
    let mut out = String::new();
    for (i, line) in lines_of(stdin).into_iter().enumerate() {
        let answer = if line.len() > LINE_LIMIT { OUT_OF_RANGE.to_string() } else { answer(&mut tables, line) };
        out.push_str(&format!("{} {}\n", i + 1, answer));
    }
    out.into_bytes()
}

/// A last line with no newline is a line; nothing behind the last newline is none.
pub fn lines_of(stdin: &[u8]) -> Vec<&[u8]> {
    let mut lines: Vec<&[u8]> = stdin.split(|byte| *byte == b'\n').collect();
    if lines.last().is_some_and(|last| last.is_empty()) {
        lines.pop();
    }
    lines
}

// ---- the calls of `trycalls`

#[derive(Clone, Debug, PartialEq, Eq)]
pub enum Call {
    Decide(Request),
    Explain(Request),
    Owner(Edit),
    Principal(Caller, Edit),
    Set(Caller, Vec<Edit>),
    Encode(u32, Key),
    Decode(Identifier),
    MatchView { name: Name, variable: Identifier },
    MatchAccess { group: Name, context: Name, model: u32, level: u32 },
    Walk(Caller, Identifier),
    Image,
}

pub fn answer(tables: &mut Tables, call: &Call) -> String {
    match call {
        Call::Decide(request) => decide(tables, request).to_string(),
        Call::Explain(request) => explanation_text(&explain(tables, request)),
        Call::Owner(edit) => owner_edit(tables, edit).to_string(),
        Call::Principal(caller, edit) => principal_edit(tables, caller, edit).to_string(),
        Call::Set(caller, edits) => {
            let set: Vec<Handed> = edits.iter().map(Handed::of).collect();
            set_answer_text(principal_set(tables, caller, &set))
        }
        Call::Encode(column, key) => match instance::encode(*column, key) {
            Ok(identifier) => format!("oid {}", dotted(&identifier)),
            Err(number) => number.to_string(),
        },
        Call::Decode(identifier) => match instance::decode(identifier) {
            Ok((column, key)) => format!("instance {} {}", column, key_text(&key)),
            Err(number) => number.to_string(),
        },
        Call::MatchView { name, variable } => {
            let found = match_view(tables, name, variable);
            match_text(found, |row| format!("{} {}", key_text(&Row::View(row.clone()).key()), row.kind))
        }
        Call::MatchAccess { group, context, model, level } => {
            let found = match_access(tables, group, context, *model, *level);
            match_text(found, |row| key_text(&Row::Access(row.clone()).key()))
        }
        Call::Walk(caller, identifier) => match walk(tables, caller, identifier) {
            Ok(next) => format!("next {} {} {}", dotted(&next.instance), next.column, key_text(&next.key)),
            Err(number) => number.to_string(),
        },
        Call::Image => format!("image {}", hex(&image::write(tables))),
    }
}

fn match_text<R>(found: Result<Option<R>, Number>, row_found: impl Fn(R) -> String) -> String {
    match found {
        Ok(Some(row)) => row_found(row),
        Ok(None) => "none".to_string(),
        Err(number) => number.to_string(),
    }
}

/// The call that a line says; none for a malformed line.
pub fn call_of(line: &[u8]) -> Option<Call> {
    let mut words = Words::of(line);
    let call = match words.next()? {
        b"decide" => Call::Decide(words.request()?),
        b"explain" => Call::Explain(words.request()?),
        b"owner" => Call::Owner(words.edit()?),
        b"principal" => Call::Principal(words.caller()?, words.edit()?),
        b"set" => Call::Set(words.caller()?, words.edits()?),
        b"encode" => Call::Encode(words.number()?, words.key()?),
        b"decode" => Call::Decode(words.identifier()?),
        b"match" => words.match_call()?,
        b"walk" => Call::Walk(words.caller()?, words.identifier()?),
        b"image" => Call::Image,
        _ => return None,
    };
    if words.over() {
        Some(call)
    } else {
        None
    }
}

// ---- words

struct Words<'a> {
    words: Vec<&'a [u8]>,
    place: usize,
}

impl<'a> Words<'a> {
    /// Split at each space: two spaces together make an empty word, which nothing takes.
    fn of(line: &'a [u8]) -> Words<'a> {
        Words { words: line.split(|byte| *byte == b' ').collect(), place: 0 }
    }

    fn next(&mut self) -> Option<&'a [u8]> {
        let word = self.words.get(self.place)?;
        self.place += 1;
        Some(word)
    }

    fn over(&self) -> bool {
        self.place == self.words.len()
    }

    fn number(&mut self) -> Option<u32> {
        number_of(self.next()?)
    }

    fn octets(&mut self) -> Option<Vec<u8>> {
        octets_of(self.next()?)
    }

    fn identifier(&mut self) -> Option<Identifier> {
        identifier_of(self.next()?)
    }

    fn caller(&mut self) -> Option<Caller> {
        Some(Caller { model: self.number()?, name: self.octets()?, level: self.number()? })
    }

    fn request(&mut self) -> Option<Request> {
        Some(Request {
            model: self.number()?,
            level: self.number()?,
            kind: self.number()?,
            name: self.octets()?,
            context: self.octets()?,
            variable: self.identifier()?,
        })
    }

    fn edit(&mut self) -> Option<Edit> {
        match self.next()? {
            b"create" => Some(Edit::Create(self.row()?)),
            b"change" => Some(Edit::Change(self.row()?)),
            b"remove" => Some(Edit::Remove(self.key()?)),
            _ => None,
        }
    }

    /// All the words that are left: edits with the word `;` between. What the bytes of an edit cannot hold, no set is handed.
    fn edits(&mut self) -> Option<Vec<Edit>> {
        let mut edits = Vec::new();
        while !self.over() {
            if !edits.is_empty() && self.next()? != b";" {
                return None;
            }
            edits.push(self.edit().filter(can_hold)?);
        }
        Some(edits)
    }

    fn match_call(&mut self) -> Option<Call> {
        match self.next()? {
            b"view" => Some(Call::MatchView { name: self.octets()?, variable: self.identifier()? }),
            b"access" => Some(Call::MatchAccess { group: self.octets()?, context: self.octets()?, model: self.number()?, level: self.number()? }),
            _ => None,
        }
    }

    fn key(&mut self) -> Option<Key> {
        match self.next()? {
            b"context" => Some(Key::Context { name: self.octets()? }),
            b"mapping" => Some(Key::Mapping { model: self.number()?, name: self.octets()? }),
            b"access" => Some(Key::Access { group: self.octets()?, prefix: self.octets()?, model: self.number()?, level: self.number()? }),
            b"view" => Some(Key::View { name: self.octets()?, subtree: self.identifier()? }),
            _ => None,
        }
    }

    fn row(&mut self) -> Option<Row> {
        match self.key()? {
            Key::Context { name } => Some(Row::Context(Context { name })),
            Key::Mapping { model, name } => {
                Some(Row::Mapping(Mapping { model, name, group: self.octets()?, storage: self.number()?, status: self.number()? }))
            }
            Key::Access { group, prefix, model, level } => Some(Row::Access(Access {
                group,
                prefix,
                model,
                level,
                matching: self.number()?,
                read: self.octets()?,
                write: self.octets()?,
                notify: self.octets()?,
                storage: self.number()?,
                status: self.number()?,
            })),
            Key::View { name, subtree } => {
                Some(Row::View(View { name, subtree, mask: self.octets()?, kind: self.number()?, storage: self.number()?, status: self.number()? }))
            }
        }
    }
}

/// Whether the bytes of the row, or of the key for a removal, can hold it.
pub fn can_hold(edit: &Edit) -> bool {
    match edit {
        Edit::Create(row) | Edit::Change(row) => image::can_hold_row(row),
        Edit::Remove(key) => image::can_hold_key(key),
    }
}

/// A decimal below 2^32, of one digit or more; leading zeros are taken.
fn number_of(word: &[u8]) -> Option<u32> {
    if word.is_empty() {
        return None;
    }
    let mut value: u64 = 0;
    for byte in word {
        if !byte.is_ascii_digit() {
            return None;
        }
        value = 10 * value + u64::from(byte - b'0');
        if value > u64::from(u32::MAX) {
            return None;
        }
    }
    Some(value as u32)
}

/// Octets of two hex digits each, upper or lower case; `-` for none.
fn octets_of(word: &[u8]) -> Option<Vec<u8>> {
    if word == b"-" {
        return Some(Vec::new());
    }
    if word.is_empty() || !word.len().is_multiple_of(2) {
        return None;
    }
    word.chunks(2).map(|pair| Some(16 * digit(pair[0])? + digit(pair[1])?)).collect()
}

fn digit(byte: u8) -> Option<u8> {
    (byte as char).to_digit(16).map(|value| value as u8)
}

/// Decimals with one dot between; `-` for no part.
fn identifier_of(word: &[u8]) -> Option<Identifier> {
    if word == b"-" {
        return Some(Vec::new());
    }
    word.split(|byte| *byte == b'.').map(number_of).collect()
}

// ---- printing

pub fn hex(bytes: &[u8]) -> String {
    bytes.iter().map(|byte| format!("{byte:02x}")).collect()
}

pub fn hex_or_dash(octets: &[u8]) -> String {
    if octets.is_empty() {
        "-".to_string()
    } else {
        hex(octets)
    }
}

pub fn dotted(identifier: &[u32]) -> String {
    if identifier.is_empty() {
        return "-".to_string();
    }
    let parts: Vec<String> = identifier.iter().map(u32::to_string).collect();
    parts.join(".")
}

pub fn key_text(key: &Key) -> String {
    match key {
        Key::Context { name } => format!("context {}", hex_or_dash(name)),
        Key::Mapping { model, name } => format!("mapping {} {}", model, hex_or_dash(name)),
        Key::Access { group, prefix, model, level } => {
            format!("access {} {} {} {}", hex_or_dash(group), hex_or_dash(prefix), model, level)
        }
        Key::View { name, subtree } => format!("view {} {}", hex_or_dash(name), dotted(subtree)),
    }
}

pub fn row_text(row: &Row) -> String {
    let key = key_text(&row.key());
    match row {
        Row::Context(_) => key,
        Row::Mapping(r) => format!("{} {} {} {}", key, hex_or_dash(&r.group), r.storage, r.status),
        Row::Access(r) => {
            let views = [&r.read, &r.write, &r.notify].map(|name| hex_or_dash(name)).join(" ");
            format!("{} {} {} {} {}", key, r.matching, views, r.storage, r.status)
        }
        Row::View(r) => format!("{} {} {} {} {}", key, hex_or_dash(&r.mask), r.kind, r.storage, r.status),
    }
}

pub fn set_answer_text(answer: SetAnswer) -> String {
    format!("{} {}", answer.number, answer.position)
}

/// The number, then the rows shown.
fn explanation_text(explanation: &Explanation) -> String {
    let rows = explanation.rows().into_iter().flatten().map(|row| row_text(&row));
    [explanation.number.to_string()].into_iter().chain(rows).collect::<Vec<String>>().join(" ")
}

/// The line of `tryreq`, and of `trycalls` after the words `decide` and `explain`.
pub fn request_text(request: &Request) -> String {
    format!(
        "{} {} {} {} {} {}",
        request.model,
        request.level,
        request.kind,
        hex_or_dash(&request.name),
        hex_or_dash(&request.context),
        dotted(&request.variable)
    )
}

pub fn call_text(call: &Call) -> String {
    match call {
        Call::Decide(request) => format!("decide {}", request_text(request)),
        Call::Explain(request) => format!("explain {}", request_text(request)),
        Call::Owner(edit) => format!("owner {}", edit_text(edit)),
        Call::Principal(caller, edit) => format!("principal {} {}", caller_text(caller), edit_text(edit)),
        Call::Set(caller, edits) => set_text(caller, edits),
        Call::Encode(column, key) => format!("encode {} {}", column, key_text(key)),
        Call::Decode(identifier) => format!("decode {}", dotted(identifier)),
        Call::MatchView { name, variable } => format!("match view {} {}", hex_or_dash(name), dotted(variable)),
        Call::MatchAccess { group, context, model, level } => {
            format!("match access {} {} {} {}", hex_or_dash(group), hex_or_dash(context), model, level)
        }
        Call::Walk(caller, identifier) => format!("walk {} {}", caller_text(caller), dotted(identifier)),
        Call::Image => "image".to_string(),
    }
}

fn caller_text(caller: &Caller) -> String {
    format!("{} {} {}", caller.model, hex_or_dash(&caller.name), caller.level)
}

fn set_text(caller: &Caller, edits: &[Edit]) -> String {
    let edits = edits.iter().map(edit_text).collect::<Vec<String>>().join(" ; ");
    // a set without edits ends with its caller
    format!("set {} {edits}", caller_text(caller)).trim_end().to_string()
}

fn edit_text(edit: &Edit) -> String {
    match edit {
        Edit::Create(row) => format!("create {}", row_text(row)),
        Edit::Change(row) => format!("change {}", row_text(row)),
        Edit::Remove(key) => format!("remove {}", key_text(key)),
    }
}
