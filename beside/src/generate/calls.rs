//! Calls of `trycalls` on the tables as they stand: edits of all kinds, sets of them, decisions, explanations, matches, instances.

use super::matches::{match_access, match_view};
use super::requests::{long_name, principal, request, AROUND, MODELS_AROUND};
use super::sets::set_in_a_line;
use super::world::{held_key, key, near_identifier, near_name, row, table, World};
use crate::random::Random;
use crate::reference::edits::{judge_principal, Caller, Edit};
use crate::reference::instance;
use crate::reference::lines::Call;
use crate::reference::rows::*;
use crate::reference::tables::Tables;

pub fn call(random: &mut Random, world: &World, tables: &Tables) -> Call {
    match random.below(29) {
        0..=6 => Call::Owner(edit(random, world, tables)),
        7..=12 => principal_call(random, world, tables),
        13..=16 => Call::Decide(request(random, world, tables)),
        17..=19 => Call::Explain(request(random, world, tables)),
        20 => {
            let table = table(random);
            let mut key = held_key(random, world, tables, table);
            if random.chance(20) {
                spoil_key(random, &mut key);
            }
            Call::Encode(column(random, table), key)
        }
        21 | 22 => match_view(random, world, tables),
        23 | 24 => match_access(random, world, tables),
        25 | 26 => set_in_a_line(random, world, tables),
        _ => Call::Decode(instance_near(random, world, tables)),
    }
}

/// Of some edits mostly one that the tables let the principal make.
pub fn principal_call(random: &mut Random, world: &World, tables: &Tables) -> Call {
    let mut tries = random.between(1, 10);
    loop {
        let caller = caller(random, world, tables, |row| &row.write);
        let edit = edit(random, world, tables);
        tries -= 1;
        if tries == 0 || [0, 10, 11, 18].contains(&judge_principal(tables, &caller, &edit)) {
            return Call::Principal(caller, edit);
        }
    }
}

pub fn edit(random: &mut Random, world: &World, tables: &Tables) -> Edit {
    let table = if random.chance(6) { Table::Context } else { table(random) };
    edit_in(random, world, tables, table)
}

pub fn edit_in(random: &mut Random, world: &World, tables: &Tables, table: Table) -> Edit {
    if random.chance(30) {
        let mut key = held_key(random, world, tables, table);
        if random.chance(8) {
            spoil_key(random, &mut key);
        }
        return Edit::Remove(key);
    }
    let mut row = row(random, world, table);
    let rows = tables.rows_of(table);
    if !rows.is_empty() && random.chance(40) {
        // a held row again, whole or with its other fields changed
        let held = random.pick(&rows).clone();
        row = if random.chance(25) { held } else { with_key(row, held.key()) };
    }
    if random.chance(8) {
        spoil_row(random, &mut row);
    }
    mostly_fitting(random, tables, row)
}

/// The edit that brings the row in: a change where its key is held, a create where it is not.
pub fn fitting(tables: &Tables, row: Row) -> Edit {
    if tables.held(&row.key()).is_some() {
        Edit::Change(row)
    } else {
        Edit::Create(row)
    }
}

/// The edit that brings the row in; now and then the other one, which is refused for a row held or absent.
pub fn mostly_fitting(random: &mut Random, tables: &Tables, row: Row) -> Edit {
    match fitting(tables, row) {
        Edit::Change(row) if random.chance(20) => Edit::Create(row),
        Edit::Create(row) if random.chance(20) => Edit::Change(row),
        edit => edit,
    }
}

pub fn with_key(row: Row, key: Key) -> Row {
    match (row, key) {
        (Row::Context(_), Key::Context { name }) => Row::Context(Context { name }),
        (Row::Mapping(r), Key::Mapping { model, name }) => Row::Mapping(Mapping { model, name, ..r }),
        (Row::Access(r), Key::Access { group, prefix, model, level }) => Row::Access(Access { group, prefix, model, level, ..r }),
        (Row::View(r), Key::View { name, subtree }) => Row::View(View { name, subtree, ..r }),
        (row, _) => row,
    }
}

/// Mostly a principal that has the view asked for.
pub fn caller(random: &mut Random, world: &World, tables: &Tables, view: fn(&Access) -> &Name) -> Caller {
    let (model, name) = match granted(random, tables, view) {
        Some(mapping) if random.chance(75) => (mapping.model, mapping.name),
        _ => principal(random, world, tables),
    };
    let mut caller = Caller { model, name, level: random.of(&[1, 2, 3, 3]) };
    if random.chance(5) {
        match random.below(3) {
            0 => caller.model = random.of(&MODELS_AROUND),
            1 => caller.name = long_name(random, &caller.name),
            _ => caller.level = random.of(&AROUND),
        }
    }
    caller
}

/// A principal whose group has the view in the empty context.
fn granted(random: &mut Random, tables: &Tables, view: fn(&Access) -> &Name) -> Option<Mapping> {
    let has_view = |group: &Name| tables.accesses.iter().any(|row| row.group == *group && row.prefix.is_empty() && !view(row).is_empty());
    let rows: Vec<&Mapping> = tables.mappings.iter().filter(|row| row.status == 1 && has_view(&row.group)).collect();
    if rows.is_empty() {
        None
    } else {
        Some((*random.pick(&rows)).clone())
    }
}

fn column(random: &mut Random, table: Table) -> u32 {
    if random.chance(70) {
        random.of(instance::columns(table))
    } else {
        random.of(&[0, 1, 2, 3, 4, 5, 6, 7, 8, 9, 10, 256, 257, 259, 261, u32::MAX])
    }
}

fn instance_near(random: &mut Random, world: &World, tables: &Tables) -> Identifier {
    let table = table(random);
    let key = if random.chance(50) { held_key(random, world, tables, table) } else { key(random, world, table) };
    let mut identifier = instance::encode(random.of(instance::columns(table)), &key).expect("a legal key");
    match random.below(8) {
        0..=2 => {}
        3 => {
            // an octet, a length or a number out of range
            let place = random.between(9, identifier.len() - 1);
            let by = random.of(&[1, u32::MAX, 31, 32, 256, 1 << 31]);
            identifier[place] = identifier[place].wrapping_add(by);
        }
        4 => {
            let place = random.between(9, identifier.len() - 1);
            identifier[place] = random.of(&[0, 1, 4, 32, 33, 64, 65, 255, 256, 257, LARGEST_MODEL, LARGEST_MODEL + 1, u32::MAX]);
        }
        5 => identifier.truncate(random.between(0, identifier.len())),
        6 => identifier.resize(random.of(&[identifier.len() + 1, 110, 111, 128, 129, 200, 256 + identifier.len()]), 1),
        _ => identifier = near_identifier(random, &identifier),
    }
    identifier
}

// ---- fields out of range

/// A field below, at or above its range, also by 256.
pub fn spoil_row(random: &mut Random, row: &mut Row) {
    let small = random.of(&AROUND);
    match row {
        Row::Context(r) => r.name = long_name(random, &r.name),
        Row::Mapping(r) => match random.below(5) {
            0 => r.model = random.of(&MODELS_AROUND),
            1 => r.name = long_name(random, &r.name),
            2 => r.group = long_name(random, &r.group),
            3 => r.storage = small,
            _ => r.status = small,
        },
        Row::Access(r) => match random.below(10) {
            0 => r.group = long_name(random, &r.group),
            1 => r.prefix = long_name(random, &r.prefix),
            2 => r.model = random.of(&MODELS_AROUND),
            3 => r.level = small,
            4 => r.matching = small,
            5 => r.read = long_name(random, &r.read),
            6 => r.write = long_name(random, &r.write),
            7 => r.notify = long_name(random, &r.notify),
            8 => r.storage = small,
            _ => r.status = small,
        },
        Row::View(r) => match random.below(6) {
            0 => r.name = long_name(random, &r.name),
            1 => long_subtree(random, &mut r.subtree),
            2 => r.mask.resize(random.of(&[16, 17, 18, 255, 256, 257, 272]), 0xff),
            3 => r.kind = small,
            4 => r.storage = small,
            _ => r.status = small,
        },
    }
}

pub fn spoil_key(random: &mut Random, key: &mut Key) {
    match key {
        Key::Context { name } => *name = long_name(random, name),
        Key::Mapping { model, name } => match random.below(3) {
            0 => *model = random.of(&MODELS_AROUND),
            1 => *name = near_name(random, name),
            _ => *name = long_name(random, name),
        },
        Key::Access { group, prefix, model, level } => match random.below(4) {
            0 => *group = long_name(random, group),
            1 => *prefix = long_name(random, prefix),
            2 => *model = random.of(&MODELS_AROUND),
            _ => *level = random.of(&AROUND),
        },
        Key::View { name, subtree } => match random.below(2) {
            0 => *name = long_name(random, name),
            _ => long_subtree(random, subtree),
        },
    }
}

fn long_subtree(random: &mut Random, subtree: &mut Identifier) {
    let length = random.of(&[0, 1, 64, 65, 66, 128, 129, 255, 256, 257, 256 + subtree.len().min(60)]);
    subtree.resize(length, 1);
}
