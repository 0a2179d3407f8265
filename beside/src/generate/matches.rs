//! Matches near held rows, where step 3 and step 5 choose.

use super::requests::{dense_variable, edge_variable, level_about, long_name, near_subtree, AROUND, MODELS_AROUND};
use super::world::{near_name, row, World};
use crate::random::Random;
use crate::reference::lines::Call;
use crate::reference::rows::*;
use crate::reference::tables::Tables;

/// At, below, above or beside the subtree of a held view row; now and then of a row that is not held.
pub fn match_view(random: &mut Random, world: &World, tables: &Tables) -> Call {
    let Row::View(near) = row_of(random, world, tables, Table::View) else { unreachable!() };
    let mut name = near.name;
    let mut variable = near_subtree(random, &near.subtree, &near.mask);
    if world.dense && random.chance(60) {
        variable = dense_variable(random);
    }
    match random.below(16) {
        0 => name = near_name(random, &name),
        1 => name = edge_name(random, &name),
        2 => edge_variable(random, &mut variable),
        _ => {}
    }
    Call::MatchView { name, variable }
}

/// In a context, under a model and at a level about those of a held access row; now and then of a row that is not held.
pub fn match_access(random: &mut Random, world: &World, tables: &Tables) -> Call {
    let Row::Access(near) = row_of(random, world, tables, Table::Access) else { unreachable!() };
    let mut group = near.group;
    let mut context = context_about(random, tables, &near.prefix);
    let mut model = if near.model == 0 || random.chance(15) { random.of(&world.models) } else { near.model };
    let mut level = level_about(random, near.level);
    match random.below(24) {
        0 => group = near_name(random, &group),
        1 => group = edge_name(random, &group),
        2 => context = edge_name(random, &context),
        3 => model = random.of(&MODELS_AROUND),
        4 => level = random.of(&AROUND),
        _ => {}
    }
    Call::MatchAccess { group, context, model, level }
}

fn row_of(random: &mut Random, world: &World, tables: &Tables, table: Table) -> Row {
    let rows = tables.rows_of(table);
    if !rows.is_empty() && random.chance(85) {
        random.pick(&rows).clone()
    } else {
        row(random, world, table)
    }
}

/// The prefix itself, a held context that it begins, the beginning of a held context, or a name near the prefix.
fn context_about(random: &mut Random, tables: &Tables, prefix: &Name) -> Name {
    let begun: Vec<&Context> = tables.contexts.iter().filter(|row| row.name.starts_with(prefix)).collect();
    match random.below(8) {
        0..=3 if !begun.is_empty() => random.pick(&begun).name.clone(),
        4 if !tables.contexts.is_empty() => {
            let name = &random.pick(&tables.contexts).name;
            name[..random.between(0, name.len())].to_vec()
        }
        5 => near_name(random, prefix),
        _ => prefix.clone(),
    }
}

/// A name of a length at an end of its range or just past it, also by 256.
fn edge_name(random: &mut Random, from: &[u8]) -> Name {
    if random.chance(30) {
        return long_name(random, from);
    }
    let mut name = from.to_vec();
    name.resize(random.of(&[0, 1, NAME_LIMIT, NAME_LIMIT + 1]), b'a');
    name
}
