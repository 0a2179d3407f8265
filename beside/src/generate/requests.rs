//! Decision requests near the boundary of each step.

use super::world::{identifier, name, near_identifier, near_name, World};
use crate::random::Random;
use crate::reference::decision::{mask_bit, view_of, Request};
use crate::reference::image::AgentRequest;
use crate::reference::rows::*;
use crate::reference::tables::Tables;

pub fn request(random: &mut Random, world: &World, tables: &Tables) -> Request {
    let (model, name) = principal(random, world, tables);
    let mut request = Request {
        model,
        name,
        level: random.between(1, 3) as u32,
        kind: random.between(1, 3) as u32,
        context: context(random, world, tables),
        variable: Vec::new(),
    };
    if random.chance(70) {
        toward_access(random, tables, &mut request);
    }
    request.variable = variable(random, world, tables, &request);
    if random.chance(12) {
        edge(random, &mut request);
    }
    request
}

/// Turns a request to an access row that some principal and some context meet, at a level about the row's.
fn toward_access(random: &mut Random, tables: &Tables, request: &mut Request) {
    for _ in 0..6 {
        if tables.accesses.is_empty() {
            return;
        }
        let access = random.pick(&tables.accesses);
        let serves = |row: &&Mapping| row.group == access.group && (access.model == 0 || access.model == row.model);
        let mappings: Vec<&Mapping> = tables.mappings.iter().filter(serves).collect();
        let contexts: Vec<&Context> = tables.contexts.iter().filter(|row| row.name.starts_with(&access.prefix)).collect();
        if mappings.is_empty() || contexts.is_empty() {
            continue;
        }
        let mapping = random.pick(&mappings);
        request.model = mapping.model;
        request.name = mapping.name.clone();
        let exact = access.matching == 1 && contexts[0].name == access.prefix && random.chance(80);
        request.context = if exact { access.prefix.clone() } else { random.pick(&contexts).name.clone() };
        request.level = level_about(random, access.level);
        return;
    }
}

/// A legal level, mostly one at which a row of this level counts.
pub fn level_about(random: &mut Random, level: u32) -> u32 {
    let enough = (level + random.of(&[0, 0, 1])).min(3);
    if random.chance(8) {
        level.max(2) - 1
    } else {
        enough
    }
}

/// Mostly a principal of the mapping table.
pub fn principal(random: &mut Random, world: &World, tables: &Tables) -> (u32, Name) {
    let (mut model, mut name) = match tables.mappings.len() {
        0 => (random.of(&world.models), random.pick(&world.names).clone()),
        _ => {
            let row = random.pick(&tables.mappings);
            (row.model, row.name.clone())
        }
    };
    match random.below(20) {
        0 => model = random.of(&world.models),
        1 => name = random.pick(&world.names).clone(),
        2 => name = near_name(random, &name),
        _ => {}
    }
    (model, name)
}

fn context(random: &mut Random, world: &World, tables: &Tables) -> Name {
    if !tables.contexts.is_empty() && random.chance(90) {
        return random.pick(&tables.contexts).name.clone();
    }
    let context = random.pick(&world.contexts).clone();
    if random.chance(50) {
        near_name(random, &context)
    } else {
        context
    }
}

/// Near a subtree of the view that the request's steps lead to.
fn variable(random: &mut Random, world: &World, tables: &Tables, request: &Request) -> Identifier {
    if world.dense && random.chance(60) {
        return dense_variable(random);
    }
    if let Ok(view) = view_of(tables, request) {
        let rows: Vec<&View> = tables.views.iter().filter(|row| row.name == view).collect();
        let row = *random.pick(&rows);
        return near_subtree(random, &row.subtree, &row.mask);
    }
    let subtree = random.pick(&world.subtrees).clone();
    near_subtree(random, &subtree, &[])
}

/// A variable that many rows of a dense world match.
pub fn dense_variable(random: &mut Random) -> Identifier {
    (0..random.between(1, 6)).map(|_| random.between(1, 2) as u32).collect()
}

pub fn near_subtree(random: &mut Random, subtree: &[u32], mask: &[u8]) -> Identifier {
    let mut variable = subtree.to_vec();
    // parts that the mask lets differ
    if random.chance(60) {
        for (i, part) in variable.iter_mut().enumerate() {
            if !mask_bit(mask, i) && random.chance(60) {
                *part = part.wrapping_add(random.of(&[1, 2, u32::MAX]));
            }
        }
    }
    match random.below(12) {
        0 | 1 => {}
        2..=4 => {
            let more = random.between(1, 3);
            variable.extend(identifier(random, more));
        }
        5 => {
            variable.pop();
        }
        6 | 7 => {
            let place = random.below(variable.len());
            variable[place] = variable[place].wrapping_add(random.of(&[1, u32::MAX, 256, 1 << 31]));
        }
        8 => {
            let last = variable.len() - 1;
            variable[last] = variable[last].wrapping_add(random.of(&[1, u32::MAX]));
        }
        9 => variable.resize(random.of(&[VARIABLE_LIMIT - 1, VARIABLE_LIMIT, VARIABLE_LIMIT, VARIABLE_LIMIT + 1]), 1),
        10 => variable = near_identifier(random, &variable),
        _ => {
            let length = random.of(&[1, 1, 2, 8, 64, 65]);
            variable = identifier(random, length);
        }
    }
    variable
}

/// Values around a range of small numbers, among them those that a byte would wrap into the range.
pub const AROUND: [u32; 12] = [0, 1, 2, 3, 4, 5, 6, 255, 256, 257, 258, u32::MAX];

pub const MODELS_AROUND: [u32; 6] = [0, 1, LARGEST_MODEL, LARGEST_MODEL + 1, LARGEST_MODEL + 4, u32::MAX];

/// A name longer than any, also by 256.
pub fn long_name(random: &mut Random, from: &[u8]) -> Name {
    let mut long = from.to_vec();
    match random.below(5) {
        0 => long.resize(NAME_LIMIT + 1, b'a'),
        1 => long.resize(NAME_LIMIT + 2, b'a'),
        2 => long.resize(long.len() + 256, b'a'),
        3 => long.resize(random.of(&[255, 256, 257]), b'a'),
        _ => long.clear(),
    }
    long
}

pub fn edge(random: &mut Random, request: &mut Request) {
    match random.below(7) {
        0 => request.level = random.of(&AROUND),
        1 => request.kind = random.of(&AROUND),
        2 => request.model = random.of(&MODELS_AROUND),
        3 => request.name = long_name(random, &request.name),
        4 => request.context = long_name(random, &request.context),
        5 => request.context = name(random, 0),
        _ => edge_variable(random, &mut request.variable),
    }
}

/// A variable cut or lengthened to an end of its range or just past it, also by 256.
pub fn edge_variable(random: &mut Random, variable: &mut Identifier) {
    let length = random.of(&[0, 0, 1, 127, 128, 128, 129, 129, 130, 256 + variable.len().min(128)]);
    variable.resize(length, 1);
}

/// The same request as the agent hands it, now and then with a torn last part.
pub fn agent_request(random: &mut Random, request: &Request) -> AgentRequest {
    let mut asked = whole(request);
    if random.chance(4) {
        asked.variable.truncate(asked.variable.len().saturating_sub(random.between(1, 3)));
    } else if random.chance(2) {
        asked.variable.push(0);
    }
    asked
}

pub fn whole(request: &Request) -> AgentRequest {
    AgentRequest {
        model: request.model,
        name: request.name.clone(),
        level: request.level,
        kind: request.kind,
        context: request.context.clone(),
        variable: request.variable.iter().flat_map(|part| part.to_be_bytes()).collect(),
    }
}
