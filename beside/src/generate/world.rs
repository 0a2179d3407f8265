//! A world is the pools that rows and requests are drawn from; tables are filled from it.

use crate::random::Random;
use crate::reference::instance;
use crate::reference::rows::*;
use crate::reference::tables::Tables;

pub struct World {
    pub contexts: Vec<Name>,
    pub names: Vec<Name>,
    pub groups: Vec<Name>,
    pub views: Vec<Name>,
    pub models: Vec<u32>,
    pub subtrees: Vec<Identifier>,
    /// Every field at its greatest length.
    pub maximal: bool,
    /// Many access rows for one request and many view rows for one variable.
    pub dense: bool,
}

#[derive(Clone, Copy, PartialEq, Eq)]
pub enum Size {
    Small,
    Wide,
    Dense,
    Maximal,
}

/// The tables' own instances lie below this.
pub const OWN_TABLES: [u32; 8] = [1, 3, 6, 1, 6, 3, 16, 1];

impl World {
    pub fn new(random: &mut Random, size: Size) -> World {
        let models = vec![1, 3, random.between(2, 300) as u32, LARGEST_MODEL, 0x0102_0304];
        match size {
            Size::Small => World {
                contexts: family(random, 0, 5),
                names: family(random, 1, 5),
                groups: family(random, 1, 2),
                views: family(random, 1, 3),
                models,
                subtrees: subtrees(random, 12),
                maximal: false,
                dense: false,
            },
            Size::Wide => World {
                contexts: family(random, 0, 24),
                names: family(random, 1, 30),
                groups: family(random, 1, 5),
                views: family(random, 1, 5),
                models,
                subtrees: subtrees(random, 60),
                maximal: false,
                dense: false,
            },
            Size::Dense => World {
                contexts: (0..7).map(|length| b"repeat"[..length].to_vec()).collect(),
                names: family(random, 1, 3),
                groups: family(random, 1, 2),
                views: family(random, 1, 3),
                models: vec![1, 3],
                subtrees: short_identifiers(),
                maximal: false,
                dense: true,
            },
            Size::Maximal => World {
                contexts: long_names(random, 24),
                names: long_names(random, 30),
                groups: long_names(random, 6),
                views: long_names(random, 3),
                models,
                subtrees: long_subtrees(random, 60),
                maximal: true,
                dense: false,
            },
        }
    }

    pub fn any(random: &mut Random) -> World {
        let size = random.of(&[Size::Small, Size::Wide, Size::Wide, Size::Dense, Size::Dense, Size::Maximal]);
        World::new(random, size)
    }
}

// ---- names and identifiers

const OCTETS: [u8; 8] = [b'a', b'b', b'c', 0, 1, 0x7f, 0x80, 0xff];

fn octet(random: &mut Random) -> u8 {
    if random.chance(90) {
        random.of(&OCTETS)
    } else {
        random.word() as u8
    }
}

pub fn name(random: &mut Random, least: usize) -> Name {
    let length = match random.below(6) {
        0 => least,
        1 => NAME_LIMIT,
        2 => NAME_LIMIT - 1,
        3 => random.between(least, NAME_LIMIT),
        _ => random.between(least, 4),
    };
    (0..length).map(|_| octet(random)).collect()
}

/// A name near another: longer or shorter by one, or different in one octet.
pub fn near_name(random: &mut Random, from: &[u8]) -> Name {
    let mut near = from.to_vec();
    match random.below(5) {
        0 => near.push(octet(random)),
        1 => {
            near.pop();
        }
        2 if !near.is_empty() => {
            let last = near.len() - 1;
            near[last] = near[last].wrapping_add(random.of(&[1, 255]));
        }
        3 if !near.is_empty() => {
            let place = random.below(near.len());
            near[place] = octet(random);
        }
        _ => near.resize(NAME_LIMIT, b'a'),
    }
    near
}

fn family(random: &mut Random, least: usize, count: usize) -> Vec<Name> {
    let mut names: Vec<Name> = vec![name(random, least)];
    if least == 0 && !names[0].is_empty() {
        names.push(Vec::new());
    }
    while names.len() < count {
        let from = random.pick(&names).clone();
        let new = if random.chance(15) { name(random, least) } else { near_name(random, &from) };
        if new.len() >= least && new.len() <= NAME_LIMIT && !names.contains(&new) {
            names.push(new);
        }
    }
    names
}

fn long_names(random: &mut Random, count: usize) -> Vec<Name> {
    let mut base: Name = (0..NAME_LIMIT).map(|_| octet(random)).collect();
    (0..count)
        .map(|i| {
            base[NAME_LIMIT - 1] = i as u8;
            base.clone()
        })
        .collect()
}

fn part(random: &mut Random) -> u32 {
    match random.below(8) {
        0 => 0,
        1 => u32::MAX,
        2 => random.of(&[127, 128, 255, 256, 65_535, 65_536, LARGEST_MODEL, LARGEST_MODEL + 1]),
        3 => random.word() as u32,
        _ => random.between(1, 4) as u32,
    }
}

pub fn identifier(random: &mut Random, length: usize) -> Identifier {
    (0..length).map(|_| part(random)).collect()
}

pub fn near_identifier(random: &mut Random, from: &[u32]) -> Identifier {
    let mut near = from.to_vec();
    match random.below(6) {
        0 | 1 => near.push(part(random)),
        2 => {
            near.pop();
        }
        3 if !near.is_empty() => {
            let last = near.len() - 1;
            near[last] = near[last].wrapping_add(random.of(&[1, u32::MAX]));
        }
        4 if !near.is_empty() => {
            let place = random.below(near.len());
            near[place] = part(random);
        }
        _ => {
            let length = random.of(&[SUBTREE_LIMIT, SUBTREE_LIMIT, SUBTREE_LIMIT - 1, 8, 9, 16, 17]);
            near.resize(length, 1);
        }
    }
    near
}

/// Identifiers near each other, and some that lie above the tables' own instances.
fn subtrees(random: &mut Random, count: usize) -> Vec<Identifier> {
    let mut subtrees = vec![vec![1, 3, 6, 1], OWN_TABLES.to_vec(), [&OWN_TABLES[..], &[2, 1, 5]].concat()];
    subtrees.push([&OWN_TABLES[..], &[4, 1, 9]].concat());
    subtrees.push([&OWN_TABLES[..], &[5, 2, 1, 6]].concat());
    let length = random.between(1, 14);
    subtrees.push(identifier(random, length));
    while subtrees.len() < count {
        let from = random.pick(&subtrees).clone();
        let new = near_identifier(random, &from);
        if legal_subtree(&new) && !subtrees.contains(&new) {
            subtrees.push(new);
        }
    }
    subtrees
}

/// All of one to five parts that are 1 or 2.
fn short_identifiers() -> Vec<Identifier> {
    (1..=5).flat_map(|length| (0..1u32 << length).map(move |bits| (0..length).map(|i| 1 + (bits >> i & 1)).collect())).collect()
}

fn long_subtrees(random: &mut Random, count: usize) -> Vec<Identifier> {
    let mut base = identifier(random, SUBTREE_LIMIT);
    (0..count)
        .map(|i| {
            base[SUBTREE_LIMIT - 1] = i as u32;
            base.clone()
        })
        .collect()
}

/// Masks of every length, with few or many zero bits, short of the subtree or beyond it.
pub fn mask(random: &mut Random, subtree: &[u32], world: &World) -> Vec<u8> {
    if world.dense {
        return if random.chance(30) { Vec::new() } else { vec![random.word() as u8] };
    }
    let fitting = subtree.len().div_ceil(8);
    let length = match random.below(6) {
        _ if world.maximal => MASK_LIMIT,
        0 | 1 => 0,
        2 => random.between(0, MASK_LIMIT),
        3 => MASK_LIMIT,
        _ => fitting.min(MASK_LIMIT),
    };
    let kind = random.below(5);
    let mut mask: Vec<u8> = (0..length)
        .map(|_| match kind {
            0 => 0xff,
            1 => 0,
            2 => random.word() as u8,
            _ => 0xff,
        })
        .collect();
    if kind >= 3 && length > 0 {
        let bit = random.below((8 * length).min(subtree.len() + 2));
        mask[bit / 8] &= !(128 >> (bit % 8));
    }
    mask
}

/// The mask that lets the column of an instance differ.
pub fn any_column(table: Table) -> Vec<u8> {
    let place = instance::base(table).len();
    let mut mask = vec![0xff; 2];
    mask[place / 8] &= !(128 >> (place % 8));
    mask
}

// ---- rows

pub fn row(random: &mut Random, world: &World, table: Table) -> Row {
    let storage = random.of(&[3, 3, 3, 2, 4, 5]);
    let status = random.of(&[1, 1, 1, 1, 1, 2]);
    match table {
        Table::Context => Row::Context(Context { name: random.pick(&world.contexts).clone() }),
        Table::Mapping => Row::Mapping(Mapping {
            model: random.of(&world.models),
            name: random.pick(&world.names).clone(),
            group: random.pick(&world.groups).clone(),
            storage,
            status,
        }),
        Table::Access => Row::Access(Access {
            group: random.pick(&world.groups).clone(),
            prefix: prefix(random, world),
            model: if random.chance(40) { 0 } else { random.of(&world.models) },
            level: random.between(1, 3) as u32,
            matching: random.of(&[1, 2, 2]),
            read: view_name(random, world),
            write: view_name(random, world),
            notify: view_name(random, world),
            storage,
            status,
        }),
        Table::View => {
            let subtree = random.pick(&world.subtrees).clone();
            let mask = mask(random, &subtree, world);
            let kind = random.of(&[1, 1, 2]);
            Row::View(View { name: random.pick(&world.views).clone(), subtree, mask, kind, storage, status })
        }
    }
}

/// A context's whole name, its beginning, or no octets.
fn prefix(random: &mut Random, world: &World) -> Name {
    let context = random.pick(&world.contexts).clone();
    match random.below(4) {
        _ if world.maximal => context,
        0 => Vec::new(),
        1 => context[..random.between(0, context.len())].to_vec(),
        _ => context,
    }
}

fn view_name(random: &mut Random, world: &World) -> Name {
    if !world.maximal && random.chance(8) {
        Vec::new()
    } else {
        random.pick(&world.views).clone()
    }
}

pub fn key(random: &mut Random, world: &World, table: Table) -> Key {
    row(random, world, table).key()
}

/// The key of a held row, or any of the world.
pub fn held_key(random: &mut Random, world: &World, tables: &Tables, table: Table) -> Key {
    let rows = tables.rows_of(table);
    if !rows.is_empty() && random.chance(80) {
        random.pick(&rows).key()
    } else {
        key(random, world, table)
    }
}

pub fn table(random: &mut Random) -> Table {
    random.of(&[Table::Context, Table::Mapping, Table::Mapping, Table::Access, Table::Access, Table::View, Table::View, Table::View])
}

// ---- tables

/// Tables with about the counts asked for; a table whose pools are too small for that has fewer rows.
pub fn filled(random: &mut Random, world: &World, counts: [usize; 4]) -> Tables {
    let mut tables = Tables::default();
    for (table, count) in TABLES.into_iter().zip(counts) {
        for _ in 0..8 * count {
            if tables.count(table) == count.min(table.limit()) {
                break;
            }
            tables.put(row(random, world, table));
        }
    }
    tables
}

/// Tables from empty to completely full.
pub fn tables(random: &mut Random, world: &World) -> Tables {
    let full = TABLES.map(Table::limit);
    let counts = match random.below(8) {
        0 => full,
        1 => full.map(|limit| limit / 2),
        2 => TABLES.map(|table| random.of(&[0, 1, table.limit()])),
        3 => TABLES.map(|_| random.between(0, 2)),
        _ => TABLES.map(|table| random.between(1, table.limit().min(12))),
    };
    let mut tables = filled(random, world, counts);
    if counts != full && random.chance(70) {
        grant(random, world, &mut tables);
    }
    tables
}

/// Lets one principal edit rows: the empty context, a mapping, an access row for it, and a view that has some or all of the tables'
/// instances.
pub fn grant(random: &mut Random, world: &World, tables: &mut Tables) -> Mapping {
    let view = random.pick(&world.views).clone();
    let mut mapping = match row(random, world, Table::Mapping) {
        Row::Mapping(mapping) => mapping,
        _ => unreachable!(),
    };
    mapping.status = 1;
    let access = Access {
        group: mapping.group.clone(),
        prefix: Vec::new(),
        model: if random.chance(50) { 0 } else { mapping.model },
        level: random.of(&[1, 1, 2, 3]),
        matching: random.of(&[1, 2]),
        read: view.clone(),
        write: view.clone(),
        notify: view.clone(),
        storage: 3,
        status: 1,
    };
    let mut rows = vec![Row::Context(Context { name: Vec::new() }), Row::Mapping(mapping.clone()), Row::Access(access)];
    for (subtree, mask, kind) in granted_families(random, world) {
        rows.push(Row::View(View { name: view.clone(), subtree, mask, kind, storage: 3, status: 1 }));
    }
    for row in rows {
        make_room(random, tables, &row.key());
        tables.put(row);
    }
    mapping
}

/// Subtrees with their masks and types: all of the tables' instances, all but some columns of a table, some of its columns, or a row at
/// one column or at all of them, by its front where its instance is long.
fn granted_families(random: &mut Random, world: &World) -> Vec<(Identifier, Vec<u8>, u32)> {
    let table = random.of(&[Table::Mapping, Table::Access, Table::View]);
    let listed = instance::columns(table);
    let mut some = listed.to_vec();
    random.shuffle(&mut some);
    some.truncate(random.between(1, listed.len()));
    let columns = |kind: u32| some.iter().map(move |column| ([instance::base(table), &[*column]].concat(), Vec::new(), kind));
    let all = (OWN_TABLES.to_vec(), Vec::new(), 1);
    match random.below(8) {
        0 => {
            let mut front = instance::encode(some[0], &key(random, world, table)).expect("a legal key and a listed column");
            front.truncate(random.between(8, SUBTREE_LIMIT));
            vec![(front, if random.chance(50) { Vec::new() } else { any_column(table) }, 1)]
        }
        1 => vec![(vec![1], Vec::new(), 1)],
        2 => columns(1).collect(),
        3 => [all].into_iter().chain(columns(2)).collect(),
        _ => vec![all],
    }
}

pub fn make_room(random: &mut Random, tables: &mut Tables, key: &Key) {
    let table = key.table();
    if tables.count(table) == table.limit() && tables.held(key).is_none() {
        let victim = random.pick(&tables.rows_of(table)).key();
        tables.remove(&victim);
    }
}

/// Completely full tables with every field at its greatest length: the largest image.
pub fn largest(random: &mut Random) -> Tables {
    let world = World::new(random, Size::Maximal);
    let tables = filled(random, &world, TABLES.map(|table| table.limit()));
    assert!(TABLES.iter().all(|table| tables.count(*table) == table.limit()));
    tables
}
