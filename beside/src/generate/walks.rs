//! Walks from about held instances, on tables where somebody may read some of their columns and rows.

use super::calls::caller;
use super::world::{any_column, grant, held_key, make_room, mask, table, World, OWN_TABLES};
use crate::random::Random;
use crate::reference::edits::Caller;
use crate::reference::instance;
use crate::reference::lines::Call;
use crate::reference::ridge;
use crate::reference::rows::*;
use crate::reference::tables::Tables;
use crate::reference::walk::instances;

/// A walk, now and then from what the last one handed back.
pub fn walk(random: &mut Random, world: &World, tables: &Tables, last: &[u32]) -> Call {
    let caller = caller(random, world, tables, |row| &row.read);
    Call::Walk(caller, start(random, world, tables, last))
}

/// Where a walk begins: from what the last one handed back, at or about a held instance, a column or a table.
pub fn start(random: &mut Random, world: &World, tables: &Tables, last: &[u32]) -> Identifier {
    let table = table(random);
    let mut from = match random.below(12) {
        0 => Vec::new(),
        1..=3 => last.to_vec(),
        4 | 5 => [instance::base(table), &[random.of(&[0, 1, 2, 3, 4, 5, 6, 7, 8, 9, 10, 256, 259, u32::MAX])]].concat(),
        6 => instance::base(table).to_vec(),
        _ => {
            let key = held_key(random, world, tables, table);
            instance::encode(random.of(instance::columns(table)), &key).expect("a legal key and a listed column")
        }
    };
    for _ in 0..random.of(&[0, 0, 1, 1, 1, 2]) {
        alter(random, &mut from);
    }
    from
}

/// A part more or less, a part greater or less, a cut, or the greatest parts and the ends of the range of lengths.
fn alter(random: &mut Random, identifier: &mut Identifier) {
    let place = random.between(0, identifier.len());
    let part = random.of(&[0, 1, u32::MAX]);
    match random.below(8) {
        0 | 1 => identifier.push(part),
        2 => {
            identifier.pop();
        }
        3 => add(identifier.last_mut(), random.of(&[1, u32::MAX])),
        4 => add(identifier.get_mut(place), random.of(&[1, 2, u32::MAX, 256, 1 << 31])),
        5 => identifier.truncate(place),
        6 => identifier.resize(random.of(&[127, 128, 128, 129, 130, 256 + identifier.len().min(128)]), part),
        _ => {
            identifier.truncate(place);
            identifier.resize(random.between(place, VARIABLE_LIMIT.max(place)), u32::MAX);
        }
    }
}

fn add(part: Option<&mut u32>, by: u32) {
    if let Some(part) = part {
        *part = part.wrapping_add(by);
    }
}

// ---- views

/// Subtrees with their masks that take in a table, a column, an instance, or a row at all its columns; a long instance by its front.
fn families(tables: &Tables) -> Vec<(Identifier, Vec<u8>)> {
    let mut families: Vec<(Identifier, Vec<u8>)> = Vec::new();
    for table in TABLES {
        let base = instance::base(table);
        families.push((base.to_vec(), Vec::new()));
        families.extend(instance::columns(table).iter().map(|column| ([base, &[*column]].concat(), Vec::new())));
    }
    for mut next in instances(tables) {
        next.instance.truncate(SUBTREE_LIMIT);
        families.push((next.instance.clone(), Vec::new()));
        families.push((next.instance, any_column(next.key.table())));
    }
    families
}

/// Lets one principal read by a view that includes (1) or excludes (2) everything, and some families against that.
pub fn grant_reading(random: &mut Random, world: &World, tables: &mut Tables, kind: u32) -> Mapping {
    let mapping = grant(random, world, tables);
    let name = if random.chance(40) { random.pick(&world.views).clone() } else { "walked".into() };
    for row in tables.accesses.iter_mut().filter(|row| row.group == mapping.group && row.prefix.is_empty()) {
        row.read = name.clone();
    }
    let root = random.of(&[&[1][..], &[1, 3, 6, 1], &OWN_TABLES]).to_vec();
    let mut rows = vec![View { name: name.clone(), subtree: root, mask: Vec::new(), kind, storage: 3, status: 1 }];
    let families = families(tables);
    for _ in 0..random.of(&[0, 1, 2, 4, 12]) {
        let (mut subtree, mut family_mask) = random.pick(&families).clone();
        if random.chance(20) {
            subtree.truncate(random.between(1, subtree.len()));
            family_mask = mask(random, &subtree, world);
        }
        let kind = if random.chance(80) { 3 - kind } else { kind };
        let status = random.of(&[1, 1, 1, 1, 1, 2]);
        rows.push(View { name: name.clone(), subtree, mask: family_mask, kind, storage: 3, status });
    }
    for row in rows.into_iter().map(Row::View) {
        make_room(random, tables, &row.key());
        tables.put(row);
    }
    mapping
}

/// The Ridge tables under every caller; and under Ann where her view refuses a family or all but that, where a row is gone or out of
/// service, and where she reads another view.
pub fn ridge_walks() -> Vec<(Tables, Caller)> {
    let ridge = ridge::tables();
    let ann = Caller { model: 3, name: "ann".into(), level: 1 };
    let under_all = callers(&ridge).into_iter().map(|caller| (ridge.clone(), caller));
    under_all.chain(variants(&ridge).into_iter().map(|tables| (tables, ann.clone()))).collect()
}

fn variants(ridge: &Tables) -> Vec<Tables> {
    let all = &ridge.views[0];
    let mut variants = Vec::new();
    for (subtree, mask) in families(ridge) {
        for kind in 1..=2 {
            let mut tables = ridge.clone();
            tables.put(Row::View(View { kind: 3 - kind, ..all.clone() }));
            tables.put(Row::View(View { subtree: subtree.clone(), mask: mask.clone(), kind, ..all.clone() }));
            variants.push(tables);
        }
    }
    for row in ridge.rows() {
        let mut without = ridge.clone();
        without.remove(&row.key());
        variants.push(without);
        let mut idle = ridge.clone();
        idle.put(match row {
            Row::Context(r) => Row::Context(r),
            Row::Mapping(r) => Row::Mapping(Mapping { status: 2, ..r }),
            Row::Access(r) => Row::Access(Access { status: 2, ..r }),
            Row::View(r) => Row::View(View { status: 2, ..r }),
        });
        variants.push(idle);
    }
    for read in ["", "base", "gone"] {
        let mut tables = ridge.clone();
        tables.accesses[0].read = read.into();
        tables.accesses[0].write = "all".into();
        variants.push(tables);
    }
    variants
}

/// Every principal of the tables and one that has no mapping, at every level.
pub fn callers(tables: &Tables) -> Vec<Caller> {
    let mut principals: Vec<(u32, Name)> = tables.mappings.iter().map(|row| (row.model, row.name.clone())).collect();
    principals.push((LARGEST_MODEL, "nobody".into()));
    let at_levels = |(model, name): (u32, Name)| (1..=3).map(move |level| Caller { model, name: name.clone(), level });
    principals.into_iter().flat_map(at_levels).collect()
}

/// Every instance of a held row, ascending.
pub fn ascending(tables: &Tables) -> Vec<Identifier> {
    let mut ascending: Vec<Identifier> = instances(tables).into_iter().map(|next| next.instance).collect();
    ascending.sort();
    ascending
}
