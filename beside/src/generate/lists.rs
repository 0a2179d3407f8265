//! Pairs of lists of calls with two groups, for the demand that other traffic does not change what a group's members are told.

use super::calls::{edit, fitting, mostly_fitting, principal_call};
use super::requests::request;
use super::sets::{allowed, set_call, shortened};
use super::walks::start;
use super::world::{any_column, grant, held_key, identifier, row, table, World, OWN_TABLES};
use crate::random::Random;
use crate::reference::decision::{mask_bit, view_of, READ};
use crate::reference::edits::{Caller, Edit};
use crate::reference::instance;
use crate::reference::lines::{answer, Call};
use crate::reference::rows::*;
use crate::reference::tables::Tables;

/// A group's circle: its name, its members and its chosen views.
pub struct Circle {
    pub group: Name,
    pub members: Vec<(u32, Name)>,
    pub views: Vec<Name>,
    /// Whether members walk too; then the chosen views mostly include the circle's own instances alone.
    pub walks: bool,
}

impl Circle {
    pub fn new(random: &mut Random, world: &World, walks: bool) -> Circle {
        let count = random.between(1, 3);
        let members = (0..count).map(|_| (random.of(&world.models), random.pick(&world.names).clone())).collect();
        let most = world.views.len() - 1;
        let views = world.views[..random.between(1, most)].to_vec();
        Circle { group: world.groups[0].clone(), members, views, walks }
    }

    pub fn has_key(&self, key: &Key) -> bool {
        match key {
            Key::Context { .. } => true,
            Key::Mapping { model, name } => self.has_member(*model, name),
            Key::Access { group, .. } => *group == self.group,
            Key::View { name, .. } => self.views.contains(name),
        }
    }

    fn has_member(&self, model: u32, name: &Name) -> bool {
        self.members.iter().any(|member| member.0 == model && member.1 == *name)
    }

    /// Document 01's lists have no explanations; a member's shows rows of the circle alone, so it is compared like a decision.
    pub fn is_shared(&self, call: &Call) -> bool {
        match call {
            Call::Decide(request) | Call::Explain(request) => self.has_member(request.model, &request.name),
            Call::Principal(caller, _) | Call::Set(caller, _) | Call::Walk(caller, _) => self.has_member(caller.model, &caller.name),
            Call::Owner(edit) => self.has_key(&edit.key()),
            _ => false,
        }
    }

    /// A shared create or change maps members to the group alone and its access rows to chosen views or none; a member's edit is of the
    /// circle, and so is every edit of its sets; a member's walk is by a view that refuses every instance outside of the circle.
    fn keeps_conditions(&self, tables: &Tables, call: &Call) -> bool {
        let names_own = |row: &Row| match row {
            Row::Mapping(r) => r.group == self.group,
            Row::Access(r) => [&r.read, &r.write, &r.notify].iter().all(|view| view.is_empty() || self.views.contains(view)),
            _ => true,
        };
        let keeps = |edit: &Edit| match edit {
            Edit::Create(row) | Edit::Change(row) => names_own(row),
            Edit::Remove(_) => true,
        };
        match call {
            Call::Owner(edit) => keeps(edit),
            Call::Principal(_, edit) => self.has_key(&edit.key()) && keeps(edit),
            Call::Set(_, edits) => edits.iter().all(|edit| self.has_key(&edit.key()) && keeps(edit)),
            Call::Walk(caller, _) => self.confines(tables, caller),
            _ => true,
        }
    }

    /// Whether every active row that includes in the view that the caller reads lies within a family of the circle.
    fn confines(&self, tables: &Tables, caller: &Caller) -> bool {
        let families = self.families();
        let Ok(view) = view_of(tables, &caller.request(READ, Vec::new())) else { return true };
        let mut including = tables.views.iter().filter(|row| row.name == view && row.status == 1 && row.kind == 1);
        including.all(|row| families.iter().any(|family| lies_within(row, family)))
    }

    /// Subtrees with their masks that only instances of the circle's rows match: all contexts, and at any column the members' mappings,
    /// the group's access rows and the chosen views' rows.
    fn families(&self) -> Vec<(Identifier, Vec<u8>)> {
        let at_any_column = |table: Table, front: Identifier| ([instance::base(table), &[0], &front].concat(), any_column(table));
        // the index of a context is its name alone
        let named = |name: &Name| Key::Context { name: name.clone() }.index();
        let mut families = vec![(instance::base(Table::Context).to_vec(), Vec::new())];
        for (model, name) in &self.members {
            families.push(at_any_column(Table::Mapping, Key::Mapping { model: *model, name: name.clone() }.index()));
        }
        families.push(at_any_column(Table::Access, named(&self.group)));
        families.extend(self.views.iter().map(|name| at_any_column(Table::View, named(name))));
        families
    }

    pub fn rows(&self, tables: &Tables) -> Vec<Row> {
        tables.rows().into_iter().filter(|row| self.has_key(&row.key())).collect()
    }
}

/// Whether what the row matches, the family does.
fn lies_within(row: &View, (subtree, mask): &(Identifier, Vec<u8>)) -> bool {
    let agrees = |i: usize| !mask_bit(mask, i) || mask_bit(&row.mask, i) && row.subtree[i] == subtree[i];
    row.subtree.len() >= subtree.len() && (0..subtree.len()).all(agrees)
}

/// Two starts whose circles agree: the same rows of the circle in both, such as members and the owner may bring there, and others apart.
pub fn agreeing_starts(random: &mut Random, world: &World, circle: &Circle) -> [Tables; 2] {
    let mut shared = Tables::default();
    for row in opening_rows(random, circle) {
        if random.chance(85) {
            shared.put(row);
        }
    }
    for _ in 0..random.below(24) {
        if let Edit::Create(row) | Edit::Change(row) = circle_edit(random, world, circle, &shared) {
            put_with_room(&mut shared, row);
        }
    }
    let mut starts = [shared.clone(), shared];
    for tables in &mut starts {
        for _ in 0..random.below(80) {
            let table = table(random);
            let row = row(random, world, table);
            if !circle.has_key(&row.key()) {
                put_with_room(tables, row);
            }
        }
    }
    starts
}

fn put_with_room(tables: &mut Tables, row: Row) {
    let table = row.key().table();
    if tables.count(table) < table.limit() {
        tables.put(row);
    }
}

/// Two lists that share the member calls and the owner's edits of the circle; the others are drawn apart.
pub fn two_lists(random: &mut Random, world: &World, circle: &Circle, starts: &[Tables; 2], length: usize) -> [Vec<Call>; 2] {
    let mut lists = [Vec::new(), Vec::new()];
    let mut tables = starts.clone();
    let opening = opening_rows(random, circle);
    for step in 0..length {
        let next = match opening.get(step) {
            Some(row) => Call::Owner(fitting(&tables[0], row.clone())),
            None => shared_call(random, world, circle, &tables[0]),
        };
        let full = tables.iter().any(|tables| number_told(&answer(&mut tables.clone(), &next)) == "9");
        if circle.is_shared(&next) && tables.iter().all(|tables| circle.keeps_conditions(tables, &next)) && !full {
            for (list, tables) in lists.iter_mut().zip(&mut tables) {
                answer(tables, &next);
                list.push(next.clone());
            }
        }
        for (list, tables) in lists.iter_mut().zip(&mut tables) {
            for _ in 0..random.below(4) {
                let other = other_call(random, world, circle, tables);
                if !circle.is_shared(&other) && !enters(circle, tables, &other) {
                    answer(tables, &other);
                    list.push(other);
                }
            }
        }
    }
    lists
}

/// Whether another's edit of a circle row would be accepted.
fn enters(circle: &Circle, tables: &Tables, call: &Call) -> bool {
    edits_circle(circle, call) && number_told(&answer(&mut tables.clone(), call)) == "0"
}

/// Whether the call is an edit of a circle row; a set is an edit of each of its rows.
fn edits_circle(circle: &Circle, call: &Call) -> bool {
    match call {
        Call::Owner(edit) | Call::Principal(_, edit) => circle.has_key(&edit.key()),
        Call::Set(_, edits) => edits.iter().any(|edit| circle.has_key(&edit.key())),
        _ => false,
    }
}

/// The number of an edit's answer, of a set's too.
fn number_told(answer: &str) -> &str {
    answer.split(' ').next().unwrap_or_default()
}

/// Enough for members to read and edit: a context, the members, access rows of the group and its views.
fn opening_rows(random: &mut Random, circle: &Circle) -> Vec<Row> {
    let mut rows = vec![Row::Context(Context { name: Vec::new() })];
    for (model, name) in &circle.members {
        rows.push(Row::Mapping(Mapping { model: *model, name: name.clone(), group: circle.group.clone(), storage: 3, status: 1 }));
    }
    for level in 1..3 {
        rows.push(Row::Access(Access {
            group: circle.group.clone(),
            prefix: Vec::new(),
            model: 0,
            level,
            matching: 2,
            read: random.pick(&circle.views).clone(),
            write: circle.views[0].clone(),
            notify: random.pick(&circle.views).clone(),
            storage: 3,
            status: 1,
        }));
    }
    let families = if circle.walks { circle.families() } else { vec![(OWN_TABLES.to_vec(), Vec::new())] };
    for view in &circle.views {
        for (subtree, mask) in &families {
            rows.push(Row::View(View { name: view.clone(), subtree: subtree.clone(), mask: mask.clone(), kind: 1, storage: 3, status: 1 }));
        }
        if random.chance(25) {
            // all but a column
            let table = table(random);
            let subtree = [instance::base(table), &[random.of(instance::columns(table))]].concat();
            rows.push(Row::View(View { name: view.clone(), subtree, mask: Vec::new(), kind: 2, storage: 3, status: 1 }));
        }
    }
    rows
}

fn shared_call(random: &mut Random, world: &World, circle: &Circle, guide: &Tables) -> Call {
    let (model, name) = random.pick(&circle.members).clone();
    let level = random.between(1, 3) as u32;
    match random.below(10) {
        0..=2 if circle.walks => Call::Walk(Caller { model, name, level }, start(random, world, guide, &[])),
        0..=3 => {
            let mut request = request(random, world, guide);
            request.model = model;
            request.name = name;
            if random.chance(30) {
                Call::Explain(request)
            } else {
                Call::Decide(request)
            }
        }
        4 | 5 => Call::Principal(Caller { model, name, level }, circle_edit(random, world, circle, guide)),
        6 => circle_set(random, world, circle, guide, Caller { model, name, level }),
        _ => Call::Owner(circle_edit(random, world, circle, guide)),
    }
}

fn circle_edit(random: &mut Random, world: &World, circle: &Circle, guide: &Tables) -> Edit {
    let table = table(random);
    let (model, name) = random.pick(&circle.members).clone();
    if random.chance(20) {
        return Edit::Remove(held_key(random, world, guide, table));
    }
    let view = |random: &mut Random| if random.chance(20) { Vec::new() } else { random.pick(&circle.views).clone() };
    let row = match row(random, world, table) {
        Row::Mapping(r) => Row::Mapping(Mapping { model, name, group: circle.group.clone(), ..r }),
        Row::Access(r) => {
            let (read, write, notify) = (view(random), view(random), view(random));
            Row::Access(Access { group: circle.group.clone(), read, write, notify, ..r })
        }
        Row::View(r) => {
            let (subtree, mask) = if circle.walks && random.chance(95) { below_family(random, circle) } else { (r.subtree, r.mask) };
            Row::View(View { name: random.pick(&circle.views).clone(), subtree, mask, ..r })
        }
        row => row,
    };
    mostly_fitting(random, guide, row)
}

/// A member's set, mostly of such edits as it may make.
fn circle_set(random: &mut Random, world: &World, circle: &Circle, guide: &Tables, caller: Caller) -> Call {
    let count = random.of(&[1, 2, 3, 4, 8]);
    let draw = |random: &mut Random| loop {
        let edit = circle_edit(random, world, circle, guide);
        if circle.has_key(&edit.key()) {
            return edit;
        }
    };
    let edits = allowed(random, guide, &caller, count, draw);
    shortened(random, Call::Set(caller, edits))
}

fn below_family(random: &mut Random, circle: &Circle) -> (Identifier, Vec<u8>) {
    let (mut subtree, mask) = random.pick(&circle.families()).clone();
    let more = random.of(&[0, 0, 1, 3]);
    subtree.extend(identifier(random, more));
    (subtree, mask)
}

/// Another's call: the owner's edits outside of the circle, other principals' edits and requests of anything.
fn other_call(random: &mut Random, world: &World, circle: &Circle, tables: &Tables) -> Call {
    if random.chance(6) {
        // the other group gets rights of its own
        let mut granted = Tables::default();
        grant(random, world, &mut granted);
        let rows = granted.rows();
        let row = random.pick(&rows).clone();
        if !circle.has_key(&row.key()) {
            return Call::Owner(mostly_fitting(random, tables, row));
        }
    }
    match random.below(16) {
        0 | 1 => Call::Explain(request(random, world, tables)),
        2..=5 => Call::Decide(request(random, world, tables)),
        6..=9 => Call::Owner(edit(random, world, tables)),
        10 | 11 => {
            let call = set_call(random, world, tables);
            shortened(random, call)
        }
        _ => principal_call(random, world, tables),
    }
}

/// The conditions on a list: those on shared calls; others have no edit accepted in the circle, and no shared create in the circle is
/// answered 9, nor a member's set.
pub fn list_keeps(circle: &Circle, start: &Tables, list: &[Call]) -> bool {
    let mut tables = start.clone();
    for call in list {
        let shared = circle.is_shared(call);
        if shared && !circle.keeps_conditions(&tables, call) {
            return false;
        }
        let answer = answer(&mut tables, call);
        let in_circle = edits_circle(circle, call);
        if shared && in_circle && number_told(&answer) == "9" {
            return false;
        }
        if !shared && in_circle && number_told(&answer) == "0" {
            return false;
        }
    }
    true
}
