//! The four rows, the ranges of their fields, their keys, and the keys' indices.

pub type Name = Vec<u8>;
pub type Identifier = Vec<u32>;

pub const LARGEST_MODEL: u32 = 2_147_483_647;
pub const NAME_LIMIT: usize = 32;
pub const SUBTREE_LIMIT: usize = 64;
pub const MASK_LIMIT: usize = 16;
pub const VARIABLE_LIMIT: usize = 128;

#[derive(Clone, Copy, Debug, PartialEq, Eq)]
pub enum Table {
    Context,
    Mapping,
    Access,
    View,
}

pub const TABLES: [Table; 4] = [Table::Context, Table::Mapping, Table::Access, Table::View];

impl Table {
    pub fn limit(self) -> usize {
        match self {
            Table::Context => 16,
            Table::Mapping => 64,
            Table::Access => 64,
            Table::View => 96,
        }
    }
}

#[derive(Clone, Debug, PartialEq, Eq)]
pub struct Context {
    pub name: Name,
}

#[derive(Clone, Debug, PartialEq, Eq)]
pub struct Mapping {
    pub model: u32,
    pub name: Name,
    pub group: Name,
    pub storage: u32,
    pub status: u32,
}

#[derive(Clone, Debug, PartialEq, Eq)]
pub struct Access {
    pub group: Name,
    pub prefix: Name,
    pub model: u32,
    pub level: u32,
    pub matching: u32,
    pub read: Name,
    pub write: Name,
    pub notify: Name,
    pub storage: u32,
    pub status: u32,
}

#[derive(Clone, Debug, PartialEq, Eq)]
pub struct View {
    pub name: Name,
    pub subtree: Identifier,
    pub mask: Vec<u8>,
    pub kind: u32,
    pub storage: u32,
    pub status: u32,
}

#[derive(Clone, Debug, PartialEq, Eq)]
pub enum Row {
    Context(Context),
    Mapping(Mapping),
    Access(Access),
    View(View),
}

#[derive(Clone, Debug, PartialEq, Eq)]
pub enum Key {
    Context { name: Name },
    Mapping { model: u32, name: Name },
    Access { group: Name, prefix: Name, model: u32, level: u32 },
    View { name: Name, subtree: Identifier },
}

// ---- ranges of single fields

pub fn legal_principal_model(model: u32) -> bool {
    (1..=LARGEST_MODEL).contains(&model)
}

pub fn legal_access_model(model: u32) -> bool {
    model <= LARGEST_MODEL
}

pub fn legal_level(level: u32) -> bool {
    (1..=3).contains(&level)
}

pub fn legal_name(name: &[u8]) -> bool {
    (1..=NAME_LIMIT).contains(&name.len())
}

pub fn legal_name_or_empty(name: &[u8]) -> bool {
    name.len() <= NAME_LIMIT
}

pub fn legal_subtree(subtree: &[u32]) -> bool {
    (1..=SUBTREE_LIMIT).contains(&subtree.len())
}

pub fn legal_variable(variable: &[u32]) -> bool {
    (1..=VARIABLE_LIMIT).contains(&variable.len())
}

pub fn legal_mask(mask: &[u8]) -> bool {
    mask.len() <= MASK_LIMIT
}

pub fn legal_match(matching: u32) -> bool {
    (1..=2).contains(&matching)
}

pub fn legal_type(kind: u32) -> bool {
    (1..=2).contains(&kind)
}

pub fn legal_storage(storage: u32) -> bool {
    (2..=5).contains(&storage)
}

pub fn legal_status(status: u32) -> bool {
    (1..=2).contains(&status)
}

// ---- rows

impl Row {
    pub fn table(&self) -> Table {
        match self {
            Row::Context(_) => Table::Context,
            Row::Mapping(_) => Table::Mapping,
            Row::Access(_) => Table::Access,
            Row::View(_) => Table::View,
        }
    }

    pub fn key(&self) -> Key {
        match self {
            Row::Context(r) => Key::Context { name: r.name.clone() },
            Row::Mapping(r) => Key::Mapping { model: r.model, name: r.name.clone() },
            Row::Access(r) => Key::Access { group: r.group.clone(), prefix: r.prefix.clone(), model: r.model, level: r.level },
            Row::View(r) => Key::View { name: r.name.clone(), subtree: r.subtree.clone() },
        }
    }

    pub fn legal(&self) -> bool {
        self.key().legal()
            && match self {
                Row::Context(_) => true,
                Row::Mapping(r) => legal_name(&r.group) && legal_storage(r.storage) && legal_status(r.status),
                Row::Access(r) => {
                    legal_match(r.matching)
                        && legal_name_or_empty(&r.read)
                        && legal_name_or_empty(&r.write)
                        && legal_name_or_empty(&r.notify)
                        && legal_storage(r.storage)
                        && legal_status(r.status)
                }
                Row::View(r) => legal_mask(&r.mask) && legal_type(r.kind) && legal_storage(r.storage) && legal_status(r.status),
            }
    }

    /// A context row has no storage.
    pub fn storage(&self) -> Option<u32> {
        match self {
            Row::Context(_) => None,
            Row::Mapping(r) => Some(r.storage),
            Row::Access(r) => Some(r.storage),
            Row::View(r) => Some(r.storage),
        }
    }
}

impl Key {
    pub fn table(&self) -> Table {
        match self {
            Key::Context { .. } => Table::Context,
            Key::Mapping { .. } => Table::Mapping,
            Key::Access { .. } => Table::Access,
            Key::View { .. } => Table::View,
        }
    }

    pub fn legal(&self) -> bool {
        match self {
            Key::Context { name } => legal_name_or_empty(name),
            Key::Mapping { model, name } => legal_principal_model(*model) && legal_name(name),
            Key::Access { group, prefix, model, level } => {
                legal_name(group) && legal_name_or_empty(prefix) && legal_access_model(*model) && legal_level(*level)
            }
            Key::View { name, subtree } => legal_name(name) && legal_subtree(subtree),
        }
    }

    /// The fields in key order as sub-identifiers. A vector's own order is the order of indices.
    pub fn index(&self) -> Identifier {
        let mut index = Vec::new();
        match self {
            Key::Context { name } => push_name(&mut index, name),
            Key::Mapping { model, name } => {
                index.push(*model);
                push_name(&mut index, name);
            }
            Key::Access { group, prefix, model, level } => {
                push_name(&mut index, group);
                push_name(&mut index, prefix);
                index.push(*model);
                index.push(*level);
            }
            Key::View { name, subtree } => {
                push_name(&mut index, name);
                index.push(subtree.len() as u32);
                index.extend_from_slice(subtree);
            }
        }
        index
    }
}

fn push_name(index: &mut Identifier, name: &[u8]) {
    index.push(name.len() as u32);
    for octet in name {
        index.push(u32::from(*octet));
    }
}
