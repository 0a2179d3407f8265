//! The decision: RFC 3415, section 3.2, step by step; and the rows behind it.

use super::answers::*;
use super::rows::*;
use super::tables::Tables;

pub const READ: u32 = 1;
pub const WRITE: u32 = 2;

#[derive(Clone, Debug, PartialEq, Eq)]
pub struct Request {
    pub model: u32,
    pub name: Name,
    pub level: u32,
    pub kind: u32,
    pub context: Name,
    pub variable: Identifier,
}

impl Request {
    pub fn legal(&self) -> bool {
        legal_principal_model(self.model)
            && legal_name(&self.name)
            && legal_level(self.level)
            && (1..=3).contains(&self.kind)
            && legal_name_or_empty(&self.context)
            && legal_variable(&self.variable)
    }
}

/// An answer's number, and the rows that steps 2, 3 and 5 picked, as far as the steps got.
#[derive(Clone, Debug, Default, PartialEq, Eq)]
pub struct Explanation<'a> {
    pub number: Number,
    pub mapping: Option<&'a Mapping>,
    pub access: Option<&'a Access>,
    pub view: Option<&'a View>,
}

impl Explanation<'_> {
    /// In the order of the steps.
    pub fn rows(&self) -> [Option<Row>; 3] {
        [self.mapping.cloned().map(Row::Mapping), self.access.cloned().map(Row::Access), self.view.cloned().map(Row::View)]
    }
}

/// The answer's number: 7, a cause, or 0 for allowed.
pub fn decide(tables: &Tables, request: &Request) -> Number {
    explain(tables, request).number
}

/// The decision with the rows behind it. The view row is the one that decides, whatever its type.
pub fn explain<'a>(tables: &'a Tables, request: &Request) -> Explanation<'a> {
    if !request.legal() {
        return Explanation { number: OUT_OF_RANGE, ..Explanation::default() };
    }
    let mut told = Explanation::default();
    told.number = match picked_view(tables, request, &mut told) {
        Err(cause) => cause,
        Ok(view) => {
            told.view = deciding_row(tables, view, &request.variable);
            match told.view {
                Some(row) if row.kind == 1 => SUCCESS,
                _ => NOT_IN_VIEW,
            }
        }
    };
    told
}

/// The view row that step 5 decides by, whatever its type.
pub fn match_view<'a>(tables: &'a Tables, name: &[u8], variable: &[u32]) -> Result<Option<&'a View>, Number> {
    if !legal_name(name) || !legal_variable(variable) {
        return Err(OUT_OF_RANGE);
    }
    Ok(deciding_row(tables, name, variable))
}

/// The access row that step 3 chooses. The context need not be held, that being step 1's affair.
pub fn match_access<'a>(tables: &'a Tables, group: &[u8], context: &[u8], model: u32, level: u32) -> Result<Option<&'a Access>, Number> {
    if !legal_name(group) || !legal_name_or_empty(context) || !legal_principal_model(model) || !legal_level(level) {
        return Err(OUT_OF_RANGE);
    }
    Ok(chosen_access(tables, group, context, model, level))
}

/// Steps 1 to 4: the name of the view that the variable is looked up in.
pub fn view_of(tables: &Tables, request: &Request) -> Result<Name, Number> {
    picked_view(tables, request, &mut Explanation::default()).cloned()
}

/// Steps 1 to 4, with the rows picked on the way.
fn picked_view<'a>(tables: &'a Tables, request: &Request, picked: &mut Explanation<'a>) -> Result<&'a Name, Number> {
    if !tables.contexts.iter().any(|row| row.name == request.context) {
        return Err(NO_SUCH_CONTEXT);
    }
    picked.mapping = tables.mappings.iter().find(|row| row.status == 1 && row.model == request.model && row.name == request.name);
    let group = match picked.mapping {
        Some(row) => &row.group,
        None => return Err(NO_GROUP_NAME),
    };
    picked.access = chosen_access(tables, group, &request.context, request.model, request.level);
    let access = match picked.access {
        Some(row) => row,
        None => return Err(NO_ACCESS_ENTRY),
    };
    let view = match request.kind {
        1 => &access.read,
        2 => &access.write,
        _ => &access.notify,
    };
    if view.is_empty() || !tables.views.iter().any(|row| row.status == 1 && row.name == *view) {
        return Err(NO_SUCH_VIEW);
    }
    Ok(view)
}

/// Step 3: the candidates, then own model before any, then the longest prefix, then the highest level.
fn chosen_access<'a>(tables: &'a Tables, group: &[u8], context: &[u8], model: u32, level: u32) -> Option<&'a Access> {
    let mut candidates: Vec<&Access> = Vec::new();
    for row in &tables.accesses {
        let in_context = match row.matching {
            1 => row.prefix == context,
            _ => context.starts_with(&row.prefix),
        };
        let of_model = row.model == 0 || row.model == model;
        if row.status == 1 && row.group == group && in_context && of_model && row.level <= level {
            candidates.push(row);
        }
    }
    if candidates.iter().any(|row| row.model == model) {
        candidates.retain(|row| row.model == model);
    }
    let longest = candidates.iter().map(|row| row.prefix.len()).max()?;
    candidates.retain(|row| row.prefix.len() == longest);
    let highest = candidates.iter().map(|row| row.level).max()?;
    candidates.retain(|row| row.level == highest);
    candidates.first().copied()
}

/// Step 5: of the matching rows the one with the longest subtree, at equal length the lexicographically greatest.
fn deciding_row<'a>(tables: &'a Tables, view: &[u8], variable: &[u32]) -> Option<&'a View> {
    let mut best: Option<&View> = None;
    for row in &tables.views {
        if row.status != 1 || row.name != view || !matches(row, variable) {
            continue;
        }
        let better = match best {
            None => true,
            Some(held) => (row.subtree.len(), &row.subtree) > (held.subtree.len(), &held.subtree),
        };
        if better {
            best = Some(row);
        }
    }
    best
}

fn matches(row: &View, variable: &[u32]) -> bool {
    if variable.len() < row.subtree.len() {
        return false;
    }
    for (i, part) in row.subtree.iter().enumerate() {
        if mask_bit(&row.mask, i) && *part != variable[i] {
            return false;
        }
    }
    true
}

/// The first bit is the highest of the first octet; missing bits are 1.
pub fn mask_bit(mask: &[u8], i: usize) -> bool {
    match mask.get(i / 8) {
        Some(octet) => octet & (128 >> (i % 8)) != 0,
        None => true,
    }
}
