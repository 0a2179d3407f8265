//! An explanation is true: each row shown is held and active and was picked at its step, and where the cause is a missing row, no row
//! that counts would serve.

use super::answers::*;
use super::decision::{explain, mask_bit, Request};
use super::ridge;
use super::rows::*;
use super::tables::Tables;
use crate::generate::every;
use crate::generate::requests::request;
use crate::generate::world::{tables, World};
use crate::random::Random;

/// The rank of a row that is a candidate at step 3: own model, then the prefix, then the level.
fn access_rank(row: &Access, group: &Name, request: &Request) -> Option<(bool, usize, u32)> {
    let in_context = row.prefix == request.context || row.matching == 2 && request.context.starts_with(&row.prefix);
    let of_model = row.model == 0 || row.model == request.model;
    let counts = row.status == 1 && row.group == *group && in_context && of_model && row.level <= request.level;
    counts.then_some((row.model != 0, row.prefix.len(), row.level))
}

/// The rank of a row that matches at step 5.
fn view_rank<'a>(row: &'a View, view: &Name, request: &Request) -> Option<(usize, &'a Identifier)> {
    let length = row.subtree.len();
    let counts = row.status == 1
        && row.name == *view
        && length <= request.variable.len()
        && (0..length).all(|i| row.subtree[i] == request.variable[i] || !mask_bit(&row.mask, i));
    counts.then_some((length, &row.subtree))
}

fn is_true(tables: &Tables, request: &Request) {
    let told = explain(tables, request);
    for row in told.rows().into_iter().flatten() {
        assert_eq!(tables.held(&row.key()), Some(row));
    }
    assert_eq!(told.number == OUT_OF_RANGE, !request.legal());
    let shown = told.rows().map(|row| row.is_some());
    match told.number {
        OUT_OF_RANGE | NO_SUCH_CONTEXT | NO_GROUP_NAME => assert_eq!(shown, [false, false, false]),
        NO_ACCESS_ENTRY => assert_eq!(shown, [true, false, false]),
        NO_SUCH_VIEW => assert_eq!(shown, [true, true, false]),
        NOT_IN_VIEW => assert_eq!(shown[..2], [true, true]),
        number => assert_eq!((number, shown), (SUCCESS, [true, true, true])),
    }
    if told.number == OUT_OF_RANGE {
        return;
    }
    assert_eq!(told.number == NO_SUCH_CONTEXT, tables.contexts.iter().all(|row| row.name != request.context));
    if told.number == NO_SUCH_CONTEXT {
        return;
    }
    let serves = |row: &&Mapping| row.status == 1 && (row.model, &row.name) == (request.model, &request.name);
    // no two rows have one key
    assert_eq!(told.mapping, tables.mappings.iter().find(serves));
    let Some(Mapping { group, .. }) = told.mapping else { return };
    let ranks = tables.accesses.iter().filter_map(|row| access_rank(row, group, request));
    // the rank of the row shown is the greatest, and none is shown where there is none
    assert_eq!(told.access.map(|row| access_rank(row, group, request)), ranks.max().map(Some));
    let Some(access) = told.access else { return };
    let view = [&access.read, &access.write, &access.notify][request.kind as usize - 1];
    assert_eq!(told.number == NO_SUCH_VIEW, view.is_empty() || tables.views.iter().all(|row| row.status != 1 || row.name != *view));
    if told.number == NO_SUCH_VIEW {
        return;
    }
    let ranks = tables.views.iter().filter_map(|row| view_rank(row, view, request));
    assert_eq!(told.view.map(|row| view_rank(row, view, request)), ranks.max().map(Some));
    assert_eq!(told.number == SUCCESS, told.view.is_some_and(|row| row.kind == 1));
}

#[test]
fn on_ridge() {
    for (request, number) in ridge::examples() {
        is_true(&ridge::tables(), &request);
        assert_eq!(explain(&ridge::tables(), &request).number, number);
    }
}

#[test]
fn beside_rows_that_are_not_shown() {
    for case in every::explanations().into_iter().chain(every::step_five()) {
        for request in &case.requests {
            is_true(&case.tables, request);
        }
    }
}

#[test]
fn on_random_tables() {
    let random = &mut Random::new(5);
    for _ in 0..60 {
        let world = World::any(random);
        let tables = tables(random, &world);
        for _ in 0..40 {
            is_true(&tables, &request(random, &world, &tables));
        }
    }
}
