//! Explanations by `trycalls`, each beside its decision on the same request, which tells the same number. What stood beside the rows shown is
//! counted: candidates that lost to one of them, and rows out of service.

use crate::programs::{answers, compare, Input, Program};
use crate::tally::Tally;
use beside::generate::every::{explanations, Case};
use beside::generate::requests::request;
use beside::generate::world::{tables, World};
use beside::random::Random;
use beside::reference::decision::{explain, match_access, match_view, Explanation, Request};
use beside::reference::image;
use beside::reference::lines::{call_text, Call};
use beside::reference::rows::*;
use beside::reference::tables::Tables;

pub fn run(tally: &mut Tally, random: &mut Random, program: &mut Program, rounds: usize) {
    for case in explanations() {
        explained(tally, program, &case);
    }
    for _ in 0..2 * rounds {
        let world = World::any(random);
        let tables = tables(random, &world);
        let requests = (0..60).map(|_| request(random, &world, &tables)).collect();
        explained(tally, program, &Case { tables, requests });
    }
}

pub fn explained(tally: &mut Tally, program: &mut Program, case: &Case) {
    let both = |request: &Request| [Call::Decide(request.clone()), Call::Explain(request.clone())];
    let calls: Vec<Call> = case.requests.iter().flat_map(both).collect();
    let told = answers(&compare(tally, program, Some(&image::write(&case.tables)), &Input::calls(&calls)));
    let in_service = in_service(&case.tables);
    for (request, told) in case.requests.iter().zip(told.chunks(2)) {
        let alike = matches!(told, [number, explanation] if explanation.split(' ').next() == Some(number));
        tally.check(alike, || format!("{}: '{}' does not tell the decision's number", program.name, call_text(&Call::Explain(request.clone()))));
        for rank in lost_by(&case.tables, request, &explain(&case.tables, request)) {
            tally.meet(program.name, format!("explain, a candidate lost by its: {rank}"));
        }
        for row in explain(&in_service, request).rows().into_iter().flatten() {
            if case.tables.held(&row.key()) != Some(row.clone()) {
                tally.meet(program.name, format!("explain, would be shown if active: {}", format!("{:?}", row.table()).to_lowercase()));
            }
        }
    }
}

/// By what the next best access row and view row lost to those shown. It is the one that is picked where the row shown is not held.
fn lost_by(tables: &Tables, request: &Request, shown: &Explanation) -> Vec<&'static str> {
    let mut ranks = Vec::new();
    if let (Some(mapping), Some(access)) = (shown.mapping, shown.access) {
        let without = without(tables, &Row::Access(access.clone()).key());
        if let Ok(Some(next)) = match_access(&without, &mapping.group, &request.context, request.model, request.level) {
            ranks.push(if next.model != access.model {
                "model"
            } else if next.prefix.len() != access.prefix.len() {
                "prefix"
            } else {
                "level"
            });
        }
    }
    if let Some(view) = shown.view {
        let without = without(tables, &Row::View(view.clone()).key());
        if let Ok(Some(next)) = match_view(&without, &view.name, &request.variable) {
            ranks.push(if next.subtree.len() != view.subtree.len() { "length" } else { "order" });
        }
    }
    ranks
}

fn without(tables: &Tables, key: &Key) -> Tables {
    let mut less = tables.clone();
    less.remove(key);
    less
}

/// The tables with every row active.
fn in_service(tables: &Tables) -> Tables {
    let mut tables = tables.clone();
    tables.mappings.iter_mut().for_each(|row| row.status = 1);
    tables.accesses.iter_mut().for_each(|row| row.status = 1);
    tables.views.iter_mut().for_each(|row| row.status = 1);
    tables
}
