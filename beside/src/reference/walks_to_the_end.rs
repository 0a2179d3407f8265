//! A walk to its end meets exactly the instances that the decision lets the caller read, ascending, and then 17; a cause of steps 1 to 4
//! is the decision's for every instance.

use super::answers::*;
use super::decision::{decide, READ};
use super::edits::Caller;
use super::lines::{dotted, key_text};
use super::ridge;
use super::rows::*;
use super::tables::Tables;
use super::walk::{walk, Next};
use crate::generate::walks::{ascending, callers, grant_reading, ridge_walks};
use crate::generate::world::{filled, Size, World};
use crate::random::Random;

/// What a walk from the empty identifier meets, each step fed with what the last handed back, and the number at its end.
fn to_the_end(tables: &Tables, caller: &Caller) -> (Vec<Next>, Number) {
    let mut met: Vec<Next> = Vec::new();
    loop {
        let from = met.last().map_or(&[][..], |next| &next.instance);
        match walk(tables, caller, from) {
            Ok(next) => met.push(next),
            Err(number) => return (met, number),
        }
    }
}

fn meets_what_is_allowed(tables: &Tables, caller: &Caller) {
    let (met, number) = to_the_end(tables, caller);
    let met: Vec<Identifier> = met.into_iter().map(|next| next.instance).collect();
    let asked: Vec<(Identifier, Number)> =
        ascending(tables).into_iter().map(|instance| (instance.clone(), decide(tables, &caller.request(READ, instance)))).collect();
    if number == END_OF_MIB_VIEW {
        assert!(asked.iter().all(|(_, answer)| [SUCCESS, NOT_IN_VIEW].contains(answer)));
        let allowed: Vec<Identifier> = asked.into_iter().filter(|(_, answer)| *answer == SUCCESS).map(|(instance, _)| instance).collect();
        assert_eq!(met, allowed);
    } else {
        assert!(met.is_empty() && (NO_SUCH_CONTEXT..=NO_SUCH_VIEW).contains(&number));
        assert!(asked.iter().all(|(_, answer)| *answer == number));
    }
}

#[test]
fn ann_on_ridge() {
    for level in 1..=3 {
        let (met, number) = to_the_end(&ridge::tables(), &Caller { model: 3, name: "ann".into(), level });
        let told: Vec<(String, String)> =
            met.iter().map(|next| (dotted(&next.instance), format!("{} {}", next.column, key_text(&next.key)))).collect();
        let by_hand: Vec<(String, String)> = ridge::WALK.iter().map(|(instance, key)| (instance.to_string(), key.to_string())).collect();
        assert_eq!(told, by_hand);
        assert_eq!(number, END_OF_MIB_VIEW);
    }
}

#[test]
fn on_ridge() {
    for (tables, caller) in ridge_walks() {
        meets_what_is_allowed(&tables, &caller);
    }
}

#[test]
fn on_random_tables() {
    let random = &mut Random::new(4);
    for size in [Size::Small, Size::Wide, Size::Dense, Size::Maximal] {
        let world = World::new(random, size);
        let mut tables = filled(random, &world, [3, 3, 3, 4]);
        for kind in 1..=2 {
            grant_reading(random, &world, &mut tables, kind);
            for caller in callers(&tables) {
                meets_what_is_allowed(&tables, &caller);
            }
        }
    }
}
