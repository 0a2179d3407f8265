//! The part agent: the C call on requests at each step's boundary and on damaged images.

use crate::programs::SHOWN;
use crate::shrink::{fewest_rows, show_image};
use crate::tally::{image_place, Tally};
use crate::tryreq::P12;
use beside::generate::damage::{beyond_largest, damaged, every_damage};
use beside::generate::every::{ranges, requests, step_five, step_three};
use beside::generate::requests::{agent_request, request, whole};
use beside::generate::world::{self, largest, tables, Size, World};
use beside::random::Random;
use beside::reference::decision::decide;
use beside::reference::image::{self, AgentRequest};
use beside::reference::lines::hex;
use beside::reference::ridge;

#[cfg(agent_linked)]
pub mod linked {
    use super::AgentRequest;

    extern "C" {
        fn dugwalen_is_access_allowed(
            image: *const u8,
            image_len: usize,
            security_model: u32,
            security_name: *const u8,
            security_name_len: usize,
            security_level: u32,
            view_type: u32,
            context_name: *const u8,
            context_name_len: usize,
            variable_name: *const u8,
            variable_name_len: usize,
        ) -> u32;
    }

    pub fn call(image: &[u8], r: &AgentRequest) -> u32 {
        // SAFETY: each pointer comes with the length of its own slice, and the call only reads.
        unsafe {
            dugwalen_is_access_allowed(
                image.as_ptr(),
                image.len(),
                r.model,
                r.name.as_ptr(),
                r.name.len(),
                r.level,
                r.kind,
                r.context.as_ptr(),
                r.context.len(),
                r.variable.as_ptr(),
                r.variable.len(),
            )
        }
    }
}

pub type AgentCall = fn(&[u8], &AgentRequest) -> u32;

pub fn run(tally: &mut Tally, random: &mut Random, part: &'static str, agent: AgentCall, rounds: usize) {
    let ridge_tables = ridge::tables();
    let ridge = image::write(&ridge_tables);
    let p1 = whole(&ridge::request(3, 1, &[8, 2]));
    for (request, _) in ridge::examples() {
        compare_agent(tally, part, agent, &ridge, &whole(&request));
    }
    for length in 0..=4 * 129 + 1 {
        let mut request = p1.clone();
        request.variable.resize(length, 0);
        compare_agent(tally, part, agent, &ridge, &request);
    }
    for bytes in every_damage(&ridge).into_iter().chain(every_damage(&P12)).chain(beyond_largest(&image::write(&largest(random)))) {
        compare_agent(tally, part, agent, &bytes, &p1);
    }
    for case in step_three().into_iter().chain(step_five()) {
        let bytes = image::write(&case.tables);
        for request in &case.requests {
            check_agent(tally, part, agent, &bytes, &whole(request), decide(&case.tables, request));
        }
    }
    let (granted, _) = ranges();
    for request in requests() {
        check_agent(tally, part, agent, &image::write(&granted), &whole(&request), decide(&granted, &request));
    }
    let small = World::new(random, Size::Small);
    let tables_of_all = world::filled(random, &small, [3, 3, 3, 3]);
    for bytes in every_damage(&image::write(&tables_of_all)) {
        let plain = request(random, &small, &tables_of_all);
        let asked = agent_request(random, &plain);
        compare_agent(tally, part, agent, &bytes, &asked);
    }
    for _ in 0..40 * rounds {
        let world = World::any(random);
        let tables = tables(random, &world);
        let bytes = image::write(&tables);
        for _ in 0..80 {
            let plain = request(random, &world, &tables);
            let asked = agent_request(random, &plain);
            let expected = image::agent_decide(&tables, &asked);
            check_agent(tally, part, agent, &bytes, &asked, expected);
        }
        for _ in 0..40 {
            let plain = request(random, &world, &tables);
            let asked = agent_request(random, &plain);
            compare_agent(tally, part, agent, &damaged(random, &bytes), &asked);
        }
    }
}

fn compare_agent(tally: &mut Tally, part: &'static str, agent: AgentCall, image: &[u8], request: &AgentRequest) {
    check_agent(tally, part, agent, image, request, image::agent_call(image, request));
}

fn check_agent(tally: &mut Tally, part: &'static str, agent: AgentCall, image: &[u8], request: &AgentRequest, expected: u32) {
    let place = match expected {
        0..=5 => format!("decision: {expected}"),
        7 if image::read(image).is_ok() => "decision: 7".to_string(),
        _ => image_place(image, expected),
    };
    tally.meet(part, place);
    if agent(image, request) == expected {
        tally.passed += 1;
        return;
    }
    tally.failed += 1;
    tally.mismatches += 1;
    if tally.mismatches > SHOWN {
        return;
    }
    let image = fewest_rows(image, &mut 10_000, |image| agent(image, request) != image::agent_call(image, request));
    let mut request = request.clone();
    while !request.variable.is_empty() {
        let mut less = request.clone();
        less.variable.truncate(request.variable.len().saturating_sub(4));
        if agent(&image, &less) == image::agent_call(&image, &less) {
            break;
        }
        request = less;
    }
    println!("MISMATCH of the part {part}");
    show_image(&image);
    println!("  request: model {} level {} kind {}", request.model, request.level, request.kind);
    println!("    name {} context {} variable {}", hex(&request.name), hex(&request.context), hex(&request.variable));
    println!("  the reference: {}", image::agent_call(&image, &request));
    println!("  the other:     {}", agent(&image, &request));
}
