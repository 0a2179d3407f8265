//! The part tryreq: requests and bad lines on tables of every size, and damaged images.

use crate::programs::{compare, Input, Program};
use crate::tally::Tally;
use beside::generate::damage::{beyond_largest, damaged, every_damage, one_of_each};
use beside::generate::every::{ranges, requests, step_five, step_three};
use beside::generate::lines::{every_alteration, every_wrap, lengthened, malformed, respelt};
use beside::generate::requests::request;
use beside::generate::world::{largest, tables, World};
use beside::random::Random;
use beside::reference::image;
use beside::reference::lines::request_text;
use beside::reference::ridge;
use beside::reference::tables::Tables;

/// The image of example P12.
pub const P12: [u8; 11] = [0, 1, 0, 0, 0, 0, 0, 0, 0, 1, 0];

pub fn run(tally: &mut Tally, random: &mut Random, program: &mut Program, rounds: usize) {
    let ridge = image::write(&ridge::tables());
    let ridge_lines: Vec<String> = ridge::examples().iter().map(|(request, _)| request_text(request)).collect();
    let texts = |lines: &[&str]| Input::of(lines.iter().map(|line| line.as_bytes().to_vec()).collect());
    let example = ["3 1 1 616e6e - 1.3.6.1", "3 4 1 616e6e - 1.3"];
    compare(tally, program, Some(&P12), &texts(&example));
    compare(tally, program, None, &texts(&example));
    compare(tally, program, Some(b""), &texts(&example));
    compare(tally, program, Some(&ridge), &Input::of(ridge_lines.iter().map(|line| line.clone().into_bytes()).collect()));
    line_ends(tally, program, &ridge, &ridge_lines[0]);
    compare(tally, program, Some(&ridge), &Input::of(every_alteration(&ridge_lines[0])));
    compare(tally, program, Some(&ridge), &Input::of(every_alteration(example[0])));
    compare(tally, program, Some(&ridge), &Input::of(every_wrap(&ridge_lines[0])));
    for bytes in one_of_each().into_iter().chain(beyond_largest(&image::write(&largest(random)))) {
        compare(tally, program, Some(&bytes), &texts(&example));
    }
    let lines = requests().iter().map(|request| request_text(request).into_bytes()).collect();
    compare(tally, program, Some(&image::write(&ranges().0)), &Input::of(lines));
    for cases in [step_three(), step_five()] {
        for _ in 0..10 * rounds {
            let case = random.pick(&cases);
            let lines = case.requests.iter().map(|request| request_text(request).into_bytes()).collect();
            compare(tally, program, Some(&image::write(&case.tables)), &Input::of(lines));
        }
    }
    let every = every_damage(&ridge);
    let (cuts, others) = every.split_at(ridge.len());
    for bytes in cuts {
        compare(tally, program, Some(bytes), &texts(&example));
    }
    for _ in 0..30 * rounds {
        compare(tally, program, Some(&others[random.below(others.len())]), &texts(&example));
    }
    for _ in 0..rounds {
        for _ in 0..12 {
            let world = World::any(random);
            let tables = tables(random, &world);
            let bytes = image::write(&tables);
            let lines = (0..random.between(100, 400)).map(|_| request_line(random, &world, &tables)).collect();
            let newline = random.chance(80);
            compare(tally, program, Some(&bytes), &Input { lines, newline });
            for _ in 0..4 {
                let lines = vec![request_line(random, &world, &tables)];
                compare(tally, program, Some(&damaged(random, &bytes)), &Input::of(lines));
            }
        }
    }
}

fn request_line(random: &mut Random, world: &World, tables: &Tables) -> Vec<u8> {
    let text = request_text(&request(random, world, tables));
    spelt(random, text)
}

/// As it is, in another spelling, at a line's greatest length or just over it, or malformed.
pub fn spelt(random: &mut Random, text: String) -> Vec<u8> {
    match random.below(20) {
        0 | 1 => respelt(random, &text).into_bytes(),
        2 => lengthened(&text, random.of(&[2047, 2048, 2048, 2049, 2050])).into_bytes(),
        3 | 4 => malformed(random, &text),
        _ => text.into_bytes(),
    }
}

/// Lines around the limit of 2,048 bytes and far beyond it, empty lines, and a last line with and without its newline.
pub fn line_ends(tally: &mut Tally, program: &mut Program, tables: &[u8], line: &str) {
    let plain = line.as_bytes().to_vec();
    let mut around: Vec<Vec<u8>> = Vec::new();
    for length in [2046, 2047, 2048, 2049, 2050, 4095, 4096, 4097, 6144, 8191, 8192, 8193, 46_456, 65_535, 65_536, 65_537, 200_000] {
        around.push(lengthened(line, length).into_bytes());
        around.push(plain.clone());
        around.push(vec![b' '; length]);
        around.push(vec![0; length]);
        around.push(Vec::new());
    }
    for newline in [true, false] {
        compare(tally, program, Some(tables), &Input { lines: around.clone(), newline });
        for length in [1, 2047, 2048, 2049, 4096, 4097, 70_000] {
            let last = lengthened(line, length).into_bytes();
            compare(tally, program, Some(tables), &Input { lines: vec![plain.clone(), last.clone()], newline });
            compare(tally, program, Some(tables), &Input { lines: vec![last], newline });
        }
        for count in [0, 1, 2, 5000] {
            compare(tally, program, Some(tables), &Input { lines: vec![Vec::new(); count], newline });
        }
    }
}
