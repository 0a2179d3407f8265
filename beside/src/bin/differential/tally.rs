//! What is counted: cases passed and failed, and how often each answer was met at each place of document 01's table.

use beside::generate::damage::Loose;
use std::collections::BTreeMap;

#[derive(Default)]
pub struct Tally {
    pub passed: u64,
    pub failed: u64,
    /// How often each answer was met, by part and place.
    pub met: BTreeMap<(&'static str, String), u64>,
    /// Mismatches met so far in the part that runs.
    pub mismatches: u64,
}

impl Tally {
    pub fn meet(&mut self, part: &'static str, place: String) {
        *self.met.entry((part, place)).or_insert(0) += 1;
    }

    pub fn check(&mut self, holds: bool, otherwise: impl FnOnce() -> String) {
        if holds {
            self.passed += 1;
        } else {
            self.failed += 1;
            println!("FAILED {}", otherwise());
        }
    }

    /// Every answer that a part can give has to have been met.
    pub fn require(&mut self, part: &'static str, places: &[(&str, &[&str])]) {
        for (place, answers) in places {
            for answer in *answers {
                let met = self.met.contains_key(&(part, format!("{place}: {answer}")));
                self.check(met, || format!("{part}: no case of '{place}: {answer}'"));
            }
        }
    }

    /// Cases that are drawn near others have to be met often, or the others are all that is met.
    pub fn require_often(&mut self, part: &'static str, place: &str, least: usize) {
        let times = self.met.get(&(part, place.to_string())).copied().unwrap_or(0);
        self.check(times >= least as u64, || format!("{part}: {times} cases of '{place}', not {least}"));
    }
}

/// The places of an image's refusals in document 01's table.
pub const IMAGE_PLACES: &[(&str, &[&str])] =
    &[("image under 8 bytes", &["14"]), ("image counts", &["9"]), ("image total length", &["14"]), ("image row", &["14", "7", "15"])];

pub fn image_place(image: &[u8], number: u32) -> String {
    let place = if image.len() < 8 {
        "image under 8 bytes"
    } else if number == 9 {
        "image counts"
    } else if Loose::of(image).is_none() {
        "image total length"
    } else {
        "image row"
    };
    format!("{place}: {number}")
}
