//! Writing and reading, encoding and decoding, printing and parsing are each the inverse of the other, on random tables.

use super::edits::Edit;
use super::lines::{call_of, call_text, can_hold, Call};
use super::{image, instance};
use crate::generate::calls::call;
use crate::generate::world::{tables, World};
use crate::random::Random;

#[test]
fn images() {
    let random = &mut Random::new(1);
    for _ in 0..40 {
        let world = World::any(random);
        let tables = tables(random, &world);
        assert_eq!(image::read(&image::write(&tables)), Ok(tables));
    }
}

#[test]
fn instances() {
    let random = &mut Random::new(2);
    for _ in 0..20 {
        let world = World::any(random);
        for row in tables(random, &world).rows() {
            let key = row.key();
            for column in instance::columns(key.table()) {
                let identifier = instance::encode(*column, &key).expect("a legal key");
                assert_eq!(instance::decode(&identifier), Ok((*column, key.clone())));
            }
        }
    }
}

#[test]
fn lines() {
    let random = &mut Random::new(3);
    for _ in 0..20 {
        let world = World::any(random);
        let tables = tables(random, &world);
        for row in tables.rows() {
            for edit in [Edit::Create(row.clone()), Edit::Change(row.clone()), Edit::Remove(row.key())] {
                let call = Call::Owner(edit);
                assert_eq!(call_of(call_text(&call).as_bytes()), Some(call));
            }
        }
        for _ in 0..50 {
            let call = call(random, &world, &tables);
            let is_said = !matches!(&call, Call::Set(_, edits) if !edits.iter().all(can_hold));
            assert_eq!(call_of(call_text(&call).as_bytes()), Some(call).filter(|_| is_said));
        }
    }
}
