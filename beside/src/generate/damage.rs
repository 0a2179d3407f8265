//! Damaged images: cut, with bits flipped, rows swapped or equal, counts and lengths off by one.

use crate::random::Random;
use crate::reference::image::{key_bytes, number_16, read_row, LARGEST};
use crate::reference::rows::*;

/// An image taken apart without judging its rows.
#[derive(Clone)]
pub struct Loose {
    pub tables: [Vec<Vec<u8>>; 4],
}

impl Loose {
    pub fn of(image: &[u8]) -> Option<Loose> {
        if image.len() < 8 {
            return None;
        }
        let counts = [0, 2, 4, 6].map(|place| number_16(image, place));
        let mut place = 8 + 2 * counts.iter().sum::<usize>();
        let mut length_at = 8;
        let mut tables = [const { Vec::new() }; 4];
        for (table, count) in tables.iter_mut().zip(counts) {
            for _ in 0..count {
                if length_at + 2 > image.len() {
                    return None;
                }
                let end = place + number_16(image, length_at);
                table.push(image.get(place..end)?.to_vec());
                length_at += 2;
                place = end;
            }
        }
        if place == image.len() {
            Some(Loose { tables })
        } else {
            None
        }
    }

    pub fn image(&self) -> Vec<u8> {
        let mut image = Vec::new();
        for table in &self.tables {
            image.extend_from_slice(&(table.len() as u16).to_be_bytes());
        }
        for row in self.tables.iter().flatten() {
            image.extend_from_slice(&(row.len() as u16).to_be_bytes());
        }
        for row in self.tables.iter().flatten() {
            image.extend_from_slice(row);
        }
        image
    }

    pub fn count(&self) -> usize {
        self.tables.iter().map(Vec::len).sum()
    }

    /// The image without its row `i`, counted over all tables.
    pub fn without(&self, i: usize) -> Loose {
        let mut less = self.clone();
        let mut i = i;
        for table in &mut less.tables {
            if i < table.len() {
                table.remove(i);
                return less;
            }
            i -= table.len();
        }
        less
    }
}

/// Where fields of a legal row begin, octets apart from their length byte, and the row's end.
pub fn field_edges(table: Table, bytes: &[u8]) -> Vec<usize> {
    const NAME: usize = 1000;
    const SUBTREE: usize = 1001;
    let fields: &[usize] = match table {
        Table::Context => &[NAME],
        Table::Mapping => &[4, NAME, NAME, 1, 1],
        Table::Access => &[NAME, NAME, 4, 1, 1, NAME, NAME, NAME, 1, 1],
        Table::View => &[NAME, SUBTREE, NAME, 1, 1, 1],
    };
    let mut edges = vec![0];
    let mut place = 0;
    for field in fields {
        let width = match *field {
            NAME => bytes[place] as usize,
            SUBTREE => 4 * bytes[place] as usize,
            width => width,
        };
        if *field >= NAME {
            place += 1;
            edges.push(place);
        }
        place += width;
        edges.push(place);
    }
    edges
}

/// Every cut, every flipped bit, and at every row every cut at a field's edge, every wrong length and every wrong neighbour.
pub fn every_damage(image: &[u8]) -> Vec<Vec<u8>> {
    let mut damaged: Vec<Vec<u8>> = (0..image.len()).map(|end| image[..end].to_vec()).collect();
    for bit in 0..8 * image.len() {
        let mut flipped = image.to_vec();
        flipped[bit / 8] ^= 1 << (bit % 8);
        damaged.push(flipped);
    }
    for extra in 1..4 {
        damaged.push([image, &vec![0; extra]].concat());
    }
    let loose = Loose::of(image).expect("an image that is whole");
    for (t, table) in TABLES.into_iter().enumerate() {
        for i in 0..loose.tables[t].len() {
            let row = &loose.tables[t][i];
            let mut put = |new: Vec<u8>| {
                let mut changed = loose.clone();
                changed.tables[t][i] = new;
                damaged.push(changed.image());
            };
            for edge in field_edges(table, row) {
                for end in edge.saturating_sub(1)..=(edge + 1).min(row.len()) {
                    put(row[..end].to_vec());
                }
                for value in [0, 1, 2, 3, 4, 5, 6, 16, 17, 32, 33, 34, 64, 65, 128, 255] {
                    if edge < row.len() {
                        let mut changed = row.clone();
                        changed[edge] = value;
                        put(changed);
                    }
                }
            }
            put([&row[..], &[0]].concat());
            put([&row[..], &row[..]].concat());
            put(Vec::new());
            if i > 0 {
                let before = loose.tables[t][i - 1].clone();
                put(before.clone());
                let key = key_bytes(&read_row(table, &before).unwrap().key());
                let mut equal = read_row(table, row).map(|row| key_bytes(&row.key())).unwrap();
                equal.splice(.., key);
                let own = key_bytes(&read_row(table, row).unwrap().key()).len();
                equal.extend_from_slice(&row[own..]);
                put(equal);
                let mut swapped = loose.clone();
                swapped.tables[t].swap(i - 1, i);
                damaged.push(swapped.image());
            }
            let mut twice = loose.clone();
            twice.tables[t].insert(i, row.clone());
            damaged.push(twice.image());
        }
        // a count that is off, and the limits
        for count in [loose.tables[t].len() + 1, loose.tables[t].len().wrapping_sub(1), table.limit(), table.limit() + 1, 256, 65_535] {
            let mut changed = image.to_vec();
            changed[2 * t..2 * t + 2].copy_from_slice(&(count as u16).to_be_bytes());
            damaged.push(changed);
        }
    }
    // a row length that is off, alone or made good by its neighbour
    for i in 0..loose.count() {
        for by in [1u16, u16::MAX] {
            let mut changed = image.to_vec();
            add_16(&mut changed, 8 + 2 * i, by);
            damaged.push(changed.clone());
            if i + 1 < loose.count() {
                add_16(&mut changed, 8 + 2 * (i + 1), by.wrapping_neg());
                damaged.push(changed);
            }
        }
    }
    damaged
}

fn add_16(bytes: &mut [u8], place: usize, by: u16) {
    let sum = (number_16(bytes, place) as u16).wrapping_add(by);
    bytes[place..place + 2].copy_from_slice(&sum.to_be_bytes());
}

/// One damage, now and then two.
pub fn damaged(random: &mut Random, image: &[u8]) -> Vec<u8> {
    let once = damage(random, image);
    if random.chance(20) {
        damage(random, &once)
    } else {
        once
    }
}

fn damage(random: &mut Random, image: &[u8]) -> Vec<u8> {
    let mut changed = image.to_vec();
    let loose = Loose::of(image).filter(|loose| loose.count() > 0);
    let kind = random.below(12);
    match (kind, loose) {
        (0..=4, Some(loose)) => return damage_row(random, loose),
        (5, Some(loose)) => {
            let i = random.below(loose.count());
            add_16(&mut changed, 8 + 2 * i, random.of(&[1, u16::MAX]));
            if i + 1 < loose.count() && random.chance(60) {
                add_16(&mut changed, 8 + 2 * (i + 1), random.of(&[1, u16::MAX]));
            }
        }
        (6, Some(loose)) => changed = swap_or_repeat(random, loose),
        (7, _) if changed.len() >= 8 => {
            let t = random.below(4);
            if random.chance(50) {
                add_16(&mut changed, 2 * t, random.of(&[1, u16::MAX]));
            } else {
                let limit = TABLES[t].limit();
                let count = random.of(&[limit, limit + 1, 256, 65_535]) as u16;
                changed[2 * t..2 * t + 2].copy_from_slice(&count.to_be_bytes());
            }
        }
        (8, _) => changed.truncate(random.between(0, image.len())),
        (9, _) => {
            for _ in 0..random.between(1, 4) {
                changed.push(random.word() as u8);
            }
        }
        (10, _) if random.chance(20) => changed = (0..random.between(0, 40)).map(|_| random.of(&[0, 0, 0, 1, 2, 3, 255])).collect(),
        _ if !changed.is_empty() => {
            let place = random.below(changed.len());
            changed[place] ^= 1 << random.below(8);
        }
        _ => changed.push(0),
    }
    changed
}

/// One row's bytes altered, with its length written anew.
fn damage_row(random: &mut Random, mut loose: Loose) -> Vec<u8> {
    let t = loop {
        let t = random.below(4);
        if !loose.tables[t].is_empty() {
            break t;
        }
    };
    let i = random.below(loose.tables[t].len());
    let row = &mut loose.tables[t][i];
    let edges = match read_row(TABLES[t], row) {
        Ok(_) => field_edges(TABLES[t], row),
        Err(_) => vec![0, row.len()],
    };
    let edge = *random.pick(&edges);
    match random.below(6) {
        0 => row.truncate(edge),
        1 => row.truncate(edge.saturating_sub(1)),
        2 => row.extend((0..random.between(1, 3)).map(|_| 1)),
        3 => row.insert(edge, random.of(&[0, 1, 2, 33])),
        _ if edge < row.len() => row[edge] = random.of(&[0, 1, 2, 3, 4, 5, 6, 16, 17, 32, 33, 64, 65, 127, 128, 255]),
        _ => row.push(0),
    }
    loose.image()
}

fn swap_or_repeat(random: &mut Random, mut loose: Loose) -> Vec<u8> {
    for table in &mut loose.tables {
        if table.len() > 1 && random.chance(60) {
            let i = random.below(table.len());
            let j = random.below(table.len());
            match random.below(3) {
                0 => table.swap(i, j),
                1 => table[i] = table[j].clone(),
                _ => table.insert(i, table[j].clone()),
            }
        }
    }
    loose.image()
}

/// The largest image and longer files: only more behind; or one byte over by a row's length, with more behind. Where the row one
/// over is the last, an earlier row that is refused tells whether exactly 46,457 bytes were read.
pub fn beyond_largest(largest: &[u8]) -> Vec<Vec<u8>> {
    assert_eq!(largest.len(), LARGEST);
    let rows: usize = TABLES.iter().map(|table| table.limit()).sum();
    let mut beyond = vec![largest.to_vec(), [largest, &[0]].concat(), [largest, &[0; 2000]].concat()];
    let first_row = 8 + 2 * rows;
    for row in [0, 1, rows - 1] {
        let mut longer = largest.to_vec();
        add_16(&mut longer, 8 + 2 * row, 1);
        longer.push(1);
        let mut out_of_range = longer.clone();
        out_of_range[first_row] = NAME_LIMIT as u8 + 1;
        let mut descending = longer.clone();
        descending[first_row + 1..first_row + 1 + NAME_LIMIT].fill(0xff);
        for bytes in [longer, out_of_range, descending] {
            for behind in [0, 1, 50_000] {
                beyond.push([&bytes[..], &vec![7; behind]].concat());
            }
        }
    }
    beyond
}

/// A small image for each refusal of document 01's table.
pub fn one_of_each() -> Vec<Vec<u8>> {
    vec![
        vec![0; 7],
        vec![0, 17, 0, 0, 0, 0, 0, 0],
        vec![0, 0, 0, 65, 0, 0, 0, 0],
        vec![0, 0, 0, 0, 0, 65, 0, 0],
        vec![0, 0, 0, 0, 0, 0, 0, 97],
        vec![0, 1, 0, 0, 0, 0, 0, 0],
        vec![0, 1, 0, 0, 0, 0, 0, 0, 0, 1],
        vec![0, 1, 0, 0, 0, 0, 0, 0, 0, 1, 32],
        vec![0, 1, 0, 0, 0, 0, 0, 0, 0, 1, 33],
        vec![0, 1, 0, 0, 0, 0, 0, 0, 0, 2, 0, 0],
        vec![0, 2, 0, 0, 0, 0, 0, 0, 0, 1, 0, 1, 0, 0],
        vec![0, 2, 0, 0, 0, 0, 0, 0, 0, 1, 0, 1, 0, 33],
    ]
}
