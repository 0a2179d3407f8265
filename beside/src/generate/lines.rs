//! Lines as text: the same words in other spellings, and malformed lines.

use crate::random::Random;

/// Upper-case hex and leading zeros, which mean the same.
pub fn respelt(random: &mut Random, line: &str) -> String {
    let hex = hex_words(line);
    let words = line.split(' ').enumerate().map(|(i, word)| {
        if hex.contains(&i) && word.bytes().all(|byte| byte.is_ascii_hexdigit()) {
            return if random.chance(50) { word.to_uppercase() } else { word.to_string() };
        }
        if word.starts_with(|c: char| c.is_ascii_digit()) && random.chance(30) {
            let zeros = random.of(&[1, 2, 10, 30]);
            return format!("{}{}", "0".repeat(zeros), word);
        }
        word.to_string()
    });
    words.collect::<Vec<String>>().join(" ")
}

/// The places of names and masks among a line's words; behind a key, where they would be in its row.
fn hex_words(line: &str) -> Vec<usize> {
    let words: Vec<&str> = line.split(' ').collect();
    let mut hex = match words[0] {
        "decide" | "explain" => vec![4, 5],
        "principal" | "set" | "walk" => vec![2],
        "owner" | "encode" | "decode" | "match" | "image" => vec![],
        _ => vec![3, 4],
    };
    for (i, word) in words.iter().enumerate() {
        let behind: &[usize] = match *word {
            "context" => &[1],
            "mapping" => &[2, 3],
            "access" => &[1, 2, 6, 7, 8],
            "view" => &[1, 3],
            _ => &[],
        };
        hex.extend(behind.iter().map(|place| i + place));
    }
    hex
}

/// A line brought to a length by zeros before its first number.
pub fn lengthened(line: &str, length: usize) -> String {
    match line.find(|c: char| c.is_ascii_digit()) {
        Some(place) if line.len() < length => format!("{}{}{}", &line[..place], "0".repeat(length - line.len()), &line[place..]),
        _ => line.to_string(),
    }
}

/// Bytes at the edges of digits and hex digits, separators, and bytes that no word has.
const BYTES: &[u8] = b"019/:;afg`AFG@.-+ \t\r\0\x7f\x80\xff_,zp";

pub fn malformed(random: &mut Random, line: &str) -> Vec<u8> {
    let mut bytes = line.as_bytes().to_vec();
    match random.below(13) {
        0 => {
            let word = random.of(&[
                "4294967296",
                "4294967299",
                "18446744073709551619",
                "99999999999999999999999",
                "-1",
                "+3",
                "",
                "0x3",
                "3.",
                ".3",
                "--",
                "a",
            ]);
            let mut words: Vec<&str> = line.split(' ').collect();
            let place = random.below(words.len());
            words[place] = word;
            bytes = words.join(" ").into_bytes();
        }
        1 => {
            let mut words: Vec<&str> = line.split(' ').collect();
            let place = random.below(words.len());
            match random.below(5) {
                0 => words.push("1"),
                1 => words.insert(place, ""),
                2 => {
                    let word = words[place];
                    words.insert(place, word);
                }
                3 => words.truncate(place),
                _ => {
                    words.remove(place);
                }
            }
            bytes = words.join(" ").into_bytes();
        }
        2 => bytes.push(random.of(b" \r\t\0.-1")),
        3 => bytes.insert(0, random.of(b" \t\0-1")),
        4 => bytes.truncate(random.between(0, bytes.len())),
        5 => bytes = lengthened(line, random.of(&[2049, 2050, 4095, 4096, 4097, 8192])).into_bytes(),
        6 => bytes = vec![random.of(BYTES); random.of(&[0, 1, 2048, 2049, 5000])],
        7 => bytes = of_another_table(random, line).into_bytes(),
        8 => bytes = of_another_edit(random, line).into_bytes(),
        9 => bytes = with_other_separators(random, line).into_bytes(),
        _ => {
            for _ in 0..random.between(1, 2) {
                alter(random, &mut bytes);
            }
        }
    }
    bytes.retain(|byte| *byte != b'\n');
    bytes
}

const TABLE_WORDS: [&str; 4] = ["context", "mapping", "access", "view"];

/// The fields of one table behind the word of any.
fn of_another_table(random: &mut Random, line: &str) -> String {
    let other = random.of(&TABLE_WORDS);
    let words = line.split(' ').map(|word| if TABLE_WORDS.contains(&word) { other } else { word });
    words.collect::<Vec<&str>>().join(" ")
}

const EDIT_WORDS: [&str; 3] = ["create", "change", "remove"];

/// A row or a key behind the word of any edit, or behind one that is none.
fn of_another_edit(random: &mut Random, line: &str) -> String {
    let other = random.of(&["create", "change", "remove", "put", "add"]);
    let words = line.split(' ').map(|word| if EDIT_WORDS.contains(&word) { other } else { word });
    words.collect::<Vec<&str>>().join(" ")
}

/// Without one of the `;` between edits, with another word for it or with one more; or with one anywhere.
fn with_other_separators(random: &mut Random, line: &str) -> String {
    let mut words: Vec<&str> = line.split(' ').collect();
    let places: Vec<usize> = (0..words.len()).filter(|place| words[*place] == ";").collect();
    let place = if places.is_empty() { None } else { Some(random.of(&places)) };
    match (random.below(4), place) {
        (0, Some(place)) => drop(words.remove(place)),
        (1, Some(place)) => words[place] = random.of(&["", ";;", ",", ":", "set"]),
        (2, Some(place)) => words.insert(place, ";"),
        _ => words.insert(random.between(0, words.len()), ";"),
    }
    words.join(" ")
}

fn alter(random: &mut Random, bytes: &mut Vec<u8>) {
    let place = random.between(0, bytes.len());
    let byte = random.of(BYTES);
    match random.below(3) {
        0 => bytes.insert(place, byte),
        1 if place < bytes.len() => bytes[place] = byte,
        _ if place < bytes.len() => {
            bytes.remove(place);
        }
        _ => bytes.push(byte),
    }
}

/// The line with every number, one at a time, greater by what 32 or 64 bits would lose.
pub fn every_wrap(line: &str) -> Vec<Vec<u8>> {
    let mut wrapped = Vec::new();
    let mut place = 0;
    for number in line.split([' ', '.']) {
        if let Ok(value) = number.parse::<u128>() {
            for by in [1 << 32, 1 << 33, 1 << 40, 1 << 64, (1 << 64) + (1 << 32)] {
                wrapped.push(format!("{}{}{}", &line[..place], value + by, &line[place + number.len()..]).into_bytes());
            }
        }
        place += number.len() + 1;
    }
    wrapped
}

/// At every place of the line each byte put in or put over, and every byte left out.
pub fn every_alteration(line: &str) -> Vec<Vec<u8>> {
    let bytes = line.as_bytes();
    let mut altered = Vec::new();
    for place in 0..=bytes.len() {
        for byte in BYTES {
            altered.push([&bytes[..place], &[*byte], &bytes[place..]].concat());
            if place < bytes.len() {
                altered.push([&bytes[..place], &[*byte], &bytes[place + 1..]].concat());
            }
        }
        if place < bytes.len() {
            altered.push([&bytes[..place], &bytes[place + 1..]].concat());
        }
        altered.push(bytes[..place].to_vec());
    }
    altered
}
