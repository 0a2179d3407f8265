//! The smallest case of a mismatch: lines and rows are dropped while it stays.

use crate::programs::{differing, Input, Program};
use beside::generate::damage::Loose;
use beside::reference::image;
use beside::reference::lines::{self, hex};
use std::fs;
use std::path::Path;

/// Drops lines, then rows of the image, while the mismatch stays; prints what is left.
pub fn show_shrunk(program: &mut Program, tables: Option<&[u8]>, input: &Input, expected: &[u8], written: &[u8], count: u64) {
    let mut lines = input.lines.clone();
    let mut newline = input.newline;
    if let Some(first) = differing(expected, written).first() {
        let front = Input::of(lines[..lines.len().min(first + 1)].to_vec());
        if program.differs(tables, &front.bytes()) {
            lines = front.lines;
            newline = true;
        }
    }
    let mut budget = 600;
    let mut tables = tables.map(<[u8]>::to_vec);
    for _ in 0..2 {
        lines = fewest(lines, &mut budget, |lines| program.differs(tables.as_deref(), &Input { lines: lines.to_vec(), newline }.bytes()));
        let stdin = Input { lines: lines.clone(), newline }.bytes();
        if let Some(bytes) = &tables {
            tables = Some(fewest_rows(bytes, &mut budget, |bytes| program.differs(Some(bytes), &stdin)));
        }
    }
    let stdin = Input { lines, newline }.bytes();
    let bytes = tables.clone().unwrap_or_default();
    println!("MISMATCH of {}", program.name);
    match &tables {
        None => println!("  tables.bin is missing"),
        Some(bytes) => show_image(bytes),
    }
    println!("  standard input: {}", visible(&stdin, 4000));
    println!("  the reference:  {}", visible(&(program.reference)(&bytes, &stdin), 2000));
    match program.run(tables.as_deref(), &stdin) {
        Ok(out) => println!("  the program:    {}", visible(&out, 2000)),
        Err(why) => println!("  the program:    {why}"),
    }
    let kept = Path::new(env!("CARGO_MANIFEST_DIR")).join(format!("../target/mismatches/{}-{count}", program.name));
    if fs::create_dir_all(&kept).is_ok() {
        let _ = fs::write(kept.join("stdin"), &stdin);
        if let Some(bytes) = &tables {
            let _ = fs::write(kept.join("tables.bin"), bytes);
        }
        println!("  the case is kept in {}", kept.display());
    }
}

fn fewest<T: Clone>(mut items: Vec<T>, budget: &mut usize, mut fails: impl FnMut(&[T]) -> bool) -> Vec<T> {
    let mut width = items.len();
    while width > 0 {
        let mut place = 0;
        while place < items.len() && *budget > 0 {
            *budget -= 1;
            let end = (place + width).min(items.len());
            let less = [&items[..place], &items[end..]].concat();
            if fails(&less) {
                items = less;
            } else {
                place = end;
            }
        }
        width /= 2;
    }
    items
}

pub fn fewest_rows(image: &[u8], budget: &mut usize, mut fails: impl FnMut(&[u8]) -> bool) -> Vec<u8> {
    let Some(mut loose) = Loose::of(image) else {
        return image.to_vec();
    };
    let mut i = loose.count();
    while i > 0 && *budget > 0 {
        i -= 1;
        *budget -= 1;
        let less = loose.without(i);
        if fails(&less.image()) {
            loose = less;
        }
    }
    loose.image()
}

pub fn show_image(bytes: &[u8]) {
    let text = hex(bytes);
    println!("  image of {} bytes: {}", bytes.len(), if text.len() > 4000 { &text[..4000] } else { &text });
    match image::read(bytes) {
        Ok(tables) => {
            for row in tables.rows() {
                println!("    {}", lines::row_text(&row));
            }
        }
        Err(number) => println!("    refused by the reference: {number}"),
    }
}

fn visible(bytes: &[u8], most: usize) -> String {
    let shown = &bytes[..bytes.len().min(most)];
    let more = if shown.len() < bytes.len() { format!(".. ({} bytes)", bytes.len()) } else { String::new() };
    format!("\"{}\"{}", shown.escape_ascii(), more)
}
