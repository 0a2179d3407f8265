//! The same work as the proved code, written by hand for speed, as one would write it in C: on the bytes of a table image where
//! they lie, by pointers, with no heap. An image is judged in one pass that notes where its rows begin; then rows are found by
//! bisection, and decided on, walked or edited in their place. The benchmark's other side; nothing else uses it.

use std::mem::MaybeUninit;
use std::ops::Range;
use std::ptr::read_unaligned;
use std::slice::from_raw_parts;

pub const ROOM: usize = 46_456;
/// The longest key: a view's name and a subtree.
pub const KEY_MAX: usize = 290;
/// The longest row: a view's, by its mask and three numbers longer than its key.
pub const ROW_MAX: usize = 310;
/// The parts of the longest identifier, and its bytes.
pub const MOST_PARTS: usize = 128;
const MOST_BYTES: usize = 4 * MOST_PARTS;
const LIMITS: [usize; 4] = [16, 64, 64, 96];
const ALL_ROWS: usize = 240;
const LARGEST_MODEL: u32 = 2_147_483_647;

/// Where a row, a field or a key begins or ends.
type At = *const u8;

/// For each table the number of its first row among all rows; for each row where it begins, and the end of the last.
struct Layout {
    row: [usize; 5],
    start: [MaybeUninit<u32>; ALL_ROWS + 1],
}

impl Layout {
    #[inline(always)]
    fn new() -> Layout {
        Layout { row: [0; 5], start: [MaybeUninit::uninit(); ALL_ROWS + 1] }
    }

    /// SAFETY: `i` is at most the number of rows, and the survey has passed.
    #[inline(always)]
    unsafe fn start(&self, i: usize) -> usize {
        self.start.get_unchecked(i).assume_init() as usize
    }
}

#[inline(always)]
unsafe fn be_16(at: At) -> usize {
    u16::from_be(read_unaligned(at.cast::<u16>())) as usize
}

#[inline(always)]
unsafe fn be_32(at: At) -> u32 {
    u32::from_be(read_unaligned(at.cast::<u32>()))
}

#[inline(always)]
unsafe fn be_64(at: At) -> u64 {
    u64::from_be(read_unaligned(at.cast::<u64>()))
}

#[inline(always)]
fn set_16(bytes: &mut [u8], place: usize, number: usize) {
    bytes[place..place + 2].copy_from_slice(&(number as u16).to_be_bytes());
}

// ---- judging

/// The counts and row lengths of an image at the front of `bytes`, before any row is judged: 0, or the refusal.
#[inline(always)]
fn survey(bytes: &[u8], layout: &mut Layout) -> u32 {
    if bytes.len() < 8 {
        return 14;
    }
    let at = bytes.as_ptr();
    let mut rows = 0;
    for (t, limit) in LIMITS.into_iter().enumerate() {
        // SAFETY: the 8 bytes of the counts are there.
        let count = unsafe { be_16(at.add(2 * t)) };
        if count > limit {
            return 9;
        }
        rows += count;
        layout.row[t + 1] = rows;
    }
    let mut start = 8 + 2 * rows;
    if bytes.len() < start {
        return 14;
    }
    for i in 0..rows {
        layout.start[i] = MaybeUninit::new(start as u32);
        // SAFETY: the array of lengths is there.
        start += unsafe { be_16(at.add(8 + 2 * i)) };
    }
    layout.start[rows] = MaybeUninit::new(start as u32);
    0
}

/// The whole image: its total length, then its rows in order.
#[inline(always)]
fn judge_image(image: &[u8], layout: &mut Layout) -> u32 {
    match survey(image, layout) {
        0 => {}
        refusal => return refusal,
    }
    // SAFETY: the survey has passed; then every row lies in the image.
    unsafe {
        if layout.start(layout.row[4]) != image.len() {
            return 14;
        }
        judge_rows(image.as_ptr(), layout)
    }
}

/// A store is room of one size with an image at its front.
#[inline(always)]
fn judge_store(store: &[u8], layout: &mut Layout) -> u32 {
    if store.len() != ROOM || survey(store, layout) != 0 {
        return 6;
    }
    // SAFETY: the survey has passed; then every row lies in the store.
    unsafe {
        if layout.start(layout.row[4]) > ROOM || judge_rows(store.as_ptr(), layout) != 0 {
            return 6;
        }
    }
    0
}

/// SAFETY: every row of the layout lies in the bytes at `bytes`.
unsafe fn judge_rows(bytes: At, layout: &Layout) -> u32 {
    match judge_table::<0>(bytes, layout) {
        0 => {}
        refusal => return refusal,
    }
    match judge_table::<1>(bytes, layout) {
        0 => {}
        refusal => return refusal,
    }
    match judge_table::<2>(bytes, layout) {
        0 => {}
        refusal => return refusal,
    }
    judge_table::<3>(bytes, layout)
}

#[inline(always)]
unsafe fn judge_table<const TABLE: usize>(bytes: At, layout: &Layout) -> u32 {
    let mut before: At = bytes;
    let mut before_length = 0;
    for i in layout.row[TABLE]..layout.row[TABLE + 1] {
        let row = bytes.add(layout.start(i));
        let end = bytes.add(layout.start(i + 1));
        let key_end = match judge_row::<TABLE>(row, end) {
            Ok(key_end) => key_end,
            Err(refusal) => return refusal,
        };
        let length = key_end.offset_from(row) as usize;
        if before_length != 0 && !ascends(before, before_length, row, length) {
            return 15;
        }
        before = row;
        before_length = length;
    }
    0
}

/// Whether the first key stands before the second. A key's bytes are in the order of its index, and no key begins another.
#[inline(always)]
unsafe fn ascends(a: At, a_length: usize, b: At, b_length: usize) -> bool {
    let length = a_length.min(b_length);
    if length < 8 {
        for i in 0..length {
            if *a.add(i) != *b.add(i) {
                return *a.add(i) < *b.add(i);
            }
        }
        return false;
    }
    let (x, y) = (be_64(a), be_64(b));
    if x != y {
        return x < y;
    }
    from_raw_parts(a.add(8), length - 8) < from_raw_parts(b.add(8), length - 8)
}

/// Where the row's key ends.
#[inline(always)]
unsafe fn judge_row<const TABLE: usize>(row: At, end: At) -> Result<At, u32> {
    let key = judge_key::<TABLE>(row, end)?;
    if judge_rest::<TABLE>(key, end)? == end {
        Ok(key)
    } else {
        Err(14)
    }
}

/// Where the key at the front of a row ends, whatever follows it.
#[inline(always)]
unsafe fn judge_key<const TABLE: usize>(row: At, end: At) -> Result<At, u32> {
    match TABLE {
        0 => octets(row, end, 0, 32),
        1 => octets(model(row, end, 1)?, end, 1, 32),
        2 => {
            let at = octets(octets(row, end, 1, 32)?, end, 0, 32)?;
            number(model(at, end, 0)?, end, 1, 3)
        }
        _ => subtree(octets(row, end, 1, 32)?, end),
    }
}

/// Where the fields behind the key end.
#[inline(always)]
unsafe fn judge_rest<const TABLE: usize>(key: At, end: At) -> Result<At, u32> {
    let at = match TABLE {
        0 => return Ok(key),
        1 => octets(key, end, 1, 32)?,
        2 => {
            let at = octets(number(key, end, 1, 2)?, end, 0, 32)?;
            octets(octets(at, end, 0, 32)?, end, 0, 32)?
        }
        _ => number(octets(key, end, 0, 16)?, end, 1, 2)?,
    };
    number(number(at, end, 2, 5)?, end, 1, 2)
}

#[inline(always)]
unsafe fn left(at: At, end: At) -> usize {
    end.offset_from(at) as usize
}

#[inline(always)]
unsafe fn octets(at: At, end: At, least: usize, most: usize) -> Result<At, u32> {
    if at == end {
        return Err(14);
    }
    let length = *at as usize;
    if length < least || length > most {
        return Err(7);
    }
    if 1 + length > left(at, end) {
        return Err(14);
    }
    Ok(at.add(1 + length))
}

#[inline(always)]
unsafe fn subtree(at: At, end: At) -> Result<At, u32> {
    if at == end {
        return Err(14);
    }
    let count = *at as usize;
    if !(1..=64).contains(&count) {
        return Err(7);
    }
    if 1 + 4 * count > left(at, end) {
        return Err(14);
    }
    Ok(at.add(1 + 4 * count))
}

#[inline(always)]
unsafe fn model(at: At, end: At, least: u32) -> Result<At, u32> {
    if left(at, end) < 4 {
        return Err(14);
    }
    let model = be_32(at);
    if model < least || model > LARGEST_MODEL {
        return Err(7);
    }
    Ok(at.add(4))
}

#[inline(always)]
unsafe fn number(at: At, end: At, least: u8, most: u8) -> Result<At, u32> {
    if at == end {
        return Err(14);
    }
    if *at < least || *at > most {
        return Err(7);
    }
    Ok(at.add(1))
}

// ---- finding rows

/// The first row of a table whose bytes are not below `head` (not at or below it, for `above`).
/// SAFETY: the rows were judged, and `head` is the front of a legal key, up to the end of a field.
#[inline(always)]
unsafe fn bound(bytes: At, layout: &Layout, table: usize, head: &[u8], above: bool) -> usize {
    let mut low = layout.row[table];
    let mut high = layout.row[table + 1];
    while low < high {
        let middle = (low + high) / 2;
        let start = layout.start(middle);
        let length = (layout.start(middle + 1) - start).min(head.len());
        let order = from_raw_parts(bytes.add(start), length).cmp(head);
        if order.is_lt() || above && order.is_eq() {
            low = middle + 1;
        } else {
            high = middle;
        }
    }
    low
}

/// The row that begins with these bytes.
#[inline(always)]
unsafe fn held(bytes: At, layout: &Layout, table: usize, key: &[u8]) -> Option<usize> {
    let place = bound(bytes, layout, table, key, false);
    if place < layout.row[table + 1] && begins(bytes, layout, place, key) {
        Some(place)
    } else {
        None
    }
}

#[inline(always)]
unsafe fn begins(bytes: At, layout: &Layout, place: usize, head: &[u8]) -> bool {
    let start = layout.start(place);
    layout.start(place + 1) - start >= head.len() && from_raw_parts(bytes.add(start), head.len()) == head
}

// ---- the decision

#[derive(Clone, Copy)]
pub struct Request<'a> {
    pub model: u32,
    pub name: &'a [u8],
    pub level: u32,
    pub kind: u32,
    pub context: &'a [u8],
}

#[inline(always)]
fn legal_name(name: &[u8]) -> bool {
    name.len().wrapping_sub(1) < 32
}

#[inline(always)]
fn legal_variable(parts: usize) -> bool {
    parts.wrapping_sub(1) < MOST_PARTS
}

/// What step 3 asks for besides the group.
#[inline(always)]
fn legal_access(context: &[u8], model: u32, level: u32) -> bool {
    context.len() <= 32 && model.wrapping_sub(1) < LARGEST_MODEL && level.wrapping_sub(1) < 3
}

#[inline(always)]
fn in_range(request: &Request, parts: usize) -> bool {
    legal_access(request.context, request.model, request.level)
        && legal_name(request.name)
        && request.kind.wrapping_sub(1) < 3
        && legal_variable(parts)
}

/// The decision over an image: the agent's call.
#[inline(never)]
pub fn is_access_allowed(image: &[u8], request: &Request, variable: &[u8]) -> u32 {
    let mut layout = Layout::new();
    match judge_image(image, &mut layout) {
        0 => {}
        refusal => return refusal,
    }
    if !variable.len().is_multiple_of(4) || !in_range(request, variable.len() / 4) {
        return 7;
    }
    // SAFETY: the image was judged, and the request is in range.
    unsafe { decide(image.as_ptr(), &layout, request, variable, &mut Picked::default()) }
}

/// The decision over a store.
#[inline(never)]
pub fn store_decide(store: &[u8], request: &Request, variable: &[u32]) -> u32 {
    decide_by(store, request, variable, &mut Picked::default())
}

#[inline(always)]
fn decide_by(store: &[u8], request: &Request, variable: &[u32], picked: &mut Picked) -> u32 {
    let mut layout = Layout::new();
    match judge_store(store, &mut layout) {
        0 => {}
        refusal => return refusal,
    }
    if !in_range(request, variable.len()) {
        return 7;
    }
    let mut room = [0; MOST_BYTES];
    let variable = spell_variable(&mut room, variable);
    // SAFETY: the store was judged, and the request is in range.
    unsafe { decide(store.as_ptr(), &layout, request, variable, picked) }
}

/// A variable in parts of 4 bytes, as a row has its subtree.
#[inline(always)]
fn spell_variable<'a>(room: &'a mut [u8; MOST_BYTES], variable: &[u32]) -> &'a [u8] {
    for (place, part) in room.chunks_exact_mut(4).zip(variable) {
        place.copy_from_slice(&part.to_be_bytes());
    }
    &room[..4 * variable.len()]
}

/// A name as a key has it: its length, then its octets, behind `front`.
#[inline(always)]
fn spell<'a>(room: &'a mut [u8; 40], front: &[u8], name: &[u8]) -> &'a [u8] {
    room[..front.len()].copy_from_slice(front);
    room[front.len()] = name.len() as u8;
    room[front.len() + 1..front.len() + 1 + name.len()].copy_from_slice(name);
    &room[..front.len() + 1 + name.len()]
}

/// A length byte and its octets.
#[inline(always)]
unsafe fn name_at<'a>(at: At) -> &'a [u8] {
    from_raw_parts(at, 1 + *at as usize)
}

/// Where they end.
#[inline(always)]
unsafe fn past(at: At) -> At {
    at.add(1 + *at as usize)
}

/// SAFETY: the rows of the layout were judged, and the request is in range.
#[inline(always)]
unsafe fn decide(bytes: At, layout: &Layout, request: &Request, variable: &[u8], picked: &mut Picked) -> u32 {
    match named_view(bytes, layout, request, picked) {
        Ok(view) => in_view(bytes, layout, view, variable, picked),
        Err(cause) => cause,
    }
}

/// Steps 1 to 3, and the name of the view for step 4: what is the same for every variable. The error is a cause's number.
#[inline(always)]
unsafe fn named_view<'a>(bytes: At, layout: &Layout, request: &Request, picked: &mut Picked) -> Result<&'a [u8], u32> {
    let mut room = [0; 40];
    if held(bytes, layout, 0, spell(&mut room, &[], request.context)).is_none() {
        return Err(1);
    }
    let key = spell(&mut room, &request.model.to_be_bytes(), request.name);
    let mapping = match held(bytes, layout, 1, key) {
        Some(place) if is_active(bytes, layout, place) => {
            let row = bytes.add(layout.start(place));
            Chosen { row, key_end: row.add(key.len()) }
        }
        _ => return Err(2),
    };
    picked.mapping = Some(mapping);
    // a mapping's group stands behind its key
    picked.access = chosen_access(bytes, layout, name_at(mapping.key_end), request.context, request.model, request.level);
    let view = match picked.access {
        None => return Err(3),
        Some(access) => name_at(view_at(access, request.kind)),
    };
    if view.len() == 1 {
        return Err(4);
    }
    Ok(view)
}

/// A row that a step chose: where it begins, and where its key ends.
#[derive(Clone, Copy)]
struct Chosen {
    row: At,
    key_end: At,
}

/// The rows that steps 2, 3 and 5 chose. The compiler leaves them out where nobody looks at them.
#[derive(Clone, Copy, Default)]
struct Picked {
    mapping: Option<Chosen>,
    access: Option<Chosen>,
    view: Option<Chosen>,
}

#[inline(always)]
unsafe fn is_active(bytes: At, layout: &Layout, place: usize) -> bool {
    *bytes.add(layout.start(place + 1) - 1) == 1
}

/// Of the candidates the one of greatest rank: own model, then longest prefix, then highest level.
#[inline(always)]
unsafe fn chosen_access(bytes: At, layout: &Layout, group: &[u8], context: &[u8], model: u32, level: u32) -> Option<Chosen> {
    let mut best = 0;
    let mut chosen = None;
    let first = bound(bytes, layout, 2, group, false);
    for i in first..layout.row[3] {
        if !begins(bytes, layout, i, group) {
            break;
        }
        let row = bytes.add(layout.start(i));
        let prefix = name_at(row.add(group.len()));
        let behind = prefix.as_ptr().add(prefix.len());
        let (row_model, row_level, matching) = (be_32(behind), u32::from(*behind.add(4)), *behind.add(5));
        let length = prefix.len() - 1;
        let counts = is_active(bytes, layout, i)
            && (row_model == 0 || row_model == model)
            && row_level <= level
            && length <= context.len()
            && (matching == 2 || length == context.len());
        if !counts || prefix[1..] != context[..length] {
            continue;
        }
        let rank = u32::from(row_model != 0) << 16 | (length as u32) << 8 | row_level;
        if rank > best {
            best = rank;
            chosen = Some(Chosen { row, key_end: behind.add(5) });
        }
    }
    chosen
}

/// Where an access row names the view for the kind of a request.
#[inline(always)]
unsafe fn view_at(access: Chosen, kind: u32) -> At {
    let mut views = access.key_end.add(1);
    for _ in 1..kind {
        views = past(views);
    }
    views
}

#[inline(always)]
unsafe fn in_view(bytes: At, layout: &Layout, view: &[u8], variable: &[u8], picked: &mut Picked) -> u32 {
    let mut rows = rows_of_view(bytes, layout, view);
    picked.view = deciding_row(bytes, layout, rows.clone(), view, variable);
    match picked.view {
        Some(row) if family_type(row) == 1 => 0,
        Some(_) => 5,
        None if rows.any(|i| is_active(bytes, layout, i)) => 5,
        None => 4,
    }
}

#[inline(always)]
unsafe fn rows_of_view(bytes: At, layout: &Layout, view: &[u8]) -> Range<usize> {
    bound(bytes, layout, 3, view, false)..bound(bytes, layout, 3, view, true)
}

/// A view's rows ascend by length and then by parts, so the last active one that matches decides.
#[inline(always)]
unsafe fn deciding_row(bytes: At, layout: &Layout, rows: Range<usize>, view: &[u8], variable: &[u8]) -> Option<Chosen> {
    for i in rows.rev() {
        if !is_active(bytes, layout, i) {
            continue;
        }
        let row = bytes.add(layout.start(i));
        let count = row.add(view.len());
        let length = 4 * *count as usize;
        if length > variable.len() {
            continue;
        }
        let mask = count.add(1 + length);
        if agrees(count.add(1), variable.as_ptr(), length, mask.add(1), *mask as usize) {
            return Some(Chosen { row, key_end: mask });
        }
    }
    None
}

/// The type of a view row stands behind its mask.
#[inline(always)]
unsafe fn family_type(view: Chosen) -> u8 {
    let mask = view.key_end;
    *mask.add(1 + *mask as usize)
}

/// The parts wherever the mask bit is 1: eight parts for each octet of the mask, at once where all its bits are.
#[inline(always)]
unsafe fn agrees(subtree: At, variable: At, length: usize, mask: At, mask_length: usize) -> bool {
    let mut place = 0;
    for i in 0..mask_length {
        if place >= length {
            return true;
        }
        let octet = *mask.add(i);
        let end = length.min(place + 32);
        if octet == 0xff {
            if !equal(subtree.add(place), variable.add(place), end - place) {
                return false;
            }
        } else {
            let mut bits = octet;
            while place < end {
                if bits & 128 != 0 && be_32(subtree.add(place)) != be_32(variable.add(place)) {
                    return false;
                }
                bits <<= 1;
                place += 4;
            }
        }
        place = end;
    }
    place >= length || from_raw_parts(subtree.add(place), length - place) == from_raw_parts(variable.add(place), length - place)
}

/// Up to eight parts.
#[inline(always)]
unsafe fn equal(a: At, b: At, length: usize) -> bool {
    if length == 32 {
        let differ = |place: usize| be_64(a.add(place)) ^ be_64(b.add(place));
        return differ(0) | differ(8) | differ(16) | differ(24) == 0;
    }
    let mut place = 0;
    while place < length {
        if be_32(a.add(place)) != be_32(b.add(place)) {
            return false;
        }
        place += 4;
    }
    true
}

// ---- the rows that decide, handed back

/// Puts a row's bytes up to `end` at the front of `room`: how many.
#[inline(always)]
unsafe fn hand<const MOST: usize>(row: At, end: At, room: &mut [u8; MOST]) -> usize {
    let length = left(row, end);
    room[..length].copy_from_slice(from_raw_parts(row, length));
    length
}

/// Puts a row's key at the front of `key`: its length.
#[inline(always)]
unsafe fn hand_key(chosen: Chosen, key: &mut [u8; KEY_MAX]) -> usize {
    hand(chosen.row, chosen.key_end, key)
}

/// The view row that decides on the variable, by the length of its key and its type; a refusal's number is the error.
#[inline(never)]
pub fn match_view(store: &[u8], name: &[u8], variable: &[u32], key: &mut [u8; KEY_MAX]) -> Result<Option<(usize, u8)>, u32> {
    let mut layout = Layout::new();
    match judge_store(store, &mut layout) {
        0 => {}
        refusal => return Err(refusal),
    }
    if !legal_name(name) || !legal_variable(variable.len()) {
        return Err(7);
    }
    let (mut name_room, mut variable_room) = ([0; 40], [0; MOST_BYTES]);
    let view = spell(&mut name_room, &[], name);
    let variable = spell_variable(&mut variable_room, variable);
    let bytes = store.as_ptr();
    // SAFETY: the store was judged, and the name and the variable are in range.
    unsafe {
        let rows = rows_of_view(bytes, &layout, view);
        let row = deciding_row(bytes, &layout, rows, view, variable);
        Ok(row.map(|row| (hand_key(row, key), family_type(row))))
    }
}

/// The access row chosen for the group, by the length of its key; a refusal's number is the error.
#[inline(never)]
pub fn match_access(store: &[u8], group: &[u8], context: &[u8], model: u32, level: u32, key: &mut [u8; KEY_MAX]) -> Result<Option<usize>, u32> {
    let mut layout = Layout::new();
    match judge_store(store, &mut layout) {
        0 => {}
        refusal => return Err(refusal),
    }
    if !legal_name(group) || !legal_access(context, model, level) {
        return Err(7);
    }
    let mut room = [0; 40];
    let group = spell(&mut room, &[], group);
    // SAFETY: the store was judged, and the names and numbers are in range.
    unsafe {
        let row = chosen_access(store.as_ptr(), &layout, group, context, model, level);
        Ok(row.map(|row| hand_key(row, key)))
    }
}

/// An answer's number, and the length of each row shown.
#[derive(Clone, Copy, Debug, PartialEq, Eq)]
pub struct Explained {
    pub number: u32,
    pub mapping: Option<usize>,
    pub access: Option<usize>,
    pub view: Option<usize>,
}

/// The decision over a store, and the rows behind it, each whole in its room.
#[inline(never)]
pub fn explain(
    store: &[u8],
    request: &Request,
    variable: &[u32],
    mapping: &mut [u8; ROW_MAX],
    access: &mut [u8; ROW_MAX],
    view: &mut [u8; ROW_MAX],
) -> Explained {
    let mut picked = Picked::default();
    let number = decide_by(store, request, variable, &mut picked);
    // SAFETY: the rows chosen were judged.
    unsafe {
        Explained {
            number,
            // behind the key a group, storage, status
            mapping: picked.mapping.map(|chosen| hand(chosen.row, past(chosen.key_end).add(2), mapping)),
            // the last of the views, storage, status
            access: picked.access.map(|chosen| hand(chosen.row, past(view_at(chosen, 3)).add(2), access)),
            // a mask, type, storage, status
            view: picked.view.map(|chosen| hand(chosen.row, past(chosen.key_end).add(3), view)),
        }
    }
}

// ---- walking the tables

/// A table's base, and its first column and its last.
struct Columns {
    base: &'static [u32],
    first: u32,
    last: u32,
}

const COLUMNS: [Columns; 4] = [
    Columns { base: &[1, 3, 6, 1, 6, 3, 16, 1, 1, 1], first: 1, last: 1 },
    Columns { base: &[1, 3, 6, 1, 6, 3, 16, 1, 2, 1], first: 3, last: 5 },
    Columns { base: &[1, 3, 6, 1, 6, 3, 16, 1, 4, 1], first: 4, last: 9 },
    Columns { base: &[1, 3, 6, 1, 6, 3, 16, 1, 5, 2, 1], first: 3, last: 6 },
];

/// An instance handed back: its parts, its table, its column, and the length of its key.
#[derive(Clone, Copy, Debug, PartialEq, Eq)]
pub struct Next {
    pub parts: usize,
    pub table: u32,
    pub column: u32,
    pub key: usize,
}

/// Where a walk goes on: a column of a table, from a row on.
#[derive(Clone, Copy)]
struct Place {
    table: usize,
    column: u32,
    row: usize,
}

impl Place {
    #[inline(always)]
    fn first(layout: &Layout, table: usize) -> Place {
        Place { table, column: COLUMNS[table].first, row: layout.row[table] }
    }

    /// Instances ascend by table, by column, then by row.
    #[inline(always)]
    fn next_column(self, layout: &Layout) -> Option<Place> {
        if self.column < COLUMNS[self.table].last {
            Some(Place { column: self.column + 1, row: layout.row[self.table], ..self })
        } else if self.table < 3 {
            Some(Place::first(layout, self.table + 1))
        } else {
            None
        }
    }
}

/// The least instance above the identifier that the principal may read in the empty context; a refusal's number is the error.
#[inline(never)]
pub fn walk(
    store: &[u8],
    model: u32,
    name: &[u8],
    level: u32,
    identifier: &[u32],
    instance: &mut [u32; MOST_PARTS],
    key: &mut [u8; KEY_MAX],
) -> Result<Next, u32> {
    let mut layout = Layout::new();
    match judge_store(store, &mut layout) {
        0 => {}
        refusal => return Err(refusal),
    }
    if !legal_access(&[], model, level) || !legal_name(name) || identifier.len() > MOST_PARTS {
        return Err(7);
    }
    let bytes = store.as_ptr();
    // SAFETY: the store was judged, and the caller and the identifier are in range.
    unsafe {
        let request = Request { model, name, level, kind: 1, context: &[] };
        let view = named_view(bytes, &layout, &request, &mut Picked::default())?;
        let rows = rows_of_view(bytes, &layout, view);
        if !rows.clone().any(|i| is_active(bytes, &layout, i)) {
            return Err(4);
        }
        let mut place = first_above(bytes, &layout, identifier);
        while let Some(column) = place {
            if let Some(next) = read_column(bytes, &layout, column, rows.clone(), view, instance, key) {
                return Ok(next);
            }
            place = column.next_column(&layout);
        }
    }
    Err(17)
}

/// Whether the identifier is above all instances of the table, by base and column.
#[inline(always)]
fn is_passed(columns: &Columns, identifier: &[u32]) -> bool {
    let (front, behind) = identifier.split_at(identifier.len().min(columns.base.len()));
    front > columns.base || front == columns.base && behind.first() > Some(&columns.last)
}

/// Where the instances above the identifier begin.
#[inline(always)]
unsafe fn first_above(bytes: At, layout: &Layout, identifier: &[u32]) -> Option<Place> {
    let table = COLUMNS.iter().position(|columns| !is_passed(columns, identifier))?;
    match identifier.strip_prefix(COLUMNS[table].base) {
        Some([column, index @ ..]) if *column >= COLUMNS[table].first => {
            let mut front = KeyFront { room: [0; MOST_BYTES], length: 0, left: index };
            // a row whose key is spelled whole is not above the index
            let above = front.spell(table).err().unwrap_or(true);
            let row = bound(bytes, layout, table, &front.room[..front.length], above);
            Some(Place { table, column: *column, row })
        }
        _ => Some(Place::first(layout, table)),
    }
}

/// The front of a key, as far as an index spells it. An error, where the index ends before the key or has a part that is no octet, says
/// whether rows with this front are below the index.
struct KeyFront<'a> {
    room: [u8; MOST_BYTES],
    length: usize,
    left: &'a [u32],
}

impl<'a> KeyFront<'a> {
    #[inline(always)]
    fn spell(&mut self, table: usize) -> Result<(), bool> {
        match table {
            0 => self.name(),
            1 => {
                self.numbers(1)?;
                self.name()
            }
            2 => {
                self.name()?;
                self.name()?;
                self.numbers(1)?;
                self.octets(1).map(|_| ())
            }
            _ => {
                self.name()?;
                let parts = self.octets(1)?;
                self.numbers(parts)
            }
        }
    }

    #[inline(always)]
    fn name(&mut self) -> Result<(), bool> {
        let length = self.octets(1)?;
        self.octets(length).map(|_| ())
    }

    /// The next parts, as many of them as there are.
    #[inline(always)]
    fn next(&mut self, count: usize) -> &'a [u32] {
        let (parts, left) = self.left.split_at(count.min(self.left.len()));
        self.left = left;
        parts
    }

    /// The next parts, an octet each: the last of them.
    #[inline(always)]
    fn octets(&mut self, count: usize) -> Result<usize, bool> {
        let parts = self.next(count);
        let octets = parts.iter().position(|part| *part > 255).unwrap_or(parts.len());
        for (place, part) in self.room[self.length..].iter_mut().zip(&parts[..octets]) {
            *place = *part as u8;
        }
        self.length += octets;
        if octets == count {
            Ok(parts.last().map_or(0, |last| *last as usize))
        } else {
            Err(octets < parts.len())
        }
    }

    /// The next parts, four bytes each.
    #[inline(always)]
    fn numbers(&mut self, count: usize) -> Result<(), bool> {
        let parts = self.next(count);
        for (place, part) in self.room[self.length..].chunks_exact_mut(4).zip(parts) {
            place.copy_from_slice(&part.to_be_bytes());
        }
        self.length += 4 * parts.len();
        if parts.len() == count {
            Ok(())
        } else {
            Err(false)
        }
    }
}

/// The first instance of a column, from a row on, that the view includes.
#[inline(always)]
unsafe fn read_column(
    bytes: At,
    layout: &Layout,
    place: Place,
    view_rows: Range<usize>,
    view: &[u8],
    instance: &mut [u32; MOST_PARTS],
    key: &mut [u8; KEY_MAX],
) -> Option<Next> {
    let mut room = [0; MOST_BYTES];
    let front = spell_front(&mut room, place);
    for i in place.row..layout.row[place.table + 1] {
        let row = bytes.add(layout.start(i));
        let runs = runs(place.table, row);
        let parts = front + runs.parts();
        spell_index(room.as_mut_ptr().add(4 * front), row, runs);
        let variable = &room[..4 * parts];
        if is_included(bytes, layout, view_rows.clone(), view, variable) {
            hand_instance(variable, instance);
            let key = hand_key(Chosen { row, key_end: row.add(runs.bytes()) }, key);
            return Some(Next { parts, table: place.table as u32, column: place.column, key });
        }
    }
    None
}

#[inline(always)]
unsafe fn is_included(bytes: At, layout: &Layout, rows: Range<usize>, view: &[u8], variable: &[u8]) -> bool {
    deciding_row(bytes, layout, rows, view, variable).is_some_and(|row| family_type(row) == 1)
}

/// Base and column, in parts of 4 bytes: how many parts.
#[inline(always)]
fn spell_front(room: &mut [u8; MOST_BYTES], place: Place) -> usize {
    let base = COLUMNS[place.table].base;
    spell_variable(room, base);
    room[4 * base.len()..4 * base.len() + 4].copy_from_slice(&place.column.to_be_bytes());
    base.len() + 1
}

/// How a key lies in its row: octets, numbers of 4 bytes, octets. In its index each of them is a part.
#[derive(Clone, Copy)]
struct Runs {
    octets: usize,
    numbers: usize,
    behind: usize,
}

impl Runs {
    #[inline(always)]
    fn parts(self) -> usize {
        self.octets + self.numbers + self.behind
    }

    #[inline(always)]
    fn bytes(self) -> usize {
        self.octets + 4 * self.numbers + self.behind
    }
}

#[inline(always)]
unsafe fn runs(table: usize, row: At) -> Runs {
    match table {
        0 => Runs { octets: name_at(row).len(), numbers: 0, behind: 0 },
        1 => Runs { octets: 0, numbers: 1, behind: name_at(row.add(4)).len() },
        2 => {
            let group = name_at(row).len();
            Runs { octets: group + name_at(row.add(group)).len(), numbers: 1, behind: 1 }
        }
        _ => {
            let name = name_at(row).len();
            Runs { octets: name + 1, numbers: *row.add(name) as usize, behind: 0 }
        }
    }
}

/// A row's index in parts of 4 bytes.
#[inline(always)]
unsafe fn spell_index(out: *mut u8, row: At, runs: Runs) {
    let numbers = out.add(4 * runs.octets);
    spell_octets(out, row, runs.octets);
    numbers.copy_from_nonoverlapping(row.add(runs.octets), 4 * runs.numbers);
    spell_octets(numbers.add(4 * runs.numbers), row.add(runs.octets + 4 * runs.numbers), runs.behind);
}

#[inline(always)]
unsafe fn spell_octets(out: *mut u8, octets: At, count: usize) {
    for i in 0..count {
        out.cast::<u32>().add(i).write_unaligned(u32::from(*octets.add(i)).to_be());
    }
}

/// Puts the parts at the front of `instance`.
#[inline(always)]
fn hand_instance(variable: &[u8], instance: &mut [u32; MOST_PARTS]) {
    for (part, bytes) in instance.iter_mut().zip(variable.chunks_exact(4)) {
        *part = u32::from_be_bytes([bytes[0], bytes[1], bytes[2], bytes[3]]);
    }
}

// ---- edits

/// The length of a legal row's key.
fn row_key(table: usize, row: &[u8]) -> Option<usize> {
    let bounds = row.as_ptr_range();
    // SAFETY: the bounds are the row's own.
    let key = unsafe {
        match table {
            0 => judge_row::<0>(bounds.start, bounds.end),
            1 => judge_row::<1>(bounds.start, bounds.end),
            2 => judge_row::<2>(bounds.start, bounds.end),
            3 => judge_row::<3>(bounds.start, bounds.end),
            _ => return None,
        }
    };
    key.ok().map(|key| key as usize - bounds.start as usize)
}

/// The length of a legal key at the front of some bytes.
fn key_front(table: usize, bytes: &[u8]) -> Option<usize> {
    let bounds = bytes.as_ptr_range();
    // SAFETY: the bounds are the bytes' own.
    let key = unsafe {
        match table {
            0 => judge_key::<0>(bounds.start, bounds.end),
            1 => judge_key::<1>(bounds.start, bounds.end),
            2 => judge_key::<2>(bounds.start, bounds.end),
            3 => judge_key::<3>(bounds.start, bounds.end),
            _ => return None,
        }
    };
    key.ok().map(|key| key as usize - bounds.start as usize)
}

/// Whether bytes with a legal key of this length at their front are a legal row.
fn is_row(table: usize, bytes: &[u8], key: usize) -> bool {
    let end = bytes.as_ptr_range().end;
    // SAFETY: the bounds are within the bytes' own.
    let rest = unsafe {
        let at = bytes[key..].as_ptr();
        match table {
            0 => judge_rest::<0>(at, end),
            1 => judge_rest::<1>(at, end),
            2 => judge_rest::<2>(at, end),
            _ => judge_rest::<3>(at, end),
        }
    };
    rest == Ok(end)
}

/// Where the row with a key is or would come: its number among all rows, where it begins, and its length if it is held.
#[derive(Clone, Copy)]
struct Spot {
    number: usize,
    byte: usize,
    held: Option<usize>,
}

/// SAFETY: the rows of the layout were judged, and the key is legal.
#[inline(always)]
unsafe fn spot(bytes: At, layout: &Layout, table: usize, key: &[u8]) -> Spot {
    let number = bound(bytes, layout, table, key, false);
    let byte = layout.start(number);
    let is_held = number < layout.row[table + 1] && begins(bytes, layout, number, key);
    Spot { number, byte, held: is_held.then(|| layout.start(number + 1) - byte) }
}

/// Room for a row is made behind the row before it: the rows behind move by the row and its length, those before it by the length alone.
#[inline(always)]
fn insert(store: &mut [u8], table: usize, number: usize, byte: usize, end: usize, row: &[u8]) {
    let length_at = 8 + 2 * number;
    store.copy_within(byte..end, byte + 2 + row.len());
    store.copy_within(length_at..byte, length_at + 2);
    store[byte + 2..byte + 2 + row.len()].copy_from_slice(row);
    set_16(store, length_at, row.len());
    let count = 256 * store[2 * table] as usize + store[2 * table + 1] as usize;
    set_16(store, 2 * table, count + 1);
}

/// The row at a place has this length.
#[inline(always)]
fn replace(store: &mut [u8], number: usize, byte: usize, length: usize, end: usize, row: &[u8]) {
    if length != row.len() {
        store.copy_within(byte + length..end, byte + row.len());
        set_16(store, 8 + 2 * number, row.len());
    }
    store[byte..byte + row.len()].copy_from_slice(row);
}

#[inline(always)]
fn take_out(store: &mut [u8], table: usize, number: usize, byte: usize, length: usize, end: usize) {
    let length_at = 8 + 2 * number;
    store.copy_within(length_at + 2..byte, length_at);
    store.copy_within(byte + length..end, byte - 2);
    let count = 256 * store[2 * table] as usize + store[2 * table + 1] as usize;
    set_16(store, 2 * table, count - 1);
}

#[inline(always)]
fn create_at(store: &mut [u8], layout: &Layout, table: usize, spot: Spot, row: &[u8]) -> u32 {
    if layout.row[table + 1] - layout.row[table] == LIMITS[table] {
        return 9;
    }
    // SAFETY: the survey has passed.
    let end = unsafe { layout.start(layout.row[4]) };
    insert(store, table, spot.number, spot.byte, end, row);
    0
}

/// The row held at the spot has this length.
#[inline(always)]
fn change_at(store: &mut [u8], layout: &Layout, spot: Spot, length: usize, row: &[u8]) -> u32 {
    // SAFETY: the survey has passed.
    let end = unsafe { layout.start(layout.row[4]) };
    replace(store, spot.number, spot.byte, length, end, row);
    0
}

#[inline(never)]
pub fn owner_create(store: &mut [u8], table: u32, row: &[u8]) -> u32 {
    owner_row::<true>(store, table, row)
}

#[inline(never)]
pub fn owner_change(store: &mut [u8], table: u32, row: &[u8]) -> u32 {
    owner_row::<false>(store, table, row)
}

/// The owner's create, or its change.
#[inline(always)]
fn owner_row<const CREATE: bool>(store: &mut [u8], table: u32, row: &[u8]) -> u32 {
    let mut layout = Layout::new();
    match judge_store(store, &mut layout) {
        0 => {}
        refusal => return refusal,
    }
    let table = table as usize;
    let key = match row_key(table, row) {
        None => return 7,
        Some(key) => &row[..key],
    };
    // SAFETY: the store was judged, and the key is legal.
    let spot = unsafe { spot(store.as_ptr(), &layout, table, key) };
    match spot.held {
        None if CREATE => create_at(store, &layout, table, spot, row),
        None => 10,
        Some(_) if CREATE => 18,
        Some(length) => change_at(store, &layout, spot, length, row),
    }
}

// What an edit does, by its number.
const CREATE: u32 = 0;
const CHANGE: u32 = 1;
const REMOVE: u32 = 2;

#[inline(never)]
pub fn principal_create(store: &mut [u8], model: u32, name: &[u8], level: u32, table: u32, row: &[u8]) -> u32 {
    principal_row(store, model, name, level, CREATE, table, row)
}

#[inline(never)]
pub fn principal_change(store: &mut [u8], model: u32, name: &[u8], level: u32, table: u32, row: &[u8]) -> u32 {
    principal_row(store, model, name, level, CHANGE, table, row)
}

/// The principal's create, or its change.
#[inline(always)]
fn principal_row(store: &mut [u8], model: u32, name: &[u8], level: u32, operation: u32, table: u32, row: &[u8]) -> u32 {
    let mut layout = Layout::new();
    match judge_store(store, &mut layout) {
        0 => {}
        refusal => return refusal,
    }
    let table = table as usize;
    let key = match row_key(table, row) {
        Some(key) if legal_access(&[], model, level) && legal_name(name) => &row[..key],
        _ => return 7,
    };
    if table == 0 {
        return 12;
    }
    // SAFETY: the store was judged, the caller is in range and the row is legal.
    let spot = unsafe {
        let bytes = store.as_ptr();
        let written = written_view(bytes, &layout, &Request { model, name, level, kind: 2, context: &[] });
        judge_edit(bytes, &layout, &written, operation, table, row, key)
    };
    match spot {
        Err(refusal) => refusal,
        Ok(spot) => match spot.held {
            None => create_at(store, &layout, table, spot, row),
            Some(length) => change_at(store, &layout, spot, length, row),
        },
    }
}

/// The view that a caller writes by, and the numbers of its rows.
struct Written<'a> {
    view: &'a [u8],
    rows: Range<usize>,
}

/// Steps 1 to 4, which are the same for every row and column. The error is a cause's number.
#[inline(always)]
unsafe fn written_view<'a>(bytes: At, layout: &Layout, request: &Request) -> Result<Written<'a>, u32> {
    let view = named_view(bytes, layout, request, &mut Picked::default())?;
    let rows = rows_of_view(bytes, layout, view);
    if !rows.clone().any(|i| is_active(bytes, layout, i)) {
        return Err(4);
    }
    Ok(Written { view, rows })
}

/// An edit of a row that is legal and no context, in all but room: the cause, whether the row is held, and the storage of the row held and of
/// the new one. Where the row is or would come; a refusal's number is the error.
#[inline(always)]
unsafe fn judge_edit(
    bytes: At,
    layout: &Layout,
    written: &Result<Written, u32>,
    operation: u32,
    table: usize,
    row: &[u8],
    key: &[u8],
) -> Result<Spot, u32> {
    match written {
        Err(cause) => return Err(*cause),
        Ok(written) if !may_write(bytes, layout, written, operation, table, key) => return Err(5),
        Ok(_) => {}
    }
    let spot = spot(bytes, layout, table, key);
    // a removal gives none
    let given = if operation == REMOVE { 0 } else { row[row.len() - 2] };
    match spot.held {
        None if operation != CREATE => Err(10),
        None if given > 3 => Err(11),
        None => Ok(spot),
        Some(_) if operation == CREATE => Err(18),
        Some(length) => {
            let lets = match *bytes.add(spot.byte + length - 2) {
                5 => false,
                4 => given == 4,
                _ => given < 4,
            };
            if lets {
                Ok(spot)
            } else {
                Err(11)
            }
        }
    }
}

/// Whether the view includes the row at every column that is written, ascending: a create and a change write all, a removal the last.
#[inline(always)]
unsafe fn may_write(bytes: At, layout: &Layout, written: &Written, operation: u32, table: usize, key: &[u8]) -> bool {
    let Columns { first, last, .. } = COLUMNS[table];
    let mut room = [0; MOST_BYTES];
    let front = spell_front(&mut room, Place { table, column: first, row: 0 });
    let runs = runs(table, key.as_ptr());
    spell_index(room.as_mut_ptr().add(4 * front), key.as_ptr(), runs);
    let length = 4 * (front + runs.parts());
    for column in if operation == REMOVE { last } else { first }..=last {
        room[4 * front - 1] = column as u8;
        if !is_included(bytes, layout, written.rows.clone(), written.view, &room[..length]) {
            return false;
        }
    }
    true
}

#[inline(never)]
pub fn owner_remove(store: &mut [u8], table: u32, key: &[u8]) -> u32 {
    let mut layout = Layout::new();
    match judge_store(store, &mut layout) {
        0 => {}
        refusal => return refusal,
    }
    let table = table as usize;
    if key_front(table, key) != Some(key.len()) {
        return 7;
    }
    // SAFETY: the store was judged, and the key is legal.
    let (spot, end) = unsafe { (spot(store.as_ptr(), &layout, table, key), layout.start(layout.row[4])) };
    match spot.held {
        None => 10,
        Some(length) => {
            take_out(store, table, spot.number, spot.byte, length, end);
            0
        }
    }
}

// ---- sets of edits

/// The most edits of a set.
pub const MOST_EDITS: usize = 8;

/// A set of edits by one principal: 256 times a position and a number. Four numbers of `heads` are an edit: what it does, its table, and
/// where its own of the lent bytes begin and end.
#[inline(never)]
pub fn principal_set(store: &mut [u8], model: u32, name: &[u8], level: u32, heads: &[u32], bytes: &[u8]) -> u32 {
    let mut layout = Layout::new();
    match judge_store(store, &mut layout) {
        0 => {}
        refusal => return refusal,
    }
    let count = heads.len() / 4;
    if count.wrapping_sub(1) >= MOST_EDITS {
        return 19;
    }
    let mut edits = [SetEdit::NONE; MOST_EDITS];
    let edits = &mut edits[..count];
    for (edit, head) in edits.iter_mut().zip(heads.chunks_exact(4)) {
        *edit = SetEdit::new(head, bytes);
    }
    if has_key_twice(edits) {
        return 19;
    }
    if !legal_access(&[], model, level) || !legal_name(name) {
        return 7;
    }
    let request = Request { model, name, level, kind: 2, context: &[] };
    // SAFETY: the store was judged, and the caller is in range.
    match unsafe { judge_set(store.as_ptr(), &layout, &request, edits) } {
        0 => {}
        refusal => return refusal,
    }
    match judge_room(&layout, edits) {
        0 => {}
        refusal => return refusal,
    }
    apply_set(store, &layout, edits);
    0
}

#[derive(Clone, Copy)]
struct SetEdit<'a> {
    operation: u32,
    table: usize,
    bytes: &'a [u8],
    /// At the front of the bytes, where it is legal.
    key: Option<&'a [u8]>,
    /// No byte is missing or over, and every field is in range.
    is_whole: bool,
    /// Known once the edit is judged.
    spot: Spot,
}

impl<'a> SetEdit<'a> {
    const NONE: SetEdit<'static> =
        SetEdit { operation: REMOVE, table: 0, bytes: &[], key: None, is_whole: false, spot: Spot { number: 0, byte: 0, held: None } };

    #[inline(always)]
    fn new(head: &[u32], bytes: &'a [u8]) -> SetEdit<'a> {
        let end = bytes.len().min(head[3] as usize);
        let bytes = &bytes[end.min(head[2] as usize)..end];
        let (operation, table) = (head[0].min(REMOVE), head[1].min(3) as usize);
        let key = key_front(table, bytes).map(|key| &bytes[..key]);
        let is_whole = key.is_some_and(|key| if operation == REMOVE { key.len() == bytes.len() } else { is_row(table, bytes, key.len()) });
        SetEdit { operation, table, bytes, key, is_whole, ..SetEdit::NONE }
    }

    /// Among all rows. Where new rows come before one row, all have its number: the earlier table first, then by key.
    #[inline(always)]
    fn place(&self) -> (usize, usize, Option<&'a [u8]>) {
        (self.spot.number, self.table, self.key)
    }
}

/// Whether a legal key of one table is there twice.
#[inline(always)]
fn has_key_twice(edits: &[SetEdit]) -> bool {
    edits.iter().enumerate().any(|(i, edit)| {
        let same = |other: &SetEdit| other.table == edit.table && other.key == edit.key;
        edit.key.is_some() && edits[..i].iter().any(same)
    })
}

/// The first refusal and its position, and of every edit before it the spot.
/// SAFETY: the store was judged, and the caller is in range.
#[inline(always)]
unsafe fn judge_set(bytes: At, layout: &Layout, request: &Request, edits: &mut [SetEdit]) -> u32 {
    let written = written_view(bytes, layout, request);
    for (position, edit) in (1..).zip(edits) {
        let judged = match edit.key {
            Some(key) if edit.is_whole && edit.table > 0 => judge_edit(bytes, layout, &written, edit.operation, edit.table, edit.bytes, key),
            _ if edit.is_whole => Err(12),
            _ => Err(7),
        };
        match judged {
            Ok(spot) => edit.spot = spot,
            Err(refusal) => return 256 * position + refusal,
        }
    }
    0
}

/// The first table that would have too many rows, by the first create there.
#[inline(always)]
fn judge_room(layout: &Layout, edits: &[SetEdit]) -> u32 {
    for (table, limit) in LIMITS.into_iter().enumerate() {
        let is = |edit: &SetEdit, operation| edit.table == table && edit.operation == operation;
        let new = edits.iter().filter(|edit| is(edit, CREATE)).count();
        let gone = edits.iter().filter(|edit| is(edit, REMOVE)).count();
        if layout.row[table + 1] - layout.row[table] + new > limit + gone {
            let before = edits.iter().take_while(|edit| !is(edit, CREATE)).count();
            return 256 * (before as u32 + 1) + 9;
        }
    }
    0
}

/// The removals, and then the others, each from the last row on: so a row's place is the one that it had, but for the array of lengths in
/// front of all rows, which grows and shrinks, and for the rows gone before it.
#[inline(always)]
fn apply_set(store: &mut [u8], layout: &Layout, edits: &mut [SetEdit]) {
    edits.sort_unstable_by(|a, b| b.place().cmp(&a.place()));
    // SAFETY: the survey has passed.
    let mut end = unsafe { layout.start(layout.row[4]) };
    let (mut gone, mut gone_bytes) = (0, 0);
    for SetEdit { table, spot, .. } in edits.iter().filter(|edit| edit.operation == REMOVE) {
        let length = spot.held.unwrap_or(0);
        take_out(store, *table, spot.number, spot.byte - 2 * gone, length, end);
        end -= 2 + length;
        gone += 1;
        gone_bytes += length;
    }
    let lengths_gone = 2 * gone;
    let mut lengths_new = 0;
    for SetEdit { operation, table, bytes, spot, .. } in edits.iter() {
        let held = spot.held.unwrap_or(0);
        if *operation == REMOVE {
            // the edits that follow stand before it
            gone -= 1;
            gone_bytes -= held;
            continue;
        }
        let number = spot.number - gone;
        let byte = spot.byte + lengths_new - lengths_gone - gone_bytes;
        if *operation == CREATE {
            insert(store, *table, number, byte, end, bytes);
            lengths_new += 2;
            end += 2;
        } else {
            replace(store, number, byte, held, end, bytes);
        }
        end = end - held + bytes.len();
    }
}

// ---- images

#[inline(never)]
pub fn read_image(image: &[u8], store: &mut [u8; ROOM]) -> u32 {
    let mut layout = Layout::new();
    let refusal = judge_image(image, &mut layout);
    if refusal == 0 {
        store[..image.len()].copy_from_slice(image);
    }
    refusal
}

/// The written length, or 2^32 and a refusal's number.
#[inline(never)]
pub fn write_image(store: &[u8], out: &mut [u8]) -> u64 {
    let mut layout = Layout::new();
    match judge_store(store, &mut layout) {
        0 => {}
        refusal => return (1 << 32) + u64::from(refusal),
    }
    // SAFETY: the survey has passed.
    let end = unsafe { layout.start(layout.row[4]) };
    match out.get_mut(..end) {
        None => (1 << 32) + 16,
        Some(out) => {
            out.copy_from_slice(&store[..end]);
            end as u64
        }
    }
}
