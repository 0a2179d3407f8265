//! The proved code beside the hand-written implementation: one process, the same input, both release builds. Prints a table of
//! ratios (proved / hand-written): the median over batches that alternate, and between which ratios the middle half of them lies.
//! Where a title says so, the proved decision stands in the place of the hand-written code.
//!
//!     benchmark [--batches N] [--milliseconds N] [--only TEXT]
//!
//! `--only` measures the rows whose title has TEXT.

#[cfg(not(agent_linked))]
compile_error!("the archive libdugwalen.a is not there: build it by `bin/staticlib dugwalen`, or name its folder in DUGWALEN_STATICLIB_DIR");

use beside::handwritten;
use beside::reference::image;
use beside::reference::ridge;
use beside::reference::rows::*;
use beside::reference::tables::Tables;
use std::hint::black_box;
use std::process::ExitCode;

// ---- the proved code

mod proved {
    use beside::handwritten::Request;

    extern "C" {
        fn dugwalen_is_access_allowed(
            image: *const u8,
            image_len: usize,
            security_model: u32,
            security_name: *const u8,
            security_name_len: usize,
            security_level: u32,
            view_type: u32,
            context_name: *const u8,
            context_name_len: usize,
            variable_name: *const u8,
            variable_name_len: usize,
        ) -> u32;
    }

    // SAFETY, here and below: each pointer comes with the length of its own slice, and what is written is lent alone.
    pub fn is_access_allowed(image: &[u8], r: &Request, variable: &[u8]) -> u32 {
        unsafe {
            dugwalen_is_access_allowed(
                image.as_ptr(),
                image.len(),
                r.model,
                r.name.as_ptr(),
                r.name.len(),
                r.level,
                r.kind,
                r.context.as_ptr(),
                r.context.len(),
                variable.as_ptr(),
                variable.len(),
            )
        }
    }

    #[cfg(feature = "store")]
    pub mod store {
        use super::Request;
        use beside::handwritten::{KEY_MAX, MOST_PARTS, ROOM, ROW_MAX};

        extern "C" {
            fn bench_decide(
                store: *const u8,
                store_len: usize,
                model: u32,
                name: *const u8,
                name_len: usize,
                level: u32,
                view_type: u32,
                context: *const u8,
                context_len: usize,
                variable: *const u32,
                variable_len: usize,
            ) -> u32;
            fn bench_explain(
                store: *const u8,
                store_len: usize,
                model: u32,
                name: *const u8,
                name_len: usize,
                level: u32,
                view_type: u32,
                context: *const u8,
                context_len: usize,
                variable: *const u32,
                variable_len: usize,
                mapping: *mut [u8; ROW_MAX],
                access: *mut [u8; ROW_MAX],
                view: *mut [u8; ROW_MAX],
            ) -> u32;
            fn bench_match_view(
                store: *const u8,
                store_len: usize,
                name: *const u8,
                name_len: usize,
                variable: *const u32,
                variable_len: usize,
                key: *mut [u8; KEY_MAX],
            ) -> u32;
            fn bench_match_access(
                store: *const u8,
                store_len: usize,
                group: *const u8,
                group_len: usize,
                context: *const u8,
                context_len: usize,
                model: u32,
                level: u32,
                key: *mut [u8; KEY_MAX],
            ) -> u32;
            fn bench_walk(
                store: *const u8,
                store_len: usize,
                model: u32,
                name: *const u8,
                name_len: usize,
                level: u32,
                identifier: *const u32,
                identifier_len: usize,
                instance: *mut [u32; MOST_PARTS],
                key: *mut [u8; KEY_MAX],
            ) -> usize;
            fn bench_owner_edit(store: *mut u8, store_len: usize, operation: u32, table: u32, bytes: *const u8, bytes_len: usize) -> u32;
            fn bench_principal_edit(
                store: *mut u8,
                store_len: usize,
                model: u32,
                name: *const u8,
                name_len: usize,
                level: u32,
                operation: u32,
                table: u32,
                bytes: *const u8,
                bytes_len: usize,
            ) -> u32;
            fn bench_principal_set(
                store: *mut u8,
                store_len: usize,
                model: u32,
                name: *const u8,
                name_len: usize,
                level: u32,
                heads: *const u32,
                heads_len: usize,
                bytes: *const u8,
                bytes_len: usize,
            ) -> u64;
            fn bench_read_image(image: *const u8, image_len: usize, store: *mut [u8; ROOM]) -> u32;
            fn bench_write_image(store: *const u8, store_len: usize, out: *mut u8, out_len: usize) -> u64;
        }

        pub fn decide(store: &[u8], r: &Request, variable: &[u32]) -> u32 {
            unsafe {
                bench_decide(
                    store.as_ptr(),
                    store.len(),
                    r.model,
                    r.name.as_ptr(),
                    r.name.len(),
                    r.level,
                    r.kind,
                    r.context.as_ptr(),
                    r.context.len(),
                    variable.as_ptr(),
                    variable.len(),
                )
            }
        }

        pub fn explain(store: &[u8], r: &Request, variable: &[u32], [mapping, access, view]: &mut [[u8; ROW_MAX]; 3]) -> u32 {
            unsafe {
                bench_explain(
                    store.as_ptr(),
                    store.len(),
                    r.model,
                    r.name.as_ptr(),
                    r.name.len(),
                    r.level,
                    r.kind,
                    r.context.as_ptr(),
                    r.context.len(),
                    variable.as_ptr(),
                    variable.len(),
                    mapping,
                    access,
                    view,
                )
            }
        }

        pub fn match_view(store: &[u8], name: &[u8], variable: &[u32], key: &mut [u8; KEY_MAX]) -> u32 {
            unsafe { bench_match_view(store.as_ptr(), store.len(), name.as_ptr(), name.len(), variable.as_ptr(), variable.len(), key) }
        }

        pub fn match_access(store: &[u8], group: &[u8], context: &[u8], model: u32, level: u32, key: &mut [u8; KEY_MAX]) -> u32 {
            unsafe {
                bench_match_access(store.as_ptr(), store.len(), group.as_ptr(), group.len(), context.as_ptr(), context.len(), model, level, key)
            }
        }

        pub fn walk(
            store: &[u8],
            model: u32,
            name: &[u8],
            level: u32,
            identifier: &[u32],
            instance: &mut [u32; MOST_PARTS],
            key: &mut [u8; KEY_MAX],
        ) -> usize {
            unsafe {
                bench_walk(store.as_ptr(), store.len(), model, name.as_ptr(), name.len(), level, identifier.as_ptr(), identifier.len(), instance, key)
            }
        }

        const CREATE: u32 = 0;
        const CHANGE: u32 = 1;
        const REMOVE: u32 = 2;

        pub fn owner_create(store: &mut [u8], table: u32, row: &[u8]) -> u32 {
            unsafe { bench_owner_edit(store.as_mut_ptr(), store.len(), CREATE, table, row.as_ptr(), row.len()) }
        }

        pub fn owner_change(store: &mut [u8], table: u32, row: &[u8]) -> u32 {
            unsafe { bench_owner_edit(store.as_mut_ptr(), store.len(), CHANGE, table, row.as_ptr(), row.len()) }
        }

        pub fn owner_remove(store: &mut [u8], table: u32, key: &[u8]) -> u32 {
            unsafe { bench_owner_edit(store.as_mut_ptr(), store.len(), REMOVE, table, key.as_ptr(), key.len()) }
        }

        pub fn principal_create(store: &mut [u8], model: u32, name: &[u8], level: u32, table: u32, row: &[u8]) -> u32 {
            principal_row(store, model, name, level, CREATE, table, row)
        }

        pub fn principal_change(store: &mut [u8], model: u32, name: &[u8], level: u32, table: u32, row: &[u8]) -> u32 {
            principal_row(store, model, name, level, CHANGE, table, row)
        }

        #[inline(always)]
        fn principal_row(store: &mut [u8], model: u32, name: &[u8], level: u32, operation: u32, table: u32, row: &[u8]) -> u32 {
            let (name, name_len) = (name.as_ptr(), name.len());
            unsafe { bench_principal_edit(store.as_mut_ptr(), store.len(), model, name, name_len, level, operation, table, row.as_ptr(), row.len()) }
        }

        pub fn principal_set(store: &mut [u8], model: u32, name: &[u8], level: u32, heads: &[u32], bytes: &[u8]) -> u32 {
            let (name, name_len) = (name.as_ptr(), name.len());
            let (heads, heads_len, bytes, bytes_len) = (heads.as_ptr(), heads.len(), bytes.as_ptr(), bytes.len());
            let told =
                unsafe { bench_principal_set(store.as_mut_ptr(), store.len(), model, name, name_len, level, heads, heads_len, bytes, bytes_len) };
            told as u32
        }

        pub fn read_image(image: &[u8], store: &mut [u8; ROOM]) -> u32 {
            unsafe { bench_read_image(image.as_ptr(), image.len(), store) }
        }

        pub fn write_image(store: &[u8], out: &mut [u8]) -> u64 {
            unsafe { bench_write_image(store.as_ptr(), store.len(), out.as_mut_ptr(), out.len()) }
        }
    }
}

// ---- measuring

/// Processor time of this thread in nanoseconds, so that other programs on the machine count less (x86-64 Linux).
fn now() -> u128 {
    #[repr(C)]
    struct Time {
        seconds: i64,
        nanoseconds: i64,
    }
    extern "C" {
        fn clock_gettime(clock: i32, time: *mut Time) -> i32;
    }
    const CLOCK_THREAD_CPUTIME_ID: i32 = 3;
    let mut time = Time { seconds: 0, nanoseconds: 0 };
    // SAFETY: the call writes one such struct.
    let status = unsafe { clock_gettime(CLOCK_THREAD_CPUTIME_ID, &mut time) };
    assert_eq!(status, 0, "no clock of the thread's processor time");
    time.seconds as u128 * 1_000_000_000 + time.nanoseconds as u128
}

struct Bench {
    batches: usize,
    nanoseconds: u128,
    only: String,
    /// Answers of the two sides that differ: no figure counts then.
    differ: bool,
}

impl Bench {
    /// One row of the table. Each side does the work once and says its answer, which must be the same.
    fn row(&mut self, title: &str, mut proved: impl FnMut() -> u64, mut by_hand: impl FnMut() -> u64) {
        let (a, b) = (proved(), by_hand());
        if !title.contains(&self.only) {
            return;
        }
        if a != b {
            println!("| {title} | the answers differ: {a} and {b} | | | |");
            self.differ = true;
            return;
        }
        let times = self.times(&mut by_hand).max(self.times(&mut proved)).max(1);
        let mut ratios = Vec::new();
        let mut proved_time = Vec::new();
        let mut hand_time = Vec::new();
        for batch in 0..self.batches {
            // the sides take turns to go first
            let (p, h) = if batch % 2 == 0 {
                let p = measure(times, &mut proved);
                (p, measure(times, &mut by_hand))
            } else {
                let h = measure(times, &mut by_hand);
                (measure(times, &mut proved), h)
            };
            proved_time.push(p);
            hand_time.push(h);
            ratios.push(p / h);
        }
        for list in [&mut ratios, &mut proved_time, &mut hand_time] {
            list.sort_by(f64::total_cmp);
        }
        let middle = self.batches / 2;
        println!(
            "| {title} | {} | {} | {:.2} | {:.2} to {:.2} |",
            shown(proved_time[middle]),
            shown(hand_time[middle]),
            ratios[middle],
            ratios[self.batches / 4],
            ratios[self.batches - 1 - self.batches / 4]
        );
    }

    /// How many calls fill a batch.
    fn times(&self, work: &mut impl FnMut() -> u64) -> u32 {
        let mut times: u32 = 1;
        loop {
            let start = now();
            for _ in 0..times {
                black_box(work());
            }
            let passed = now() - start;
            if passed >= self.nanoseconds / 4 || times > 1 << 24 {
                return (u128::from(times) * self.nanoseconds / passed.max(1)).min(1 << 26) as u32;
            }
            times *= 2;
        }
    }
}

fn measure(times: u32, work: &mut impl FnMut() -> u64) -> f64 {
    let start = now();
    for _ in 0..times {
        black_box(work());
    }
    (now() - start) as f64 / f64::from(times)
}

fn shown(nanoseconds: f64) -> String {
    if nanoseconds < 10_000.0 {
        format!("{nanoseconds:.0} ns")
    } else {
        format!("{:.1} us", nanoseconds / 1000.0)
    }
}

// ---- the tables

const MODEL: u32 = 3;

fn name(base: u8, last: usize) -> Name {
    let mut name = vec![base; NAME_LIMIT];
    name[NAME_LIMIT - 1] = last as u8;
    name
}

fn subtree(last: usize) -> Identifier {
    let mut subtree = vec![1; SUBTREE_LIMIT];
    subtree[SUBTREE_LIMIT - 1] = last as u32;
    subtree
}

fn mapping(i: usize, group: Name) -> Row {
    Row::Mapping(Mapping { model: MODEL, name: name(b'n', i), group, storage: 3, status: 1 })
}

/// Completely full tables: names of 32 octets, and one view of 96 rows whose 64 parts are equal up to the last.
fn full() -> Tables {
    let view = name(b'v', 0);
    let mut tables = Tables::default();
    for i in 0..16 {
        tables.put(Row::Context(Context { name: name(b'c', i) }));
    }
    for i in 0..64 {
        tables.put(mapping(i, name(b'g', i)));
        tables.put(Row::Access(Access {
            group: name(b'g', i),
            prefix: name(b'c', 15),
            model: MODEL,
            level: 1,
            matching: 1,
            read: view.clone(),
            write: view.clone(),
            notify: view.clone(),
            storage: 3,
            status: 1,
        }));
    }
    for i in 0..96 {
        tables.put(Row::View(View { name: view.clone(), subtree: subtree(i), mask: vec![0xff; MASK_LIMIT], kind: 1, storage: 3, status: 1 }));
    }
    tables
}

/// Full tables in which the last principal reads and writes by the view in the empty context. Its rows are all of one type: the first has every
/// instance below it, the others lie below the view table, with 64 parts each, and match none.
#[cfg(feature = "store")]
fn walked(kind: u32) -> Tables {
    let mut tables = full();
    tables.contexts[0].name.clear();
    tables.accesses[63].prefix.clear();
    for row in &mut tables.views {
        row.kind = kind;
        row.subtree[..10].copy_from_slice(&[1, 3, 6, 1, 6, 3, 16, 1, 5, 2]);
    }
    tables.views[0].subtree.truncate(8);
    tables
}

struct Asked {
    title: &'static str,
    image: Vec<u8>,
    name: Name,
    context: Name,
    level: u32,
    variable: Identifier,
}

impl Asked {
    fn request(&self) -> handwritten::Request<'_> {
        handwritten::Request { model: MODEL, name: &self.name, level: self.level, kind: 1, context: &self.context }
    }
}

fn asked() -> Vec<Asked> {
    let p1 = ridge::request(3, 1, &[8, 2]);
    let full = image::write(&full());
    assert_eq!(full.len(), image::LARGEST);
    // the last principal, group and context decide, and the last view row, the first, or none
    let on_full = |title, variable| Asked { title, image: full.clone(), name: name(b'n', 63), context: name(b'c', 15), level: 3, variable };
    vec![
        Asked {
            title: "the Ridge tables, P1",
            image: image::write(&ridge::tables()),
            name: p1.name,
            context: p1.context,
            level: 3,
            variable: p1.variable,
        },
        on_full("full tables, the last view row decides", subtree(95)),
        on_full("full tables, the first view row decides", subtree(0)),
        on_full("full tables, no view row matches", subtree(96)),
    ]
}

// ---- the rows of the table

fn agent_rows(bench: &mut Bench) {
    for asked in asked() {
        let variable: Vec<u8> = asked.variable.iter().flat_map(|part| part.to_be_bytes()).collect();
        let request = asked.request();
        bench.row(
            &format!("C call, {}", asked.title),
            || u64::from(proved::is_access_allowed(black_box(&asked.image), black_box(&request), black_box(&variable))),
            || u64::from(handwritten::is_access_allowed(black_box(&asked.image), black_box(&request), black_box(&variable))),
        );
    }
}

#[cfg(feature = "store")]
fn store_of(image: &[u8]) -> Box<[u8; handwritten::ROOM]> {
    let mut store = Box::new([0u8; handwritten::ROOM]);
    assert_eq!(handwritten::read_image(image, &mut store), 0);
    store
}

/// Explanations beside those by hand; then beside the proved decision on the same request and a copy of the rows behind it.
#[cfg(feature = "store")]
fn explain_rows(bench: &mut Bench) {
    use handwritten::ROW_MAX;
    use proved::store;

    let by_hand = |lent: &[u8], request: &handwritten::Request, variable: &[u32], [mapping, access, view]: &mut [[u8; ROW_MAX]; 3]| {
        handwritten::explain(lent, request, variable, mapping, access, view)
    };
    for asked in asked() {
        let lent = store_of(&asked.image);
        let request = asked.request();
        let (mut a, mut b) = ([[0; ROW_MAX]; 3], [[0; ROW_MAX]; 3]);
        bench.row(
            &format!("explanation, {}", asked.title),
            || u64::from(store::explain(black_box(&lent[..]), black_box(&request), black_box(&asked.variable), black_box(&mut a))),
            || u64::from(by_hand(black_box(&lent[..]), black_box(&request), black_box(&asked.variable), black_box(&mut b)).number),
        );
        bench.differ |= a != b;
    }
    // the first two show a row of each table
    for asked in &asked()[..2] {
        let lent = store_of(&asked.image);
        let request = asked.request();
        let mut rows = [[0; ROW_MAX]; 3];
        let told = by_hand(&lent[..], &request, &asked.variable, &mut rows);
        let lengths = [told.mapping, told.access, told.view].map(|length| length.expect("a row of each table"));
        let (mut a, mut b) = ([[0; ROW_MAX]; 3], [[0; ROW_MAX]; 3]);
        bench.row(
            &format!("explanation beside the decision and the copy of its rows, {}", asked.title),
            || u64::from(store::explain(black_box(&lent[..]), black_box(&request), black_box(&asked.variable), black_box(&mut a))),
            || {
                let number = store::decide(black_box(&lent[..]), black_box(&request), black_box(&asked.variable));
                for ((room, row), length) in b.iter_mut().zip(&rows).zip(lengths) {
                    black_box(room)[..length].copy_from_slice(&black_box(row)[..length]);
                }
                u64::from(number)
            },
        );
        bench.differ |= a != b;
    }
}

#[cfg(feature = "store")]
fn match_rows(bench: &mut Bench) {
    use handwritten::KEY_MAX;
    use proved::store;

    fn number<R>(matched: Result<R, u32>) -> u64 {
        matched.err().map_or(0, u64::from)
    }
    let ridge = store_of(&image::write(&ridge::tables()));
    let full = store_of(&image::write(&full()));
    let p1 = ridge::request(3, 1, &[8, 2]);
    let views = [
        ("the Ridge tables, P1", &ridge, Name::from("base"), p1.variable),
        ("full tables, the last view row decides", &full, name(b'v', 0), subtree(95)),
        ("full tables, the first view row decides", &full, name(b'v', 0), subtree(0)),
    ];
    for (title, lent, view, variable) in views {
        let (mut a, mut b) = ([0u8; KEY_MAX], [0u8; KEY_MAX]);
        bench.row(
            &format!("match of a view, {title}"),
            || u64::from(store::match_view(black_box(&lent[..]), black_box(&view), black_box(&variable), black_box(&mut a))),
            || number(handwritten::match_view(black_box(&lent[..]), black_box(&view), black_box(&variable), black_box(&mut b))),
        );
        bench.differ |= a != b;
    }
    let groups = [
        ("the Ridge tables, P1", &ridge, Name::from("leads"), p1.context),
        ("full tables, the last access row is chosen", &full, name(b'g', 63), name(b'c', 15)),
    ];
    for (title, lent, group, context) in groups {
        let (mut a, mut b) = ([0u8; KEY_MAX], [0u8; KEY_MAX]);
        bench.row(
            &format!("match of an access row, {title}"),
            || u64::from(store::match_access(black_box(&lent[..]), black_box(&group), black_box(&context), MODEL, 3, black_box(&mut a))),
            || number(handwritten::match_access(black_box(&lent[..]), black_box(&group), black_box(&context), MODEL, 3, black_box(&mut b))),
        );
        bench.differ |= a != b;
    }
}

/// Every column of every row of full tables.
#[cfg(feature = "store")]
const INSTANCES: u64 = 16 + 3 * 64 + 6 * 64 + 4 * 96;

/// Steps from the empty identifier on, each from the instance before it: how many hand back an instance until one does not.
#[cfg(feature = "store")]
fn walk_through(mut step: impl FnMut(&[u32], &mut [u32; handwritten::MOST_PARTS]) -> usize) -> u64 {
    let (mut from, mut to) = (&mut [0; handwritten::MOST_PARTS], &mut [0; handwritten::MOST_PARTS]);
    let mut parts = 0;
    for steps in 0..=INSTANCES {
        parts = step(&from[..parts], to);
        if parts == 0 {
            return steps;
        }
        std::mem::swap(&mut from, &mut to);
    }
    // more steps than instances: it goes back
    INSTANCES + 1
}

#[cfg(feature = "store")]
fn walk_rows(bench: &mut Bench) {
    use beside::reference::instance;
    use handwritten::{KEY_MAX, MOST_PARTS};
    use proved::store;

    let caller = name(b'n', 63);
    let proved = |lent: &[u8], identifier: &[u32], instance: &mut [u32; MOST_PARTS], key: &mut [u8; KEY_MAX]| {
        store::walk(black_box(lent), MODEL, black_box(&caller), 3, black_box(identifier), black_box(instance), black_box(key))
    };
    let by_hand = |lent: &[u8], identifier: &[u32], instance: &mut [u32; MOST_PARTS], key: &mut [u8; KEY_MAX]| {
        let next = handwritten::walk(black_box(lent), MODEL, black_box(&caller), 3, black_box(identifier), black_box(instance), black_box(key));
        next.map_or(0, |next| next.parts)
    };
    let tables = walked(1);
    let readable = store_of(&image::write(&tables));
    let unreadable = store_of(&image::write(&walked(2)));

    let (mut a, mut b, mut other) = ([0; KEY_MAX], [0; KEY_MAX], [0; MOST_PARTS]);
    let steps = walk_through(|from, to| {
        let parts = proved(&readable[..], from, to, &mut a);
        bench.differ |= by_hand(&readable[..], from, &mut other, &mut b) != parts || other[..parts] != to[..parts] || a != b;
        parts
    });
    let last = handwritten::walk(&unreadable[..], MODEL, &caller, 3, &[], &mut other, &mut b);
    bench.differ |= steps != INSTANCES || last != Err(17);
    bench.row(
        "walk from the empty identifier over full tables to 17",
        || walk_through(|from, to| proved(&readable[..], from, to, &mut a)),
        || walk_through(|from, to| by_hand(&readable[..], from, to, &mut b)),
    );

    let middle = instance::encode(4, &Row::View(tables.views[47].clone()).key()).unwrap();
    for (title, lent, identifier) in [("everything readable", &readable, middle), ("nothing readable", &unreadable, Vec::new())] {
        let (mut a, mut b) = (([0; MOST_PARTS], [0; KEY_MAX]), ([0; MOST_PARTS], [0; KEY_MAX]));
        bench.row(
            &format!("a step of a walk, full tables, {title}"),
            || proved(&lent[..], &identifier, &mut a.0, &mut a.1) as u64,
            || by_hand(&lent[..], &identifier, &mut b.0, &mut b.1) as u64,
        );
        bench.differ |= a != b;
    }
}

#[cfg(feature = "store")]
fn store_rows(bench: &mut Bench) {
    use beside::random::Random;
    use handwritten::ROOM;
    use proved::store;

    for asked in asked() {
        let lent = store_of(&asked.image);
        let request = asked.request();
        bench.row(
            &format!("decision on a store, {}", asked.title),
            || u64::from(store::decide(black_box(&lent[..]), black_box(&request), black_box(&asked.variable))),
            || u64::from(handwritten::store_decide(black_box(&lent[..]), black_box(&request), black_box(&asked.variable))),
        );
    }

    let full = full();
    let image = image::write(&full);
    let first = image::row_bytes(&mapping(0, name(b'g', 0)));
    let short = image::row_bytes(&mapping(0, vec![b'g']));
    let context = image::row_bytes(&full.rows()[0]);
    let (mut a, mut b) = (store_of(&image), store_of(&image));
    bench.row(
        "change of the first mapping row, same length",
        || u64::from(store::owner_change(black_box(&mut a[..]), 1, black_box(&first))),
        || u64::from(handwritten::owner_change(black_box(&mut b[..]), 1, black_box(&first))),
    );
    bench.row(
        "two changes of the first mapping row, shorter, then longer",
        || {
            u64::from(
                store::owner_change(black_box(&mut a[..]), 1, black_box(&short)) | store::owner_change(black_box(&mut a[..]), 1, black_box(&first)),
            )
        },
        || {
            u64::from(
                handwritten::owner_change(black_box(&mut b[..]), 1, black_box(&short))
                    | handwritten::owner_change(black_box(&mut b[..]), 1, black_box(&first)),
            )
        },
    );
    bench.row(
        "removal and create of the first context row",
        || {
            u64::from(
                store::owner_remove(black_box(&mut a[..]), 0, black_box(&context))
                    | store::owner_create(black_box(&mut a[..]), 0, black_box(&context)),
            )
        },
        || {
            u64::from(
                handwritten::owner_remove(black_box(&mut b[..]), 0, black_box(&context))
                    | handwritten::owner_create(black_box(&mut b[..]), 0, black_box(&context)),
            )
        },
    );
    bench.row(
        "create of the first mapping row, refused: it is held",
        || u64::from(store::owner_create(black_box(&mut a[..]), 1, black_box(&first))),
        || u64::from(handwritten::owner_create(black_box(&mut b[..]), 1, black_box(&first))),
    );
    bench.differ |= a != b;

    for (title, image) in [("the Ridge tables", image::write(&ridge::tables())), ("full tables", image.clone())] {
        bench.row(
            &format!("image reading, {title}"),
            || u64::from(store::read_image(black_box(&image), black_box(&mut a))),
            || u64::from(handwritten::read_image(black_box(&image), black_box(&mut b))),
        );
        let mut outs = [vec![0u8; ROOM], vec![0u8; ROOM]];
        let [out_a, out_b] = &mut outs;
        bench.row(
            &format!("image writing, {title}"),
            || store::write_image(black_box(&a[..]), black_box(out_a)),
            || handwritten::write_image(black_box(&b[..]), black_box(out_b)),
        );
        bench.differ |= a[..image.len()] != b[..image.len()] || outs[0] != outs[1];
    }

    let mut rows: Vec<(u32, Vec<u8>)> = full.rows().iter().map(|row| (row.table() as u32, image::row_bytes(row))).collect();
    Random::new(3415).shuffle(&mut rows);
    bench.row(
        "growth from empty to full, 240 creates in random order",
        || {
            a[..8].fill(0);
            rows.iter().map(|(table, row)| u64::from(store::owner_create(&mut a[..], *table, black_box(row)))).sum()
        },
        || {
            b[..8].fill(0);
            rows.iter().map(|(table, row)| u64::from(handwritten::owner_create(&mut b[..], *table, black_box(row)))).sum()
        },
    );
    bench.differ |= a != b || a[..] != image[..];
}

/// Changes of rows that are held: of three columns, six and four, all of them granted; and one refused at the first column. Then creates,
/// each of a row that the owner has removed.
#[cfg(feature = "store")]
fn principal_rows(bench: &mut Bench) {
    use proved::store;

    let mut ridge = ridge::tables();
    ridge.accesses[0].write = "all".into();
    let (granted, denied) = (walked(1), walked(2));
    let last = name(b'n', 63);
    let rows = [
        ("the Ridge tables, a mapping row", &ridge, &Name::from("ann"), Row::Mapping(ridge.mappings[0].clone())),
        ("the Ridge tables, an access row", &ridge, &Name::from("ann"), Row::Access(ridge.accesses[0].clone())),
        ("full tables, a mapping row", &granted, &last, Row::Mapping(granted.mappings[0].clone())),
        ("full tables, an access row", &granted, &last, Row::Access(granted.accesses[0].clone())),
        ("full tables, a view row", &granted, &last, Row::View(granted.views[95].clone())),
        ("full tables, an access row, refused at the first column", &denied, &last, Row::Access(denied.accesses[0].clone())),
    ];
    for (title, tables, caller, row) in rows {
        let (table, row) = (row.table() as u32, image::row_bytes(&row));
        let image = image::write(tables);
        let (mut a, mut b) = (store_of(&image), store_of(&image));
        let number = handwritten::principal_change(&mut b[..], MODEL, caller, 3, table, &row);
        bench.differ |= number != if title.contains("refused") { 5 } else { 0 };
        bench.row(
            &format!("principal's change, {title}"),
            || u64::from(store::principal_change(black_box(&mut a[..]), MODEL, black_box(caller), 3, table, black_box(&row))),
            || u64::from(handwritten::principal_change(black_box(&mut b[..]), MODEL, black_box(caller), 3, table, black_box(&row))),
        );
        bench.differ |= a != b;
    }

    let row = Row::Mapping(granted.mappings[0].clone());
    let (table, key, row) = (row.table() as u32, image::key_bytes(&row.key()), image::row_bytes(&row));
    let image = image::write(&granted);
    let (mut a, mut b) = (store_of(&image), store_of(&image));
    bench.row(
        "owner's removal and principal's create, full tables, a mapping row",
        || {
            u64::from(
                store::owner_remove(black_box(&mut a[..]), table, black_box(&key))
                    | store::principal_create(black_box(&mut a[..]), MODEL, black_box(&last), 3, table, black_box(&row)),
            )
        },
        || {
            u64::from(
                handwritten::owner_remove(black_box(&mut b[..]), table, black_box(&key))
                    | handwritten::principal_create(black_box(&mut b[..]), MODEL, black_box(&last), 3, table, black_box(&row)),
            )
        },
    );
    bench.differ |= a[..image.len()] != image[..] || b[..image.len()] != image[..];
}

/// A set of edits as both sides are lent it.
#[cfg(feature = "store")]
#[derive(Default)]
struct EditSet {
    heads: Vec<u32>,
    bytes: Vec<u8>,
}

#[cfg(feature = "store")]
impl EditSet {
    /// The same operation on each row: 0 creates it, 1 changes it, 2 removes it.
    fn of(operation: u32, rows: &[Row]) -> EditSet {
        let mut set = EditSet::default();
        for row in rows {
            set.push(operation, row);
        }
        set
    }

    fn push(&mut self, operation: u32, row: &Row) {
        let from = self.bytes.len();
        self.bytes.extend(if operation == 2 { image::key_bytes(&row.key()) } else { image::row_bytes(row) });
        self.heads.extend([operation, row.table() as u32, from as u32, self.bytes.len() as u32]);
    }
}

/// Sets of the last principal on full tables: eight rows, of the mapping table, the access table and the view table, removed and created,
/// changed to what they are, and created where they are missing; and a set refused at its last edit.
#[cfg(feature = "store")]
fn set_rows(bench: &mut Bench) {
    use proved::store;

    let tables = walked(1);
    let caller = name(b'n', 63);
    let proved = |lent: &mut [u8], set: &EditSet| {
        store::principal_set(black_box(lent), MODEL, black_box(&caller), 3, black_box(&set.heads), black_box(&set.bytes))
    };
    let by_hand = |lent: &mut [u8], set: &EditSet| {
        handwritten::principal_set(black_box(lent), MODEL, black_box(&caller), 3, black_box(&set.heads), black_box(&set.bytes))
    };

    let mappings = [0, 20, 40].map(|i| Row::Mapping(tables.mappings[i].clone()));
    let accesses = [0, 31].map(|i| Row::Access(tables.accesses[i].clone()));
    let views = [1, 48, 95].map(|i| Row::View(tables.views[i].clone()));
    let eight = [&mappings[..], &accesses, &views].concat();
    let (creates, changes, removals) = (EditSet::of(0, &eight), EditSet::of(1, &eight), EditSet::of(2, &eight));
    let mut refused = EditSet::of(1, &eight[..7]);
    refused.push(0, &eight[7]);

    let full = image::write(&tables);
    let mut without = tables.clone();
    for row in &eight {
        without.remove(&row.key());
    }
    let nearly_full = image::write(&without);

    let (mut a, mut b) = (store_of(&nearly_full), store_of(&nearly_full));
    let found = a.clone();
    bench.row(
        "principal's set of eight creates, nearly full tables, and the store copied back",
        || {
            a.copy_from_slice(&found[..]);
            u64::from(proved(&mut a[..], &creates))
        },
        || {
            b.copy_from_slice(&found[..]);
            u64::from(by_hand(&mut b[..], &creates))
        },
    );
    bench.differ |= a[..full.len()] != full[..] || b[..full.len()] != full[..];
    bench.row(
        "principal's sets of eight removals and of eight creates, full tables",
        || u64::from(proved(&mut a[..], &removals) | proved(&mut a[..], &creates)),
        || u64::from(by_hand(&mut b[..], &removals) | by_hand(&mut b[..], &creates)),
    );
    bench.row(
        "principal's set of eight changes, full tables",
        || u64::from(proved(&mut a[..], &changes)),
        || u64::from(by_hand(&mut b[..], &changes)),
    );
    bench.differ |= by_hand(&mut b[..], &removals) | by_hand(&mut b[..], &creates) | by_hand(&mut b[..], &changes) != 0;
    bench.differ |= by_hand(&mut b[..], &refused) != 8 * 256 + 18;
    bench.row(
        "principal's set refused at its last edit, which creates a held row, full tables",
        || u64::from(proved(&mut a[..], &refused)),
        || u64::from(by_hand(&mut b[..], &refused)),
    );
    bench.differ |= a[..full.len()] != full[..] || b[..full.len()] != full[..];
}

fn main() -> ExitCode {
    let mut bench = Bench { batches: 41, nanoseconds: 2_000_000, only: String::new(), differ: false };
    let mut words = std::env::args().skip(1);
    while let Some(word) = words.next() {
        let text = words.next().unwrap_or_default();
        let value = text.parse::<u32>().ok().filter(|value| *value > 0);
        match (word.as_str(), value) {
            ("--only", _) => bench.only = text,
            ("--batches", Some(value)) => bench.batches = value as usize,
            ("--milliseconds", Some(value)) => bench.nanoseconds = 1_000_000 * u128::from(value),
            _ => {
                println!("usage: benchmark [--batches N] [--milliseconds N] [--only TEXT]");
                return ExitCode::FAILURE;
            }
        }
    }
    println!("| work | proved, median | hand-written, median | ratio, median | ratio, middle half |");
    println!("|---|---|---|---|---|");
    agent_rows(&mut bench);
    #[cfg(feature = "store")]
    {
        store_rows(&mut bench);
        match_rows(&mut bench);
        walk_rows(&mut bench);
        principal_rows(&mut bench);
        set_rows(&mut bench);
        explain_rows(&mut bench);
    }
    println!();
    println!("{} batches of {} ms of processor time on each side, in turn.", bench.batches, bench.nanoseconds / 1_000_000);
    if bench.differ {
        println!("The two sides differ: the figures do not count.");
        return ExitCode::FAILURE;
    }
    ExitCode::SUCCESS
}
