//! Calls that are refused: what ours returns is held to document 01, and nothing that was lent may change. What the Rust does with the same
//! arguments is counted; where document 01 says that it declines, it must.

use crate::one::{Call, Fault, compare, theirs};
use crate::ours::{ANSWER, Labels, Reads, label_open};
use crate::THREADS;
use drivers::frames::{Frame, below, lines, make_lopsided, size};
use drivers::lent::Lent;
use drivers::plain::words_needed;
use drivers::random::Random;
use drivers::tally::Tally;
use std::panic::{AssertUnwindSafe, catch_unwind};

impl<C> Call<'_, C> {
    /// What ours returns, and whether all that was lent stands.
    fn ours<N: Reads>(&self, r: &mut Random) -> (u32, bool)
    where
        C: Labels<N>,
    {
        let blocks = below(r, 4);
        let o = self.frame::<N>(r, blocks);
        (o.number, o.stands())
    }

    fn rust<N: Reads>(&self, r: &mut Random, threads: usize) -> &'static str
    where
        C: Labels<N>,
    {
        let mut out: Vec<N> = (0..self.places).map(|_| N::filled(r)).collect();
        match catch_unwind(AssertUnwindSafe(|| reference::label_impl(self.shape, self.structure, self.cells, &mut out, threads))) {
            Err(_) => "panics",
            Ok(None) => "declines",
            Ok(Some(_)) => "answers",
        }
    }

    /// Ours must return `want`, and the Rust do what is expected of it, if anything is.
    fn hold<N: Reads>(&self, t: &mut Tally, r: &mut Random, threads: usize, what: &str, want: u32, expect: &str)
    where
        C: Labels<N>,
    {
        let (number, stands) = self.ours::<N>(r);
        let rust = self.rust::<N>(r, threads);
        t.add("refused calls", format!("{what}: ours {number}, the Rust {rust}:"), 1);
        if number != want || !stands || !expect.is_empty() && rust != expect {
            let tell = || format!("{what}: ours returns {number} (should be {want}; all stands: {stands}), the Rust {rust}; shape {:?}", self.shape);
            t.differs(tell);
        }
    }
}

/// One argument at a time is damaged.
fn damaged<C: Labels<N>, N: Reads>(t: &mut Tally, r: &mut Random, rank: usize, threads: usize) {
    let mut f = Frame::<C>::random(r, rank);
    while f.cells.is_empty() {
        f = Frame::random(r, rank);
    }
    let n = size(&f.shape);
    let room = words_needed(&f.shape, &f.structure);
    let whole = || Call { shape: &f.shape, structure: &f.structure, cells: &f.cells, places: n, room, answer: ANSWER };
    let (mut more_bytes, mut more_cells, mut lopsided) = (f.structure.clone(), f.cells.clone(), f.structure.clone());
    more_bytes.push(1);
    more_cells.push(C::coded(b'1'));
    make_lopsided(r, &mut lopsided);
    let bytes = f.structure.len();
    Call { structure: &f.structure[..bytes - 1], ..whole() }.hold::<N>(t, r, threads, "structure one byte short", 2, "");
    Call { structure: &f.structure[..0], ..whole() }.hold::<N>(t, r, threads, "no structure", 2, "");
    Call { structure: &more_bytes, ..whole() }.hold::<N>(t, r, threads, "structure one byte long", 2, "");
    Call { structure: &lopsided, ..whole() }.hold::<N>(t, r, threads, "a lopsided structure", 12, "");
    Call { cells: &f.cells[..n - 1], ..whole() }.hold::<N>(t, r, threads, "cells one short", 8, "panics");
    Call { cells: &more_cells, ..whole() }.hold::<N>(t, r, threads, "cells one too many", 8, "");
    Call { places: n - 1, ..whole() }.hold::<N>(t, r, threads, "output one short", 9, "");
    Call { places: n + 1, ..whole() }.hold::<N>(t, r, threads, "output one too long", 9, "");
    Call { room: room - 1, ..whole() }.hold::<N>(t, r, threads, "words one short", 5, "");
    Call { answer: ANSWER - 1, ..whole() }.hold::<N>(t, r, threads, "answer of seven words", 100, "");
    Call { shape: &[], ..whole() }.hold::<N>(t, r, threads, "rank 0", 1, "panics");
    let five: Vec<usize> = [&vec![1; 5 - rank][..], &f.shape].concat();
    Call { shape: &five, structure: &[1; 243], ..whole() }.hold::<N>(t, r, threads, "rank 5", 1, "answers");
    for d in 0..rank - 1 {
        let mut shape = f.shape.clone();
        shape[d] = 0;
        let none = Call { shape: &shape, cells: &f.cells[..0], places: 0, room: 1, ..whole() };
        none.hold::<N>(t, r, threads, "a leading dimension is 0", 3, "panics");
    }
}

/// As many groups as the kind holds, and one more: apart in one line, and by a structure that joins nothing.
fn groups<C: Labels<N>, N: Reads>(t: &mut Tally, r: &mut Random, threads: usize, fault: Fault) {
    let shapes: &[&[usize]] = match N::NAME {
        "u8" => &[&[255], &[256], &[15, 17], &[16, 16], &[3, 5, 17], &[4, 8, 8], &[3, 5, 1, 17], &[4, 4, 4, 4]],
        "u16" => &[&[65535], &[65536], &[255, 257], &[256, 256], &[15, 17, 257], &[32, 32, 64], &[3, 5, 17, 257], &[16, 16, 16, 16]],
        _ => return,
    };
    for shape in shapes {
        let cells = (0..size(shape)).map(|_| C::coded(C::OTHERS[below(r, C::OTHERS.len())])).collect();
        let f = Frame::<C> { shape: shape.to_vec(), structure: vec![0; 3usize.pow(shape.len() as u32)], cells };
        compare::<C, N>(t, r, &f, threads, &[1, 3, lines(shape) + 1], false, fault);
        t.add("groups at the edge of a kind", format!("{} into {}:", size(shape), N::NAME), 1);
    }
    for n in [size(shapes[0]), size(shapes[1])] {
        let cells = (0..2 * n - 1).map(|i| C::coded(b'0' + (i + 1) as u8 % 2)).collect();
        let f = Frame::<C> { shape: vec![2 * n - 1], structure: vec![1; 3], cells };
        compare::<C, N>(t, r, &f, threads, &[0, 1, 2], false, fault);
        t.add("groups at the edge of a kind", format!("{n} into {}:", N::NAME), 1);
    }
}

/// Zeros that take no memory until they are touched, if the system lends so many.
fn zeros(n: usize) -> Option<Vec<u8>> {
    let layout = std::alloc::Layout::array::<u8>(n.max(1)).ok()?;
    // SAFETY: the layout is not empty, and is that of a vector of so many bytes
    unsafe {
        let p = std::alloc::alloc_zeroed(layout);
        (!p.is_null()).then(|| Vec::from_raw_parts(p, n, n.max(1)))
    }
}

/// Shapes at the limits and above, with cells and output of exact length: the Rust declines before it looks at them, ours returns 4.
fn limits(t: &mut Tally, r: &mut Random) {
    let above: [&[usize]; 10] = [
        &[2147483647],
        &[2147483648],
        &[4294967295],
        &[1, 2147483647],
        &[1, 1, 2147483647],
        &[1, 1, 1, 2147483647],
        &[9241, 464773],
        &[4294967293, 1],
        &[65536, 65536],
        &[2, 3, 5, 143165577],
    ];
    for shape in above {
        let structure = vec![1u8; 3usize.pow(shape.len() as u32)];
        let (Some(cells), Some(mut out)) = (zeros(size(shape)), zeros(size(shape))) else {
            t.add("refused calls", "a shape at the limits: not run, no memory for it:", 1);
            continue;
        };
        let call = Call { shape, structure: &structure, cells: &cells, places: 0, room: 1, answer: ANSWER };
        let (number, stands) = call.ours::<u8>(r);
        let none = reference::label_impl(shape, &structure, &cells, &mut out, 1).is_none();
        t.add("refused calls", format!("a shape at the limits: ours {number}, the Rust {}:", if none { "declines" } else { "answers" }), 1);
        if number != 4 || !stands || !none {
            t.differs(|| format!("shape {shape:?}: ours returns {number} (should be 4; all stands: {stands}), the Rust declines: {none}"));
        }
    }
    let below: [&[usize]; 4] = [&[2147483646], &[4294967292, 1], &[2, 2147483646], &[3, 4, 357913941]];
    for shape in below {
        let structure = vec![1u8; 3usize.pow(shape.len() as u32)];
        let (number, stands) = Call::<u8> { shape, structure: &structure, cells: &[], places: 0, room: 1, answer: ANSWER }.ours::<u8>(r);
        t.add("refused calls", format!("a shape below the limits, with one word: ours {number}, the Rust not run:"), 1);
        if number != 5 || !stands {
            t.differs(|| format!("shape {shape:?}: ours returns {number} (should be 5; all stands: {stands})"));
        }
    }
}

/// A product that does not fit is above the limits, unless a leading dimension is 0.
fn products(t: &mut Tally, r: &mut Random) {
    let huge = 1usize << 63;
    let cases: [(&[usize], u32); 6] = [
        (&[huge, 2, 3], 4),
        (&[huge, huge, huge, 1], 4),
        (&[1 << 32, 1 << 32, 1], 4),
        (&[huge, 2, 0, 3], 3),
        (&[0, huge, huge, 3], 3),
        (&[2, usize::MAX], 4),
    ];
    for (shape, want) in cases {
        let structure = vec![1u8; 3usize.pow(shape.len() as u32)];
        let (number, stands) = Call::<u8> { shape, structure: &structure, cells: &[], places: 0, room: 1, answer: ANSWER }.ours::<u8>(r);
        t.add("refused calls", format!("a product that does not fit: ours {number}, the Rust not run:"), 1);
        if number != want || !stands {
            t.differs(|| format!("shape {shape:?}: ours returns {number} (should be {want}; all stands: {stands})"));
        }
    }
}

/// What label_core alone declines: arrays out of C order, and outputs of another kind. Ours has no such arguments.
fn arrays(t: &mut Tally) {
    let (mut cells, mut out, mut floats) = ([1u8; 6], [0u16; 6], [0f32; 6]);
    let py = pyo3::Python::stub();
    // SAFETY: the arrays outlive the calls
    let (apart, input, output, other) = unsafe {
        let a = cells.as_mut_ptr();
        (numpy::array(a, &[2, 3], false), numpy::array(a, &[2, 3], true), numpy::array(out.as_mut_ptr(), &[2, 3], true), numpy::array(floats.as_mut_ptr(), &[2, 3], true))
    };
    for (what, i, o) in [("input out of C order", &apart, &output), ("output of another kind", &input, &other)] {
        let none = matches!(reference::label_core(py, i, vec![1; 9], o), Ok(None));
        t.add("declined by label_core alone", format!("{what}: {}", if none { "declines" } else { "answers" }), 1);
    }
}

/// An opening into a record that is too short writes nothing.
fn short_record(t: &mut Tally, r: &mut Random) {
    let room = words_needed(&[3, 3], &[1; 9]);
    let (mut words, mut record) = (Lent::new(room, || r.next() as u32), Lent::new(88, || 7u64));
    let number = unsafe { label_open([3, 3].as_ptr(), 2, [1; 9].as_ptr(), 9, words.pointer(), room, record.pointer(), 88) };
    t.add("refused calls", format!("a record of 88 words: ours {number}, the Rust has none:"), 1);
    if number != 100 || !words.stands() || !record.stands() {
        t.differs(|| format!("a record of 88 words: ours returns {number}, and should return 100 and write nothing"));
    }
}

fn pair<C: Labels<N>, N: Reads>(t: &mut Tally, r: &mut Random, threads: usize, frames: usize, fault: Fault) {
    for i in 0..(frames / 2000).clamp(4, 100) {
        damaged::<C, N>(t, r, 1 + i % 4, threads);
    }
    groups::<C, N>(t, r, threads, fault);
}

pub fn all(t: &mut Tally, r: &mut Random, frames: usize, fault: Fault) {
    let hook = std::panic::take_hook();
    std::panic::set_hook(Box::new(|_| {}));
    for threads in THREADS {
        reference::set_num_threads(threads);
        for k in 0..12 {
            for_pair!(k, pair(t, r, threads, frames, fault));
        }
    }
    std::panic::set_hook(hook);
    limits(t, r);
    products(t, r);
    arrays(t);
    short_record(t, r);
    // the pool still answers after the panics
    let f = Frame { shape: vec![2, 2], structure: vec![1; 9], cells: vec![1u8, 0, 0, 1] };
    assert_eq!(theirs(&f, vec![0u8; 4], 8, false).n, Some(1));
}
