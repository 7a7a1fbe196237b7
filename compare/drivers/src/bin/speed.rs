//! Time: ours, by the C interface, beside the Rust's `label_impl` with one thread, on the same frames in one run. Every time is the least
//! of several; the two sides take turns.
//!
//!     speed [FOLDER]    FOLDER: where the frames of the first table are left, with their times, for speed.py

#[path = "../ours.rs"]
mod ours;

use drivers::drawn::{CROSS, FULL, disks, hard_frames, noise};
use drivers::plain::{END, PARENT, SIZE, STRIDE, words_needed};
use drivers::random::Random;
use ours::{ANSWER, Fed, Labels, Reads, label_open, label_record_words, label_sizes, label_widen};
use std::hint::black_box;
use std::time::Instant;

/// A cell kind that is measured.
trait Timed: Labels<u32> {
    fn of(flag: u8) -> Self;
}
macro_rules! timed { ($($t:ident),*) => {$(
    impl Timed for $t {
        fn of(flag: u8) -> $t {
            flag as $t
        }
    }
)*}; }
timed!(u8, u16, i16, f32);

/// Lines of a block. The block count changes no answer; such blocks are still in the cache when they are united.
const BLOCK: usize = 16;

/// Seconds of the Rust, of ours in one block, and of ours in blocks of so many lines; and the runs.
#[derive(Clone, Copy)]
struct Times {
    rust: f64,
    one: f64,
    ours: f64,
    runs: usize,
}

const NEVER: Times = Times { rust: f64::MAX, one: f64::MAX, ours: f64::MAX, runs: 0 };

impl Times {
    fn least(&self, t: Times) -> Times {
        Times { rust: self.rust.min(t.rust), one: self.one.min(t.one), ours: self.ours.min(t.ours), runs: t.runs }
    }
    /// Nanoseconds per run of ours, and of the Rust.
    fn per_run(&self) -> (f64, f64) {
        (self.ours * 1e9 / self.runs as f64, self.rust * 1e9 / self.runs as f64)
    }
}

/// The greatest ratio to the Rust's time in one block, and in blocks.
fn greatest(times: &[Times]) -> (f64, f64) {
    times.iter().fold((0f64, 0f64), |(a, b), t| (a.max(t.one / t.rust), b.max(t.ours / t.rust)))
}

/// Memory that all cases share: it is allocated once, as firmware would.
#[derive(Default)]
struct Memory {
    words: Vec<u32>,
    rust: Vec<u32>,
    ours: Vec<u32>,
}

/// The first `n` entries, made if there are fewer.
fn first(v: &mut Vec<u32>, n: usize) -> &mut [u32] {
    if v.len() < n {
        v.resize(n, 0);
    }
    &mut v[..n]
}

fn seconds(mut call: impl FnMut()) -> f64 {
    let t = Instant::now();
    call();
    t.elapsed().as_secs_f64()
}

/// The least of so many tries. The answers are held against each other too.
fn times<C: Timed>(memory: &mut Memory, shape: &[usize], structure: &[u8], flags: &[u8], tries: usize) -> Times {
    let cells: Vec<C> = flags.iter().map(|&f| C::of(f)).collect();
    let words = first(&mut memory.words, words_needed(shape, structure));
    let (theirs, out) = (first(&mut memory.rust, cells.len()), first(&mut memory.ours, cells.len()));
    let (mut n, mut said, mut answer, mut best) = (None, 0, [0u64; ANSWER], NEVER);
    let (s, b, w, c, o, a) = (shape.len(), structure.len(), words.len(), cells.len(), out.len(), answer.len());
    for _ in 0..tries {
        let rust = seconds(|| n = reference::label_impl(shape, structure, &cells, theirs, 1));
        let [one, ours] = [1, (c / shape[s - 1]).div_ceil(BLOCK)].map(|blocks| {
            out[0] = 77;
            let (words, out, answer) = (words.as_mut_ptr(), out.as_mut_ptr(), answer.as_mut_ptr());
            seconds(|| said |= unsafe { C::FRAME(shape.as_ptr(), s, structure.as_ptr(), b, words, w, cells.as_ptr(), c, out, o, blocks, answer, a) })
        });
        assert!(said == 0 && n == Some(answer[0]) && theirs == out, "refused with {said}, or another answer");
        best = best.least(Times { rust, one, ours, runs: answer[1] as usize });
    }
    best
}

type Measured = fn(&mut Memory, &[usize], &[u8], &[u8], usize) -> Times;

/// A frame that is measured, with `times` of its kind of cells.
struct Case<'a> {
    what: String,
    times: Measured,
    shape: Vec<usize>,
    structure: Vec<u8>,
    flags: &'a [u8],
}

/// All cases in turn, four times over, so that what disturbs the machine for a while does not meet one case alone: the least of each.
fn measure(memory: &mut Memory, cases: &[Case], tries: usize) -> Vec<Times> {
    let mut best = vec![NEVER; cases.len()];
    for _ in 0..4 {
        for (c, b) in cases.iter().zip(best.iter_mut()) {
            *b = b.least((c.times)(memory, &c.shape, &c.structure, c.flags, tries.div_ceil(4)));
        }
    }
    best
}

/// Measures and prints.
fn table(memory: &mut Memory, cases: &[Case], tries: usize) -> Vec<Times> {
    let times = measure(memory, cases, tries);
    for (c, t) in cases.iter().zip(&times) {
        println!("{:<30} {:8.3} {:8.3} {:8.3} {:8.2} {:6.2}", c.what, t.rust * 1e3, t.one * 1e3, t.ours * 1e3, t.one / t.rust, t.ours / t.rust);
    }
    let (one, ours) = greatest(&times);
    println!("greatest ratio: {one:.2} in one block, {ours:.2} in blocks of {BLOCK} lines");
    times
}

/// Disks that cover 10% and 40%, and noise.
fn drawn(r: &mut Random) -> Vec<(String, Vec<u8>)> {
    let mut frames: Vec<(String, Vec<u8>)> = [10, 40].iter().map(|&p| (format!("clumps {p}%"), disks(r, 1024, p))).collect();
    frames.extend([1, 10, 30, 50, 70].iter().map(|&p| (format!("noise {p}%"), noise(r, 1024 * 1024, p))));
    frames
}

/// The fourteen frames of 1,024 by 1,024 u8 cells. They are left in the folder, with their times, if one is named.
fn fourteen(memory: &mut Memory, frames: &[(String, Vec<u8>)], folder: Option<&str>, tries: usize) {
    let mut cases = vec![];
    for (what, flags) in frames {
        for (by, structure) in [("cross", CROSS), ("full", FULL)] {
            cases.push(Case { what: format!("{what}, {by}"), times: times::<u8>, shape: vec![1024, 1024], structure: structure.to_vec(), flags });
        }
    }
    println!("1,024 by 1,024 u8 cells into u32 numbers: ms of the Rust, of ours in one block and in blocks of {BLOCK} lines, and their ratios");
    let times = table(memory, &cases, tries);
    let (one, ours) = greatest(&times[..4]);
    println!("on clumps: {one:.2} and {ours:.2}\n");
    let Some(folder) = folder else { return };
    let mut list = String::new();
    for (at, (c, t)) in cases.iter().zip(&times).enumerate() {
        list += &format!("{}\t{}\t{}\t{}\n", at / 2, c.what, t.rust * 1e3, t.ours * 1e3);
        std::fs::write(format!("{folder}/{}.u8", at / 2), c.flags).expect("the frame could not be written");
    }
    std::fs::write(format!("{folder}/times.tsv"), list).expect("the times could not be written");
}

/// Other kinds of cells, and rank 3 and 4.
fn others(memory: &mut Memory, r: &mut Random, frames: &[(String, Vec<u8>)], tries: usize) {
    let mut cases = vec![];
    for (what, flags) in frames {
        for (kind, times) in [("u16", times::<u16> as Measured), ("i16", times::<i16>), ("f32", times::<f32>)] {
            cases.push(Case { what: format!("{kind}, {what}, full"), times, shape: vec![1024, 1024], structure: FULL.to_vec(), flags });
        }
    }
    let shapes = [vec![64, 128, 128], vec![16, 16, 64, 64]];
    let deep: Vec<_> =
        shapes.iter().flat_map(|s| [1, 10, 30, 50, 70].map(|p| (s, p))).map(|(s, p)| (s, p, noise(r, s.iter().product(), p))).collect();
    for (shape, percent, flags) in &deep {
        let rank = shape.len();
        for (by, structure) in [("cross", drivers::frames::cross(rank)), ("full", vec![1; 3usize.pow(rank as u32)])] {
            let what = format!("rank {rank}, noise {percent}%, {by}");
            cases.push(Case { what, times: times::<u8>, shape: shape.to_vec(), structure, flags });
        }
    }
    println!("others, into u32 numbers: as above");
    table(memory, &cases, tries);
    println!();
}

/// Frames that are hard for a union-find: nanoseconds per run, at three counts of lines, beside noise.
fn hard(memory: &mut Memory, r: &mut Random, tries: usize) {
    let all: Vec<_> = [512, 1024, 2048].iter().map(|&lines| (lines, hard_frames(lines, 1024, r))).collect();
    let mut cases = vec![];
    for at in 0..all[0].1.len() {
        for (lines, frames) in &all {
            let (what, flags, structure) = &frames[at];
            cases.push(Case { what: what.to_string(), times: times::<u8>, shape: vec![*lines, 1024], structure: structure.to_vec(), flags });
        }
    }
    println!(
        "whole frames of 1,024 cells a line, in blocks of {BLOCK} lines: ns per run of ours (of the Rust), at 512, 1,024 and 2,048 lines; ours at 2,048 lines by ours at 512"
    );
    let times = measure(memory, &cases, tries);
    let (mut noise, mut dearest, mut growth) = (f64::MAX, (0f64, ""), 0f64);
    for (c, t) in cases.chunks(3).zip(times.chunks(3)) {
        let each: Vec<(f64, f64)> = t.iter().map(|t| t.per_run()).collect();
        let (what, grown) = (&c[0].what, each[2].0 / each[0].0);
        let text: Vec<String> = each.iter().map(|(ours, rust)| format!("{ours:6.1} ({rust:5.1})")).collect();
        println!("{what:<22} {}   {grown:.2}", text.join(" "));
        growth = growth.max(grown);
        for (ours, _) in each {
            if what.starts_with("noise") {
                noise = noise.min(ours);
            } else if ours > dearest.0 {
                dearest = (ours, what);
            }
        }
    }
    println!(
        "the dearest run of a hard frame ({}) takes {:.2} of the cheapest of noise; with four times the lines a run takes at most {growth:.2} times as long\n",
        dearest.1,
        dearest.0 / noise
    );
}

/// A session of n by n cells, fed line by line.
struct Scan {
    n: usize,
    words: Vec<u32>,
    record: Vec<u64>,
    answer: [u64; ANSWER],
}

impl Scan {
    fn open(n: usize) -> Scan {
        let mut words = vec![0u32; words_needed(&[n, n], &CROSS)];
        let mut record = vec![0u64; unsafe { label_record_words() } as usize];
        let (room, length) = (words.len(), record.len());
        let said = unsafe { label_open([n, n].as_ptr(), 2, CROSS.as_ptr(), 9, words.as_mut_ptr(), room, record.as_mut_ptr(), length) };
        assert_eq!(said, 0);
        Scan { n, words, record, answer: [0; ANSWER] }
    }

    /// Seconds of a feed of `k` lines.
    fn feed(&mut self, k: usize, cells: &[u8]) -> f64 {
        let (r, w, a) = (&mut self.record, &mut self.words, &mut self.answer);
        let t = Instant::now();
        let said = unsafe { u8::FEED(r.as_mut_ptr(), r.len(), w.as_mut_ptr(), w.len(), k, cells.as_ptr(), cells.len(), a.as_mut_ptr(), a.len()) };
        let t = t.elapsed().as_secs_f64();
        assert_eq!(said, 0);
        t
    }

    /// Milliseconds of a reading, or NaN where the kind does not hold n.
    fn read<N: Reads + Default + Clone>(&mut self, tries: usize) -> f64 {
        let mut out = vec![N::default(); self.n * self.n];
        let mut least = f64::NAN;
        for _ in 0..tries {
            let (r, w, a) = (&self.record, &mut self.words, &mut self.answer);
            let t = Instant::now();
            let said = unsafe { N::READ(r.as_ptr(), r.len(), w.as_mut_ptr(), w.len(), out.as_mut_ptr(), out.len(), a.as_mut_ptr(), a.len()) };
            let t = t.elapsed().as_secs_f64() * 1e3;
            assert!(said == 0 || said == 10);
            if said == 0 {
                least = least.min(t);
            }
        }
        least
    }

    /// Milliseconds of a size call. n is in the answer before.
    fn sizes(&mut self, tries: usize) -> f64 {
        let n = (self.answer[1] - self.answer[2]) as usize;
        let mut sizes = vec![0u32; n];
        let mut least = f64::MAX;
        for _ in 0..tries {
            let (r, w, a) = (&self.record, &mut self.words, &mut self.answer);
            let t = Instant::now();
            let said = unsafe { label_sizes(r.as_ptr(), r.len(), w.as_mut_ptr(), w.len(), sizes.as_mut_ptr(), n, a.as_mut_ptr(), a.len()) };
            least = least.min(t.elapsed().as_secs_f64() * 1e3);
            assert_eq!(said, 0);
        }
        least
    }

    /// Milliseconds of a structure change to nine ones. Each unites all lines anew, whatever structure was before.
    fn widen(&mut self, tries: usize) -> f64 {
        let mut least = f64::MAX;
        for _ in 0..tries {
            let (r, w, a) = (&mut self.record, &mut self.words, &mut self.answer);
            let (length, room, places) = (r.len(), w.len(), a.len());
            let t = Instant::now();
            let said = unsafe { label_widen(r.as_mut_ptr(), length, w.as_mut_ptr(), room, FULL.as_ptr(), 9, a.as_mut_ptr(), places) };
            least = least.min(t.elapsed().as_secs_f64() * 1e3);
            assert_eq!(said, 0);
        }
        least
    }

    /// A feed looks at every stored run. A feed of no lines does just that, and changes nothing.
    fn look(&mut self, what: &str, tries: usize) {
        let (mut a, mut b, mut c) = (f64::MAX, f64::MAX, f64::MAX);
        for _ in 0..tries {
            a = a.min(self.feed(0, &[]));
            let stored = &self.words[self.n + 1..][..STRIDE * self.answer[1] as usize];
            let t = Instant::now();
            black_box(four(black_box(stored)));
            b = b.min(t.elapsed().as_secs_f64());
            let t = Instant::now();
            black_box(sum(black_box(stored)));
            c = c.min(t.elapsed().as_secs_f64());
        }
        let runs = self.answer[1];
        let per = |t: f64| t * 1e9 / runs as f64;
        println!("{what}, {:>4} lines, {runs:>6} runs: {:5.2} {:5.2} {:5.2}   {:.1} {:.1}", self.answer[0], per(a), per(b), per(c), a / b, a / c);
    }
}

fn session(r: &mut Random, tries: usize) {
    println!(
        "a session of 1,024 by 1,024 fed line by line, ns per stored run: a feed; a plain read of the four words of each run that a feed looks at;"
    );
    println!("a sum of all stored words, which becomes vector code; then the feed by the one and by the other");
    let n = 1024;
    for percent in [10, 50] {
        let cells = noise(r, n * n, percent);
        let mut scan = Scan::open(n);
        let mut whole = 0f64;
        for line in 0..n {
            whole += scan.feed(1, &cells[line * n..(line + 1) * n]);
            if [16, 64, 256, 512, 1024].contains(&(line + 1)) {
                scan.look(&format!("noise {percent}%"), 10 * tries);
            }
        }
        println!("noise {percent}%, all {n} feeds together: {:.1} ms", whole * 1e3);
    }
}

/// A reading, a size call and a structure change look at every stored run too.
fn readings(r: &mut Random, tries: usize) {
    println!("a session of 1,024 by 1,024, all lines fed under the cross, ms: a feed of no lines; a reading into u8, u16, u32 (NaN: the");
    println!("kind does not hold n); a size call; a structure change to nine ones, which unites all lines again");
    let n = 1024;
    let clumps = [2, 10, 40].map(|percent| (format!("clumps {percent}%"), disks(r, n, percent)));
    let dense = [10, 50].map(|percent| (format!("noise {percent}%"), noise(r, n * n, percent)));
    for (what, cells) in clumps.into_iter().chain(dense) {
        let mut scan = Scan::open(n);
        scan.feed(n, &cells);
        let look = (0..tries).fold(f64::MAX, |least, _| least.min(scan.feed(0, &[]))) * 1e3;
        let (runs, joins) = (scan.answer[1], scan.answer[2]);
        let (a, b, c, sizes) = (scan.read::<u8>(tries), scan.read::<u16>(tries), scan.read::<u32>(tries), scan.sizes(tries));
        // the last, as it changes the groups
        let widen = scan.widen(tries);
        println!("{what}, {runs:>6} runs, n {:>6}: {look:6.3} {a:6.3} {b:6.3} {c:6.3} {sizes:6.3} {widen:6.3}", runs - joins);
    }
}

/// Start, end, parent and size of each run.
#[inline(never)]
fn four(stored: &[u32]) -> u32 {
    let mut s = 0u32;
    for r in 0..stored.len() / STRIDE {
        let at = STRIDE * r;
        s = s.wrapping_add(stored[at]).wrapping_add(stored[at + END]).wrapping_add(stored[at + PARENT]).wrapping_add(stored[at + SIZE]);
    }
    s
}

#[inline(never)]
fn sum(stored: &[u32]) -> u32 {
    stored.iter().fold(0, |s: u32, &w| s.wrapping_add(w))
}

fn main() {
    let folder = std::env::args().nth(1);
    let tries = 40;
    let mut r = Random(0x9e3779b97f4a7c15);
    reference::set_num_threads(1);
    let frames = drawn(&mut r);
    let mut memory = Memory::default();
    fourteen(&mut memory, &frames, folder.as_deref(), 2 * tries);
    others(&mut memory, &mut r, &frames, tries / 2);
    hard(&mut memory, &mut r, tries / 2);
    session(&mut r, tries);
    readings(&mut r, 5 * tries);
}
