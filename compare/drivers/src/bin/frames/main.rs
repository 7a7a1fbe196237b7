// This repository's calls beside the Rust's label_impl: the same frames to both, and every answer held against the other. Build and run it by
// compare/frames. What it compares is told where it is done: here, small.rs, large.rs, lopsided.rs, refusals.rs, session.rs, and
// session/changes.rs.
#[path = "../../ours.rs"]
#[macro_use]
mod ours;
mod large;
mod lopsided;
mod one;
mod refusals;
mod session;
mod small;

use drivers::frames::{Frame, below, lines, make_lopsided};
use drivers::random::Random;
use drivers::tally::Tally;
use one::{Fault, compare};
use ours::{Labels, Reads};
use std::time::Instant;

const SEED: u64 = 0x2545_f491_4f6c_dd1d;
const FRAMES: usize = 240_000;
const THREADS: [usize; 4] = [1, 2, 3, 8];

/// One random frame, for every block count if its lines are few. One in four is tried for 12 besides, made lopsided.
fn random_frame<C: Labels<N>, N: Reads>(t: &mut Tally, r: &mut Random, rank: usize, threads: usize, fault: Fault) {
    let mut f = Frame::<C>::random(r, rank);
    let l = lines(&f.shape);
    let blocks: Vec<usize> = if l <= 12 { (0..=l + 1).collect() } else { (0..3).map(|_| below(r, l + 2)).collect() };
    let core = below(r, 8) == 0;
    compare::<C, N>(t, r, &f, threads, &blocks, core, fault);
    if below(r, 4) == 0 {
        make_lopsided(r, &mut f.structure);
        lopsided::refused::<C, N>(t, r, &f, fault);
    }
}

fn random_frames(t: &mut Tally, r: &mut Random, frames: usize, fault: Fault) {
    for threads in THREADS {
        reference::set_num_threads(threads);
        for i in 0..frames / THREADS.len() {
            for_pair!(i / 4, random_frame(t, r, 1 + i % 4, threads, fault));
        }
    }
}

/// A number in the arguments, or what it is by default.
fn number(at: usize, default: u64) -> u64 {
    std::env::args().nth(at).map_or(default, |s| s.parse().expect("a number"))
}

fn main() {
    let (seed, frames) = (number(1, SEED), number(2, FRAMES as u64) as usize);
    let fault = Fault::from_environment();
    let mut r = Random(seed.max(1));
    let mut t = Tally::default();
    reference::set_par_min(0);
    for (name, part) in [
        ("small frames, all of them", small::all as fn(&mut Tally, &mut Random, usize, Fault)),
        ("random frames", random_frames),
        ("large frames", large::all),
        ("refusals", refusals::all),
        ("sessions", session::all),
        ("structure changes", session::changes::all),
    ] {
        let (start, before) = (Instant::now(), t.differed);
        part(&mut t, &mut r, frames, fault);
        eprintln!("{name}: {:.1} s, {} differed", start.elapsed().as_secs_f64(), t.differed - before);
    }
    println!("seed {seed}; {} frames, and {} tried for 12", t.count("frames, by rank"), t.count(lopsided::TRIED));
    t.print();
    std::process::exit((t.differed > 0) as i32);
}
