//! Large frames, at the Rust's own least size for blocks and above it: noise, stretches, and patterns that are hard for a union-find.

use crate::THREADS;
use crate::one::{Fault, compare};
use crate::ours::{Labels, Reads};
use drivers::frames::{Frame, below, cells, cross, lines, one_of, size, structure};
use drivers::random::Random;
use drivers::tally::Tally;

/// From how many cells on the Rust makes blocks.
const PAR_MIN: usize = 1 << 18;

/// Whether a cell of a plane of `h` lines is set.
type Pattern = fn(y: usize, x: usize, h: usize, w: usize) -> bool;

const PATTERNS: [(&str, Pattern); 6] = [
    ("comb", |y, x, h, _| x % 2 == 0 || y == h - 1),
    ("comb turned over", |y, x, _, _| x % 2 == 0 || y == 0),
    ("checkerboard", |y, x, _, _| (x + y) % 2 == 0),
    ("stairs", |y, x, _, _| (x + y) % 4 < 2),
    ("spiral", |y, x, h, w| {
        let ring = y.min(x).min(h - 1 - y).min(w - 1 - x);
        (ring % 2 == 0) != (x == ring && y == ring + 1)
    }),
    ("all set", |_, _, _, _| true),
];

fn large<C: Labels<N>, N: Reads>(t: &mut Tally, r: &mut Random, threads: usize, fault: Fault) {
    let shapes: [&[usize]; 9] = [&[512, 512], &[511, 513], &[700, 500], &[3, 100000], &[100000, 3], &[64, 64, 65], &[7, 300, 129], &[6, 20, 40, 63], &[300001]];
    let shape = one_of(r, &shapes);
    let rank = shape.len();
    let (h, w) = (lines(shape), shape[rank - 1]);
    let which = below(r, 2 * PATTERNS.len());
    let cells: Vec<C> = match PATTERNS.get(which) {
        Some((name, p)) => {
            t.add("large frames", name, 1);
            (0..size(shape)).map(|i| C::coded(if p(i / w, i % w, h, w) { one_of(r, C::OTHERS) } else { b'0' })).collect()
        }
        None => {
            t.add("large frames", "noise", 1);
            cells(r, size(shape))
        }
    };
    let structure = match below(r, 3) {
        0 => cross(rank),
        1 => vec![1; 3usize.pow(rank as u32)],
        _ => structure(r, rank),
    };
    let blocks = [1, 2 + below(r, 20), h + 1];
    compare::<C, N>(t, r, &Frame { shape: shape.to_vec(), structure, cells }, threads, &blocks, false, fault);
}

pub fn all(t: &mut Tally, r: &mut Random, frames: usize, fault: Fault) {
    reference::set_par_min(PAR_MIN);
    for threads in THREADS {
        reference::set_num_threads(threads);
        for k in 0..(frames / 3000).clamp(3, 120) {
            for_pair!(k, large(t, r, threads, fault));
        }
    }
    reference::set_par_min(0);
}
