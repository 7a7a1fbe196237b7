//! Every frame of a small shape, with every symmetric structure where they are few. Every lopsided one of rank 1 and 2 is tried for 12.

use crate::lopsided::refused;
use crate::one::{Fault, compare};
use crate::ours::{Labels, Reads};
use drivers::frames::{Frame, below, lines, nonzero, one_of, size, structure, symmetric};
use drivers::kinds::Cell;
use drivers::random::Random;
use drivers::tally::Tally;

fn one<C: Labels<N>, N: Reads>(t: &mut Tally, r: &mut Random, shape: &[usize], structure: &[u8], bits: usize, threads: usize, fault: Fault) {
    let cell = |i: usize, r: &mut Random| C::coded(one_of(r, if bits >> i & 1 == 1 { C::OTHERS } else { <C as Cell>::ZEROS }));
    let cells = (0..size(shape)).map(|i| cell(i, r)).collect();
    let most = lines(shape) + 1;
    // every block count, or for a cube one of them, as there are so many cubes
    let blocks: Vec<usize> = if *shape == [2, 2, 2] { vec![bits % (most + 1)] } else { (0..=most).collect() };
    let f = Frame { shape: shape.to_vec(), structure: structure.to_vec(), cells };
    compare::<C, N>(t, r, &f, threads, &blocks, false, fault);
}

/// All cells of a shape with one structure; the kinds in turn.
fn cells(t: &mut Tally, r: &mut Random, shape: &[usize], structure: &[u8], threads: usize, fault: Fault) {
    for bits in 0..1usize << size(shape) {
        let pair = r.next() as usize;
        for_pair!(pair, one(t, r, shape, structure, bits, threads, fault));
    }
    t.add("small shapes, all cells, with so many structures", format!("{shape:?}"), 1);
}

fn lopsided<C: Labels<N>, N: Reads>(t: &mut Tally, r: &mut Random, shape: &[usize], structure: Vec<u8>, fault: Fault) {
    let cells = drivers::frames::cells(r, size(shape));
    refused::<C, N>(t, r, &Frame { shape: shape.to_vec(), structure, cells }, fault);
}

fn structures(t: &mut Tally, r: &mut Random, shape: &[usize], threads: usize, fault: Fault) {
    let n = 3usize.pow(shape.len() as u32);
    for s in 0..1usize << n {
        let structure: Vec<u8> = (0..n).map(|i| if s >> i & 1 == 1 { nonzero(r) } else { 0 }).collect();
        if symmetric(&structure) {
            cells(t, r, shape, &structure, threads, fault);
        } else {
            for_pair!(s, lopsided(t, r, shape, structure, fault));
        }
    }
}

/// The bytes of rank 3 that a labelling may look at are the first: those of backward leading offsets, then the left byte.
const LOOKED_AT: usize = 13;

/// All cells of 2 by 2 by 2, with every symmetric structure; its centre, which does not matter, is random.
fn cubes(t: &mut Tally, r: &mut Random, fault: Fault) {
    for s in 0..1usize << LOOKED_AT {
        let s = s | below(r, 2) << LOOKED_AT;
        let structure: Vec<u8> = (0..27usize).map(|i| if s >> i.min(26 - i) & 1 == 1 { nonzero(r) } else { 0 }).collect();
        cells(t, r, &[2, 2, 2], &structure, 1, fault);
    }
}

pub fn all(t: &mut Tally, r: &mut Random, frames: usize, fault: Fault) {
    let few = frames < 100_000;
    for threads in [1, 3] {
        reference::set_num_threads(threads);
        for w in 0..=8 {
            structures(t, r, &[w], threads, fault);
        }
        for shape in [[1, 3], [2, 2], [2, 3], [3, 2], [4, 1]] {
            structures(t, r, &shape, threads, fault);
        }
        if few {
            continue;
        }
        if threads == 1 {
            structures(t, r, &[3, 3], threads, fault);
            structures(t, r, &[3, 4], threads, fault);
            cubes(t, r, fault);
        } else {
            structures(t, r, &[2, 4], threads, fault);
            structures(t, r, &[4, 3], threads, fault);
        }
        let shapes: [(&[usize], usize); 6] =
            [(&[2, 2, 2], 100), (&[2, 3, 1], 100), (&[3, 1, 2], 100), (&[1, 2, 3], 100), (&[2, 2, 2, 1], 100), (&[2, 1, 2, 2], 100)];
        for (shape, many) in shapes {
            for _ in 0..many {
                let s = structure(r, shape.len());
                cells(t, r, shape, &s, threads, fault);
            }
        }
    }
}
