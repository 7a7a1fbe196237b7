//! Random frames: shapes, structures, cells.

use crate::kinds::Cell;
use crate::random::Random;

pub fn below(r: &mut Random, n: usize) -> usize {
    r.next() as usize % n
}

pub fn one_of<T: Copy>(r: &mut Random, of: &[T]) -> T {
    of[below(r, of.len())]
}

pub fn lines(shape: &[usize]) -> usize {
    shape[..shape.len() - 1].iter().product()
}

pub fn size(shape: &[usize]) -> usize {
    shape.iter().product()
}

/// Widths that a mask of 64 cells may get wrong.
pub const WIDE: [usize; 9] = [62, 63, 64, 65, 66, 127, 128, 129, 192];

/// A symmetric structure: none, all, the cross of SciPy, one pair of bytes, or sparse or dense random ones, their left byte zero, set or as
/// drawn. In half of them a byte that is set has any value, so that those of a pair differ.
pub fn structure(r: &mut Random, rank: usize) -> Vec<u8> {
    let n = 3usize.pow(rank as u32);
    let middle = n / 2;
    let percent = one_of(r, &[3, 10, 30, 60, 90]);
    let mut s = vec![0u8; n];
    match below(r, 12) {
        0 => {}
        1 => s = vec![1; n],
        2 => s = cross(rank),
        3 | 4 => s[below(r, middle + 1)] = 1,
        _ => {
            for b in s[..=middle].iter_mut() {
                *b = (r.next() % 100 < percent) as u8;
            }
            match below(r, 4) {
                0 => s[middle - 1] = 0,
                1 => s[middle - 1] = 1,
                _ => {}
            }
        }
    }
    for k in 0..middle {
        s[n - 1 - k] = s[k];
    }
    if below(r, 2) == 0 {
        for b in s.iter_mut().filter(|b| **b != 0) {
            *b = nonzero(r);
        }
    }
    s
}

/// The value of a byte that is set.
pub fn nonzero(r: &mut Random) -> u8 {
    1 + below(r, 255) as u8
}

/// Each byte is zero where its mirror is, and nowhere else.
pub fn symmetric(s: &[u8]) -> bool {
    (0..s.len()).all(|i| (s[i] == 0) == (s[s.len() - 1 - i] == 0))
}

/// Makes a symmetric structure lopsided: one byte of a pair is set, or cleared.
pub fn make_lopsided(r: &mut Random, s: &mut [u8]) {
    let k = below(r, s.len() - 1);
    let at = k + (k >= s.len() / 2) as usize;
    s[at] = if s[at] == 0 { nonzero(r) } else { 0 };
}

/// A symmetric structure that may follow `s`, which is symmetric: with more pairs set, or the centre, none of them the left byte's. In half
/// of them the bytes that are set have other values.
pub fn wider(r: &mut Random, s: &[u8]) -> Vec<u8> {
    let (middle, last) = (s.len() / 2, s.len() - 1);
    let percent = one_of(r, &[0, 10, 50, 100]);
    let mut new = s.to_vec();
    for k in (0..=middle).filter(|&k| k + 1 != middle) {
        if new[k] == 0 && r.next() % 100 < percent {
            (new[k], new[last - k]) = (1, 1);
        }
    }
    if below(r, 2) == 0 {
        for b in new.iter_mut().filter(|b| **b != 0) {
            *b = nonzero(r);
        }
    }
    new
}

/// Makes a symmetric structure one that may not follow `s`: a pair that `s` has, or its centre, is cleared, or the left byte's comes or
/// goes.
pub fn make_narrower(r: &mut Random, s: &[u8], new: &mut [u8]) {
    let (middle, last) = (s.len() / 2, s.len() - 1);
    let set: Vec<usize> = (0..=middle).filter(|&k| s[k] != 0).collect();
    let k = if set.is_empty() || below(r, 3) == 0 { middle - 1 } else { one_of(r, &set) };
    let value = if new[k] == 0 { nonzero(r) } else { 0 };
    (new[k], new[last - k]) = (value, value);
}

/// SciPy's default: the offsets with at most one coordinate that is not 0.
pub fn cross(rank: usize) -> Vec<u8> {
    (0..3usize.pow(rank as u32))
        .map(|k| ((0..rank).filter(|&d| k / 3usize.pow(d as u32) % 3 != 1).count() < 2) as u8)
        .collect()
}

/// The codes of `n` cells of a kind, at one of several densities: each cell by itself, or in stretches.
pub fn codes<C: Cell>(r: &mut Random, n: usize) -> Vec<u8> {
    let percent = one_of(r, &[0, 1, 5, 15, 30, 45, 60, 80, 95, 100]);
    let stretch = one_of(r, &[1, 1, 2, 5, 20]);
    let mut set = false;
    (0..n)
        .map(|_| {
            if below(r, stretch) == 0 {
                set = r.next() % 100 < percent;
            }
            one_of(r, if set { C::OTHERS } else { C::ZEROS })
        })
        .collect()
}

/// `n` cells: half of those that are set have any bits.
pub fn cells<C: Cell>(r: &mut Random, n: usize) -> Vec<C> {
    let codes = codes::<C>(r, n);
    codes
        .iter()
        .map(|&code| {
            let (c, any) = (C::coded(code), C::bits((r.next() ^ (r.next() << 16)) as u32));
            if !c.zero() && !any.zero() && below(r, 2) == 0 { any } else { c }
        })
        .collect()
}

/// A shape: mostly small, with widths around those of a mask, with leading dimensions of 1, or larger; no leading dimension is 0.
pub fn shape(r: &mut Random, rank: usize) -> Vec<usize> {
    let (lead, w) = match below(r, 20) {
        0..9 => ([0, 0, 7, 5, 3][rank], below(r, 10)),
        9..12 => (2, below(r, 4)),
        12..17 => ([0, 0, 4, 2, 2][rank], one_of(r, &WIDE)),
        17..19 => ([0, 0, 40, 7, 4][rank], 1 + below(r, 40)),
        _ => ([0, 0, 3, 2, 1][rank], 200 + below(r, 800)),
    };
    let mut s: Vec<usize> = (1..rank).map(|_| 1 + below(r, lead)).collect();
    s.push(w);
    s
}

/// A frame.
#[derive(Clone)]
pub struct Frame<C> {
    pub shape: Vec<usize>,
    pub structure: Vec<u8>,
    pub cells: Vec<C>,
}

impl<C: Cell> Frame<C> {
    pub fn random(r: &mut Random, rank: usize) -> Frame<C> {
        let shape = shape(r, rank);
        Frame { structure: structure(r, rank), cells: cells(r, size(&shape)), shape }
    }

    /// Without one index of dimension `d`.
    fn without(&self, d: usize, index: usize) -> Frame<C> {
        let inner: usize = self.shape[d + 1..].iter().product();
        let n = self.shape[d];
        let mut shape = self.shape.clone();
        shape[d] -= 1;
        let kept = |i: &usize| i / inner % n != index;
        let cells = (0..self.cells.len()).filter(kept).map(|i| self.cells[i]).collect();
        Frame { shape, structure: self.structure.clone(), cells }
    }

    /// Frames that are smaller by one thing: the last or the first index of a dimension, a cell, a structure byte with its mirror.
    pub fn smaller(&self) -> Vec<Frame<C>> {
        let last = self.shape.len() - 1;
        let mut all: Vec<Frame<C>> = Vec::new();
        for d in (0..=last).filter(|&d| self.shape[d] > (d < last) as usize) {
            all.push(self.without(d, self.shape[d] - 1));
            all.push(self.without(d, 0));
        }
        for i in (0..self.cells.len()).filter(|&i| !self.cells[i].zero()) {
            let mut f = self.clone();
            f.cells[i] = C::coded(b'0');
            all.push(f);
        }
        let bytes = self.structure.len();
        for i in (0..=bytes / 2).filter(|&i| self.structure[i] != 0) {
            let mut f = self.clone();
            f.structure[i] = 0;
            f.structure[bytes - 1 - i] = 0;
            all.push(f);
        }
        all
    }
}
