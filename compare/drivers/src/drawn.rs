//! Frames that are drawn, for the measurements.

use crate::random::Random;

pub const CROSS: [u8; 9] = [0, 1, 0, 1, 1, 1, 0, 1, 0];
pub const FULL: [u8; 9] = [1; 9];
/// The left byte is zero: every nonzero cell is a run.
pub const APART: [u8; 9] = [1, 1, 1, 0, 1, 0, 1, 1, 1];

pub fn noise(r: &mut Random, cells: usize, percent: u64) -> Vec<u8> {
    (0..cells).map(|_| (r.next() % 100 < percent) as u8).collect()
}

/// Disks of radius 3 to 12 at random places, until so many percent of the cells are set.
pub fn disks(r: &mut Random, n: usize, percent: usize) -> Vec<u8> {
    let mut c = vec![0u8; n * n];
    let mut set = 0;
    while set * 100 < percent * n * n {
        let q = 3 + (r.next() % 10) as i64;
        let (y, x) = ((r.next() % n as u64) as i64, (r.next() % n as u64) as i64);
        for (a, b) in (-q..=q)
            .flat_map(|dy| (-q..=q).map(move |dx| (dy, dx)))
            .filter(|(dy, dx)| dy * dy + dx * dx <= q * q)
        {
            let (a, b) = (y + a, x + b);
            if (0..n as i64).contains(&a) && (0..n as i64).contains(&b) {
                let at = a as usize * n + b as usize;
                set += (c[at] == 0) as usize;
                c[at] = 1;
            }
        }
    }
    c
}

pub fn by(lines: usize, width: usize, f: impl Fn(usize, usize) -> bool) -> Vec<u8> {
    (0..lines * width).map(|p| f(p / width, p % width) as u8).collect()
}

/// One line of cells from the border to the middle, a blank line beside it.
pub fn spiral(lines: usize, width: usize) -> Vec<u8> {
    let mut c = vec![0u8; lines * width];
    let (mut top, mut left, mut bottom, mut right) = (0i64, 0i64, lines as i64 - 1, width as i64 - 1);
    let mut from = 0;
    while top <= bottom && left <= right {
        for x in from..=right {
            c[(top * width as i64 + x) as usize] = 1;
        }
        for y in top..=bottom {
            c[(y * width as i64 + right) as usize] = 1;
        }
        if top < bottom {
            for x in left..=right {
                c[(bottom * width as i64 + x) as usize] = 1;
            }
        }
        if left < right {
            for y in top + 2..=bottom {
                c[(y * width as i64 + left) as usize] = 1;
            }
        }
        from = left;
        (top, left, bottom, right) = (top + 2, left + 2, bottom - 2, right - 2);
    }
    c
}

/// Noise, then frames that are hard for a union-find: their names, cells and structures.
pub fn hard_frames(lines: usize, width: usize, r: &mut Random) -> Vec<(&'static str, Vec<u8>, [u8; 9])> {
    let n = noise(r, lines * width, 50);
    vec![
        ("noise 50%, cross", n.clone(), CROSS),
        ("noise 50%, full", n, FULL),
        ("comb joined below", by(lines, width, |y, x| x % 2 == 0 || y == lines - 1), CROSS),
        ("comb joined above", by(lines, width, |y, x| x % 2 == 0 || y == 0), CROSS),
        (
            "combs one in another",
            by(lines, width, |y, x| y % 8 == 7 || x % (2 << (y % 8 / 2)) == 0),
            CROSS,
        ),
        ("spiral", spiral(lines, width), CROSS),
        ("stairs", by(lines, width, |y, x| (x + y) % 4 < 2), CROSS),
        ("stairs to the left", by(lines, width, |y, x| (x + width - y % 4) % 4 < 2), FULL),
        ("checkerboard", by(lines, width, |y, x| (x + y) % 2 == 0), FULL),
        ("one-cell runs", by(lines, width, |_, _| true), APART),
    ]
}
