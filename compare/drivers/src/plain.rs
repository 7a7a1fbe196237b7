//! The documents' definitions that need no labelling: the words needed, the runs, and what the words hold after a call.

use crate::frames::symmetric;
use std::collections::HashMap;

/// Each run has STRIDE words. Counted from its first, which holds its start, END holds its end (one past), PARENT its parent, NAME its name
/// and SIZE, at a root, its group's cell count.
pub const STRIDE: usize = 5;
pub const END: usize = 1;
pub const PARENT: usize = 2;
pub const NAME: usize = 3;
pub const SIZE: usize = 4;

/// Where word `i` of a run is, in a frame of so many lines.
pub fn run_word(lines: usize, run: usize, i: usize) -> usize {
    lines + 1 + STRIDE * run + i
}

pub fn left_byte(structure: &[u8]) -> bool {
    structure[structure.len() / 2 - 1] != 0
}

pub fn words_needed(shape: &[usize], structure: &[u8]) -> usize {
    let w = shape[shape.len() - 1];
    let lines: usize = shape[..shape.len() - 1].iter().product();
    let h = if left_byte(structure) { w.div_ceil(2) } else { w };
    lines + 1 + STRIDE * lines * h
}

/// What a structure change returns, of a structure that is held and of the new one: 2, 12, 19 or 0.
pub fn change_number(old: &[u8], new: &[u8]) -> u32 {
    if new.len() != old.len() {
        return 2;
    }
    if !symmetric(new) {
        return 12;
    }
    let dropped = old.iter().zip(new).any(|(&o, &n)| o != 0 && n == 0);
    if left_byte(old) != left_byte(new) || dropped { 19 } else { 0 }
}

/// The runs of the lines fed, in order, and the count of runs before each line.
pub struct Runs {
    pub before: Vec<u32>,
    pub at: Vec<(usize, u32, u32)>,
}

/// A cell begins a run if it is set and, where the left byte is set, none is set at its left in its line.
pub fn runs(set: &[bool], w: usize, left: bool) -> Runs {
    let mut r = Runs { before: vec![0], at: Vec::new() };
    let lines = if w == 0 { 0 } else { set.len() / w };
    for l in 0..lines {
        let line = &set[l * w..(l + 1) * w];
        for x in 0..w {
            if !line[x] || left && x > 0 && line[x - 1] {
                continue;
            }
            let more = if left { line[x + 1..].iter().take_while(|&&s| s).count() } else { 0 };
            r.at.push((l, x as u32, (x + 1 + more) as u32));
        }
        r.before.push(r.at.len() as u32);
    }
    r
}

/// What a call did to the words.
pub struct Did<'a> {
    pub lines: usize,
    pub fed: usize,
    pub runs: &'a Runs,
    pub w: usize,
    /// The number of each cell, by the grouping of the lines fed.
    pub labels: &'a [u32],
    /// The call set names.
    pub named: bool,
    /// The call may change parents and sizes.
    pub united: bool,
}

/// What differs from the documents, if anything: starts, runs, names, the sizes of roots, every other word; and of parents, that each is at
/// most its own run and that a group's root is its smallest run. The size of a run that is no root is free.
pub fn words_differ(d: &Did, was: &[u32], now: &[u32]) -> Option<String> {
    let mut want = was.to_vec();
    for l in 0..=d.fed {
        want[l] = if d.w == 0 { 0 } else { d.runs.before[l] };
    }
    let (mut first, mut cells) = (HashMap::new(), HashMap::new());
    for &label in d.labels {
        *cells.entry(label).or_insert(0u32) += 1;
    }
    for (r, &(line, start, end)) in d.runs.at.iter().enumerate() {
        let label = d.labels[line * d.w + start as usize];
        let root = *first.entry(label).or_insert(r);
        let at = run_word(d.lines, r, 0);
        want[at] = start;
        want[at + END] = end;
        if d.named {
            want[at + NAME] = label;
        }
        if d.united {
            want[at + PARENT] = now[at + PARENT];
            want[at + SIZE] = now[at + SIZE];
        }
        if r == root {
            want[at + SIZE] = cells[&label];
        }
        let (mut p, mut q) = (r, now[at + PARENT] as usize);
        while q < p {
            (p, q) = (q, now[run_word(d.lines, q, PARENT)] as usize);
        }
        if q != p || p != root {
            return Some(format!("the parents of run {r} lead to {q}, and its group's smallest run is {root}"));
        }
    }
    let i = (0..want.len()).find(|&i| want[i] != now[i])?;
    Some(format!("word {i} is {}, and should be {}", now[i], want[i]))
}
