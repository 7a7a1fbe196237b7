//! Structure changes: a session goes on under a wider structure. What is returned is held to the documents' rule, and afterwards everything
//! to the Rust under the new structure. A refusal changes nothing.

use super::{Held, Session};
use crate::one::Fault;
use crate::ours::{ANSWER, label_widen};
use drivers::frames::{below, make_lopsided, make_narrower, nonzero, one_of, structure, symmetric, wider};
use drivers::lent::Lent;
use drivers::plain::{PARENT, SIZE, change_number, run_word};
use drivers::random::Random;
use drivers::tally::Tally;

/// Where the pairs of structures are counted.
const PAIRS: &str = "structure changes, of all structures to all";

impl Session {
    /// A structure to follow that of the session: mostly wider; or one that is refused, for one cause or for several.
    fn another(&self, r: &mut Random) -> Vec<u8> {
        let mut new = wider(r, &self.structure);
        let what = below(r, 10);
        if what == 0 || what == 1 {
            make_narrower(r, &self.structure, &mut new);
        }
        if what == 1 || what == 2 {
            make_lopsided(r, &mut new);
        }
        match below(r, 24) {
            0 => new.push(nonzero(r)),
            1 => new.truncate(below(r, new.len())),
            2 => new = structure(r, 1 + self.shape.len() % 4),
            _ => {}
        }
        new
    }

    /// A sound record of another origin, of the same runs: any grouping, sizes that add up to the total, any bytes past the structure.
    fn regroup(&mut self, r: &mut Random) {
        let (runs, lines) = (self.runs.at.len(), self.lines);
        let place = |run: usize, i: usize| run_word(lines, run, i);
        let words = self.words.now_mut();
        let mut roots = Vec::new();
        for run in 0..runs {
            let parent = if below(r, 3) == 0 { run } else { below(r, run + 1) };
            words[place(run, PARENT)] = parent as u32;
            words[place(run, SIZE)] = if parent == run { 0 } else { r.next() as u32 };
            if parent == run {
                roots.push(run);
            }
        }
        let record = self.record.now_mut();
        if runs > 0 {
            words[place(one_of(r, &roots), SIZE)] = record[89] as u32;
        }
        record[88] = (runs - roots.len()) as u64;
        record[5 + self.structure.len()..86].iter_mut().for_each(|w| *w = below(r, 256) as u64);
        self.words.keep();
        self.record.keep();
    }

    /// The change to `new`, and what it should return.
    fn change_to(&mut self, r: &mut Random, new: Vec<u8>) -> (u32, Held) {
        let want = change_number(&self.structure, &new);
        let (words, record) = (self.words.now().to_vec(), self.record.now().to_vec());
        let other = below(r, 4) == 0;
        if other {
            self.regroup(r);
        }
        let places = ANSWER + below(r, 2);
        let mut answer = Lent::new(places, || r.next());
        self.calls.push(format!("change to {new:?}{}", if other { ", of another grouping" } else { "" }));
        let (length, room) = (self.record.len(), self.words.len());
        let (r, w, a) = (self.record.pointer(), self.words.pointer(), answer.pointer());
        // SAFETY: each pointer is good for its count
        let number = unsafe { label_widen(r, length, w, room, new.as_ptr(), new.len(), a, places) };
        if want == 0 {
            // the fault leaves the old structure for this
            if self.fault != Fault::Structure {
                self.structure.clone_from(&new);
            }
            self.relabel();
            self.structure = new;
        }
        let held = self.hold(number, want, &mut answer, self.fed as u64, false, true);
        if other && want != 0 {
            self.words.now_mut().copy_from_slice(&words);
            self.record.now_mut().copy_from_slice(&record);
            self.words.keep();
            self.record.keep();
        }
        (want, held)
    }

    pub fn change(&mut self, r: &mut Random) -> (&'static str, Held) {
        let new = self.another(r);
        let (want, held) = self.change_to(r, new);
        let name = match want {
            0 => "widen",
            2 => "widen: 2",
            12 => "widen: 12",
            _ => "widen: 19",
        };
        (name, held)
    }
}

/// The structure of so many bytes whose set bytes are the bits of `s`.
fn by_bits(r: &mut Random, n: usize, s: usize) -> Vec<u8> {
    (0..n).map(|i| if s >> i & 1 == 1 { nonzero(r) } else { 0 }).collect()
}

/// A session with lines fed, changed, and fed and read again; what is wrong with it, if anything.
fn one(r: &mut Random, shape: Vec<usize>, old: &[u8], new: &[u8], fault: Fault) -> Option<String> {
    let mut s = match Session::open(r, shape, old.to_vec(), fault) {
        Ok(s) => s,
        Err(e) => return Some(e),
    };
    let mut held = s.feed::<u8>(r).and_then(|()| s.feed::<u16>(r)).and_then(|()| s.feed::<i16>(r));
    held = held.and_then(|()| s.change_to(r, new.to_vec()).1);
    for _ in 0..2 {
        held = held.and_then(|()| s.feed::<f32>(r)).and_then(|()| s.read::<u16>(r)).and_then(|()| s.sizes(r));
    }
    held.err().map(|e| super::tell(&s, &e))
}

/// Each symmetric structure of rank 1 and 2, changed to each structure of its rank: once, or often where that is symmetric too.
pub fn all(t: &mut Tally, r: &mut Random, _frames: usize, fault: Fault) {
    reference::set_num_threads(1);
    for (rank, n) in [(1, 3), (2, 9)] {
        for bits in 0..1usize << (2 * n) {
            let (old, new) = (by_bits(r, n, bits >> n), by_bits(r, n, bits));
            if !symmetric(&old) {
                continue;
            }
            for _ in 0..if symmetric(&new) { 16 } else { 1 } {
                let shape = (0..rank).map(|_| 1 + below(r, 6)).collect();
                t.add(PAIRS, change_number(&old, &new), 1);
                if let Some(told) = one(r, shape, &old, &new, fault) {
                    t.differs(|| told);
                }
            }
        }
    }
}
