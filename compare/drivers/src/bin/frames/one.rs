//! One frame, given to both.

use crate::ours::{ANSWER, Labels, Reads};
use drivers::frames::{Frame, below, lines, symmetric};
use drivers::kinds::{Cell, Number};
use drivers::lent::Lent;
use drivers::plain::{Did, Runs, SIZE, left_byte, run_word, runs, words_differ, words_needed};
use drivers::random::Random;
use drivers::tally::Tally;

/// A fault put into what we answered, to see that it is found: it shows what the comparison looks at.
#[derive(Clone, Copy, PartialEq)]
pub enum Fault {
    No,
    Label,
    Count,
    Runs,
    Joins,
    Cells,
    Refusal,
    Word,
    Size,
    Edge,
    /// After a structure change the old structure's groups are expected.
    Structure,
}

impl Fault {
    pub fn from_environment() -> Fault {
        match std::env::var("COMPARE_FAULT").as_deref() {
            Err(_) => Fault::No,
            Ok("label") => Fault::Label,
            Ok("count") => Fault::Count,
            Ok("runs") => Fault::Runs,
            Ok("joins") => Fault::Joins,
            Ok("cells") => Fault::Cells,
            Ok("refusal") => Fault::Refusal,
            Ok("word") => Fault::Word,
            Ok("size") => Fault::Size,
            Ok("edge") => Fault::Edge,
            Ok("structure") => Fault::Structure,
            Ok(other) => panic!("COMPARE_FAULT is label, count, runs, joins, cells, refusal, word, size, edge or structure, not {other}"),
        }
    }
}

/// What the Rust answers: n, or none, and its output.
pub struct Theirs<N> {
    pub n: Option<u64>,
    pub out: Vec<N>,
}

/// By label_impl, or by label_core over arrays of the stub.
pub fn theirs<C: Cell, N: Number>(f: &Frame<C>, mut out: Vec<N>, threads: usize, core: bool) -> Theirs<N> {
    if !core {
        let n = reference::label_impl(&f.shape, &f.structure, &f.cells, &mut out, threads);
        return Theirs { n, out };
    }
    // SAFETY: both outlive the call, and the input is only read
    let n = unsafe {
        let input = numpy::array(f.cells.as_ptr().cast_mut(), &f.shape, true);
        let output = numpy::array(out.as_mut_ptr(), &f.shape, true);
        reference::label_core(pyo3::Python::stub(), &input, f.structure.clone(), &output)
    };
    Theirs { n: n.expect("arrays of kinds that the Rust takes"), out }
}

/// The arguments of a call, lengths and all.
pub struct Call<'a, C> {
    pub shape: &'a [usize],
    pub structure: &'a [u8],
    pub cells: &'a [C],
    pub places: usize,
    pub room: usize,
    pub answer: usize,
}

impl<C> Call<'_, C> {
    /// Our whole frame on them.
    pub fn frame<N: Reads>(&self, r: &mut Random, blocks: usize) -> Ours<N>
    where
        C: Labels<N>,
    {
        let mut words = Lent::new(self.room, || r.next() as u32);
        let mut out = Lent::new(self.places, || N::filled(r));
        let mut answer = Lent::new(self.answer, || r.next());
        let (shape, structure, cells) = (self.shape, self.structure, self.cells);
        // SAFETY: each pointer is good for its count
        let number = unsafe {
            C::FRAME(
                shape.as_ptr(),
                shape.len(),
                structure.as_ptr(),
                structure.len(),
                words.pointer(),
                self.room,
                cells.as_ptr(),
                cells.len(),
                out.pointer(),
                self.places,
                blocks,
                answer.pointer(),
                self.answer,
            )
        };
        Ours { number, words, out, answer }
    }
}

/// Spoils the size of run 0, which is always a root. Where there is no run the word must stand.
pub fn spoil_size(words: &mut [u32], lines: usize) {
    if let Some(size) = words.get_mut(run_word(lines, 0, SIZE)) {
        *size ^= 1;
    }
}

/// What was lent to a whole frame, and what it returned.
pub struct Ours<N> {
    pub number: u32,
    words: Lent<u32>,
    out: Lent<N>,
    answer: Lent<u64>,
}

impl<N: Reads> Ours<N> {
    pub fn stands(&self) -> bool {
        self.words.stands() && self.out.stands() && self.answer.stands()
    }

    /// Spoils what a frame of so many lines answered.
    pub fn spoil(&mut self, fault: Fault, lines: usize) {
        match fault {
            Fault::No | Fault::Structure => {}
            Fault::Label => {
                if let Some(v) = self.out.now_mut().last_mut() {
                    let zero: N = reference::ndimage::label::FromU32::from_u32(0);
                    *v = if *v == zero { reference::ndimage::label::FromU32::from_u32(1) } else { zero };
                }
            }
            Fault::Count => self.answer.now_mut()[0] ^= 1,
            Fault::Runs => self.answer.now_mut()[1] ^= 1,
            Fault::Joins => self.answer.now_mut()[2] ^= 1,
            Fault::Cells => self.answer.now_mut()[3] ^= 1,
            Fault::Refusal => self.number = if self.number == 0 { 10 } else { 0 },
            Fault::Word => *self.words.now_mut().last_mut().expect("a word") ^= 1,
            Fault::Size => spoil_size(self.words.now_mut(), lines),
            Fault::Edge => unsafe { *self.out.pointer().add(self.out.len()) = N::filled(&mut Random(self.number as u64 + 99)) },
        }
    }
}

/// What differs between ours, with this block count, and theirs. `labels` are the numbers in a kind that always holds them.
fn differs<C: Labels<N>, N: Reads>(r: &mut Random, f: &Frame<C>, blocks: usize, theirs: &Theirs<N>, labels: &[u32], runs: &Runs, fault: Fault) -> Option<String> {
    let room = words_needed(&f.shape, &f.structure) + below(r, 3);
    let answer = ANSWER + below(r, 2);
    let call = Call { shape: &f.shape, structure: &f.structure, cells: &f.cells, places: f.cells.len(), room, answer };
    let mut o = call.frame::<N>(r, blocks);
    o.spoil(fault, lines(&f.shape));
    if !o.words.edges_stand() || !o.out.edges_stand() || !o.answer.edges_stand() {
        return Some("an entry beside the memory lent was written".into());
    }
    let count = runs.at.len() as u64;
    match theirs.n {
        None if o.number != 10 => return Some(format!("the Rust declines, and ours returns {}", o.number)),
        None if !o.out.stands() || !o.answer.stands() => return Some("10, and the output or the answer does not stand".into()),
        None => {}
        Some(n) => {
            if o.number != 0 {
                return Some(format!("the Rust finds {n}, and ours returns {}", o.number));
            }
            let a = o.answer.now();
            let set = f.cells.iter().filter(|c| !c.zero()).count() as u64;
            if a[..4] != [n, count, count.wrapping_sub(n), set] || a[4..] != o.answer.was()[4..] {
                return Some(format!("the Rust finds {n}, of {count} runs by their definition and {set} nonzero cells, and ours answers {:?}", &a[..4]));
            }
            if let Some(i) = (0..theirs.out.len()).find(|&i| theirs.out[i] != o.out.now()[i]) {
                return Some(format!("place {i} has {} in the Rust and {} in ours", theirs.out[i], o.out.now()[i]));
            }
        }
    }
    let l = lines(&f.shape);
    let w = f.shape[f.shape.len() - 1];
    let did = Did { lines: l, fed: l, runs, w, labels, named: theirs.n.is_some(), united: true };
    words_differ(&did, o.words.was(), o.words.now())
}

/// The first difference for one of the block counts.
fn difference<C: Labels<N>, N: Reads>(r: &mut Random, f: &Frame<C>, threads: usize, blocks: &[usize], core: bool, fault: Fault) -> (bool, Option<String>) {
    assert!(symmetric(&f.structure), "a lopsided structure: {:?}", f.structure);
    let before: Vec<N> = f.cells.iter().map(|_| N::filled(r)).collect();
    let theirs = theirs(f, before.clone(), threads, core);
    if theirs.n.is_none() && theirs.out != before {
        return (true, Some("the Rust declines, and writes".into()));
    }
    let labels: Vec<u32> = match theirs.n {
        Some(_) => theirs.out.iter().map(|&v| Into::<u64>::into(v) as u32).collect(),
        None => self::theirs(f, vec![0u32; f.cells.len()], threads, core).out,
    };
    let set: Vec<bool> = f.cells.iter().map(|c| !c.zero()).collect();
    let w = f.shape[f.shape.len() - 1];
    let runs = runs(&set, w, left_byte(&f.structure));
    let found = blocks.iter().find_map(|&b| differs(r, f, b, &theirs, &labels, &runs, fault).map(|d| format!("{b} blocks: {d}")));
    (theirs.n.is_none(), found)
}

/// The smallest frame that still differs, reached by taking away one thing at a time.
fn shrink<C: Labels<N>, N: Reads>(r: &mut Random, f: &Frame<C>, threads: usize, core: bool, fault: Fault) -> (Frame<C>, Option<String>) {
    let counts = |f: &Frame<C>| (0..=lines(&f.shape).min(20) + 1).collect::<Vec<usize>>();
    let mut least = (f.clone(), difference::<C, N>(r, f, threads, &counts(f), core, fault).1);
    let mut tries = 0;
    'again: loop {
        for g in least.0.smaller() {
            tries += 1;
            if tries > 20_000 {
                break 'again;
            }
            let d = difference::<C, N>(r, &g, threads, &counts(&g), core, fault).1;
            if d.is_some() {
                least = (g, d);
                continue 'again;
            }
        }
        break;
    }
    least
}

/// Both on one frame, ours with each of the block counts.
pub fn compare<C: Labels<N>, N: Reads>(t: &mut Tally, r: &mut Random, f: &Frame<C>, threads: usize, blocks: &[usize], core: bool, fault: Fault) {
    t.add("frames, by rank", f.shape.len(), 1);
    t.add("frames, by cells", C::NAME, 1);
    t.add("frames, by numbers", N::NAME, 1);
    t.add("frames, by the Rust's threads", threads, 1);
    t.add("frames, by the Rust's function", if core { "label_core" } else { "label_impl" }, 1);
    t.add("our calls of whole frames", "all", blocks.len() as u64);
    let (declined, found) = difference::<C, N>(r, f, threads, blocks, core, fault);
    t.add("frames, by answer", if declined { "refused with 10, and declined by the Rust" } else { "numbered" }, 1);
    if let Some(found) = found {
        t.differs(|| {
            let (g, d) = shrink::<C, N>(r, f, threads, core, fault);
            let (g, d) = d.map_or((f.clone(), found), |d| (g, d));
            let s: Vec<String> = g.structure.iter().map(|b| b.to_string()).collect();
            format!(
                "{d}\ncells {}, numbers {}, {threads} threads, {}\nshape {:?}\nstructure {}\ncells {:?}",
                C::NAME,
                N::NAME,
                if core { "label_core" } else { "label_impl" },
                g.shape,
                s.join(" "),
                g.cells
            )
        });
    }
}
