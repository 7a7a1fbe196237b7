//! Sessions: a frame fed in pieces, with readings, size calls and structure changes between, refused calls among them. The Rust labels the
//! frame as far as it was fed, its other lines zero, under the session's last structure.

pub mod changes;

use crate::one::{Fault, spoil_size};
use crate::ours::{ANSWER, Fed, Reads, label_open, label_record_words, label_sizes, label_widen};
use drivers::frames::{below, cells, lines, make_lopsided, one_of, shape, size, structure};
use drivers::kinds::Cell;
use drivers::lent::Lent;
use drivers::plain::{Did, PARENT, Runs, SIZE, left_byte, run_word, runs, words_differ, words_needed};
use drivers::random::Random;
use drivers::tally::Tally;

struct Session {
    shape: Vec<usize>,
    structure: Vec<u8>,
    lines: usize,
    w: usize,
    set: Vec<bool>,
    fed: usize,
    words: Lent<u32>,
    record: Lent<u64>,
    labels: Vec<u32>,
    n: u64,
    runs: Runs,
    /// What was called, for the report.
    calls: Vec<String>,
    fault: Fault,
}

/// Whether the call's answer, record, words and edges are as they should be.
type Held = Result<(), String>;

fn must(holds: bool, what: impl FnOnce() -> String) -> Held {
    if holds { Ok(()) } else { Err(what()) }
}

impl Session {
    fn random(r: &mut Random, fault: Fault) -> Result<Session, String> {
        let rank = 1 + below(r, 4);
        let (shape, structure) = (shape(r, rank), structure(r, rank));
        Session::open(r, shape, structure, fault)
    }

    fn open(r: &mut Random, shape: Vec<usize>, structure: Vec<u8>, fault: Fault) -> Result<Session, String> {
        let rank = shape.len();
        let room = words_needed(&shape, &structure) + below(r, 3);
        let long = unsafe { label_record_words() } as usize + below(r, 3);
        let mut words = Lent::new(room, || r.next() as u32);
        let mut record = Lent::new(long, || r.next());
        let bytes = structure.len();
        // SAFETY: each pointer is good for its count
        let number = unsafe { label_open(shape.as_ptr(), rank, structure.as_ptr(), bytes, words.pointer(), room, record.pointer(), long) };
        let (lines, w) = (lines(&shape), shape[rank - 1]);
        let mut s = Session { lines, w, set: Vec::new(), fed: 0, labels: vec![0; size(&shape)], n: 0, runs: runs(&[], w, false), calls: Vec::new(), fault, shape, structure, words, record };
        must(number == 0, || format!("the opening returns {number}"))?;
        let mut want = s.words.was().to_vec();
        want[0] = 0;
        must(s.words.now() == want && s.words.edges_stand(), || "the opening writes more than word 0".into())?;
        s.record_is([0; 3])?;
        s.words.keep();
        Ok(s)
    }

    /// The record's words, by their order; those past it stand. `figures` are runs, joins and nonzero cells.
    fn record_is(&mut self, figures: [u64; 3]) -> Held {
        let mut want = vec![self.shape.len() as u64];
        want.extend((0..4).map(|d| self.shape.get(d).map_or(0, |&x| x as u64)));
        want.extend((0..81).map(|d| self.structure.get(d).map_or(0, |&x| x as u64)));
        want.push(self.fed as u64);
        want.extend(figures);
        want.extend(&self.record.was()[want.len()..]);
        must(self.record.now() == want && self.record.edges_stand(), || "the record's words".into())?;
        self.record.keep();
        Ok(())
    }

    /// Labels, n and runs of the lines fed, by the Rust and by the plain rule.
    fn relabel(&mut self) {
        let mut cells: Vec<u8> = self.set.iter().map(|&s| s as u8).collect();
        cells.resize(size(&self.shape), 0);
        self.n = reference::label_impl(&self.shape, &self.structure, &cells, &mut self.labels, 1).expect("32-bit numbers");
        self.runs = runs(&self.set, self.w, left_byte(&self.structure));
    }

    /// Runs, joins and nonzero cells of the lines fed.
    fn figures(&self) -> [u64; 3] {
        let runs = self.runs.at.len() as u64;
        [runs, runs - self.n, self.set.iter().filter(|&&set| set).count() as u64]
    }

    /// The words, the record and the answer after a call that returned a number and should return `want`, and should say `first` and the figures.
    fn hold(&mut self, mut number: u32, want: u32, answer: &mut Lent<u64>, first: u64, named: bool, united: bool) -> Held {
        match self.fault {
            Fault::Count => answer.now_mut()[0] ^= 1,
            Fault::Runs => answer.now_mut()[1] ^= 1,
            Fault::Joins => answer.now_mut()[2] ^= 1,
            Fault::Cells => answer.now_mut()[3] ^= 1,
            Fault::Refusal => number = if number == 0 { 10 } else { 0 },
            Fault::Word => *self.words.now_mut().last_mut().expect("a word") ^= 1,
            Fault::Size => spoil_size(self.words.now_mut(), self.lines),
            Fault::Edge => unsafe { *self.record.pointer().add(self.record.len()) ^= 1 },
            Fault::No | Fault::Label | Fault::Structure => {}
        }
        must(number == want, || format!("it returns {number}, and should return {want}"))?;
        must(answer.edges_stand() && self.words.edges_stand() && self.record.edges_stand(), || "an entry beside the memory lent was written".into())?;
        if want != 0 {
            return must(answer.stands() && self.words.stands() && self.record.stands(), || "a refusal writes".into());
        }
        let a = answer.now();
        let figures = self.figures();
        let says = a[0] == first && a[1..4] == figures;
        must(says && a[4..] == answer.was()[4..], || format!("it answers {:?}, and should answer {first} and {figures:?}", &a[..4]))?;
        let did = Did { lines: self.lines, fed: self.fed, runs: &self.runs, w: self.w, labels: &self.labels, named, united };
        if let Some(d) = words_differ(&did, self.words.was(), self.words.now()) {
            return Err(d);
        }
        self.record_is(figures)?;
        self.words.keep();
        Ok(())
    }

    fn feed<C: Fed>(&mut self, r: &mut Random) -> Held {
        let left = self.lines - self.fed;
        let (mut k, mut want) = (below(r, left.min(6) + 1), 0);
        let mut count = k * self.w;
        match below(r, 12) {
            0 => (k, want) = ([left + 1, left + 1 + below(r, 9), usize::MAX, usize::MAX - left][below(r, 4)], 7),
            1 => (count, want) = (count + 1, 8),
            2 if count > 0 => (count, want) = (count - 1, 8),
            _ => {}
        }
        let cells: Vec<C> = cells(r, count);
        let places = ANSWER + below(r, 2);
        let mut answer = Lent::new(places, || r.next());
        self.calls.push(format!("feed of {k} lines, {count} {} cells", C::NAME));
        // SAFETY: each pointer is good for its count
        let number = unsafe {
            C::FEED(self.record.pointer(), self.record.len(), self.words.pointer(), self.words.len(), k, cells.as_ptr(), count, answer.pointer(), places)
        };
        if want == 0 {
            self.set.extend(cells.iter().map(|c| !Cell::zero(*c)));
            self.fed += k;
            self.relabel();
        }
        self.hold(number, want, &mut answer, self.fed as u64, false, k > 0)
    }

    fn read<N: Reads>(&mut self, r: &mut Random) -> Held {
        let (mut places, mut want) = (size(&self.shape), 0);
        match below(r, 12) {
            0 => (places, want) = (places + 1, 9),
            1 if places > 0 => (places, want) = (places - 1, 9),
            _ if self.n > <N as reference::ndimage::label::FromU32>::MAXV => want = 10,
            _ => {}
        }
        let mut out = Lent::new(places, || N::filled(r));
        let length = ANSWER + below(r, 2);
        let mut answer = Lent::new(length, || r.next());
        self.calls.push(format!("reading of {places} places, {}", N::NAME));
        // SAFETY: each pointer is good for its count
        let number = unsafe { N::READ(self.record.pointer(), self.record.len(), self.words.pointer(), self.words.len(), out.pointer(), places, answer.pointer(), length) };
        if self.fault == Fault::Label && places > 0 {
            out.now_mut()[0] = reference::ndimage::label::FromU32::from_u32(77);
        }
        must(out.edges_stand(), || "an entry beside the output was written".into())?;
        if want != 0 {
            must(out.stands(), || "a refusal writes to the output".into())?;
        } else {
            let wrong = (0..places).find(|&i| Into::<u64>::into(out.now()[i]) != self.labels[i] as u64);
            must(wrong.is_none(), || format!("place {wrong:?} of the output is not the Rust's"))?;
        }
        self.hold(number, want, &mut answer, self.n, true, false)
    }

    fn sizes(&mut self, r: &mut Random) -> Held {
        let (mut places, mut want) = (self.n as usize, 0);
        match below(r, 6) {
            0 => (places, want) = (places + 1 + below(r, 3), 9),
            1 if places > 0 => (places, want) = (below(r, places), 9),
            _ => {}
        }
        let mut sizes = Lent::new(places, || r.next() as u32);
        let mut answer = Lent::new(ANSWER, || r.next());
        self.calls.push(format!("sizes of {places} numbers"));
        // SAFETY: each pointer is good for its count
        let number = unsafe { label_sizes(self.record.pointer(), self.record.len(), self.words.pointer(), self.words.len(), sizes.pointer(), places, answer.pointer(), ANSWER) };
        let mut of = vec![0u32; self.n as usize + 1];
        self.labels.iter().for_each(|&l| of[l as usize] += 1);
        must(sizes.edges_stand() && if want == 0 { sizes.now() == &of[1..] } else { sizes.stands() }, || "the sizes are not those of the Rust's groups".into())?;
        self.hold(number, want, &mut answer, self.n, true, false)
    }

    /// Calls that are refused whatever the session holds: a short record, a short answer, a record of words that no call leaves.
    fn damaged(&mut self, r: &mut Random) -> Held {
        let (mut record, mut want, mut places) = (self.record.now().to_vec(), 6, ANSWER);
        match below(r, 8) {
            0 => (places, want) = (below(r, ANSWER), 100),
            1 => {
                record.truncate(89 - below(r, 89));
                want = 100;
            }
            2 => record[5 + below(r, 81)] = 256 + r.next(),
            3 => record[0] = [0, 5, u64::MAX][below(r, 3)],
            4 => record[86] = self.lines as u64 + 1,
            5 => record[87] += 1,
            6 => record[88] += 1,
            _ => record[89] = [record[89] + 1, record[89].wrapping_sub(1), record[89] + (1 << 32), u64::MAX][below(r, 4)],
        }
        self.refused(r, record, places, want)
    }

    /// Calls on a record whose structure was made lopsided.
    fn lopsided(&mut self, r: &mut Random) -> Held {
        let (mut record, mut structure) = (self.record.now().to_vec(), self.structure.clone());
        make_lopsided(r, &mut structure);
        for (word, byte) in record[5..].iter_mut().zip(&structure) {
            *word = *byte as u64;
        }
        self.refused(r, record, ANSWER, 6)
    }

    /// Calls on words whose roots' sizes do not add up to the total, or do so only modulo 2^32.
    fn damaged_sizes(&mut self, r: &mut Random) -> Held {
        let place = |run: usize, i: usize| run_word(self.lines, run, i);
        let roots: Vec<usize> = (0..self.runs.at.len()).filter(|&run| self.words.now()[place(run, PARENT)] as usize == run).collect();
        if roots.is_empty() {
            return Ok(());
        }
        let [a, b] = [0; 2].map(|_| place(one_of(r, &roots), SIZE));
        let before = self.words.now().to_vec();
        let words = self.words.now_mut();
        if a != b && below(r, 2) == 0 {
            words[a] ^= 1 << 31;
            words[b] ^= 1 << 31;
        } else {
            words[a] = words[a].wrapping_add(1 + below(r, u32::MAX as usize) as u32);
        }
        self.words.keep();
        let held = self.refused(r, self.record.now().to_vec(), ANSWER, 6);
        self.words.now_mut().copy_from_slice(&before);
        self.words.keep();
        held
    }

    /// Each kind of call on such a record, with an answer of so many words: it returns `want`, and nothing is written.
    fn refused(&mut self, r: &mut Random, record: Vec<u64>, places: usize, want: u32) -> Held {
        let mut record = Lent::of(&record, 7);
        let mut answer = Lent::new(places, || r.next());
        self.calls.push(format!("damaged calls of {} record words and {places} answer words", record.len()));
        let mut out = Lent::new(size(&self.shape), || r.next() as u16);
        let mut sizes = Lent::new(self.n as usize, || r.next() as u32);
        let cells = vec![1u8; self.w];
        // SAFETY: each pointer is good for its count
        let numbers = unsafe {
            let (p, n, words, room) = (record.pointer(), record.len(), self.words.pointer(), self.words.len());
            [
                u16::READ(p, n, words, room, out.pointer(), out.len(), answer.pointer(), places),
                u8::FEED(p, n, words, room, 1, cells.as_ptr(), self.w, answer.pointer(), places),
                label_sizes(p, n, words, room, sizes.pointer(), sizes.len(), answer.pointer(), places),
                label_widen(p, n, words, room, self.structure.as_ptr(), self.structure.len(), answer.pointer(), places),
            ]
        };
        must(numbers == [want; 4], || format!("reading, feed, sizes and change return {numbers:?}, and should return {want}"))?;
        must(record.stands() && answer.stands() && out.stands() && sizes.stands() && self.words.stands(), || "a refusal writes".into())
    }

    fn call(&mut self, r: &mut Random) -> (&'static str, Held) {
        match below(r, 18) {
            0 | 1 => ("feed u8", self.feed::<u8>(r)),
            2 => ("feed u16", self.feed::<u16>(r)),
            3 => ("feed i16", self.feed::<i16>(r)),
            4 | 5 => ("feed f32", self.feed::<f32>(r)),
            6 => ("read u8", self.read::<u8>(r)),
            7 | 8 => ("read u16", self.read::<u16>(r)),
            9 | 10 => ("read u32", self.read::<u32>(r)),
            11 => ("damaged", self.damaged(r)),
            12 => ("lopsided record", self.lopsided(r)),
            13 => ("damaged sizes", self.damaged_sizes(r)),
            14 | 15 => self.change(r),
            _ => ("sizes", self.sizes(r)),
        }
    }
}

fn tell(s: &Session, why: &str) -> String {
    format!("a session: {why}\nshape {:?}\nstructure {:?}\ncalls: {}\nlines fed: {:?}", s.shape, s.structure, s.calls.join("; "), s.set.iter().map(|&b| b as u8).collect::<Vec<u8>>())
}

pub fn all(t: &mut Tally, r: &mut Random, frames: usize, fault: Fault) {
    reference::set_num_threads(1);
    for _ in 0..frames / 4 {
        let mut s = match Session::random(r, fault) {
            Ok(s) => s,
            Err(e) => {
                t.differs(|| format!("a session: {e}"));
                continue;
            }
        };
        t.add("sessions, by rank", s.shape.len(), 1);
        for _ in 0..2 + below(r, 14) {
            let (name, held) = s.call(r);
            t.add("calls of sessions", name, 1);
            if let Err(e) = held {
                t.differs(|| tell(&s, &e));
                break;
            }
        }
    }
}
