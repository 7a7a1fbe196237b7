//! Lopsided structures: a whole frame and an opening are refused with 12, after 1 and 2 and before 3, 4, 5, 8 and 9, and nothing that was
//! lent may change.

use crate::one::{Call, Fault};
use crate::ours::{ANSWER, Labels, Reads, label_open, label_record_words};
use drivers::frames::{Frame, below, make_lopsided, nonzero, one_of, structure, symmetric};
use drivers::kinds::Cell;
use drivers::lent::Lent;
use drivers::plain::words_needed;
use drivers::random::Random;
use drivers::tally::Tally;

/// Where what was tried is counted.
pub const TRIED: &str = "lopsided structures, tried for 12";

/// The causes that may hold besides.
const OTHERS: [u32; 7] = [1, 2, 3, 4, 5, 8, 9];

/// Each is above the limits of 4 in any dimension.
const HUGE: [usize; 4] = [4294967293, 1 << 32, 1 << 63, usize::MAX];

/// `f` with cause `other` besides, unless that is of the lengths lent. A structure that has the bytes of its rank stays lopsided.
fn with_other<C: Cell>(r: &mut Random, f: &Frame<C>, other: u32) -> Frame<C> {
    let mut f = f.clone();
    let rank = f.shape.len();
    match other {
        1 if below(r, 2) == 0 => f.shape.clear(),
        1 => {
            f.shape.splice(..0, vec![1; 5 - rank]);
            f.structure = structure(r, 5);
            make_lopsided(r, &mut f.structure);
        }
        2 => match below(r, 3) {
            0 => f.structure.truncate(f.structure.len() - 1),
            1 => f.structure.push(nonzero(r)),
            _ => {
                let another = 1 + (rank + below(r, 3)) % 4;
                f.structure = structure(r, another);
                make_lopsided(r, &mut f.structure);
            }
        },
        3 => f.shape[below(r, rank - 1)] = 0,
        4 => f.shape[below(r, rank)] = one_of(r, &HUGE),
        8 if below(r, 2) == 0 || f.cells.is_empty() => f.cells.push(C::coded(b'1')),
        8 => f.cells.truncate(f.cells.len() - 1),
        _ => {}
    }
    f
}

/// What an opening returns, and whether all that was lent stands.
fn opening<C>(r: &mut Random, call: &Call<C>, fault: Fault) -> (u32, bool) {
    let long = unsafe { label_record_words() } as usize + below(r, 3);
    let (mut words, mut record) = (Lent::new(call.room, || r.next() as u32), Lent::new(long, || r.next()));
    let ((shape, rank), (structure, bytes)) = ((call.shape.as_ptr(), call.shape.len()), (call.structure.as_ptr(), call.structure.len()));
    // SAFETY: each pointer is good for its count
    let mut number = unsafe { label_open(shape, rank, structure, bytes, words.pointer(), call.room, record.pointer(), long) };
    match fault {
        Fault::Refusal => number = 0,
        Fault::Word | Fault::Size => words.now_mut()[0] ^= 1,
        Fault::Edge => unsafe { *record.pointer().add(long) ^= 1 },
        _ => {}
    }
    (number, words.stands() && record.stands())
}

/// Both calls on `f`, with cause `other` besides if it is not 0.
fn held<C: Labels<N>, N: Reads>(t: &mut Tally, r: &mut Random, f: &Frame<C>, other: u32, fault: Fault) {
    let needed = words_needed(&f.shape, &f.structure);
    let room = if other == 5 { 1 + below(r, needed - 1) } else { needed + below(r, 3) };
    let places = match f.cells.len() {
        n if other != 9 => n,
        0 => 1,
        n => n - 1 + 2 * below(r, 2),
    };
    let f = &with_other(r, f, other);
    let call = Call { shape: &f.shape, structure: &f.structure, cells: &f.cells, places, room, answer: ANSWER };
    let want = if other == 1 || other == 2 { other } else { 12 };
    let blocks = below(r, 4);
    let mut o = call.frame::<N>(r, blocks);
    // no word may change, so any will do
    o.spoil(fault, 0);
    let name = match other {
        0 => "alone".into(),
        1 | 2 => format!("after {other}"),
        _ => format!("before {other}"),
    };
    t.add(TRIED, &name, 1);
    for (what, (number, stands)) in [("a whole frame", (o.number, o.stands())), ("an opening", opening(r, &call, fault))] {
        if number != want || !stands {
            t.differs(|| {
                let told = format!("{what}, 12 {name}: ours returns {number} (should be {want}; all stands: {stands})");
                format!("{told}\nshape {:?}\nstructure {:?}", f.shape, f.structure)
            });
        }
    }
}

/// A frame whose structure is lopsided: with nothing else wrong, and with one other cause.
pub fn refused<C: Labels<N>, N: Reads>(t: &mut Tally, r: &mut Random, f: &Frame<C>, fault: Fault) {
    assert!(!symmetric(&f.structure), "a symmetric structure: {:?}", f.structure);
    held::<C, N>(t, r, f, 0, fault);
    let mut other = one_of(r, &OTHERS);
    // rank 1 has no leading dimension
    while other == 3 && f.shape.len() == 1 {
        other = one_of(r, &OTHERS);
    }
    held::<C, N>(t, r, f, other, fault);
}
