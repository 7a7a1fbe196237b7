//! The kinds of cells and of numbers that both sides take.

use crate::random::Random;

/// A cell kind. A code stands for a cell in the list of answers: 0 is zero, z is -0.0, 1 is one, m the largest, h has a zero low byte, n is
/// NaN or -1.
pub trait Cell: reference::Cell + std::fmt::Debug {
    const NAME: &'static str;
    const ZEROS: &'static [u8];
    const OTHERS: &'static [u8];
    fn coded(code: u8) -> Self;
    /// Any bits at all.
    fn bits(b: u32) -> Self;
    /// The rule of document 01, not the Rust's.
    fn zero(self) -> bool;
}

macro_rules! integer {
    ($t:ident, $others:expr, $half:expr) => {
        impl Cell for $t {
            const NAME: &'static str = stringify!($t);
            const ZEROS: &'static [u8] = b"0";
            const OTHERS: &'static [u8] = $others;
            fn coded(code: u8) -> $t {
                match code {
                    b'1' => 1,
                    b'm' => $t::MAX,
                    b'h' => $half,
                    b'n' => (0 as $t).wrapping_sub(1),
                    _ => 0,
                }
            }
            fn bits(b: u32) -> $t {
                b as $t
            }
            fn zero(self) -> bool {
                self == 0
            }
        }
    };
}
integer!(u8, b"1mh", 128);
integer!(u16, b"1mh", 256);
integer!(i16, b"1mhn", -32768);

impl Cell for f32 {
    const NAME: &'static str = "f32";
    const ZEROS: &'static [u8] = b"0z";
    const OTHERS: &'static [u8] = b"1mhn";
    fn coded(code: u8) -> f32 {
        match code {
            b'z' => -0.0,
            b'1' => 1.0,
            b'm' => f32::INFINITY,
            b'h' => f32::from_bits(1),
            b'n' => f32::NAN,
            _ => 0.0,
        }
    }
    fn bits(b: u32) -> f32 {
        f32::from_bits(b)
    }
    fn zero(self) -> bool {
        self.to_bits() << 1 == 0
    }
}

/// A number kind.
pub trait Number: reference::Number + Eq + Into<u64> + std::fmt::Debug + std::fmt::Display {
    const NAME: &'static str;
    /// What the output holds before a call.
    fn filled(r: &mut Random) -> Self;
}

macro_rules! number { ($($t:ident),*) => {$(
    impl Number for $t {
        const NAME: &'static str = stringify!($t);
        fn filled(r: &mut Random) -> $t {
            r.next() as $t
        }
    }
)*}; }
number!(u8, u16, u32);
