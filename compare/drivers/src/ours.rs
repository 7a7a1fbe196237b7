//! Our calls by their C names, as include/label.h declares them. A slice is a pointer and a count.
#![allow(dead_code)]

use drivers::kinds::{Cell, Number};

/// LABEL_ANSWER_WORDS: the least words of an answer.
pub const ANSWER: usize = 8;

pub type Frame<C, N> =
    unsafe extern "C" fn(*const usize, usize, *const u8, usize, *mut u32, usize, *const C, usize, *mut N, usize, usize, *mut u64, usize) -> u32;
pub type Feed<C> = unsafe extern "C" fn(*mut u64, usize, *mut u32, usize, usize, *const C, usize, *mut u64, usize) -> u32;
pub type Read<N> = unsafe extern "C" fn(*const u64, usize, *mut u32, usize, *mut N, usize, *mut u64, usize) -> u32;

/// A cell kind that can be fed.
pub trait Fed: Cell {
    const FEED: Feed<Self>;
}
/// A number kind that can be read.
pub trait Reads: Number {
    const READ: Read<Self>;
}
/// A cell kind and a number kind of whole frames.
pub trait Labels<N>: Fed {
    const FRAME: Frame<Self, N>;
}

macro_rules! frame {
    ($c:ident: $($f:ident $n:ident),*) => {$(
        #[link(name = "label_c", kind = "static")]
        unsafe extern "C" {
            fn $f(shape: *const usize, rank: usize, structure: *const u8, bytes: usize, words: *mut u32, room: usize, cells: *const $c, count: usize,
                out: *mut $n, places: usize, blocks: usize, answer: *mut u64, length: usize) -> u32;
        }
        impl Labels<$n> for $c {
            const FRAME: Frame<$c, $n> = $f;
        }
    )*};
}
frame!(u8: label_frame_u8_u8 u8, label_frame_u8_u16 u16, label_frame_u8_u32 u32);
frame!(u16: label_frame_u16_u8 u8, label_frame_u16_u16 u16, label_frame_u16_u32 u32);
frame!(i16: label_frame_i16_u8 u8, label_frame_i16_u16 u16, label_frame_i16_u32 u32);
frame!(f32: label_frame_f32_u8 u8, label_frame_f32_u16 u16, label_frame_f32_u32 u32);

macro_rules! feed { ($($f:ident $c:ident),*) => {$(
    unsafe extern "C" {
        fn $f(record: *mut u64, length: usize, words: *mut u32, room: usize, k: usize, cells: *const $c, count: usize, answer: *mut u64, places: usize) -> u32;
    }
    impl Fed for $c {
        const FEED: Feed<$c> = $f;
    }
)*}; }
feed!(label_feed_u8 u8, label_feed_u16 u16, label_feed_i16 i16, label_feed_f32 f32);

macro_rules! read { ($($f:ident $n:ident),*) => {$(
    unsafe extern "C" {
        fn $f(record: *const u64, length: usize, words: *mut u32, room: usize, out: *mut $n, places: usize, answer: *mut u64, length: usize) -> u32;
    }
    impl Reads for $n {
        const READ: Read<$n> = $f;
    }
)*}; }
read!(label_read_u8 u8, label_read_u16 u16, label_read_u32 u32);

unsafe extern "C" {
    pub fn label_record_words() -> u64;
    pub fn label_open(shape: *const usize, rank: usize, structure: *const u8, bytes: usize, words: *mut u32, room: usize, record: *mut u64, length: usize) -> u32;
    pub fn label_widen(
        record: *mut u64,
        length: usize,
        words: *mut u32,
        room: usize,
        structure: *const u8,
        bytes: usize,
        answer: *mut u64,
        count: usize,
    ) -> u32;
    pub fn label_sizes(record: *const u64, length: usize, words: *mut u32, room: usize, sizes: *mut u32, places: usize, answer: *mut u64, count: usize) -> u32;
}

/// Calls `$f` with the kinds of pair `$k`, of 12.
#[macro_export]
macro_rules! for_pair {
    ($k:expr, $f:ident ($($a:expr),*)) => {
        match $k % 12 {
            0 => $f::<u8, u8>($($a),*),
            1 => $f::<u8, u16>($($a),*),
            2 => $f::<u8, u32>($($a),*),
            3 => $f::<u16, u8>($($a),*),
            4 => $f::<u16, u16>($($a),*),
            5 => $f::<u16, u32>($($a),*),
            6 => $f::<i16, u8>($($a),*),
            7 => $f::<i16, u16>($($a),*),
            8 => $f::<i16, u32>($($a),*),
            9 => $f::<f32, u8>($($a),*),
            10 => $f::<f32, u16>($($a),*),
            _ => $f::<f32, u32>($($a),*),
        }
    };
}
