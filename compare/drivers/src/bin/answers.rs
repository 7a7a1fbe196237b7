// The Rust's answers as a list, one a line, for a program that makes the same calls: kind of cells, kind of numbers, block count, rank,
// dimensions, structure, cells, answer. It is the same in every run. A cell is a code of kinds.rs; a structure byte that is set is 1.
use drivers::frames::*;
use drivers::kinds::{Cell, Number};
use drivers::random::Random;
use std::io::Write;

const LONGEST: usize = 1500;
const MOST: usize = 700_000;

struct List {
    r: Random,
    out: Vec<u8>,
    lines: usize,
    none: usize,
}

impl List {
    fn add<C: Cell, N: Number>(&mut self, blocks: usize, shape: &[usize], structure: &[u8], codes: &[u8]) {
        let cells: Vec<C> = codes.iter().map(|&c| C::coded(c)).collect();
        let mut out: Vec<N> = cells.iter().map(|_| N::filled(&mut self.r)).collect();
        assert!(symmetric(structure), "a lopsided structure: {structure:?}");
        let n = reference::label_impl(shape, structure, &cells, &mut out, 1);
        let mut line = format!("{} {} {blocks} {}", C::NAME, N::NAME, shape.len());
        for d in shape {
            line += &format!(" {d}");
        }
        line.push(' ');
        line.extend(structure.iter().map(|&b| if b == 0 { '0' } else { '1' }));
        line.push(' ');
        line += if codes.is_empty() { "-" } else { std::str::from_utf8(codes).expect("codes") };
        match n {
            None => line += " none",
            Some(n) => {
                line += &format!(" {n}");
                for v in &out {
                    line += &format!(" {v}");
                }
            }
        }
        line.push('\n');
        assert!(line.len() <= LONGEST, "a line of {} bytes", line.len());
        self.none += n.is_none() as usize;
        self.lines += 1;
        self.out.extend(line.as_bytes());
    }

    fn random<C: Cell, N: Number>(&mut self, shape: &[usize]) {
        let structure = structure(&mut self.r, shape.len());
        let codes = codes::<C>(&mut self.r, size(shape));
        let blocks = below(&mut self.r, lines(shape) + 2);
        self.add::<C, N>(blocks, shape, &structure, &codes);
    }

    fn pair<C: Cell, N: Number>(&mut self) {
        for rank in 1..=4 {
            for _ in 0..40 {
                let most = [1, 30, 7, 4, 3][rank];
                let shape: Vec<usize> = (0..rank).map(|_| 1 + below(&mut self.r, most)).collect();
                if size(&shape) <= 48 {
                    self.random::<C, N>(&shape);
                }
            }
            let mut shape = vec![2; rank];
            shape[rank - 1] = 0;
            self.random::<C, N>(&shape);
        }
        for w in WIDE {
            self.random::<C, N>(&[w]);
        }
        for w in [63, 64, 65, 128] {
            self.random::<C, N>(&[2, w]);
        }
        for w in [63, 64, 65] {
            self.random::<C, N>(&[3, w]);
            self.random::<C, N>(&[2, 2, w]);
            self.random::<C, N>(&[1, 2, 2, w]);
        }
        self.every_block_count::<C, N>(&[5, 4]);
        self.every_block_count::<C, N>(&[2, 3, 4]);
        self.fixed::<C, N>();
        self.alone::<C, N>();
    }

    /// The same frame for every block count.
    fn every_block_count<C: Cell, N: Number>(&mut self, shape: &[usize]) {
        let structure = structure(&mut self.r, shape.len());
        let codes = codes::<C>(&mut self.r, size(shape));
        for blocks in 0..=lines(shape) + 1 {
            self.add::<C, N>(blocks, shape, &structure, &codes);
        }
    }

    /// Frames that document 01 names, and those that catch a slip.
    fn fixed<C: Cell, N: Number>(&mut self) {
        let plane: [(&[usize], &[u8], &[u8]); 12] = [
            (&[3, 3], b"010111010", b"101101111"),
            (&[3, 4], b"010111010", b"110100011011"),
            (&[2, 2], b"010111010", b"1001"),
            (&[2, 2], b"111111111", b"1001"),
            (&[2, 3], b"101000101", b"111111"),
            (&[3], b"010", b"111"),
            (&[3], b"101", b"111"),
            (&[3], b"000", b"111"),
            (&[2, 2], b"110000011", b"0110"),
            (&[2, 2], b"110000011", b"1001"),
            (&[2, 4], b"100101001", b"10100111"),
            (&[2, 0], b"010111010", b""),
        ];
        for (shape, s, cells) in plane {
            let s: Vec<u8> = s.iter().map(|b| b - b'0').collect();
            self.add::<C, N>(1, shape, &s, cells);
        }
        let pair = |k: usize| (0..27).map(|i| (i == k || i == 26 - k) as u8).collect::<Vec<u8>>();
        self.add::<C, N>(2, &[2, 2, 1], &pair(10), b"0110");
        self.add::<C, N>(2, &[2, 2, 1], &pair(4), b"1010");
        self.add::<C, N>(2, &[2, 1, 2], &[1; 27], b"1001");
        self.add::<C, N>(2, &[2, 1, 2], &cross(3), b"1001");
    }

    /// Cells that nothing joins: as many as u8 numbers, and more.
    fn alone<C: Cell, N: Number>(&mut self) {
        if N::NAME == "u8" {
            let mut apart = vec![b'0'; 511];
            for x in (0..511).step_by(2) {
                apart[x] = one_of(&mut self.r, C::OTHERS);
            }
            self.add::<C, N>(1, &[511], &[1; 3], &apart);
        }
        let shapes: [(&[usize], u32); 8] =
            [(&[255], 1), (&[256], 1), (&[300], 1), (&[15, 17], 2), (&[16, 16], 2), (&[20, 13], 2), (&[4, 8, 8], 3), (&[4, 4, 4, 4], 4)];
        for (shape, rank) in shapes {
            let codes: Vec<u8> = (0..size(shape)).map(|_| one_of(&mut self.r, C::OTHERS)).collect();
            let blocks = below(&mut self.r, lines(shape) + 2);
            self.add::<C, N>(blocks, shape, &vec![0; 3usize.pow(rank)], &codes);
        }
    }

    fn kind<C: Cell>(&mut self) {
        self.pair::<C, u8>();
        self.pair::<C, u16>();
        self.pair::<C, u32>();
    }
}

fn main() {
    reference::set_num_threads(1);
    let mut l = List { r: Random(0x9e37_79b9_7f4a_7c15), out: Vec::new(), lines: 0, none: 0 };
    l.kind::<u8>();
    l.kind::<u16>();
    l.kind::<i16>();
    l.kind::<f32>();
    assert!(l.out.len() < MOST && l.lines >= 2400 && l.none >= 20, "{} bytes, {} answers, {} of them none", l.out.len(), l.lines, l.none);
    eprintln!("{} answers, {} of them none; {} bytes", l.lines, l.none, l.out.len());
    std::io::stdout().write_all(&l.out).expect("standard output");
}
