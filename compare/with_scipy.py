# Random frames to this repository's whole-frame calls, and to sessions that change their structure between two feeds, and to
# scipy.ndimage.label: n, every number and the size of every root, and that both refuse lopsided structures; and random texts to the program
# clumps: every byte that it prints. Build and run it by ./scipy.
import ctypes
import subprocess
import sys
from collections import Counter

import numpy as np
import scipy
from scipy import ndimage

CELLS = {"u8": np.uint8, "u16": np.uint16, "i16": np.int16, "f32": np.float32}
NUMBERS = {"u8": np.uint8, "u16": np.uint16, "u32": np.uint32}
# those of a float that a test for zero may get wrong: -0.0, NaN, the infinities, the least and another subnormal
FLOATS = np.array([-0.0, np.nan, np.inf, -np.inf, 1e-45, -1e-40, 1.0], np.float32)
REFUSED, LOPSIDED = 10, 12
# LABEL_RECORD_WORDS
RECORD = 90
# a run's words: start, end, parent, name, size
STRIDE, PARENT, SIZE = 5, 2, 4
# what is lent holds this before a call
WORD, PLACE, FIGURE = 0xABCDEF01, 77, 99


def structure_of(r, rank):
    """Symmetric about its middle; SciPy's own three times of ten. A byte that is set has any value."""
    kind = r.integers(10)
    if kind < 3:
        return ndimage.generate_binary_structure(rank, int(r.integers(1, rank + 1))).astype(np.uint8)
    s = r.random((3,) * rank) < r.choice([0.05, 0.2, 0.5, 0.9])
    return np.where(s | s[(slice(None, None, -1),) * rank], r.integers(1, 256, s.shape), 0).astype(np.uint8)


def lopsided_of(r, structure):
    """With one byte of a pair set, or cleared."""
    s = structure.copy()
    at = int(r.integers(s.size - 1))
    at += at >= s.size // 2
    s.flat[at] = 0 if s.flat[at] else r.integers(1, 256)
    return s


def narrower_of(r, structure):
    """One that `structure` may follow: without some of its pairs, or its centre, but with the left byte's. A byte that is set has any
    value."""
    rank, middle = structure.ndim, structure.size // 2
    kept = r.random(structure.shape) < r.choice([0, 0.3, 0.7])
    kept |= kept[(slice(None, None, -1),) * rank]
    kept.flat[middle - 1] = kept.flat[middle + 1] = True
    return np.where(kept & (structure != 0), r.integers(1, 256, structure.shape), 0).astype(np.uint8)


def shape_of(r, rank):
    lead = [int(x) for x in r.integers(1, (0, 2, 8, 5, 4)[rank], rank - 1)]
    style = r.integers(10)
    if style < 5:
        return lead + [int(r.integers(0, 10))]
    if style < 9:
        return lead[:1] + [1] * len(lead[1:]) + [int(r.choice([62, 63, 64, 65, 66, 127, 128, 129]))]
    return [int(x) for x in r.integers(1, (0, 700, 40, 12, 6)[rank], rank)]


def cells_of(r, shape, kind):
    cells = r.random(shape) < r.choice([0, 0.02, 0.1, 0.3, 0.5, 0.7, 0.9, 1])
    if kind == "f32":
        odd = FLOATS[r.integers(0, len(FLOATS), shape)]
        # a cell that is set may become -0.0, and one that is not as well
        return np.where(cells, odd, np.where(r.random(shape) < 0.5, np.float32(0.0), np.float32(-0.0))).astype(np.float32)
    values = r.integers(1, 256, shape) << (8 if kind != "u8" and r.integers(2) else 0)
    return np.where(cells, values, 0).astype(CELLS[kind])


def kind_of(cells):
    return next(k for k, v in CELLS.items() if v == cells.dtype)


def call(lib, name, *arguments):
    """A call by its C name: an array is a pointer and a count, a number is itself."""
    function = getattr(lib, name)
    function.restype = ctypes.c_uint32
    given = []
    for a in arguments:
        given += [ctypes.c_size_t(a)] if isinstance(a, int) else [ctypes.c_void_p(a.ctypes.data), ctypes.c_size_t(a.size)]
    return function(*given)


def lent(cells, number):
    """Shape, words, output and answer of a call on these cells."""
    lines, width = int(np.prod(cells.shape[:-1])), cells.shape[-1]
    words = np.full(lines + 1 + STRIDE * lines * width, WORD, np.uint32)
    return np.array(cells.shape, np.uintp), words, np.full(cells.shape, PLACE, NUMBERS[number]), np.full(8, FIGURE, np.uint64)


def run_words(cells, words):
    return words[int(np.prod(cells.shape[:-1])) + 1:].reshape(-1, STRIDE)


def ours(lib, cells, structure, number, blocks):
    """What is returned, n with runs, joins and nonzero cells, the output, the words of the runs, and whether all that was lent stands."""
    shape, words, out, answer = lent(cells, number)
    returned = call(lib, f"label_frame_{kind_of(cells)}_{number}", shape, structure.ravel(), words, cells.ravel(), out, blocks, answer)
    stands = (words == WORD).all() and (out == PLACE).all() and (answer == FIGURE).all()
    return returned, [int(x) for x in answer[:4]], out, run_words(cells, words), stands


def changed(lib, cells, old, structure, number, k):
    """As ours, but for what stands: by a session that is opened with another structure, changed after k lines, and read at the end."""
    shape, words, out, answer = lent(cells, number)
    record, width, feed = np.zeros(RECORD, np.uint64), cells.shape[-1], f"label_feed_{kind_of(cells)}"
    flat, lines = cells.ravel(), int(np.prod(cells.shape[:-1]))
    returned = [
        call(lib, "label_open", shape, old.ravel(), words, record),
        call(lib, feed, record, words, k, flat[:k * width], answer),
        call(lib, "label_widen", record, words, structure.ravel(), answer),
        call(lib, feed, record, words, lines - k, flat[k * width:], answer),
        call(lib, f"label_read_{number}", record, words, out, answer),
    ]
    return next((x for x in returned if x), 0), [int(x) for x in answer[:4]], out, run_words(cells, words), None


def scipys(cells, structure, number):
    """n and the labels, or None if the kind is too narrow."""
    try:
        labels, n = ndimage.label(cells, structure, NUMBERS[number])
        return n, labels
    except RuntimeError as error:
        assert "bit-depth" in str(error), error
        return None


def differs(result, cells, structure, number):
    """What `ours` or `changed` gave beside SciPy under this structure."""
    returned, (n, runs, joins, total), out, words, _ = result
    theirs = scipys(cells, structure, number)
    if theirs is None:
        return None if returned == REFUSED else f"SciPy refuses, ours returns {returned}"
    if returned != 0:
        return f"SciPy finds {theirs[0]}, ours returns {returned}"
    if n != theirs[0] or runs != n + joins:
        return f"SciPy finds {theirs[0]}, ours {n} with {runs} runs and {joins} joins"
    if total != np.count_nonzero(cells):
        return f"{np.count_nonzero(cells)} cells are nonzero, ours answers {total}"
    if not np.array_equal(out, theirs[1]):
        return "the numbers differ"
    roots = words[:runs][words[:runs, PARENT] == np.arange(runs)]
    sizes = np.bincount(theirs[1].ravel(), minlength=n + 1)[1:]
    return None if np.array_equal(roots[:, SIZE], sizes) else f"the roots' sizes are {roots[:, SIZE]}, of SciPy's groups {sizes}"


def lopsided_differs(result, cells, structure, number):
    """Ours must return 12 and write nothing. SciPy must refuse the structure too, unless there is no cell: then it does not look at it."""
    returned, _, _, _, stands = result
    try:
        ndimage.label(cells, structure, NUMBERS[number])
        said = "nothing"
    except Exception as error:
        said = str(error)
    if said != ("Structuring element is not symmetric" if cells.size else "nothing"):
        return f"of a lopsided structure SciPy says {said}"
    return None if returned == LOPSIDED and stands else f"a lopsided structure: ours returns {returned}; all stands: {stands}"


def flags_of(values):
    return "".join("1" if v else "0" for v in values.ravel())


def text_differs(program, structure, cells):
    """What clumps prints for a frame. No structure is an empty line, which means nine ones; SciPy's own default is the cross."""
    named = "" if structure is None else flags_of(structure)
    text = f"width={cells.shape[1]}\nlines={cells.shape[0]}\nstructure={named}\ncells={flags_of(cells)}\n"
    meant = np.ones((3, 3), np.uint8) if structure is None else structure
    labels, n = ndimage.label(cells, meant)
    before = np.pad(cells, ((0, 0), (1, 0)))[:, :-1] if meant[1, 0] else np.zeros_like(cells)
    runs = np.count_nonzero((cells != 0) & (before == 0))
    numbers = " ".join(str(x) for x in labels.ravel())
    right = f"runs={runs}\njoins={runs - n}\ncells={np.count_nonzero(cells)}\nobjects={n}\nlabels={numbers}\n"
    printed = subprocess.run([program], input=text.encode(), capture_output=True).stdout
    return None if printed == right.encode() else f"clumps prints\n{printed.decode()}and by SciPy it is\n{right}for\n{text}"


def texts(program, r, count):
    """How many texts have an empty structure line, and how many differed."""
    empty, differed = 0, 0
    for _ in range(count):
        structure = None if r.integers(3) == 0 else structure_of(r, 2)
        shape = r.integers(1, r.choice([4, 9, 49], 2))
        why = text_differs(program, structure, cells_of(r, shape, "u8"))
        empty += structure is None
        differed += why is not None
        if why and differed == 1:
            print(f"the first difference of a text: {why}")
    return empty, differed


def tries_of(lib, r, cells, structure, number):
    """What is tried on a frame, a whole frame always and the rest at times: its name, more about it, the comparison, what ours gave, the
    structure."""
    lines = int(np.prod(cells.shape[:-1]))
    blocks = int(r.integers(0, lines + 2))
    yield "whole", f"{blocks} blocks", differs, ours(lib, cells, structure, number, blocks), structure
    if r.integers(4) == 0:
        s = lopsided_of(r, structure)
        yield "lopsided", f"{blocks} blocks", lopsided_differs, ours(lib, cells, s, number, blocks), s
    if r.integers(2) == 0:
        old, k = narrower_of(r, structure), int(r.integers(0, lines + 1))
        yield "changed", f"after {k} lines from {old.tolist()}", differs, changed(lib, cells, old, structure, number, k), structure


def main():
    lib, program = ctypes.CDLL(sys.argv[1]), sys.argv[2]
    seed = int(sys.argv[3]) if len(sys.argv) > 3 else 1
    frames = int(sys.argv[4]) if len(sys.argv) > 4 else 30000
    r = np.random.default_rng(seed)
    seen, tried, differed = Counter(), Counter(), 0
    for i in range(frames):
        rank = 1 + i % 4
        kind, number = list(CELLS)[i // 4 % 4], list(NUMBERS)[i // 16 % 3]
        shape, structure = shape_of(r, rank), structure_of(r, rank)
        cells = np.ascontiguousarray(cells_of(r, shape, kind))
        narrow = scipys(cells, structure, number) is None
        seen.update([f"rank {rank}", f"cells {kind}", f"numbers {number}", "too narrow a kind" if narrow else "numbered"])
        for name, more, compare, result, s in tries_of(lib, r, cells, structure, number):
            tried[name] += 1
            why = compare(result, cells, s, number)
            differed += why is not None
            if why and differed == 1:
                print(f"the first difference: {why}\nshape {shape}, {kind} into {number}, {name}, {more}")
                print(f"structure {s.tolist()}\ncells {cells.tolist()}")
    print(f"SciPy {scipy.__version__}, seed {seed}; {frames} frames: " + ", ".join(f"{k} {v}" for k, v in sorted(seen.items())))
    print(f"{tried['lopsided']} tried for 12, {tried['changed']} sessions that change their structure")
    empty, texts_differed = texts(program, r, frames // 10)
    print(f"{frames // 10} texts to clumps, {empty} of them with an empty structure line")
    print(f"{differed + texts_differed} differed")
    sys.exit(differed + texts_differed > 0)


main()
