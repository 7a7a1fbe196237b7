# The first table of `speed` beside OpenCV, SciPy and scikit-image, where Debian's packages of them are installed: the same frames, one thread,
# the least of many. Called by ./speed with the folder of the frames.
import sys
import time

import numpy


def least(call, tries):
    best = float("inf")
    for _ in range(tries):
        began = time.perf_counter()
        call()
        best = min(best, time.perf_counter() - began)
    return best * 1e3


def sides():
    """Name, version, and a function of a frame and whether corners count, which gives what is timed."""
    try:
        import cv2
        cv2.setNumThreads(1)
        out = numpy.zeros((1024, 1024), numpy.int32)
        yield "OpenCV", cv2.__version__, lambda frame, corners: lambda: cv2.connectedComponents(frame, out, 8 if corners else 4, cv2.CV_32S)
    except ImportError:
        print("python3-opencv is not installed")
    try:
        import scipy
        from scipy import ndimage
        to = numpy.zeros((1024, 1024), numpy.int32)
        yield "SciPy", scipy.__version__, lambda frame, corners: lambda: ndimage.label(frame, numpy.ones((3, 3)) if corners else None, to)
    except ImportError:
        print("python3-scipy is not installed")
    try:
        import skimage
        from skimage import measure
        yield "scikit-image", skimage.__version__, lambda frame, corners: lambda: measure.label(frame, connectivity=2 if corners else 1)
    except ImportError:
        print("python3-skimage is not installed")


def main(folder):
    rows = [line.rstrip("\n").split("\t") for line in open(folder + "/times.tsv")]
    others = list(sides())
    if not others:
        return
    print("ms of ours, then of " + ", ".join(name + " " + version for name, version, _ in others))
    frames = {at: numpy.fromfile(folder + "/" + at + ".u8", numpy.uint8).reshape(1024, 1024) for at, _, _, _ in rows}
    best = {(what, name): float("inf") for _, what, _, _ in rows for name, _, _ in others}
    for _ in range(4):  # in rounds, so that what disturbs the machine for a while does not meet one frame alone
        for at, what, _, _ in rows:
            for name, _, make in others:
                best[what, name] = min(best[what, name], least(make(frames[at], what.endswith("full")), 10))
    for _, what, _, ours in rows:
        print("%-30s %8.3f " % (what, float(ours)) + " ".join("%8.3f" % best[what, name] for name, _, _ in others))
    ahead = [(name, sum(best[what, name] <= float(ours) for _, what, _, ours in rows)) for name, _, _ in others]
    print("; ".join("%s is ahead on %d of %d" % (name, n, len(rows)) for name, n in ahead))


main(sys.argv[1])
