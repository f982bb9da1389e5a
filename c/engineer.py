"""An engineer's script over ctypes: draws lines at random and checks at every whole point that the weights add up to one.

usage: engineer.py LIBRARY [SEED]

LIBRARY is the shared library that the C compiler makes from the archive (README.md says how). SEED starts the draws
elsewhere; without it PUMP_SEED of the environment does. The seed is printed, so that a run can be had again.
"""
import ctypes
import os
import random
import sys
from collections import Counter
from fractions import Fraction

SIDE = 12
LARGEST_FILE = 13020


class Weight(ctypes.Structure):
    _fields_ = [(name, ctypes.c_int16) for name in ("l", "m", "r", "b", "n", "t")] + [
        ("numerator", ctypes.c_uint16),
        ("denominator", ctypes.c_uint16),
    ]


class Map:
    """A map as the bytes of its file, in one buffer that holds every map."""

    def __init__(self, library, w, h):
        self.library = library
        self.buffer = (ctypes.c_uint8 * LARGEST_FILE)()
        self.used = ctypes.c_size_t()
        size = ctypes.c_size_t(LARGEST_FILE)
        number = library.pump_fresh(ctypes.c_size_t(w), ctypes.c_size_t(h), self.buffer, size, ctypes.byref(self.used))
        assert number == 0, number

    def split(self, *numbers):
        numbers = [ctypes.c_size_t(n) for n in numbers]
        return self.library.pump_split(self.buffer, ctypes.c_size_t(LARGEST_FILE), ctypes.byref(self.used), *numbers)

    def weights(self, u, v):
        four = (Weight * 4)()
        number = self.library.pump_weights(
            self.buffer, self.used, ctypes.c_size_t(u), ctypes.c_size_t(v), four, ctypes.c_size_t(ctypes.sizeof(four))
        )
        assert number == 0, number
        return four


def main():
    library = ctypes.CDLL(sys.argv[1])
    for name in ("fresh", "split", "weights"):
        getattr(library, "pump_" + name).restype = ctypes.c_size_t
    seed = int(sys.argv[2] if len(sys.argv) > 2 else os.environ.get("PUMP_SEED", 1))
    print("seed", seed)
    draw = random.Random(seed)
    numbers, points = Counter(), 0
    for _ in range(20):
        pump = Map(library, SIDE, SIDE)
        ends = [{0, SIDE}, {0, SIDE}]  # where lines of the other direction cross
        for _ in range(20):
            direction, position = draw.randrange(2), draw.randrange(1, SIDE)
            start, end = sorted(draw.sample(sorted(ends[direction]), 2))
            number = pump.split(direction, position, start, end, draw.choice([0, 2, 128]))
            numbers[number] += 1
            if number == 0:
                ends[1 - direction].add(position)
        for u in range(SIDE + 1):
            for v in range(SIDE + 1):
                total = sum(Fraction(w.numerator, w.denominator) for w in pump.weights(u, v))
                assert total == 1, (u, v, total)
                points += 1
    print("answers", dict(sorted(numbers.items())))
    print("at all", points, "points the weights add up to one")


main()
