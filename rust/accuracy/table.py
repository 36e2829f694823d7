#!/usr/bin/env python3
"""High-precision values of exp, ln and erfc, by mpmath.

  table.py              a table of some thousand points, for `differential --accuracy`
  table.py published    Abramowitz and Stegun's table 7.1 and points of the far tail, for differential/src/published.txt

A line of the table: function, x, the float nearest to the true value (both as bits), and how far the truth lies above it,
in units in its last place. The points are the same in each run.
"""
import struct
import sys

from mpmath import erf, erfc, exp, frexp, ldexp, log, mp, mpf, nint

mp.prec = 400

# erf x as Abramowitz and Stegun print it (table 7.1), ten decimals
PUBLISHED = """
0.00 0.0000000000  0.02 0.0225645747  0.10 0.1124629160  0.20 0.2227025892  0.30 0.3286267595  0.40 0.4283923550
0.50 0.5204998778  0.60 0.6038560908  0.70 0.6778011938  0.80 0.7421009647  0.90 0.7969082124  1.00 0.8427007929
1.10 0.8802050696  1.20 0.9103139782  1.30 0.9340079449  1.40 0.9522851198  1.50 0.9661051465  1.60 0.9763483833
1.70 0.9837904586  1.80 0.9890905016  1.90 0.9927904292  2.00 0.9953222650
"""
TAIL = [2.5, 3, 4, 5, 6, 8, 10, 12, 15, 18, 20, 22, 25, 26]


def bits(x):
    return struct.unpack("<Q", struct.pack("<d", x))[0]


def nearest(value):
    """The bits of the float nearest to a value above 0, and what is left in units of its last place."""
    unit = max(frexp(value)[1] - 53, -1074)
    scaled = ldexp(value, -unit)
    whole = nint(scaled)  # ties to even
    return bits(float(ldexp(whole, unit))), scaled - whole


class Words:
    """splitmix64"""

    def __init__(self, seed):
        self.state = seed

    def next(self):
        mask = 2**64 - 1
        self.state = (self.state + 0x9E3779B97F4A7C15) & mask
        z = self.state
        z = ((z ^ z >> 30) * 0xBF58476D1CE4E5B9) & mask
        z = ((z ^ z >> 27) * 0x94D049BB133111EB) & mask
        return z ^ z >> 31

    def uniform(self, low, high):
        return low + (high - low) * ((self.next() >> 11) / 2.0**53)

    def positive(self):
        while True:
            x = struct.unpack("<d", struct.pack("<Q", self.next() >> 1))[0]
            if 0.0 < x < float("inf"):
                return x


def points(words):
    """The parts of each function's range that its rule treats apart."""
    for _ in range(2500):
        yield "exp", words.uniform(-708.0, 709.7)
        yield "exp_near_0", words.uniform(-1.0, 1.0)
        yield "exp_subnormal", words.uniform(-745.1, -708.4)
        yield "ln", words.positive()
        yield "ln_near_1", words.uniform(0.5, 2.0)
        yield "ln_close_to_1", 1.0 + words.uniform(-1.0, 1.0) * 2.0 ** -(2 + words.next() % 40)
        yield "erfc_centre", words.uniform(-0.46875, 0.46875)
        yield "erfc_middle", words.uniform(0.46875, 4.0)
        yield "erfc_tail", words.uniform(4.0, 26.5)
        yield "erfc_negative", words.uniform(-6.0, -0.46875)


def table():
    functions = {"exp": exp, "ln": log, "erfc": erfc}
    for name, x in points(Words(1)):
        value = functions[name.split("_")[0]](mpf(x))
        if value == 0:
            continue
        sign = 1 << 63 if value < 0 else 0
        near, left = nearest(abs(value))
        print(f"{name} {bits(x):016X} {near | sign:016X} {float(left):+.6f}")


def published():
    words = PUBLISHED.split()
    for x, printed in zip(words[::2], words[1::2]):
        assert abs(erf(mpf(x)) - mpf(printed)) <= mpf("0.5e-10"), x
        print(f"{x} {printed} {bits(float(x)):016X} {nearest(erfc(mpf(float(x))))[0]:016X}")
    for x in TAIL:
        print(f"{x:.2f} - {bits(float(x)):016X} {nearest(erfc(mpf(x)))[0]:016X}")


if __name__ == "__main__":
    published() if sys.argv[1:] == ["published"] else table()
