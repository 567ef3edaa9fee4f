#!/usr/bin/env python3
"""reference.py [N]: how far the proved atan, ln and ln_1p are from the functions, in units, at N points a case (100,000 if not said).

The references have 200 bits (mpmath); the answers are those of libgatewren.a, by `oracle/run answers`, or by the words in ANSWERS, to
which the leaf's name is added. A unit is document 01's: 2^-52 times the largest power of two not above the answer's size, and at
least 2^-1074. Half the points of a case are spread over all its exponents, half over those where the sums are longest; a tenth of all
have digits next to a power of two.
"""
import os
import random
import shlex
import struct
import subprocess
import sys

import mpmath

mpmath.mp.prec = 200
HERE = os.path.dirname(os.path.abspath(__file__))


def pattern(x):
    return struct.unpack(">Q", struct.pack(">d", x))[0]


def number(b):
    return struct.unpack(">d", struct.pack(">Q", b))[0]


def normal(exponents):
    digits = random.choice([random.getrandbits(52)] * 9 + [random.choice([0, 1, 2, 2**52 - 1, 2**52 - 2])])
    return number((1023 + random.choice(exponents) << 52) + digits)


def atan_point():
    return random.choice([1, -1]) * normal(random.choice([range(-30, 70), range(-4, 4)]))


def ln_from_two():
    return normal(random.choice([range(1, 1024), range(1, 5)]))


def ln_above_one():
    """Half the points have any distance from 1, the other half the large ones."""
    return 1 + normal(random.choice([range(-52, 0), range(-3, 0)]))


def ln_below_one():
    return 1 - normal(random.choice([range(-53, -1), range(-4, -1)]))


def ln_below_half():
    return normal(random.choice([range(-1022, -1), range(-5, -1)]))


def ln_subnormal():
    return number(random.randint(1, 2**random.randint(1, 52) - 1))


def ln_1p_point():
    while True:
        a = random.choice([1, -1]) * normal(random.choice([range(-56, 0), range(-4, 0)]))
        if abs(a) <= 0.75:
            return a


CASES = [
    ("atan", "", atan_point, mpmath.atan),
    ("ln", " from 2 up", ln_from_two, mpmath.log),
    ("ln", " between 1 and 2", ln_above_one, mpmath.log),
    ("ln", " between 1/2 and 1", ln_below_one, mpmath.log),
    ("ln", " below 1/2", ln_below_half, mpmath.log),
    ("ln", " subnormal", ln_subnormal, mpmath.log),
    ("ln_1p", "", ln_1p_point, mpmath.log1p),
]


def error(answer, exact):
    unit = mpmath.ldexp(1, max(mpmath.frexp(abs(answer))[1] - 53, -1074))
    return abs(mpmath.mpf(answer) - exact) / unit


def main():
    n = int(sys.argv[1]) if len(sys.argv) > 1 else 100_000
    ask = shlex.split(os.environ.get("ANSWERS", "")) or [os.path.join(HERE, "run"), "answers"]
    random.seed(2026)
    for name, where, point, function in CASES:
        points = [point() for _ in range(n)]
        lines = "".join("%016X\n" % pattern(x) for x in points)
        run = subprocess.run(ask + [name], input=lines, capture_output=True, text=True, check=True)
        answers = [number(int(line, 16)) for line in run.stdout.split()]
        worst, at = max((error(y, function(mpmath.mpf(x))), x) for x, y in zip(points, answers, strict=True))
        print(f"{name}{where}: {len(answers)} points, largest error {mpmath.nstr(worst, 5)} units, at {pattern(at):016X}", flush=True)


main()
