#!/usr/bin/env python3
"""Makes the stored recordings: `make.py demo` demo/echoes.cf32, `make.py gate` the inputs of the gate's run of the program.

Needs Python 3 and nothing else. A run makes the same bytes each time.
"""
import cmath
import math
import os
import random
import struct
import sys

HERE = os.path.dirname(os.path.abspath(__file__))
A = math.sqrt(0.5)


def noise(rng):
    """A number of mean 0 and deviation 1, near to Gaussian."""
    return sum(rng.random() for _ in range(12)) - 6.0


def received(rng, count, echoes, deviation, phase):
    """QPSK symbols, one sample each, smeared by echoes, turned by phase(i) turns and noisy."""
    sent = [complex(rng.choice((A, -A)), rng.choice((A, -A))) for _ in range(count)]
    samples = []
    for i in range(count):
        x = sum(h * sent[i - d] for d, h in echoes if d <= i)
        x *= cmath.exp(2j * math.pi * phase(i))
        samples.append(x + deviation * complex(noise(rng), noise(rng)))
    return samples


def write(path, samples):
    with open(path, "wb") as f:
        for x in samples:
            f.write(struct.pack("<ff", x.real, x.imag))


def demo():
    rng = random.Random(1980)
    echoes = [(0, 1.0), (1, 0.50 * cmath.exp(0.9j)), (2, 0.28 * cmath.exp(-2.0j)), (4, 0.15 * cmath.exp(1.5j))]
    samples = received(rng, 5000, echoes, 0.03, lambda i: 0.05 + i * 1e-4 + 0.02 * math.sin(i / 400))
    blank = complex(math.nan, math.nan)
    samples[3200:3300] = [blank] * 100
    write(os.path.join(HERE, "echoes.cf32"), samples)


def gate():
    crate = os.path.join(HERE, "..", "crates", "equalizer")
    data = os.path.join(crate, "data")
    os.makedirs(data, exist_ok=True)
    rng = random.Random(7)
    samples = received(rng, 40, [(0, 1.0), (1, 0.3j)], 0.02, lambda i: 0.0)
    samples[20] = complex(math.nan, 0.5)
    samples[25] = complex(0.5, -math.inf)
    large = 3.4e38
    samples[30] = complex(large, -large)
    samples[31] = complex(large, large)
    samples[32] = complex(-large, large)
    write(os.path.join(crate, "stdin"), samples)
    write(os.path.join(data, "small.cf32"), samples[:20])
    write(os.path.join(data, "empty.cf32"), [])


if __name__ == "__main__":
    if sys.argv[1:] == ["demo"]:
        demo()
    elif sys.argv[1:] == ["gate"]:
        gate()
    else:
        sys.exit(__doc__)
