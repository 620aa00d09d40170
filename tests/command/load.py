#!/usr/bin/env python3
"""The file of the load that a seed gives, written from the specification: a ring of 55 numbers, sets as lists of states, blocks of bytes.

    load.py SEED STATES FANOUT > FILE

It takes only what the call accepts.
"""
import sys

WIDTH = 2**32
LONG, SHORT = 55, 24
BLOCK, CONTENT, PRIME = 512, 508, 65521
NO_GROUPS = 32768


def numbers(seed):
    """The numbers from the 56th on."""
    ring = [seed]
    while len(ring) < LONG:
        ring.append((ring[-1] + 2654435769) % WIDTH)
    oldest = 0
    while True:
        ring[oldest] = (ring[oldest] + ring[(oldest + LONG - SHORT) % LONG]) % WIDTH
        yield ring[oldest]
        oldest = (oldest + 1) % LONG


def rows(seed, n, f):
    """The successors of each state."""
    drawn = numbers(seed)
    return [{next(drawn) % n for _ in range(f)} for _ in range(n)]


def set_bytes(n, states):
    return sum(1 << state for state in states).to_bytes((n + 7) // 8, "little")


def contents(seed, n, f):
    """State 0 is initial, the last one marked, and none rests."""
    sets = [{0}, {n - 1}, set()] + rows(seed, n, f)
    return n.to_bytes(2, "little") + NO_GROUPS.to_bytes(2, "little") + b"".join(set_bytes(n, states) for states in sets)


def block(k, content):
    front = k.to_bytes(2, "little") + content.ljust(CONTENT, b"\0")
    check = sum(i * byte for i, byte in enumerate(front, 1)) % PRIME
    return front + check.to_bytes(2, "little")


def file(seed, n, f):
    joined = contents(seed, n, f)
    parts = [joined[at : at + CONTENT] for at in range(0, len(joined), CONTENT)]
    return b"".join(block(k, part) for k, part in enumerate(parts))


if __name__ == "__main__":
    sys.stdout.buffer.write(file(*map(int, sys.argv[1:])))
