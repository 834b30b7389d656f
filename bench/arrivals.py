#!/usr/bin/env python3
"""Compares replay and recv with a plain program over 200,000 generated arrivals: lost and repeated packets, packets out of order up to the
window of 32,768 numbers, and some beyond it. It prints a line a seed, and ends with 1 where anything differs."""
import pathlib
import random
import struct
import subprocess
import sys

TOP = pathlib.Path(__file__).resolve().parent.parent
PROGRAM = pathlib.Path(sys.argv[1]) if len(sys.argv) > 1 else TOP / "crates/opuspack/out/opuspack"
COUNT = 200_000


def arrivals(seed):
    """Sequence numbers as they arrive."""
    draw, number, late = random.Random(seed), 65_000, []
    for _ in range(COUNT):
        kind = draw.random()
        if kind < 0.70:
            number += 1
            yield number
        elif kind < 0.85:
            number += draw.randrange(1, 40)
            yield number
        elif kind < 0.90:
            yield number
        elif kind < 0.97:
            yield number - draw.randrange(1, 200)
        elif kind < 0.98:
            yield number - draw.choice([32_766, 32_767, 32_768, 32_769])
        elif kind < 0.99:
            number += draw.choice([32_767, 32_768])
            yield number
        else:
            yield number - draw.randrange(1, 32_768)


def report(sequence):
    """What arrived first of each number, in an ordinary map, and how many repeats there were: no ring, no window but the rule on numbers."""
    first, greatest, repeats = {}, None, 0
    for k, seq in enumerate(sequence):
        if greatest is None:
            number = seq
        else:
            number = greatest - 32_767 + (seq - (greatest - 32_767)) % 65_536
        greatest = number if greatest is None else max(greatest, number)
        if number in first:
            repeats += 1
        else:
            first[number] = k
    return first, repeats


def expected(first, repeats):
    """The lines of replay, and the store of recv."""
    lines, store, missing, before = [], [], 0, None
    for number in sorted(first):
        if before is not None and number > before + 1:
            lines.append(f"gap {before + 1} count {number - before - 1}")
            store.append(bytes(8) * (number - before - 1))
            missing += number - before - 1
        k = first[number]
        lines.append(f"packet {number} stamp {k} bytes {1 + k % 3}")
        store.append(struct.pack(">II", 1 + k % 3, 0) + payload(k))
        before = number
    lines.append(f"records {COUNT} rtcp 0 cut 0 bad 0 other 0 repeats {repeats} packets {len(first)} missing {missing}")
    return "\n".join(lines) + "\n", b"".join(store)


def payload(k):
    """A packet of one frame of 0 to 2 bytes."""
    return b"\xfc" + bytes([k % 251, k % 241])[: k % 3]


def main():
    wrong = 0
    for seed in (1, 2, 3):
        sequence = [number % 65_536 for number in arrivals(seed)]
        packets = (struct.pack(">BBHII", 0x80, 111, seq, k, 7) + payload(k) for k, seq in enumerate(sequence))
        capture = b"#!rtpplay1.0 10.0.0.5/5004\n" + bytes(16) + b"".join(struct.pack(">HHI", len(p) + 8, len(p), 0) + p for p in packets)
        first, repeats = report(sequence)
        lines, store = expected(first, repeats)
        replayed = subprocess.run([PROGRAM, "replay"], input=capture, stdout=subprocess.PIPE, check=True).stdout.decode()
        received = subprocess.run([PROGRAM, "recv"], input=capture, stdout=subprocess.PIPE, check=True).stdout
        same = replayed == lines and received == store
        wrong |= not same
        print(f"seed {seed}: {len(first)} packets, {repeats} repeats, {len(store)} bytes: {'equal' if same else 'DIFFERENT'}")
    sys.exit(1 if wrong else 0)


main()
