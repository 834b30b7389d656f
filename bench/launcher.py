#!/usr/bin/env python3
"""Prints what ./opuspack costs over the program itself, in milliseconds: 500 turns of both, with words that read nothing."""
import pathlib
import subprocess
import time

TOP = pathlib.Path(__file__).resolve().parent.parent
WORDS = ["make", "--count", "0"]
PROGRAMS = [TOP / "crates/opuspack/out/opuspack", TOP / "opuspack"]


def took(program):
    start = time.perf_counter()
    subprocess.run([program, *WORDS], stdin=subprocess.DEVNULL, check=True, close_fds=False)
    return (time.perf_counter() - start) * 1000


subprocess.run([TOP / "opuspack", *WORDS], check=True)
time.sleep(2.5)
subprocess.run([TOP / "opuspack", *WORDS], check=True)
runs = [[took(program) for program in PROGRAMS] for _ in range(500)]
for name, column in zip(("program", "launcher"), zip(*runs)):
    row = sorted(column)
    print(f"{name:9} least {row[0]:.2f}  tenth {row[50]:.2f}  median {row[250]:.2f}")
