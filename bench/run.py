#!/usr/bin/env python3
"""Costs of the jobs on large inputs of this script's own making; bench/README.md says what is printed."""
import itertools
import os
import pathlib
import re
import resource
import shutil
import struct
import subprocess
import sys
import tempfile
import time

TOP = pathlib.Path(__file__).resolve().parent.parent
PROGRAM = TOP / "crates/opuspack/out/opuspack"
JOBS = [
    ["norm", "--form", "demo"],
    ["norm", "--form", "demo", "--padding", "keep"],
    ["check", "--form", "demo"],
    ["norm", "--form", "self"],
    ["merge", "--form", "demo", "--group", "2"],
    ["split", "--form", "demo", "--frames", "2"],
    ["pad", "--form", "demo", "--size", "300"],
    ["send"],
    ["show", "--form", "demo"],
    ["recv"],
    ["replay"],
    ["norm", "--form", "demo", "--streams", "4"],
    ["check", "--form", "demo", "--streams", "4"],
    ["apart", "--streams", "4"],
    ["extract", "--streams", "4", "--stream", "1"],
]


def single(k):
    """A packet of 180 to 220 bytes with one frame: config 31, stereo, code 0."""
    size = 180 + k * 7 % 41
    return b"\xfc" + bytes((k + t) % 256 for t in range(size - 1))


def short(k):
    """A packet of 5 to 60 bytes with one frame."""
    size = 5 + k * 7 % 56
    return b"\xfc" + bytes((k + t) % 256 for t in range(size - 1))


def spelled(k):
    """A packet of 48 frames of 2 to 60 bytes with spelled lengths: config 28 (2.5 ms), code 3."""
    sizes = [2 + (k + 11 * n) % 59 for n in range(48)]
    return bytes([0xe3, 0x80 | 48, *sizes[:-1]]) + bytes(t % 256 for t in range(sum(sizes)))


def hundred(k):
    """A packet of 100 bytes with one frame."""
    return b"\xfc" + bytes((k + t) % 256 for t in range(99))


STORES = {"180 to 220 bytes": single, "5 to 60 bytes": short, "48 spelled frames": spelled}

# Instructions a packet that are to be reached.
GOALS = {
    ("norm", "180 to 220 bytes"): 320,
    ("norm", "5 to 60 bytes"): 290,
    ("norm", "48 spelled frames"): 1_750,
    ("check", "180 to 220 bytes"): 270,
    ("merge", "180 to 220 bytes"): 450,
    ("split", "180 to 220 bytes"): 450,
    ("pad", "180 to 220 bytes"): 450,
    ("send", "180 to 220 bytes"): 500,
    ("norm", "four streams"): 1_600,
    ("recv", "100 bytes"): 600,
    ("replay", "100 bytes"): 800,
}


def plain():
    """A self-delimited packet of 200 bytes: code 0."""
    return bytes([0xfc, 198]) + bytes(198)


def three_lengths():
    """A self-delimited packet of 200 bytes: code 3 with three spelled lengths and 10 bytes of padding."""
    return bytes([0xff, 0xc3, 10, 60, 61, 63]) + bytes(184 + 10)


# Instructions a packet that a feed is to take, beyond the copy of the frames.
FEED_GOALS = {"code 0": (plain, 150), "code 3, three lengths, padding": (three_lengths, 250)}


def spelled_length(size):
    """A frame's length as RFC 6716, 3.2.1 spells it."""
    return bytes([size]) if size < 252 else bytes([252 + size % 4, (size - 252 - size % 4) // 4])


def framed(packet):
    """A packet of code 0 as self-delimited."""
    return packet[:1] + spelled_length(len(packet) - 1) + packet[1:]


def surround(k):
    """A multistream packet of four streams of 200 bytes each."""
    packets = [b"\xfc" + bytes((k + s + t) % 256 for t in range(199)) for s in range(4)]
    return b"".join(framed(packet) for packet in packets[:3]) + packets[3]


STREAMS = {"four streams": surround}


def demo(k, packet):
    """A record of a store."""
    return struct.pack(">II", len(packet), k) + packet


def captured(k, packet, seq=None):
    """A record of a capture: an RTP packet with this payload."""
    rtp = struct.pack(">BBHII", 0x80, 111, (k if seq is None else seq) % 65536, k * 960 % 2**32, 7) + packet
    return struct.pack(">HHI", len(rtp) + 8, len(rtp), 20 * k) + rtp


# What stands in front of a capture's records.
OPENING = b"#!rtpplay1.0 10.0.0.5/5004\n" + bytes(16)


def capture(path, count, step=1):
    """Writes a capture of so many packets of 100 bytes, with sequence numbers that go on by `step`."""
    with open(path, "wb") as file:
        file.write(OPENING + b"".join(captured(k, hundred(k), k * step) for k in range(count)))


def store(path, count, payload, record=demo):
    """Writes so many records, and answers the payload bytes."""
    body = 0
    packets = [payload(k) for k in range(min(count, 4100))]
    records = [record(k, packet) for k, packet in enumerate(packets)]
    with open(path, "wb") as file:
        for k in range(count):
            file.write(records[k % len(records)])
            body += len(packets[k % len(packets)])
    return body


def padded(path, size):
    """Writes one packet of code 3 with so many bytes of padding."""
    full, last = divmod(size - 1, 255)
    with open(path, "wb") as file:
        file.write(b"\xfb\x41" + b"\xff" * full + bytes([last]) + b"\xaa" + bytes(254 * full + last))


def most_resident(child):
    """Greatest resident kilobytes until the child ends: what wait4 tells would begin with this script's own."""
    most = 0
    while child.poll() is None:
        try:
            status = pathlib.Path(f"/proc/{child.pid}/status").read_text()
        except OSError:
            break
        found = re.search(r"VmHWM:\s+(\d+) kB", status)
        if found:
            most = int(found[1])
        time.sleep(0.002)
    return most


def run(words, path):
    """Processor seconds and greatest resident kilobytes of one run."""
    before = resource.getrusage(resource.RUSAGE_CHILDREN)
    with open(path, "rb") as source, open(os.devnull, "wb") as sink:
        child = subprocess.Popen([PROGRAM, *words], stdin=source, stdout=sink)
        most = most_resident(child)
    if child.wait() != 0:
        sys.exit(f"{' '.join(words)}: status {child.returncode}")
    used = resource.getrusage(resource.RUSAGE_CHILDREN)
    return used.ru_utime + used.ru_stime - before.ru_utime - before.ru_stime, most


def instructions(command, path, folder):
    """Instructions that one run takes, by callgrind; and its status."""
    out = pathlib.Path(folder, "callgrind.out")
    with open(path, "rb") as source:
        done = subprocess.run(
            ["valgrind", "--tool=callgrind", f"--callgrind-out-file={out}", *command],
            stdin=source, stdout=subprocess.DEVNULL, stderr=subprocess.PIPE, text=True)
    return int(re.search(r"Collected : (\d+)", done.stderr)[1]), done.returncode


def copies(folder):
    """Instructions of the last run that callgrind saw, within the C library's copies of bytes."""
    told = subprocess.run(
        ["callgrind_annotate", "--threshold=100", pathlib.Path(folder, "callgrind.out")],
        stdout=subprocess.PIPE, text=True, check=True).stdout
    return sum(int(count.replace(",", "")) for count in re.findall(r"(?m)^ *([\d,]+) .*:_*mem(?:cpy|move)\w*", told))


def costs(words, payload, folder):
    """Instructions a packet and a payload byte: what a longer store takes more than a short one."""
    few, many = pathlib.Path(folder, "few"), pathlib.Path(folder, "many")
    record = (lambda k, packet: framed(packet)) if "self" in words else demo
    body = store(many, 2_500, payload, record) - store(few, 500, payload, record)
    more = instructions([PROGRAM, *words], many, folder)[0] - instructions([PROGRAM, *words], few, folder)[0]
    return more / 2_000, more / body


def receiving(words, step, few, many, folder):
    """Instructions a packet of a job over captures, behind the first packets of a window."""
    took = []
    for count in (few, many):
        path = pathlib.Path(folder, "capture")
        capture(path, count, step)
        took.append(instructions([PROGRAM, *words], path, folder)[0])
    return (took[1] - took[0]) / (many - few)


def parameter_cost(size, folder):
    """Instructions a parameter that sdp takes for a line of so many bytes, all of unknown names of two or three bytes."""
    names = ("".join(name) for k in (2, 3) for name in itertools.product("abcdefghijklmnopqrstuvwxyz0123456789-_.", repeat=k))
    line, count = bytearray(b"a=fmtp:111 "), 0
    while len(line) < size:
        name = next(names)
        if name != "cbr":
            line += f"{name}=0123456789ab;".encode()
            count += 1
    path = pathlib.Path(folder, "line")
    path.write_bytes(line + b"\n")
    return instructions([PROGRAM, "sdp"], path, folder)[0] / count


def feed_program(folder):
    """Builds the program of feed/main.rs over opus_feed and the crates below it, in a checkout of its own."""
    top = pathlib.Path(folder, "checkout")
    lines = (TOP / "crates.txt").read_text().splitlines()
    below = next(line for line in lines if line.startswith("opus_feed:")).split()[1:]
    names = ["opus_feed", *[name for name in below if (TOP / "crates" / name).exists()]]
    for name in names:
        shutil.copytree(TOP / "crates" / name, top / "crates" / name)
    crate = top / "crates/feed_cost"
    (crate / "src").mkdir(parents=True)
    shutil.copy(TOP / "bench/feed/main.rs", crate / "src/main.rt")
    shutil.copy(TOP / "HANDLES", top)
    kept = [line for line in lines if line.split(":")[0] in names]
    (top / "crates.txt").write_text("\n".join([*kept, f"feed_cost: opus_feed {' '.join(below)}", ""]))
    subprocess.run(["rt", "run"], cwd=crate, stdin=subprocess.DEVNULL, stdout=subprocess.DEVNULL, stderr=subprocess.DEVNULL, check=True)
    return crate / "out/feed_cost"


def feed_cost(program, packet, folder):
    """Instructions a packet that the feed takes, beyond the copies of bytes and the program's own loop."""
    path = pathlib.Path(folder, "packets")
    taken = {}
    for words in [[], ["pass"]]:
        for count in [512, 2_560]:
            path.write_bytes(packet * count)
            total, status = instructions([program, *words], path, folder)
            if not words and status != count % 251:
                sys.exit("a feed that did not end each packet")
            taken[len(words), count] = total - copies(folder)
    return (taken[0, 2_560] - taken[0, 512] - taken[1, 2_560] + taken[1, 512]) / 2_048


def writes(words, path):
    """How many writes one run makes, by strace."""
    with open(path, "rb") as source:
        done = subprocess.run(
            ["strace", "-f", "-e", "trace=write,read", "-c", PROGRAM, *words],
            stdin=source, stdout=subprocess.DEVNULL, stderr=subprocess.PIPE, text=True)
    calls = {line.split()[-1]: int(line.split()[3]) for line in done.stderr.splitlines() if re.search(r" (read|write)$", line)}
    return calls.get("read", 0), calls.get("write", 0)


def large_input(form, folder):
    """64 MB in a form, or 16 MB for a packet that is the whole input; its path."""
    path = pathlib.Path(folder, form)
    if form == "demo":
        store(path, 320_000, single)
    elif form == "self":
        store(path, 320_000, single, lambda k, packet: framed(packet))
    else:
        padded(path, 2**24 - 1)
    return path


def main():
    subprocess.run([TOP / "opuspack", "norm", "--form", "demo"], stdin=subprocess.DEVNULL, check=True)
    with tempfile.TemporaryDirectory() as folder:
        for form in ["demo", "self", "raw"]:
            large = large_input(form, folder)
            for job in ["norm", "check"]:
                words = [job, "--form", form]
                seconds, resident = run(words, large)
                rate = large.stat().st_size / seconds / 1e6
                line = f"{' '.join(words)}: {rate:.0f} MB/s of processor time, {resident / 1024:.1f} MB resident (goal 4)"
                if shutil.which("strace"):
                    reads, wrote = writes(words, large)
                    line += f", {reads} reads, {wrote} writes"
                print(line)
            large.unlink()
        if not shutil.which("valgrind"):
            return
        for words in JOBS:
            if words[0] in ("recv", "replay"):
                told = f"{receiving(words, 1, 40_000, 44_000, folder):.0f} instructions a packet (goal {GOALS[words[0], '100 bytes']})"
                far = f"{receiving(words, 32_767, 1_000, 1_200, folder):.0f} where each jumps 32,767 ahead (goal 100000)"
                print(f"{words[0]}, 100 bytes: {told}, {far}")
                continue
            for name, payload in STREAMS.items() if "--streams" in words else STORES.items():
                if payload is spelled and (words[0] in ("merge", "pad") or "self" in words):
                    continue
                packet, byte = costs(words, payload, folder)
                goal = GOALS.get((words[0], name))
                said = f" (goal {goal})" if goal and "keep" not in words else ""
                print(f"{' '.join(words)}, {name}: {packet:.0f} instructions a packet{said}, {byte:.2f} a payload byte")
        for size in (100_000, 1_000_000):
            print(f"sdp, a line of {size} bytes: {parameter_cost(size, folder):.0f} instructions a parameter")
        program = feed_program(folder)
        for name, (packet, goal) in FEED_GOALS.items():
            print(f"feed, {name}: {feed_cost(program, packet(), folder):.0f} instructions a packet (goal {goal})")


main()
