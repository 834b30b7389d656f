#!/usr/bin/env python3
"""Refuses one request for memory of the program after the other and checks what follows; bench/README.md says what is printed."""
import collections
import os
import pathlib
import shutil
import struct
import subprocess
import sys
import tempfile

TOP = pathlib.Path(__file__).resolve().parent.parent
PROGRAM = TOP / "crates/opuspack/out/opuspack"
NO_MEMORY = 5

# Jobs that want memory only before their first read: the output, which is the other cause, takes none here.
BEFORE_READING = ["norm", "check", "show", "merge", "split", "pad", "apart", "join", "extract", "send"]

Run = collections.namedtuple("Run", "status output note taken refused")


def demo(*records):
    """A store of records, each as its range and the payload in hexadecimal; a lost one has no payload."""
    payloads = [(final, bytes.fromhex(payload)) for final, payload in records]
    return b"".join(struct.pack(">II", len(payload), final) + payload for final, payload in payloads)


def captured(packet, plen=None, offset=0):
    """A record of a capture."""
    return struct.pack(">HHI", len(packet) + 8, len(packet) if plen is None else plen, offset) + packet


def rtp(seq, payload):
    """An RTP packet of payload type 111."""
    return struct.pack(">BBHII", 0x80, 111, seq % 65536, seq * 960 % 2**32, 0x1234ABCD) + payload


LINE = b"#!rtpplay1.0 10.0.0.5/5004\n"
OPENING = LINE + bytes.fromhex("00000000 00000000 0A000005 138C 0000")

# Packets out of order, one that is missing, one cut, one with padding of RTP, a repeat, and an RTCP packet.
CAPTURE = OPENING + b"".join([
    captured(bytes.fromhex("806F03E8 00000000 1234ABCD FC010203")),
    captured(bytes.fromhex("80C90001 1234ABCD"), 0, 5),
    captured(bytes.fromhex("916F03EA 00000780 1234ABCD 00000007 BEDE0001 10FF0000 FC0405"), offset=40),
    captured(bytes.fromhex("806F03E9 000003C0 1234ABCD FC06"), offset=41),
    captured(bytes.fromhex("806F03EB 00000B40 1234ABCD"), 16, 60),
    captured(bytes.fromhex("A06F03EC 00000F00 1234ABCD FC080002"), offset=80),
    captured(bytes.fromhex("806F03EC 00000F00 1234ABCD FC09"), offset=81),
])

# More than two reads each: packets of three frames, or of two streams, each fourth one lost; packets that swap places in pairs.
FRAMES = "FB03" + "AABBCC" * 5
MANY = demo(*[(k, FRAMES if k % 4 else "") for k in range(500)])
PAIRS = demo(*[(k, "F801AA" + "F8" + "BB" * 20 if k % 4 else "") for k in range(500)])
SWAPPED = OPENING + b"".join(captured(rtp(k ^ 1, b"\xf8" + bytes(20))) for k in range(400) if k % 7)
# A packet with 19,999 bytes of padding.
PADDED = "FB41" + "FF" * 78 + "BB" + "AA" + "00" * (254 * 78 + 187)

HEAD = bytes.fromhex("4F70757348656164 01 02 3801 80BB0000 0000 00")
SURROUND = bytes.fromhex("4F70757348656164 01 06 3801 80BB0000 0000 01 04 02 00 04 01 02 03 05")
PARAMETERS = b"a=fmtp:111 useinbandfec=1; maxplaybackrate=16000;minptime=10"

# The status where nothing is refused, the words, and the input.
ROWS = [
    (0, "norm", bytes.fromhex("FA02AABBCCDD")),
    (1, "norm", b""),
    (0, "norm", bytes.fromhex(PADDED)),
    (0, "norm --padding keep", bytes.fromhex("FBC20201AABB0000")),
    (0, "norm --padding keep", bytes.fromhex(PADDED)),
    (0, "norm --form demo", demo((0, "F8AA"), (0, "F8AA"), (0, "F8AA"))),
    (1, "norm --form demo", demo((0, "F8AA"), (0, "FB07"))),
    (0, "norm --form demo", MANY),
    (0, "norm --form demo --padding keep", demo((0, PADDED), (1, PADDED))),
    (0, "norm --form self", bytes.fromhex("F802AABBF800")),
    (0, "norm --streams 2", bytes.fromhex("FB410101AA00FB01BB")),
    (1, "norm --streams 2", bytes.fromhex("F801AAF0BB")),
    (0, "norm --form demo --streams 2", PAIRS),
    (0, "norm --form demo --streams 2 --padding keep", demo((9, "FB410101AA00FB01BB"))),
    (1, "check --form demo", demo((0, "F8AA"), (0, ""), (0, "FB07"))),
    (0, "check --form demo", MANY),
    (0, "check --form demo --streams 2", PAIRS),
    (0, "show", bytes.fromhex("1C11")),
    (0, "show --form demo", MANY),
    (0, "show --form demo --streams 2", PAIRS),
    (0, "merge", demo((1, "F8AA"), (2, "F8BB"), (3, "F8CC"))),
    (1, "merge", demo((0, "F8AA"), (0, "FCBB"))),
    (0, "merge --group 2", MANY),
    (0, "merge --form self", bytes.fromhex("F802AABBF800")),
    (0, "split --frames 2", demo((7, "FB03AABBCC"))),
    (0, "split", MANY),
    (0, "pad --size 5", bytes.fromhex("F8AA")),
    (1, "pad --size 1", bytes.fromhex("F8AA")),
    (0, "pad --form demo --size 300", MANY),
    (0, "apart --streams 2", demo((9, "F801AAF8BB"))),
    (0, "apart --streams 2", PAIRS),
    (0, "join --streams 2", demo((5, "F8AA"), (3, "F8BB"))),
    (1, "join --streams 2", demo((0, "F8AA"), (0, ""))),
    (0, "join --streams 4", demo(*[(k, FRAMES) for k in range(400)])),
    (0, "extract --streams 2 --stream 1", demo((9, "F801AAF8BB"))),
    (0, "extract --streams 2 --stream 1", PAIRS),
    (0, "head", HEAD),
    (0, "head", SURROUND),
    (1, "head", SURROUND[:-1] + b"\x06"),
    (0, "send --pt 111 --seq 65535 --stamp 4294967000 --ssrc 1", demo((5, "F8AA"), (0, ""), (0, "F8BB"))),
    (0, "send", MANY),
    (0, "recv", CAPTURE),
    (0, "recv", SWAPPED),
    (0, "replay", CAPTURE),
    (1, "replay", CAPTURE[:26]),
    (0, "replay", SWAPPED),
    (0, "sdp", PARAMETERS),
    (1, "sdp", b"a=fmtp:111 stereo=2"),
    (0, "sdp", b"a=rtpmap:111 opus/48000/2"),
    (0, "sdp", PARAMETERS + b"".join(b";name-%d=%d" % (k, k) for k in range(500)) + b"\n" + PARAMETERS),
    (0, "make --seed 0 --count 1", b""),
    (0, "make --seed 7 --count 200", b""),
    (0, "trial --seed 0 --count 2", b""),
    (0, "trial --seed 7 --count 200", b""),
    (2, "norm --loud yes", b""),
    (2, "sing", b""),
]


def refuser(folder):
    """The object that refuses, compiled; None where there is no compiler."""
    compiler = shutil.which("cc")
    if compiler is None:
        return None
    made = pathlib.Path(folder, "refuse.so")
    subprocess.run([compiler, "-O1", "-shared", "-fPIC", "-o", made, TOP / "bench/refuse.c"], check=True)
    return made


def run(program, words, path, number, preload):
    """One run in which that request for memory is refused, or none where it is 0: what came of it, and the bytes it took."""
    hears, tells = os.pipe()
    with open(path, "rb", buffering=0) as source:
        done = subprocess.run(
            [program, *words], stdin=source, capture_output=True, pass_fds=[tells], timeout=60,
            env={"LD_PRELOAD": str(preload), "REFUSED": str(number), "REFUSED_TOLD": str(tells)})
        taken = os.lseek(source.fileno(), 0, os.SEEK_CUR)
    os.close(tells)
    with open(hears, "rb") as told:
        return Run(done.returncode, done.stdout, done.stderr, taken, told.read() != b"")


def faults(job, whole, got, sinks):
    """What a run in which memory was refused did wrong, beside the run in which none was. Sinks in memory may be refused room."""
    if got.status == NO_MEMORY:
        if got.note != b"opuspack: no memory\n":
            yield f"note {got.note!r}"
        if not whole.output.startswith(got.output):
            yield f"an output of {len(got.output)} bytes that is no front"
        if job in BEFORE_READING and got.taken and not sinks:
            yield f"no memory behind {got.taken} bytes of input"
    elif sinks and (got.status, got.output) == (whole.status, whole.output) and whole.note.startswith(got.note):
        return
    elif (got.status, got.output, got.note) != (whole.status, whole.output, whole.note):
        yield f"status {got.status}, {len(got.output)} bytes of output, note {got.note!r}"


def row(program, status, words, path, preload, sinks):
    """Refuses each request of a row in turn: the runs, and what was wrong."""
    whole = run(program, words, path, 0, preload)
    if whole.status != status:
        return [], [f"status {whole.status} where nothing is refused, wanted {status}; note {whole.note!r}"]
    runs, wrong = [], []
    while (got := run(program, words, path, len(runs) + 1, preload)).refused:
        runs.append(got)
        wrong += [f"request {len(runs)}: {fault}" for fault in faults(words[0], whole, got, sinks)]
    if got[:3] != whole[:3]:
        wrong.append(f"status {got.status} where nothing is refused any more, or another output or note")
    return runs, wrong


def told(runs):
    """What followed the refusals of a row, in words."""
    ended = [got for got in runs if got.status == NO_MEMORY]
    later = sum(got.taken > 0 for got in ended)
    line = f"{len(runs)} refused, {len(ended)} ended in want of memory"
    if later:
        line += f", {later} of these behind the first read"
    if len(ended) != len(runs):
        line += f", {len(runs) - len(ended)} left the answer as it is"
    return line


def over_sinks():
    """Builds the program over sinks in memory, with sinks/main.rs in the place of its own main, in a checkout of its own."""
    top = pathlib.Path(tempfile.mkdtemp(), "checkout")
    shutil.copytree(TOP, top, ignore=shutil.ignore_patterns(".git"), symlinks=True)
    main_file = top / "crates/opuspack/src/main.rt"
    text = main_file.read_text()
    front = text[:text.index("use crate::arguments")]
    main_file.write_text(front + (TOP / "bench/sinks/main.rs").read_text())
    quiet = {"stdin": subprocess.DEVNULL, "stdout": subprocess.DEVNULL, "stderr": subprocess.DEVNULL}
    subprocess.run(["rt", "run", "--", "norm", "--form", "demo"], cwd=top / "crates/opuspack", check=True, **quiet)
    return top / "crates/opuspack/out/opuspack"


def main():
    words = sys.argv[1:]
    sinks = "--sinks" in words
    words = [word for word in words if word != "--sinks"]
    program = pathlib.Path(words[0]).resolve() if words else PROGRAM
    if sinks and not words:
        program = over_sinks()
    elif program == PROGRAM:
        subprocess.run([TOP / "opuspack", "norm", "--form", "demo"], stdin=subprocess.DEVNULL, check=True)
    differs, total = False, 0
    with tempfile.TemporaryDirectory() as folder:
        preload = refuser(folder)
        if preload is None:
            print("no cc: nothing was tried")
            return 0
        path = pathlib.Path(folder, "input")
        for status, words, source in ROWS:
            path.write_bytes(source)
            runs, wrong = row(program, status, words.split(), path, preload, sinks)
            total += len(runs)
            print(f"{words}, {len(source)} bytes: {told(runs)}")
            for fault in wrong:
                differs = True
                print(f"  {fault}")
    print(f"{len(ROWS)} rows, {total} refused: {'wrong' if differs else 'all as promised'}")
    return int(differs)


sys.exit(main())
