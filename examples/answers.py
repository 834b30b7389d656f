#!/usr/bin/env python3
"""Computes the inputs and the answers of all examples from RFC 6716, RFC 3550 and docs/, without opuspack.

Compares them with the files of this folder, or writes them with --write. Nothing is parsed here: each packet begins
as a value (configuration, stereo, frames), is spelled in some shape as an input, and in its canonical form as an answer.
"""
import pathlib
import struct
import sys

HERE = pathlib.Path(__file__).resolve().parent
SIZES = {0: [480, 960, 1920, 2880], 1: [480, 960], 2: [120, 240, 480, 960]}


def mode(config):
    return 0 if config < 12 else 1 if config < 16 else 2


def samples(config):
    sizes = SIZES[mode(config)]
    return sizes[config % len(sizes)]


def length(n):
    """RFC 6716, 3.2.1."""
    return bytes([n]) if n < 252 else bytes([252 + n % 4, (n - (252 + n % 4)) // 4])


def padding_length(n):
    """n padding bytes (RFC 6716, 3.2.5)."""
    return b"\xff" * (n // 254) + bytes([n % 254]) if n % 254 or not n else b"\xff" * (n // 254 - 1) + b"\xfe"


def spell(value, code, vbr=False, padding=None, delimited=False):
    """A value in the layout of figures 2 to 6 of RFC 6716, or of Appendix B where it is delimited."""
    config, stereo, frames = value
    lengths = [len(frame) for frame in frames]
    out = bytes([config << 3 | stereo << 2 | code])
    if code == 2:
        out += length(lengths[0])
    if code == 3:
        out += bytes([vbr << 7 | (padding is not None) << 6 | len(frames)])
        out += b"" if padding is None else padding_length(len(padding))
        out += b"".join(map(length, lengths[:-1])) if vbr else b""
    return out + (length(lengths[-1]) if delimited else b"") + b"".join(frames) + (padding or b"")


def canonical(value, delimited=False):
    lengths = [len(frame) for frame in value[2]]
    equal = len(set(lengths)) == 1
    code = 0 if len(lengths) == 1 else 3 if len(lengths) > 2 else 1 if equal else 2
    return spell(value, code, not equal, None, delimited)


def padded(value, size):
    """Code 3 with zeros up to the size: the padding's length bytes and its bytes fill what is left."""
    if len(canonical(value)) == size:
        return canonical(value)
    vbr = len({len(frame) for frame in value[2]}) > 1
    every = [spell(value, 3, vbr, bytes(n) if n is not None else None) for n in [None, *range(size)]]
    return next(packet for packet in every if len(packet) == size)


def record(payload, final_range=0):
    return struct.pack(">II", len(payload), final_range) + payload


def frame(n, first):
    return bytes((first + 5 * i) % 256 for i in range(n))


# The store in.bit: ten records of SILK, wide band, mono, 20 ms, two of them lost (None).
LENGTHS = [40, 31, 300, None, 25, 25, 25, None, 12, 0]
SHAPES = {1: dict(code=3), 2: dict(code=3, vbr=True, padding=b"\x01\x02\x03\x04\x05"), 5: dict(code=3, padding=bytes(7))}
VALUES = [n if n is None else (9, 0, [frame(n, 37 * k)]) for k, n in enumerate(LENGTHS)]
RANGES = [1000 * k + 7 for k in range(10)]
SPELLED = [b"" if v is None else spell(v, **SHAPES.get(k, dict(code=0))) for k, v in enumerate(VALUES)]

# The store surround.bit: two pictures of four streams, full band, 20 ms, two of them stereo; a lost record between.
STREAMS = [(31, 1, [frame(30, 1)]), (31, 1, [frame(17, 2)]), (31, 0, [frame(9, 3)]), (29, 0, [frame(6, 4), frame(8, 5)])]
OTHERS = [(27, 1, [frame(11, 6)]), (30, 1, [frame(5, 7), frame(5, 8)]), (31, 0, [frame(260, 9)]), (31, 0, [frame(3, 10)])]
STREAMS[3] = (30, *STREAMS[3][1:])


def several(values, spelled):
    return b"".join(f(v, last) for f, v, last in zip(spelled, values, [True, True, True, False]))


def as_code_3(v, delimited):
    return spell(v, 3, len(v[2]) > 1, b"\x09\x08", delimited)


PICTURES = [several(STREAMS, [as_code_3, canonical] * 2), b"", several(OTHERS, [canonical, as_code_3] * 2)]
CANONICAL = [several(STREAMS, [canonical] * 4), b"", several(OTHERS, [canonical] * 4)]

# The file packets: self-delimited packets.
OWN = [(1, 0, [b"\x40\x11"]), (28, 1, [b"abc", b"defg"]), (12, 0, [b"\xc0", b"\x80", b"\x00"])]


# What head.bin says (RFC 7845, 5.1): six channels, as in 5.1 sound, from four streams, of which two are stereo.
HEAD = """version 1, channels 6, preskip 312, rate 48000, gain 0, family 1, streams 4, coupled 2
channel 0: stream 0 left, channel 1: stream 2, channel 2: stream 0 right, channel 3: stream 1 left
channel 4: stream 1 right, channel 5: stream 3""".replace(", ", "\n").split("\n")


def made(seed, count):
    """The records of make, a value and its packet each, by the rule that crates/opus_make/specs states."""
    x = seed

    def draw():
        nonlocal x
        x = (1664525 * x + 1013904223) % 2**32
        return x // 65536

    for _ in range(count):
        if draw() % 16 == 15:
            yield None, b""
            continue
        b = draw()
        config, stereo, shape = b % 32, b // 32 % 2, b // 64 % 5
        frames, padding = (1, 2, 2)[shape] if shape < 3 else 0, 0
        if shape > 2:
            c = draw()
            frames, padding = 1 + c % (5760 // samples(config)), c // 64 % 8
        single = shape in (0, 1, 3)
        lengths = [draw() % 300] * frames if single else [draw() % 300 for _ in range(frames)]
        value = config, stereo, [bytes((j + t) % 256 for t in range(n)) for j, n in enumerate(lengths)]
        yield value, spell(value, min(shape, 3), shape == 4, bytes(padding - 1) if padding else None)


def totals(records):
    real = [(v, p) for v, p in records if v]
    out = [canonical(v) for v, _ in real]
    frames, lasts = sum(len(v[2]) for v, _ in real), sum(len(v[2]) * samples(v[0]) for v, _ in real)
    sizes = f"in {sum(len(p) for _, p in real)} out {sum(map(len, out))} sum {sum(map(sum, out))}"
    return f"records {len(records)} lost {len(records) - len(real)} frames {frames} samples {lasts} {sizes}\n"


def merged():
    """Groups of three, closed by a lost record and by the end."""
    groups, group = [], []
    for k, v in enumerate(VALUES):
        group += [] if v is None else [k]
        if group and (v is None or len(group) == 3 or k == len(VALUES) - 1):
            groups.append(((9, 0, [VALUES[i][2][0] for i in group]), RANGES[group[-1]]))
            group = []
        groups += [(None, RANGES[k])] if v is None else []
    return groups


def cut_up(value, final_range):
    """A packet of each frame; the last one has the range."""
    if value is None:
        return [(b"", final_range)]
    packets = [canonical((9, 0, [one])) for one in value[2]]
    return [(packet, 0) for packet in packets[:-1]] + [(packets[-1], final_range)]


def capture():
    """The packets as RTP (RFC 3550, 5.1), payload type 111, in rtpdump records; each of the ten takes a number and 20 ms."""
    out = b"#!rtpplay1.0 0.0.0.0/0\n" + bytes(16)
    for k, v in enumerate(VALUES):
        if v:
            packet = struct.pack(">BBHII", 0x80, 111, k, 960 * k, 0) + canonical(v)
            out += struct.pack(">HHI", len(packet) + 8, len(packet), 20 * k) + packet
    return out


def shown():
    """A SILK frame of 20 ms begins with a bit for voice activity and one for redundant data (RFC 6716, 4.2.3)."""
    for k, (v, p) in enumerate(zip(VALUES, SPELLED)):
        if v is None:
            yield f"{k}: lost\n"
            continue
        padding = SHAPES.get(k, {}).get("padding")
        total = 0 if padding is None else 1 + len(padding)
        yield f"{k}.0: config 9 silk wb 960 samples mono, code {p[0] & 3}, 1 frames, pad {total}, {len(p)} bytes\n"
        bits = v[2][0][0] if v[2][0] else 0
        flags = f" mid {bits >> 7}/{bits >> 6 & 1}" if v[2][0] else ""
        yield f"{k}.0.0: {len(v[2][0])} bytes{flags}\n"


def store(payloads, ranges):
    return b"".join(map(record, payloads, ranges))


def forms():
    """Every file of this folder that is computed, by its name."""
    form = [b"" if v is None else canonical(v) for v in VALUES]
    kept = [spell(v, 3, False, SHAPES[k]["padding"]) if k in (2, 5) else form[k] for k, v in enumerate(VALUES)]
    zeros = [0] * 12
    groups = merged()
    pieces = [piece for v, r in groups for piece in cut_up(v, r)]
    records = list(made(8, 8))
    streams = [canonical(v) for v in STREAMS + OTHERS]
    cut = b"".join(map(record, SPELLED[:3], RANGES))
    return {
        "in.bit": store(SPELLED, RANGES),
        "packets": spell(OWN[0], 3, False, b"\x05", True) + canonical(OWN[1], True) + spell(OWN[2], 3, True, None, True),
        "surround.bit": store(PICTURES, [11, 22, 33]),
        "head.bin": b"OpusHead" + bytes([1, 6]) + struct.pack("<HIh", 312, 48000, 0) + bytes([1, 4, 2, 0, 4, 1, 2, 3, 5]),
        "bad.bit": cut + record(b"\xfb\x07") + record(canonical(VALUES[4]), RANGES[4]),
        "cut.bit": cut + record(canonical(VALUES[4]), RANGES[4])[:20],
        "answers/saved.bit": store(form[:3], RANGES),
        "answers/bad.txt": b"3 R5 at 1\n",
        "answers/place.txt": b" 07\n",
        "answers/first.txt": b" f9 aa bb cc dd\n",
        "answers/self.txt": b"0 ok\n1 ok\n2 ok\n",
        "answers/head.txt": "\n".join(HEAD).encode() + b"\n",
        "answers/sdp.txt": b"a=fmtp:111 maxplaybackrate=16000;useinbandfec=1\n",
        "answers/norm.bit": store(form, RANGES),
        "answers/kept.bit": store(kept, RANGES),
        "answers/check.txt": "".join(f"{k} {'ok' if v else 'lost'}\n" for k, v in enumerate(VALUES)).encode(),
        "answers/self.bin": b"".join(canonical(v, True) for v in OWN),
        "answers/merged.bit": store([canonical(v) if v else b"" for v, _ in groups], [r for _, r in groups]),
        "answers/again.bit": store(*zip(*pieces)),
        "answers/pad.bit": store([padded(v, 400) if v else b"" for v in VALUES], RANGES),
        "answers/sent.rtpdump": capture(),
        "answers/received.bit": store(form, zeros),
        "answers/replay.txt": b"records 8 rtcp 0 cut 0 bad 0 other 0 repeats 0 packets 8 missing 2\n",
        "answers/show.txt": "".join(shown()).encode(),
        "answers/made.bit": store([p for _, p in records], range(8)),
        "answers/trial.txt": totals(records).encode(),
        "answers/surround.bit": store(CANONICAL, [11, 22, 33]),
        "answers/joined.bit": store(CANONICAL, zeros),
        "answers/apart.bit": store(streams[:4] + [b""] * 4 + streams[4:], zeros),
        "answers/front.bit": store([streams[0], b"", streams[4]], zeros),
    }


wrong = 0
for name, data in forms().items():
    if "--write" in sys.argv:
        (HERE / name).write_bytes(data)
    elif (HERE / name).read_bytes() != data:
        print(f"examples/{name}: isn't what answers.py computes")
        wrong = 1
sys.exit(wrong)
