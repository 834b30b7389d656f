#!/usr/bin/env python3
"""Turns lines of tshark, a time and a UDP payload each, into an rtpdump capture.

tshark -r in.pcap -Y 'udp.dstport == 5004' -T fields -e frame.time_relative -e udp.payload |
    python3 examples/rtpdump.py > in.rtpdump
"""
import struct
import sys

out = sys.stdout.buffer
out.write(b"#!rtpplay1.0 0.0.0.0/0\n" + bytes(16))
for line in sys.stdin:
    time, payload = line.split()
    packet = bytes.fromhex(payload)
    out.write(struct.pack(">HHI", len(packet) + 8, len(packet), int(float(time) * 1000)) + packet)
