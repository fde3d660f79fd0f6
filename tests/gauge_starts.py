#!/usr/bin/env python3
"""gauge_starts.py: what the program gauge_starts must print, by document 01 alone: data-flash writes and reads over a course with losses, from starts that
are not aligned, that go from one page of 256 addresses to the next, that end at the last address, and that the window refuses."""
from model_gauge import Digest, Gauge, Read, Write

PAYLOAD = b"Three blocks of history for one pack: two of thirty-two bytes, and six"
COURSE = [1, 0, 2, 0, 0, 1, 0, 0, 0, 0, 0, 0]
RETRIES = 3
STARTS = ((0x4000, 0), (0xFFFF, 0), (0x4000, 1), (0x4000, 70), (0x4001, 70), (0x401F, 33),
          (0x40F0, 70), (0x40FF, 33), (0x41C0, 65), (0x4FC1, 64),
          (0x5FBA, 70), (0x5FE0, 32), (0x5FFF, 1),
          (0x5FBB, 70), (0x5FFF, 2), (0x6000, 1), (0x3FFF, 1), (0xFFFF, 2))

def digest(data):
    made = Digest()
    made.add(*data)
    return made

def line(name, address, length, check, call, gauge):
    end = call.run(gauge, COURSE)
    how = "cut" if end == "cut" else "answer {} detail {}".format(*end)
    return f"{name} {address:04x} {length} pec {check}: {how} waits {call.waits} transfers {gauge.transfers} pointer {gauge.pointer:04x} flash {digest(gauge.flash)}"

for address, length in STARTS:
    for check in (0, 1):
        gauge = Gauge(bytearray(i % 251 for i in range(8192)))
        print(line("write", address, length, check, Write(address, PAYLOAD[:length], check, RETRIES), gauge))
    for check in (0, 1):
        gauge = Gauge(bytearray(i % 251 for i in range(8192)))
        call = Read(address, bytearray(b"\xA5" * length), check, RETRIES)
        text = line("read", address, length, check, call, gauge)
        print(f"{text} buffer {digest(call.buffer + bytes([0xA5] * (70 - length)))}")
