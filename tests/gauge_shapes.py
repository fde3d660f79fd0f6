#!/usr/bin/env python3
"""gauge_shapes.py: what the program gauge_shapes must print, by document 01 alone: the model gauge by itself, on frames and reads of every shape."""
from model_gauge import Digest, Gauge, pec

POINTERS = (0x4000, 0x5FE0, 0x5FFF, 0x6000)
EVENTS = (0, 1, 2)
END = 64

OLD = bytes(i % 251 for i in range(8192))

class Row:
    def __init__(self):
        self.outcomes, self.digest = [0, 0, 0], Digest()

    def add(self, outcome, pointer):
        self.outcomes[outcome] += 1
        self.digest.add(outcome, pointer)

    def __str__(self):
        return "acknowledged {} bus errors {} timeouts {} digest ".format(*self.outcomes) + str(self.digest)

def shaped(command, count, address, turned):
    """44, the count, the address, bytes by their place; from the end of what is counted on, each of three bytes is the PEC of all before it, or not"""
    frame = list(range(48))
    frame[:4] = command, count, address % 256, address // 256
    for at in range(count + 2, count + 5):
        frame[at] = (pec(bytes([0x16] + frame[:at])) + turned) % 256
    return bytes(frame)

def frames(command, count):
    row, strays = Row(), 0
    for address in (0x3FFF, 0x4000, 0x4015, 0x5FE0, 0x5FFF, 0x6000):
        for turned in (0, 1):
            frame = shaped(command, count, address, turned)
            for length in range(count + 1, count + 6):
                for event in EVENTS:
                    for pointer in POINTERS:
                        gauge = Gauge(bytearray(OLD), pointer)
                        row.add(gauge.write(event, frame[:length]), gauge.pointer)
                        row.digest.add(*gauge.flash[:END], *gauge.flash[-END:])
                        strays += gauge.flash[END:-END] != OLD[END:-END]
    print(f"frames {command:02x} count {count}: {row} strays {strays}")

def reads(command, pointer):
    row = Row()
    for asked in range(41):
        for event in EVENTS:
            gauge = Gauge(OLD, pointer)
            outcome, reply = gauge.read(event, command, asked)
            row.add(outcome, gauge.pointer)
            row.digest.add(*reply)
    print(f"reads {command:02x} at {pointer:04x}: {row}")

for count in range(41):
    frames(0x44, count)
for command in (0x43, 0x45):
    for count in (2, 10):
        frames(command, count)
for command in (0x44, 0x43, 0x45):
    for pointer in POINTERS:
        reads(command, pointer)
