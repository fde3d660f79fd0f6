#!/usr/bin/env python3
"""gauge_reads.py: what the program gauge_reads must print, by document 01 alone: a data-flash read of three blocks against the model gauge over every
course of up to seven transfers, what stood where it stopped, and what is left once it was gone on with."""
from itertools import product
from model_gauge import Digest, Gauge, Read

ADDRESS, LENGTH = 0x50F0, 70
OLD = bytes(i % 251 for i in range(8192))
BYTES = OLD[ADDRESS - 0x4000:ADDRESS - 0x4000 + LENGTH]

for retries in range(3):
    for check in (False, True):
        counts, stops, ends = {"runs": 0, "cuts": 0, "done": 0, "timeouts": 0, "others": 0, "whole": 0}, Digest(), Digest()
        for length in range(8):
            # the lowest digit of a course's number is its first transfer
            for course in (c[::-1] for c in product((0, 1, 2), repeat=length)):
                gauge, call = Gauge(bytearray(OLD)), Read(ADDRESS, bytearray(b"\xA5" * LENGTH), check, retries)
                end = call.run(gauge, course)
                counts["runs"] += 1
                counts["cuts" if end == "cut" else {0: "done", 2: "timeouts"}.get(end[0], "others")] += 1
                stops.add(255 if end == "cut" else end[0], call.waits, gauge.transfers, gauge.pointer, *call.buffer)
                if end == "cut":
                    call.run(gauge, [0] * 7)
                elif end[0]:
                    call = Read(ADDRESS, call.buffer, check, retries)
                    call.run(gauge, [0] * 7)
                ends.add(gauge.pointer, *call.buffer)
                counts["whole"] += call.buffer == BYTES and gauge.flash == OLD
        print(f"retries {retries} pec {int(check)}: " + " ".join(f"{k} {v}" for k, v in counts.items()) + f" stops {stops} ends {ends}")
