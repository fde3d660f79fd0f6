#!/usr/bin/env python3
"""gauge_courses.py: what the program gauge_courses must print, by document 01 alone: a three-block data-flash write against the model gauge over
every course of up to seven transfers, what stands where it stopped, and what is left once it was gone on with."""
from itertools import product
from model_gauge import Gauge, Write

ADDRESS, PAYLOAD = 0x5000, b"Three blocks of history for one pack: two of thirty-two bytes, and six"

old = bytes(i % 251 for i in range(8192))

def laid(n):
    """the old flash with the first n bytes of the payload over it"""
    part, place = PAYLOAD[:n], ADDRESS - 0x4000
    return old[:place] + part + old[place + len(part):]

for retries in range(3):
    for check in (False, True):
        counts = {"runs": 0, "cuts": 0, "done": 0, "bus errors": 0, "timeouts": 0, "partial": 0, "others": 0, "next old": 0,
                  "next new": 0, "new without a 2": 0, "clean": 0}
        for length in range(8):
            for course in product((0, 1, 2), repeat=length):
                flash, call = bytearray(old), Write(ADDRESS, PAYLOAD, check, retries)
                gauge = Gauge(flash)
                end = call.run(gauge, course)
                counts["runs"] += 1
                if end == "cut" or end[0]:
                    acked = 32 * call.sent if end == "cut" else end[1] if end[0] == 6 else 0
                    counts["next old"] += flash == laid(acked)
                    counts["next new"] += flash == laid(acked + 32)
                    counts["new without a 2"] += flash == laid(acked + 32) and 2 not in course
                if end == "cut":
                    counts["cuts"] += 1
                    call.run(gauge, [0] * 7)
                else:
                    counts[{0: "done", 1: "bus errors", 2: "timeouts", 6: "partial"}[end[0]]] += 1
                    past = end[1] if end[0] == 6 else 0
                    if end[0]:
                        Write(ADDRESS + past, PAYLOAD[past:], check, retries).run(gauge, [0] * 7)
                counts["clean"] += flash == laid(len(PAYLOAD))
        print(f"retries {retries} pec {int(check)}: " + " ".join(f"{k} {v}" for k, v in counts.items()))
