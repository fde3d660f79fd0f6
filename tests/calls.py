#!/usr/bin/env python3
"""The calls a second time, from document 01 alone and as plain loops: what `drive` must print. tests/run holds it against crates/drive/stdout.

A call is a generator: it yields a transfer, (frame,) or (command, count), takes an outcome, and returns its answer with the detail. tests/bench runs them with
waits that grow and with two budgets (document 02, W-203 and W-211)."""
from itertools import chain, repeat


def pec(data):
    crc = 0
    for byte in data:
        crc ^= byte
        for _ in range(8):
            crc = (crc << 1 ^ 7) & 255 if crc & 128 else crc << 1
    return crc


def lengths(growing):
    """The milliseconds of a budget's waits, one after the other."""
    return chain([10, 20, 40], repeat(80)) if growing else repeat(10)


class Budget:
    """A number of retries; each is a wait that the call counts."""

    def __init__(self, call, retries):
        self.call, self.left, self.lengths = call, retries, lengths(call.growing)

    def fails(self):
        if self.left == 0:
            return True
        self.left -= 1
        self.call.waits += 1
        self.call.waited_ms += next(self.lengths)
        return False


class Call:
    def __init__(self, write_retries, read_retries, pec_write, pec_read, buffer=0, growing=False):
        self.write_retries, self.read_retries, self.pec_write, self.pec_read, self.growing = write_retries, read_retries, pec_write, pec_read, growing
        self.waits, self.waited_ms, self.buffer = 0, 0, [0xA5] * buffer

    def send(self, frame):
        """One frame of a write, with a write budget of its own."""
        budget = Budget(self, self.write_retries)
        while True:
            outcome = yield (sealed(frame, self.pec_write),)
            if outcome[0] == 0 or budget.fails():
                return outcome[:2] if outcome[0] else None

    def writes(self, frames):
        for frame in frames:
            failed = yield from self.send(frame)
            if failed:
                return failed
        return 0, 0

    def write_dataflash(self, address, payload):
        for at in range(0, len(payload), 32):
            block = payload[at : at + 32]
            failed = yield from self.send([0x44, len(block) + 2] + word(address + at) + block)
            if failed:
                return (6, at) if at else failed
        return 0, 0

    def reads(self, parts, covered):
        """Every part: (head or None, command, count, lead, where it goes, how much of it, whether a PEC is on). One read budget for all of them, heads and all."""
        budget, due = Budget(self, self.read_retries), True
        for head, command, count, lead, at, most, with_pec in parts:
            while True:
                failed = None
                if head and due:
                    outcome = yield (sealed(head, with_pec),)
                    failed = outcome[:2] if outcome[0] else None
                if not failed:
                    due = False
                    outcome = yield command, count
                    failed = outcome[:2] if outcome[0] else None
                    if not failed:
                        reply = outcome[1]
                        if with_pec and pec([0x16, covered, 0x17] + reply[:-1]) != reply[-1]:
                            failed = 3, 0
                if not failed:
                    data = reply[lead : lead + most]
                    self.buffer[at : at + len(data)] = data
                    break
                due = True
                if budget.fails():
                    return failed
        return 0, 0

    def plain_read(self, command, wanted, with_pec):
        return self.reads([(None, command, wanted + with_pec, 0, 0, len(self.buffer), with_pec)], command)

    def mac_read(self, head, command, wanted):
        n = len(self.buffer)
        return self.reads([(head, command, wanted + 3 + self.pec_read, 3, 0, n, self.pec_read)], 0x44)

    def dispatch_command(self, address):
        """A MAC read, or one write where there is no output."""
        head = [address >> 16 & 255, 2, address >> 8 & 255, address & 255]
        return self.mac_read(head, head[0], len(self.buffer)) if self.buffer else self.writes([head])

    def read_dataflash(self, address):
        n, parts = len(self.buffer), []
        for at in range(0, n, 32):
            count = 36 if self.pec_read else min(35, n - at + 3)
            parts.append(([0x44, 2] + word(address + at), 0x44, count, 3, at, min(32, n - at), self.pec_read))
        return self.reads(parts, 0x44)


def too_large(call):
    """A call that was refused at its start."""
    return 4, 0
    yield


def word(number):
    return [number & 255, number >> 8]


def sealed(frame, with_pec):
    return frame + [pec([0x16] + frame)] if with_pec else frame


def mac(pair, payload=()):
    return [0x44, len(payload) + 2] + pair + list(payload)


TWO, KEYS, LONG = [0xAA, 0xBB], [0xDD] * 28, [0xCC] * 33
HALVES = [mac(word(0x1234)), mac(word(0x5678))]

WRITES = [
    ("write_with_retries", lambda c: c.writes([TWO])),
    ("write_register", lambda c: c.writes([[0x12] + TWO])),
    ("write_buffer", lambda c: c.writes([[0x23] + TWO])),
    ("write_security_keys", lambda c: c.writes([mac([0x35, 0], KEYS)])),
    ("write_authentication_key", lambda c: c.writes([mac([0x37, 0], KEYS[:16])])),
    ("write_charging_voltage_override", lambda c: c.writes([mac([0xB0, 0], KEYS[:10])])),
    ("send_access_key", lambda c: c.writes(HALVES)),
    ("unseal_fg", lambda c: c.writes(HALVES)),
    ("write_mfg_info_c", lambda c: c.writes(HALVES + [mac([0x7B, 0], TWO)])),
    ("write_mfg_info", lambda c: c.writes([[0x70, 2] + TWO])),
    ("write_dataflash", lambda c: c.write_dataflash(0x4000, LONG)),
]

# with the length of the buffer, and the command byte that a good reply's PEC covers
READS = [
    ("read_register", 2, 0x12, lambda c: c.plain_read(0x12, 2, c.pec_read)),
    ("read_buffer", 2, 0x23, lambda c: c.plain_read(0x23, 2, False)),
    ("read_buffer, 0", 0, 0x12, lambda c: c.plain_read(0x12, 0, False)),
    ("dispatch_command 443500, 2", 2, 0x44, lambda c: c.dispatch_command(0x443500)),
    ("dispatch_command FF010203, 0", 0, 0x44, lambda c: c.dispatch_command(0xFF010203)),
    ("dispatch_command 010203, 1", 1, 0x44, lambda c: c.dispatch_command(0x010203)),
    ("read_security_keys", 28, 0x44, lambda c: c.mac_read(mac([0x35, 0]), 0x44, 28)),
    ("read_authentication_key", 16, 0x44, lambda c: c.mac_read(mac([0x37, 0]), 0x44, 16)),
    ("read_charging_voltage_override", 10, 0x44, lambda c: c.mac_read(mac([0xB0, 0]), 0x44, 10)),
    ("read_mfg_info_c", 2, 0x44, lambda c: c.mac_read(mac([0x7B, 0]), 0x44, 32 if c.pec_read else 2)),
    ("read_mfg_info", 2, 0x70, lambda c: c.plain_read(0x70, 33 if c.pec_read else 2, c.pec_read)),
    ("read_dataflash", 33, 0x44, lambda c: c.read_dataflash(0x5FDF)),
]


def asked(mark, count):
    """How many bytes of reply an acknowledged mark brings."""
    return count + 1 if mark == "r" else max(count, 2) - 1 if mark == "q" else count


def reply_of(count, covered):
    """Bytes that count up from 10 hex, and the PEC of them where there is one to be had."""
    reply = [(i + 16) % 256 for i in range(count)]
    return reply[:-1] + [pec([0x16, covered, 0x17] + reply[:-1])] if reply else reply


def line(script, make, call, covered=0):
    """A call over a script: what each mark is shown, the answer, its detail and the waits, and a reading call's buffer."""
    run, words, answer = make(call), [script], None
    try:
        transfer = next(run)
    except StopIteration as end:
        answer = end.value
    for mark in script:
        other = mark in "slb"  # lent lengths that are not those of the start
        if answer:
            words += ["-%d" % answer[0], "(10)"]
        elif other:
            words += ["!8", "(8)"]
        else:
            words.append(bytes(transfer[0]).hex() if len(transfer) == 1 else "%02x?%d" % transfer)
            count = transfer[1] if len(transfer) == 2 else 0
            outcome = {"e": (1, 5), "f": (1, 9), "t": (2, 0)}.get(mark)
            if outcome is None:
                if asked(mark, count) != count:
                    words.append("(9)")
                    continue
                outcome = 0, reply_of(count, covered ^ (mark == "p"))
            try:
                transfer = run.send(outcome)
            except StopIteration as end:
                answer = end.value
    words += [":", "%d %d" % answer if answer else "waits", str(call.waits)]
    return " ".join(words)


def show_write(name, make, on):
    print(name)
    for script in ",aaasl,eataea,ef,tt,te,att,aef,rslba".split(","):
        print(line(script, make, Call(1, 1, on, not on)))


def show_read(name, n, covered, make, on):
    print(name)
    for script in ",aaasl,aeaaaa,ef,tt,te,tat,aapat,tpp,qrslba,aqrba".split(","):
        call = Call(1, 1, not on, on, n)
        print(line(script, make, call, covered), bytes(call.buffer).hex())


if __name__ == "__main__":
    for on in (False, True):
        for row in WRITES:
            show_write(*row, on)
    show_write("write_register, refused", too_large, True)
    for on in (False, True):
        for row in READS:
            show_read(*row, on)
    show_read("read_register, refused", 33, 0x12, too_large, True)
