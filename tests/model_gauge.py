"""model_gauge.py: the model gauge and the data-flash calls by document 01 alone, for the programs beside it that say what the Rattle programs must
print. It shares nothing with the Rattle sources."""
from functools import cache

ACKNOWLEDGED, BUS_ERROR, TIMEOUT = 0, 1, 2
HEARD, LOST_BEFORE, LOST_AFTER = 0, 1, 2

@cache
def pec(data):
    crc = 0
    for byte in data:
        crc ^= byte
        for _ in range(8):
            crc = ((crc << 1) ^ 7 if crc & 0x80 else crc << 1) & 0xFF
    return crc

class Digest:
    """one number in base 257, modulo the largest prime of 32 bits; a digit is a byte or another number, and one more"""
    def __init__(self):
        self.value = 0

    def add(self, *numbers):
        for number in numbers:
            self.value = (self.value * 257 + number + 1) % 4294967291

    def __str__(self):
        return f"{self.value:08x}"

class Gauge:
    def __init__(self, flash, pointer=0x4000):
        self.flash, self.pointer, self.transfers = flash, pointer, 0

    def hear(self, frame):
        """an address in the window sets the pointer, a block wholly inside is stored; whether either was so"""
        if len(frame) < 4 or frame[0] != 0x44:
            return False
        counted, beyond = frame[:2 + frame[1]], frame[2 + frame[1]:]
        if len(counted) != 2 + frame[1] or len(beyond) > 1 or beyond and beyond[0] != pec(b"\x16" + counted):
            return False
        if len(counted) < 4:
            return False
        address, block = counted[2] + 256 * counted[3], counted[4:]
        if not 0x4000 <= address <= 0x5FFF:
            return False
        if not block:
            self.pointer = address
            return True
        if len(block) > 32 or address + len(block) - 1 > 0x5FFF:
            return False
        self.flash[address - 0x4000:address - 0x4000 + len(block)] = block
        return True

    def reply(self, command, asked):
        """the bytes of a reply, or None"""
        if command != 0x44 or asked > 36:
            return None
        place = self.pointer - 0x4000
        block = bytes(self.flash[place:place + 32])
        reply = bytes([0x22, self.pointer % 256, self.pointer // 256]) + block + b"\xFF" * (32 - len(block))
        reply += bytes([pec(b"\x16\x44\x17" + reply)])
        self.pointer = min(self.pointer + 32, 0x6000)
        return reply[:asked]

    def write(self, event, frame):
        """what the host hears of a frame"""
        self.transfers += 1
        taken = self.hear(frame) if event != LOST_BEFORE else None
        return TIMEOUT if event else ACKNOWLEDGED if taken else BUS_ERROR

    def read(self, event, command, asked):
        """what the host hears of a read, and the bytes that reach it"""
        self.transfers += 1
        reply = self.reply(command, asked) if event != LOST_BEFORE else None
        return (TIMEOUT, b"") if event else (ACKNOWLEDGED, reply) if reply is not None else (BUS_ERROR, b"")

def refused(address, length):
    """the window rule at the start of a call: an answer, or None where it waits"""
    if length == 0:
        return (0, 0)
    if address < 0x4000 or address + length - 1 > 0x5FFF:
        return (5, 0)
    return None

class Write:
    """a data-flash write; each block has its own budget"""
    def __init__(self, address, payload, check, retries):
        self.address, self.payload, self.check, self.retries = address, payload, check, retries
        self.sent, self.left, self.waits, self.answer = 0, retries, 0, refused(address, len(payload))

    def run(self, gauge, course):
        """'cut' or the answer"""
        for event in course:
            if self.answer is not None:
                break
            block, at = self.payload[32 * self.sent:32 * self.sent + 32], self.address + 32 * self.sent
            frame = bytes([0x44, len(block) + 2, at % 256, at // 256]) + block
            outcome = gauge.write(event, frame + bytes([pec(b"\x16" + frame)]) if self.check else frame)
            if outcome == ACKNOWLEDGED:
                self.sent, self.left = self.sent + 1, self.retries
                if 32 * self.sent >= len(self.payload):
                    self.answer = (0, 0)
            elif self.left:
                self.left, self.waits = self.left - 1, self.waits + 1
            else:
                self.answer = (6, 32 * self.sent) if self.sent else (outcome, 0)
        return self.answer or "cut"

class Read:
    """a data-flash read; one budget for the whole call"""
    def __init__(self, address, buffer, check, retries):
        self.address, self.buffer, self.check, self.left = address, buffer, check, retries
        self.received, self.addressed, self.waits, self.answer = 0, False, 0, refused(address, len(buffer))

    def transfer(self, gauge, event):
        """the answer that a failure would be, or 0 where this transfer went well"""
        at, left = self.address + 32 * self.received, len(self.buffer) - 32 * self.received
        if not self.addressed:
            frame = bytes([0x44, 2, at % 256, at // 256])
            outcome = gauge.write(event, frame + bytes([pec(b"\x16" + frame)]) if self.check else frame)
            self.addressed = outcome == ACKNOWLEDGED
            return outcome
        outcome, reply = gauge.read(event, 0x44, 36 if self.check else min(35, left + 3))
        if outcome != ACKNOWLEDGED:
            return outcome
        if self.check and pec(b"\x16\x44\x17" + reply[:35]) != reply[35]:
            return 3
        part = reply[3:3 + min(32, left)]
        self.buffer[32 * self.received:32 * self.received + len(part)] = part
        self.received += 1
        return 0

    def run(self, gauge, course):
        """'cut' or the answer"""
        for event in course:
            if self.answer is not None:
                break
            failure = self.transfer(gauge, event)
            if not failure:
                if 32 * self.received >= len(self.buffer):
                    self.answer = (0, 0)
                continue
            self.addressed = False
            if self.left:
                self.left, self.waits = self.left - 1, self.waits + 1
            else:
                self.answer = (failure, 0)
        return self.answer or "cut"
