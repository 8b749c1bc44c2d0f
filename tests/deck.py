#!/usr/bin/env python3
"""The deck of document 01 (the paper of rules; see README.md), written from that paper and its two sources alone, by an author who had
seen neither code nor definitions. Sentences in quotation marks are document 01's.

Run as a script, with `--check` or without, it compares itself with that paper's examples; it writes nothing.
"""
from copy import deepcopy
from math import isqrt

from stored import checking

TAKEN, ROOM, LATE, BACK, FLAGS, PLACE = range(6)
LATEST = 281_474_976_710_655  # LATE: "time over 281,474,976,710,655"
FLAG_BITS = 0x70  # FLAGS: "flags hold a bit outside 70"
DAY = 2_160_000  # "Positions are 0 to 2,159,999"
LONGEST = 18  # "lent output too short: under 18 bytes for the deck"
GAP = 10_000  # microseconds, for the time-out and for the quiet

# "80 time-out, 40 framing, 20 overrun, 10 parity, 04 checksum, 01 undefined"; the line flags are their own bits.
TIME_OUT, CHECKSUM, UNDEFINED = 0x80, 0x04, 0x01


# Blocks, times, speeds


def block(code, data=b""):
    """'Then the command byte, that many data bytes (0 to 15), and a checksum: the sum of all earlier bytes,
    remainder by 256.'"""
    body = bytes.fromhex(code.replace(".", " ")) + bytes(data)
    return body + bytes([sum(body) % 256])


def full_length(first):
    """'group in the high four bits, data count in the low four'"""
    return (first & 0x0F) + 3


TIME_LIMITS = (25, 60, 60, 24)  # "frames, seconds, minutes, hours ...: 0 to 24, 59, 59, 23"


def from_bcd(content):
    """'one BCD byte each'; None if a digit is over 9."""
    tens, ones = content >> 4, content & 0x0F
    return tens * 10 + ones if tens <= 9 and ones <= 9 else None


def to_bcd(number):
    return number // 10 << 4 | number % 10


def to_position(time):
    """'Times are frames, seconds, minutes, hours, one BCD byte each, at 25 frames'; None if not in range."""
    if len(time) != 4:
        return None
    parts = [from_bcd(content) for content in time]
    if any(part is None or part >= limit for part, limit in zip(parts, TIME_LIMITS)):
        return None
    frames, seconds, minutes, hours = parts
    return ((hours * 60 + minutes) * 60 + seconds) * 25 + frames


def to_time(position):
    """The four bytes of a position, frames first."""
    parts = []
    for limit in TIME_LIMITS:
        position, part = divmod(position, limit)
        parts.append(to_bcd(part))
    return bytes(parts)


def speed(n):
    """'N = 0 is 0. For N of 1 to 255 it is the whole number v with v^32 at most 10^(N+32) and (v+1)^32 above it.'"""
    if n == 0:
        return 0
    root = 10 ** (n + 32)
    for _ in range(5):  # the 32nd root is five square roots; rounding down at each gives it rounded down
        root = isqrt(root)
    return root


def bits(switches):
    """A status byte from {bit number: on or off}; 'All else is 0.'"""
    return sum(1 << bit for bit, on in switches.items() if on)


# The deck


class Deck:
    def __init__(self):
        """'Power-on: cassette in, stop, speed 0, local on, all flags off, position, In and Out 0.'"""
        self.clock = 0  # "The clock starts at 0."
        self.open, self.last = b"", 0  # the open block and the time of its last byte
        self.quiet = range(0)
        self.out, self.mode, self.speed = False, "stop", 0
        self.local, self.standby, self.cue_done = True, False, False
        self.place = 0
        self.point = {"In": 0, "Out": 0}
        self.flag = {"In": False, "Out": False}

    # "The deck takes four events, each with a time: a byte with flags, a look, a tape position, a cassette loaded."

    def byte(self, time, content, flags=0, room=LONGEST):
        """'Time-out comes first, then quiet, then the byte.' 'Bytes in quiet are dropped, flags or not.'"""
        number, replies = self.enter(time, room, flags=flags)
        if number == TAKEN and time not in self.quiet:
            replies += self.take(time, content, flags)
        return number, replies

    def look(self, time, room=LONGEST):
        return self.enter(time, room)

    def position(self, time, place, room=LONGEST):
        """'A position event sets the position, cassette in or out.'"""
        number, replies = self.enter(time, room, place=place)
        if number == TAKEN:
            self.place = place
        return number, replies

    def cassette(self, time, room=LONGEST):
        """'Loading a cassette that was out gives stop, speed 0; one that is in, no change.'"""
        number, replies = self.enter(time, room)
        if number == TAKEN and self.out:
            self.out, self.mode, self.speed = False, "stop", 0
        return number, replies

    # What all events share

    def enter(self, time, room, flags=0, place=0):
        """'All of these but 0 return no other content and change nothing.'"""
        number = self.refusal(time, room, flags, place)
        if number != TAKEN:
            return number, []
        self.clock = time
        return TAKEN, self.time_out(time)

    def refusal(self, time, room, flags, place):
        """'Tests run in the order deck: 1, 2, 3, 4, 5'"""
        tests = (
            (ROOM, room < LONGEST),
            (LATE, time > LATEST),
            (BACK, time < self.clock),  # "time below the latest one taken"; "Equal times are allowed."
            (FLAGS, flags & ~FLAG_BITS),
            (PLACE, place >= DAY),
        )
        return next((number for number, failed in tests if failed), TAKEN)

    def time_out(self, time):
        """'If an event's time exceeds the last byte's by more than 10,000, the block is void
        and a time-out NAK is due at last + 10,001, even if found later.'"""
        if self.open and time > self.last + GAP:
            return self.nak(self.last + GAP + 1, TIME_OUT)
        return []

    def nak(self, due, reason):
        """'Each NAK opens a quiet of 10,000 from its due time, both ends included.' 'NAK is 11.12 with one byte'"""
        self.open = b""
        self.quiet = range(due, due + GAP + 1)
        return [(due, block("11.12", [reason]))]

    # A byte outside quiet

    def take(self, time, content, flags):
        """'A flagged byte outside quiet voids the block, whether or not one is open; the NAK carries its flags.'
        'A block is open after its first byte.' 'A reply to a byte, NAK or other, is due at that byte's time.'"""
        if flags:
            return self.nak(time, flags)
        self.open += bytes([content])
        self.last = time
        if len(self.open) < full_length(self.open[0]):
            return []
        full, self.open = self.open, b""
        return self.close(time, full)

    def close(self, time, full):
        """'A full block: checksum, then command with its exact count, then data; the first failure gives the NAK.'"""
        code, data = full[:2].hex(".").upper(), full[2:-1]
        if sum(full[:-1]) % 256 != full[-1]:
            return self.nak(time, CHECKSUM)
        if code not in COMMANDS:  # "Every other code or count is undefined."
            return self.nak(time, UNDEFINED)
        if code in DATA_TESTS and not DATA_TESTS[code](data):
            return self.nak(time, UNDEFINED)
        return [(time, self.obey(code, data))]

    def obey(self, code, data):
        """'Reply 10.01 unless shown.'"""
        if code in MOTION or code == EJECT:
            if self.out:  # "With the cassette out they and eject are acknowledged without effect, after the data test."
                return ACK
            self.cue_done = False  # "Cue-done goes off at every motion command but cue, and at eject."
        act, *values = COMMANDS[code]
        return act(self, data, *values) or ACK

    # Commands; each may hand back a reply of its own

    def switch(self, data, name, on):
        """'00.0C local off; 00.1D local on'; '20.04 standby off; 20.05 standby on'"""
        setattr(self, name, on)

    def tell_type(self, data):
        """'00.11 replies 12.11 with 00 02'"""
        return block("12.11", [0x00, 0x02])

    def run(self, data, mode, rate):
        """'20.00 stop; 20.01 play, +1000; 20.02 record, +1000; 20.10 fast forward, +32000; 20.20 rewind, -32000'"""
        self.mode, self.speed = mode, rate

    def eject(self, data):
        """'20.0F eject: cassette out, no mode, speed 0'"""
        self.out, self.mode, self.speed = True, None, 0

    def drive(self, data, mode, sign):
        """'jog, variable, shuttle forward; ... the same in reverse, with speed byte N'; 'signed, minus in reverse'"""
        self.mode, self.speed = mode, sign * speed(data[0])

    def step(self, data, frames):
        """'one frame on, one back; mode jog, speed 0'; 'steps and shifts go round at midnight'"""
        self.place = (self.place + frames) % DAY
        self.mode, self.speed = "jog", 0

    def cue(self, data):
        """'24.31 cue: the position becomes the time given; mode stop; cue-done on'; 'Stop has speed 0.'"""
        self.place = to_position(data)
        self.mode, self.speed, self.cue_done = "stop", 0, True

    def mark_here(self, data, name):
        """'40.10, 40.11 In, Out become the position and their flag goes on'"""
        self.point[name], self.flag[name] = self.place, True

    def mark_time(self, data, name):
        """'44.14, 44.15 the same from a time given'"""
        self.point[name], self.flag[name] = to_position(data), True

    def shift(self, data, name, frames):
        """'40.18, 40.19 In one frame on, back; 40.1A, 40.1B Out'; 'steps and shifts go round at midnight'"""
        self.point[name] = (self.point[name] + frames) % DAY

    def set_flag(self, data, name, on):
        """'40.20, 40.21 In, Out flag off; 40.24, 40.25 on'"""
        self.flag[name] = on

    def tell_point(self, data, name, code):
        """'60.10 replies 74.10 with In; 60.11 replies 74.11 with Out'"""
        return block(code, to_time(self.point[name]))

    def tell_place(self, data):
        """'61.0C with 01, 03 or 04 replies 74.04 with the position; with 02, 74.06'"""
        return block(PLACE_REPLIES[data[0]], to_time(self.place))

    def tell_status(self, data):
        """'61.20 with 01 to 0D replies that many status bytes under 7x.20, x the count'"""
        return block(f"7{data[0]:X}.20", self.status()[: data[0]])

    def status(self):
        """'A mode bit is on in its own mode only. All else is 0.'"""
        mode = self.mode
        still = mode in ("jog", "variable", "shuttle") and self.speed == 0  # "one of those three modes at speed 0"
        shown = (
            # "byte 0, bit 0 local on, bit 5 cassette out"
            {0: self.local, 5: self.out},
            # "Byte 1, bits 7 standby, 5 stop, 4 cassette out, 3 rewind, 2 fast forward, 1 record, 0 play"
            {7: self.standby, 5: mode == "stop", 4: self.out, 3: mode == "rewind", 2: mode == "fast forward",
             1: mode == "record", 0: mode == "play"},
            # "Byte 2, bits 5 shuttle, 4 jog, 3 variable, 2 speed below 0, 1 still, 0 cue-done"
            {5: mode == "shuttle", 4: mode == "jog", 3: mode == "variable", 2: self.speed < 0, 1: still,
             0: self.cue_done},
            # "Byte 3, bits 1 Out flag, 0 In flag"
            {1: self.flag["Out"], 0: self.flag["In"]},
        )
        return bytes(bits(switches) for switches in shown) + bytes(9)


# Commands: "Codes as first byte.command."

ACK = block("10.01")
EJECT = "20.0F"

SPEEDS = {
    "21.11": ("jog", 1), "21.12": ("variable", 1), "21.13": ("shuttle", 1),
    "21.21": ("jog", -1), "21.22": ("variable", -1), "21.23": ("shuttle", -1),
}

PLACE_REPLIES = {0x01: "74.04", 0x02: "74.06", 0x03: "74.04", 0x04: "74.04"}

COMMANDS = {
    "00.0C": (Deck.switch, "local", False),
    "00.1D": (Deck.switch, "local", True),
    "00.11": (Deck.tell_type,),
    "20.00": (Deck.run, "stop", 0),
    "20.01": (Deck.run, "play", 1_000),
    "20.02": (Deck.run, "record", 1_000),
    "20.10": (Deck.run, "fast forward", 32_000),
    "20.20": (Deck.run, "rewind", -32_000),
    "20.04": (Deck.switch, "standby", False),
    "20.05": (Deck.switch, "standby", True),
    EJECT: (Deck.eject,),
    **{code: (Deck.drive, mode, sign) for code, (mode, sign) in SPEEDS.items()},
    "20.14": (Deck.step, 1),
    "20.24": (Deck.step, -1),
    "24.31": (Deck.cue,),
    "40.10": (Deck.mark_here, "In"),
    "40.11": (Deck.mark_here, "Out"),
    "44.14": (Deck.mark_time, "In"),
    "44.15": (Deck.mark_time, "Out"),
    "40.18": (Deck.shift, "In", 1),
    "40.19": (Deck.shift, "In", -1),
    "40.1A": (Deck.shift, "Out", 1),
    "40.1B": (Deck.shift, "Out", -1),
    "40.20": (Deck.set_flag, "In", False),
    "40.21": (Deck.set_flag, "Out", False),
    "40.24": (Deck.set_flag, "In", True),
    "40.25": (Deck.set_flag, "Out", True),
    "60.10": (Deck.tell_point, "In", "74.10"),
    "60.11": (Deck.tell_point, "Out", "74.11"),
    "61.0C": (Deck.tell_place,),
    "61.20": (Deck.tell_status,),
}

# "Motion commands are stop, play, record, both winds, the six speeds, the steps and cue."
MOTION = {"20.00", "20.01", "20.02", "20.10", "20.20", *SPEEDS, "20.14", "20.24", "24.31"}


def is_time(data):
    """'a time that is not four BCD bytes in range'"""
    return to_position(data) is not None


# "then data": the codes whose data may fail; "Other bytes are undefined."
DATA_TESTS = {
    "24.31": is_time,
    "44.14": is_time,
    "44.15": is_time,
    "61.0C": lambda data: data[0] in PLACE_REPLIES,
    "61.20": lambda data: 0x01 <= data[0] <= 0x0D,
}


# The examples of document 01


def send(deck, text):
    """Hand the deck these bytes at its own clock; the replies in hexadecimal."""
    replies = []
    for content in bytes.fromhex(text):
        number, more = deck.byte(deck.clock, content)
        assert number == TAKEN
        replies += more
    return [reply.hex(" ").upper() for due, reply in replies]


LINE_EXAMPLES = {
    "20 01 21": "10 01 11",
    "20 01 22": "11 12 04 27",
    "20 7F 9F": "11 12 01 24",
    "00 11 11": "12 11 00 02 25",
    "61 20 03 84": "73 20 01 20 00 B4",
    "61 0C 03 70": "74 04 00 00 00 00 78",
    "24 31 24 00 00 00 79": "10 01 11",
    "24 31 25 00 00 00 7A": "11 12 01 24",
}


def check_lines():
    for sent, reply in LINE_EXAMPLES.items():
        assert send(Deck(), sent) == [reply], sent
    deck = Deck()
    assert deck.position(0, 2_159_999) == (TAKEN, [])
    assert send(deck, "61 0C 03 70") == ["74 04 24 59 59 23 71"]


def check_times():
    """'bytes at 0 and 10,000: still open. 0 and 10,001: 11 12 80 A3, second byte dropped.
    after that, 20,001 dropped, 20,002 begins a block.'"""
    deck = Deck()
    assert deck.byte(0, 0x20) == deck.byte(10_000, 0x01) == (TAKEN, [])
    assert deck.open == b"\x20\x01"
    deck = Deck()
    deck.byte(0, 0x20)
    assert deck.byte(10_001, 0x01) == (TAKEN, [(10_001, bytes.fromhex("11 12 80 A3"))])
    assert deck.open == b"" and deck.quiet == range(10_001, 20_002)
    assert deck.byte(20_001, 0x20) == (TAKEN, []) and deck.open == b""
    assert deck.byte(20_002, 0x20) == (TAKEN, []) and deck.open == b"\x20"


def check_late_finding():
    """'even if found later'; 'One event may thus give two NAKs, in that order.'"""
    deck = Deck()
    deck.byte(0, 0x20)
    naks = [(10_001, block("11.12", [0x80])), (30_000, block("11.12", [0x50]))]
    assert deck.byte(30_000, 0x01, 0x50) == (TAKEN, naks)
    assert deck.quiet == range(30_000, 40_001)


def check_marked_block():
    """'entries 20, 01, 21 of kind 0 at 0, 300, 600': acknowledged, due at 600."""
    deck = Deck()
    assert deck.byte(0, 0x20) == deck.byte(300, 0x01) == (TAKEN, [])
    assert deck.byte(600, 0x21) == (TAKEN, [(600, bytes.fromhex("10 01 11"))])


def check_speeds():
    """'42, 58, 64, 84, 103 give 205, 649, 1000, 4216, 16548'"""
    assert [speed(n) for n in (0, 42, 58, 64, 84, 103)] == [0, 205, 649, 1000, 4216, 16548]
    assert all(speed(n) ** 32 <= 10 ** (n + 32) < (speed(n) + 1) ** 32 for n in range(1, 256))


def check_positions():
    """'0 to 24, 59, 59, 23. Positions are 0 to 2,159,999'"""
    assert to_time(0) == bytes(4) and to_time(DAY - 1) == bytes.fromhex("24 59 59 23")
    assert all(to_position(to_time(position)) == position for position in (0, 24, 25, 1_499, 1_500, 90_000, DAY - 1))
    outside = ("25 00 00 00", "00 60 00 00", "00 00 60 00", "00 00 00 24", "0A 00 00 00", "00 00 00")
    assert not any(is_time(bytes.fromhex(text)) for text in outside)


def check_refusals():
    """'Tests run in the order deck: 1, 2, 3, 4, 5'; 'change nothing'"""
    deck = Deck()
    deck.byte(5, 0x20)
    before = deepcopy(vars(deck))
    assert deck.byte(LATEST + 1, 0, 0x80, 17) == (ROOM, [])
    assert deck.byte(LATEST + 1, 0, 0x80) == (LATE, [])
    assert deck.byte(4, 0, 0x80) == (BACK, [])
    assert deck.byte(LATEST, 0, 0x80) == (FLAGS, [])
    assert deck.position(LATEST, DAY) == (PLACE, [])
    assert vars(deck) == before


def main():
    checking()
    checks = [check_lines, check_times, check_late_finding, check_marked_block, check_speeds, check_positions, check_refusals]
    for check in checks:
        check()
    print(f"deck: the examples of document 01, {len(checks)} kinds, hold")


if __name__ == "__main__":
    main()
