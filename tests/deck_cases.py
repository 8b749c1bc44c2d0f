#!/usr/bin/env python3
"""Makes crates/deck_cases/stdin (events) and stdout (what decks must give, by tests/deck.py).

`--check` compares the two files instead of writing them. An event of stdin is a letter, the size of the lent output, a time in eight
bytes, a length and that many argument bytes. Numbers stand lowest byte first.
"""
import random

from deck import DAY, LATEST, SPEEDS, Deck, block, speed, to_time
from stored import checking, store

# ---- cases: each is a sequence of events for a deck of its own, kept for both files

stdin, stdout, counts = bytearray(), [], {"sequences": 0, "events": 0}


def hexes(data):
    return "".join(f" {byte:02X}" for byte in data)


class Sequence:
    def __init__(self, time=0):
        self.deck, self.time = Deck(), time

    def call(self, letter, args=b"", room=18):
        stdin.extend(letter.encode() + bytes([room]) + self.time.to_bytes(8, "little") + bytes([len(args)]) + args)

    def gives(self, answer):
        no, replies = answer
        counts["events"] += 1
        stdout.extend([f"no {no}\n"] if no else [])
        stdout.extend(f"reply {due}{hexes(reply)}\n" for due, reply in replies)
        return replies

    def run(self, bytes_, room=18):
        """Each of the bytes is its distance in time from the one before, its flags and its content."""
        self.call("b", b"".join(gap.to_bytes(2, "little") + bytes([flags, content]) for gap, flags, content in bytes_), room)
        replies = []
        for gap, flags, content in bytes_:
            self.time += gap
            replies += self.gives(self.deck.byte(self.time, content, flags, room))
        return replies

    def send(self, content, gap=300, flags=0, wait=0, room=18):
        """Bytes at equal distances, the first after the wait. The flags are the last one's."""
        bytes_ = [[gap, 0, byte] for byte in content]
        bytes_[0][0], bytes_[-1][1] = wait, flags
        return self.run(bytes_, room)

    def look(self, wait=0, room=18):
        self.time += wait
        self.call("l", room=room)
        return self.gives(self.deck.look(self.time, room))

    def position(self, place, wait=0, room=18):
        self.time += wait
        self.call("p", place.to_bytes(4, "little"), room)
        return self.gives(self.deck.position(self.time, place, room))

    def cassette(self, wait=0, room=18):
        self.time += wait
        self.call("c", room=room)
        return self.gives(self.deck.cassette(self.time, room))

    def hear_again(self):
        """Past the quiet, if there is one."""
        self.time = max(self.time, self.deck.quiet.stop)

    def end(self):
        self.call("e")
        counts["sequences"] += 1
        deck = self.deck
        points = " ".join(f"{name.lower()} {deck.point[name]} {'on' if deck.flag[name] else 'off'}" for name in ("In", "Out"))
        stdout.append(f"deck {deck.clock} [{hexes(deck.open)} ]{hexes(deck.status())} at {deck.place} {points} speed {deck.speed}\n")


# ---- which cases


def below(limit):
    return int(random.random() * limit)


def one_of(things):
    return things[below(len(things))]


def chance(percent):
    return random.random() < percent / 100


def any_bytes(size):
    return bytes(below(256) for _ in range(size))


PLACES = [0, 1, 24, 25, 1499, 89_999, 90_000, 1_234_567, DAY - 2, DAY - 1]
FIT_TIMES = [to_time(place) for place in PLACES]
UNFIT_TIMES = [bytes.fromhex(time) for time in """25000000 00600000 00006000 00000024 0A000000 1F000000 A0000000 FF000000 000A0000
    00005F00 0000000F 00000030 24595924 25595923 24605923 24596023 99999999 FFFFFFFF""".split()]
ANY_BYTE = [bytes([byte]) for byte in range(256)]
FIT = {code: [b""] for code in """00.0C 00.1D 00.11 20.00 20.01 20.02 20.10 20.20 20.04 20.05 20.0F 21.11 21.12 21.13 21.21 21.22 21.23
    20.14 20.24 24.31 40.10 40.11 44.14 44.15 40.18 40.19 40.1A 40.1B 40.20 40.21 40.24 40.25 60.10 60.11 61.0C 61.20""".split()}
FIT.update({code: ANY_BYTE for code in SPEEDS}, **{"61.0C": ANY_BYTE[1:5], "61.20": ANY_BYTE[1:14]})
UNFIT = {"61.0C": ANY_BYTE[:1] + ANY_BYTE[5:], "61.20": ANY_BYTE[:1] + ANY_BYTE[14:]}
for code in ["24.31", "44.14", "44.15"]:
    FIT[code], UNFIT[code] = FIT_TIMES, UNFIT_TIMES
assert len(FIT) == 36

# Codes with their data behind `:`, positions behind `@`, and a cassette loaded.
SETTINGS = """; @1 20.01; @2159999 20.02 00.0C; 20.10 20.05 40.24; @1 20.20 40.10; @2159999 21.11:40 40.11; 21.21:2A 44.15:24595923 40.21;
    @1 21.12:00; 21.22:67 40.25; 21.13:FF 44.14:00000000; @2159999 21.23:01; 24.31:24595923; 24.31:01000000 20.05; 20.14 40.19; @5 20.0F;
    24.31:24595923 20.0F 20.05 00.0C; 20.20 20.0F @2159999 40.10; 24.31:24000000 20.0F load""".split(";")


def sum_wrong(full):
    return full[:-1] + bytes([full[-1] ^ 1 << below(8)])


def prepare(s, steps):
    for step in steps.split():
        if step == "load":
            s.cassette()
        elif step[0] == "@":
            s.position(int(step[1:]))
        else:
            code, _, data = step.partition(":")
            s.send(block(code, bytes.fromhex(data)))


def sense(s, code):
    """What the command may change: status and In and Out, or status and position."""
    prepare(s, "61.20:04 60.10 60.11" if code[0] == "4" else "61.20:04 61.0C:01")


def recount(code, by):
    return f"{int(code[:2], 16) + by:02X}{code[2:]}"


def example_cases():
    """Document 01's line examples, and that the deck above gives what they say."""
    for place, sent, reply in [
            (0, "20 01 21", "10 01 11"), (0, "20 01 22", "11 12 04 27"), (0, "20 7F 9F", "11 12 01 24"),
            (0, "00 11 11", "12 11 00 02 25"), (0, "61 20 03 84", "73 20 01 20 00 B4"),
            (0, "61 0C 03 70", "74 04 00 00 00 00 78"), (2_159_999, "61 0C 03 70", "74 04 24 59 59 23 71"),
            (0, "24 31 24 00 00 00 79", "10 01 11"), (0, "24 31 25 00 00 00 7A", "11 12 01 24")]:
        s = Sequence()
        s.position(place)
        assert s.send(bytes.fromhex(sent)) == [(s.time, bytes.fromhex(reply))]
        s.end()
    s = Sequence()
    assert s.send(b"\x20\x01", gap=10_000) == [] and s.deck.open == b"\x20\x01"
    s.end()
    s = Sequence()
    assert s.send(b"\x20\x01", gap=10_001) == [(10_001, bytes.fromhex("11 12 80 A3"))] and s.deck.open == b""
    assert s.send(b"\x20", wait=10_000) == [] and s.time == 20_001 and s.deck.open == b""
    assert s.send(b"\x20", wait=1) == [] and s.time == 20_002 and s.deck.open == b"\x20"
    s.end()


def command_cases():
    """Each command in each setting: with a wrong checksum, two wrong counts, unfit data; then right."""
    for steps in SETTINGS:
        for code, fit in FIT.items():
            s = Sequence()
            prepare(s, steps)
            data = one_of(fit)
            wrong = [sum_wrong(block(code, data)), block(recount(code, 1), data + b"\0")]
            wrong += [block(recount(code, -1), data[1:])] if data else []
            wrong += [block(code, one_of(UNFIT[code]))] if code in UNFIT else []
            for full in wrong:
                s.send(full)
                s.hear_again()
            sense(s, code)
            s.send(block(code, data))
            sense(s, code)
            s.end()


def data_cases():
    """All data listed above, fit and unfit, with the cassette in and out."""
    for code in UNFIT:
        for steps in ["20.01", "20.01 20.0F"]:
            s = Sequence()
            prepare(s, steps)
            for data in FIT[code] + UNFIT[code]:
                s.send(block(code, data), gap=0, wait=1)
                s.hear_again()
                if code[0] != "6":
                    sense(s, code)
            s.end()


def code_cases():
    """Every command byte behind the first bytes in use, and every first byte. Data are fit, so that only the code decides."""
    for first in ["00", "20", "21", "24", "40", "44", "60", "61"]:
        s = Sequence()
        for command in range(256):
            s.send(block(f"{first}.{command:02X}", bytes([1] * int(first[1]))), gap=0, wait=1)
            s.hear_again()
        s.end()
    for command in ["01", "10", "31"]:
        s = Sequence()
        for first in range(256):
            s.send(block(f"{first:02X}.{command}", bytes([1] * (first % 16))), gap=0, wait=1)
            s.hear_again()
        s.end()


def speed_cases():
    forward, reverse = list(SPEEDS)[:3], list(SPEEDS)[3:]
    for n in range(256):
        for code in [forward[n % 3]] + ([reverse[n // 5 % 3]] if n % 5 == 0 or n in (1, 42, 58, 64, 84, 103) else []):
            s = Sequence()
            s.send(block(code, [n]))
            s.end()


def gap_cases():
    """Both ends of the gap inside a block, found by each event; what goes on between two bytes does not count."""
    for gap in [0, 9_999, 10_000, 10_001, 10_002]:
        for begun in [b"\x20", b"\x61\x20\x03", b"\x2F" + bytes(16)]:
            for event in [Sequence.look, Sequence.cassette, lambda s, wait: s.position(77, wait),
                          lambda s, wait: s.send(b"\x01", wait=wait), lambda s, wait: s.send(b"\x01", flags=0x30, wait=wait)]:
                s = Sequence()
                s.send(begun, gap=gap % 10_001)
                event(s, wait=gap)
                s.send(b"\x21")
                s.end()
    for between in [lambda s: s.look(9_000), lambda s: s.position(5, 9_000), lambda s: s.cassette(9_000),
                    lambda s: s.send(b"\x01", wait=9_000, room=17), lambda s: s.send(b"\x01", wait=9_000, flags=0x80)]:
        for rest in [1_000, 1_001]:
            s = Sequence()
            s.send(b"\x20")
            between(s)
            s.send(b"\x01\x21", wait=rest)
            s.end()


NAKS = [lambda s: s.send(b"\x20\x01\x22"), lambda s: s.send(b"\x20\x7F\x9F"), lambda s: s.send(b"\x20", flags=0x40),
        lambda s: s.send(b"\x20\x01", flags=0x10), lambda s: (s.send(b"\x20"), s.look(10_001)), lambda s: (s.send(b"\x20"), s.look(15_000))]


def quiet_cases():
    """Both ends of the quiet after each NAK, counted from the due time; a byte in quiet does not prolong it."""
    for nak in NAKS:
        for after in [0, 1, 9_999, 10_000, 10_001, 10_002]:
            for flags in [0, 0x70]:
                s = Sequence()
                nak(s)
                s.time = max(s.time, s.deck.quiet.start + after)
                s.send(b"\x20", flags=flags)
                s.send(b"\x01\x21\x20\x01\x21", gap=0)
                s.send(b"\x20\x01\x21", wait=1)
                s.time = max(s.time, s.deck.quiet.stop)
                s.send(b"\x20\x02\x22")
                s.end()


def late_cases():
    """A time-out found late by each event, and the byte that finds it, in quiet, outside it, flagged: two NAKs."""
    for late in [10_001, 10_002, 20_001, 20_002, 60_000]:
        for begun in [b"\x20", b"\x44\x14\x00\x00"]:
            for event in [Sequence.look, Sequence.cassette, lambda s, wait: s.position(DAY - 1, wait),
                          lambda s, wait: s.send(b"\x20\x01\x21", wait=wait),
                          lambda s, wait: s.send(b"\x20\x01\x21", gap=0, wait=wait),
                          lambda s, wait: s.send(b"\x20", flags=0x10, wait=wait),
                          lambda s, wait: s.send(b"\x20", flags=0x60, wait=wait)]:
                for after in [0, 10_000, 10_001]:
                    s = Sequence()
                    s.send(begun)
                    event(s, wait=late)
                    s.send(b"\x60\x10\x70", wait=after)
                    s.end()


def flag_cases():
    """Every flags byte, with a block open, without, and in quiet."""
    for flags in range(256):
        for before in [b"", b"\x20\x01"] if flags & 0x8F == 0 or flags in (1, 2, 4, 8, 0x80, 0x1F, 0xFF) else [b""]:
            s = Sequence()
            s.send(before + b"\x21", flags=flags)
            s.send(b"\x21", flags=flags)
            s.send(b"\x20\x01\x21", gap=0)
            s.end()


def time_cases():
    """The latest time, one more, and far more; times that are equal; times that fall."""
    for time in [LATEST - 20_002, LATEST - 10_001, LATEST - 10_000, LATEST - 1, LATEST, LATEST + 1, 2**63, 2**64 - 70_000]:
        for sent in [b"\x20", b"\x20\x01\x21", b"\x20\x01\x22"]:
            for flags in [0, 0x10]:
                s = Sequence(time)
                s.send(sent, gap=0, flags=flags)
                s.position(3)
                for wait in [0, 10_000, 1, 10_001, 9_999]:
                    s.look(wait)
                    s.send(b"\x20\x01\x21", gap=0, flags=flags)
                s.cassette()
                s.end()
    for begun in ["", "20.0F"]:
        s = Sequence(5_000)
        prepare(s, begun)
        s.send(b"\x20\x01")
        clock = s.time
        for time in [clock - 1, 0, clock, clock - 1]:
            s.time = time
            s.look()
            s.position(9)
            s.cassette()
            s.send(b"\x21")
            s.send(b"\x21", flags=0x10)
        s.end()
    s = Sequence(9)
    s.send(b"\x20\x01\x21\x60\x10\x70\x61\x20\x0D\x8E\x20\x01\x22\x20\x01\x21", gap=0)
    s.end()


def place_cases():
    for steps in ["", "20.01 20.0F", "24.31:05000000"]:
        for place in PLACES + [DAY, DAY + 1, 2**31, 2**32 - 1]:
            s = Sequence()
            prepare(s, steps)
            s.position(place)
            prepare(s, "61.20:0D 61.0C:01 20.14 61.0C:02 20.24 61.0C:03 20.24 61.0C:04")
            prepare(s, "40.10 40.18 60.10 40.19 40.19 60.10 40.11 40.1B 60.11 40.1A 40.1A 60.11")
            s.position(4)
            s.end()


def room_cases():
    for room in [0, 1, 16, 17, 18, 19, 20, 63, 64]:
        for sent in [b"\x20\x01\x21", b"\x61\x20\x0D\x8E", b"\x61\x0C\x01\x6E", b"\x20\x01\x20"]:
            s = Sequence()
            s.send(sent[:-1])
            s.send(sent[-1:], room=room)
            s.look(room=room)
            s.position(8, room=room)
            s.cassette(room=room)
            s.send(b"\x20", wait=30_000, room=room)
            s.send(b"\x20", wait=30_000, flags=0x20, room=room)
            s.end()


def order_cases():
    """Several reasons at once: the first in the order 1 to 5 counts. The block that timed out stays so until an event is taken."""
    for room in [17, 18]:
        for time in [LATEST + 1, 2_999, 30_000]:
            for flags, place in [(0, 0), (0x10, DAY - 1), (0x80, DAY), (0x1F, 2**32 - 1)]:
                s = Sequence(3_000)
                s.send(b"\x20\x01")
                back, s.time = s.time, time
                s.send(b"\x21", flags=flags, room=room)
                s.position(place, room=room)
                s.look(room=room)
                s.cassette(room=room)
                s.time = max(back, time) if time <= LATEST else back
                s.look()
                s.end()


def refused_later_cases():
    """A refused event tells the deck no time: what comes earlier than it is still taken, and what is too early is still refused."""
    for refused in [lambda s: s.position(DAY, 6_000), lambda s: s.send(b"\x21", flags=0x80, wait=6_000),
                    lambda s: s.cassette(6_000, room=17), lambda s: s.look(LATEST), lambda s: s.position(5, -6_000)]:
        s = Sequence(9_000)
        s.send(b"\x20\x01")
        clock = s.time
        refused(s)
        for time in [clock - 1, clock + 1]:
            s.time = time
            s.send(b"\x21")
        s.end()


def loading_cases():
    """What loading a cassette leaves as it is, out or in: all is set otherwise than at power-on."""
    for steps in ["@7 20.05 20.01 20.0F", "@7 20.05 20.01", "24.31:09000000 20.05"]:
        s = Sequence()
        prepare(s, f"{steps} 00.0C 40.10 40.11 40.18 load 61.20:0D 61.0C:01 60.10 60.11")
        s.end()


def length_cases():
    """Blocks of every length, complete, with a wrong checksum, cut short and left open."""
    for count in range(16):
        for first in [0x20, 0xF0]:
            body = bytes([first + count]) + any_bytes(1 + count)
            full = body + bytes([sum(body) % 256])
            for sent in [full, sum_wrong(full), full[:-1]]:
                s = Sequence()
                s.send(sent, gap=10_000 if first == 0x20 else 0)
                s.end()


def random_cases():
    """Sequences that mix all of it."""
    for _ in range(2_000):
        s = Sequence(LATEST - below(60_000) if chance(5) else below(50_000))
        for _ in range(3 + below(8)):
            random_event(s)
        s.end()


def random_wait(s):
    """Often an end of the quiet, or of the gap after an open block."""
    limits = [0, 1, 300, below(1_000), below(30_000)]
    if s.time < s.deck.quiet.stop and chance(80):
        limits = [s.deck.quiet.stop - s.time - 1] + 6 * [s.deck.quiet.stop - s.time]
    elif s.deck.open:
        limits += [9_999, 10_000, 10_001, 20_000, 20_001, 20_002]
    return one_of(limits)


def random_gap():
    return below(2_000) if chance(95) else one_of([9_999, 10_000, 10_001, below(25_000)])


def random_event(s):
    kind = below(100)
    if kind < 74:
        random_block(s)
    elif kind < 80:
        s.look(random_wait(s))
    elif kind < 86:
        s.position(one_of(PLACES) if chance(50) else below(DAY), random_wait(s))
    elif kind < 91:
        s.cassette(random_wait(s))
    else:
        random_refused(s)


def random_block(s):
    """Mostly right and whole."""
    code = one_of(["60.10", "60.11", "61.0C", "61.20"] if chance(15) else list(FIT))
    data = one_of(UNFIT[code]) if code in UNFIT and chance(10) else one_of(FIT[code])
    full = block(code, data)
    if chance(4):
        full = sum_wrong(full)
    if chance(3):
        full = block(f"{below(16):X}{len(data):X}.{below(256):02X}", data)
    if chance(6):
        full = full[:1 + below(len(full))]
    bytes_ = [[random_gap(), 0, byte] for byte in full]
    bytes_[0][0] = random_wait(s)
    if chance(25 if s.deck.open else 4):
        bytes_[0 if s.deck.open else below(len(full))][1] = one_of([0x10, 0x20, 0x40, 0x30, 0x60, 0x70])
    s.run(bytes_, room=18 + below(10))


def random_refused(s):
    time = s.time
    s.time = one_of([time, time, LATEST + 1 + below(5), below(max(1, s.deck.clock))])
    room = one_of([18, 18, 17, below(18)])
    if chance(40):
        s.send(any_bytes(1), flags=one_of([0x80, 0x01, 0x8F, below(256)]), room=room)
    elif chance(40):
        s.position(one_of([DAY, DAY + below(2**30), 2**32 - 1]), room=room)
    else:
        one_of([Sequence.look, Sequence.cassette])(s, room=room)
    s.time = time


def main():
    checking()
    random.seed(1)  # only random.random() is used: Python keeps its sequence from version to version
    assert [speed(n) for n in (0, 42, 58, 64, 84, 103)] == [0, 205, 649, 1000, 4216, 16548]
    for cases in [example_cases, command_cases, data_cases, code_cases, speed_cases, gap_cases, quiet_cases, late_cases, flag_cases,
                  time_cases, place_cases, room_cases, order_cases, refused_later_cases, loading_cases, length_cases, random_cases]:
        cases()
    store("deck_cases", {"stdin": bytes(stdin), "stdout": "".join(stdout).encode()},
          f"{counts['sequences']} sequences, {counts['events']} events")


if __name__ == "__main__":
    main()
