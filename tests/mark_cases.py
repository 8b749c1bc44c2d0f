#!/usr/bin/env python3
"""Makes crates/mark_cases/stdin (records) and stdout (what the marker must say of them, by tests/marks.py and tests/marks_again.py).

`--check` compares the two files instead of writing them. A case of stdin is the record's length and the number of table places lent,
four bytes each, lowest first, and then the record. In stdout a line has the number, the fault (0 if the record is sound), the place and
the count; then comes the text of the verdict, with the turn starts.
"""
import random

from deck import DAY, LATEST, Deck, block
from deck_cases import FIT, PLACES, UNFIT, any_bytes, below, chance, one_of, sum_wrong
from marks import (CASSETTE, CONTROLLER, DECK, LONGEST, POSITION, SOUND, STOPS, Entry, entries_of, finished, hand, mark, record_of, text,
                   well_formed)
from marks_again import mark as mark_again
from stored import checking, store

stdin, stdout, said = bytearray(), [], {}

# ---- cases


def record_case(record, places):
    no, fault, place, starts = mark(record, places)
    assert mark_again(record, places) == (no, fault, place, starts)
    stdin.extend(len(record).to_bytes(4, "little") + places.to_bytes(4, "little") + record)
    stdout.append(f"{no} {fault} {place} {len(starts)}\n" + text(no, fault, place, starts))
    key = f"refused {no}" if no else fault or "sound"
    said[key] = said.get(key, 0) + 1


def case(entries, behind=3):
    """An exact table. Behind the place of a fault, only so many entries."""
    place = mark(record_of(entries), len(entries))[2]
    entries = entries[:place + 1 + behind]
    record_case(record_of(entries), len(entries))


def shifted(entries, by):
    return [entry._replace(time=entry.time + by) for entry in entries]


def both(entries):
    """At the start of the clock, and once more up to the latest time."""
    case(entries)
    case(shifted(entries, LATEST - max(entry.time for entry in entries)))


# ---- a record in the making


class Line:
    """A deck hears the entries, so that the line knows the reply: its due time and the bytes that have not come."""

    def __init__(self):
        self.entries, self.deck, self.time = [], Deck(), 0
        self.due, self.awaited = 0, b""

    def put(self, kind, content=0, flags=0, wait=0):
        self.time += wait
        self.entries.append(Entry(kind, flags, content, self.time))
        if well_formed(self.entries[-1]) and self.time >= self.deck.clock:
            self.heard(hand(self.deck, self.entries[-1]))
        return self

    def heard(self, replies):
        for self.due, self.awaited in replies:
            pass

    def look(self, time):
        """No entry; but a time-out is found."""
        self.time = time
        self.heard(self.deck.look(time)[1])
        return self

    def silence(self):
        """Up to the time-out."""
        return self.look(self.deck.last + 10_001)

    def send(self, content, wait=0, gap=300, flags=0):
        """Controller bytes at equal distances, the first after the wait. The flags are the last one's."""
        for at, byte in enumerate(content):
            self.put(CONTROLLER, byte, flags if at == len(content) - 1 else 0, gap if at else wait)
        return self

    def reply(self, wait=400, gap=300, size=18):
        """Bytes of the reply, the first after its due time by the wait."""
        self.time = self.due + wait
        for at, byte in enumerate(self.awaited[:size]):
            self.put(DECK, byte, wait=gap if at else 0)
        self.awaited = self.awaited[size:]
        return self

    def rest(self, wait=0, gap=300):
        """What is left of the reply, the first after the latest entry by the wait."""
        return self.reply(self.time + wait - self.due, gap)

    def turn(self, content=b"\x20\x01\x21", wait=20_002):
        return self.send(content, wait).reply()

    def quiet_end(self):
        """Past the quiet, if there is one."""
        return self.look(max(self.time, self.deck.quiet.stop))


OPENINGS = {"acknowledged": lambda line: line.send(b"\x20\x01\x21"), "answered": lambda line: line.send(b"\x61\x20\x03\x84"),
            "wrong sum": lambda line: line.send(b"\x20\x7F\x22"), "undefined": lambda line: line.send(b"\x21\x7F\x00\xA0"),
            "flagged": lambda line: line.send(b"\x20\x01", flags=0x10), "flagged alone": lambda line: line.send(b"\x55", 9, flags=0x60),
            "time-out": lambda line: line.send(b"\x20").silence(), "long time-out": lambda line: line.send(b"\x2F" + bytes(16)).silence()}
NAKS = list(OPENINGS.values())[2:]


# ---- which cases


def example_cases():
    """Document 01's examples, and that the marker says what stands there."""
    for wait, gap, times, verdict in [(400, 300, [0, 300, 600, 1000, 1300, 1600], (0, SOUND, 6, [0])),
                                      (9_000, 0, [0, 300, 600, 9600, 9600, 9600], (0, SOUND, 6, [0])),
                                      (9_001, 0, [0, 300, 600, 9601, 9601, 9601], (0, 24, 3, [0]))]:
        entries = Line().send(b"\x20\x01\x21").reply(wait, gap).entries
        assert [entry.time for entry in entries] == times and mark(record_of(entries), 6) == verdict
        both(entries)
    assert mark(b"", 0) == (0, SOUND, 0, [])
    case([])
    for place, sent, reply in [
            (0, "20 01 21", "10 01 11"), (0, "20 01 22", "11 12 04 27"), (0, "20 7F 9F", "11 12 01 24"),
            (0, "00 11 11", "12 11 00 02 25"), (0, "61 20 03 84", "73 20 01 20 00 B4"),
            (0, "61 0C 03 70", "74 04 00 00 00 00 78"), (2_159_999, "61 0C 03 70", "74 04 24 59 59 23 71"),
            (0, "24 31 24 00 00 00 79", "10 01 11"), (0, "24 31 25 00 00 00 7A", "11 12 01 24")]:
        line = Line().put(POSITION, place).send(bytes.fromhex(sent))
        assert line.awaited == bytes.fromhex(reply)
        both(line.reply().entries)
    line = Line().send(b"\x20\x01", gap=10_000)
    assert line.deck.open == b"\x20\x01"
    both(line.entries)
    both(line.send(b"\x21").reply().entries)
    line = Line().send(b"\x20\x01", gap=10_001)
    assert line.awaited == bytes.fromhex("11 12 80 A3")
    both(line.reply().look(20_001).send(b"\x20").entries)
    assert line.deck.open == b""
    both(line.send(b"\x20", wait=1).entries)
    assert line.deck.open == b"\x20" and mark(record_of(line.entries), 8) == (0, STOPS, 8, [0, 7])
    both(line.send(b"\x01\x21").reply().entries)


def size_cases():
    """Lengths that are no multiple of 12, the longest record and one entry more; tables one place too small, exact and larger."""
    entries = Line().turn().turn(b"\x20\x7F\x9F").entries
    for length in range(40):
        for places in [100, 0] if length % 12 in (0, 1, 11) else [100]:  # 10 comes before 1
            record_case(record_of(entries)[:length], places)
    for some in [entries, entries[:1], entries[1:], entries[:2], entries[:9]]:
        for places in [0, len(some) - 1, len(some), len(some) + 1, 6_000]:
            record_case(record_of(some), places)
    for places in [1, 5_461]:
        record_case(b"", places)
    line = Line().put(POSITION, DAY - 1)
    while len(line.entries) < LONGEST // 12 + 1:
        line.turn(one_of([b"\x20\x01\x21", b"\x20\x10\x30", b"\x40\x10\x50"]), wait=below(30_000))
    record = record_of(line.entries)
    for part, places in [(record[:LONGEST], 5_461), (record[12:LONGEST + 12], 5_461), (record[:LONGEST + 12], 5_462)]:
        record_case(part, places)


def gap_cases():
    """A gap inside a block, or silence after its beginning. The reply comes at once, and another turn after it."""
    for gap in [0, 9_999, 10_000, 10_001, 10_002, 19_001, 19_002, 20_001, 20_002]:
        for size in range(1, 4):
            for flags in [0, 0x20]:
                line = Line().send(b"\x21\x11\x40\x72"[:size]).send(b"\x21\x11\x40\x72"[size:], gap, gap=0, flags=flags)
                both(line.rest().quiet_end().turn(wait=0).entries)
        line = Line().send(b"\x20").silence().reply(0, 0)
        line.look(max(line.time, gap)).send(b"\x20\x01\x21\x20\x01\x21", gap=0)
        both(line.rest(gap=0).entries)  # the silence, the quiet and the next turn
        both(Line().send(b"\x20").put(POSITION, 5, wait=8_000).look(gap).put(CASSETTE).entries)  # tape entries do not break the silence


def reply_cases():
    """The first byte of the reply, and each later one."""
    for opening in OPENINGS.values():
        for wait in [-1, 0, 8_999, 9_000, 9_001, 9_002, 10_001]:
            line = Line()
            opening(line)
            both(line.reply(wait).entries)
            if wait >= 0:
                case(line.quiet_end().turn(wait=0).entries)
        for size in range(1, 6):
            for gap in [0, 9_999, 10_000, 10_001]:
                line = Line()
                opening(line)
                both(line.reply(size=size).rest(gap).entries)
        line = Line()
        opening(line)
        both(line.reply(9_000, 10_000).turn(wait=0).entries)


def quiet_cases():
    """The quiet's end, with all, some or none of the reply come; it counts from the due time, however late the NAK comes."""
    for nak in NAKS:
        for after in [0, 8_999, 9_000, 9_001, 9_999, 10_000, 10_001, 10_002]:
            for flags in [0, 0x40]:
                for size, wait in [(18, 0), (18, 9_000), (2, 0), (2, 9_000), (0, 0)]:
                    line = Line()
                    nak(line)
                    line.reply(wait, gap=0, size=size)
                    both(finished(line.look(max(line.time, line.due + after)).send(b"\x20", flags=flags).entries))


def clock_cases():
    """Equal times, and records that stop at the clock's end."""
    for opening in OPENINGS.values():
        line = Line()
        opening(line)
        both(line.entries)
        both(line.reply(0, 0, size=2).entries)
        if line.time in line.deck.quiet:
            both(line.send(b"\x20\x01\x21", gap=0).send(b"\x20", flags=0x70).entries)
        both(line.rest(gap=0).entries)
        both(line.put(CASSETTE).entries)
        both(line.turn(wait=0).entries)


MALFORMED = [(kind, 0, 0) for kind in (4, 5, 7, 8, 16, 127, 128, 129, 131, 255)]  # kind, content, flags
MALFORMED += [(CONTROLLER, 0x20, flags) for flags in (0x01, 0x02, 0x04, 0x08, 0x80, 0x0F, 0x18, 0x90, 0xF0, 0xFF)]
MALFORMED += [(kind, 0x11, flags) for kind in (DECK, POSITION) for flags in (0x01, 0x10, 0x20, 0x40, 0x70, 0x80, 0xFF)]
MALFORMED += [(CASSETTE, 0, flags) for flags in (0x01, 0x10, 0x40, 0x80)]
MALFORMED += [(kind, content, 0) for kind in (CONTROLLER, DECK) for content in (256, 0x1020, 0x10011, 0x01000020, 2**32 - 1)]
MALFORMED += [(POSITION, content, 0) for content in (DAY, DAY + 1, 2**24, 2**31, 2**32 - 1)]
MALFORMED += [(CASSETTE, content, 0) for content in (1, 255, 256, 2**16, 2**24, 2**32 - 1)]

STATES = {"nothing": lambda line: None, "one byte": lambda line: line.send(b"\x20"), "two bytes": lambda line: line.send(b"\x20\x01"),
          "one byte, tape": lambda line: line.send(b"\x24").put(POSITION, DAY - 1, wait=3_000)}
STATES.update({f"{name}, {size} of the reply": lambda line, opening=opening, size=size: (opening(line), line.reply(size=size))
               for name, opening in OPENINGS.items() if name not in ("undefined", "long time-out") for size in (0, 1, 3, 18)})


def malformed_cases():
    """20, at times that are right, fall or are overdue too; and what is just well formed."""
    for state in [STATES["nothing"], STATES["one byte"], STATES["acknowledged, 1 of the reply"], STATES["wrong sum, 18 of the reply"]]:
        for at, malformed in enumerate(MALFORMED):
            line = Line()
            state(line)
            case(line.put(*malformed, wait=[0, -line.time, 30_000][at % 3]).turn().entries)
    for flags in range(0, 0x80, 16):
        case(finished(Line().send(b"\x20", flags=flags).entries))
    for flags in range(256):
        case([Entry(CONTROLLER, flags, flags, flags)])
    for kind, content in [(CONTROLLER, 255), (DECK, 255), (POSITION, 0), (POSITION, DAY - 1), (CASSETTE, 0)]:
        for time in [0, LATEST]:
            case([Entry(kind, 0, content, time)])


def grid_cases():
    """In each state, at each time, each entry: several faults at once too. What is no fault is finished, and a turn follows."""
    for state in STATES.values():
        for wait in [-1, 0, 9_000, 9_001, 10_000, 10_001, 19_001, 19_002, 20_001, 20_002]:
            for name in ["byte", "flagged", "right", "wrong", "position", "cassette", "malformed"]:
                line = Line()
                state(line)
                line.look(max(0, line.time + wait))
                right = (line.awaited + b"\x11")[0]
                line.put(*{"byte": (CONTROLLER, 0x20), "flagged": (CONTROLLER, 0x01, 0x30), "right": (DECK, right),
                           "wrong": (DECK, right ^ 1 << below(8)), "position": (POSITION, below(DAY)), "cassette": (CASSETTE,),
                           "malformed": one_of(MALFORMED)}[name])
                fault = mark(record_of(line.entries), 100)[1]
                case(line.entries if fault not in (SOUND, STOPS) else
                     finished(line.entries) + shifted(Line().send(b"\x20", 20_002).send(b"\x20", flags=0x40).reply().entries, line.time))


def fault_cases():
    """One record in which all stands; stopped, begun later, an entry dropped, delayed, changed or added. Two faults: the first counts."""
    line = Line().turn(b"\x61\x0C\x01\x6E").turn(b"\x20\x01\x20").put(CONTROLLER, 0x10, wait=100).put(POSITION, 9, wait=50)
    whole = line.send(b"\x20", wait=20_000).silence().reply(10, 20).put(CASSETTE).entries
    assert mark(record_of(whole), 100)[1] == SOUND
    for at, entry in enumerate(whole):
        before, after = whole[:at], whole[at + 1:]
        for entries in [before, [entry] + after, before + after]:
            case(entries)
        for by in [9_001, 10_001]:
            case(before + shifted([entry] + after, by))
        for time in [0, max(0, entry.time - 1), max(0, whole[at - 1].time - 1), LATEST]:
            case(before + [entry._replace(time=time)] + after)
        for bit in range(8):
            case(before + [entry._replace(content=entry.content ^ 1 << bit)] + after)
        for kind in range(5):
            case(before + [entry._replace(kind=kind)] + after)
            case(before + [Entry(kind, 0, 0x11 if kind == DECK else 0, entry.time), entry] + after)
        for later in range(0, len(after), 4):
            case(before + [entry._replace(content=0x77)] + after[:later] + [Entry(9, 9, 9, 9)] + after[later:], behind=30)


def tape_cases():
    """A position or a cassette anywhere acts at its place: it alters the replies to what is sensed later, and no other."""
    for sent in [b"\x61\x0C\x01\x6E", b"\x61\x20\x03\x84", b"\x20\x01\x22", b"\x60\x10\x70"]:
        entries = Line().turn(b"\x20\x0F\x2F").turn(b"\x40\x10\x50").turn(sent).turn(b"\x61\x20\x02\x83").entries
        for at in range(len(entries) + 1):
            line, tape = Line(), [(POSITION, one_of(PLACES)), (CASSETTE,)][at % 2]
            for entry in entries[:at]:
                again(line, entry)
            line.put(*tape)
            for entry in entries[at:]:
                again(line, entry)
            case(line.entries)
            if chance(15):  # the replies without it
                case(entries[:at] + [line.entries[at]] + entries[at:])
    for tape in [[Entry(CASSETTE, 0, 0, 5)], [Entry(POSITION, 0, DAY - 1, 7)], [Entry(POSITION, 0, 3, 0), Entry(CASSETTE, 0, 0, LATEST)]]:
        case(tape)


def again(line, entry):
    """A controller byte as it was, a deck byte as it now must be."""
    line.look(entry.time)
    if entry.kind == CONTROLLER:
        line.put(CONTROLLER, entry.content)
    else:
        line.reply(line.time - line.due, size=1)


# ---- random records


def some_wait(longest):
    """Mostly short, often the longest."""
    return below(1_000) if chance(85) else one_of([0, 1, longest - 1, longest, below(longest + 1)])


def advance(line, time):
    """Up to the time of the next byte; tape entries and, in quiet, controller bytes may stand between."""
    while chance(4):
        line.look(line.time + below(time - line.time + 1))
        line.put(*(POSITION, one_of(PLACES)) if chance(60) else (CASSETTE,))
    while line.time in line.deck.quiet and chance(30):
        line.look(line.time + below(min(time + 1, line.deck.quiet.stop) - line.time))
        line.put(CONTROLLER, below(256), one_of([0, 0, 0x10, 0x70]))
    line.look(time)


def some_block():
    code = one_of(["60.10", "60.11", "61.0C", "61.20"] if chance(25) else list(FIT))
    full = block(code, one_of(UNFIT[code]) if code in UNFIT and chance(15) else one_of(FIT[code]))
    if chance(5):
        full = sum_wrong(full)
    if chance(5):
        count = one_of([0, 0, 1, 4, 15, below(16)])
        full = block(f"{below(16):X}{count:X}.{below(256):02X}", any_bytes(count))
    return full


def some_turn(line):
    """With every delay legal."""
    full, opening = some_block(), one_of(["full"] * 8 + ["silence", "flagged"])
    size = {"full": len(full), "silence": 1 + below(len(full) - 1), "flagged": below(len(full))}[opening]
    sent = [(byte, 0) for byte in full[:size]]
    sent += [(below(256), one_of([0x10, 0x20, 0x40, 0x30, 0x50, 0x60, 0x70]))] if opening == "flagged" else []
    advance(line, line.time + some_wait(40_000))
    line.quiet_end()
    for at, (byte, flags) in enumerate(sent):
        if at:
            advance(line, max(line.time, line.deck.last + some_wait(10_000)))
        line.put(CONTROLLER, byte, flags)
    if opening == "silence":
        line.silence()
    time = line.due + some_wait(9_000)
    for byte in line.awaited:
        advance(line, time)
        line.put(DECK, byte)
        time = line.time + some_wait(10_000)
    line.awaited = b""


def some_sound(turns):
    """Mostly at the start of the clock; some up to the latest time, some over the end of so many time bytes."""
    line = Line()
    line.time = below(50_000)
    for _ in range(turns):
        some_turn(line)
    advance(line, line.time + below(30_000))
    by = LATEST - line.entries[-1].time if chance(5) else 2 ** one_of([24, 32, 40]) - one_of(line.entries).time if chance(10) else 0
    return shifted(line.entries, by)


def changed(entries):
    """One mutation; perhaps nothing is left."""
    at, how = below(len(entries)), below(100)
    before, entry, after = entries[:at], entries[at], entries[at + 1:]
    if how < 12:
        return before + [entry._replace(content=one_of([entry.content ^ 1 << below(8), below(256), below(2**32)]))] + after
    if how < 24:
        time = entry.time + one_of([-1, 1, 9_000, 10_000, 10_001, 20_000, -below(2_000), below(30_000)])
        return before + [entry._replace(time=min(max(time, 0), LATEST))] + after
    if how < 40:  # this and all later ones
        by = one_of([9_000, 9_001, 10_000, 10_001, below(12_000), below(30_000)])
        return before + shifted([entry] + after, min(by, LATEST - max(entry.time for entry in entries)))
    if how < 46:
        return before + [entry._replace(kind=below(5), content=one_of([entry.content, 0]))] + after
    if how < 54:
        return before + [entry._replace(flags=one_of([0x10, 0x20, 0x40, 0x70, 0x80, 0x01, entry.flags ^ 0x10]))] + after
    if how < 64:
        return before + after
    if how < 72:
        return before + [entry, entry] + after
    if how < 82:  # swapped, the times mostly staying where they are
        after, other = after[1:], (after + [entry])[0]
        return before + ([other._replace(time=entry.time), entry._replace(time=other.time)] if chance(70) else [other, entry]) + after
    if how < 90:
        return before + [entry, Entry(CONTROLLER, one_of([0, 0x20]), below(256), entry.time)] + after
    if how < 94:
        return before
    record = bytearray(record_of([entry]))
    record[below(12)] ^= 1 << below(8)
    return before + entries_of(bytes(record)) + after


def scribbled():
    """Few bytes and the limits, with a deck byte mostly where one is awaited."""
    line = Line()
    for _ in range(1 + below(14)):
        wait = below(300) if chance(60) else one_of([0, 1, 9_000, 9_001, 10_000, 10_001, 19_001, 19_002, 20_001, 20_002, 40_000])
        if line.awaited and chance(85):
            line.rest(min(wait, one_of([9_000, 10_000, 10_001])), gap=one_of([0, 10_000]))
        elif chance(85):
            line.put(CONTROLLER, one_of([0x20, 0x01, 0x21, 0x60, 0x10, 0x70]), one_of([0x10, 0x70]) if chance(10) else 0, wait)
        else:
            line.put(*one_of([(POSITION, 7), (CASSETTE,), (DECK, 0x11), (DECK, below(256))]), wait=wait)
    return line.entries


def random_cases():
    for turn in range(1_200):
        entries = some_sound(1 + turn % 3)
        assert mark(record_of(entries), len(entries))[1] == SOUND
        record_case(record_of(entries), len(entries) + below(3))
        case(changed(entries), behind=below(20))
    for _ in range(500):
        case(changed(changed(some_sound(1 + below(2))) or some_sound(1)))
    for _ in range(1_000):
        case(scribbled())


def make():
    random.seed(1)  # only random.random() is used: Python keeps its sequence from version to version
    for cases in [example_cases, size_cases, gap_cases, reply_cases, quiet_cases, clock_cases, malformed_cases, grid_cases, fault_cases,
                  tape_cases, random_cases]:
        cases()


def short_records():
    """For the comparison in tests/marks.py: every record above of at most 16 whole entries, and further ones."""
    make()
    at = 0
    while at < len(stdin):
        begin, at = at + 8, at + 8 + int.from_bytes(stdin[at:at + 4], "little")
        if (at - begin) % 12 == 0 and at - begin <= 16 * 12:
            yield entries_of(stdin[begin:at])
    for _ in range(2_000):
        yield scribbled()


def main():
    checking()
    make()
    made_of = f"{sum(said.values())} records (" + ", ".join(f"{key} {said[key]}" for key in sorted(said, key=str)) + ")"
    store("mark_cases", {"stdin": bytes(stdin), "stdout": "".join(stdout).encode()}, made_of)


if __name__ == "__main__":
    main()
