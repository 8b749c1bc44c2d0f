#!/usr/bin/env python3
"""The marker of M-104 (document 02), which reads a record in parts, written from the papers alone. Sentences in quotation marks are
document 02's.

Makes crates/parts_cases/stdin and stdout; and crates/follow/stdin, a record longer than the call on a whole record takes, and stdout,
what `follow` must print of it. `--check` compares the files instead of writing them. Either way the model is compared with the examples
of the readings, and every reading, all that was read taken as one record, with both markers.

stdin is a sequence of steps, each beginning with one byte; numbers are four bytes each, lowest first. 0: a new reading. 1: a part: its
length, the number of table places lent, its bytes. 2: the end; the reading goes on as it was. 3: a made-up reading: the one at hand, but
with so many entries read and taken, and so many turns counted. In stdout a part has a line `part NO BYTES REST`, how many bytes were read
and how many were not, with the turn starts behind; an end has `end NO FAULT PLACE COUNT`.
"""
import random

from complete import happenings, noted
from deck import ROOM, TAKEN, Deck, block
from deck_cases import FIT, any_bytes, below, chance, one_of
from mark_cases import Line, changed, scribbled, some_sound, some_turn
from marks import (CONTROLLER, DECK, DIFFERS, FALLS, FIRST, GAP, LATER, LONGEST, MALFORMED, NOT_AWAITED, OVERDUE, POSITION, QUIET, RECORD,
                   SOUND, STOPS, WHILE_AWAITED, Entry, Marker, entries_of, hand, record_of, well_formed)
from marks_again import judge
from stored import checking, store

SIZE, MOST = 12, 4_294_967_295  # bytes of an entry; 'Up to 4,294,967,295 entries.'
LONGEST_PART, MOST_PLACES = 65_552, 6_000  # what the test program has room for
TIMED_OUT = block("11.12", [0x80])

# ---- the model


class Reading:
    """'take the record in parts of any length, cut anywhere, also inside an entry, with parts of no bytes allowed'"""

    def __init__(self):
        self.deck, self.awaited, self.latest = Deck(), b"", 0  # the reply's bytes that have not come; the latest time of the next one
        self.entries, self.held = 0, b""  # the whole entries read, and the bytes of one that has not ended
        self.fault, self.taken, self.count = SOUND, 0, 0  # the entries before a fault, and the turns begun among them

    def part(self, part, places):
        """The number, how many bytes are read, and the turn starts. 'ROOM first, if the table has no place at all, with nothing read; then
        RECORD, nothing read, for a part that would bring more whole entries than that'"""
        if places == 0:
            return ROOM, 0, []
        if self.entries + (len(self.held) + len(part)) // SIZE > MOST:
            return RECORD, 0, []
        starts, read, end = [], 0, SIZE - len(self.held)
        while end <= len(part):
            (entry,) = entries_of(self.held + part[read:end])
            fault = self.fault_of(entry)
            begins = not fault and self.begins_turn(entry)
            if begins and len(starts) == places:
                assert not self.held  # 'before an entry that ends in it': it began in it too, as another start ended in it before
                return TAKEN, read, starts
            starts += [self.entries] * begins
            self.take(entry, fault, begins)
            self.held, read, end = b"", end, end + SIZE
        self.held += part[read:]
        return TAKEN, len(part), starts

    def fault_of(self, entry):
        """The first that applies. Nothing is changed, here and in the next, as the entry may be handed back unread."""
        kind, _, content, time = entry
        if self.fault:
            return self.fault
        if not well_formed(entry):
            return MALFORMED
        if time < self.deck.clock:
            return FALLS
        awaited, latest, quiet = self.stands(time)
        if awaited and time > latest:
            return OVERDUE
        if kind == DECK and not awaited:
            return NOT_AWAITED
        if kind == DECK and content != awaited[0]:
            return DIFFERS
        return WHILE_AWAITED if kind == CONTROLLER and awaited and time not in quiet else SOUND

    def begins_turn(self, entry):
        """Of one that is no fault. A byte that finds a time-out is in its quiet, or is a fault."""
        return entry.kind == CONTROLLER and not self.deck.open and entry.time not in self.deck.quiet

    def stands(self, time):
        """What is awaited at this time, the latest time of its next byte, and the quiet. A time-out's NAK is there from its due time."""
        due = self.deck.last + GAP + 1
        if self.deck.open and time >= due:
            return TIMED_OUT, due + FIRST, range(due, due + QUIET + 1)
        return self.awaited, self.latest, self.deck.quiet

    def take(self, entry, fault, begins):
        """'After a fault the rest is only counted.'"""
        self.entries, self.fault = self.entries + 1, fault
        if fault:
            return
        self.taken += 1
        self.count += begins
        for due, reply in hand(self.deck, entry):
            self.awaited, self.latest = reply, due + FIRST
        if entry.kind == DECK:
            self.awaited, self.latest = self.awaited[1:], entry.time + LATER

    def end(self):
        """Number, fault, place and count. 'RECORD at the end if a part of an entry is left over, fault or none.'"""
        if self.held:
            return RECORD, 0, 0, 0
        inside_turn = self.awaited or self.deck.open
        return TAKEN, self.fault or (STOPS if inside_turn else SOUND), self.taken, self.count

    def make_up(self, entries, turns):
        assert not self.held and not self.fault
        self.entries, self.taken, self.count = entries, entries, turns


def followed(record, size, places):
    """What `follow` prints, if it takes so many bytes at a time and has so many places: the same for any."""
    reading, lines = Reading(), []
    for at in range(0, len(record), size):
        part = record[at:at + size]
        while part:
            _, read, starts = reading.part(part, places)
            lines += [f"turn {start}" for start in starts]
            part = part[read:]
    no, fault, place, count = reading.end()
    return lines + [f"refused {no}" if no else f"fault {fault} at {place}" if fault else f"sound {count}"]


# ---- examples


def written(text):
    """The notation of the readings, as tests/complete.py has it; behind a `~` stand raw bytes."""
    entries, _, raw = text.partition("~")
    return record_of(noted(entries)) + bytes.fromhex(raw)


FOLLOWED = """
    C:2001@0 D:1001@0 ~00 -> turn 0; refused 10
    d10@0 ~00 -> refused 10
    d10@0 C:2001@0 D:1001@0 -> fault 22 at 0
    -> sound 0
    c20@0 -> turn 0; fault 26 at 1
    PLAY@0 ACK@= STOP@= ACK@= d11@= PLAY@= ACK@= -> turn 0; turn 6; fault 22 at 12
"""

# Places, record | cuts -> of each part, and of each rest handed in again, the bytes read : the turn starts # a wrong reading.
ANSWERED = """
    1 C:2001@0 D:1001@0 C:2001@0 D:1001@0 | -> 72:0 72:6
    1 C:2001@0 D:1001@0 C:2001@0 D:1001@0 | 84 -> 72:0 12:6 60:
    1 C:2001@0 D:1001@0 C:2001@0 D:1001@0 | 83 -> 83:0 61:6
    1 C:2001@0 D:1001@0 C:2001@0 D:1001@0 | 73 -> 73:0 71:6
    1 C:2001@0 D:1001@0 d10@0 | -> 84:0
    2 C:2001@0 D:1001@0 C:2001@0 D:1001@0 | 84 -> 84:0,6 60:                # a place kept free
    1 PLAY@0 ACK@= STOP@= ACK@= PLAY@= | 11 72 -> 11: 61:0 72:6 36:12       # the start goes out with the part its entry begins in
    1 PLAY@0 ACK@= STOP@= ACK@= | 12 72 -> 12:0 60: 72:6                    # it goes out with the next part
    1 PLAY@0 ACK@= STOP@= ACK@= | 72 83 -> 72:0 11: 61:6                    # the table stays full from part to part
    1 PLAY@0 ACK@= p7@= k@= STOP@= ACK@= | -> 96:0 72:8                     # stopped where the table is full, or behind the turn
    1 PLAY@0 ACK@= p7@= k@= STOP@= ACK@= | 96 -> 96:0 72:8                  # a part that fills the table is not read whole
    1 PLAY@0 ACK@= c20/80@= STOP@= ACK@= | -> 156:0                         # stopped at a fault; behind it
    1 PLAY@0 d10@= c20@= STOP@= ACK@= | -> 132:0                            # the same, at a controller byte
    1 BAD@0 NAK4@= c20@= STOP@10000 ACK@= | -> 168:0                        # stopped at bytes in quiet
    1 BAD@0 NAK4@= c20@= STOP@10001 ACK@= | -> 96:0 72:8
    1 c20@0 c20@10001 NAK80@= c20@20001 | -> 84:0                           # a byte that finds a time-out begins a turn
    1 c20@0 c20@10001 NAK80@= c20@20002 | -> 72:0 12:6
    1 d10@0 STOP@= ACK@= STOP@= ACK@= | 5 20 -> 5: 15: 136:                 # starts handed out after a fault
    3 c20/10@0 NAK10@= c20/10@10001 NAK10@= c20/10@20002 NAK10@= c20/10@30003 | 183 -> 183:0,5,10 9:15
    3 c20/10@0 NAK10@= c20/10@10001 NAK10@= c20/10@20002 NAK10@= c20/10@30003 | -> 180:0,5,10 12:15
"""


def told(text):
    lines = [line.partition("#")[0] for line in text.splitlines()]
    return [(given.strip(), wanted.strip()) for given, _, wanted in (line.partition("->") for line in lines if line.strip())]


def check_examples():
    for record, wanted in told(FOLLOWED):
        for size in [1, 5, 12, 13, 100]:
            assert followed(written(record), size, 1) == followed(written(record), size, 9) == wanted.split("; "), record
    for given, wanted in told(ANSWERED):
        places, _, given = given.partition(" ")
        record, _, cuts = given.partition("|")
        assert answered(written(record), int(places), [int(cut) for cut in cuts.split()]) == wanted.split(), given


def answered(record, places, cuts):
    reading, answers = Reading(), []
    for part in cut_at(record, cuts):
        while True:
            _, read, starts = reading.part(part, places)
            answers.append(f"{read}:" + ",".join(map(str, starts)))
            part = part[read:]
            if not part:
                break
    return answers


def cut_at(record, cuts):
    return [record[begin:end] for begin, end in zip([0, *cuts], [*cuts, len(record)])]


# ---- cases

stdin, stdout, said, readings = bytearray(), [], {}, []


def say(line, kind):
    stdout.append(line + "\n")
    said[kind] = said.get(kind, 0) + 1


def number(value):
    return value.to_bytes(4, "little")


class Case:
    """A reading: its steps go to stdin, its answers to stdout; both are kept, to be compared in the end."""

    def __init__(self):
        self.reading, self.read = Reading(), bytearray()
        self.parts, self.ends = [], []  # with the number of bytes read before
        self.ahead, self.turns_ahead = 0, 0  # by how much what was made up is more than what was read
        stdin.append(0)
        readings.append(self)

    def part(self, part, places):
        """The unread rest."""
        answer = no, read, starts = self.reading.part(part, places)
        assert len(part) <= LONGEST_PART and places <= MOST_PLACES
        stdin.extend(b"\1" + number(len(part)) + number(places) + part)
        say(" ".join(map(str, ["part", no, read, len(part) - read, *starts])),
            f"parts refused with {no}" if no else "parts" if read == len(part) else "stops")
        self.parts.append((len(self.read), self.ahead, part, places, answer))
        self.read += part[:read]
        return part[read:]

    def all(self, part, places):
        """Each unread rest is handed in again until it is read, or nothing is."""
        rest = self.part(part, places)
        while 0 < len(rest) < len(part):
            part, rest = rest, self.part(rest, places)
        return self

    def each(self, parts, places):
        for part in parts:
            self.all(part, places)
        return self

    def refused(self, part, places):
        """And nothing else."""
        assert self.part(part, places) == part and self.parts[-1][4][0]
        return self

    def end(self):
        answer = no, fault, _, _ = self.reading.end()
        stdin.append(2)
        say(" ".join(map(str, ["end", *answer])), f"ends refused with {no}" if no else f"ends with {fault}")
        self.ends.append((len(self.read), self.ahead, self.turns_ahead, answer))
        return self

    def made_up(self, entries, turns):
        self.ahead, self.turns_ahead = entries - self.reading.entries + self.ahead, turns - self.reading.count + self.turns_ahead
        self.reading.make_up(entries, turns)
        stdin.extend(b"\3" + number(entries) + number(turns))
        return self

    # 'the verdict, place and count that one reading of the whole would give', and 'the turn starts of all parts as one list'

    def check(self):
        starts = whole(self.read)[2]
        for part in self.parts:
            self.check_part(starts, *part)
        for length, ahead, turns_ahead, answer in self.ends:
            fault, place, starts = whole(self.read[:length])
            assert answer == ((RECORD, 0, 0, 0) if length % SIZE else (TAKEN, fault, place + ahead, len(starts) + turns_ahead))

    def check_part(self, starts, before, ahead, part, places, answer):
        """'Demand 3 then holds of the bytes read, part after part, as one record': the starts among the entries that ended in the part."""
        no, read, handed_out = answer
        assert no == (ROOM if places == 0 else RECORD if ahead + (before + len(part)) // SIZE > MOST else TAKEN)
        ended = range(before // SIZE, (before + read) // SIZE)
        assert handed_out == [start + ahead for start in starts if start in ended] and len(handed_out) <= places
        if no == TAKEN and read < len(part):
            assert len(handed_out) == places and (before + read) % SIZE == 0
            self.check_stop(starts, before + read, part[read:read + SIZE])
        else:
            assert read == (0 if no else len(part))

    def check_stop(self, starts, at, entry):
        """The entry that was not read would have begun a turn. Mostly it is the one that was read next."""
        assert len(entry) == SIZE
        assert at // SIZE in (starts if self.read[at:at + SIZE] == entry else whole(self.read[:at] + entry)[2])


def whole(record):
    """'if document 01's length limit were not there': fault, place and starts by both markers. What is left over is not looked at."""
    entries, marker = entries_of(record[:len(record) // SIZE * SIZE]), Marker()
    faults = (marker.step(place, entry) for place, entry in enumerate(entries))
    place, fault = next(((place, fault) for place, fault in enumerate(faults) if fault), (len(entries), 0))
    marked = (fault or (STOPS if marker.inside_turn() else SOUND), place, marker.starts)
    assert marked == judge(entries)
    return marked


# ---- which cases

SHORT = {
    SOUND: "PLAY@5 ACK@= p7@9 STOP@= ACK@+9000",
    MALFORMED: "PLAY@0 ACK@= STOP@= ACK@= c20/80@= c20@=",
    FALLS: "PLAY@9 ACK@= STOP@= ACK@= c20@8 c20@9",
    NOT_AWAITED: "PLAY@0 ACK@= STOP@= ACK@= d10@= c20@=",
    DIFFERS: "PLAY@0 ACK@= STOP@= d10@= d02@= PLAY@=",
    OVERDUE: "PLAY@0 ACK@= STOP@= d10@= c20@10001 PLAY@=",
    WHILE_AWAITED: "PLAY@0 ACK@= STOP@= d10@= c20@= PLAY@=",
    STOPS: "PLAY@0 ACK@= STOP@= ACK@= c20@= c00@=",
    "time-outs": "c20@0 p5@9999 NAK80@10001 c20@20002 k@30004 NAK80@= c20@40004",
    "quiet": "BAD@0 c55@= NAK4@= c20/10@10000 PLAY@10001 ACK@=",
    "four turns": "c20/10@0 NAK10@= c20/20@10001 D:111220@= c20/40@20002 D:111240@= c20@30003",
}
RECORDS = {name: written(text) for name, text in SHORT.items()}
TWO_TURNS = written("PLAY@0 ACK@= STOP@= ACK@=")
TABLES = [1, 2, 3]


def cut_cases():
    """At each byte, so also in a fault and in each start. Wrong: bytes of a cut entry lost, taken twice or put in the other order; a start
    handed out too early, too late or twice; the verdict that of the last part."""
    for name, record in RECORDS.items():
        assert isinstance(name, str) or whole(record)[0] == name
        for places in TABLES:
            for cut in range(len(record) + 1):
                Case().each(cut_at(record, [cut]), places).end()
            for size in [1, 5, 11, 12, 13, 61, 72, 73, 100, len(record)]:
                Case().each(cut_at(record, range(size, len(record), size)), places).end()


def empty_cases():
    """Parts of no bytes, with each number of bytes held. Wrong: what is held is lost, or a start goes out again; refused."""
    Case().end()
    for places in TABLES:
        Case().all(b"", places).end().all(b"", places).end()
        for at, record in enumerate(RECORDS.values()):
            case = Case()
            for part in cut_at(record, range(1 + at % 3, len(record), [5, 7, 11][at % 3])):
                case.each([b"", part, b""], places)
            case.end().each([b"", b""], places).end()


def room_cases():
    """Wrong: a part of no bytes taken; taken after a fault, where no place is needed; something read; RECORD first."""
    for record in RECORDS.values():
        for cut in [0, 1, 11, 12, 30, 71, 72, 73, len(record) - 12, len(record) - 3, len(record)]:
            before, after = cut_at(record, [cut])
            Case().all(before, 2).refused(b"", 0).refused(after + b"\0", 0).end().all(after, 2).refused(b"", 0).refused(record, 0).end()


def end_cases():
    """The end is asked in the middle, more than once. Wrong: it changes something; bytes left over pass, for a fault; they are gone."""
    for record in RECORDS.values():
        for size in [4, 12]:
            case = Case().end()
            for part in cut_at(record, range(size, len(record), size)):
                case.all(part, 1).end().end()
        for left in range(1, SIZE):
            behind = record_of([Entry(POSITION, 0, 9, 40_004)])
            Case().all(record + behind[:left], 2).end().end().all(behind[left:], 1).end()
            if left in (1, 7, 11):
                Case().all(record, 2).each(cut_at(any_bytes(left), [1]), 1).end()


MET = {  # the last turn that has a place, and what comes then, before another turn
    "PLAY@+9 ACK@=": ["p7@=", "k@=", "p7@= k@= p8@+5 k@=", "c20/80@=", "c20/01@=", "c100@=", "p2160000@=", "k@= d10@=", "d10@=",
                      "d00@+20000", "c20@8", "p7@8", "d10@8"],
    "PLAY@+9 d10@= d01@=": ["d11@=", "p7@= d11@+10000", "d11@+10001", "d12@=", "c20@=", "c20/10@=", "c20@+10001", "p7@+10001", "c20/02@="],
    "BAD@+9 NAK4@=": ["c20@= c20/70@+10000", "c20@+10000 p7@+1", "d11@="],
    "BAD@+9 c20@+9000 d11@=": ["c20@= D:1204@= p7@=", "d12@= c20@+1000 d04@= d27@=", "c20@+1001", "d04@="],
    "c20@+9": ["c01@+10000 c21@+10000 ACK@=", "p7@+10001 NAK80@=", "c20@+10001 NAK80@=", "c20@+19001 NAK80@=", "c20@+19002", "d00@="],
}


def full_cases():
    """A full table met by entries that begin no turn, or by a fault, and then by a turn. Wrong: stopped at any of them; after a fault."""
    for last, then in MET.items():
        for each in then:
            for places in TABLES:
                Case().all(written("PLAY@+9 ACK@= " * (places - 1) + f"{last} {each} PLAY@+50000 ACK@="), places).end()


def cut_off_cases():
    """A full table met by a turn's first entry, or its beginning. Wrong: stopped before what does not end in the part, so that the rest of
    it comes first; stopped behind the entry."""
    behind = written("STOP@9 ACK@=")
    for places in TABLES:
        turns = written("PLAY@+9 ACK@= " * places)
        for size in range(30):
            Case().all(turns + behind[:size], places).all(behind[size:], 1).end()


DROPPED = [("c20@1000", "p5@500 STOP@501 ACK@="), ("c20@1000", "c20@0 c00@= c20@= ACK@="), ("c20@1000", "c20/08@0"), ("c20@1000", ""),
           ("c20@1000", "d10@="), ("c20@1000", "k@11001 STOP@= ACK@="), ("c20@1000", "c01@1000 c21@= c00@= c22@= NAK1@="),
           ("c20/10@1000", "d11@1000"), ("c20/10@1000", "STOP@1000 ACK@="), ("c20/10@1000", "c20/20@1000 D:111220@="),
           ("STOP@1000 ACK@=", "p5@999"), ("STOP@1000 ACK@= PLAY@= ACK@=", "TIME@999 AT0@= STAT@= PLAYING@=")]


def dropped_cases():
    """The unread rest is not handed in again: other bytes come. Wrong: something of its first entry was taken, the time or the start."""
    for dropped, instead in DROPPED:
        for places in TABLES[:2]:
            first, then = written("PLAY@0 ACK@= " * places + dropped), written(instead)
            for cut in [0, 5, 12, 17]:
                case = Case()
                assert case.part(first, places) == written(dropped)
                case.end().each(cut_at(then, [cut]), 1).end()


def with_fault(entries, fault, places):
    """One entry put in, so that this is the fault, at the first of these places where one can be."""
    for at in places:
        time = entries[at - 1].time
        for put_in in [Entry(4, 0, 0, time), Entry(POSITION, 0, 7, time - 1), Entry(DECK, 0, 0xEE, time),
                       Entry(POSITION, 0, 7, time + 10_001), Entry(CONTROLLER, 0, 0x20, time)]:
            record = record_of(entries[:at] + [put_in] + entries[at:])
            if whole(record)[:2] == (fault, at):
                return record
    raise AssertionError(fault)


def counted_cases():
    """A fault in each part of a record; behind it turns, and what is malformed. Wrong: the verdict of the last part; entries after a fault
    judged, stopped at or not counted; a fault in a part forgotten in the next."""
    entries = noted("PLAY@+9 ACK@+9 STOP@+9 p7@= ACK@+9 " * 6)
    for size, places in [(100, 1), (300, 2)]:
        for begin in range(0, 12 * len(entries), size):
            for fault in range(MALFORMED, STOPS):
                record = with_fault(entries, fault, range(begin // 12 + 1, min((begin + size) // 12, len(entries)) + 1))
                record += any_bytes(below(40)) if chance(50) else b""
                Case().each(cut_at(record, range(size, len(record), size)), places).end()


# ---- the limit

TURNS = MOST // 6  # so many were counted before, say


def below_limit(entries):
    """A reading that may take so many entries more."""
    return Case().made_up(MOST - entries, TURNS)


def limit_cases():
    """So many entries exactly, one more, and up to 11 bytes more; in one part and in two. Wrong: one off; bytes of an entry not whole
    counted, or not those held; counted in four bytes; refused only at the end, or with something read."""
    for record in [written(5 * "p7@= "), TWO_TURNS, bytes(60)]:
        for left in range(4):
            for over in [-12, -1, 0, 1, 11, 12, 13, 24]:
                length = max(0, 12 * left + over)
                below_limit(left).end().all(record[:length], 1).end().all(b"", 1).all(record[:11], 1).end()
                for cut in [1, 11, 12, 23] if over >= 0 else []:
                    below_limit(left).each(cut_at(record[:length], [cut]), 1).end()
    for length in range(26):
        below_limit(1).all(bytes(11), 1).all(bytes(length), 1).end().refused(bytes(14), 1).all(bytes(1), 1).end()
    zeros = bytes(LONGEST_PART)  # after a block of them, all are in quiet
    below_limit(5_462).all(zeros[:4], 1).refused(zeros, 1).all(zeros[:-1], 1).end().refused(bytes(1), 1).end()


def limit_order_cases():
    """Wrong: RECORD before ROOM; after a fault no limit; a part taken that the stop keeps below it; a refused part or end that changes
    something."""
    for left in range(3):
        over = bytes(12 * left + 12)
        below_limit(left).refused(over, 0).refused(b"", 0).refused(over, 1).all(over[12:], 1).end().refused(over, 0)
        case = below_limit(left + 1).all(written("d10@0"), 1).end().refused(over, 0).refused(over, 1).refused(b"", 0)
        case.all(over[1:], 1).end().refused(over[:1], 1).refused(over[:1], 0).all(b"", 1).end()
        below_limit(left + 2).each([bytes([9]), bytes(11)], 1).end().refused(over + over, 3).each([over, b""], 2).end()
    for left in [6, 7, 11, 12, 13]:
        case = below_limit(left)
        if left < 12:
            case.refused(TWO_TURNS, 1).refused(TWO_TURNS, 2).refused(TWO_TURNS[:12 * left + 12], 1)
        case.all(TWO_TURNS[:12 * left], 1).end().all(bytes(11), 1).end()
    for length in [144, 155, 156, 157]:
        below_limit(12).all(TWO_TURNS + bytes(length - 144), 1).end()
        below_limit(18).all(TWO_TURNS, 1).all(TWO_TURNS[:length // 2], 1).end()


def last_places_cases():
    """Starts and places up to the last there are, 4,294,967,294, and the place 4,294,967,295; and others whose bytes are not counted in
    four bytes. Wrong: a sign; wrapped; from the bytes read."""
    for record in RECORDS.values():
        count, (_, place, _) = len(record) // 12, whole(record)
        for left in sorted({count, count + 1, min(place + 1, count)}):
            for places in TABLES:
                cuts = [below(70), 70 + below(60)]
                below_limit(left).each(cut_at(record[:12 * left], cuts), places).end().all(bytes(12), places).end()
        for entries in [178_956_969, 357_913_940, 715_827_881, 2**31 - 6, 2**31, 3_000_000_000, 5_461, 65_535, 2**24 - 3]:
            Case().made_up(entries, entries // 6).all(record, one_of(TABLES)).end()
    turn = written("STOP@9 ACK@=")
    for size in range(1, 6):  # in the middle of a turn
        for more in range(3):
            case = Case().all(turn[:12 * size], 1).made_up(MOST - 6 + size - more, TURNS)
            case.all(turn[12 * size:] + turn[:12 * more], 1).end().refused(turn, 1).end()


# ---- random parts


def hand_in(record, longest, most, wild=False):
    """Parts up to so long, tables up to so many places. An unread rest stands before what comes next; if wild, some are dropped, and parts
    of no bytes, tables of no place and ends stand between."""
    case, at, rest = Case(), 0, b""
    while at < len(record) or rest:
        size = below(max(0, longest - len(rest)) + 1)
        part, at = rest + record[at:at + size], at + size
        while wild and chance(25):
            one_of([case.end, lambda: case.part(b"", 1), lambda: case.part(b"", 0), lambda: case.part(part, 0)])()
        rest = case.part(part, 1 + below(most))
        rest = b"" if wild and chance(15) else rest
    case.end()


def some_record(turns):
    """Mostly sound."""
    entries = some_sound(turns)
    return record_of(changed(entries) if chance(40) else entries) + (any_bytes(below(12)) if chance(20) else b"")


def some_long(entries, fault_after=None):
    """So many. With a fault after so many of them, and perhaps more faults after that."""
    line = Line()
    while len(line.entries) < entries:
        some_turn(line)
    record = line.entries
    while fault_after is not None and whole(record_of(record))[0] in (SOUND, STOPS):
        record = line.entries[:fault_after] + changed(changed(line.entries[fault_after:]))
    return record_of(record[:entries])


def random_cases():
    for at in range(240):
        hand_in(some_record(1 + below(5)) if at % 3 else record_of(scribbled()), one_of([3, 14, 40, 90, 200]), one_of([1, 3]), wild=True)
    for at in range(4):
        hand_in(some_long(2_000 + below(800)), 300, 3)
        hand_in(some_long(2_000 + below(800), 900 + 400 * at), [40, 200, 2_000, 30_000][at], [1, 2, 30, 600][at])
    hand_in(some_long(3_000), 12_000, 200)


def longest_cases():
    """The longest part, and the largest table; longer than the call on a whole record takes."""
    record = some_long(5_501)
    Case().each(cut_at(record, [LONGEST_PART]), MOST_PLACES).end()
    record = some_long(5_701, 5_480)
    Case().each(cut_at(record, [LONGEST + 6]), 400).end()


# ---- the program's record


def program_files():
    """Late a deck byte that is not the reply's: of the turns after it none is printed."""
    line = Line()
    while len(line.entries) < 8_111:
        some_turn(line)
    late = next(at for at in range(7_780, 8_111) if line.entries[at].kind == DECK)
    wrong = line.entries[late]._replace(content=line.entries[late].content ^ 0x40)
    record = record_of(line.entries[:late] + [wrong] + line.entries[late + 1:8_111])
    assert {"in quiet", *FIT} <= happenings(line.entries[:late]) and len(record) > 65_536
    lines = followed(record, 65_536, 5_461)
    fault, place, starts = whole(record)
    assert lines == [f"turn {start}" for start in starts] + [f"fault {fault} at {place}"] and (fault, place) == (DIFFERS, late)
    assert lines == followed(record, 4_096, 1) == followed(record, 1_000, 3) == followed(record, 97, 2)
    return {"stdin": record, "stdout": "".join(line + "\n" for line in lines).encode()}, f"{len(record) // 12} entries, {lines[-1]}"


def make_cases():
    for make in [cut_cases, empty_cases, room_cases, end_cases, full_cases, cut_off_cases, dropped_cases, counted_cases, limit_cases,
                 limit_order_cases, last_places_cases, random_cases, longest_cases]:
        make()
    for each in readings:
        each.check()


def main():
    checking()
    random.seed(1)  # only random.random() is used: Python keeps its sequence from version to version
    check_examples()
    store("follow", *program_files())
    make_cases()
    made_of = f"{len(readings)} readings (" + ", ".join(f"{said[kind]} {kind}" for kind in sorted(said)) + ")"
    store("parts_cases", {"stdin": bytes(stdin), "stdout": "".join(stdout).encode()}, made_of)


if __name__ == "__main__":
    main()
