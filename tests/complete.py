#!/usr/bin/env python3
"""The completer of M-113 (document 02), written from the papers alone: the deck's replies put into an exercise, which is a record of
controller, tape and cassette entries. Sentences in quotation marks are document 02's.

Makes crates/complete/stdin, an exercise of the greatest length that mixes all it may have, and stdout, the completed record;
crates/complete_cases/stdin and stdout; and exercises/first. `--check` compares the files instead of writing them. Either way the model
is first compared with the examples of the readings and with both markers.

A case of stdin is the record's length and the number of output bytes lent, at most 458,724, four bytes each, lowest first, and then the
record. In stdout a case is a line with the number and how many bytes were written, and then these bytes as they are.
"""
import random

from deck import DAY, LATEST, ROOM, TAKEN, Deck, block, full_length
from deck_cases import FIT, PLACES, SETTINGS, UNFIT, below, chance, one_of, recount, sum_wrong
from mark_cases import MALFORMED, Line, shifted, some_block
from marks import CASSETTE, CONTROLLER, DECK, LONGEST, POSITION, RECORD, SOUND, STOPS, Entry, entries_of, hand, in_order, mark, record_of
from marks_again import heard, judge
from marks_again import mark as mark_again
from stored import checking, store, store_in

GROWTH = 7  # so many times the exercise's bytes must be lent: the call's own rule. None needs more than five: see `largest`
NAK = b"\x11\x12"

# ---- the model


def completed(entries):
    """'let the deck's replies be put in at their due times, complete': the record, the number of replies, whether a block is open."""
    deck, record, replies = Deck(), [], 0
    for entry in entries:
        given = hand(deck, entry)
        record.append(entry)
        for due, reply in given:
            put_in(record, due, reply)
        replies += len(given)
    return record, replies, bool(deck.open)


def put_in(record, due, reply):
    """'after every entry taken so far that is not later and before all others'. Times never fall, so the later ones stand last."""
    at = len(record)
    while at > 0 and record[at - 1].time > due:
        at -= 1
    record[at:at] = [Entry(DECK, 0, byte, due) for byte in reply]


def complete(record, room):
    """The number, and the bytes that are written. Tests run in the order 10, 1."""
    if len(record) % 12 or len(record) > LONGEST or not is_exercise(entries_of(record)):
        return RECORD, b""
    if room < GROWTH * len(record):
        return ROOM, b""
    return TAKEN, record_of(completed(entries_of(record))[0])


def is_exercise(entries):
    """'any well-formed controller, tape and cassette entries with times that never fall'"""
    return in_order(entries) and all(entry.kind != DECK for entry in entries)


# ---- the notation of the readings

SENT = {"PLAY": "20 01 21", "STOP": "20 00 20", "STAT": "61 20 02 83", "TIME": "61 0C 01 6E", "CUE5": "24 31 05 00 00 00 5A",
        "DEV": "00 11 11", "BAD": "20 01 22", "UND": "20 7F 9F"}
GIVEN = {"ACK": "10 01 11", "NAK4": "11 12 04 27", "NAK1": "11 12 01 24", "NAK10": "11 12 10 33", "NAK80": "11 12 80 A3",
         "STOPPED": "72 20 01 20 B3", "PLAYING": "72 20 01 01 94", "AT0": "74 04 00 00 00 00 78", "AT5": "74 04 05 00 00 00 7D"}


def noted(text):
    """`c20@0` is a controller byte, `c20/10@0` a flagged one, `d11@5` a deck byte, `p7@9` a position, `k@9` a cassette. `@=` is the time
    of the entry before, `@+5` five later. `C:2001@0` is a block with its checksum, `D:1001@0` the same from the deck; words stand above."""
    entries = []
    for word in text.split():
        what, at = word.split("@")
        before = entries[-1].time if entries else 0
        time = before if at == "=" else before + int(at) if at[0] == "+" else int(at)
        entries += [Entry(kind, flags, content, time) for kind, flags, content in meant(what)]
    return entries


def meant(what):
    """Kind, flags and content of each entry."""
    if what in SENT or what[:2] == "C:":
        return [(CONTROLLER, 0, byte) for byte in (bytes.fromhex(SENT[what]) if what in SENT else block(what[2:]))]
    if what in GIVEN or what[:2] == "D:":
        return [(DECK, 0, byte) for byte in (bytes.fromhex(GIVEN[what]) if what in GIVEN else block(what[2:]))]
    if what[0] in "pk":
        return [(POSITION, 0, int(what[1:]))] if what[0] == "p" else [(CASSETTE, 0, 0)]
    content, _, flags = what[1:].partition("/")
    return [({"c": CONTROLLER, "d": DECK}[what[0]], int(flags or "0", 16), int(content, 16))]


def told(text):
    """Lines of exercise -> completed record # a wrong reading, by which it would be another."""
    lines = [line.partition("#")[0] for line in text.splitlines()]
    return [(noted(exercise), noted(record)) for exercise, _, record in (line.partition("->") for line in lines if line.strip())]


READINGS = """
    c20@0 p5@10001 -> c20@0 p5@10001 NAK80@=                            # before the entry at its due time, a position
    c20@0 p5@10002 -> c20@0 NAK80@10001 p5@10002                        # after an entry that is later; at the time it was found
    c20@0 c20@10001 -> c20@0 c20@10001 NAK80@=                          # before the entry at its due time, a byte, which is dropped
    c20@0 c20/10@20002 -> c20@0 NAK80@10001 c20/10@20002 NAK10@=        # one of two NAKs, both at one place, in the other order
    c20@0 c20/10@20001 -> c20@0 NAK80@10001 c20/10@20001                # quiet from when the time-out was found, or one too short
    c20@0 c01@= c21@= p5@= -> c20@0 c01@= c21@= ACK@= p5@=              # after entries of its time that are not yet taken
    c20@0 -> c20@0                                                      # a NAK at the end for the open block; refused for it
"""

PLACED = """
    PLAY@0 k@= -> PLAY@0 ACK@= k@=                                      # after a later entry of its time, a cassette
    PLAY@0 c20@= -> PLAY@0 ACK@= c20@=                                  # the same, a byte
    p5@0 k@= PLAY@= -> p5@0 k@= PLAY@= ACK@=                            # before earlier entries of its time
    p5@7 c20@= k@= c01@= p6@= c21@= p8@= -> p5@7 c20@= k@= c01@= p6@= c21@= ACK@= p8@=    # behind the block's first byte
    PLAY@0 STOP@= -> PLAY@0 ACK@= STOP@= ACK@=                          # both replies at the end of their time
    PLAY@0 c20/10@= p5@= -> PLAY@0 ACK@= c20/10@= NAK10@= p5@=          # a NAK before a reply of its time
    STAT@0 TIME@= DEV@= p1@= -> STAT@0 STOPPED@= TIME@= AT0@= DEV@= D:12110002@= p1@=     # each before the reply before it
    c20@0 p1@10001 p2@= p3@= -> c20@0 p1@10001 NAK80@= p2@= p3@=        # after all entries at the due time; not found by a position
    c20@0 k@10001 k@= c20@= -> c20@0 k@10001 NAK80@= k@= c20@=          # the same, not found by a cassette
    c20@0 c20@10001 c20/40@= p3@= -> c20@0 c20@10001 NAK80@= c20/40@= p3@=       # after bytes that its quiet drops
    c20@0 c20/10@10001 p3@= -> c20@0 c20/10@10001 NAK80@= p3@=          # the flagged byte gets its NAK though quiet has begun
    c20@0 p1@10002 p2@= p3@= -> c20@0 NAK80@10001 p1@10002 p2@= p3@=    # after the one that found it
    c20@0 p1@10000 k@= p2@10001 p3@10002 -> c20@0 p1@10000 k@= p2@10001 NAK80@= p3@10002 # found at 10,000
    c20@0 p1@10000 p2@= k@30000 -> c20@0 p1@10000 p2@= NAK80@10001 k@30000       # due one early, behind the block's last byte
    c20@0 p1@4000 k@5000 p2@9999 c01@30000 c20@= -> c20@0 p1@4000 k@5000 p2@9999 NAK80@10001 c01@30000 c20@= # before tape entries
    c20@0 p1@6000 c01@10001 p2@= -> c20@0 p1@6000 c01@10001 NAK80@= p2@=         # a position in the block delays its time-out
    c20@0 p1@6000 c01@10000 k@16000 c21@20000 -> c20@0 p1@6000 c01@10000 k@16000 c21@20000 ACK@= # 10,000 from byte to byte is a time-out
    c20@0 c01@6000 p1@16000 p2@16001 -> c20@0 c01@6000 p1@16000 p2@16001 NAK80@= # counted from the first byte
    c20@0 p1@10000 -> c20@0 p1@10000                                    # a time-out at 10,000
    c20@0 p1@20001 c20/10@= -> c20@0 NAK80@10001 p1@20001 c20/10@=      # quiet one too short
    c20@0 p1@20002 c20/10@= -> c20@0 NAK80@10001 p1@20002 c20/10@= NAK10@=       # quiet one too long
    c20@0 c20@20002 p5@= -> c20@0 NAK80@10001 c20@20002 p5@=            # a NAK to the finding byte, though not flagged
    c20@0 c20@20002 p5@30003 -> c20@0 NAK80@10001 c20@20002 p5@30003 NAK80@=     # the finding byte is dropped
    c20@0 c20@20002 c20@40004 k@60006 -> c20@0 NAK80@10001 c20@20002 NAK80@30003 c20@40004 NAK80@50005 k@60006 # each found by the next
    # two NAKs to one byte only once
    c20@0 c20/10@20002 c20@30003 c20/70@60000 -> c20@0 NAK80@10001 c20/10@20002 NAK10@= c20@30003 NAK80@40004 c20/70@60000 D:111270@=
    c20@0 c01@= c20/30@= c20@+10000 PLAY@+1 -> c20@0 c01@= c20/30@= D:111230@= c20@+10000 PLAY@+1 ACK@= # quiet one too short
    c20/10@0 c20/20@10000 c20/20@10001 -> c20/10@0 NAK10@= c20/20@10000 c20/20@10001 D:111220@=  # a NAK to one in quiet
    BAD@0 c20@= c20/10@10000 PLAY@10001 p1@= -> BAD@0 NAK4@= c20@= c20/10@10000 PLAY@10001 ACK@= p1@=  # a dropped byte prolongs it
    UND@0 PLAY@10000 STOP@10001 p1@= -> UND@0 NAK1@= PLAY@10000 STOP@10001 ACK@= p1@=   # split by the bytes dropped in its quiet
    c20@0 p1@15000 c20@20001 c20@20002 p1@30003 -> c20@0 NAK80@10001 p1@15000 c20@20001 c20@20002 p1@30003 NAK80@= # quiet from there
    BAD@0 c20@5000 p1@15001 PLAY@= -> BAD@0 NAK4@= c20@5000 p1@15001 PLAY@= ACK@=       # a dropped byte opens a block
    p5@0 TIME@= p0@= TIME@= -> p5@0 TIME@= AT5@= p0@= TIME@= AT0@=      # positions not handed to the deck
    TIME@0 p5@= TIME@= -> TIME@0 AT0@= p5@= TIME@= AT5@=                # handed to it before all bytes
    C:200F@0 k@= STAT@= -> C:200F@0 ACK@= k@= STAT@= STOPPED@=          # cassettes not handed to the deck
    C:200F@0 STAT@= k@= -> C:200F@0 ACK@= STAT@= D:72202110@= k@=       # or before all
    PLAY@0 BAD@= STAT@10001 -> PLAY@0 ACK@= BAD@= NAK4@= STAT@10001 PLAYING@=           # a new deck after a NAK
    CUE5@0 PLAY@= TIME@= STAT@= -> CUE5@0 ACK@= PLAY@= ACK@= TIME@= AT5@= STAT@= PLAYING@=  # a new deck for each block
    c61@0 c0C@= c01@= p5@= c6E@= -> c61@0 c0C@= c01@= p5@= c6E@= AT5@=  # the deck as it was at the block's first byte
    C:200F@0 c61@= c20@= k@= c02@= c83@= -> C:200F@0 ACK@= c61@= c20@= k@= c02@= c83@= STOPPED@=    # the same
    c20@0 p5@10001 TIME@20002 -> c20@0 p5@10001 NAK80@= TIME@20002 AT5@=         # the position that finds a time-out does nothing else
    c20@0 p5@30000 TIME@= -> c20@0 NAK80@10001 p5@30000 TIME@= AT5@=    # the same, found late
    C:200F@0 c20@= k@10001 STAT@20002 -> C:200F@0 ACK@= c20@= k@10001 NAK80@= STAT@20002 STOPPED@=  # the same of a cassette
    PLAY@0 c20@= PLAY@20002 STAT@= -> PLAY@0 ACK@= c20@= NAK80@10001 PLAY@20002 ACK@= STAT@= PLAYING@= # dropped after it
    c20@0 c20/10@4294967296 -> c20@0 NAK80@10001 c20/10@4294967296 NAK10@=       # gaps counted in four bytes
    c20@0 p1@1099511627776 -> c20@0 NAK80@10001 p1@1099511627776        # in five
    BAD@5 PLAY@4294967301 -> BAD@5 NAK4@= PLAY@4294967301 ACK@=         # quiet counted in four
    p1@0 k@5 p2@5 -> p1@0 k@5 p2@5                                      # any reply
"""

# ---- cases

stdin, stdout, numbers = bytearray(), bytearray(), {}


def case(record, room=None):
    """Without a room, just enough."""
    room = GROWTH * len(record) if room is None else room
    number, written = complete(record, room)
    stdin.extend(len(record).to_bytes(4, "little") + room.to_bytes(4, "little") + record)
    stdout.extend(f"{number} {len(written)}\n".encode() + written)
    numbers[number] = numbers.get(number, 0) + 1


def thrice(entries):
    """At the start of the clock, over the end of so many time bytes, and up to the latest time."""
    for by in [0, 2**one_of([16, 24, 32, 40]) - 5_000, LATEST - entries[-1].time]:
        case(record_of(shifted(entries, by)))


def placed_cases():
    for exercise, _ in told(READINGS + PLACED):
        thrice(exercise)


def time_out_cases():
    """Found by each kind of entry, before, at and after the due time and the quiet's end; behind it tape entries, a flagged byte, a block.
    Wrong: at the time it was found, or behind or before the finding entry at any time; found by bytes only."""
    for begun in ["c20@0", "c61@0 c20@300 p7@400 c03@600", "c2F@0" + 16 * " c00@="]:
        last = noted(begun)[-1].time
        for after in [9_999, 10_000, 10_001, 10_002, 20_000, 20_001, 20_002, 60_000]:
            for finder in ["c21", "c21/30", "p7", "k"]:
                case(record_of(noted(f"{begun} {finder}@{last + after} p8@= c20/10@+1 k@= PLAY@{last + 80_000} p9@=")))


def quiet_cases():
    """Both ends of the quiet after each NAK. Wrong: one too short or too long; flagged bytes heard in it; bytes dropped in it that split
    the NAK, or that begin a block."""
    for nak in ["BAD", "UND", "C:243125000000", "c20/40", "c20@0 c01/20", "c20@0 c01"]:
        for after in [0, 1, 9_999, 10_000, 10_001]:
            begun = noted(f"{nak}@{10_001 if nak == 'c20@0 c01' else 0}")
            case(record_of(begun + shifted(noted("c20/10@0 p3@= c20@= c01@= c21@= p4@="), begun[-1].time + after)))


def reply_cases():
    """Each command, wrong and right, in a setting of its own; each count of status bytes. Wrong: replies of a deck that was not handed all
    before, or that sends the same to everything."""
    for at, (code, fit) in enumerate(FIT.items()):
        line, data = Line(), one_of(fit)
        prepare(line, SETTINGS[at % len(SETTINGS)])
        line.send(sum_wrong(block(code, data))).quiet_end().send(block(recount(code, 1), data + b"\0")).quiet_end()
        line.send(block(code, one_of(UNFIT[code]) if code in UNFIT else data)).quiet_end().send(block(code, data))
        prepare(line, "61.20:04 61.0C:02 60.10 60.11")
        case(record_of(line.entries))
    case(record_of(noted(" ".join(f"C:6120{count:02X}@+{count}" for count in range(1, 14)))))


def prepare(line, steps):
    """As in tests/deck_cases.py."""
    for step in steps.split():
        if step[0] == "@":
            line.put(POSITION, int(step[1:]))
        elif step == "load":
            line.put(CASSETTE)
        else:
            code, _, data = step.partition(":")
            line.send(block(code, bytes.fromhex(data)), wait=300)


GOOD = noted("c20@5 c01@= p9@= c21@305 k@= c20@9000 c20/70@40000")
WRONG = [(DECK, content, 0) for content in (0, 0x10, 0xFF)] + [(4, 0, 0), (255, 0, 0), (CONTROLLER, 0x20, 0x80), (CONTROLLER, 256, 0),
         (POSITION, DAY, 0), (POSITION, 9, 0x10), (CASSETTE, 1, 0), (CASSETTE, 0, 0x40)]  # kind, content, flags


def record_cases():
    """10, for one entry of a good exercise; with no room it is still 10, not 1. And what is just well formed. Wrong: malformed entries
    passed over, as `answer` does; deck bytes kept, left out or taken as looks; only the first entries tested."""
    for at, wrong in enumerate(WRONG + MALFORMED):
        for place in [0, 3, 6] if wrong in WRONG else [at % 7]:
            record = record_of(GOOD[:place] + [changed(GOOD[place], *wrong)] + GOOD[place + 1:])
            for room in [GROWTH * len(record), 0] if wrong in WRONG else [GROWTH * len(record)]:
                case(record, room)
    for right in [(CONTROLLER, 255, 0), (CONTROLLER, 0, 0x70), (POSITION, DAY - 1, 0), (POSITION, 0, 0), (CASSETTE, 0, 0)]:
        for place in range(7):
            case(record_of(GOOD[:place] + [changed(GOOD[place], *right)] + GOOD[place + 1:]))
    for text in ["d10@0", "PLAY@0 ACK@=", "PLAY@0 d10@=", "c20@0 d11@10001", "PLAY@0 ACK@= STOP@=", "c20@0 d00@="]:
        case(record_of(noted(text)))  # completed already, or begun to be


def changed(entry, kind, content, flags):
    return Entry(kind, flags, content, entry.time)


def order_cases():
    """Times that are equal, that fall by one at each entry and over each time byte, or far; between any two kinds. Wrong: equal times
    refused; falls let pass at the last entry, between tape entries, by one, or where the low bytes rise."""
    case(record_of([entry._replace(time=77) for entry in GOOD]))
    for at in range(1, len(GOOD)):
        for time in [GOOD[at - 1].time, GOOD[at - 1].time - 1, 0]:
            for room in [GROWTH * 12 * len(GOOD), 0]:
                case(record_of(GOOD[:at] + [GOOD[at]._replace(time=time)] + GOOD[at + 1:]), room)
    for size in range(1, 6):
        over = 256**size
        for first, then in [(over, over - 1), (over - 1, over), (over, over), (over + 255, over), (3 * over, 2 * over + 1)]:
            case(record_of(noted(f"c20@{first} c01@{then} p1@{max(first, then)}")))
    for first, then in [(0, LATEST), (LATEST, 0), (LATEST, LATEST - 1), (LATEST, LATEST)]:
        for text in ["p1@{} p2@{}", "k@{} c20/10@{}", "c20@{} p1@{}", "p1@{} PLAY@{}", "BAD@{} c20@{}"]:
            case(record_of(noted(text.format(first, then))))


def room_cases():
    """Seven times to the byte. Wrong: as many as are written; five, six or eight times; one more or less; counted in two
    bytes; 1 for an empty exercise."""
    for text in ["p1@0 k@=", "c20@0", "PLAY@0", "C:61200D@0", "c20/10@0", "c20@0 c20/10@20002", "STAT@0 p1@= BAD@+9 c20@+10001 k@+10002"]:
        record = record_of(noted(text))
        size, needed = len(record), len(record_of(completed(noted(text))[0]))
        for room in sorted({0, 1, size, needed - 1, needed, 5 * size, 6 * size, 7 * size - 12, 7 * size - 1, 7 * size, 7 * size + 1,
                            8 * size, 9_999, GROWTH * LONGEST}):
            case(record, room)
    for room in [0, 1, 100]:
        case(b"", room)
    record = record_of(some_exercise(800))
    for room in [GROWTH * len(record) % 2**16, GROWTH * len(record) - 1, GROWTH * len(record)]:  # over two bytes
        case(record, room)


def length_cases():
    """Lengths that are no multiple of 12; then the longest. Wrong: a torn end left out; an empty exercise refused; the limit one entry
    off, or on what is written; 1 before 10."""
    whole = record_of(GOOD)
    for length in range(50):
        for room in [GROWTH * length, 0] if length % 12 in (0, 1, 11) else [GROWTH * length]:
            case(whole[:length], room)
    case(bytes(11), 9_999)
    case(bytes(13), 9_999)
    record = record_of(largest(LONGEST // 12 + 1))
    for length in [LONGEST, LONGEST + 1, LONGEST + 12]:
        case(record[:length], GROWTH * LONGEST)


def largest(count):
    """No exercise grows more: to five times its entries. A reply has 16 bytes to four, or four to one, whether flagged or timed out."""
    part = "C:61200D@+1 c20/10@+1 c20@+10001 c20/70@+20002 C:61200D@+10001 "
    return noted(part * (count // 11 + 1))[:count]


# ---- exercises that mix all

LIMITS = [9_999, 10_000, 10_001, 10_001, 10_002, 20_001, 20_002, 20_002, 20_003]


def some_wait(line, percent):
    """Mostly short; so often, where a block is open, up to a limit; mostly past the quiet."""
    if line.time in line.deck.quiet and chance(75):
        return line.deck.quiet.stop - line.time - (1 if chance(20) else 0)
    if line.deck.open and chance(percent):
        return max(0, line.deck.last + one_of(LIMITS) - line.time)
    if chance(2):
        return one_of([60_000, below(2**24), 2**32, below(2**36)])
    return 0 if chance(10) else below(700)


def some_part(line):
    """A block, whole or not, right or not, with tape entries between; or one entry."""
    if line.deck.open and chance(20) or chance(5):
        line.put(CONTROLLER, below(256), one_of([0x10, 0x20, 0x40, 0x30, 0x60, 0x70]), some_wait(line, 60))
        return
    if chance(25):
        some_tape(line, 60)
        return
    full = some_block()
    for at, byte in enumerate(full[:1 + below(len(full))] if chance(20) else full):
        line.put(CONTROLLER, byte, wait=some_wait(line, 60 if at == 0 else 2))
        while chance(4):
            some_tape(line, 10)


def some_tape(line, percent):
    wait = some_wait(line, percent)
    line.put(*(POSITION, one_of(PLACES) if chance(50) else below(DAY)) if chance(65) else (CASSETTE,), wait=wait)


def some_exercise(count):
    """So many entries."""
    line = Line()
    line.time = below(50_000)
    while len(line.entries) < count:
        some_part(line)
    return line.entries[:count]


def random_cases():
    for _ in range(150):
        entries = some_exercise(1 + below(24))
        case(record_of(shifted(entries, LATEST - entries[-1].time) if chance(20) else entries))
    for _ in range(50):  # short, of few bytes that are often flagged, at the limits
        text = "c20@" + str(below(9))
        for _ in range(1 + below(9)):
            text += f" {one_of(['c20', 'c01', 'c21', 'c20/10', 'PLAY', 'p1', 'k'])}@+{one_of([0, 0, 1, 300, *LIMITS])}"
        case(record_of(noted(text)))


# ---- self-checks


def merged(entries):
    """The same otherwise said: a reply stands before the entry that it was found by if it was due earlier, else behind it."""
    early, just = {}, {}
    for at, due, reply in heard(entries):
        (early if due < entries[at].time else just).setdefault(at, []).extend(Entry(DECK, 0, byte, due) for byte in reply)
    return [each for at, entry in enumerate(entries) for each in [*early.get(at, []), entry, *just.get(at, [])]]


def check(entries):
    """'the marker says sound, and its count of turns is the number of replies that the deck gave'; but 26 if a block is open."""
    record, replies, is_open = completed(entries)
    assert record == merged(entries) and replies == len(heard(entries)) and in_order(record)
    assert [entry for entry in record if entry.kind != DECK] == entries and len(record) <= 5 * len(entries) <= GROWTH * len(entries)
    verdict = STOPS if is_open else SOUND
    if 12 * len(record) <= LONGEST:
        marked = mark(record_of(record), len(record))
        assert marked == mark_again(record_of(record), len(record)) and marked[:3] == (TAKEN, verdict, len(record))
    fault, place, starts = judge(record)
    assert (fault, place, len(starts)) == (verdict, len(record), replies + is_open)
    return replies, is_open


def check_model(count):
    """The examples, and exercises as they stop and once more with an entry that finds a time-out."""
    for exercise, record in told(READINGS + PLACED):
        assert completed(exercise)[0] == record, (exercise, record)
    exercises = [exercise for exercise, _ in told(READINGS + PLACED)]
    exercises += [some_exercise(1 + below(40)) for _ in range(count)] + [some_exercise(2_000) for _ in range(3)]
    exercises += [entries + [Entry(CASSETTE, 0, 0, entries[-1].time + 10_001)] for entries in exercises]
    results = [check(entries) for entries in exercises]
    check(largest(LONGEST // 12))
    assert len(completed(largest(LONGEST // 12))[0]) == 5 * (LONGEST // 12)
    opened = sum(is_open for _, is_open in results)
    print(f"complete: {len(results)} exercises with {sum(replies for replies, _ in results)} replies: both markers say sound, "
          f"and 26 of the {opened} with a block open")


# ---- the program's exercise and the teachers'


def happenings(entries):
    """What an exercise has: commands obeyed, bits of NAKs, which kinds of entries found a time-out, and when; two NAKs; dropped bytes."""
    deck, seen = Deck(), set()
    for entry in entries:
        full = deck.open + bytes([entry.content % 256])
        seen |= {"in quiet"} if entry.kind == CONTROLLER and entry.time in deck.quiet else set()
        given = hand(deck, entry)
        seen |= {"two"} if len(given) == 2 else set()
        for due, reply in given:
            if reply[:2] != NAK:
                assert len(full) == full_length(full[0])
                seen.add(full[:2].hex(".").upper())
            elif reply[2] == 0x80:
                seen.add(("time-out", entry.kind, min(entry.time - due, 10_001)))
            else:
                seen.add(("NAK", reply[2]))
    return seen


def mixed():
    """It ends with a time-out that a position finds, at the latest time."""
    entries = some_exercise(LONGEST // 12 - 3)
    entries += shifted(noted("c20@0 c20@20002 p5@30003"), LATEST - 30_003)
    seen = happenings(entries)
    finders = {(kind, late) for _, kind, late in (each for each in seen if each[0] == "time-out")}
    assert {"in quiet", "two", *FIT} <= seen
    assert {("NAK", bits) for bits in (0x01, 0x04, 0x10, 0x20, 0x40, 0x30, 0x60, 0x70)} <= seen
    assert {(kind, late) for kind in (CONTROLLER, POSITION, CASSETTE) for late in (0, 1, 10_000, 10_001)} <= finders
    return entries


def program_files():
    entries = mixed()
    replies, is_open = check(entries)
    assert not is_open and len(entries) == LONGEST // 12
    number, written = complete(record_of(entries), GROWTH * LONGEST)
    assert number == TAKEN
    return {"stdin": record_of(entries), "stdout": written}, f"{len(entries)} entries, {replies} replies"


def teachers_exercise():
    """A cassette is loaded; play; status sense; stop without its checksum, and silence until the tape is seen at 250."""
    line = Line().put(CASSETTE).send(b"\x20\x01\x21", wait=1_000).send(b"\x61\x20\x03\x84", wait=5_000)
    exercise = line.send(b"\x20\x00", wait=5_000).put(POSITION, 250, wait=15_000).entries
    assert check(exercise) == (3, False)
    return {"first": record_of(exercise)}


def make_cases():
    for make in [placed_cases, time_out_cases, quiet_cases, reply_cases, record_cases, order_cases, room_cases, length_cases, random_cases]:
        make()


def main():
    checking()
    random.seed(1)  # only random.random() is used: Python keeps its sequence from version to version
    check_model(1_500)
    store("complete", *program_files())
    make_cases()
    made_of = f"{sum(numbers.values())} cases (" + ", ".join(f"{numbers[number]} of {number}" for number in sorted(numbers)) + ")"
    store("complete_cases", {"stdin": bytes(stdin), "stdout": bytes(stdout)}, made_of)
    store_in("exercises", teachers_exercise(), "one to be completed")


if __name__ == "__main__":
    main()
