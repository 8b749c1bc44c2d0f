#!/usr/bin/env python3
"""The marker of document 01 once more, and its turn rules by brute force, by an author who had read that paper and tests/deck.py, and
neither code nor definitions nor tests/marks.py. Sentences in quotation marks are document 01's.

Run as a script, with `--check` or without, it compares the two on random short records; it writes nothing.
"""
import random
import struct
import time as clock
from functools import lru_cache

from deck import Deck, block
from stored import checking

BYTE, REPLY, POSITION, LOADED = range(4)  # "0 controller byte, 1 deck byte, 2 position, 3 cassette loaded"
TAKEN, ROOM, RECORD = 0, 1, 10
SIZE, MOST = 12, 65_532  # "record not a multiple of 12 bytes, or over 65,532"
LATEST = 2**48 - 1  # "time in six"
DAY = 2_160_000
SILENCE = QUIET = BETWEEN = 10_000
FIRST = 9_000  # "The first is not before the due time and at most 9,000 after it"


# Entries are tuples (kind, flags, content, time).


def unpack(record):
    """'kind, flags, content in four bytes, time in six, lowest byte first'"""
    return [
        (kind, flags, content, low | high << 32)
        for kind, flags, content, low, high in struct.iter_unpack("<BBIIH", record)
    ]


def pack(entries):
    return b"".join(
        struct.pack("<BBIIH", kind, flags, content, time & 0xFFFFFFFF, time >> 32)
        for kind, flags, content, time in entries
    )


def well_formed(entry):
    """'Kinds 0 and 1 have content under 256, kind 2 a legal position, kind 3 content 0;
    flags lie within 70, and are 0 outside kind 0.'"""
    kind, flags, content, time = entry
    return (
        kind <= LOADED
        and content < (256, 256, DAY, 1)[kind]
        and flags & ~(0x70 if kind == BYTE else 0) == 0
        and 0 <= time <= LATEST
    )


def hand(deck, entry):
    """'kind 0 as a byte with its flags, kind 1 as a look, kind 2 as a position, kind 3 as a cassette loaded'"""
    kind, flags, content, time = entry
    number, replies = (
        deck.byte(time, content, flags) if kind == BYTE
        else deck.look(time) if kind == REPLY
        else deck.position(time, content) if kind == POSITION
        else deck.cassette(time)
    )
    assert number == TAKEN
    return replies


# The marker


def mark(record, places):
    """(number, fault, place, starts): 'Tests run in the order ... marker: 10, 1.'"""
    if len(record) % SIZE or len(record) > MOST:
        return RECORD, 0, 0, []
    entries = unpack(record)
    if places < len(entries):
        return ROOM, 0, 0, []
    return (TAKEN, *judge(entries))


def judge(entries):
    """(fault, place, starts), in one pass; every entry that passes leaves a record that can still become sound."""
    deck, starts = Deck(), []
    awaited, latest = b"", 0  # reply bytes still to come, and the latest time for the first of them
    for place, entry in enumerate(entries):
        kind, flags, content, time = entry
        if not well_formed(entry):
            return 20, place, starts
        if time < deck.clock:
            return 21, place, starts
        # A look changes nothing ("Looks"), and finds the time-out that is due by now. It cannot come while a reply is
        # awaited, as no block is open then.
        for due, reply in deck.look(time)[1]:
            awaited, latest = reply, due + FIRST
        if awaited and time > latest:
            return 24, place, starts
        if kind == REPLY:
            if not awaited:
                return 22, place, starts
            if content != awaited[0]:
                return 23, place, starts
            awaited, latest = awaited[1:], time + BETWEEN
        elif kind == BYTE and time not in deck.quiet:
            if awaited:
                return 25, place, starts
            if not deck.open:
                starts.append(place)
        for due, reply in hand(deck, entry):
            awaited, latest = reply, due + FIRST
    return 26 if awaited or deck.open else 0, len(entries), starts


# The turn rules by brute force


def sound(entries):
    """All cuttings of the record into turns, as lists of turn starts; none if it is not sound."""
    if not all(map(well_formed, entries)):
        return []
    if any(after[3] < before[3] for before, after in zip(entries, entries[1:])):  # "its times never fall"
        return []
    replies = heard(entries)
    end = len(entries)
    sent = [i for i in range(end) if entries[i][0] == BYTE]

    @lru_cache(None)
    def cuttings(start):
        if start == end:
            return [[]]
        return [
            [start, *rest]
            for until in [i for i in sent if i > start] + [end]
            if is_turn(entries, start, until, replies)
            for rest in cuttings(until)
        ]

    # "each entry of kind 0 or 1 lies in exactly one turn", so the first of them starts one
    first = next((i for i in range(end) if entries[i][0] <= REPLY), end)
    return cuttings(first)


def heard(entries):
    """The deck's replies to the whole record: (entry at which found, due, bytes)."""
    deck = Deck()
    return [(i, due, reply) for i, entry in enumerate(entries) for due, reply in hand(deck, entry)]


def is_turn(entries, start, until, replies):
    """May the entries of kinds 0 and 1 from start to before until be one turn?"""
    turn = [i for i in range(start, until) if entries[i][0] <= REPLY]
    found = [(due, reply) for i, due, reply in replies if start <= i < until]
    if len(found) != 1:  # "the deck's one reply"
        return False
    due, reply = found[0]
    quiet_end = due + QUIET if reply[:2] == b"\x11\x12" else -1
    if until < len(entries) and entries[until][3] <= quiet_end:
        return False  # "every controller entry up to the end of its quiet belongs to the turn"
    return any(
        is_opening(entries, turn[:size]) and is_rest([entries[i] for i in turn[size:]], due, reply, quiet_end)
        for size in range(1, len(turn) + 1)
    )


def is_opening(entries, opening):
    """'A turn starts with controller entries: ...'"""
    part = [entries[i] for i in opening]
    if any(kind != BYTE for kind, *_ in part):
        return False
    if any(after[3] - before[3] > SILENCE for before, after in zip(part, part[1:])):
        return False  # "Gaps inside are at most 10,000."
    later = [entry[3] for entry in entries[opening[-1] + 1 :] if entry[0] == BYTE]
    silent = not later or later[0] - part[-1][3] > SILENCE
    return (
        is_block(part)  # "a full clean block"
        or is_beginning(part) and silent  # "a proper beginning of one, not empty, with more than 10,000 of ... silence"
        or part[-1][1] != 0 and (len(part) == 1 or is_beginning(part[:-1]))  # "perhaps empty, and one flagged byte"
    )


def is_block(part):
    """'A full clean block has as many bytes as its first byte says, none flagged, whatever they are.'"""
    return len(part) == part[0][2] % 16 + 3 and not any(flags for _, flags, _, _ in part)


def is_beginning(part):
    return len(part) < part[0][2] % 16 + 3 and not any(flags for _, flags, _, _ in part)


def is_rest(rest, due, reply, quiet_end):
    """'Then come the bytes of the deck's one reply, each once, in order.' 'No other controller entry stands there.'"""
    came = [entry for entry in rest if entry[0] == REPLY]
    times = [entry[3] for entry in came]
    return (
        bytes(entry[2] for entry in came) == reply
        and due <= times[0] <= due + FIRST
        and all(after - before <= BETWEEN for before, after in zip(times, times[1:]))
        and all(entry[3] <= quiet_end for entry in rest if entry[0] == BYTE)
    )


# What the marker says of an unsound record, from `sound` alone


def continued(entries):
    """The cuttings of some sound record that begins with these entries, or none. Tried are: nothing more; zeros at
    the last time until the deck replies; and after either, every ending of the deck's latest reply, at once."""
    now = entries[-1][3] if entries else 0
    if not all(map(well_formed, entries)) or any(b[3] < a[3] for a, b in zip(entries, entries[1:])):
        return []
    before = len(heard(entries))
    for zeros in range(18):
        longer = entries + [(BYTE, 0, 0, now)] * zeros
        look = (REPLY, 0, 0, min(LATEST, now + SILENCE + 1))
        replies = heard(longer + [look])
        if zeros and len(heard(longer)) == before:
            continue
        for _, due, reply in replies[-1:] or [(0, 0, b"")]:
            for size in range(len(reply) + 1):
                ending = [(REPLY, 0, content, max(now, due)) for content in reply[len(reply) - size :]]
                cuttings = sound(longer + ending)
                if cuttings:
                    return cuttings
        if zeros:
            break
    return []


def expected(entries):
    """(fault, place, starts) by the definition of the place: the first that no sound record gets past."""
    cuttings = sound(entries)
    if cuttings:
        assert len(cuttings) == 1
        return 0, len(entries), cuttings[0]
    place = next((i for i in range(len(entries)) if not continued(entries[: i + 1])), len(entries))
    (cutting,) = continued(entries[:place])
    return why(entries, place), place, [start for start in cutting if start < place]


def why(entries, place):
    """The number of the fault, told by what else could have stood at the place."""
    if place == len(entries):
        return 26
    so_far, (kind, _, content, time) = entries[:place], entries[place]
    if not well_formed(entries[place]):
        return 20
    if so_far and time < so_far[-1][3]:
        return 21
    if not continued(so_far + [(POSITION, 0, 0, time)]):  # these "may stand anywhere", unless a byte is overdue
        return 24
    if kind == REPLY:
        likely = {byte for _, _, reply in heard(so_far + [(REPLY, 0, 0, time)])[-1:] for byte in reply}
        return 23 if any(continued(so_far + [(REPLY, 0, byte, time)]) for byte in likely) else 22
    return 25


# Self-check

GAPS = (0, 0, 1, 300, 300, 2_000, 5_000, 8_999, 9_000, 9_001, 9_999, 10_000, 10_001, 10_002, 19_001, 19_002, 20_002)
BODIES = ("20.01", "20.00", "20.0F", "20.14", "40.10", "60.10", "60.11", "00.11", "20.7F", "40.18", "00.0C")
BODIES_1 = ("61.0C", "61.20", "21.13")


def gap(rng, most):
    return rng.choice([step for step in GAPS if step <= most])


def extras(rng, time):
    """Now and then an entry of kind 2 or 3."""
    if rng.random() < 0.12:
        yield (POSITION, 0, rng.choice((0, 24, DAY - 1)), time) if rng.random() < 0.7 else (LOADED, 0, 0, time)


def made_turn(rng, before, now):
    """The entries of a turn that starts at the time now, made by the rules, and the earliest time for the next."""
    body = list(block(rng.choice(BODIES)) if rng.random() < 0.7 else block(rng.choice(BODIES_1), [rng.randrange(6)]))
    if rng.random() < 0.15:
        body[-1] ^= 1
    way = rng.choice("AAABC")
    if way != "A":
        body = body[: rng.randrange(way == "B", len(body))]
    turn = []
    for i, content in enumerate(body + [0] * (way == "C")):
        now += gap(rng, SILENCE) if i else 0
        turn += extras(rng, now) if i else ()
        turn.append((BYTE, rng.choice((0x10, 0x20, 0x40, 0x70)) if way == "C" and i == len(body) else 0, content, now))
    _, due, reply = heard(before + turn + [(REPLY, 0, 0, now + SILENCE + 1)])[-1]
    nak = reply[:2] == b"\x11\x12"
    rest, at = [], due + gap(rng, FIRST)
    for content in reply:
        rest += [*extras(rng, at), (REPLY, 0, content, at)]
        now = at
        at += gap(rng, BETWEEN)
    if nak:
        for _ in range(rng.choice((0, 0, 1, 2))):
            dropped = (BYTE, rng.choice((0, 0x30)), rng.randrange(256), due + gap(rng, QUIET))
            rest.insert(rng.randrange(len(rest) + 1), dropped)
        rest.sort(key=lambda entry: entry[3])
    return turn + rest, max(now, rest[-1][3], due + QUIET + 1 if nak else 0)


def made(rng):
    """A sound record, unless entries are lost past the latest time."""
    now, entries = 0, []
    for _ in range(rng.choice((0, 1, 1, 2, 2, 3))):
        entries += extras(rng, now)
        turn, now = made_turn(rng, entries, now)
        entries += turn
        now += gap(rng, 20_002)
    shift = rng.choice((0, 0, 5, 70_000, LATEST - now, LATEST - now // 2))
    return [(*entry, time + shift) for *entry, time in entries if time + shift <= LATEST], now + shift <= LATEST


def mutated(rng, entries):
    entries = [list(entry) for entry in entries]
    for _ in range(rng.choice((1, 1, 1, 2))):
        if not entries:
            break
        i = rng.randrange(len(entries))
        way = rng.randrange(9)
        if way == 0:
            del entries[i]
        elif way == 1:
            entries.insert(i, list(entries[i]))
        elif way == 2:
            del entries[i:]
        elif way == 3:  # one time
            entries[i][3] = min(LATEST, max(0, entries[i][3] + rng.choice((-1, 1)) * rng.choice(GAPS)))
        elif way == 4:  # this time and all later ones
            step = rng.choice((1, 1, *GAPS))
            for entry in entries[i:]:
                entry[3] = min(LATEST, entry[3] + step)
        elif way == 5:
            entries[i][2] = rng.choice((0, 0x11, 0x20, 0xFF, 256, DAY - 1, DAY))
        elif way == 6:
            entries[i][1] = rng.choice((0, 0x10, 0x60, 0x80, 0x01))
        elif way == 7:
            entries[i][0] = rng.choice((0, 1, 2, 3, 4, 255))
        else:
            entries.insert(i, [rng.choice((0, 1, 2)), 0, rng.choice((0, 0x10, 0x11, 0x20)), entries[i][3]])
    return [tuple(entry) for entry in entries]


def wild(rng):
    now, entries = 0, []
    for _ in range(rng.randrange(8)):
        now += rng.choice(GAPS)
        flags = rng.choice((0, 0, 0, 0x10))
        kind = rng.choice((0, 0, 0, 1, 1, 2))
        entries.append((kind, 0 if kind else flags, rng.choice((0x00, 0x01, 0x10, 0x11, 0x12, 0x20, 0x21)), now))
    return entries


def check_paper():
    sent = [(BYTE, 0, content, i * 300) for i, content in enumerate(b"\x20\x01\x21")]

    def with_reply(*times):
        record = pack(sent + [(REPLY, 0, content, at) for content, at in zip(b"\x10\x01\x11", times)])
        return mark(record, len(record) // SIZE)

    assert with_reply(1000, 1300, 1600) == with_reply(9_600, 9_600, 9_600) == (0, 0, 6, [0])
    assert with_reply(9_601, 9_601, 9_601) == (0, 24, 3, [0])
    assert mark(b"", 0) == (0, 0, 0, [])
    assert mark(bytes(13), 0) == mark(bytes(MOST + SIZE), 9_999) == (10, 0, 0, [])
    assert mark(bytes(24), 1) == (1, 0, 0, [])


def check_speed(rng):
    """The longest record takes a second at most."""
    entries, now = [], 0
    while len(entries) < MOST // SIZE:
        turn, now = made_turn(rng, [], now)
        if not any(entry[0] > REPLY for entry in turn) and turn[0][2] == 0x20:  # replies that need no history
            entries += turn
    record = pack(entries[: MOST // SIZE])
    began = clock.perf_counter()
    number, fault, place, _ = mark(record, MOST // SIZE)
    assert (number, place) == (0, MOST // SIZE) and fault in (0, 26)
    return clock.perf_counter() - began


def self_check(count=3_000, seed=1):
    rng, seen, makers = random.Random(seed), {}, {}
    check_paper()
    for _ in range(count):
        way = rng.choice(("made", "mutated", "mutated", "mutated", "wild"))
        entries, whole = made(rng)
        entries = entries if way == "made" else mutated(rng, entries) if way == "mutated" else wild(rng)
        record = pack(entries)
        assert unpack(record) == entries
        number, *result = mark(record, len(entries))
        assert (number, tuple(result)) == (TAKEN, expected(entries)), (entries, result, expected(entries))
        assert way != "made" or not whole or result[0] == 0
        seen[result[0]] = seen.get(result[0], 0) + 1
        makers[way] = makers.get(way, 0) + 1
    verdicts = ", ".join(f"{fault or 'sound'}: {seen[fault]}" for fault in sorted(seen))
    ways = ", ".join(f"{makers[way]} {way}" for way in sorted(makers))
    took = check_speed(rng)
    print(f"marks_again: {count} records ({ways}) agree in fault, place and starts; {verdicts}; 5461 entries in {took:.2f} s")


if __name__ == "__main__":
    checking()
    self_check()
