#!/usr/bin/env python3
"""The marker of document 01 (the paper of rules; see README.md), written from that paper alone; and, apart from it, the turn rules.

Run as a script, with `--check` or without, it compares the two on short records; it writes nothing.
"""
from typing import NamedTuple

from deck import DAY, FLAG_BITS, TAKEN, ROOM, Deck
from stored import checking

RECORD = 10
SOUND, MALFORMED, FALLS, NOT_AWAITED, DIFFERS, OVERDUE, WHILE_AWAITED, STOPS = 0, *range(20, 27)
LONGEST = 65_532
GAP, FIRST, LATER, QUIET = 10_000, 9_000, 10_000, 10_000  # the longest gap, waits for the first and a later reply byte, the quiet

# ---- entries: kind, flags, content in four bytes, time in six, lowest byte first

CONTROLLER, DECK, POSITION, CASSETTE = range(4)
CONTENT_BELOW = {CONTROLLER: 256, DECK: 256, POSITION: DAY, CASSETTE: 1}


class Entry(NamedTuple):
    kind: int
    flags: int
    content: int
    time: int


def entries_of(record):
    return [Entry(part[0], part[1], int.from_bytes(part[2:6], "little"), int.from_bytes(part[6:], "little"))
            for part in (record[at:at + 12] for at in range(0, len(record), 12))]


def record_of(entries):
    return b"".join(bytes([kind, flags]) + content.to_bytes(4, "little") + time.to_bytes(6, "little")
                    for kind, flags, content, time in entries)


def well_formed(entry):
    """Flags lie within 70, and are 0 outside kind 0."""
    kind, flags, content, _ = entry
    return kind in CONTENT_BELOW and content < CONTENT_BELOW[kind] and flags & ~FLAG_BITS == 0 and (kind == CONTROLLER or flags == 0)


def hand_any(deck, entry):
    """The deck is handed the entry at its time, a deck byte as a look. Its number and its replies."""
    kind, flags, content, time = entry
    return (deck.byte(time, content, flags) if kind == CONTROLLER else deck.look(time) if kind == DECK else
            deck.position(time, content) if kind == POSITION else deck.cassette(time))


def hand(deck, entry):
    """The same where the deck takes it."""
    no, replies = hand_any(deck, entry)
    assert no == TAKEN
    return replies


# ---- the marker


def mark(record, places):
    """Number, verdict, place, and the first entry of each turn begun before the place."""
    if len(record) % 12 or len(record) > LONGEST:
        return RECORD, 0, 0, []
    if places < len(record) // 12:
        return ROOM, 0, 0, []
    marker, entries = Marker(), entries_of(record)
    for place, entry in enumerate(entries):
        fault = marker.step(place, entry)
        if fault:
            return TAKEN, fault, place, marker.starts
    return TAKEN, STOPS if marker.inside_turn() else SOUND, len(entries), marker.starts


def text(no, fault, place, starts):
    """'A fault's first line is as `fault 24 at 3`, numbers decimal; turn lines follow sound and fault alike.
    A refusal prints `refused 10` alone.'"""
    if no:
        return f"refused {no}\n"
    first = f"fault {fault} at {place}\n" if fault else f"sound {len(starts)}\n"
    return first + "".join(f"turn {start}\n" for start in starts)


class Marker:
    def __init__(self):
        self.deck, self.starts = Deck(), []
        self.awaited, self.latest = b"", 0  # the reply's bytes that have not come, and the latest time that the next one may

    def step(self, place, entry):
        """The fault of this entry, the first that applies."""
        kind, _, content, time = entry
        if not well_formed(entry):
            return MALFORMED
        if time < self.deck.clock:
            return FALLS
        self.expect(self.deck.look(time))  # finds a time-out
        if self.awaited and time > self.latest:
            return OVERDUE
        if kind == DECK and not self.awaited:
            return NOT_AWAITED
        if kind == DECK and content != self.awaited[0]:
            return DIFFERS
        if kind == DECK:
            self.awaited, self.latest = self.awaited[1:], time + LATER
        elif kind != CONTROLLER:
            hand(self.deck, entry)
        elif time not in self.deck.quiet:
            if self.awaited:
                return WHILE_AWAITED
            if not self.deck.open:
                self.starts.append(place)
            self.expect((TAKEN, hand(self.deck, entry)))
        return SOUND

    def expect(self, answer):
        for due, reply in answer[1]:
            self.awaited, self.latest = reply, due + FIRST

    def inside_turn(self):
        return bool(self.deck.open or self.awaited)


# ---- the turn rules themselves: slow, for short records. Nothing below uses the marker.


def cuttings(entries):
    """Every list of turn starts in which each turn is right and each entry of kind 0 or 1 lies in exactly one."""
    deck = Deck()
    replies = [hand(deck, entry) for entry in entries]

    def cut(begin):
        start = next((at for at in range(begin, len(entries)) if entries[at].kind in (CONTROLLER, DECK)), None)
        if start is None:
            yield []
            return
        for end in [at for at in range(start + 1, len(entries)) if entries[at].kind == CONTROLLER] + [len(entries)]:
            if is_turn(entries, replies, start, end):
                yield from ([start] + rest for rest in cut(end))

    return list(cut(0))


def is_turn(entries, replies, start, end):
    """Are the controller and deck bytes from start to end one turn, the next one beginning at end?"""
    sent = [at for at in range(start, end) if entries[at].kind == CONTROLLER]
    come = [at for at in range(start, end) if entries[at].kind == DECK]
    given = [reply for at in range(start, end) for reply in replies[at]]
    if len(given) != 1:  # the deck's one reply
        return False
    return any(is_opening(entries, sent[:size]) and replies_right(entries, sent[size - 1], come, *given[0])
               and rest_right(entries, sent[size:], end, *given[0]) for size in range(1, len(sent) + 1))


def is_opening(entries, opening):
    """A full clean block; or a proper beginning, not empty, with silence after it; or a proper beginning and one flagged byte."""
    *before, last = [entries[at] for at in opening]
    after = [entry for entry in entries[opening[-1] + 1:] if entry.kind == CONTROLLER]
    if any(later.time - earlier.time > GAP for earlier, later in zip(before, before[1:] + [last])):
        return False
    return (is_clean(before + [last]) and len(opening) == full_size(before + [last])
            or is_proper_beginning(before + [last]) and (not after or after[0].time - last.time > GAP)
            or is_proper_beginning(before) and last.flags != 0)


def is_proper_beginning(sent):
    """Perhaps empty."""
    return not sent or is_clean(sent) and len(sent) < full_size(sent)


def is_clean(sent):
    return all(entry.flags == 0 for entry in sent)


def full_size(sent):
    return sent[0].content % 16 + 3


def replies_right(entries, opened, come, due, reply):
    """Each byte once, in order, after the opening. The first is not before the due time and at most 9,000 after it."""
    times = [entries[at].time for at in come]
    return (bytes(entries[at].content for at in come) == reply and come[0] > opened and due <= times[0] <= due + FIRST
            and all(later - earlier <= LATER for earlier, later in zip(times, times[1:])))


def rest_right(entries, rest, end, due, reply):
    """If the reply is a NAK, every controller entry up to the end of its quiet belongs to the turn. No other stands there."""
    quiet_end = due + QUIET if reply[:2] == b"\x11\x12" else -1
    beyond = [entry.time for entry in entries[end:] if entry.kind == CONTROLLER]
    return all(entries[at].time <= quiet_end for at in rest) and all(time > quiet_end for time in beyond)


# ---- what the rules say of a record: place and fault by asking which beginnings have a sound record


def in_order(entries):
    """Entries well formed, times never fall."""
    return all(map(well_formed, entries)) and all(entry.time <= later.time for entry, later in zip(entries, entries[1:]))


def finished(entries):
    """The entries with the open block and its reply, or the rest of the reply, added at once: the easiest way to end the turn."""
    deck = Deck()
    replies = [reply for entry in entries for reply in hand(deck, entry)]
    added, time = [], deck.clock
    while deck.open:
        added.append(Entry(CONTROLLER, 0, 0, time))
        replies += hand(deck, added[-1])
    come = sum(entry.kind == DECK for entry in entries)
    rest = b"".join(reply for _, reply in replies)[come:]
    return entries + added + [Entry(DECK, 0, byte, time) for byte in rest]


def begins_sound(entries):
    """The cuttings of a sound record that begins with these entries; none if there is no such record."""
    return cuttings(finished(entries)) if in_order(entries) else []


def by_rules(entries):
    """Verdict, place and starts as `mark` gives them."""
    place = 0
    while place < len(entries) and begins_sound(entries[:place + 1]):
        place += 1
    (cutting,) = begins_sound(entries[:place])
    starts = [start for start in cutting if start < place]
    if place < len(entries):
        return fault_by_rules(entries[:place], entries[place]), place, starts
    whole = cuttings(entries)
    assert whole in ([], [starts])
    return SOUND if whole else STOPS, place, starts


def fault_by_rules(before, entry):
    """Which other entries at this time could have stood here? If the time is too late for any, a deck byte is overdue."""
    def fits(kind, content):
        return begins_sound(before + [Entry(kind, 0, content, entry.time)])

    if not well_formed(entry):
        return MALFORMED
    if not in_order(before + [entry]):
        return FALLS
    if not fits(CASSETTE, 0):
        return OVERDUE
    if entry.kind == DECK:
        deck = Deck()
        given = {byte for one in before + [entry] for _, reply in hand(deck, one) for byte in reply}  # no other byte fits anywhere
        return DIFFERS if any(fits(DECK, byte) for byte in given) else NOT_AWAITED
    return WHILE_AWAITED


def main():
    """Compare mark and the rules: verdict, place and starts; and that no record has two cuttings."""
    import mark_cases  # which imports this file

    checking()
    spread = {}
    for entries in mark_cases.short_records():
        _, *marked = mark(record_of(entries), len(entries))
        ruled = list(by_rules(entries))
        assert marked == ruled, (entries, marked, ruled)
        if in_order(entries):
            found = cuttings(entries)
            assert found == ([marked[2]] if marked[0] == SOUND else []), (entries, marked, found)
        spread[marked[0]] = spread.get(marked[0], 0) + 1
    print(f"marks: {sum(spread.values())} short records, the marker and the rules agree; "
          + ", ".join(f"{spread[fault]} of {fault}" for fault in sorted(spread)))


if __name__ == "__main__":
    main()
