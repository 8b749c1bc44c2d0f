#!/usr/bin/env python3
"""Makes crates/answer/stdin, a record of the greatest length that mixes all a deck may be handed, and stdout, what `answer` must print.

`--check` compares the two files instead of writing them. The lines are those of docs/TEACHERS.md, the replies those of tests/deck.py.
"""
import random

from deck import TAKEN, Deck, block, to_time
from deck_cases import FIT, PLACES, UNFIT, any_bytes, below, chance, hexes, one_of, sum_wrong
from marks import CASSETTE, CONTROLLER, DECK, LONGEST, POSITION, Entry, entries_of, hand_any, record_of
from stored import checking, store

# ---- what `answer` prints


def is_meant(entry):
    """Whether the deck is handed the entry: flags and positions as they stand, for the deck to refuse."""
    kind, flags, content, _ = entry
    return (kind == CONTROLLER and content < 256 or kind == DECK and flags == 0 and content < 256
            or kind == POSITION and flags == 0 or kind == CASSETTE and flags == 0 and content == 0)


def transcript(record):
    if len(record) % 12 or len(record) > LONGEST:
        return "refused 10\n"
    deck, lines = Deck(), []
    for number, entry in enumerate(entries_of(record)):
        if not is_meant(entry):
            lines.append(f"malformed at {number}")
            continue
        no, replies = hand_any(deck, entry)
        if no != TAKEN:
            lines.append(f"refused {no} at {number}")
        lines += [f"reply {due}{hexes(reply)}" for due, reply in replies]
    lines += [f"status{hexes(deck.status())}", f"time{hexes(to_time(deck.place))}"]
    lines += [f"{name.lower()}{hexes(to_time(deck.point[name]))}" for name in ("In", "Out")]
    return "\n".join(lines + [f"speed {deck.speed}"]) + "\n"


# ---- a record


def some_block():
    code = one_of(list(FIT))
    full = block(code, one_of(UNFIT[code]) if code in UNFIT and chance(15) else one_of(FIT[code]))
    return sum_wrong(full) if chance(5) else full[:1 + below(len(full))] if chance(5) else any_bytes(4) if chance(5) else full


def some_entries(time):
    """A block, or one entry of another kind, well formed or not. Now and then a time falls or a pause ends what is open."""
    time += below(60_000) if chance(15) else below(400)
    if chance(70):
        return [Entry(CONTROLLER, one_of([0x10, 0x60, below(256)]) if chance(2) else 0, byte, time + 30 * at)
                for at, byte in enumerate(some_block())]
    return [one_of([
        Entry(DECK, 0, below(256), time), Entry(POSITION, 0, one_of(PLACES), time), Entry(CASSETTE, 0, 0, time),
        Entry(POSITION, 0, below(2**32), time), Entry(CONTROLLER, 0, 0x20, max(0, time - below(70_000))),
        Entry(CONTROLLER, 0, 256 + below(9), time), Entry(DECK, 0x10, 1, time), Entry(DECK, 0, 2**31, time),
        Entry(POSITION, 0x40, 5, time), Entry(CASSETTE, 0, 1, time), Entry(CASSETTE, 0x20, 0, time),
        Entry(4 + below(252), below(256), below(2**32), time)])]


def mixed():
    random.seed(1)  # only random.random() is used: Python keeps its sequence from version to version
    entries, time = [], 0
    while len(entries) < LONGEST // 12:
        entries += some_entries(time)
        time = max(entry.time for entry in entries[-9:])
    return record_of(entries)[:LONGEST]


def main():
    checking()
    play = record_of(Entry(CONTROLLER, 0, byte, 300 * at) for at, byte in enumerate(b"\x20\x01\x21"))
    assert transcript(play).startswith("reply 600 10 01 11\nstatus 01 01 00 00 ") and transcript(play[1:]) == "refused 10\n"
    record = mixed()
    told = transcript(record)
    store("answer", {"stdin": record, "stdout": told.encode()}, f"{told.count('reply')} replies")


if __name__ == "__main__":
    main()
