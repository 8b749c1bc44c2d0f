#!/usr/bin/env python3
"""Makes stdin and stdout of the two programs that are timed: what they read, and what their loops must count.

crates/timing has a sound record of the greatest length with every command in it, crates/timing_deck the bytes of one block for every
command. `--check` compares the files instead of writing them.
"""
from itertools import cycle

from deck import Deck, block
from deck_cases import FIT
from mark_cases import Line
from marks import LONGEST, POSITION, SOUND, TAKEN, mark, record_of
from stored import checking, store

ROUNDS = 1_000  # as in crates/timing/src/main.rt
DECK_ROUNDS = 20_000  # as in crates/timing_deck/src/main.rt
EJECT = "20.0F"


def longest():
    """Every command in turn, as often as they fit, and then positions up to the greatest length."""
    line, whole = Line(), []
    for code, fit in cycle(FIT.items()):
        line.turn(block(code, fit[-1]), wait=500)
        if len(line.entries) > LONGEST // 12:
            break
        whole = list(line.entries)
    filling = [whole[-1]._replace(kind=POSITION, content=7)] * (LONGEST // 12 - len(whole))
    return record_of(whole + filling)


def blocks():
    """One block for every command but eject: after it nothing moves."""
    return [block(code, fit[-1]) for code, fit in FIT.items() if code != EJECT]


def replies(sent, rounds):
    """How many replies a deck gives; a NAK would leave the rest of them out, for its quiet."""
    deck = Deck()
    return sum(len(deck.byte(time, content)[1]) for time in range(rounds) for content in sent)


def marker_files():
    record = longest()
    no, fault, place, starts = mark(record, 5_461)
    assert (no, fault, place) == (TAKEN, SOUND, 5_461) and len(record) == LONGEST
    return {"stdin": record, "stdout": f"turns {len(starts) * ROUNDS}\n".encode()}


def deck_files():
    each = blocks()
    sent = b"".join(each)
    assert replies(sent, rounds=2) == 2 * len(each)
    return {"stdin": sent, "stdout": f"replies {len(each) * DECK_ROUNDS}\n".encode()}


def main():
    checking()
    store("timing", marker_files(), "a record of every command")
    store("timing_deck", deck_files(), "a block of every command")


if __name__ == "__main__":
    main()
