#!/usr/bin/env python3
"""Makes examples/, a record for each fault and a sound one, and crates/mark/stdin and stdout, document 01's example of a record.

`--check` compares the files instead of writing them. Each example is named after what it shows; docs/TEACHERS.md says of each what the
student did.
"""
from mark_cases import Line
from marks import CASSETTE, CONTROLLER, DECK, POSITION, mark, record_of, text
from stored import checking, store, store_in

PLAY, STOP = b"\x20\x01\x21", b"\x20\x00\x20"

RECORDS = {
    "sound": Line().turn(PLAY, wait=0).put(POSITION, 250, wait=5_000).turn(STOP, wait=5_000),
    "fault-20": Line().turn(PLAY, wait=0).put(CASSETTE, 1, wait=500),
    "fault-21": Line().turn(PLAY, wait=1_000).put(CONTROLLER, 0x20, wait=-2_000),
    "fault-22": Line().turn(PLAY, wait=0).put(DECK, 0x10, wait=500),
    "fault-23": Line().send(PLAY).put(DECK, 0x10, wait=400).put(DECK, 0x02, wait=300),
    "fault-24": Line().send(PLAY).reply(wait=9_001),
    "fault-25": Line().send(PLAY).reply(size=1).send(STOP, wait=300),
    "fault-26": Line().turn(PLAY, wait=0).send(STOP[:2], wait=500),
}


def marked(line):
    """The record, and what the marker says of it."""
    record = record_of(line.entries)
    return record, mark(record, len(line.entries))


def examples():
    made = {}
    for name, line in RECORDS.items():
        made[name], (_, fault, _, _) = marked(line)
        assert name == (f"fault-{fault}" if fault else "sound")
    return made


def program_files():
    """'For entries 20, 01, 21 of kind 0 at 0, 300, 600 and 10, 01, 11 of kind 1 at 1000, 1300, 1600 it prints exactly two lines:
    `sound 1` and `turn 0`.'"""
    line = Line().turn(PLAY, wait=0)
    assert [entry[2:] for entry in line.entries] == [(0x20, 0), (0x01, 300), (0x21, 600), (0x10, 1000), (0x01, 1300), (0x11, 1600)]
    record, answer = marked(line)
    assert text(*answer) == "sound 1\nturn 0\n"
    return {"stdin": record, "stdout": text(*answer).encode()}


def main():
    checking()
    store_in("examples", examples(), "a record for each fault and a sound one")
    store("mark", program_files(), "document 01's example")


if __name__ == "__main__":
    main()
