#!/usr/bin/env python3
"""Makes crates/command_cases/stdout: the commands of tests/deck.py, a line for each, as 20.01, in ascending order.

`--check` compares the file instead of writing it.
"""
from deck import COMMANDS
from stored import checking, store


def main():
    checking()
    assert len(COMMANDS) == 36
    store("command_cases", {"stdout": "".join(f"{code}\n" for code in sorted(COMMANDS)).encode()}, f"{len(COMMANDS)} commands")


if __name__ == "__main__":
    main()
