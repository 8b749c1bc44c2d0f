#!/usr/bin/env python3
"""Makes crates/leaf_cases/stdin (calls of the crates line, block, timecode and speed) and stdout (what each must return).

Written from document 01 (the paper of rules; see README.md) alone. `--check` compares the two files instead of writing them. A case of
stdin is a letter, a length and that many argument bytes. Numbers of four bytes stand lowest byte first.
"""
import random

from stored import checking, store

DAY = 24 * 60 * 60 * 25  # positions of a day
FILL = 0xAA  # what the program lends to the writer
TAKEN, ROOM, PLACE, WORD, LENGTH, SUM, FIELD = 0, 1, 5, 6, 7, 8, 9


# ---- the rules of document 01


def receive(word):
    if word > 0x7FF or word & 1:
        return WORD, 0, 0
    _, *data, parity, stop = [word >> bit & 1 for bit in range(11)]
    flags = (0x10 if (sum(data) + parity) % 2 == 0 else 0) + (0x40 if stop == 0 else 0)
    return TAKEN, sum(one << bit for bit, one in enumerate(data)), flags


def read(block):
    """Number, group, command, count, data."""
    if len(block) < 3 or len(block) != block[0] % 16 + 3:
        return LENGTH, 0, 0, 0, b""
    if sum(block[:-1]) % 256 != block[-1]:
        return SUM, 0, 0, 0, b""
    return TAKEN, block[0] // 16, block[1], block[0] % 16, block[2:-1]


def summed(body):
    return body + bytes([sum(body) % 256])


def block_of(group, command, data):
    return summed(bytes([group * 16 + len(data), command]) + data)


def write(group, command, data, room):
    """Number, length, and the whole lent output."""
    untouched = bytes([FILL] * room)
    if group > 15 or len(data) > 15:
        return FIELD, 0, untouched
    if room < len(data) + 3:
        return ROOM, 0, untouched
    block = block_of(group, command, data)
    return TAKEN, len(block), block + untouched[len(block):]


def position(time):
    digits = [f"{byte:02x}" for byte in time]
    if len(time) != 4 or not all(pair.isdecimal() for pair in digits):
        return FIELD, 0
    frames, seconds, minutes, hours = map(int, digits)
    if frames > 24 or seconds > 59 or minutes > 59 or hours > 23:
        return FIELD, 0
    return TAKEN, ((hours * 60 + minutes) * 60 + seconds) * 25 + frames


def time(place):
    if place >= DAY:
        return PLACE, bytes(4)
    seconds, frames = divmod(place, 25)
    parts = frames, seconds % 60, seconds // 60 % 60, seconds // 3600
    return TAKEN, bytes(int(str(part), 16) for part in parts)


def step(place, by):
    return (PLACE, 0) if place >= DAY else (TAKEN, (place + by) % DAY)


def speed(n, reverse):
    low, high = 0, 10**10  # low**32 <= 10**(n+32) < high**32
    while high - low > 1:
        middle = (low + high) // 2
        low, high = (middle, high) if middle**32 <= 10 ** (n + 32) else (low, middle)
    return 0 if n == 0 else -low if reverse else low


# ---- cases and lines

stdin, stdout = bytearray(), []


def hexes(data):
    return " ".join(["[", *(f"{byte:02x}" for byte in data), "]"])


def case(letter, args, line):
    stdin.extend(letter.encode() + bytes([len(args)]) + bytes(args))
    stdout.append(line + "\n")


def four(number):
    return number.to_bytes(4, "little")


def receive_case(word):
    no, byte, flags = receive(word)
    case("l", four(word), f"receive {word:03x} -> {no} {byte:02x} {flags:02x}")


def sum_case(data):
    case("s", data, f"sum {hexes(data)} -> {sum(data) % 256:02x}")


def read_case(block):
    no, group, command, count, data = read(block)
    case("r", block, f"read {hexes(block)} -> {no} {group} {command:02x} {count} {hexes(data)}")


def write_case(group, command, data, room):
    no, size, out = write(group, command, data, room)
    line = f"write {group} {command:02x} {hexes(data)} {room} -> {no} {size} {hexes(out)}"
    case("w", bytes([group, command, room]) + data, line)


def position_case(data):
    case("p", data, "position {} -> {} {}".format(hexes(data), *position(data)))


def time_case(place):
    no, data = time(place)
    case("t", four(place), f"time {place} -> {no} {hexes(data)}")


def step_cases(place):
    case("n", four(place), "frame_on {} -> {} {}".format(place, *step(place, 1)))
    case("k", four(place), "frame_back {} -> {} {}".format(place, *step(place, -1)))


def speed_case(n, reverse):
    case("v", [n, reverse], f"speed {n} {reverse} -> {speed(n, reverse)}")


# ---- which cases


def below(limit):
    return int(random.random() * limit)


def any_bytes(size):
    return bytes(below(256) for _ in range(size))


def line_cases():
    for word in [0x440, 0x600, 0x400, *range(0x803), 0xC40, 0xFFF, 0x1000, 0x10440, 0xFFFF, 0x80000440, 0xFFFFFFFE, 0xFFFFFFFF]:
        receive_case(word)


def reader_cases():
    for text in ["20 01 21", "20 01 22", "20 7F 9F", "00 11 11", "12 11 00 02 25", "61 20 03 84", "73 20 01 20 00 B4", "61 0C 03 70",
                 "74 04 00 00 00 00 78", "74 04 24 59 59 23 71", "24 31 24 00 00 00 79", "24 31 25 00 00 00 7A", "24 31 25 00 00 00 79",
                 "10 01 11", "11 12 04 27", "11 12 01 24", "11 12 80 A3"]:
        read_case(bytes.fromhex(text))
    read_case(b"")
    for first in range(16):
        for size in range(3):
            read_case(bytes([first] + [0] * size))
    for last in range(256):
        read_case(bytes([0x20, 0x01, last]))
    for count in range(16):
        read_case(summed(bytes([0x20 + count]) + any_bytes(5)))  # a right sum, and only one count is right
    for count in range(16):
        block = block_of(below(16), below(256), any_bytes(count))
        read_case(block)
        read_case(block[:-1])  # the length is wrong and the sum too: 7 comes before 8
        read_case(block + b"\0")
        read_case(block + any_bytes(3))
        for at in range(len(block)):
            read_case(block[:at] + bytes([block[at] ^ 1 << below(8)]) + block[at + 1:])
    for _ in range(50):
        read_case(any_bytes(below(24)))


def sum_cases():
    for data in [b"", b"\0", b"\xff", b"\xff\x01", b"\xff\xff", b"\x80\x80", b"\xff" * 255]:
        sum_case(data)
    for _ in range(50):
        sum_case(any_bytes(below(40)))


def writer_cases():
    for group in range(16):
        for count in [0, 1, 4, 15]:
            write_case(group, below(256), any_bytes(count), count + 3)
    for count in range(16):
        for room in [0, 2, count + 2, count + 3, count + 4, 24]:
            write_case(below(16), below(256), any_bytes(count), room)
    for group in [16, 17, 31, 32, 128, 240, 255]:
        for room in [0, 2, 3, 24]:  # 9 comes before 1
            write_case(group, below(256), b"", room)
    for count in [16, 17, 18, 31, 32, 100]:
        for room in [0, count + 2, count + 3]:
            write_case(2, 1, any_bytes(count), room)
            write_case(16, 1, any_bytes(count), room)


def time_cases():
    for size in range(7):
        position_case(bytes(size))
        position_case(bytes([0x24, 0x59, 0x59, 0x23, 0x00, 0x00][:size]))
    for at in range(4):
        for byte in range(256):
            data = bytearray([0x12, 0x34, 0x45, 0x06])
            data[at] = byte
            position_case(data)
    for _ in range(100):
        position_case(any_bytes(4))
    edges = [0, 1, 24, 25, 1499, 1500, 89_999, 90_000, DAY - 90_000, DAY - 2, DAY - 1, DAY, DAY + 1, 2**31, 2**32 - DAY, 2**32 - 1]
    for place in edges + [below(DAY) for _ in range(20)]:
        step_cases(place)
    for place in edges + [below(DAY) for _ in range(1000)] + [below(2**32) for _ in range(20)]:
        time_case(place)
    for place in [place for place in edges if place < DAY] + [below(DAY) for _ in range(200)]:
        position_case(time(place)[1])


def speed_cases():
    for n in [42, 58, 64, 84, 103, *range(256)]:
        speed_case(n, 0)
        speed_case(n, 1)


def check_rules():
    """What document 01 gives as numbers holds of the rules above."""
    assert [receive(word)[1:] for word in (0x440, 0x600, 0x400)] == [(0x20, 0), (0, 0), (0, 0x10)]
    assert [speed(n, 0) for n in (42, 58, 64, 84, 103)] == [205, 649, 1000, 4216, 16548]
    assert time(2_159_999) == (TAKEN, bytes.fromhex("24595923")) and time(2_160_000)[0] == PLACE
    assert read(bytes.fromhex("200121"))[0] == TAKEN and read(bytes.fromhex("200122"))[0] == SUM


def main():
    checking()
    random.seed(1)  # only random.random() is used: Python keeps its sequence from version to version
    check_rules()
    for cases in [line_cases, sum_cases, reader_cases, writer_cases, time_cases, speed_cases]:
        cases()
    store("leaf_cases", {"stdin": bytes(stdin), "stdout": "".join(stdout).encode()}, f"{len(stdout)} cases")


if __name__ == "__main__":
    main()
