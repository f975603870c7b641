#!/usr/bin/env python3
"""The bytes that the threads of this folder put, by Python's own arithmetic and libraries.

    tools/from_c/snippets/reckon.py NAME RINGS

Known values are checked: CRCs of the digits 1 to 9, and the code of the first bytes of a packet.
"""

from __future__ import annotations

import binascii
import itertools
import sys
import zlib
from collections.abc import Callable, Iterator

MASK = 0xFFFFFFFF
DIGITS = b"123456789"


def random_words() -> Iterator[int]:
    """The words of `random.h`."""
    state = 2463534242
    while True:
        state ^= state << 13 & MASK
        state ^= state >> 17
        state ^= state << 5 & MASK
        yield state


def ring(rings: int) -> Iterator[int]:
    """A queue of at most eight words."""
    queue: list[int] = []
    for random in itertools.islice(random_words(), rings):
        if random & 3:
            yield ord("p" if len(queue) < 8 else "f")
            queue += [random >> 8 & 0xFF] if len(queue) < 8 else []
        if random & 4:
            yield queue.pop(0) if queue else ord("e")


def debounce(rings: int) -> Iterator[int]:
    """Each key by itself: its state, and how many samples read otherwise, one after the other."""
    states, others, down = [0] * 8, [0] * 8, 0
    for number, random in enumerate(itertools.islice(random_words(), rings)):
        if number % 8 == 0:
            down = random >> 8 & 0xFF
        sample = down ^ random & 0x55 if number % 8 < 3 else down
        changed = 0
        for key in range(8):
            others[key] = others[key] + 1 if sample >> key & 1 != states[key] else 0
            if others[key] == 4:
                states[key], others[key] = 1 - states[key], 0
                changed |= 1 << key
        yield changed
        yield sum(state << key for key, state in enumerate(states))


def crc8(message: bytes) -> int:
    """The remainder of the message by x^8 + x^2 + x + 1, as a division of one long number."""
    rest = int.from_bytes(message, "big") << 8
    for bit in range(rest.bit_length() - 1, 7, -1):
        if rest >> bit & 1:
            rest ^= 0x107 << bit - 8
    return rest


def crcs(check: Callable[[bytes], int], size: int, known: int, rings: int) -> Iterator[int]:
    """The check values of messages of nine bytes, in every sixteen rings."""
    assert check(DIGITS) == known
    words = random_words()
    for first in range(0, rings, 16):
        message = DIGITS if first == 0 else bytes(next(words) & 0xFF for _ in range(9))
        yield from check(message).to_bytes(size, "big")


def decimal(rings: int) -> Iterator[int]:
    """Numbers as Python writes them."""
    known = [0, 9, 10, 99, 100, 1000000000, 4294967289, 4294967295]
    for number, random in enumerate(itertools.islice(random_words(), rings)):
        shown = known[number] if number < 8 else random >> (random & 31)
        yield from f"{shown} ".encode()


def stuffed(frame: bytes) -> bytes:
    """The code of a frame: of each piece between zeros, in runs of 254, the length and one, and the bytes."""
    made = bytearray()
    pieces = frame.split(b"\0")
    for number, piece in enumerate(pieces):
        while len(piece) > 254 or len(piece) == 254 and number < len(pieces) - 1:
            made += b"\xff" + piece[:254]
            piece = piece[254:]
        made += bytes([len(piece) + 1]) + piece
    return bytes(made)


def cobs(rings: int) -> Iterator[int]:
    """Frames of at most 16 bytes, in every 32 rings."""
    packet = bytes.fromhex("4500002c4c79000040064f37")
    assert stuffed(packet) == bytes.fromhex("024501042c4c79010540064f37")
    words = random_words()
    for first in range(0, rings, 32):
        random = next(words)
        length, frame = random & 15, bytearray()
        for _ in range(16):
            random = (random << 1 | random >> 31) & MASK
            frame.append(random & 0xFF if random & 4 else 0)
        yield from stuffed(packet if first == 0 else bytes(frame[:length]))
        yield ord("y")


def long_frames(rings: int) -> Iterator[int]:
    """Frames of some 254 and of some 508 bytes."""
    for number in range(rings):
        length = 248 + number if number < 16 else 502 + number % 16
        made = stuffed(bytes(0 if i == number * 8 else (i | 1) & 0xFF for i in range(length)))
        code = made[255] if len(made) > 255 else 0
        yield from [len(made) >> 8, len(made) & 0xFF, made[0], code, ord("y")]


def pid(rings: int) -> Iterator[int]:
    """The sum of three products, a 256th of it, within limits."""
    total = last = measured = 0
    for number, random in enumerate(itertools.islice(random_words(), rings)):
        if number % 16 == 0:
            measured = (random & 511) - 256
        error, change = 100 - measured, last - measured
        total = min(max(total + error, -400), 400)
        last = measured
        output = min(max((384 * error + 64 * total + 128 * change) // 256, -100), 155)
        measured += output // 4
        yield output & 0xFF


def product(rings: int) -> Iterator[int]:
    """Products, of 32 bits."""
    for random in itertools.islice(random_words(), rings):
        made = random * (random >> 20) & MASK
        yield from [made & 0xFF, made >> 24]


def wide_product(rings: int) -> Iterator[int]:
    """Products, of 64 bits."""
    words = random_words()
    for _ in range(rings):
        made = next(words) * next(words)
        yield from [made & 0xFF, made >> 32 & 0xFF, made >> 56]


THREADS: dict[str, Callable[[int], Iterator[int]]] = {
    "ring": ring,
    "debounce": debounce,
    "crc32": lambda rings: crcs(zlib.crc32, 4, 0xCBF43926, rings),
    "crc16": lambda rings: crcs(lambda message: binascii.crc_hqx(message, 0xFFFF), 2, 0x29B1, rings),
    "crc8": lambda rings: crcs(crc8, 1, 0xF4, rings),
    "decimal": decimal,
    "cobs": cobs,
    "long_frames": long_frames,
    "pid": pid,
    "product": product,
    "wide_product": wide_product,
}


def main(name: str, rings: str) -> None:
    """The command."""
    for byte in THREADS[name](int(rings)):
        print(f"{byte:02x}")


if __name__ == "__main__":
    main(*sys.argv[1:])
