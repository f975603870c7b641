#!/usr/bin/env python3
"""Sends a mebibyte through the gateway, from a TCP socket to a pseudo-terminal and back.

  gateway.py SYSTEM [BYTES]

SYSTEM is `gateway.sys`, or an image, text or description of the same names. The bytes are those of files of Python's
standard library. One end is the office's socket, the other the line, where frames are decoded and made by the functions
here, which have nothing of the gateway's parts. On the way back a frame in ten is damaged: what comes out is what these
functions make of the same bytes, and so are the counts.
"""

from __future__ import annotations

import os
import random
import select
import socket
import struct
import sys
import threading
import time
import tty
import zlib
from pathlib import Path
from typing import Callable

# where the module is in the repository, and where it is installed
sys.path[:0] = [str(Path(__file__).resolve().parents[3] / place) for place in ("tools/python", "python")]
from microsys import System  # noqa: E402

PAYLOAD, CHUNK, PIECE = 1016, 1020, 65536


# ---- frames, by the host


def stuffed(plain: bytes) -> bytes:
    """COBS (Cheshire and Baker, 1999): runs of bytes that are not 0, each after its length and 1."""
    coded = bytearray()
    for number, run in enumerate(runs := plain.split(b"\0"), 1):
        while len(run) >= 254:
            coded += b"\xff" + run[:254]
            run = run[254:]
            if not run and number == len(runs):
                return bytes(coded)
        coded += bytes([len(run) + 1]) + run
    return bytes(coded)


def unstuffed(coded: bytes) -> bytes | None:
    """What was coded so, or nothing where the last run is cut off."""
    plain, at = bytearray(), 0
    while at < len(coded):
        code = coded[at]
        run = coded[at + 1:at + code]
        if len(run) < code - 1:
            return None
        plain += run
        at += code
        if code < 255 and at < len(coded):
            plain.append(0)
    return bytes(plain)


def framed(payload: bytes) -> bytes:
    """A frame: the payload and its CRC-32, coded, and a zero."""
    return stuffed(payload + struct.pack("<I", zlib.crc32(payload))) + b"\0"


def unframed(coded: bytes) -> bytes | None:
    """The payload of a frame without its zero, or nothing where it is damaged."""
    plain = unstuffed(coded)
    if plain is None or not 4 <= len(plain) <= PAYLOAD + 4 or struct.unpack("<I", plain[-4:])[0] != zlib.crc32(plain[:-4]):
        return None
    return plain[:-4]


def damaged(frame: bytes, chance: random.Random) -> bytes:
    """A frame with a bit, a byte or its end changed."""
    at = chance.randrange(len(frame))
    return chance.choice([
        lambda: frame[:at] + bytes([frame[at] ^ 1 << chance.randrange(8)]) + frame[at + 1:],
        lambda: frame[:at] + frame[at + 1:],
        lambda: frame[:at] + bytes([chance.randrange(256)]) + frame[at:],
        lambda: frame[:at] + b"\0",
    ])()


# ---- the gateway as a service


class Gateway:
    """The system, and what stands between its pages and the outside."""

    def __init__(self, system: System) -> None:
        self.system = system
        system.settle()

    def through(self, page: str, bell: str, out: str, given: bytes) -> bytes:
        """Puts bytes into a page, rings, and takes what comes out of another."""
        words = struct.unpack(f"<{-(-len(given) // 4)}I", given + bytes(-len(given) % 4))
        self.system.write_words(page, 0, [len(given), *words])
        self.system.irq(bell)
        while not self.system.settle():
            pass
        length = self.system.read(out, 0)
        taken = self.system.read_words(out, 1, -(-length // 4))
        return struct.pack(f"<{len(taken)}I", *taken)[:length]

    def to_line(self, given: bytes) -> bytes:
        """The frames of what the office sends."""
        return b"".join(self.through("office_in", "sent", "line_out", given[at:at + PAYLOAD]) for at in range(0, len(given), PAYLOAD))

    def to_office(self, given: bytes) -> bytes:
        """What is whole in what the line sends."""
        return b"".join(self.through("line_in", "came", "office_out", given[at:at + CHUNK]) for at in range(0, len(given), CHUNK))

    def serve(self, office: socket.socket, line: int) -> None:
        """Carries bytes both ways until the office hangs up."""
        while True:
            ready, _, _ = select.select([office, line], [], [])
            if office in ready:
                given = office.recv(PIECE)
                if not given:
                    return
                write_all(line, self.to_line(given))
            if line in ready:
                office.sendall(self.to_office(os.read(line, PIECE)))


def write_all(file: int, data: bytes) -> None:
    while data:
        data = data[os.write(file, data):]


# ---- both ends


def some_data(count: int) -> bytes:
    """So many bytes that nobody here has written."""
    files = sorted(Path(os.__file__).parent.glob("*.py"))
    return b"".join(it.read_bytes() for it in files)[:count]


def timed(what: str, count: int, act: Callable[[], None]) -> None:
    began = time.monotonic()
    act()
    seconds = time.monotonic() - began
    print(f"gateway: {count} bytes {what}, {count / seconds:.0f} a second")


def check_to_line(office: socket.socket, line: int, data: bytes) -> None:
    """All that the office sends comes out of the line, in whole frames."""
    sender = threading.Thread(target=office.sendall, args=(data,))
    sender.start()
    came, rest = bytearray(), b""
    while len(came) < len(data):
        *frames, rest = (rest + os.read(line, PIECE)).split(b"\0")
        for frame in frames:
            payload = unframed(frame)
            assert payload is not None, frame
            came += payload
    sender.join()
    assert came == data and rest == b""


def check_to_office(office: socket.socket, line: int, data: bytes, chance: random.Random) -> tuple[int, int]:
    """Of frames that come from the line, those that are whole come to the office; how many are whole, and how many not."""
    sent, at = bytearray(), 0
    while at < len(data):
        length = chance.randrange(1, PAYLOAD + 1)
        frame = framed(data[at:at + length])
        sent += damaged(frame, chance) if chance.random() < 0.1 else frame
        at += length
    sent += b"\0"
    frames = [unframed(it) for it in bytes(sent).split(b"\0") if it]
    wanted = b"".join(it for it in frames if it is not None)
    sender = threading.Thread(target=write_all, args=(line, bytes(sent)))
    sender.start()
    came = bytearray()
    while len(came) < len(wanted):
        came += office.recv(PIECE)
    sender.join()
    assert came == wanted
    return sum(it is not None for it in frames), sum(it is None for it in frames)


def main() -> int:
    data = some_data(int(sys.argv[2]) if len(sys.argv) > 2 else 2**20)
    master, slave = os.openpty()
    tty.setraw(slave)
    tty.setraw(master)
    with System(sys.argv[1]) as system, socket.create_server(("127.0.0.1", 0)) as listener:
        with socket.create_connection(listener.getsockname()) as office:
            served, _ = listener.accept()
            gateway = Gateway(system)
            service = threading.Thread(target=gateway.serve, args=(served, master), daemon=True)
            service.start()
            counts: list[tuple[int, int]] = []
            timed("to the line in whole frames", len(data), lambda: check_to_line(office, slave, data))
            timed("back, a frame in ten damaged", len(data), lambda: counts.append(check_to_office(office, slave, data, random.Random(7))))
        service.join()
        assert tuple(system.read_words("counts", 0, 2)) == counts[0], (system.read_words("counts", 0, 2), counts)
        print(f"gateway: {counts[0][0]} frames came whole, {counts[0][1]} were dropped, as the host counts")
    return 0


if __name__ == "__main__":
    sys.exit(main())
