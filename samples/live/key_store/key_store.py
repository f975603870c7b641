#!/usr/bin/env python3
"""Serves the key store to two clients over sockets, of which one asks all the time.

  key_store.py SYSTEM [REQUESTS]

SYSTEM is `key_store.sys`, or an image, text or description of the same names. Each request is eight words over the
client's own socket, each answer four. Client A asks so many requests, one after another, and again where its quota is
used up; client B floods. A clock beats every hundredth of a second. What was asked, answered and beaten is noted in its
order, and a store that is written here gives the same answers to the same requests. Its cipher gives published values.
"""

from __future__ import annotations

import random
import select
import socket
import struct
import sys
import threading
import time
from dataclasses import dataclass, field
from pathlib import Path

# where the module is in the repository, and where it is installed
sys.path[:0] = [str(Path(__file__).resolve().parents[3] / place) for place in ("tools/python", "python")]
from microsys import System  # noqa: E402

STORE, ENCIPHER, DECIPHER, FORGET = range(4)
DONE, NO_KEY, NO_REQUEST, QUOTA_USED = range(4)
SLOTS, QUOTA, MOST, FIRST = 8, 16, 120, 8
REQUEST, ANSWER = struct.Struct("<8I"), struct.Struct("<4I")
BEAT_SECONDS = 0.01
WORD = 2**32

# XTEA's key, block and enciphered block, as the test vectors of Bouncy Castle and PyCrypto have them.
PUBLISHED = [
    ("000102030405060708090a0b0c0d0e0f", "4142434445464748", "497df3d072612cb5"),
    ("000102030405060708090a0b0c0d0e0f", "4141414141414141", "e78f2d13744341d8"),
    ("000102030405060708090a0b0c0d0e0f", "5a5b6e278948d77f", "4141414141414141"),
    ("00000000000000000000000000000000", "4142434445464748", "a0390589f8b8efa5"),
    ("00000000000000000000000000000000", "4141414141414141", "ed23375a821a8c2d"),
    ("00000000000000000000000000000000", "70e1225d6e4e7655", "4141414141414141"),
]


# ---- the store, by the host


def mixed(word: int) -> int:
    return (word << 4 ^ word >> 5) + word


def xtea(key: list[int], block: tuple[int, int], deciphers: bool) -> tuple[int, int]:
    """XTEA (Needham and Wheeler, 1997) by its schedule of 64 half rounds."""
    delta = 0x9E3779B9
    sums = [delta * (half + 1 >> 1) % WORD for half in range(64)]
    words = [(s + key[(s >> 11 if half % 2 else s) & 3]) % WORD for half, s in enumerate(sums)]
    halves = list(block)
    for half in reversed(range(64)) if deciphers else range(64):
        change = mixed(halves[1 - half % 2]) % WORD ^ words[half]
        halves[half % 2] = (halves[half % 2] + (-change if deciphers else change)) % WORD
    return halves[0], halves[1]


@dataclass
class Reference:
    """The store as it ought to be."""

    keys: dict[tuple[str, int], list[int]] = field(default_factory=dict)
    served: dict[str, int] = field(default_factory=dict)

    def beat(self) -> None:
        self.served.clear()

    def answer(self, client: str, request: tuple[int, ...]) -> tuple[int, ...]:
        """The status and two words for a request."""
        what, slot, *words = request
        if what > FORGET:
            return NO_REQUEST, 0, 0
        if self.served.get(client, 0) >= QUOTA:
            return QUOTA_USED, 0, 0
        self.served[client] = self.served.get(client, 0) + 1
        if slot >= SLOTS or what != STORE and (client, slot) not in self.keys:
            return NO_KEY, 0, 0
        if what == STORE:
            self.keys[client, slot] = list(words[:4])
        elif what == FORGET:
            del self.keys[client, slot]
        else:
            return DONE, *xtea(self.keys[client, slot], (words[0], words[1]), what == DECIPHER)
        return DONE, 0, 0


def check_cipher() -> None:
    words = lambda said: list(struct.unpack(f">{len(said) // 8}I", bytes.fromhex(said)))
    for key, block, secret in PUBLISHED:
        assert list(xtea(words(key), tuple(words(block)), False)) == words(secret)
        assert list(xtea(words(key), tuple(words(secret)), True)) == words(block)


# ---- the key store as a service


class Service:
    """The system between two sockets, and a note of what happened in its order: a beat, or a client's request and answer."""

    def __init__(self, system: System) -> None:
        self.system = system
        self.noted: list[tuple[str, tuple[int, ...], tuple[int, ...]] | None] = []
        self.rest: dict[str, bytes] = {}
        system.settle()

    def answers(self, client: str, asked: bytes) -> bytes:
        """The answers to whole requests, MOST at most."""
        count = len(asked) // REQUEST.size
        self.system.write_words(f"{client}_requests", 0, [count])
        self.system.write_words(f"{client}_requests", FIRST, struct.unpack(f"<{8 * count}I", asked))
        self.system.irq(f"{client}_bell")
        while not self.system.settle():
            pass
        given = self.system.read_words(f"{client}_answers", FIRST, 4 * count)
        for at in range(count):
            self.noted.append((client, REQUEST.unpack_from(asked, REQUEST.size * at)[:6], tuple(given[4 * at:4 * at + 3])))
        return struct.pack(f"<{4 * count}I", *given)

    def beat(self) -> None:
        self.system.irq("beat")
        self.system.settle()
        self.noted.append(None)

    def serve(self, sockets: dict[str, socket.socket]) -> None:
        """Answers until all clients have hung up."""
        open_ones, next_beat = dict(sockets), time.monotonic()
        while open_ones:
            ready, _, _ = select.select(list(open_ones.values()), [], [], max(0, next_beat - time.monotonic()))
            if time.monotonic() >= next_beat:
                self.beat()
                next_beat = time.monotonic() + BEAT_SECONDS
            for client in [it for it, its_socket in open_ones.items() if its_socket in ready]:
                came = open_ones[client].recv(REQUEST.size * MOST)
                if not came:
                    del open_ones[client]
                    continue
                asked = self.rest.get(client, b"") + came
                whole = min(len(asked) // REQUEST.size, MOST) * REQUEST.size
                self.rest[client] = asked[whole:]
                if whole:
                    open_ones[client].sendall(self.answers(client, asked[:whole]))


# ---- both clients


def some_request(chance: random.Random) -> tuple[int, ...]:
    """A request of any kind, now and then one that cannot be answered."""
    what = chance.choice([STORE, STORE, ENCIPHER, ENCIPHER, ENCIPHER, DECIPHER, DECIPHER, FORGET, 4, 77])
    return what, chance.choice([*range(SLOTS), 8, 2**31]), *(chance.randrange(WORD) for _ in range(6))


def received(end: socket.socket, count: int) -> bytes:
    found = b""
    while len(found) < count:
        part = end.recv(count - len(found))
        assert part
        found += part
    return found


def ask(end: socket.socket, request: tuple[int, ...]) -> tuple[int, int, int]:
    """The answer to a request, which is asked again while the quota is used up."""
    while True:
        end.sendall(REQUEST.pack(*request))
        status, left, right, _ = ANSWER.unpack(received(end, ANSWER.size))
        if status != QUOTA_USED:
            return status, left, right
        time.sleep(BEAT_SECONDS)


def flood(end: socket.socket, seed: int, stop: threading.Event) -> None:
    """Asks as much as the socket takes, and reads what comes."""
    chance = random.Random(seed)
    asked = answered = 0
    end.setblocking(False)
    requests = b"".join(REQUEST.pack(*some_request(chance)) for _ in range(1000))
    left = b""
    while not stop.is_set() or answered < asked * ANSWER.size:
        ready, free, _ = select.select([end], [] if stop.is_set() and not left else [end], [], 0.1)
        if free:
            if not left:
                left, asked = requests, asked + 1000
            left = left[end.send(left):]
        if ready:
            answered += len(end.recv(65536))
    end.close()


def check_noted(noted: list[tuple[str, tuple[int, ...], tuple[int, ...]] | None]) -> tuple[int, int]:
    """Replays what was noted; how many requests were answered, and how many of the flood's in the fullest beat."""
    reference, served, most = Reference(), 0, 0
    for note in noted:
        if note is None:
            reference.beat()
            served = 0
            continue
        client, request, answer = note
        wanted = reference.answer(client, request)
        assert answer == wanted, (note, wanted)
        served += client == "b" and answer[0] not in (QUOTA_USED, NO_REQUEST)
        most = max(most, served)
    return sum(it is not None for it in noted), most


def main() -> int:
    check_cipher()
    count = int(sys.argv[2]) if len(sys.argv) > 2 else 500
    chance, stop = random.Random(11), threading.Event()
    ends = {client: socket.socketpair() for client in "ab"}
    with System(sys.argv[1]) as system:
        service = Service(system)
        serving = threading.Thread(target=service.serve, args=({client: pair[0] for client, pair in ends.items()},), daemon=True)
        flooding = threading.Thread(target=flood, args=(ends["b"][1], 5, stop), daemon=True)
        serving.start()
        flooding.start()
        for key, block, secret in PUBLISHED:
            key_words, block_words, secret_words = (struct.unpack(f">{len(it) // 8}I", bytes.fromhex(it)) for it in (key, block, secret))
            assert ask(ends["a"][1], (STORE, 0, *key_words, 0, 0))[0] == DONE
            assert ask(ends["a"][1], (ENCIPHER, 0, *block_words, 0, 0, 0, 0)) == (DONE, *secret_words)
            assert ask(ends["a"][1], (DECIPHER, 0, *secret_words, 0, 0, 0, 0)) == (DONE, *block_words)
        for _ in range(count):
            ask(ends["a"][1], some_request(chance))
        stop.set()
        flooding.join()
        ends["a"][1].close()
        serving.join()
    requests, most = check_noted(service.noted)
    assert most == QUOTA, most
    print(f"key_store: {requests} requests over two sockets, answered as by the host; the client that floods got {most} answers in a beat at most")
    return 0


if __name__ == "__main__":
    sys.exit(main())
