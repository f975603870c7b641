#!/usr/bin/env python3
"""Heats rooms by the thermostat: an hour of simulated time each, a beat a second.

  thermostat.py SYSTEM [ROOMS] [--trace FILE]

SYSTEM is `thermostat.sys`, or an image, text or description of the same names. The first room is that of the trace, of
which FILE gets the first ten minutes; the others are chosen by numbers from a fixed seed. In each the temperature stays
between 20.4 and 21.6 degrees, and the heater gives the heat that the room loses. Then the sensor breaks: whatever it
says, the heater is on or off, and off where it says what no room has.
"""

from __future__ import annotations

import argparse
import math
import random
import sys
from dataclasses import dataclass
from pathlib import Path

# where the module is in the repository, and where it is installed
sys.path[:0] = [str(Path(__file__).resolve().parents[3] / place) for place in ("tools/python", "python")]
from microsys import System  # noqa: E402

HOUR, TRACED = 3600, 600
LOW, HIGH, BEGIN = 20.4, 21.6, 21.0


@dataclass
class Room:
    """A room that a heater warms: its heat capacity in J/K, what it loses in W/K, the heater's power in W, how warm it is
    outside, and the noise of the sensor in degrees."""

    capacity: float
    loss: float
    heater: float
    outside: float
    noise: float = 0.02
    temperature: float = BEGIN
    given: float = 0.0
    lost: float = 0.0

    @staticmethod
    def at_random(chance: random.Random) -> Room:
        """A room that loses less than its heater can give."""
        loss, outside = chance.uniform(30, 250), chance.uniform(-20, 12)
        needed = loss * (HIGH - outside)
        return Room(chance.uniform(0.5e6, 6e6), loss, needed * chance.uniform(1.2, 4), outside, chance.uniform(0, 0.05))

    def measured(self, chance: random.Random) -> int:
        """What the sensor says, in hundredths of a degree."""
        return round(100 * (self.temperature + chance.uniform(-self.noise, self.noise)))

    def second(self, power: float) -> None:
        """A second passes, with the heater at a part of its power."""
        given, lost = power * self.heater, self.loss * (self.temperature - self.outside)
        self.temperature += (given - lost) / self.capacity
        self.given += given
        self.lost += lost


def beat(system: System, measured: int) -> int:
    """The power that the thermostat gives for a measured word, in thousandths."""
    system.write("sensor", 0, measured % 2**32)
    system.irq("beat")
    assert system.settle(10_000)
    return system.read("heater", 0)


def heat(system: System, room: Room, chance: random.Random) -> tuple[float, float]:
    """An hour in a room; the least and the greatest temperature."""
    least = greatest = room.temperature
    for _ in range(HOUR):
        room.second(beat(system, room.measured(chance)) / 1000)
        least, greatest = min(least, room.temperature), max(greatest, room.temperature)
    assert LOW <= least and greatest <= HIGH, (room, least, greatest)
    # what was given and not lost has warmed the room
    kept = room.capacity * (room.temperature - BEGIN)
    assert math.isclose(room.given - room.lost, kept, rel_tol=1e-6, abs_tol=1), room
    return least, greatest


def breaks(system: System, chance: random.Random) -> None:
    """The sensor says anything."""
    for _ in range(HOUR):
        said = chance.randrange(2**32)
        power = beat(system, said)
        assert power in (0, 1000), power
        assert power == 0 or not 8500 < said < 2**32 - 4000, said


def traced(system: System, room: Room, chance: random.Random, name: str) -> None:
    """Writes the trace of the first minutes in a room."""
    with open(name, "w", encoding="ascii") as file:
        for _ in range(TRACED):
            system.write("sensor", 0, room.measured(chance))
            file.writelines(f"{line}\n" for line in system.lines)
            for act in (lambda: system.irq("beat"), lambda: system.settle(10_000), lambda: system.read("heater", 0)):
                act()
                file.writelines(f"{line}\n" for line in system.lines)
            room.second(int(system.lines[0].split()[-1], 16) / 1000)


def main() -> int:
    parser = argparse.ArgumentParser(description=__doc__.split("\n")[0])
    parser.add_argument("system")
    parser.add_argument("rooms", nargs="?", type=int, default=1)
    parser.add_argument("--trace")
    given = parser.parse_args()
    chance = random.Random(21)
    first = Room(2e6, 100, 3000, 2)
    with System(given.system) as system:
        system.settle()
        if given.trace:
            traced(system, first, chance, given.trace)
            return 0
        seen = [heat(system, room, chance) for room in [first, *(Room.at_random(chance) for _ in range(given.rooms - 1))]]
        breaks(system, chance)
    least, greatest = min(low for low, _ in seen), max(high for _, high in seen)
    print(f"thermostat: an hour in each of {len(seen)} rooms, {least:.2f} to {greatest:.2f} degrees, and an hour with a broken sensor")
    return 0


if __name__ == "__main__":
    sys.exit(main())
