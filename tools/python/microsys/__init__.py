"""Runs a microsys system and is the world outside of it: it raises interrupts, writes and reads words of device pages,
and sees the trace.

    from microsys import System

    with System("heater.sys") as system:
        system.write("sensor", 0, 215)
        system.irq("beat")
        assert system.settle()
        power = system.read("heater", 0)

The program does the rest, over a pipe: `microsys run IMG -` for an image, `microsys_tool run SYSTEM -` for a text or a
description. It verifies the system before the first event.
"""

from .system import Ended, System

__all__ = ["Ended", "System"]
