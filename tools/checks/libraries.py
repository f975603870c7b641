#!/usr/bin/env python3
"""Builds the repository's libraries side by side: what stands above a library loads its statements alone, as in the gate. The gate
also looks for contracts that no call can meet, which takes a twentieth more and proves nothing.

A library that is built by several processes at once takes more of the processors' time: some third, from a tenth to twice as much on
machines that others share. So each has one process, but that with the longest chain of others after it: two where that chain is
longer by a third than what all processors have left, and as many as there are processors where fewer libraries are under way, at the
beginning and at the end.

  tools/checks/libraries.py NAME ..     at the top of the repository: these crates and all below them (none named: all)
  tools/checks/libraries.py rt WORD ..  in a crate's folder: the toolchain's command over libraries that were built so

A library is built again only where its text, or that of one below it, has changed. Logs: out/libraries/NAME.log.
"""
import hashlib
import importlib.machinery
import importlib.util
import os
import shutil
import sys
import time
from concurrent.futures import FIRST_COMPLETED, ThreadPoolExecutor, wait

FOUND = shutil.which("rt") or sys.exit("rt is not there: the toolchain, whose folder bin has it, is not in PATH")
KIT = os.path.dirname(os.path.dirname(os.path.realpath(FOUND)))
LOGS = os.path.normpath(f"{os.path.dirname(os.path.realpath(__file__))}/../../out/libraries")
# A check makes and removes some thousand small files, for which a file system on a disk takes a tenth of the processor's time.
IN_MEMORY, ROOM = "/dev/shm", 2 << 30
sys.dont_write_bytecode = True


def toolchain():
    """The toolchain's own command as a module."""
    loader = importlib.machinery.SourceFileLoader("toolchain_rt", f"{KIT}/bin/rt")
    made = importlib.util.module_from_spec(importlib.util.spec_from_loader("toolchain_rt", loader))
    sys.modules["toolchain_rt"] = made
    loader.exec_module(made)
    return made


RT = toolchain()
SUMS = {}
# What the toolchain takes for a crate before its first proof and after its last, in lines of code.
CRATE_IN_LINES = 200
# What several processes take for a library, over what one takes: roughly.
SEVERAL = 4 / 3


def sum_of(crate):
    """A sum of the crate's texts and of those below it, each read once."""
    if crate.folder not in SUMS:
        total = hashlib.sha256(repr(crate.said).encode())
        with open(f"{KIT}/WHAT", "rb") as kit:
            total.update(kit.read())
        for file in RT.rtlib.files_of(crate.folder):
            with open(file, "rb") as text:
                total.update(repr((file.replace(crate.folder, ""), text.read())).encode())
        total.update(repr([sum_of(it) for it in crate.deps]).encode())
        SUMS[crate.folder] = f"statements {total.hexdigest()}"
    return SUMS[crate.folder]


def build(crate, flags, anew):
    """Builds the crate's library with its statements alone, unless it stands already."""
    if crate.is_built():
        return 0
    folder = os.path.dirname(crate.rlib)
    shutil.rmtree(folder, ignore_errors=True)
    os.makedirs(folder)
    words = [*crate.words(flags, keeps=False), "--statements", "-o", crate.rlib]
    status = crate.call(RT.rtlib.RATTLE, "build", *words)
    if status == 0:
        with open(f"{folder}/stamp", "w", encoding="utf-8") as kept:
            kept.write(sum_of(crate))
    return status


RT.rtlib.Crate.stamp = sum_of
RT.rtlib.Crate.build_rlib = build


def keep_files_in_memory():
    """Has checks make their temporary files in memory, where there is such a place with room and no other is asked for."""
    if "TMPDIR" not in os.environ and os.access(IN_MEMORY, os.W_OK) and shutil.disk_usage(IN_MEMORY).free > ROOM:
        os.environ["TMPDIR"] = IN_MEMORY


def build_logged(crate, jobs):
    began = time.time()
    with open(f"{LOGS}/{crate.name}.log", "w", encoding="utf-8") as crate.out:
        held = RT.rtlib.lock([crate])
        status = crate.build_rlib(["--jobs", str(jobs)], False)
        del held
    outcome = "built" if status == 0 else f"FAILED ({LOGS}/{crate.name}.log)"
    print(f"{time.strftime('%H:%M:%S')} {crate.name} {outcome} {time.time() - began:.0f}s", flush=True)
    return crate.name, status


def build_all(names):
    """Builds each library once those below it are built, first those with the longest chain of others after them."""
    crates = [it for it in RT.rtlib.crates_below(os.getcwd()) if not names or it.name in names]
    left = list({it.name: it for crate in crates for it in [*crate.below(), crate] if it.makes_rlib()}.values())
    own = {it.name: it.count(rb"\n") + CRATE_IN_LINES for it in left}
    behind = dict(own)
    for it in reversed(left):
        for below in it.deps:
            behind[below.name] = max(behind[below.name], behind[it.name] + own[below.name])
    os.makedirs(LOGS, exist_ok=True)
    RT.rtlib.guarded()
    lanes, built, running = os.cpu_count() or 1, set(), {}
    with ThreadPoolExecutor(lanes) as pool:
        while left or running:
            ready = sorted((it for it in left if built.issuperset(below.name for below in it.below())), key=lambda it: -behind[it.name])
            is_few = len(ready) + len(running) < lanes
            for crate in ready[: lanes - len(running)]:
                rest = sum(own[it.name] for it in left) + sum(own[name] for name in running.values())
                left.remove(crate)
                jobs = 1
                if all(behind[name] <= behind[crate.name] for name in running.values()):
                    jobs = lanes if is_few else 2 if behind[crate.name] > SEVERAL * rest / lanes else 1
                running[pool.submit(build_logged, crate, jobs)] = crate.name
            if not running:
                break
            for done in wait(running, return_when=FIRST_COMPLETED).done:
                running.pop(done)
                name, status = done.result()
                built |= {name} if status == 0 else set()
    return 1 if left else 0


if __name__ == "__main__":
    keep_files_in_memory()
    sys.exit(RT.main(sys.argv[2:]) if sys.argv[1:2] == ["rt"] else build_all(sys.argv[1:]))
