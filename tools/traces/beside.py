"""What the makers of random systems share: pieces of texts and events, and the product beside what is reckoned."""

import os
import subprocess
import tempfile


def constant(register, number):
    """The instructions that give a register a value."""
    upper, low = (number + 0x800 >> 12) & 0xFFFFF, (number & 0xFFF ^ 0x800) - 0x800
    return [f"lui x{register} {upper}", f"addi x{register} x{register} {low}"] if upper else [f"addi x{register} x0 {low}"]


def random_events(chance, count, others):
    """So many events: steps, and others between them."""
    events, left = [], count
    while left:
        steps = min(left, chance.randrange(1, 40))
        events += [f"step {steps}"]
        left -= steps
        if left and chance.random() < 0.7:
            events += [chance.choice(others)]
            left -= 1
    return events


def written(seed, folder, text, events):
    """The path, without an ending, of the text and the events in a folder."""
    name = os.path.join(folder, str(seed))
    for ending, said in (("txt", text), ("events", events)):
        with open(f"{name}.{ending}", "w", encoding="ascii") as file:
            file.write(said)
    return name


def product(program, *words):
    return subprocess.run([program, *words], capture_output=True, check=False).stdout.decode()


def check_product(program, seed, system, reckoned):
    """Asserts that the product says the same: of a text and events the image's bytes, the verdict and the trace's lines."""
    data, wanted, lines = reckoned
    with tempfile.TemporaryDirectory() as folder:
        name = written(seed, folder, *system)
        product(program, "build", f"{name}.txt", f"{name}.img")
        with open(f"{name}.img", "rb") as image:
            assert image.read() == data, f"{seed}: other bytes"
        assert product(program, "verify", f"{name}.img") == f"{wanted}\n", f"{seed}: other verdict than {wanted}"
        said = product(program, "run", f"{name}.img", f"{name}.events")
        assert said == "".join(f"{line}\n" for line in lines or [wanted]), f"{seed}: other trace"
