"""A system that runs from Python, beside traces that were worked by hand or reckoned apart from the program (samples/).

MICROSYS names what runs images and MICROSYS_TOOL what runs texts; tools/python/run.sh sets both.
"""

import sys
import tempfile
import unittest
import unittest.mock
from pathlib import Path

ROOT = Path(__file__).resolve().parents[3]
sys.path.insert(0, str(ROOT / "tools" / "python"))
from microsys import Ended, System  # noqa: E402

SAMPLES = ROOT / "samples"
CONTROLLER = SAMPLES / "gallery" / "controller"
PROBE, OUTPUT = 0x8001D000, 0x8001A000


def lines_of(name):
    return Path(name).read_text("ascii").splitlines()


class Traces(unittest.TestCase):
    def follow(self, system, events):
        """The lines of a list of events."""
        lines = []
        for event in events:
            word, *rest = event.split("#")[0].split() or [""]
            if word == "step":
                lines += system.step(*map(int, rest))
            elif word == "irq":
                system.irq(int(rest[0]))
                lines += system.lines
            elif word == "tick":
                system.tick()
                lines += system.lines
            elif word == "write":
                address = int(rest[0], 0)
                system.write(address & ~4095, address % 4096 // 4, int(rest[1]))
                lines += system.lines
            elif word == "read":
                address = int(rest[0], 0)
                system.read(address & ~4095, address % 4096 // 4)
                lines += system.lines
        return lines

    def test_samples_give_their_traces(self):
        for name in ("bell", "solo", "worker", "client_server", "promise", "gallery/controller"):
            with self.subTest(name), System(SAMPLES / f"{name}.img") as system:
                self.assertEqual(self.follow(system, lines_of(SAMPLES / f"{name}.events")), lines_of(SAMPLES / f"{name}.trace"))

    def test_bytes_are_those_that_the_sample_puts(self):
        # by hand, in samples/README.md: byte 41 at line 17, byte 42 at line 33
        with System(SAMPLES / "client_server.img") as system:
            system.step(16)
            self.assertEqual(system.bytes, b"")
            self.assertEqual(system.step(), ["80016000 00001020 byte 41"])
            self.assertEqual(system.last_bytes, b"A")
            system.step(15)
            self.assertEqual((system.last_bytes, system.take()), (b"", b"A"))
            system.step()
            self.assertEqual((system.last_bytes, system.bytes), (b"B", b"B"))

    def test_a_step_without_a_thread_to_run_is_idle(self):
        with System(SAMPLES / "bell.img") as system:
            self.assertTrue(system.settle())
            self.assertEqual(len(system.lines), 4)
            self.assertEqual(system.step(2), ["idle", "idle"])
            self.assertEqual(system.step(0), [])

    def test_settling_ends_at_its_limit(self):
        with System(SAMPLES / "bell.img") as system:
            self.assertFalse(system.settle(3))
            self.assertEqual(len(system.lines), 3)
            self.assertTrue(system.settle(1))


class DevicePages(unittest.TestCase):
    """The gallery's controller: 328 less twice the sample, which is cut at 68 and 132 (controller.md)."""

    def output_of(self, system, sample):
        system.write(PROBE, 0, sample)
        for line in (3, 1):
            system.irq(line)
            self.assertTrue(system.settle())
        return system.read(OUTPUT, 0)

    def test_outputs_are_within_limits(self):
        wanted = {0: 192, 37: 192, 68: 192, 69: 190, 74: 180, 100: 128, 131: 66, 132: 64, 148: 64, 2**31: 64, 2**32 - 1: 64}
        with System(CONTROLLER.with_suffix(".img")) as system:
            system.settle()
            for sample, output in wanted.items():
                self.assertEqual(self.output_of(system, sample), output, sample)
            self.assertEqual(system.bytes, bytes(wanted.values()))

    def test_pages_and_interrupts_have_the_names_of_the_text(self):
        with System(CONTROLLER.with_suffix(".txt")) as system:
            system.settle()
            system.write("probe", 0, 74)
            system.irq("sensor_line")
            system.settle()
            system.irq("control_line")
            system.settle()
            self.assertEqual(system.read("output", 0), 180)

    def test_what_is_written_is_read(self):
        words = [(0x9E3779B9 * it + 1) % 2**32 for it in range(1024)]
        with System(CONTROLLER.with_suffix(".img")) as system:
            system.write_words(PROBE, 0, words)
            self.assertEqual(system.read_words(PROBE, 0, 1024), words)
            self.assertEqual(system.read(PROBE, 1023), words[1023])
            system.write_words(PROBE, 1000, words[:24])
            self.assertEqual(system.read_words(PROBE, 996, 28), words[996:1000] + words[:24])
            self.assertEqual(system.read_words(PROBE, 0, 0), [])


class Ends(unittest.TestCase):
    def words_of(self, act, system):
        with self.assertRaises(Ended) as caught:
            act(system)
        return caught.exception.words.splitlines()[0]

    def test_an_image_that_is_refused(self):
        # the last field of the manual's format is cut off
        with tempfile.TemporaryDirectory() as folder:
            image = bytearray((SAMPLES / "bell.img").read_bytes())
            name = Path(folder) / "cut.img"
            name.write_bytes(image[:-1])
            for act in (System.step, System.settle, System.tick, lambda it: it.irq(0), System.close):
                self.assertRegex(self.words_of(act, System(name)), r"^refused 3 Truncated \d+ 0$")

    def test_an_event_outside_the_device_pages(self):
        for act in (lambda it: it.write(PROBE, 0, 1), lambda it: it.read(OUTPUT, 5)):
            with System(SAMPLES / "bell.img") as system:
                system.step(3)
                self.assertEqual(self.words_of(act, system), "events line 2")
                self.assertEqual(self.words_of(System.tick, system), "the run is closed")

    def test_what_was_answered_before_an_event_outside_counts_for_nothing(self):
        with System(CONTROLLER.with_suffix(".img")) as system:
            # the page before the output is the sample's
            self.assertEqual(self.words_of(lambda it: it.read_words(OUTPUT - 4096, 0, 3), system), "events line 1")

    def test_a_program_that_is_gone(self):
        with self.assertRaises(Ended) as caught:
            with System(SAMPLES / "bell.img") as system:
                system.step()
                system._program.kill()
                system._program.wait()
                system.step()
        self.assertEqual((caught.exception.words, caught.exception.status), ("", -9))

    def test_a_test_that_fails_leaves_no_program(self):
        with self.assertRaises(ZeroDivisionError):
            with System(SAMPLES / "bell.img") as system:
                1 // 0
        self.assertIsNotNone(system._program.poll())
        system.close()

    def test_a_call_that_is_interrupted_ends_the_run(self):
        def interrupted(*_):
            raise KeyboardInterrupt

        system = System(SAMPLES / "bell.img")
        system._output = unittest.mock.Mock(wraps=system._output, read=interrupted)
        self.assertRaises(KeyboardInterrupt, system.step, 2)
        self.assertIsNotNone(system._program.poll())
        self.assertEqual(self.words_of(System.step, system), "the run is closed")

    def test_files_and_programs_that_are_not_there(self):
        self.assertRaises(FileNotFoundError, System, SAMPLES / "nothing.img")
        self.assertRaises(FileNotFoundError, System, SAMPLES / "bell.img", SAMPLES / "nothing")

    def test_numbers_that_are_out_of_range(self):
        with System(CONTROLLER.with_suffix(".img")) as system:
            for act in (
                lambda: system.write(PROBE, 1024, 0), lambda: system.write(PROBE, -1, 0), lambda: system.write(PROBE, 0, 2**32),
                lambda: system.write(PROBE, 0, -1), lambda: system.write(PROBE + 2, 0, 0), lambda: system.read(2**32, 0),
                lambda: system.read_words(PROBE, 1020, 5), lambda: system.irq(64), lambda: system.irq(-1), lambda: system.step(-1),
                lambda: system.settle(0), lambda: system.irq("a\nstep"), lambda: system.irq(""), lambda: system.write("a b", 0, 0),
                lambda: system.read("#", 0),
            ):
                self.assertRaises(ValueError, act)
            # the run goes on
            self.assertEqual(system.step(), ["8001c400 00001000 plain"])


if __name__ == "__main__":
    unittest.main()
