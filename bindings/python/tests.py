"""Tests of the package for Python: the examples in its first lines, what is refused, and that it is the header's.

    NAVBRIDGE_LIBRARY=libnavbridge.so.2 python3 tests.py        in a clone
    python3 tests.py --installed                                of the package that is installed
"""

import copy
import doctest
import io
import os
import pickle
import re
import subprocess
import sys
import threading
import unittest
from pathlib import Path

HERE = Path(__file__).resolve().parent
if "--installed" in sys.argv:
    sys.argv.remove("--installed")
    sys.path = [it for it in sys.path if Path(it or ".").resolve() != HERE]
else:
    sys.path.insert(0, str(HERE))
import navbridge
from navbridge import _values

HEADER = (HERE.parent / "c" / "navbridge.h").read_text()
EXAMPLES = HERE.parent.parent / "examples"
os.chdir(EXAMPLES)
STREAM = (EXAMPLES / "ephemerides.rtcm3").read_bytes()


class Header(unittest.TestCase):
    def test_fields(self):
        """Names, order, types, widths and ranges are those of navbridge.h."""
        for kind, meta in _values._META.items():
            name = "nb_" + re.sub("(?<!^)(?=[A-Z])", "_", kind.__name__).lower()
            text = re.search(r"typedef struct %s \{(.*?)\n\} %s;" % (name, name), HEADER, re.S).group(1)
            rows = re.findall(r"^ +(\w+) (\w+); +/\*\*< (.*?) ?\*/$", text, re.M)
            with self.subTest(name):
                self.assertEqual([row[1] for row in rows], list(meta))
                for c_type, field, comment in rows:
                    it, bits = meta[field], re.search(r": (\d+) bits?$", comment)
                    if "is" not in it:
                        self.assertEqual(c_type, "nb_sent" if "sent" in it else "nb_" + re.sub("(?<!^)(?=[A-Z])", "_", it["of"].__name__).lower())
                        continue
                    self.assertEqual(c_type, {"I": "uint32_t", "i": "int32_t", "Q": "uint64_t"}[it["is"].code], field)
                    if bits and field != "regions":
                        low = -(2 ** (int(bits.group(1)) - 1)) if c_type[0] == "i" else 0
                        self.assertEqual((it["is"].low, it["is"].high), (low, low + 2 ** int(bits.group(1)) - 1), field)
                    scale = re.search(r"2\^(-?\d+)", comment)
                    if scale:
                        self.assertEqual(it["is"].scale, int(scale.group(1)), field)

    def test_sizes(self):
        for kind, size in ((navbridge.Gps, 132), (navbridge.Gal, 140), (navbridge.Ion, 60), (navbridge.Subframe, 160), (navbridge.Word, 152)):
            self.assertEqual(_values._LAYOUT[kind].size, size, kind.__name__)

    def test_reasons(self):
        kept = [line.split(" ", 2) for line in (HERE.parent / "c" / "reasons.txt").read_text().splitlines()]
        self.assertEqual(
            [(str(int(it)), "NB_" + it.name, str(navbridge.Error(it))) for it in navbridge.Status], [tuple(it) for it in kept]
        )
        self.assertEqual((str(navbridge.Error(200)), navbridge.Error(200).status), ("unknown status 200", 200))


class Refused(unittest.TestCase):
    def test_numbers(self):
        gps, gal = navbridge.Gps(), navbridge.Gal()
        for what, error in (
            (lambda: setattr(gal, "satellite", 37), ValueError),
            (lambda: setattr(gps, "satellite", 2**32 + 1), ValueError),
            (lambda: setattr(gps.clock, "af0", -(2**21) - 1), ValueError),
            (lambda: setattr(gal, "satelite", 5), AttributeError),
            (lambda: setattr(gps.a, "m0", 1.0), TypeError),
            (lambda: setattr(gps, "clock", gal.w4), TypeError),
            (lambda: navbridge.Gps(satellite="7"), TypeError),
            (lambda: navbridge.GpsIon().orbit(), AttributeError),
            (lambda: navbridge.message_write(7), TypeError),
            (lambda: navbridge.message_write(navbridge.Ion(satellite=1)), ValueError),
            (lambda: navbridge.message_read(b"", -1), ValueError),
            (lambda: navbridge.message_read("text", 2295), TypeError),
            (lambda: navbridge.page_write(navbridge.Word(number=1), 1), ValueError),
            (lambda: navbridge.page_write(navbridge.Subframe(number=1), 1), TypeError),
            (lambda: navbridge.subframe_read(bytes(37), 1), ValueError),
            (lambda: navbridge.convert("--from=stream", b""), TypeError),
            (lambda: navbridge.convert([b"--from=stream"], b""), TypeError),
            (lambda: navbridge.frame_make(bytes(1024)), ValueError),
            (lambda: list(navbridge.frames(io.StringIO("text"))), TypeError),
            (lambda: navbridge.Deframer().feed(memoryview(STREAM)[::2]), TypeError),
        ):
            with self.assertRaises(error):
                what()

    def test_copies(self):
        for it in (navbridge.Deframer(), navbridge.Pages(), navbridge.Push(["--from=capture", "--to=list"])):
            for way in (copy.copy, copy.deepcopy, pickle.dumps):
                with self.assertRaises(TypeError):
                    way(it)
        gal = navbridge.Gal(satellite=7)
        self.assertEqual(pickle.loads(pickle.dumps(copy.deepcopy(gal))), gal)

    def test_reasons(self):
        for what, name in (
            (lambda: navbridge.convert(["--from=nothing"]), "NO_JOB"),
            (lambda: navbridge.convert(["--from=capture", "--to=list"], b"no capture\n"), "NOT_THIS_FORM"),
            (lambda: navbridge.Push(["--from=rinex", "--to=list"]), "NOT_PUSHED"),
            (lambda: navbridge.message_read(STREAM[3:20], 2295), "SHORT"),
            (lambda: navbridge.message_read(STREAM[3:66], 0), "NO_WEEK"),
            (lambda: navbridge.record_read("> EPH G01 LNAV\n"), "RECORD_SHORT"),
            (lambda: navbridge.Pages().take(bytes(15), 0, 37), "NO_SATELLITE"),
        ):
            with self.assertRaises(navbridge.Error) as caught:
                what()
            self.assertEqual(caught.exception.status, navbridge.Status[name])
        push = navbridge.Push(["--from=capture", "--to=list"])
        push.close()
        with self.assertRaises(navbridge.Error) as caught:
            push.push(b"")
        self.assertEqual(caught.exception.status, navbridge.Status.CLOSED)


class Streams(unittest.TestCase):
    def test_pieces(self):
        """Of bytes, bytearray, memoryview and files, in pieces of any size, the same frames."""
        want = list(navbridge.frames(io.BytesIO(STREAM)))
        self.assertEqual(b"".join(want), STREAM)
        for kind in (bytes, bytearray, memoryview):
            deframer = navbridge.Deframer()
            got = [frame for at in range(0, len(STREAM), 7) for frame in deframer.feed(kind(STREAM[at : at + 7]))] + deframer.finish()
            self.assertEqual(got, want)
        with open(EXAMPLES / "ephemerides.rtcm3", "rb", buffering=0) as file:
            self.assertEqual(list(navbridge.frames(file)), want)

    def test_threads(self):
        """Four threads feed one deframer: each waits for the other, and all frames are found."""
        deframer, found = navbridge.Deframer(), []
        threads = [threading.Thread(target=lambda: [found.extend(deframer.feed(STREAM)) for _ in range(200)]) for _ in range(4)]
        for thread in threads:
            thread.start()
        for thread in threads:
            thread.join()
        self.assertEqual(len(found), 4 * 200 * len(list(navbridge.frames(io.BytesIO(STREAM)))))

    def test_memory(self):
        """A conversion takes the memory of its input once more at most."""
        text = (
            "import resource, sys; sys.path.insert(0, sys.argv[1]); import navbridge\n"
            "data = bytes(64 << 20)\n"
            "before = resource.getrusage(resource.RUSAGE_SELF).ru_maxrss\n"
            "navbridge.convert(['--from=stream', '--to=frames'], data)\n"
            "print((resource.getrusage(resource.RUSAGE_SELF).ru_maxrss - before) >> 10)\n"
        )
        place = str(Path(navbridge.__file__).parent.parent)
        taken = int(subprocess.run([sys.executable, "-c", text, place], capture_output=True, text=True, check=True).stdout)
        self.assertLess(taken, 64)

    def test_array(self):
        try:
            import numpy
        except ImportError:
            self.skipTest("numpy is not there")
        all = [it for it in navbridge.ephemerides(io.BytesIO(STREAM), 2295) if isinstance(it, navbridge.Gal)]
        raw, si = navbridge.array(all), navbridge.array([it.orbit() for it in all])
        self.assertEqual(raw["satellite"].tolist(), [it.satellite for it in all])
        self.assertTrue(numpy.array_equal(raw["w1"]["e"] * 2.0**-33, si["e"]))
        with self.assertRaises(TypeError):
            navbridge.array([])


def load_tests(loader, tests, pattern):
    tests.addTests(doctest.DocTestSuite(navbridge))
    return tests


if __name__ == "__main__":
    unittest.main()
