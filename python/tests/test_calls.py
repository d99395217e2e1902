"""Dates and keys against the reference, the declarations against the header, and the library's look-up."""
import os
import random
import shutil
import subprocess
import sys
import tempfile
import unittest

import common
import hernganow
from hernganow import _declared, _library, dates, keys


class Dates(unittest.TestCase):
    def test_dates(self):
        counts = [0, 1, 364, 365, 21184, 402131, 402132, 2**32 - 1, *random.Random(1).sample(range(402132), 500)]
        for count, line in zip(counts, common.lines([common.frame(common.DATE, x=count) for count in counts])):
            try:
                found = dates.date(count)
            except hernganow.Refused as why:
                self.assertEqual([str(why.number)], line)
                continue
            self.assertEqual(["0", str(found.year), str(found.day)], line)
            self.assertEqual(dates.day_count(*found), count)
        for year, day in ((1899, 1), (3001, 1), (1900, 0), (1900, 366), (2000, 367)):
            self.assertIsNone(dates.day_count(year, day))

    def test_numbers_too_wide(self):
        for call in (lambda: dates.date(2**32), lambda: dates.date(-1), lambda: dates.day_count(2**16 + 1958, 1)):
            self.assertRaises(OverflowError, call)
        for wrong in ("1", None, 1.5):
            self.assertRaises(Exception, dates.date, wrong)


class Keys(unittest.TestCase):
    def test_keys(self):
        rng = random.Random(2)
        wide = [tuple(rng.choice((rng.randrange(256), rng.randrange(1100), 65535, 65536)) for _ in range(4)) for _ in range(400)]
        for op, call, parts in ((common.TELEMETRY_KEY, keys.telemetry_key, keys.TelemetryParts), (common.RSR_KEY, keys.rsr_key, keys.RsrParts)):
            for four, line in zip(wide, common.lines([common.frame(op, x=x, y=y, z=z, w=w) for x, y, z, w in wide])):
                try:
                    key = call(*four)
                except hernganow.Refused as why:
                    self.assertEqual([str(why.number)], line)
                    continue
                self.assertEqual(["0", str(key)], line)
                self.assertEqual(keys.parts(key), parts(*four))
                self.assertIs(type(keys.parts(key)), parts)

    def test_parts(self):
        rng = random.Random(3)
        tried = [2**42 + 2**32, 2**42 + 2**32 - 1, 2**42, 2**42 - 1, 0, 2**64 - 1, *(rng.randrange(2**43) for _ in range(300))]
        for key, line in zip(tried, common.lines([common.frame(common.PARTS, key=key) for key in tried])):
            try:
                found = keys.parts(key)
            except hernganow.Refused as why:
                self.assertEqual([str(why.number)], line)
                self.assertFalse(keys.valid(key))
                continue
            kind = 1 if isinstance(found, keys.TelemetryParts) else 2
            self.assertEqual(["0", str(kind), *map(str, found)], line)
            self.assertTrue(keys.valid(key))

    def test_numbers_too_wide(self):
        self.assertRaises(OverflowError, keys.parts, 2**64)
        self.assertRaises(OverflowError, keys.telemetry_key, 2**32 + 177, 43, 2, 1)


class Declared(unittest.TestCase):
    def test_the_header_says_the_same(self):
        subprocess.run([common.ROOT / "python" / "declare", "--check"], check=True)

    def test_an_answer_of_another_length_is_38(self):
        # The calls are made with the right types: each with no bytes and zeros gets to the answer's slice, the last two arguments.
        for name, kinds in _declared.CALLS.items():
            self.assertEqual(_library.CALLS[name](*(0 for _ in kinds), 0, 0), 38, name)


class LookedFor(unittest.TestCase):
    def import_with(self, **environment):
        named = {**os.environ, "PYTHONPATH": str(common.ROOT / "python"), **environment}
        said = "import hernganow; print(hernganow.dates.date(0).year)"
        return subprocess.run([sys.executable, "-c", said], env=named, capture_output=True, text=True)

    def test_the_usual_look_up(self):
        with tempfile.TemporaryDirectory() as folder:
            shutil.copy(os.environ["HERNGANOW_LIBRARY"], os.path.join(folder, "libhernganow.so.1"))
            run = self.import_with(HERNGANOW_LIBRARY="", LD_LIBRARY_PATH=folder)
        self.assertEqual((run.returncode, run.stdout), (0, "1900\n"), run.stderr)

    def test_a_library_that_is_not_there_is_told_in_words(self):
        run = self.import_with(HERNGANOW_LIBRARY="/there/is/no/library")
        self.assertEqual(run.returncode, 1)
        self.assertIn("ImportError: hernganow needs its C library", run.stderr)

    def test_another_library_is_told_in_words(self):
        run = self.import_with(HERNGANOW_LIBRARY="libc.so.6")
        self.assertEqual(run.returncode, 1)
        self.assertIn("the C library has no call hernganow_", run.stderr)
