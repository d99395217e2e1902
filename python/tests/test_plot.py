"""The picture of a receiver's stream: its files, its numbers, and what is said where it cannot be drawn."""
import os
import pathlib
import subprocess
import sys
import tempfile
import unittest

import numpy

import common
from hernganow import _plot

TONE = common.SAMPLES / "rsr" / "tone"


def run(*words, cwd=None, without_matplotlib=False):
    hide = "import sys; sys.modules['matplotlib'] = None; " if without_matplotlib else ""
    code = f"{hide}import runpy; runpy.run_module('hernganow', run_name='__main__', alter_sys=True)"
    code = code.replace("import runpy", "import sys, runpy; sys.argv[0] = 'hernganow'")
    named = {**os.environ, "PYTHONPATH": str(common.ROOT / "python")}
    return subprocess.run([sys.executable, "-c", code, *map(str, words)], env=named, capture_output=True, text=True, cwd=cwd)


class Pictures(unittest.TestCase):
    def setUp(self):
        self.folder = tempfile.TemporaryDirectory()
        self.out = pathlib.Path(self.folder.name)

    def tearDown(self):
        self.folder.cleanup()

    def test_png_and_svg(self):
        for name, begin in (("a.png", b"\x89PNG"), ("a.svg", b"<?xml")):
            done = run("plot", TONE, "-o", self.out / name, "--rate", 1)
            self.assertEqual((done.returncode, done.stderr), (0, ""))
            self.assertTrue((self.out / name).read_bytes().startswith(begin))

    def test_the_name_of_a_picture(self):
        self.assertEqual(run("plot", TONE, cwd=self.out).returncode, 0)
        self.assertEqual([path.name for path in self.out.iterdir()], ["tone.png"])

    def test_a_refused_record_ends_the_picture(self):
        done = run("plot", common.SAMPLES / "rsr" / "refusal-19", "-o", self.out / "a.png")
        self.assertEqual(done.returncode, 1)
        self.assertIn("stopped at byte 2260: 19 0 ", done.stderr)
        self.assertTrue((self.out / "a.png").exists())

    def test_nothing_to_draw(self):
        for words, said in (
            ((common.SAMPLES / "lessons" / "bit-8",), "no samples of a receiver"),
            ((TONE, "--key", 5), "no samples of a receiver with the key 5"),
            ((self.out / "none",), "No such file"),
        ):
            done = run("plot", *words, "-o", self.out / "a.png")
            self.assertEqual(done.returncode, 2)
            self.assertIn(said, done.stderr)
            self.assertNotIn("Traceback", done.stderr)
        done = run("plot", TONE, "-o", self.out / "a.txt~")
        self.assertEqual((done.returncode, "Traceback" in done.stderr), (2, False))

    def test_without_matplotlib_it_says_so(self):
        done = run("plot", TONE, "-o", self.out / "a.png", without_matplotlib=True)
        self.assertEqual(done.returncode, 2)
        self.assertIn("needs matplotlib", done.stderr)
        self.assertNotIn("Traceback", done.stderr)


class Spectra(unittest.TestCase):
    def test_a_tone_stands_where_it_is(self):
        spectra = _plot.Spectra(128)
        spectra.add(numpy.exp(2j * numpy.pi * numpy.arange(5000) * 16 / 128).astype(numpy.complex64))
        picture = spectra.decibels()
        self.assertEqual(set(picture.argmax(axis=0).tolist()), {64 + 16})

    def test_how_long_a_spectrum_is(self):
        self.assertEqual([_plot.window_of(count) for count in (0, 511, 512, 1000, 25000)], [64, 64, 128, 128, 1024])

    def test_a_long_stream_has_few_columns(self):
        spectra = _plot.Spectra(128)
        for _ in range(40):
            spectra.add(numpy.ones(100 * 128, numpy.complex64))
        self.assertLess(len(spectra.columns), 2 * _plot.COLUMNS)
        self.assertEqual(spectra.each, 4)
