"""Nothing leaks: what Python keeps, and how much memory the process has, stay the same however often calls are made."""
import gc
import tracemalloc
import unittest

import numpy

import common
import hernganow

REFUSED = list(hernganow.records(common.SAMPLES / "rsr" / "refusal-12", strict=False))[1]
SOME_KB = 64 * 1024
SOME_MB = 8 << 20


def a_round():
    """Every kind of call, accepted and refused."""
    for record in hernganow.records(common.SAMPLES / "good-night"):
        record.fields()
        len(record.data), len(record.secondary)
    lent = numpy.empty(20000, numpy.int32)
    for record in hernganow.records(common.SAMPLES / "rsr" / "tone"):
        record.samples(), record.samples(lent), record.complex()
        hernganow.pack(record.samples(), 8, 1)
    for path in common.streams()[1:]:
        str(common.walked(path)[1]), common.walked(path, strict=False)
    common.refused(hernganow.keys.parts, 2**63)
    for _ in range(200):
        common.refused(lambda: REFUSED.key)
    ledger = hernganow.Ledger(common.SAMPLES / "season" / "june")
    ledger.rows(), ledger.desks(), ledger.missing(2)
    for tape in hernganow.tapes(common.SAMPLES / "tapes" / "good-tape"):
        tape.fields(), tape.words, tape.samples()


class Memory(unittest.TestCase):
    def test_what_python_keeps_stays_the_same(self):
        a_round()
        tracemalloc.start()
        try:
            a_round()
            gc.collect()
            before = tracemalloc.get_traced_memory()[0]
            for _ in range(5):
                a_round()
            gc.collect()
            self.assertLess(tracemalloc.get_traced_memory()[0] - before, SOME_KB)
        finally:
            tracemalloc.stop()

    def test_the_resident_size_stays_the_same(self):
        for _ in range(10):
            a_round()
        before = common.resident()
        for _ in range(40):
            a_round()
        self.assertLess(common.resident() - before, SOME_MB)

    def test_a_map_is_given_back(self):
        def maps():
            with open("/proc/self/maps") as file:
                return sum("good-night" in line for line in file)

        record = next(hernganow.records(common.SAMPLES / "good-night"))
        self.assertEqual(maps(), 1)
        del record
        gc.collect()
        self.assertEqual(maps(), 0)

    def test_a_stream_is_mapped_and_not_read(self):
        tracemalloc.start()
        try:
            for record in hernganow.records(common.SAMPLES / "good-night"):
                pass
            self.assertLess(tracemalloc.get_traced_memory()[1], (common.SAMPLES / "good-night").stat().st_size)
        finally:
            tracemalloc.stop()
