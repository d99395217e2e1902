"""Samples of a receiver: the reference's text and numbers; packing back; lent arrays."""
import random
import unittest

import numpy

import common
import hernganow
from hernganow import _streams

SIZES = {1: (250, 16000), 2: (250, 8000), 4: (250, 2000), 8: (1, 1000), 16: (1, 100)}


def record_of(data, size, rate):
    """The first record of the tone with other data, size and rate."""
    record = bytearray((common.SAMPLES / "rsr" / "tone").read_bytes()[:260])
    record[12:20] = (240 + len(data)).to_bytes(8, "big")
    record[258:260] = len(data).to_bytes(2, "big")
    record[32 + 36] = size
    record[32 + 38 : 32 + 40] = rate.to_bytes(2, "big")
    return bytes(record) + data


class Unpacked(unittest.TestCase):
    def test_samples_are_the_reference_s_text(self):
        for path in sorted((common.SAMPLES / "rsr").iterdir()):
            told = []
            try:
                for record in hernganow.records(path):
                    told += [f"{i} {q}" for i, q in record_of_any(record).tolist()]
            except hernganow.Refused:
                pass
            self.assertEqual(told, common.reference("samples", path).decode().splitlines(), path)
            self.assertTrue(told)

    def test_every_size_against_the_reference(self):
        rng = random.Random(41)
        cases = [(size, rate, rng.randbytes(4 * rng.randrange(0, 60))) for size in SIZES for rate in SIZES[size] for _ in range(20)]
        cases += [(rng.choice((0, 3, 5, 8, 16, 255)), rng.randrange(0, 20000), rng.randbytes(8)) for _ in range(50)]
        cases += [(size, SIZES[size][0], rng.randbytes(4 * 9 + more)) for size in SIZES for more in (1, 2, 3)]
        made = [record_of(data, size, rate) for size, rate, data in cases]
        lines = common.lines([common.frame(common.UNPACK, record, z=4000) for record in made])
        accepted = 0
        for (size, rate, data), stream, line in zip(cases, made, lines):
            record = next(hernganow.records(stream))
            try:
                found = record.samples()
            except hernganow.Refused as why:
                self.assertEqual(str(why.number), line[0])
                self.assertEqual((why.place, why.second), (0, 0))
                continue
            accepted += 1
            self.assertEqual((found.dtype, found.shape), (numpy.dtype("int32"), (int(line[1]) // 2, 2)))
            whole = numpy.full(4000, common.LIST_FILL, numpy.int32)
            whole[: found.size] = found.reshape(-1)
            self.assertEqual(["0", str(found.size), str(common.crc(whole.astype(">i4").tobytes()))], line)
            self.assertEqual(hernganow.pack(found, size, rate), data)
            self.assertEqual(record.complex().tolist(), [complex(i, q) for i, q in found.tolist()])
        self.assertGreater(accepted, 150)

    def test_into_a_lent_array(self):
        record = next(hernganow.records(common.SAMPLES / "rsr" / "tone"))
        expected = record.samples()
        lent = numpy.full(2010, 7, numpy.int32)
        found = record.samples(lent)
        self.assertTrue(numpy.shares_memory(found, lent))
        self.assertTrue(numpy.array_equal(found, expected))
        self.assertEqual(lent[2000:].tolist(), [7] * 10)
        self.assertTrue(numpy.array_equal(record.samples(numpy.zeros((1000, 2), numpy.int32)), expected))
        short = numpy.full(1999, 7, numpy.int32)
        self.assertEqual(common.refused(record.samples, short).number, 35)
        self.assertEqual(set(short.tolist()), {7})

    def test_arrays_that_cannot_be_lent(self):
        record = next(hernganow.records(common.SAMPLES / "rsr" / "tone"))
        fixed = numpy.zeros(9000, numpy.int32)
        fixed.flags.writeable = False
        for wrong in (numpy.zeros(9000, numpy.int64), numpy.zeros(9000, ">i4"), [0] * 9000, numpy.zeros(9000)):
            with self.assertRaises(TypeError):
                record.samples(wrong)
        unaligned = numpy.zeros(36001, numpy.uint8)[1:].view(numpy.int32)
        for wrong in (numpy.zeros(18000, numpy.int32)[::2], fixed, numpy.zeros((2, 9000), numpy.int32).T, unaligned):
            with self.assertRaises((TypeError, ValueError)):
                record.samples(wrong)
        both = numpy.zeros(40000, numpy.uint8)
        tone = (common.SAMPLES / "rsr" / "tone").read_bytes()
        both[: len(tone)] = numpy.frombuffer(tone, numpy.uint8)
        with self.assertRaises(ValueError):
            next(hernganow.records(both)).samples(both.view(numpy.int32))

    def test_a_telemetry_record_has_no_samples(self):
        record = next(hernganow.records(common.SAMPLES / "good-night"))
        self.assertFalse(hasattr(record, "samples"))


def record_of_any(record):
    """The samples of a record; one of another kind is refused as the program refuses it."""
    if record.kind != "rsr":
        raise hernganow.Refused(15, record.place)
    return record.samples()


class Packed(unittest.TestCase):
    def test_what_is_packed_is_the_reference_s(self):
        rng = random.Random(42)
        cases = []
        for _ in range(400):
            size = rng.choice((1, 2, 4, 8, 16, 3))
            count = rng.choice((0, 2, 4, 8, 16, 32, 64, 128)) + rng.choice((0, 0, 0, 1, 2))
            limit = 1 << size
            numbers = [rng.randrange(-limit + 1, limit, 2) for _ in range(count)]
            if count and rng.random() < 0.2:
                numbers[rng.randrange(count)] = rng.choice((0, 2, limit + 1, -limit - 1, 2**31 - 1, -(2**31)))
            cases.append((size, rng.choice((1, 250, 8000, 100, 3)), numbers))
        frames = [common.frame(common.PACK, numpy.array(n, ">i4").tobytes(), x=size, y=rate, z=1000) for size, rate, n in cases]
        numbers_met = set()
        for (size, rate, samples), line in zip(cases, common.lines(frames)):
            numbers_met.add(line[0])
            try:
                packed = hernganow.pack(numpy.array(samples, numpy.int32), size, rate)
            except hernganow.Refused as why:
                self.assertEqual(str(why.number), line[0])
                continue
            self.assertEqual(["0", str(len(packed))], line[:2])
            whole = packed + bytes([common.SLICE_FILL]) * (1000 - len(packed))
            self.assertEqual(str(common.crc(whole)), line[2])
        self.assertEqual(numbers_met, {"0", "19", "34", "37"})

    def test_numbers_are_not_cut_down(self):
        for wrong in ([2**32 + 1] * 32, [-(2**32) + 1] * 32, numpy.full(32, 2**63 + 1, numpy.uint64)):
            with self.assertRaises(OverflowError):
                hernganow.pack(wrong, 8, 1)
        with self.assertRaises(TypeError):
            hernganow.pack([1.0] * 32, 8, 1)
        with self.assertRaises(OverflowError):
            hernganow.pack([1] * 32, 2**32 + 8, 1)
        self.assertEqual(hernganow.pack(numpy.ones(4, numpy.int64), 8, 1), hernganow.pack([[1, 1], [1, 1]], 8, 1))
        self.assertEqual(_streams.in_32_bits([]).size, 0)
