"""Tapes of medium band records: every field and word, samples and refusals are the reference's."""
import random
import unittest

import numpy

import common
import hernganow

RECORD = 5056


def taken(source):
    found = []
    try:
        for record in hernganow.tapes(source):
            found.append(record)
    except hernganow.Refused as why:
        return found, why
    return found, None


def tape_words(record):
    """What the reference's line says of a tape's record."""
    fields = [] if record.day is None else [common.word(getattr(record, name)) for name in common.TAPE_LINE]
    return ["0", *map(str, record.words.tolist()), *fields, str(common.crc(record.samples()))]


class Tapes(unittest.TestCase):
    def test_every_sample_tape(self):
        for path in sorted((common.SAMPLES / "tapes").iterdir()):
            found, why = taken(path)
            tape = path.read_bytes()
            frames = [common.frame(common.READ_TAPE, tape[r.place : r.place + RECORD]) for r in found]
            self.assertEqual([tape_words(record) for record in found], common.lines(frames) if frames else [], path)
            last = common.reference("tapes", path).decode().splitlines()[-1].split()
            self.assertEqual([str(why.place if why else len(tape)), str(why.number if why else 0)], last[:2], path)

    def test_damaged_records_against_the_reference(self):
        rng = random.Random(7)
        good = (common.SAMPLES / "tapes" / "good-tape").read_bytes()[:RECORD]
        made = []
        for _ in range(1500):
            record = bytearray(good)
            for _ in range(rng.choice((1, 2))):
                record[rng.randrange(56)] = rng.choice((rng.randrange(256), 0, 9, 0x99))
            made.append(bytes(record[: rng.choice((RECORD, RECORD, RECORD, RECORD - 1))]))
        met = set()
        for record, line in zip(made, common.lines([common.frame(common.READ_TAPE, record) for record in made])):
            found, why = taken(record)
            met.add(line[0])
            self.assertEqual(tape_words(found[0]) if found else [str(why.number)], line)
        self.assertEqual(met, {"0", "50", "51", "52", "53", "54"})

    def test_samples_are_a_view(self):
        tape = (common.SAMPLES / "tapes" / "good-tape").read_bytes()
        record = next(hernganow.tapes(tape))
        self.assertEqual((record.samples().dtype, record.samples().shape), (numpy.dtype("uint8"), (5000,)))
        self.assertTrue(numpy.shares_memory(record.samples(), numpy.frombuffer(tape, numpy.uint8)))
        self.assertFalse(record.samples().flags.writeable)

    def test_fields_by_name(self):
        first, second = [record for record in hernganow.tapes(common.SAMPLES / "tapes" / "good-tape")][:2]
        self.assertEqual(set(first.fields()), {*common.TAPE_LINE, "tape_type"})
        self.assertEqual(set(second.fields().values()), {None})
        self.assertIs(type(first.overflow), bool)

    def test_nothing(self):
        self.assertEqual(list(hernganow.tapes(b"")), [])
