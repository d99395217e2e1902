"""10,000 random and damaged streams: the walk, every field, samples and refusals are the reference's."""
import random
import unittest

import numpy

import common
import hernganow

STREAMS = 10_000
LIST = 64
# The bytes of a record that decide whether it is one: label, blocks, and what is judged of the headers.
TELEMETRY_BYTES = [*range(0, 36), *range(116, 120), 32 + 6, 32 + 22, 32 + 25, 32 + 26, 32 + 28]
RSR_BYTES = [*range(0, 36), *range(256, 260), *range(32 + 18, 32 + 32), 32 + 36, 32 + 38, 32 + 39]


def sample_records():
    """Records of the samples, the long ones cut to a few samples."""
    found = []
    for name in ("good-night", "rsr/tone", "rsr/refusal-12", "lessons/bit-8"):
        stream = (common.SAMPLES / name).read_bytes()
        found += [stream[r.place : r.place + r.length] for r in hernganow.records(stream, strict=False)]
    return [with_data(record, record[260:292]) if record[8:12] == b"C997" else record for record in found]


def with_data(record, data):
    head = bytearray(record[:260])
    head[12:20] = (240 + len(data)).to_bytes(8, "big")
    head[258:260] = len(data).to_bytes(2, "big")
    return bytes(head) + data


def damaged(rng, record):
    """A record with a byte or two changed, most where it is judged."""
    out = bytearray(record)
    judged = RSR_BYTES if record[8:12] == b"C997" else TELEMETRY_BYTES
    for _ in range(rng.choice((1, 1, 2))):
        at = rng.choice(judged) if rng.random() < 0.9 else rng.randrange(len(out))
        out[at] = rng.choice((rng.randrange(256), out[at] ^ 1 << rng.randrange(8), 0, ord("K"), 4))
    return bytes(out)


def stream(rng, pool):
    records = [rng.choice(pool) for _ in range(rng.randrange(0, 7))]
    records = [damaged(rng, record) if rng.random() < 0.25 else record for record in records]
    made = b"".join(records)
    if rng.random() < 0.2:
        made = made[: rng.randrange(len(made) + 1)]
    if rng.random() < 0.1:
        made += rng.randbytes(rng.randrange(60))
    if rng.random() < 0.02:
        made = rng.randbytes(rng.randrange(300))
    return made


class Streams(unittest.TestCase):
    @classmethod
    def setUpClass(cls):
        rng = random.Random(20261117)
        pool = sample_records()
        cls.streams = [stream(rng, pool) for _ in range(STREAMS)]
        frame = common.frame
        listed = common.lines([frame(9, made, x=LIST, y=LIST, z=LIST, w=LIST) for made in cls.streams])
        cls.stops = [line[:4] for line in listed]
        cls.lists = [list(zip(*(map(int, line[4 + LIST * i : 4 + LIST * i + int(line[0])]) for i in range(4)))) for line in listed]
        cut = [(made[place : place + length], kind) for made, records in zip(cls.streams, cls.lists) for place, length, kind, _ in records]
        cls.headers = iter(common.lines([frame(common.READ_HEADERS, record, x=kind) for record, kind in cut]))
        cls.unpacked = iter(common.lines([frame(common.UNPACK, record, z=300) for record, kind in cut if kind == 2]))
        cls.met = {"stops": set(), "headers": set(), "samples": set()}

    def test_every_stream_as_the_reference_reads_it(self):
        for made, stop, records in zip(self.streams, self.stops, self.lists):
            self.compare(made, stop, records)
        self.assertGreaterEqual(self.met["stops"], {str(n) for n in range(12)})
        self.assertGreaterEqual(self.met["headers"], {"0", "12"})
        self.assertGreaterEqual(self.met["samples"], {"0", "12", "19"})

    def compare(self, made, stop, records):
        found, why = common.walked(made, strict=False)
        self.assertEqual([(r.place, r.length, common.KINDS[r.kind], r.number) for r in found], records)
        end = sum(record.length for record in found)
        self.assertEqual([str(len(found)), str(why.place), str(why.number), str(why.second)] if why else [str(len(found)), str(end), "0", "0"], stop)
        self.met["stops"].add(stop[2])
        first_refused = None
        for record in found:
            line = next(self.headers)
            self.met["headers"].add(line[0])
            if record.refused is None:
                self.assertEqual(common.header_words(record), line)
            else:
                self.assertEqual([str(record.refused.number), str(record.refused.second - record.place)], line)
                first_refused = first_refused or record
            if record.kind == "rsr":
                self.compare_samples(record, next(self.unpacked))
        self.compare_strict(made, found, why, first_refused)

    def compare_samples(self, record, line):
        self.met["samples"].add(line[0])
        lent = numpy.full(300, common.LIST_FILL, numpy.int32)
        try:
            told = ["0", str(record.samples(lent).size)]
        except hernganow.Refused as why:
            told = [str(why.number)] + ([str(why.second - record.place)] if why.number == 12 else [])
        self.assertEqual([*told, str(common.crc(lent.astype(">i4").tobytes()))], line)

    def compare_strict(self, made, found, why, first_refused):
        """The strict walk is the same up to the first record with a field out of range, and stops there."""
        strict, strict_why = common.walked(made)
        expected = found if first_refused is None else found[: found.index(first_refused)]
        self.assertEqual([r.place for r in strict], [r.place for r in expected])
        expected_why = why if first_refused is None else first_refused.refused
        self.assertEqual(strict_why and strict_why.args, expected_why and expected_why.args)

    def test_a_stream_longer_than_one_list(self):
        pool = sample_records()
        rng = random.Random(5)
        made = b"".join(rng.choice(pool) for _ in range(6000)) + b"NJPL"
        count, place, number, second = common.lines([common.frame(common.WALK, made[:131072])])[0]
        found, why = common.walked(made[:131072], strict=False)
        self.assertEqual([str(len(found)), str(why.place), str(why.number), str(why.second)], [count, place, number, second])
        found, why = common.walked(made, strict=False)
        self.assertEqual((len(found), why.place, why.number, why.second), (6000, len(made) - 4, 1, 4))
        self.assertEqual([r.place for r in found], [0, *numpy.cumsum([r.length for r in found])[:-1].tolist()])
        # An offset is counted from the stream's start, however many lists there were.
        wrong = made[:-4] + pool[0][:8] + b"0801" + pool[0][12:]
        found, why = common.walked(wrong, strict=False)
        self.assertEqual((len(found), why.place, why.number, why.second), (6000, len(made) - 4, 4, len(made) - 4 + 8))
