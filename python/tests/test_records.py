"""Records of the sample streams: every field, part and refusal is the reference's."""
import itertools
import mmap
import pickle
import unittest
from concurrent.futures import ThreadPoolExecutor

import numpy

import common
import hernganow


class Fields(unittest.TestCase):
    def test_every_field_of_every_sample_record(self):
        compared = 0
        for path in common.streams():
            found, _ = common.walked(path, strict=False)
            bytes_of = path.read_bytes()
            frames = [common.frame(common.READ_HEADERS, bytes_of[r.place : r.place + r.length], x=common.KINDS[r.kind]) for r in found]
            for record, line in zip(found, common.lines(frames)):
                if record.refused is None:
                    self.assertEqual(common.header_words(record), line, (path, record))
                    compared += len(line)
                else:
                    self.assertEqual([str(record.refused.number), str(record.refused.second - record.place)], line)
        self.assertGreater(compared, 6000)

    def test_the_listing_of_every_sample_stream(self):
        for path in common.streams():
            found, why = common.walked(path, strict=False)
            listed = [f"{r.place} {r.length} {'T' if r.kind == 'telemetry' else 'R'} {r.number}" for r in found]
            expected = common.reference("list", path).decode().splitlines()[1:]
            end = sum(record.length for record in found)
            stop = f"{why.place} {why.number} {why.second}" if why else f"{end} 0 0"
            if expected[-1].split()[1] == "17":  # the listing program's buffer; the library has none
                self.assertEqual(listed[: len(expected) - 1], expected[:-1], path)
                continue
            self.assertEqual([*listed, stop], expected, path)

    def test_parts_are_those_of_the_stream(self):
        for path in (common.SAMPLES / "good-night", common.SAMPLES / "rsr" / "tone"):
            stream = path.read_bytes()
            found = list(hernganow.records(stream))
            cut = [stream[r.place : r.place + r.length] for r in found]
            frames = [common.frame(op, a) for a in cut for op in (common.SECONDARY_PART, common.DATA_PART)]
            told = [[str(len(part)), str(common.crc(part))] for r in found for part in (r.secondary, r.data)]
            self.assertEqual(told, common.lines(frames))
            base = hernganow._library.address(numpy.frombuffer(stream, numpy.uint8))
            for record in found[:5]:
                at = hernganow._library.address(numpy.frombuffer(record.data, numpy.uint8))
                self.assertEqual(at - base, record.place + record.length - len(record.data))
                self.assertTrue(record.data.readonly)

    def test_fields_by_name(self):
        for record in itertools.islice(hernganow.records(common.SAMPLES / "good-night"), 20):
            fields = record.fields()
            self.assertEqual(list(fields), common.TELEMETRY_LINE if record.kind == "telemetry" else common.RSR_LINE)
            self.assertEqual([fields[name] for name in fields], [getattr(record, name) for name in fields])

    def test_kinds_of_values(self):
        telemetry = next(r for r in hernganow.records(common.SAMPLES / "good-night") if r.kind == 'telemetry')
        receiver = next(r for r in hernganow.records(common.SAMPLES / "good-night") if r.kind == 'rsr')
        self.assertIsInstance(telemetry, hernganow.Telemetry)
        self.assertIsInstance(receiver, hernganow.Receiver)
        self.assertIs(type(telemetry.spacecraft), int)
        self.assertIs(type(receiver.uplink), str)
        self.assertEqual(receiver.date, numpy.datetime64("2008-08-29"))
        self.assertEqual(telemetry.received_stated.astype("datetime64[D]"), numpy.datetime64("2008-08-29"))

    def test_expected_is_signed_and_a_band_may_be_none(self):
        stream = bytearray((common.SAMPLES / "rsr" / "tone").read_bytes())
        stream[32 + 22] = 0xF6
        self.assertEqual(next(hernganow.records(stream)).expected, -10)
        stream = bytearray((common.SAMPLES / "good-night").read_bytes())
        stream[32 + 28] &= 0xFC
        self.assertIsNone(next(hernganow.records(stream)).uplink)


class Refusals(unittest.TestCase):
    def test_a_field_out_of_range(self):
        path = common.SAMPLES / "rsr" / "refusal-12"
        found, why = common.walked(path)
        self.assertEqual(([r.number for r in found], why.number, why.place, why.second), ([0], 12, 2260, 2310))
        found, why = common.walked(path, strict=False)
        self.assertIsNone(why)
        self.assertEqual([(r.place, r.refused and r.refused.number) for r in found], [(0, None), (2260, 12)])
        second = found[1]
        self.assertEqual((second.kind, second.number, second.major, second.format, len(second.data)), ("rsr", 1, 21, 0, 2000))
        for name in ("spacecraft", "uplink", "key", "date", "fields"):
            again = common.refused(lambda: second.fields() if name == "fields" else getattr(second, name))
            self.assertEqual((again.number, again.place, again.second), (12, 2260, 2310))

    def test_the_text_of_a_refusal(self):
        why = common.refused(list, hernganow.records(common.SAMPLES / "refusal-05"))
        self.assertEqual(str(why), f"stopped at byte 2564: 5 2576 {why.words}")
        self.assertEqual(str(hernganow.Refused(22)), f"refused: 22 {hernganow.Refused(22).words}")

    def test_the_words_are_the_reference_s(self):
        lines = [line.split(" : ") for line in common.reference("host", "1", "1").decode().splitlines() if line.startswith("refusal_text ")]
        self.assertGreater(len(lines), 100)
        for call, words in lines:
            self.assertEqual(hernganow.Refused(int(call.split()[1])).words, words)

    def test_what_is_no_stream(self):
        self.assertEqual(list(hernganow.records(b"")), [])
        with self.assertRaises(FileNotFoundError):
            hernganow.records("there/is/no/such/file")
        for wrong in (None, 5, 1.5, ["a"]):
            with self.assertRaises(TypeError):
                hernganow.records(wrong)

    def test_sources(self):
        path = common.SAMPLES / "good-night"
        stream = path.read_bytes()
        expected = [(r.place, r.number) for r in hernganow.records(path)]
        with open(path, "rb") as file, mmap.mmap(file.fileno(), 0, access=mmap.ACCESS_READ) as lent:
            for source in (str(path), stream, bytearray(stream), memoryview(stream), numpy.frombuffer(stream, numpy.uint8), lent):
                found = [(r.place, r.number) for r in hernganow.records(source)]
                self.assertEqual(found, expected)

    def test_records_outlive_the_walk(self):
        first = next(hernganow.records(common.SAMPLES / "good-night"))
        data = first.data
        del first
        self.assertEqual(len(data), 14)
        self.assertEqual(next(hernganow.records(common.SAMPLES / "refusal-05")).data, b"")

    def test_a_refusal_can_be_pickled(self):
        why = common.refused(list, hernganow.records(common.SAMPLES / "refusal-05"))
        again = pickle.loads(pickle.dumps(why))
        self.assertEqual((again.number, again.place, again.second, str(again)), (why.number, why.place, why.second, str(why)))

    def test_threads_do_not_disturb_each_other(self):
        def read(path):
            found, why = common.walked(path, strict=False)
            sums = [record.samples().sum() for record in found if record.kind == "rsr"]
            return [common.header_words(record) for record in found], sums, why and why.args

        paths = [common.SAMPLES / "good-night", common.SAMPLES / "rsr" / "tone", common.SAMPLES / "refusal-09"] * 8
        with ThreadPoolExecutor(8) as pool:
            self.assertEqual(list(pool.map(read, paths)), [read(path) for path in paths])
