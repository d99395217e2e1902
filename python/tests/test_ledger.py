"""Ledgers: rows, reports, missing numbers and desks of plain sheets and of the ledger program's files are the reference's."""
import hashlib
import os
import pathlib
import sqlite3
import subprocess
import tempfile
import unittest

import common
import hernganow

PROGRAM = os.environ.get("HERNGANOW_LEDGER", str(common.ROOT / "target" / "c" / "hernganow-ledger"))


def told(ledger):
    """What the reference's lines say of a ledger, asked of the package; without the crc of the sheet."""
    lines = []
    rows = {row.row: row for row in ledger.rows()}
    for at in range(33):
        if at not in rows:
            lines += [["25"]] * 3
            assert common.refused(ledger.row, at).number == common.refused(ledger.missing, at).number == 25
            continue
        row, missing = rows[at], ledger.missing(at)
        padded = missing.astype(">u4").tobytes() + common.LIST_FILL.to_bytes(4, "big") * (1100 - len(missing))
        lines.append(["0", str(row.key), str(row.first)])
        lines.append(["0", str(row.report.ticked), str(row.report.missing), common.word(row.report.lowest)])
        lines.append(["0", str(len(missing)), str(common.crc(padded))])
        assert ledger.find(row.key) == at and ledger.row(at) == row and ledger.report(at) == row.report
    for desk in ledger.desks():
        open_at = [str(desk.row), str(desk.ticks), str(desk.unticks), str(int(desk.stale or 0))]
        lines.append(["0", *(["none"] if desk.row is None else open_at)])
    gap = ledger.first_gap()
    lines.append(["0", *(["none"] if gap is None else [str(gap.number), str(gap.row)])])
    return lines


def expected(sheet):
    frames = [common.frame(common.LOAD, sheet)]
    for at in range(33):
        frames += [common.frame(common.ROW, x=at), common.frame(common.ROW_REPORT, x=at), common.frame(common.MISSING, x=at, z=1100)]
    frames += [common.frame(common.DESK, x=desk) for desk in range(8)] + [common.frame(common.FIRST_GAP)]
    found = [line[:-1] for line in common.lines(frames)[1:]]
    return [line[:1] if line[0] == "25" else line for line in found]


class Sheets(unittest.TestCase):
    def test_plain_sheets(self):
        samples = common.SAMPLES
        for path in (samples / "sheets" / "new-night", samples / "sheets" / "two-spacecraft", samples / "season" / "april", samples / "season" / "june"):
            ledger = hernganow.Ledger(path)
            self.assertEqual(ledger.sheet, path.read_bytes())
            self.assertEqual(told(ledger), expected(path.read_bytes()), path)

    def test_a_sheet_of_the_old_layout_is_converted(self):
        self.assertEqual(hernganow.Ledger(common.SAMPLES / "sheets" / "old-night").sheet, (common.SAMPLES / "sheets" / "new-night").read_bytes())
        self.assertEqual(len(hernganow.Ledger(common.SAMPLES / "season" / "may").rows()), 3)

    def test_what_is_no_sheet_is_refused(self):
        for path in sorted((common.SAMPLES / "refusal-20").iterdir()):
            self.assertEqual(common.refused(hernganow.Ledger, path).number, 20, path)
        with tempfile.TemporaryDirectory() as folder:
            for content in (b"", b"x", (common.SAMPLES / "sheets" / "new-night").read_bytes() + b"x"):
                path = pathlib.Path(folder, "sheet")
                path.write_bytes(content)
                self.assertEqual(common.refused(hernganow.Ledger, path).number, 20)
        with self.assertRaises(FileNotFoundError):
            hernganow.Ledger("there/is/no/such/file")

    def test_rows_and_desks_that_are_not_there(self):
        ledger = hernganow.Ledger(common.SAMPLES / "season" / "june")
        for call in (ledger.row, ledger.report, ledger.missing):
            self.assertEqual(common.refused(call, 1).number, 25)
            self.assertRaises(OverflowError, call, -1)
            self.assertRaises(OverflowError, call, 2**32)
        self.assertEqual(common.refused(ledger.find, 5).number, 25)
        self.assertEqual(common.refused(ledger.find, 2**63).number, 22)


class Files(unittest.TestCase):
    """Files of the ledger program."""

    def setUp(self):
        self.folder = tempfile.TemporaryDirectory()
        self.path = pathlib.Path(self.folder.name, "night")

    def tearDown(self):
        self.folder.cleanup()

    def ledger(self, *words):
        subprocess.run([PROGRAM, self.path, *words], check=True, stdout=subprocess.DEVNULL, cwd=common.ROOT)

    def filled(self):
        self.ledger("new")
        self.ledger("enrol", "telemetry", "177", "43", "2", "2", "1")
        self.ledger("enrol", "rsr", "177", "43", "1", "1", "65000")
        self.ledger("mark", "0", "0", "+1-48", "52-54", "60")
        self.ledger("mark", "3", "1", "+65000-65100", "3")
        self.ledger("open", "5", "1")
        self.ledger("tick", "5", "65200-65210")

    def test_a_ledger_of_the_program(self):
        self.filled()
        exported = pathlib.Path(self.folder.name, "sheet")
        self.ledger("export", str(exported))
        ledger = hernganow.Ledger(self.path)
        self.assertEqual(ledger.sheet, exported.read_bytes())
        self.assertEqual(told(ledger), expected(exported.read_bytes()))
        self.assertEqual(ledger.missing(0).tolist(), [49, 50, 51, 55, 56, 57, 58, 59])
        self.assertEqual([(desk.desk, desk.row, desk.ticks) for desk in ledger.desks() if desk.row is not None], [(5, 1, 11)])

    def content(self):
        """All that stands in the file and in its tables."""
        base = sqlite3.connect(self.path)
        tables = base.execute("SELECT * FROM ledger").fetchall(), base.execute("SELECT * FROM log").fetchall()
        base.close()
        return tables, hashlib.sha256(self.path.read_bytes()).digest()

    def test_nothing_is_written(self):
        self.filled()
        before = self.content()
        ledger = hernganow.Ledger(self.path)
        ledger.rows(), ledger.desks(), ledger.missing(0)
        self.assertEqual(self.content(), before)

    def test_a_ledger_is_read_while_another_writes(self):
        self.filled()
        writer = sqlite3.connect(self.path, isolation_level=None)
        writer.execute("BEGIN IMMEDIATE")
        writer.execute("UPDATE ledger SET visits = visits + 1")
        before = hernganow.Ledger(self.path)
        writer.execute("COMMIT")
        self.assertEqual(before.sheet, hernganow.Ledger(self.path).sheet)
        writer.close()

    def test_what_is_committed_but_not_yet_in_the_file_is_read(self):
        self.filled()
        holder = sqlite3.connect(self.path)  # keeps the log beside the file from being folded in
        holder.execute("SELECT visits FROM ledger").fetchone()
        self.ledger("mark", "1", "0", "+49-51")
        self.assertEqual(hernganow.Ledger(self.path).missing(0).tolist(), [55, 56, 57, 58, 59])
        holder.close()

    def test_other_databases(self):
        other = sqlite3.connect(self.path)
        other.execute("CREATE TABLE ledger (sheet BLOB)")
        other.commit()
        other.close()
        with self.assertRaisesRegex(ValueError, "another program's database"):
            hernganow.Ledger(self.path)
        self.path.write_bytes(b"SQLite format 3\0" + bytes(84))
        with self.assertRaises((OSError, ValueError)):
            hernganow.Ledger(self.path)

    def test_a_sheet_that_is_damaged_in_the_database_is_refused(self):
        self.filled()
        base = sqlite3.connect(self.path)
        base.execute("UPDATE ledger SET sheet = zeroblob(6968)")
        base.commit()
        base.close()
        self.assertEqual(common.refused(hernganow.Ledger, self.path).number, 20)
