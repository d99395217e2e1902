"""What the tests share: the reference's lines, and frames of call scripts (docs/call-script.md)."""
import os
import pathlib
import struct
import subprocess
import zlib

ROOT = pathlib.Path(__file__).resolve().parents[2]
SAMPLES = ROOT / "samples"
REFERENCE = ROOT / "reference" / "target" / "release" / "reference"
READ_ONE, SECONDARY_PART, DATA_PART, READ_HEADERS, TELEMETRY_KEY, RSR_KEY, WALK, PARTS, DATE = 1, 2, 3, 4, 6, 7, 8, 10, 12
UNPACK, PACK, READ_TAPE, LOAD, FIND, ROW_REPORT, FIRST_GAP, CONVERT, ROW, DESK, MISSING = 13, 14, 16, 19, 22, 28, 29, 31, 34, 35, 36
# A kind's number, in scripts and lines.
KINDS = {"telemetry": 1, "rsr": 2}
# What a lent list and a lent slice are filled with, in a script.
LIST_FILL, SLICE_FILL = 7, 165


def frame(op, a=b"", x=0, y=0, z=0, w=0, key=0):
    return struct.pack(">6LQ2L", op, x, y, z, w, 0, key, len(a), 0) + bytes(a)


def reference(*words, given=b""):
    """What the reference writes."""
    return subprocess.run([REFERENCE, *words], input=given, stdout=subprocess.PIPE, stderr=subprocess.DEVNULL).stdout


def lines(frames):
    """The reference's line for each frame, as a list of words."""
    found = [line.split() for line in reference("script", given=b"".join(frames)).decode().splitlines()]
    assert len(found) == len(frames), (len(found), len(frames))
    return found


def crc(data):
    return zlib.crc32(data)


def refused(call, *arguments, **named):
    """The Refused that a call raises."""
    import hernganow

    try:
        call(*arguments, **named)
    except hernganow.Refused as why:
        return why
    raise AssertionError(f"{call} was not refused")


def walked(source, strict=True):
    """The records of a stream, and the Refused at its end or None."""
    import hernganow

    found = []
    try:
        for record in hernganow.records(source, strict):
            found.append(record)
    except hernganow.Refused as why:
        return found, why
    return found, None


def streams():
    """The sample streams of records."""
    refusals = (path for path in SAMPLES.glob("refusal-??") if path.is_file())
    return [SAMPLES / "good-night", *sorted(refusals), *sorted((SAMPLES / "rsr").iterdir()), *sorted((SAMPLES / "lessons").iterdir())]


def resident():
    """How many bytes of memory this process has."""
    with open("/proc/self/statm") as file:
        return int(file.read().split()[1]) * os.sysconf("SC_PAGE_SIZE")


# The fields of a line of read headers, behind its 0, kind and length, by the names that records give them; written from docs/call-script.md.
PRIMARY = "major minor mission format"
TELEMETRY_LINE = f"{PRIMARY} spacecraft source received_raw number uplink mode stream equipment key days milliseconds extended".split()
RSR_LINE = (
    f"{PRIMARY} software number dsn_complex station receiver subchannel spacecraft pass_number uplink downlink mode uplink_station expected "
    "bandwidth overridden attenuation rms peak year day frequency_raw key day_count"
).split()
TAPE_LINE = (
    "first source_error tape number spacecraft station dra_tape day hour minute second microseconds input pps_absent clock_unsynced recorder_b "
    "microseconds_abnormal track_synced playback sampling bypass decimation pps_track time_track channel block reduced_day reduced_second overflow "
    "pps_unsynced bit_slip counter count"
).split()


def word(value):
    """A field as a line has it: a band as the number of its letter."""
    if value is None:
        return "none"
    return str(ord(value)) if isinstance(value, str) else str(int(value))


def header_words(record):
    """What the reference's line says of a record whose header is read."""
    names = TELEMETRY_LINE if record.kind == "telemetry" else RSR_LINE
    return ["0", str(KINDS[record.kind]), str(record.length), *(word(getattr(record, name)) for name in names)]
