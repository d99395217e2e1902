"""Streams of records: the walk, the records, a receiver's samples."""
from __future__ import annotations

import ctypes
import mmap
import os
import stat
import struct
from typing import Any, Callable, Iterator, Optional, Union

import numpy
from numpy.typing import NDArray

from . import _declared as c
from ._library import CALLS, Refused, address, ask, from_start, lent, signed

Source = Union[str, "os.PathLike[str]", bytes, bytearray, memoryview, mmap.mmap, NDArray[numpy.uint8]]

# How many records are listed by one call: few at first, so that the first record is there at once.
FEWEST, MOST = 16, 4096
# The stop number of a list that is full: the walk goes on from there.
FULL = 16
# A sample has one bit at least, so a byte makes 8 numbers at most; two bytes at most.
NUMBERS_A_BYTE, BYTES_A_NUMBER = 8, 2
INT32 = numpy.dtype(numpy.int32)
# An answer's slice; its first two numbers; what stands somewhere, of no length.
ANSWER, FIRST_TWO, ANYTHING = ctypes.c_char * c.ANSWER, struct.Struct(">2Q").unpack_from, ctypes.c_char * 0
UNPACK = CALLS["unpack"]
FIRST_DAY = numpy.datetime64("1900-01-01", "D")
FIRST_RECEIVED = numpy.datetime64("1958-01-01", "D")


class Stream:
    """The bytes of a file, mapped, or those lent: as an array that cannot be written, and where they stand. They stay as long as this."""

    __slots__ = ("bytes", "at", "size")

    def __init__(self, source: Source) -> None:
        lent_bytes: Any = mapped(source) if isinstance(source, (str, os.PathLike)) else source
        self.size = memoryview(lent_bytes).nbytes
        self.bytes = numpy.frombuffer(lent_bytes, numpy.uint8) if self.size else numpy.empty(0, numpy.uint8)
        self.bytes.flags.writeable = False
        self.at = address(self.bytes)

    def part(self, place: int, length: int) -> NDArray[numpy.uint8]:
        return self.bytes[place : place + length]


def mapped(path: Union[str, "os.PathLike[str]"]) -> Union[bytes, mmap.mmap]:
    """A file's bytes: mapped, but for what cannot be, a pipe and an empty file, which are read."""
    with open(path, "rb") as file:
        about = os.fstat(file.fileno())
        if stat.S_ISREG(about.st_mode) and about.st_size:
            return mmap.mmap(file.fileno(), 0, access=mmap.ACCESS_READ)
        return file.read()


def field(place: int, about: str, turned: Optional[Callable[[int], Any]] = None) -> Any:
    """A header field: the number at a place of read headers' answer. A record that is refused has none: it raises that refusal."""

    def read(self: Record) -> Any:
        try:
            number = self._numbers[place]
        except IndexError:
            assert self.refused
            raise Refused(*self.refused.args) from None  # one of its own: an exception that is raised again keeps every frame it met
        return turned(number) if turned else number

    read.__doc__ = about
    return property(read)


def letter(number: int) -> Optional[str]:
    """A band's letter."""
    return None if number == c.NONE else chr(number)


class Record:
    """A whole record of a stream; what both kinds have. `hernganow.records` makes them, as Telemetry and Receiver.

    >>> first = next(hernganow.records("samples/good-night"))
    >>> first.kind, first.place, first.length, first.number
    ('telemetry', 0, 134, 4294967270)
    """

    __slots__ = {
        "place": "The byte of the stream at which the record begins.",
        "length": "How many bytes it has.",
        "number": "Its record number.",
        "refused": "None; or, of a walk that is not strict, the Refused of a record with a field out of range. Such a record has its kind, place,\n"
        "length, number, primary values and parts; a header field raises the Refused.",
        "_stream": "",
        "_numbers": "",
    }

    kind: str
    _names: tuple[str, ...] = ()

    def __init__(
        self, stream: Stream, place: int, length: int, number: int, values: tuple[int, ...], refused: Optional[Refused] = None
    ) -> None:
        self._stream = stream
        self.place = place
        self.length = length
        self.number = number
        self._numbers = values
        self.refused = refused

    major: int = field(c.AT_MAJOR, "The major class, the first byte of the primary value.")
    minor: int = field(c.AT_MINOR, "The minor class, the second byte of the primary value.")
    mission: int = field(c.AT_MISSION, "The mission, the third byte of the primary value.")
    format: int = field(c.AT_FORMAT, "The format, the fourth byte of the primary value.")

    @property
    def data(self) -> memoryview:
        """The data part: that very part of the stream, not a copy, and not to be written.

        >>> tone = next(hernganow.records("samples/rsr/tone"))
        >>> len(tone.data), tone.data[:4].hex()
        (2000, '0d006364')
        """
        return self._part("data_part")

    @property
    def secondary(self) -> memoryview:
        """The value of the secondary block: that very part of the stream, not a copy, and not to be written.

        >>> len(next(hernganow.records("samples/rsr/tone")).secondary)
        220
        """
        return self._part("secondary_part")

    def fields(self) -> dict[str, Any]:
        """The header fields by name, in the order of docs/INTERFACE.md.

        >>> fields = next(hernganow.records("samples/rsr/tone")).fields()
        >>> fields["station"], fields["downlink"], fields["expected"]
        (43, 'X', 40)
        """
        return {name: getattr(self, name) for name in self._names}

    def _part(self, name: str) -> memoryview:
        answer = ask(name, self._stream.at + self.place, self.length)
        return self._stream.part(self.place + answer[c.AT_PART_OFFSET], answer[c.AT_PART_LENGTH]).data

    def __repr__(self) -> str:
        return f"<{type(self).__name__} {self.number} at byte {self.place}, {self.length} bytes>"


class Telemetry(Record):
    """A telemetry record.

    >>> record = next(hernganow.records("samples/good-night"))
    >>> record.spacecraft, record.source, record.equipment, record.stream
    (177, 43, 2, 1)
    >>> record.uplink, record.mode
    ('X', 2)
    """

    __slots__ = ()
    kind = "telemetry"

    spacecraft: int = field(c.AT_TELEMETRY_SPACECRAFT, "The spacecraft, 0 to 1,023.")
    source: int = field(c.AT_TELEMETRY_SOURCE, "The data source.")
    uplink: Optional[str] = field(c.AT_TELEMETRY_UPLINK, "The letter of the uplink band; None where the predicts mode is 0 or 1.", letter)
    mode: int = field(c.AT_TELEMETRY_MODE, "The predicts mode: 0 no predicts, 1 one-way, 2 two-way, 3 three-way.")
    stream: int = field(c.AT_TELEMETRY_STREAM, "The virtual stream.")
    equipment: int = field(c.AT_TELEMETRY_EQUIPMENT, "The equipment.")
    key: int = field(c.AT_TELEMETRY_KEY, "The key of the record's stream; `hernganow.keys` takes it apart.")
    received_raw: int = field(c.AT_TELEMETRY_RECEIVED, "The eight bytes of the received time as one number.")
    days: int = field(c.AT_TELEMETRY_DAYS, "The received time's days from 1 January 1958.")
    milliseconds: int = field(c.AT_TELEMETRY_MILLISECONDS, "The received time's milliseconds of the day.")
    extended: int = field(c.AT_TELEMETRY_EXTENDED, "The received time's extended resolution, as it stands.")

    _names = (
        *("major", "minor", "mission", "format", "spacecraft", "source", "received_raw", "number", "uplink", "mode", "stream"),
        *("equipment", "key", "days", "milliseconds", "extended"),
    )

    @property
    def received_stated(self) -> numpy.datetime64:
        """The received time that the record states, to the millisecond. A flag of the record says whether that time is valid, and the
        library reads no flag: look at it (docs/INTERFACE.md, telemetry fields) before you rely on this time.

        >>> next(hernganow.records("samples/good-night")).received_stated
        numpy.datetime64('2008-08-29T09:00:00.200')
        """
        return FIRST_RECEIVED + numpy.timedelta64(self.days, "D") + numpy.timedelta64(self.milliseconds, "ms")


class Receiver(Record):
    """A record of a radio science receiver (RSR).

    >>> record = next(hernganow.records("samples/rsr/tone"))
    >>> record.spacecraft, record.station, record.receiver, record.subchannel, record.date
    (177, 43, 1, 1, numpy.datetime64('2008-08-29'))
    """

    __slots__ = ()
    kind = "rsr"

    software: int = field(c.AT_RSR_SOFTWARE, "The software's version.")
    dsn_complex: int = field(c.AT_RSR_COMPLEX, "The complex of the Deep Space Network. (`complex` is the samples as complex numbers.)")
    station: int = field(c.AT_RSR_STATION, "The station.")
    receiver: int = field(c.AT_RSR_RECEIVER, "The receiver.")
    subchannel: int = field(c.AT_RSR_SUBCHANNEL, "The subchannel.")
    spacecraft: int = field(c.AT_RSR_SPACECRAFT, "The spacecraft, 0 to 255.")
    pass_number: int = field(c.AT_RSR_PASS, "The pass. (`pass` is a word of Python.)")
    uplink: str = field(c.AT_RSR_UPLINK, "The letter of the uplink band: S, X or K.", letter)
    downlink: str = field(c.AT_RSR_DOWNLINK, "The letter of the downlink band: S, X or K.", letter)
    mode: int = field(c.AT_RSR_MODE, "The mode: 1 one-way, 2 two-way, 3 three-way.")
    uplink_station: int = field(c.AT_RSR_UPLINK_STATION, "The uplink's station.")
    expected: int = field(c.AT_RSR_EXPECTED, "The expected Px/No in dB-Hz, -128 to 127.", signed)
    bandwidth: int = field(c.AT_RSR_BANDWIDTH, "The bandwidth of the intermediate frequency in MHz, 1 to 127.")
    overridden: int = field(c.AT_RSR_OVERRIDDEN, "0 where the file of predicted frequencies is in use, else the override frequency is.")
    attenuation: int = field(c.AT_RSR_ATTENUATION, "The attenuation in steps of 0.5 dB, 0 to 63.")
    rms: int = field(c.AT_RSR_RMS, "The RMS of the analog-to-digital converter's samples, 0 to 128.")
    peak: int = field(c.AT_RSR_PEAK, "Their peak, 0 to 128.")
    year: int = field(c.AT_RSR_YEAR, "The year of the converter's reading, 1900 to 3000.")
    day: int = field(c.AT_RSR_DAY, "Its day of the year, 1 to 366.")
    frequency_raw: int = field(c.AT_RSR_FREQUENCY, "The eight bytes of the override frequency, a double precision number in Hz, as one number.")
    key: int = field(c.AT_RSR_KEY, "The key of the record's stream; `hernganow.keys` takes it apart.")
    day_count: int = field(c.AT_RSR_DAY_COUNT, "The days from 1 January 1900 to the date.")

    _names = (
        *("major", "minor", "mission", "format", "software", "number", "dsn_complex", "station", "receiver", "subchannel", "spacecraft"),
        *("pass_number", "uplink", "downlink", "mode", "uplink_station", "expected", "bandwidth", "overridden", "attenuation", "rms"),
        *("peak", "year", "day", "frequency_raw", "key", "day_count"),
    )

    @property
    def date(self) -> numpy.datetime64:
        """The date of the analog-to-digital converter's reading. The first sample's time tag may be of the day before or after it.

        >>> next(hernganow.records("samples/rsr/tone")).date
        numpy.datetime64('2008-08-29')
        """
        return FIRST_DAY + numpy.timedelta64(self.day_count, "D")

    def samples(self, out: Optional[NDArray[numpy.int32]] = None) -> NDArray[numpy.int32]:
        """The samples: int32 of shape (n, 2), in time order, the in-phase number before the quadrature number. Each is odd.

        With `out`, an int32 array whose numbers stand one after another, they are unpacked into its start, and the answer is that
        part of it; 8 numbers for each byte of the record are always enough. Raises Refused where the record has no samples: 19 where
        its sample size and rate are no listed pair, 34 where its data are no whole words, 35 where `out` is too short.

        >>> next(hernganow.records("samples/rsr/tone")).samples()[:3]
        array([[201,   1],
               [199,  27],
               [193,  53]], dtype=int32)
        """
        if out is None:
            taken = numpy.empty(NUMBERS_A_BYTE * self.length, numpy.int32)
            taken.resize(self._unpack(taken), refcheck=False)
            return taken.reshape(-1, 2)
        if not isinstance(out, numpy.ndarray) or out.dtype != INT32:
            raise TypeError("out has to be a numpy array of int32")
        count = self._unpack(out)
        return out.reshape(-1)[:count].reshape(-1, 2)

    def complex(self) -> NDArray[numpy.complex64]:
        """The samples as complex64 of shape (n,): the in-phase numbers are real, the quadrature numbers imaginary.

        >>> next(hernganow.records("samples/rsr/tone")).complex()[:3]
        array([201. +1.j, 199.+27.j, 193.+53.j], dtype=complex64)
        """
        return self.samples().astype(numpy.float32).view(numpy.complex64).reshape(-1)

    def _unpack(self, taken: Any) -> int:
        """Unpacks into an array of int32; how many numbers were written."""
        lent_list = ANYTHING.from_buffer(taken)  # raises where it cannot be written, or its numbers do not stand one after another
        at, stream, place = ctypes.addressof(lent_list), self._stream, self.place
        if at % taken.itemsize or at < stream.at + stream.size and stream.at < at + taken.nbytes:
            raise ValueError("out has to be aligned, and apart from the stream")
        answer = ANSWER()
        number = UNPACK(stream.at + place, self.length, at, taken.size, answer, c.ANSWER)
        _, second = FIRST_TWO(answer)
        if number:
            raise Refused(number, place, from_start(number, second, place))
        return int(second)


# Of each kind, by its number, the class, and how the numbers are taken from an answer: up to the last that the kind has.
KINDS: dict[int, Any] = {
    1: (Telemetry, struct.Struct(f">{c.AT_TELEMETRY_EXTENDED + 1}Q").unpack_from),
    2: (Receiver, struct.Struct(f">{c.AT_RSR_DAY_COUNT + 1}Q").unpack_from),
}


class Lists:
    """The four lists that a stream's records are listed in."""

    def __init__(self, length: int) -> None:
        self.length = length
        self.lists = [numpy.empty(length, numpy.uint64) for _ in range(4)]
        self.lent = [part for numbers_of in self.lists for part in lent(numbers_of)]

    def fill(self, stream: Stream, start: int) -> tuple[Iterator[tuple[int, int, int, int]], tuple[int, ...]]:
        """The records from a place on: place from there, length, kind and number of each; and the walk's numbers."""
        answer = ask("list_numbers", stream.at + start, stream.size - start, *self.lent)
        count = answer[c.AT_WALK_COUNT]
        return zip(*(numbers_of[:count].tolist() for numbers_of in self.lists)), answer


def records(source: Source, strict: bool = True) -> Iterator[Union[Telemetry, Receiver]]:
    """The records of a stream, one after another.

    `source` is the path of a file, which is mapped and not read, or the bytes themselves. A file must not be made shorter while it is
    read. Where the stream stops before its end, Refused is raised behind the last whole record. A record with a field out of its range
    (12) raises Refused too; with strict=False the walk goes on past it, as the library's walk does, and the record's `refused` says why.

    >>> [record.number for record in hernganow.records("samples/rsr/tone")]
    [0, 1]
    >>> try:
    ...     list(hernganow.records("samples/refusal-05"))
    ... except hernganow.Refused as refused:
    ...     print(refused.number, refused.place, refused.second)
    5 2564 2576
    """
    return walk(Stream(source), strict)


def walk(stream: Stream, strict: bool) -> Iterator[Union[Telemetry, Receiver]]:
    start, lists = 0, Lists(FEWEST)
    while True:
        listed, stop = lists.fill(stream, start)
        yield from headed(stream, start, listed, strict)
        number, place = stop[c.AT_WALK_STOP], start + stop[c.AT_WALK_PLACE]
        if number == 0:
            return
        if number != FULL:
            raise Refused(number, place, from_start(number, stop[c.AT_WALK_SECOND], start))
        start = place
        lists = Lists(min(4 * lists.length, MOST))


def headed(
    stream: Stream, start: int, listed: Iterator[tuple[int, int, int, int]], strict: bool
) -> Iterator[Union[Telemetry, Receiver]]:
    """The listed records with their headers. One answer's slice serves all: nothing is kept of it but its numbers."""
    answer = ANSWER()
    read_headers, answer_at, base = CALLS["read_headers"], ctypes.addressof(answer), stream.at
    for from_here, length, kind, number in listed:
        place = start + from_here
        make, unpack = KINDS[kind]
        why = read_headers(base + place, length, kind, answer_at, c.ANSWER)
        if not why:
            yield make(stream, place, length, number, unpack(answer))
            continue
        refused = Refused(why, place, from_start(why, FIRST_TWO(answer)[c.AT_FAULT], place))
        if strict:
            raise refused
        primary = ask("read_one", base + place, length)[: c.AT_FORMAT + 1]
        yield make(stream, place, length, number, primary, refused)


def pack(samples: Any, size: int, rate: int) -> bytes:
    """Packs samples into the data part of a receiver's record: what `Receiver.samples` gives, and back.

    `samples` are whole numbers of shape (n, 2) or (2n,); `size` is the sample size in bits and `rate` the rate in thousands a second.
    Raises Refused: 19 where they are no listed pair, 34 where the samples do not fill whole words, 37 where one has no code.

    >>> tone = next(hernganow.records("samples/rsr/tone"))
    >>> hernganow.pack(tone.samples(), 8, 1) == tone.data
    True
    """
    taken = in_32_bits(samples)
    out = numpy.empty(BYTES_A_NUMBER * taken.size, numpy.uint8)
    count = ask("pack", size, rate, *lent(taken), *lent(out))[c.AT_COUNT]
    return out[:count].tobytes()


def in_32_bits(samples: Any) -> NDArray[numpy.int32]:
    """The samples as int32, one after another; none is changed."""
    given = numpy.asarray(samples)
    if given.size and given.dtype.kind not in "iu":
        raise TypeError(f"samples have to be whole numbers, and not {given.dtype}")
    taken = numpy.ascontiguousarray(given, numpy.int32).reshape(-1)
    if not numpy.array_equal(taken, given.reshape(-1)):
        raise OverflowError("a sample is not a number of 32 bits")
    return taken
