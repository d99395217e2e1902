"""Tapes of medium band records (Intermediate Data Records), back to back."""
from __future__ import annotations

from typing import Any, Callable, Iterator, Optional

import numpy
from numpy.typing import NDArray

from . import _declared as c
from ._library import Refused, ask, lent, numbers, or_none
from ._streams import Source, Stream


def flag(number: int) -> Optional[bool]:
    return None if number == c.NONE else bool(number)


def origin(place: int, about: str, turned: Callable[[int], Any] = or_none) -> Any:
    """A field of where and when the record was made."""
    return property(lambda self: turned(self._numbers[place]), doc=about)


def reduction(place: int, about: str, turned: Callable[[int], Any] = or_none) -> Any:
    """A field of how the record was reduced: a call of its own gives them."""
    return property(lambda self: turned(self._reduction()[place]), doc=about)


class TapeRecord:
    """A medium band record of a tape. `hernganow.tapes` makes them.

    Where the record's time tag is not valid, its fields are None; its words and samples are there.

    >>> for record in hernganow.tapes("samples/tapes/good-tape"):
    ...     print(record.place, record.spacecraft, record.day, record.sampling)
    0 32 238 300000
    5056 None None None
    10112 32 238 300000
    """

    __slots__ = {
        "place": "The byte of the tape at which the record begins.",
        "length": "How many bytes it has.",
        "_tape": "",
        "_numbers": "",
        "_reduced": "",
    }

    def __init__(self, tape: Stream, place: int, length: int, values: tuple[int, ...]) -> None:
        self._tape, self.place, self.length = tape, place, length
        self._numbers = values
        self._reduced: Optional[tuple[int, ...]] = None

    first: Optional[bool] = origin(c.AT_TAPE_FIRST, "Whether it is the first record of a run.", flag)
    source_error: Optional[bool] = origin(c.AT_TAPE_SOURCE_ERROR, "Whether the source had an error.", flag)
    tape_type: Optional[int] = origin(c.AT_TAPE_TYPE, "The tape type: 0 for a medium band reduction tape.")
    tape: Optional[int] = origin(c.AT_TAPE_TAPE, "The tape number.")
    number: Optional[int] = origin(c.AT_TAPE_NUMBER, "The record number.")
    spacecraft: Optional[int] = origin(c.AT_TAPE_SPACECRAFT, "The spacecraft.")
    station: Optional[int] = origin(c.AT_TAPE_STATION, "The station.")
    dra_tape: Optional[int] = origin(c.AT_TAPE_DRA_TAPE, "The tape number of the digital recording assembly (DRA).")
    day: Optional[int] = origin(c.AT_TAPE_DAY, "The time tag's day of the year.")
    hour: Optional[int] = origin(c.AT_TAPE_HOUR, "Its hour.")
    minute: Optional[int] = origin(c.AT_TAPE_MINUTE, "Its minute.")
    second: Optional[int] = origin(c.AT_TAPE_SECOND, "Its second.")
    microseconds: Optional[int] = origin(c.AT_TAPE_MICROS, "Its microseconds.")
    input: Optional[int] = origin(c.AT_TAPE_INPUT, "The code of the input selection.")
    pps_absent: Optional[bool] = origin(c.AT_TAPE_PPS_ABSENT, "Whether the pulse a second was absent.", flag)
    clock_unsynced: Optional[bool] = origin(c.AT_TAPE_CLOCK_UNSYNCED, "Whether the clock was out of sync.", flag)
    recorder_b: Optional[bool] = origin(c.AT_TAPE_RECORDER_B, "Whether it was recorder B.", flag)
    microseconds_abnormal: Optional[bool] = origin(c.AT_TAPE_MICROS_ABNORMAL, "Whether the microsecond time was abnormal.", flag)
    track_synced: Optional[bool] = origin(c.AT_TAPE_TRACK_SYNCED, "Whether the time track was in sync.", flag)
    playback: Optional[int] = reduction(c.AT_TAPE_PLAYBACK, "The playback rate in samples a second.")
    sampling: Optional[int] = reduction(c.AT_TAPE_SAMPLING, "The sampling rate in samples a second.")
    bypass: Optional[bool] = reduction(c.AT_TAPE_BYPASS, "Whether the reduction was bypassed.", flag)
    decimation: Optional[int] = reduction(c.AT_TAPE_DECIMATION, "The decimation.")
    pps_track: Optional[int] = reduction(c.AT_TAPE_PPS_TRACK, "The bit of the track of the pulse a second: 0 for track 16, 1 for 21.")
    time_track: Optional[int] = reduction(c.AT_TAPE_TIME_TRACK, "The bit of the time track: 0 for track 22, 1 for 23.")
    channel: Optional[int] = reduction(c.AT_TAPE_CHANNEL, "The channel, 1 to 4.")
    block: Optional[int] = reduction(c.AT_TAPE_BLOCK, "The block size.")
    reduced_day: Optional[int] = reduction(c.AT_TAPE_REDUCED_DAY, "The day of the reduction.")
    reduced_second: Optional[int] = reduction(c.AT_TAPE_REDUCED_SECOND, "The second of that day.")
    overflow: Optional[bool] = reduction(c.AT_TAPE_OVERFLOW, "Whether there was an overflow.", flag)
    pps_unsynced: Optional[bool] = reduction(c.AT_TAPE_PPS_UNSYNCED, "Whether the pulse a second was out of sync.", flag)
    bit_slip: Optional[bool] = reduction(c.AT_TAPE_BIT_SLIP, "Whether there was a bit slip.", flag)
    counter: Optional[int] = reduction(c.AT_TAPE_COUNTER, "The decimation counter.")
    count: Optional[int] = reduction(c.AT_TAPE_COUNT, "The sample count; None where it is not valid.")

    _names = (
        *("first", "source_error", "tape_type", "tape", "number", "spacecraft", "station", "dra_tape", "day", "hour", "minute", "second"),
        *("microseconds", "input", "pps_absent", "clock_unsynced", "recorder_b", "microseconds_abnormal", "track_synced", "playback"),
        *("sampling", "bypass", "decimation", "pps_track", "time_track", "channel", "block", "reduced_day", "reduced_second", "overflow"),
        *("pps_unsynced", "bit_slip", "counter", "count"),
    )

    def fields(self) -> dict[str, Any]:
        """The fields by name, in the order of docs/INTERFACE.md.

        >>> next(hernganow.tapes("samples/tapes/good-tape")).fields()["channel"]
        1
        """
        return {name: getattr(self, name) for name in self._names}

    @property
    def words(self) -> NDArray[numpy.uint16]:
        """The 28 words of the header, as uint16.

        >>> next(hernganow.tapes("samples/tapes/good-tape")).words[:4].tolist()
        [53249, 1, 2528, 8235]
        """
        words = numpy.zeros(c.TAPE_WORDS, numpy.uint16)
        ask("tape_words", *self._lent(), *lent(words))
        return words

    def samples(self) -> NDArray[numpy.uint8]:
        """The 5,000 samples, as uint8: that very part of the tape, not a copy, and not to be written.

        >>> next(hernganow.tapes("samples/tapes/good-tape")).samples().shape
        (5000,)
        """
        answer = ask("tape_samples", *self._lent())
        return self._tape.part(self.place + answer[c.AT_PART_OFFSET], answer[c.AT_PART_LENGTH])

    def _lent(self) -> tuple[int, int]:
        return self._tape.at + self.place, self.length

    def _reduction(self) -> tuple[int, ...]:
        if self._reduced is None:
            self._reduced = ask("tape_reduction", *self._lent())
        return self._reduced

    def __repr__(self) -> str:
        return f"<TapeRecord {self.number} at byte {self.place}>"


def tapes(source: Source) -> Iterator[TapeRecord]:
    """The medium band records of a tape, one after another; `source` as of `hernganow.records`.

    Where the tape stops before its end, Refused is raised behind the last record that is read.

    >>> [record.number for record in hernganow.tapes("samples/tapes/good-tape")]
    [1, None, 61]
    """
    return read_tape(Stream(source))


def read_tape(tape: Stream) -> Iterator[TapeRecord]:
    for place in range(0, tape.size, c.TAPE_RECORD):
        length = min(c.TAPE_RECORD, tape.size - place)
        answer = numbers("tape_read", tape.at + place, length)
        if answer[c.AT_REFUSAL]:
            raise Refused(answer[c.AT_REFUSAL], place)
        yield TapeRecord(tape, place, length, answer)
