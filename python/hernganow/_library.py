"""The C library: where it is found, how a call is made, and what a refusal is."""
from __future__ import annotations

import ctypes
import os
import struct
from typing import Any, Callable, Optional

import numpy
from numpy.typing import NDArray

from . import _declared as c

NAME = "libhernganow.so.1"
# An answer: 32 numbers of 8 bytes, most significant byte first.
NUMBERS = struct.Struct(f">{c.ANSWER // 8}Q")
# A number that is passed has to be below this; ctypes would cut it down without a word.
LIMITS = {ctypes.c_uint8: 1 << 8, ctypes.c_uint16: 1 << 16, ctypes.c_uint32: 1 << 32, ctypes.c_uint64: 1 << 64}
# The refusals whose second number is an offset, that of a wrong field; that of 1 and 6 counts bytes, and the others have none.
OF_A_FIELD = frozenset((2, 3, 4, 5, 7, 8, 9, 10, 11, 12))


def _load() -> ctypes.CDLL:
    name = os.environ.get("HERNGANOW_LIBRARY") or NAME
    try:
        return ctypes.CDLL(name)
    except OSError as reason:
        raise ImportError(
            f"hernganow needs its C library, and it cannot be loaded: {reason}. Install it (`make install` in the "
            f"repository), or set HERNGANOW_LIBRARY to the path of {NAME}."
        ) from None


def _call(library: ctypes.CDLL, name: str) -> Callable[..., int]:
    try:
        call = library["hernganow_" + name]
    except AttributeError:
        raise ImportError(
            f"the C library has no call hernganow_{name}: it is older than this package. Install the library of the same release."
        ) from None
    call.argtypes = (*c.CALLS[name], ctypes.c_void_p, ctypes.c_size_t)
    call.restype = ctypes.c_uint32
    return call


_LIBRARY = _load()
CALLS = {name: _call(_LIBRARY, name) for name in c.CALLS}


class Refused(Exception):
    """A call was refused: the bytes or the numbers that it was given are not what the published interface asks for.

    number  the number of the refusal (the refusal table stands in docs/INTERFACE.md)
    place   where in the stream the record begins that is refused; None where no stream was read
    second  the number that goes with the refusal: of 2 to 5 and 7 to 12 the place of the wrong field's first byte, from the
            stream's start; of 1 and 6 how many bytes there were; else 0
    words   what the refusal says, in words

    >>> import hernganow
    >>> try:
    ...     list(hernganow.records(b"not a record, and not the start of one"))
    ... except hernganow.Refused as refused:
    ...     print(refused.number, refused.place, refused.second)
    2 0 0
    """

    number: int
    place: Optional[int]
    second: int

    def __init__(self, number: int, place: Optional[int] = None, second: int = 0) -> None:
        super().__init__(number, place, second)
        self.number, self.place, self.second = number, place, second

    @property
    def words(self) -> str:
        """What the refusal says, in words."""
        return text(self.number)

    def __str__(self) -> str:
        said = f"refused: {self.number}" if self.place is None else f"stopped at byte {self.place}: {self.number} {self.second}"
        return f"{said} {self.words}"


def address(array: NDArray[Any]) -> int:
    """Where an array's bytes stand."""
    return int(array.__array_interface__["data"][0])


def lent(array: NDArray[Any]) -> tuple[int, int]:
    """An array as a call takes it: where it stands and how many numbers it has."""
    return address(array), array.size


def from_start(number: int, second: int, place: int) -> int:
    """The second number of a refusal: an offset, which the library counts from `place` on, is counted from the stream's start."""
    return place + second if number in OF_A_FIELD else second


def checked(kind: Any, value: Any) -> Any:
    """A number that a call can be passed as it is."""
    limit = LIMITS.get(kind)
    if limit is not None and not 0 <= value < limit:
        raise OverflowError(f"{value} is not a number from 0 to {limit - 1}")
    return value


def numbers(name: str, *arguments: Any) -> tuple[int, ...]:
    """Makes a call; the 32 numbers of its answer, a refusal's too."""
    answer = ctypes.create_string_buffer(c.ANSWER)
    taken = (checked(kind, value) for kind, value in zip(c.CALLS[name], arguments))
    CALLS[name](*taken, ctypes.addressof(answer), c.ANSWER)
    return NUMBERS.unpack(answer)


def ask(name: str, *arguments: Any) -> tuple[int, ...]:
    """Makes a call; the numbers of its answer, or Refused."""
    answer = numbers(name, *arguments)
    if answer[c.AT_REFUSAL]:
        raise Refused(answer[c.AT_REFUSAL])
    return answer


def text(number: int) -> str:
    """A refusal's number in words."""
    out = numpy.zeros(c.TEXT, numpy.uint8)
    length = ask("refusal_text", number, *lent(out))[c.AT_TEXT_LENGTH]
    return out[:length].tobytes().decode("ascii")


def or_none(number: int) -> Optional[int]:
    """A number of an answer, None where it is none."""
    return None if number == c.NONE else number


def signed(number: int) -> int:
    """A number of an answer that is in two's complement."""
    return number - (1 << 64) if number >> 63 else number
