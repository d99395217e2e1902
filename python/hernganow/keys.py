"""Stream keys: a stream is what one spacecraft sends over one path, and its key files its records."""
from __future__ import annotations

from typing import NamedTuple, Union

from . import _declared as c
from ._library import ask

__all__ = ["TelemetryParts", "RsrParts", "telemetry_key", "rsr_key", "parts", "valid"]
# The kind's number of a telemetry key; an RSR key's is 2.
TELEMETRY = 1


class TelemetryParts(NamedTuple):
    """The four numbers of a telemetry stream's key."""

    spacecraft: int
    source: int
    equipment: int
    stream: int


class RsrParts(NamedTuple):
    """The four numbers of an RSR stream's key."""

    spacecraft: int
    station: int
    receiver: int
    subchannel: int


def telemetry_key(spacecraft: int, source: int, equipment: int, stream: int) -> int:
    """The key of a telemetry stream. Raises Refused (22) where a number is too wide for its field.

    >>> hernganow.keys.telemetry_key(177, 43, 2, 1)
    760930632193
    """
    return ask("telemetry_key", spacecraft, source, equipment, stream)[c.AT_KEY]


def rsr_key(spacecraft: int, station: int, receiver: int, subchannel: int) -> int:
    """The key of an RSR stream. Raises Refused (22) where a number is too wide for its field.

    >>> hernganow.keys.rsr_key(177, 43, 1, 1)
    4401018896641
    """
    return ask("rsr_key", spacecraft, station, receiver, subchannel)[c.AT_KEY]


def parts(key: int) -> Union[TelemetryParts, RsrParts]:
    """The numbers that a key is made of. Raises Refused (22) where the key is no stream's.

    >>> hernganow.keys.parts(760930632193)
    TelemetryParts(spacecraft=177, source=43, equipment=2, stream=1)
    """
    answer = ask("parts", key)
    four = answer[c.AT_PARTS_SPACECRAFT : c.AT_PARTS_STREAM + 1]
    return TelemetryParts(*four) if answer[c.AT_PARTS_KIND] == TELEMETRY else RsrParts(*four)


def valid(key: int) -> bool:
    """Whether the key is some stream's.

    >>> hernganow.keys.valid(2**42 + 2**32)
    False
    """
    return bool(ask("key_valid", key)[c.AT_KEY_VALID])
