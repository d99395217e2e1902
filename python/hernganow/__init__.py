"""Recordings of spacecraft passes, read by the proved library: Deep Space Network records, medium band tapes and receipt ledgers.

Every answer is the C library's (libhernganow.so.1), whose calls are proved to read each field as the published interface defines it. This
package passes bytes and numbers to it and decides nothing.

    import hernganow

    for record in hernganow.records("night"):           # a stream, mapped and not read
        print(record.place, record.kind, record.number, record.spacecraft, hernganow.keys.parts(record.key))

    tone = next(hernganow.records("samples/rsr/tone"))  # a radio science receiver's record
    tone.samples()                                      # int32 of shape (n, 2): I and Q
    tone.complex()                                      # complex64 of shape (n,)

    hernganow.Ledger("ledger").missing(0)               # the numbers of row 0 that are to be ordered

Where bytes are not what they should be, `Refused` says which rule is broken, and where. From a shell, `python -m hernganow plot FILE`
draws a receiver's stream.

The library is looked for as shared libraries are; the environment's HERNGANOW_LIBRARY names another place.
"""
from . import dates, keys
from ._ledger import Desk, Gap, Ledger, Report, Row
from ._library import Refused
from ._streams import Receiver, Record, Telemetry, pack, records
from ._tapes import TapeRecord, tapes

__all__ = ["records", "Record", "Telemetry", "Receiver", "Refused", "pack", "tapes", "TapeRecord", "Ledger", "dates", "keys"]
__version__ = "1.0.0"

# They are the package's own, wherever their source stands: help and tracebacks name them so.
for _thing in (records, Record, Telemetry, Receiver, Refused, pack, tapes, TapeRecord, Ledger, Desk, Gap, Report, Row):
    _thing.__module__ = __name__
