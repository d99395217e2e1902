"""A picture of a receiver's stream: its spectrum against time, and I and Q of its beginning."""
from __future__ import annotations

import sys
from typing import Any, Iterator, Optional

import numpy
from numpy.typing import NDArray

from ._library import Refused
from ._streams import Receiver, records

# How many pairs of samples a spectrum is made of, at least and at most, and how many spectra the first record has, about; how many spectra
# stand beside each other, and how many pairs are shown.
SHORTEST, LONGEST, A_RECORD, COLUMNS, SHOWN = 64, 1024, 8, 512, 96
# What is added to a power before its logarithm is taken: less than that of any spectrum but silence's.
LEAST = 1e-12


def window_of(count: int) -> int:
    """How many pairs a spectrum is made of, a power of two, where the first record has so many."""
    window = SHORTEST
    while window < LONGEST and window * A_RECORD <= count:
        window *= 2
    return window


class Spectra:
    """Spectra of a stream, in time order. Where there are too many, neighbours are averaged, so that they stay few however long the
    stream is."""

    def __init__(self, window: int) -> None:
        self.window = window
        self.columns: list[NDArray[Any]] = []
        self.each = 1  # how many spectra a column is the average of
        self.waiting: list[NDArray[Any]] = []
        self.left = numpy.empty(0, numpy.complex64)
        self.taper = numpy.hanning(window).astype(numpy.float32)

    def add(self, samples: NDArray[Any]) -> None:
        joined = numpy.concatenate((self.left, samples))
        whole = len(joined) // self.window * self.window
        self.left = joined[whole:]
        pieces = joined[:whole].reshape(-1, self.window) * self.taper
        for power in numpy.abs(numpy.fft.fftshift(numpy.fft.fft(pieces, axis=1), axes=1)) ** 2:
            self.add_one(power)

    def add_one(self, power: NDArray[Any]) -> None:
        self.waiting.append(power)
        if len(self.waiting) < self.each:
            return
        self.columns.append(numpy.mean(self.waiting, axis=0))
        self.waiting.clear()
        if len(self.columns) == 2 * COLUMNS:
            self.columns = [(a + b) / 2 for a, b in zip(self.columns[::2], self.columns[1::2])]
            self.each *= 2

    def decibels(self) -> Any:
        """Frequencies down, time across; the strongest is 0 dB."""
        power = numpy.array(self.columns).T
        return 10 * numpy.log10(power / max(power.max(), LEAST) + LEAST)


def of_one_stream(path: str, key: Optional[int]) -> Iterator[Receiver]:
    """The receiver's records of the stream with the key, or of the first that there is."""
    for record in records(path):
        if not isinstance(record, Receiver):
            continue
        key = record.key if key is None else key
        if record.key == key:
            yield record


def plot(path: str, out: str, key: Optional[int] = None, rate: Optional[float] = None) -> int:
    """Draws the picture into `out`, PNG or SVG by its ending. Answers the status: 0 done, 1 drawn up to a refusal, 2 nothing drawn."""
    try:
        import matplotlib
    except ImportError:
        print("a picture needs matplotlib; in Debian: apt-get install python3-matplotlib", file=sys.stderr)
        return 2
    matplotlib.use("Agg")
    picture, status = Picture(), 0
    try:
        for record in of_one_stream(path, key):
            picture.add(record)
    except Refused as refused:
        print(f"{path}: {refused}", file=sys.stderr)
        status = 1
    if picture.spectra is None:
        print(f"{path}: no samples of a receiver{'' if key is None else f' with the key {key}'}", file=sys.stderr)
        return 2
    draw(picture.spectra, picture.beginning, picture.title, rate, out)
    return status


class Picture:
    """What is drawn of a stream, gathered record by record."""

    def __init__(self) -> None:
        self.spectra: Optional[Spectra] = None
        self.beginning = numpy.empty(0, numpy.complex64)
        self.title = ""

    def add(self, record: Receiver) -> None:
        samples = record.complex()
        if self.spectra is None:
            self.spectra, self.title = Spectra(window_of(len(samples))), name(record)
        self.spectra.add(samples)
        if len(self.beginning) < SHOWN:
            self.beginning = numpy.concatenate((self.beginning, samples))[:SHOWN]


def name(record: Receiver) -> str:
    return (
        f"spacecraft {record.spacecraft}, station {record.station}, receiver {record.receiver}, subchannel {record.subchannel}, "
        f"{record.date}, from record {record.number}"
    )


def draw(spectra: Spectra, beginning: NDArray[Any], title: str, rate: Optional[float], out: str) -> None:
    """With a rate, in thousands a second, time is in seconds and frequency in kHz; else both are counted in samples."""
    from matplotlib import pyplot

    figure, (above, below) = pyplot.subplots(2, 1, figsize=(9, 7), constrained_layout=True)
    figure.suptitle(title, fontsize=10)
    if spectra.columns:
        across = len(spectra.columns) * spectra.each * spectra.window / (rate * 1000 if rate else 1)
        # A frequency stands in the middle of its line.
        low, high = ((rate or 1) * (half - 0.5 / spectra.window) for half in (-0.5, 0.5))
        extent = (0, across, low, high)
        picture = above.imshow(spectra.decibels(), origin="lower", aspect="auto", extent=extent, vmin=-60, vmax=0, interpolation="nearest")
        figure.colorbar(picture, ax=above, label="dB below the strongest")
    else:
        above.text(0.5, 0.5, f"fewer than {spectra.window} samples: no spectrum", ha="center", va="center", transform=above.transAxes)
    above.set_xlabel("seconds" if rate else "samples")
    above.set_ylabel("kHz" if rate else "cycles in a sample")
    when = numpy.arange(len(beginning)) / (rate or 1)
    below.plot(when, beginning.real, color="tab:blue", label="I", marker=".", linewidth=1)
    below.plot(when, beginning.imag, color="tab:red", label="Q", marker=".", linewidth=1)
    below.set_xlabel("milliseconds" if rate else "samples")
    below.set_ylabel("I and Q")
    below.legend(loc="upper left", bbox_to_anchor=(1, 1))
    below.grid(alpha=0.3)
    figure.savefig(out)
    pyplot.close(figure)
