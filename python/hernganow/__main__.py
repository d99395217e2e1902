"""python -m hernganow plot FILE [-o PICTURE]: a picture of a receiver's stream, its spectrum against time and I and Q of its beginning.

FILE is a stream of records. PICTURE is a PNG or an SVG file, by its ending; where it is not named, it is FILE's name with .png, in the
folder that you are in. --key draws the stream with that key; else the first of a receiver is drawn. --rate gives the sample rate in
thousands a second: then time is in seconds, and frequency in kHz.

The status is 0 where the picture is drawn, 1 where it is drawn up to a record that is refused, 2 where nothing is drawn.
"""
import argparse
import os
import sys


def main() -> int:
    parser = argparse.ArgumentParser(prog="python -m hernganow", description=__doc__, formatter_class=argparse.RawDescriptionHelpFormatter)
    commands = parser.add_subparsers(dest="command", required=True)
    command = commands.add_parser("plot", help="a picture of a receiver's stream")
    command.add_argument("file")
    command.add_argument("-o", "--out", metavar="PICTURE")
    command.add_argument("--key", type=int)
    command.add_argument("--rate", type=float)
    given = parser.parse_args()
    from ._plot import plot

    try:
        return plot(given.file, given.out or os.path.basename(given.file) + ".png", given.key, given.rate)
    except (OSError, ValueError) as reason:
        print(f"hernganow: {reason}", file=sys.stderr)
        return 2


if __name__ == "__main__":
    sys.exit(main())
