"""Times the Python module on writing lists of records: by the C call, beside the same bytes by Python's struct alone.

    write_time.py FILE...   checks that both give the same, then prints records a second, by the file's name

The module is python/verriblom.py, which PYTHONPATH has to name.
"""

from __future__ import annotations

import pathlib
import struct
import sys
from collections.abc import Callable

import verriblom
from runs_time import PASSES, seconds
from verriblom import Mark, Record


def packed(mark: Mark, first: float | None, second: float | None) -> bytes:
    return mark.value + (struct.pack("<dd", first, second) if mark.has_numbers else bytes(16))


def by(write: Callable[..., bytes]) -> Callable[[list[Record]], list[bytes]]:
    """What a caller does who has many to write."""
    return lambda records: [write(mark, first, second) for mark, first, second in records]


def row(file: pathlib.Path) -> str:
    run = file.read_bytes()
    records = [verriblom.read(run[start : start + 18]) for start in range(0, len(run), 18)]
    called, alone = by(verriblom.record), by(packed)
    if called(records) != alone(records):
        sys.exit(f"{file.stem} is written otherwise by struct")
    # in turns, so that a slow stretch of the machine meets both
    pairs = [(seconds(called, records), seconds(alone, records)) for _ in range(PASSES)]
    by_call, by_struct = map(min, zip(*pairs))
    count = len(records)
    return f"| {file.stem} | {count / by_call:.0f} | {count / by_struct:.0f} | {by_call / by_struct:.2f} |"


def main() -> None:
    print("| records | record(..) | by struct | record(..) / struct |")
    print("|---|---:|---:|---:|")
    for name in sys.argv[1:]:
        print(row(pathlib.Path(name)))


if __name__ == "__main__":
    main()
