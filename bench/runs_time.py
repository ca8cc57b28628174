"""Times the Python module on lists of records: one call for each record beside one for all of them.

    runs_time.py FILE...   checks that both give the same, then prints records a second, by the file's name

The module is python/verriblom.py, which PYTHONPATH has to name.
"""

from __future__ import annotations

import pathlib
import struct
import sys
import time
from collections.abc import Callable

import verriblom
from verriblom import Refusal, Refused

# so many that a slow stretch of the machine seldom lasts through all of a list's
PASSES = 64


def singly(records: list[bytes]) -> list[float | Refusal]:
    """What a caller does who asks for one record at a time."""
    results: list[float | Refusal] = []
    for each in records:
        try:
            results.append(verriblom.answer(each))
        except Refused as refused:
            results.append(refused.refusal)
    return results


def told(result: float | Refusal | Refused) -> bytes | Refusal:
    """The bits of a number, or the refusal."""
    if isinstance(result, Refused):
        return result.refusal
    return result if isinstance(result, Refusal) else struct.pack("<d", result)


def seconds(call: Callable[..., list], records: bytes | list[bytes]) -> float:
    begin = time.perf_counter()
    call(records)
    return time.perf_counter() - begin


def row(file: pathlib.Path) -> str:
    run = file.read_bytes()
    records = [run[start : start + 18] for start in range(0, len(run), 18)]
    if list(map(told, singly(records))) != list(map(told, verriblom.answers(run))):
        sys.exit(f"{file.stem} differs as a run")
    # in turns, so that a slow stretch of the machine meets both
    pairs = [(seconds(singly, records), seconds(verriblom.answers, run)) for _ in range(PASSES)]
    alone, at_once = map(min, zip(*pairs))
    count = len(records)
    return f"| {file.stem} | {count / alone:.0f} | {count / at_once:.0f} | {at_once / alone:.2f} |"


def main() -> None:
    print("| records | singly | as a run | run / singly |")
    print("|---|---:|---:|---:|")
    for name in sys.argv[1:]:
        print(row(pathlib.Path(name)))


if __name__ == "__main__":
    main()
