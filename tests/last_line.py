"""How a test in Python ends: what was wrong, the last line that is counted, and the status."""

from typing import Sequence


def ended(checks: int, wrong: Sequence[str]) -> int:
    """Prints each fault and 'N passed, M failed' of so many checks; 1 where there was a fault."""
    for line in wrong:
        print(line)
    print(f"{max(checks - len(wrong), 0)} passed, {len(wrong)} failed")
    return 1 if wrong else 0
