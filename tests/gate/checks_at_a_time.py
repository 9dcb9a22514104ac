#!/usr/bin/env python3
"""Prints how many checks of wrong bodies run at a time: one a processor, as far as the memory goes that is free now. It says so on standard error.

Left to itself the kit reckons with about twice the memory that a check takes. Large crates then wait for memory until small ones have ended,
as these fit before them each time."""
import os
import sys

sys.path.insert(0, f"{os.path.dirname(os.path.abspath(__file__))}/../../tools")
from kit import RT

# The most that a check takes, in bytes.
NEED = 5_000_000_000


def main():
    processors, free = RT.processors(), RT.free()
    number = max(1, min(processors, free // NEED))
    waits = f"; {processors - number} more would wait for memory, which they take {NEED / 1e9:.0f} GB each of" if number < processors else ""
    print(f"test: {number} checks at a time, on {processors} processors, with {free / 1e9:.0f} GB free{waits}", file=sys.stderr)
    print(number)


if __name__ == "__main__":
    main()
