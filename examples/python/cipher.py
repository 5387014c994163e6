#!/usr/bin/env python3
"""Masks AES-128, certifies it, and runs it under masks on the vector of FIPS-197, C.1.

The package is the installed one, or that of the repository.
"""

import sys
from pathlib import Path

ROOT = Path(__file__).resolve().parents[2]
sys.path.append(str(ROOT / "bindings" / "python"))

from fidrovelj import Netlist, Refusal  # noqa: E402

KEY = 0x000102030405060708090A0B0C0D0E0F
MESSAGE = 0x00112233445566778899AABBCCDDEEFF


def main() -> None:
    aes = Netlist.from_file(ROOT / "circuits" / "aes_128.txt")
    print(repr(aes))
    print(f"in the clear: {aes.run(KEY, MESSAGE):032x}")

    # Every key bit travels under m0, every bit of the message under m1.
    masked = aes.mask([1] * 128 + [2] * 128)
    print(repr(masked.netlist))
    print(f"certified: {masked.certify()}")

    # Two fresh random bits for each run; what comes out is masked too, and the masks are taken off at the end.
    for _ in range(3):
        assert masked.run(KEY, MESSAGE) == aes.run(KEY, MESSAGE)
    print(f"under masks:  {masked.run(KEY, MESSAGE, masks=(1, 0)):032x}")

    try:
        masked.check()
    except Refusal as refusal:
        print(f"a check of all settings of 256 bits is {refusal}")


if __name__ == "__main__":
    main()
