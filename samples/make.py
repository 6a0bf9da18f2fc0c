#!/usr/bin/env python3
"""Writes the samples beside this script, which docs/BENCH.md explains byte by byte: example12.bin, power_cut.bin and paired.bin."""

import pathlib

PAGE_BYTES = 1024


def page(text):
    """The bytes in hex, then 255 to the end of the page."""
    return bytes.fromhex(text).ljust(PAGE_BYTES, b"\xff")


EXAMPLE_12 = page("01 00 01 16  01 00 00 17  FF FF FF FF  05 00 41 14  07 00 C8 12  05 00 42 14") + page("01 00 01 16")

# Then 201 was to be written to address 7, and power failed after the first half of its record, in slot 3.
POWER_CUT = EXAMPLE_12[:24] + bytes.fromhex("07 00") + EXAMPLE_12[26:]

# A store of the second edition. The code 7 1 3 9 was written as a group, in slots 0 to 5. Then 5 8 2 6 was to be written over
# it, and power failed after the first half of the second record, in slot 8.
CODE = "FF FF 04 07  10 00 07 14  11 00 01 15  12 00 03 14  13 00 09 13  FF FF 84 06"
CUT_CODE = "FF FF 04 07  10 00 05 15  11 00"
PAIRED = page(f"01 00 02 16  01 00 00 17  FF FF FF FF  {CODE}  {CUT_CODE}") + page("01 00 02 16")

SAMPLES = {"example12": EXAMPLE_12, "power_cut": POWER_CUT, "paired": PAIRED}

if __name__ == "__main__":
    for name, image in SAMPLES.items():
        (pathlib.Path(__file__).parent / (name + ".bin")).write_bytes(image)
